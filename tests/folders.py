"""Days for the tests of tools/day: folders with a sheet and events, and what follows from events and lines by document 01's own words.

`Judged` goes over a day once for each question, as the paper puts it, with none of the tool's code: it is slow and plain on purpose.
"""
import random
import subprocess
from collections import Counter
from fractions import Fraction
from pathlib import Path
from typing import NamedTuple

from records import record

ROOT = Path(__file__).resolve().parent.parent
TOOL = ROOT / "tools/day"
DESK = ROOT / "target/bin/desk"
VECTORS = ROOT / "tests/vectors"
# document 01's run: W 4, C 1000, shares 50 and 50
WORKED_SHEET = b"W 00 000004\nC 00 001000\nP 00 000000\nM 00 000000\nS 00 000050\nS 01 000050\n"
WORKED_TEXT = """0 create 0 partition 0 priority 10 mask 1
0 create 1 partition 1 priority 20 mask 1
0 ready 0
0 ready 1
1000 tick
2000 tick
3000 tick
4000 tick
4500 ready 1
7000 tick
"""


# by the edition of document 02, (iv), None where it is not stated: how many quarters of a tick must remain of a budget, and how many a partition loses
# in demand 3 for each other one
REMAINING = {None: 1, 1: 1, 2: 2}
LOST = {None: 3, 1: 3, 2: 2}


def sheet_of(window, tick, shares, policy=0, core=0, edition=None):
    head = "W 00 %06d\nC 00 %06d\nP 00 %06d\nM 00 %06d\n" % (window, tick, policy, core)
    head += "" if edition is None else "E 00 %06d\n" % edition
    return (head + "".join("S %02d %06d\n" % s for s in enumerate(shares))).encode()


class Settings(NamedTuple):
    window: int
    tick: int
    policy: int
    core: int
    edition: int
    shares: list

    def budget(self, p):
        return self.shares[p] * self.window * self.tick // 100

    def bound(self, p):
        return self.budget(p) - (len(self.shares) - 1) * LOST[self.edition] * self.tick // 4


def settings_of(sheet):
    """What a sheet says."""
    values = [int(sheet[i + 5:i + 11]) for i in range(0, len(sheet), 12)]
    edition = values.pop(4) if sheet[48:49] == b"E" else None
    return Settings(*values[:4], edition, values[4:])


def fill(folder, sheet=None, text=None, data=None, names=None):
    """Writes a day's files into a folder, and answers it."""
    folder = Path(folder)
    folder.mkdir(parents=True, exist_ok=True)
    for name, content in (("shares.txt", sheet), ("day.txt", text), ("day.bin", data), ("names.txt", names)):
        if content is not None:
            (folder / name).write_bytes(content.encode() if isinstance(content, str) else content)
    return folder


def show(folder, *words, tool=TOOL):
    return subprocess.run([tool, folder, *words], stdout=subprocess.PIPE, stderr=subprocess.PIPE, text=True, timeout=120)


def table(text):
    """The rows of the table in the tool's summary, by job, as lists of words; two blanks or more stand between columns."""
    lines = text.splitlines()
    first = next(i for i, line in enumerate(lines) if line.split()[:2] == ["job", "share"])
    rows = {}
    for line in lines[first + 1:lines.index("", first)]:
        cells = [cell for cell in line.split("  ") if cell]
        rows[cells[0].strip()] = [cell.strip() for cell in cells[1:]]
    return rows


def random_day(seed, window, tick, count, threads, length, priorities=range(256), policies=(0,), apart=1):
    """Events of a day whose ticks are mostly on time, in which threads mostly stay ready, with a resume, late ticks and refusals here and there.
    Stamps between ticks are multiples of `apart` cycles after the tick: where that is much, jobs have often used the same."""
    draw, draw_policy = random.Random(seed), random.Random(seed + 1)
    events = [record(2, 0, t, t % count, draw.choice(priorities), draw.choice((1, 1, 1, 3, 2)), draw_policy.choice(policies)) for t in range(threads)]
    events += [record(3, 0, t) for t in range(threads) if draw.random() < 0.9]
    now = 0
    for _ in range(length):
        end = now + (tick if draw.random() < 0.99 else draw.choice((tick // 2, 2 * tick)))
        for stamp in sorted(draw.randrange(now, end + 1, apart) for _ in range(draw.choice((0, 0, 1, 2)))):
            thread, kind = draw.randrange(threads), draw.choice((3, 3, 3, 4, 5, 6, 2))
            if kind == 6 and draw.random() < 0.8:
                kind = 3
            partition = draw.randrange(count) if kind == 2 else 0
            priority = draw.choice(priorities) if kind in (2, 5) else 0
            events.append(record(kind, stamp, thread, partition, priority, int(kind == 2), draw_policy.choice(policies) if kind == 2 else 0))
            now = stamp
        now = end
        events.append(record(1, now))
        if draw.random() < 0.004:
            now += draw.randrange(10**6)
            events.append(record(7, now))
    return b"".join(events)


class Judged:
    """What a day's events and lines say, accepted event by accepted event."""

    def __init__(self, sheet, data, lines):
        self.settings = settings_of(sheet)
        self.window, self.tick, self.shares = self.settings.window, self.settings.tick, self.settings.shares
        self.kinds, self.elapsed, self.ran, self.waiting = [], [], [], []
        known, old, running = {}, 0, None
        for at, line in enumerate(lines):
            event = data[12 * at:12 * at + 12]
            if line[:2] != b"00":
                continue
            kind, thread, partition, _, mask = event[0], event[1], event[2], event[3], event[8]
            stamp = int.from_bytes(event[4:8], "little")
            self.kinds.append(kind)
            self.elapsed.append(0 if kind == 7 else (stamp - old) % 2**32)
            self.ran.append(running)            # whom the elapsed time of this event was charged to
            known[thread] = {2: [partition, mask, False], 6: None}.get(kind, known.get(thread))
            if kind in (3, 4):
                known[thread][2] = kind == 3
            # who wants the processor after this event
            self.waiting.append({t[0] for t in known.values() if t and t[2] and t[1] >> self.settings.core & 1})
            old, running = stamp, None if line[3:4] == b"0" else int(line[5:7])

    def charged(self, p):
        return sum(e for e, r in zip(self.elapsed, self.ran) if r == p)

    def whole(self):
        return sum(self.elapsed)

    def wanted(self, p):
        """Whether p wanted the processor in the time before each event."""
        return [p in w for w in [set()] + self.waiting[:-1]]

    def waited(self, p):
        return sum(e for e, r, w in zip(self.elapsed, self.ran, self.wanted(p)) if w and r != p)

    def longest(self, p):
        """The longest time that it wanted the processor and got nothing; a resume starts over."""
        best = wait = 0
        for kind, elapsed, ran, wanted in zip(self.kinds, self.elapsed, self.ran, self.wanted(p)):
            wait = 0 if kind == 7 or not wanted or (ran == p and elapsed) else wait + elapsed
            best = max(best, wait)
        return best

    def bound(self, p):
        return self.settings.bound(p)

    def stretches(self, p):
        """What p was charged in each stretch in which it always wanted the processor."""
        ticks = [i for i, kind in enumerate(self.kinds) if kind == 1]
        for opening, closing in zip(ticks, ticks[2 * self.window:]):
            within = [i for i in ticks if opening <= i <= closing]
            on_time = all(sum(self.elapsed[a + 1:b + 1]) == self.tick for a, b in zip(within, within[1:]))
            if on_time and 7 not in self.kinds[opening:closing] and all(p in w for w in self.waiting[opening:closing]):
                yield sum(e for e, r in zip(self.elapsed[opening + 1:closing + 1], self.ran[opening + 1:closing + 1]) if r == p)


def slices(data, lines):
    """For each event, from events and lines alone, as document 02, (i), puts it: the thread whose slice it ended, or None, and what is left then of
    the slice of the thread that runs, 0 if it is not round robin."""
    policies, left, running = {}, {}, None
    for at, line in enumerate(lines):
        ended, event = None, data[12 * at:12 * at + 12]
        if line[:2] == b"00":
            kind, thread, policy = event[0], event[1], event[9]
            if kind == 2:
                policies[thread] = policy
            if kind in (2, 3):
                left[thread] = 4
            if kind == 1 and policies.get(running) == 1:
                left[running] -= 1
                if left[running] == 0:
                    left[running], ended = 4, running
            running = None if line[3:4] == b"0" else int(line[8:11])
        yield ended, left[running] if policies.get(running) == 1 else 0


def places(data, lines):
    """For each event, from events and lines alone, as document 01's table and document 02, (i) and (ii), put it: what a set priority did to its
    thread (`raised`, `lowered`, `same` or `unready`), the thread, and its priority before and after, or None for every other event; the line then;
    and those in it whose place comes from being raised, and from being lowered."""
    line, priorities, moved = [], {}, {}
    for at, (text, (ended, _)) in enumerate(zip(lines, slices(data, lines))):
        did, (kind, thread, _, priority) = None, data[12 * at:12 * at + 4].ljust(4, b"\0")
        others = [t for t in line if t != thread]
        if text[:2] == b"00" and kind == 3:
            line, moved[thread] = line + [thread], "ready"
        elif text[:2] == b"00" and kind in (4, 6):
            line = others
        elif text[:2] == b"00" and kind == 5:
            before = priorities[thread]
            word = "unready" if thread not in line else "same" if priority == before else "raised" if priority > before else "lowered"
            did = word, thread, before, priority
            if word in ("raised", "lowered"):
                line, moved[thread] = others + [thread] if word == "raised" else [thread] + others, word
        elif ended is not None:
            line, moved[ended] = [t for t in line if t != ended] + [ended], "ended"
        if text[:2] == b"00" and kind in (2, 5):
            priorities[thread] = priority
        yield did, line, [t for t in line if moved[t] == "raised"], [t for t in line if moved[t] == "lowered"]


class Account(NamedTuple):
    """What a decision is made from: the partition that ran until the last accepted event, None where the processor idled; what each partition has used
    of the window; and the threads in the line, each as its number, partition, mask and priority."""
    ran: int
    used: Counter
    ready: list


def accounts(sheet, data, lines):
    """For each event, from events and lines alone, as document 01 ("Charging and the window") puts it, the account after it. A refused event leaves it
    as it was."""
    settings = settings_of(sheet)
    known, charges, old, running = {}, [Counter()], 0, None  # charges: of each tick period since the last resume
    account = Account(None, Counter(), [])
    for at, (text, (_, line, _, _)) in enumerate(zip(lines, places(data, lines))):
        if text[:2] == b"00":
            kind, thread, partition, priority, *_, mask = data[12 * at:12 * at + 9]
            stamp = int.from_bytes(data[12 * at + 4:12 * at + 8], "little")
            charges[-1][running] += (stamp - old) % 2**32
            if kind == 7:
                charges = [Counter()]
            elif kind == 1:
                charges.append(Counter())
            elif kind == 2:
                known[thread] = thread, partition, mask, priority
            elif kind == 5:
                known[thread] = *known[thread][:3], priority
            account = Account(running, sum(charges[-settings.window:], Counter()), [known[t] for t in line])
            old, running = stamp, None if text[3:4] == b"0" else int(text[5:7])
        yield account


def ties(sheet, data, lines):
    """For each event the partition that ran until it, None where the processor idled, and those that are tied for best after it (document 02, (iii)).
    A refused event leaves both as they were."""
    settings = settings_of(sheet)
    for account in accounts(sheet, data, lines):
        yield account.ran, tied_for_best(settings, account, settings.edition)[1]


def editions(sheet, data, lines):
    """For each event mode, partition and thread as each edition of the budget test decides after it, by the edition's number (document 02, (iv))."""
    settings = settings_of(sheet)
    for account in accounts(sheet, data, lines):
        yield {edition: decided(settings, account, edition) for edition in (1, 2)}


def decided(settings, account, edition):
    """Mode, partition and thread: of those tied for best the one that ran, otherwise the lowest number; in it the first with the top priority."""
    mode, best = tied_for_best(settings, account, edition)
    if not best:
        return 0, 0, 255
    won = account.ran if account.ran in best else best[0]
    threads = [(-priority, at, t) for at, (t, p, mask, priority) in enumerate(account.ready) if p == won and mask >> settings.core & 1]
    return mode, won, min(threads)[2]


def tied_for_best(settings, account, edition):
    """The mode, and the partitions that no other is better than, of those with a ready thread that the core may run."""
    top, used = {}, account.used
    for _, partition, mask, priority in account.ready:
        if mask >> settings.core & 1:
            top[partition] = max(priority, top.get(partition, 0))
    if not top:
        return 0, []
    budgets = [settings.budget(p) for p in range(len(settings.shares))]
    has_budget = {p: 4 * (budgets[p] - used[p]) >= REMAINING[edition] * settings.tick for p in top}
    fraction = {p: Fraction(used[p], budgets[p]) if budgets[p] else float("inf") for p in top}
    mode = 1 if any(budget and p not in top for p, budget in enumerate(budgets)) else 2 if any(has_budget.values()) else 3
    if mode == 3:
        order = {p: (fraction[p],) for p in top}
    elif mode == 1 and settings.policy == 1:
        order = {p: (not has_budget[p], fraction[p]) for p in top}
    else:
        order = {p: (not has_budget[p], -top[p], fraction[p]) for p in top}
    return mode, [p for p in sorted(top) if order[p] == min(order.values())]


def desk_lines(folder, data):
    out = subprocess.run([DESK], cwd=folder, input=data, stdout=subprocess.PIPE, check=True, timeout=60).stdout
    return [out[i:i + 12] for i in range(0, len(out), 12)]
