#!/usr/bin/env python3
"""Document 01's example of the guarantee, on a hostile list of events: W 100, C 1000, four partitions, share 10: at least 7,750 cycles
in 200 ticks. The partition with 10 percent waits throughout, at the lowest priority, in every other list with two threads that take turns and are
raised and lowered to each other's priority; the others wake, sleep and change priority so as to run past their budgets. In every third list all have
one priority, and the waiting partition loses ties to others that ran. What was charged is worked out here from the events and the printed lines
alone. The same with edition 2 on the sheet (document 02, (iv)), where 10,000 less three times 500 are promised.

And two lists on which the bound is reached exactly, made for another scheduler. tests/vectors/tight: W 5, C 100, shares 70, 25 and 5; partition 0
waits throughout, is promised 350 less twice 75, and between the ticks at 1000 and 2000 gets 200, and not one more. tests/vectors/editions-tight: the
same with shares 60, 30 and 10 and edition 2, by which 300 less twice 50 are promised. The events of the first one with edition 2 on its sheet: 350 less
twice 50 are promised, and who decides by the quarter of a tick all the same gives 200.

    tests/guarantee.py DESK
"""
import random
import subprocess
import sys
import tempfile
from pathlib import Path

from folders import sheet_of, ties
from records import record

WINDOW, TICK = 100, 1000
SHARES = (40, 10, 25, 25)
WAITING, BOUND = 1, {None: 7750, 2: 8500}  # by the edition on the sheet
SECOND = 4  # the waiting partition's second thread
VECTORS = Path(__file__).resolve().parent / "vectors"
TIGHT_WINDOW, TIGHT_TICK, TIGHT_WAITING, TIGHT_BOUND = 5, 100, 0, 200
TIGHT_IN_EDITION_2 = 250


def hostile(rate, seed, rounds, policy, equal):
    """A list of events that works against the waiting partition; whether it is the worst there is, nobody has shown. In each round the others
    sleep for a window of ticks of double length, so that it is charged twenty times its budget. Then two of them wake above it and use
    the free time of the third, which wakes, with all of its budget, when the waiting partition has budget again. All that time, two windows of
    full ticks, they sleep, wake and change priority at odd moments, each in `rate` of a hundred periods, so that they run past their budgets. The
    policy is that of the threads; where it is round robin, two of the waiting partition take turns, and change their priority as often. Where all are
    equal, the others have the waiting partition's priority, and sleep and wake at ticks and halfway between them, so that there are ties."""
    draw, offsets = random.Random(seed), range(0, TICK, TICK // 2 if equal else 1)
    stamp = 2**32 - 50 * TICK
    events = [(7, record(7, stamp), stamp)]
    for partition in range(4):
        priority = 1 if equal or partition == WAITING else 100 + partition
        events.append((2, record(2, stamp, partition, partition, priority, 1, policy), stamp))
    events.append((3, record(3, stamp, WAITING), stamp))
    if policy == 1:
        events += [(2, record(2, stamp, SECOND, WAITING, 1, 1, policy), stamp), (3, record(3, stamp, SECOND), stamp)]
    for turn in range(rounds):
        for _ in range(WINDOW):
            stamp += 2 * TICK
            events.append((1, record(1, stamp), stamp))
        events += [(3, record(3, stamp, other), stamp) for other in (2, 3)]
        for period in range(2 * WINDOW + 10):
            awake = period > WINDOW - 7 + turn
            moves = [(draw.choice(offsets), 3, 0)] if period == WINDOW - 7 + turn else []
            for other in (0, 2, 3) if awake else (2, 3):
                if draw.random() < rate / 100:
                    away, back = sorted(draw.sample(offsets, 2))
                    moves += [(away, 4, other), (back, 3, other)]
                elif not equal and draw.random() < rate / 100:
                    moves.append((draw.choice(offsets), 5, other))
            if policy == 1 and draw.random() < rate / 100:
                moves.append((draw.choice(offsets), 5, draw.choice((WAITING, SECOND))))
            for offset, kind, other in sorted(moves):
                priority = 0 if kind != 5 else draw.randrange(2) if other in (WAITING, SECOND) else draw.randrange(2, 256)
                events.append((kind, record(kind, stamp + offset, other, priority=priority), stamp + offset))
            stamp += TICK
            events.append((1, record(1, stamp), stamp))
        events += [(4, record(4, stamp, other), stamp) for other in (0, 2, 3)]
    return events


def stretches(moments, lines, window, tick, waiting):
    """What the waiting partition is charged in each stretch: from a tick to the last of two windows after it, each a full tick period after the
    last. A moment is an event's kind and stamp; all events of the list are accepted."""
    ticks, full, total, runs, old = [], 0, 0, False, None
    for (kind, stamp), line in zip(moments, lines, strict=True):
        assert line[:2] == b"00", line
        if runs and kind != 7:
            total += stamp - old
        runs, old = line[3:4] != b"0" and int(line[5:7]) == waiting, stamp
        if kind == 1:
            full = full + 1 if ticks and stamp - ticks[-1][0] == tick else 0
            ticks.append((stamp, total))
            if full >= 2 * window:
                yield total - ticks[-1 - 2 * window][1]


def printed(desk, sheet, events):
    """The desk's lines for a sheet and events."""
    with tempfile.TemporaryDirectory() as folder:
        (Path(folder) / "shares.txt").write_bytes(sheet)
        out = subprocess.run([desk], cwd=folder, input=events, stdout=subprocess.PIPE, timeout=60, check=True).stdout
    return [out[i:i + 12] for i in range(0, len(out), 12)]


def lost_ties(sheet, data, lines):
    """How often the waiting partition was tied for best, and one of a higher number, which had run, went on."""
    return sum(WAITING in best and ran in best and WAITING < ran == int(line[5:7]) for line, (ran, best) in zip(lines, ties(sheet, data, lines)))


def tight(desk, name, change=lambda sheet: sheet):
    """The least that the waiting partition is charged in a stretch of a tight list."""
    sheet, events = change((VECTORS / name / "shares.txt").read_bytes()), (VECTORS / name / "events.bin").read_bytes()
    moments = [(events[i], int.from_bytes(events[i + 4:i + 8], "little")) for i in range(0, len(events), 12)]
    return min(stretches(moments, printed(desk, sheet, events), TIGHT_WINDOW, TIGHT_TICK, TIGHT_WAITING))


def beset(desk, edition):
    """What the waiting partition is charged in each stretch of the hostile lists, under both policies; and whether its second thread ran, and how often
    it lost a tie."""
    found, took_turns, lost = [], False, 0
    for policy in (0, 1):
        sheet = sheet_of(WINDOW, TICK, SHARES, policy, edition=edition)
        for seed in range(140):
            events = hostile(seed % 7, seed, 6, seed % 2, seed % 3 == 0)
            data = b"".join(e[1] for e in events)
            lines = printed(desk, sheet, data)
            took_turns |= any(line[8:11] == b"%03d" % SECOND for line in lines)
            lost += lost_ties(sheet, data, lines) if seed == 0 else 0  # of one list for each policy: it takes a second
            found += stretches([(kind, stamp) for kind, _, stamp in events], lines, WINDOW, TICK, WAITING)
    return found, took_turns, lost


def main():
    desk, wrong = Path(sys.argv[1]).resolve(), 0
    for edition, bound in BOUND.items():
        found, took_turns, lost = beset(desk, edition)
        with_edition = f" with edition {edition}" if edition else ""
        print(f"guarantee: at least {min(found)} cycles in each of {len(found)} stretches of 200 ticks{with_edition}; {bound} are promised")
        if not took_turns:
            print(f"guarantee: the waiting partition's second thread never ran{with_edition}")
        if not lost:
            print(f"guarantee: the waiting partition never lost a tie to one of a higher number{with_edition}")
        wrong += min(found) < bound or not took_turns or not lost
    for name in ("tight", "editions-tight"):
        least = tight(desk, name)
        print(f"guarantee: {least} cycles in the tightest stretch of {2 * TIGHT_WINDOW} ticks of {name}; {TIGHT_BOUND} are promised")
        wrong += least != TIGHT_BOUND
    least = tight(desk, "tight", lambda sheet: sheet[:48] + b"E 00 000002\n" + sheet[48:])
    print(f"guarantee: {least} cycles there in edition 2; {TIGHT_IN_EDITION_2} are promised")
    sys.exit(bool(wrong) or least < TIGHT_IN_EDITION_2)


if __name__ == "__main__":
    main()
