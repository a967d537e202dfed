"""Document 01's rules for one core, with the time slices of document 02, (i), the places after a changed priority, (ii), the ties of (iii) and the
editions of (iv), as plain as they can be said: what an event is refused for, what it charges and changes, and who runs next.

The tools need this to say why, and what was used. They never answer by it alone: replay.py holds every step to the line of the proved desk.
"""
from typing import NamedTuple

from lib import records
from lib.records import BLOCK, CREATE, END, FORMS, PRIORITY, READY, RESUME, ROUND_ROBIN, TICK
from lib.text import count

THREADS = 64
SLICE = 4
NOBODY = 255
IDLE, FREE_TIME, UNDERLOAD, AT_LIMIT = range(4)
MODES = ("idle", "free time", "underload", "at limit")
# what moves a thread that is in the line: its slice ended or it was raised, and it goes to the tail; or it was lowered, and it goes to the head
ENDED, RAISED, LOWERED = range(3)


class Refusal(NamedTuple):
    number: int
    words: str


class Decision(NamedTuple):
    mode: int
    partition: int
    thread: int


class Change(NamedTuple):
    """A set priority: the thread's priority before and after it, and whether the thread is ready, and so has a place in the line."""
    thread: int
    before: int
    after: int
    ready: bool

    @property
    def move(self):
        """How it moves the thread; None where the thread stays, or is not in the line."""
        if not self.ready or self.after == self.before:
            return None
        return RAISED if self.after > self.before else LOWERED


class Thread:
    """A thread that exists. Its slice is the ticks that are left of it; a thread that is not round robin has none. Its place in the line it has from
    the last thing that moved it there, or from becoming ready, which is None."""
    def __init__(self, partition, priority, mask, policy):
        self.partition, self.priority, self.mask, self.policy, self.ready, self.moved = partition, priority, mask, policy, False, None
        self.refill()

    @property
    def round_robin(self):
        return self.policy == ROUND_ROBIN

    def refill(self):
        self.slice = SLICE if self.round_robin else 0


class Standing(NamedTuple):
    """What is compared of a partition. `top` is None where it does not compete."""
    partition: int
    top: int
    used: int
    budget: int
    need: int

    @property
    def competing(self):
        return self.top is not None

    @property
    def remaining(self):
        return self.budget - self.used

    @property
    def has_budget(self):
        return self.remaining >= self.need


# ---- the order of partitions. A criterion is above 0 where the first standing is better than the second, below 0 where it is worse, and 0 where they
# are equal.

def by_budget(a, b):
    return a.has_budget - b.has_budget


def by_priority(a, b):
    return a.top - b.top


def by_fraction(a, b):
    """The smaller fraction used is better, by cross products; a budget of 0 is worse than every other."""
    if a.budget == 0 or b.budget == 0:
        return (a.budget > 0) - (b.budget > 0)
    return b.used * a.budget - a.used * b.budget


NAMES = {by_budget: "has budget", by_priority: "top priority", by_fraction: "fraction used"}


def criteria(mode, policy):
    """What partitions are compared by in a mode, first to last. Two that are equal in all of them are tied."""
    if mode == AT_LIMIT:
        return (by_fraction,)
    if mode == FREE_TIME and policy == 1:
        return (by_budget, by_fraction)
    return (by_budget, by_priority, by_fraction)


def settled(a, b, order):
    """The criterion that tells two standings apart, and how; None where they are tied."""
    for criterion in order:
        if difference := criterion(a, b):
            return criterion, difference
    return None


def mode_of(standings):
    competing = [s for s in standings if s.competing]
    if not competing:
        return IDLE
    if any(s.budget > 0 and not s.competing for s in standings):
        return FREE_TIME
    return UNDERLOAD if any(s.has_budget for s in competing) else AT_LIMIT


def tied_for_best(standings, order):
    """Those that compete and that none is better than, by number; one alone is the best and tied with nobody."""
    best = []
    for standing in (s for s in standings if s.competing):
        apart = best and settled(standing, best[0], order)
        if not best or (apart and apart[1] > 0):
            best = [standing]
        elif not apart:
            best.append(standing)
    return best


def winner(tied, favoured):
    """Of those tied for best the favoured partition, if it is one of them; otherwise the lowest number."""
    return next((s for s in tied if s.partition == favoured), tied[0])


class Scheduler:
    """The state after some accepted events."""

    def __init__(self, sheet):
        self.sheet = sheet
        self.budgets = [sheet.budget(p) for p in range(len(sheet.shares))]
        self.threads = {}
        self.line = []
        self.running = NOBODY
        self.favoured = None  # the partition that ran until the last accepted event; None where the processor idled
        self.tied = []        # the partitions that are tied for best in the decision after it, by number
        self.moved = None     # the thread that the last accepted event moved in the line, and what moved it
        self.changed = None   # the change that the last accepted event was, if it set a priority
        self.competing = set()
        self.stamp = 0
        self.forget()

    def forget(self):
        """The window as it is after a start or a resume: nothing used."""
        self.slot = self.since_tick = 0
        self.rows = [[0] * self.sheet.window for _ in self.budgets]
        self.used = [0] * len(self.budgets)

    def allowed(self, thread):
        """Whether this core may run it."""
        return self.threads[thread].mask >> self.sheet.core & 1 == 1

    @property
    def ended(self):
        """The thread whose slice the last accepted event ended."""
        return self.moved[0] if self.moved and self.moved[1] == ENDED else None

    def running_partition(self):
        return None if self.running == NOBODY else self.threads[self.running].partition

    def elapsed(self, event):
        return (event.stamp - self.stamp) % 2**32

    # ---- refusals, in document 01's order

    def refusal(self, data):
        """Why a record is refused, or None. 7 and 8 are for states and memory from elsewhere, and do not occur in a day."""
        if len(data) < records.LENGTH:
            return Refusal(14, f"the record is cut: {len(data)} of {records.LENGTH} bytes")
        event = records.read(data)
        return self.form_refusal(event) or self.time_refusal(event) or self.thread_refusal(event) or self.place_refusal(event) \
            or self.ready_refusal(event)

    def form_refusal(self, event):
        if event.kind not in FORMS:
            return Refusal(9, f"there is no kind {event.kind} of event")
        unused = [name for name in ("thread", "partition", "priority", "mask", "policy")
                  if name.upper() not in FORMS[event.kind] and getattr(event, name)]
        if unused or any(event.rest):
            return Refusal(9, f"a {FORMS[event.kind][0]} does not use its byte for {unused[0] if unused else 'later use'}, and that byte is not 0")
        return None

    def time_refusal(self, event):
        elapsed, most = self.elapsed(event), 2 * self.sheet.tick
        if event.kind == RESUME or self.since_tick + elapsed <= most:
            return None
        if elapsed >= 2**31:
            return Refusal(10, f"the clock goes back by {count(2**32 - elapsed)}")
        return Refusal(10, f"it would be {count(self.since_tick + elapsed)} cycles since the last tick, and two tick periods are {count(most)}: "
                           "a tick is missing, or a resume after a sleep")

    def thread_refusal(self, event):
        if event.kind in (TICK, RESUME):
            return None
        if event.thread >= THREADS:
            return Refusal(11, f"threads are numbered 0 to {THREADS - 1}, and this one {event.thread}")
        if event.kind == CREATE and event.thread in self.threads:
            return Refusal(11, f"there is a thread {event.thread} already")
        if event.kind != CREATE and event.thread not in self.threads:
            return Refusal(11, f"there is no thread {event.thread}")
        return None

    def place_refusal(self, event):
        if event.kind == CREATE and event.partition >= len(self.budgets):
            return Refusal(12, f"the sheet has partitions 0 to {len(self.budgets) - 1}, and not {event.partition}")
        if event.kind == CREATE and event.mask == 0:
            return Refusal(12, "its mask is 0: it could run on no core")
        if event.kind == CREATE and event.policy > ROUND_ROBIN:
            return Refusal(12, f"its policy is {event.policy}, and there are two: 0 (first in, first out) and 1 (round robin)")
        return None

    def ready_refusal(self, event):
        if event.kind == READY and self.threads[event.thread].ready:
            return Refusal(13, f"thread {event.thread} is ready already")
        if event.kind == BLOCK and not self.threads[event.thread].ready:
            return Refusal(13, f"thread {event.thread} is not ready, so it cannot block")
        return None

    # ---- an accepted event

    def charge(self, event):
        """Step 1: the elapsed time goes to the running thread's partition, which is the favoured one; idle time to no account. Answers how much it
        was."""
        elapsed = 0 if event.kind == RESUME else self.elapsed(event)
        self.favoured = self.running_partition()
        if self.favoured is not None:
            self.rows[self.favoured][self.slot] += elapsed
            self.used[self.favoured] += elapsed
        self.since_tick += elapsed
        self.stamp = event.stamp
        return elapsed

    def act(self, event):
        """Step 2: what the kind does."""
        self.moved = self.changed = None
        if event.kind == TICK:
            self.next_slot()
            self.count_down()
        elif event.kind == CREATE:
            self.threads[event.thread] = Thread(event.partition, event.priority, event.mask, event.policy)
        elif event.kind == READY:
            self.join(event.thread)
        elif event.kind == BLOCK:
            self.leave(event.thread)
        elif event.kind == PRIORITY:
            self.set_priority(event.thread, event.priority)
        elif event.kind == END:
            if self.threads[event.thread].ready:
                self.leave(event.thread)
            del self.threads[event.thread]
        elif event.kind == RESUME:
            self.forget()

    def next_slot(self):
        self.slot = (self.slot + 1) % self.sheet.window
        self.since_tick = 0
        for partition, row in enumerate(self.rows):
            self.used[partition] -= row[self.slot]
            row[self.slot] = 0

    def count_down(self):
        """A tick takes a whole step from the slice of the thread that ran until then, if it is round robin. At zero the slice is refilled, and the
        thread goes to the tail of the line."""
        thread = self.threads.get(self.running)
        if thread is None or not thread.round_robin:
            return
        thread.slice -= 1
        if thread.slice == 0:
            thread.refill()
            self.move(self.running, ENDED)

    def set_priority(self, number, priority):
        """A ready thread that is raised goes to the tail of the line, one that is lowered to its head, and one set to the priority it has stays. What
        is left of its slice is kept."""
        thread = self.threads[number]
        self.changed = Change(number, thread.priority, priority, thread.ready)
        thread.priority = priority
        if self.changed.move is not None:
            self.move(number, self.changed.move)

    def move(self, number, move):
        """Within the line: to its head if it was lowered, otherwise to its tail."""
        self.line.remove(number)
        self.line.insert(0 if move == LOWERED else len(self.line), number)
        self.threads[number].moved = move
        self.moved = number, move

    def join(self, number):
        thread = self.threads[number]
        thread.ready, thread.moved = True, None
        thread.refill()
        self.line.append(number)

    def leave(self, thread):
        self.threads[thread].ready = False
        self.line.remove(thread)

    # ---- the decision

    def tops(self):
        """The top priority of each partition that competes."""
        tops = {}
        for number in self.line:
            thread = self.threads[number]
            if self.allowed(number) and thread.priority >= tops.get(thread.partition, 0):
                tops[thread.partition] = thread.priority
        return tops

    def standings(self, edition=None):
        """What is compared of the partitions, in the sheet's edition or in another."""
        tops, need = self.tops(), self.sheet.need(edition)
        return [Standing(p, tops.get(p), self.used[p], budget, need) for p, budget in enumerate(self.budgets)]

    def candidates(self, best):
        """The threads of the best partition that may run and have its top priority, in the order of the line; the first is chosen."""
        return [t for t in self.line if self.allowed(t) and self.threads[t].partition == best.partition and self.threads[t].priority == best.top]

    def choose(self, standings):
        """The decision by these standings, and the partitions that are tied for best in it, by number."""
        mode = mode_of(standings)
        tied = tied_for_best(standings, criteria(mode, self.sheet.policy))
        if not tied:
            return Decision(IDLE, 0, NOBODY), []
        best = winner(tied, self.favoured)
        return Decision(mode, best.partition, self.candidates(best)[0]), [s.partition for s in tied]

    def decide(self):
        """Step 3: the decision, whose thread is the running one from now on."""
        standings = self.standings()
        self.competing = {s.partition for s in standings if s.competing}
        decision, self.tied = self.choose(standings)
        self.running = decision.thread
        return decision

    def otherwise(self):
        """Where the sheet states its edition and the decision turned on it: the decision that the other edition would give on the same accounts."""
        if not self.sheet.edition_stated:
            return None
        here, _ = self.choose(self.standings())
        there, _ = self.choose(self.standings(self.sheet.other_edition))
        return there if there != here else None
