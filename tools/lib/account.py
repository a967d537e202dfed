"""What a day gave to each job: charged, waited, and the stretches that demand 3 speaks of."""
from dataclasses import dataclass, field

from lib.errors import Disagreement
from lib.records import RESUME, TICK

# a tick period of a job, as a character
RAN, RAN_A_LITTLE, WAITED, SLEPT, RESUMED = "#+w.|"


def mark(charged, length, competed):
    """How a job spent a piece of time: it was charged half of it or more, or less, or nothing although it wanted the processor, or it slept."""
    if charged:
        return RAN if 2 * charged >= length else RAN_A_LITTLE
    return WAITED if competed else SLEPT


@dataclass
class Job:
    """A partition's account. Waiting is having a ready thread that this core may run, and not running."""
    charged: int = 0
    waited: int = 0
    wait: int = 0           # so far without a cycle
    longest: int = 0
    longest_end: int = 0    # the time at which the longest wait ended
    in_period: int = 0      # charged since the tick or resume before
    competed: bool = False  # at some time in this tick period
    throughout: bool = False  # at all times in it
    full: int = 0           # full tick periods in a row, up to the last tick, that it competed throughout
    at_ticks: list = field(default_factory=list)  # charged up to each tick
    stretches: int = 0
    least: int = None       # the least that it was charged in a stretch
    least_end: int = 0      # the number of that stretch's closing tick
    strip: list = field(default_factory=list)

    def spend(self, elapsed, ran, now):
        """Time in which the job wanted the processor, and ran or did not."""
        if ran:
            self.charged += elapsed
            self.in_period += elapsed
            self.wait = 0 if elapsed else self.wait
        else:
            self.waited += elapsed
            self.wait += elapsed
            if self.wait > self.longest:
                self.longest, self.longest_end = self.wait, now

    def close(self, character, on_time, stretch):
        """A tick ends a period. If it closes a stretch, that is counted."""
        self.strip.append(character)
        self.full = self.full + 1 if on_time and self.throughout else 0
        self.at_ticks.append(self.charged)
        if self.full >= stretch:
            self.stretches += 1
            charged = self.charged - self.at_ticks[-1 - stretch]
            if self.least is None or charged < self.least:
                self.least, self.least_end = charged, len(self.at_ticks)

    def open(self, competes):
        self.in_period, self.competed, self.throughout = 0, competes, competes


class Account:
    """The accounts of all jobs, kept step by step."""

    def __init__(self, sheet):
        self.sheet = sheet
        self.jobs = [Job() for _ in sheet.shares]
        self.events = self.refused = self.ticks = self.now = self.idle = 0
        self.opened = 0         # when this tick period began
        self.by_tick = False    # and whether a tick opened it; a stretch begins at a tick
        self.competing = set()  # as the event before left them
        self.ruler = []         # which tick ends the period of each character of the strips; 0 where none does

    def take(self, step):
        self.events += 1
        if not step.accepted:
            self.refused += 1
            return
        elapsed, self.now = step.end - step.start, step.end
        self.idle += elapsed if step.ran is None else 0
        for partition in self.competing:
            self.jobs[partition].spend(elapsed, partition == step.ran, step.end)
        if step.event.kind == TICK:
            self.tick()
        elif step.event.kind == RESUME:
            self.resume()
        self.competing = step.scheduler.competing
        begins = step.event.kind in (TICK, RESUME)
        for partition, job in enumerate(self.jobs):
            competes = partition in self.competing
            if begins:
                job.open(competes)
            elif competes:
                job.competed = True
            else:
                job.throughout = False
            if not competes:
                job.wait = 0

    def tick(self):
        length = self.now - self.opened
        for job in self.jobs:
            job.close(mark(job.in_period, length, job.competed), self.by_tick and length == self.sheet.tick, self.sheet.stretch())
        self.ticks += 1
        self.ruler.append(self.ticks)
        self.opened, self.by_tick = self.now, True

    def resume(self):
        """A resume starts over: no wait goes on behind it, and no stretch, because the next tick's period was not opened by a tick."""
        self.cut_period()
        for job in self.jobs:
            job.strip.append(RESUMED)
            job.wait = 0
        self.ruler.append(0)
        self.opened, self.by_tick = self.now, False

    def cut_period(self):
        """The piece of a tick period before a resume, or at the end of the day, has its character too."""
        if self.now > self.opened:
            self.ruler.append(0)
            for job in self.jobs:
                job.strip.append(mark(job.in_period, self.now - self.opened, job.competed))

    def close(self):
        """The day ends. The promise is proved: a day that breaks it shows that this account, or the program, is wrong."""
        self.cut_period()
        for partition, job in enumerate(self.jobs):
            if job.stretches and job.least < self.sheet.bound(partition):
                raise Disagreement(f"partition {partition} was charged {job.least} in the stretch that ends with tick {job.least_end}, "
                                   f"and {self.sheet.bound(partition)} are promised")
        if sum(job.charged for job in self.jobs) + self.idle != self.now:
            raise Disagreement("the charges and the idle time do not add up to the day")

    def starved(self, partition):
        """Whether the job once waited longer than a stretch without a cycle."""
        return self.jobs[partition].longest > self.sheet.stretch() * self.sheet.tick
