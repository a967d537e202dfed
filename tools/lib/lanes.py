"""What the picture and the trace draw: what each job and each thread did at any time, and what was used of the window."""
from lib.records import RESUME, ROUND_ROBIN, TICK
from lib.scheduler import NOBODY

# `ELSEWHERE` is ready, on other cores alone; a job is never that. A job that is `BLOCKED` sleeps: none of its threads competes here.
RUNNING, READY, ELSEWHERE, BLOCKED, ABSENT = "running", "ready", "elsewhere", "blocked", "absent"


class Track:
    """A state that changes: what it is from each time on."""

    def __init__(self):
        self.changes = [(0, ABSENT)]

    def set(self, time, state):
        if self.changes[-1][1] == state:
            return
        if self.changes[-1][0] == time:  # what lasted no time is not kept
            self.changes.pop()
        if not self.changes or self.changes[-1][1] != state:
            self.changes.append((time, state))

    def spans(self, end):
        """Start, end and state of each piece up to the day's end."""
        for (start, state), (stop, _) in zip(self.changes, self.changes[1:] + [(end, None)]):
            if start < stop:
                yield start, stop, state


class Lanes:
    """Collected step by step: a track for each job and for each thread of each job, `used` as corners of a line, and single moments."""

    def __init__(self, sheet):
        self.jobs = [Track() for _ in sheet.shares]
        self.threads = {}        # by partition and number: a number may come back in another partition
        self.policies = {}       # by partition and number: the policies that such threads were created with
        self.home = {}           # the partition of each thread that exists
        self.used = [[(0, 0)] for _ in sheet.shares]
        self.ticks, self.resumes, self.refusals = [], [], []
        self.moves = []          # in the line: the time, the thread's partition and number, and what moved it
        self.idle = Track()
        self.running = NOBODY
        self.end = 0

    def take(self, step):
        if not step.accepted:
            self.refusals.append((step.end, step))
            return
        self.end = step.end
        if step.event.kind == TICK:
            self.ticks.append(step.end)
        elif step.event.kind == RESUME:
            self.resumes.append(step.end)
        self.take_used(step)
        self.take_states(step)
        if step.scheduler.moved is not None:
            number, move = step.scheduler.moved
            self.moves.append((step.end, (self.home[number], number), move))

    def close(self):
        """Nothing is left open: a piece without an end goes on to the end of the day."""

    def take_used(self, step):
        """While a job runs its line rises; at a tick, and at a resume, it may fall."""
        for partition, (line, used) in enumerate(zip(self.used, step.scheduler.used)):
            before = line[-1][1]
            risen = before + (step.end - step.start if partition == step.ran else 0)
            if risen != before:
                line += [(step.start, before), (step.end, risen)]
            if used != risen:
                line += [(step.end, risen), (step.end, used)]

    def take_states(self, step):
        scheduler, now = step.scheduler, step.end
        named = step.event.thread
        if named in scheduler.threads:
            self.home[named] = scheduler.threads[named].partition
            self.policies.setdefault((self.home[named], named), set()).add(scheduler.threads[named].policy)
        for number in {named, self.running, scheduler.running}:
            if number in self.home:
                self.threads.setdefault((self.home[number], number), Track()).set(now, state_of(scheduler, number))
        self.running = scheduler.running
        for partition, track in enumerate(self.jobs):
            track.set(now, RUNNING if partition == scheduler.running_partition() else READY if partition in scheduler.competing else BLOCKED)
        self.idle.set(now, RUNNING if scheduler.running == NOBODY else ABSENT)

    def title(self, thread):
        """What the lane of a thread is called, by partition and number. A number that comes back in the same job goes on in the same lane."""
        policies = self.policies[thread]
        when = "" if ROUND_ROBIN not in policies else ", round robin" if len(policies) == 1 else ", at times round robin"
        return f"thread {thread[1]}{when}"


def state_of(scheduler, number):
    if number not in scheduler.threads:
        return ABSENT
    if number == scheduler.running:
        return RUNNING
    if not scheduler.threads[number].ready:
        return BLOCKED
    return READY if scheduler.allowed(number) else ELSEWHERE

