"""A day again, event by event, beside the desk's lines. The lines are the judge: where the rules give anything else, the replay stops."""
from dataclasses import dataclass

from lib import records
from lib.errors import Disagreement
from lib.scheduler import Scheduler


@dataclass
class Step:
    """An event, the desk's line for it, and what it did. Times are cycles since the day began; time asleep is not among them."""
    number: int
    data: bytes
    event: records.Event
    line: tuple
    words: str
    start: int
    end: int
    ran: int
    scheduler: Scheduler

    @property
    def accepted(self):
        return self.line.refusal == 0


def replay(sheet, data, lines):
    """A step for each record. `event` is None in a cut one; `words` say why it was refused; between `start` and `end` the partition `ran` was
    charged, None if the core was idle; the scheduler is as it is after the event, and goes on with the next step."""
    if len(data) != len(lines):
        raise Disagreement(f"there are {len(data)} events and {len(lines)} lines")
    scheduler, now = Scheduler(sheet), 0
    for number, (part, line) in enumerate(zip(data, lines), 1):
        refusal = scheduler.refusal(part)
        if (refusal.number if refusal else 0) != line.refusal:
            raise Disagreement(f"event {number} ({records.decode_record(part)}): the desk answers '{line}', "
                               f"and by the tool's rules it is {f'refused with {refusal.number}' if refusal else 'accepted'}")
        event = records.read(part) if len(part) == records.LENGTH else None
        if refusal:
            yield Step(number, part, event, line, refusal.words, now, now, None, scheduler)
            continue
        ran, start = scheduler.running_partition(), now
        now += scheduler.charge(event)
        scheduler.act(event)
        decision = scheduler.decide()
        if decision != line[1:]:
            raise Disagreement(f"event {number} ({records.decode_record(part)}): the desk answers '{line}', "
                               "and by the tool's rules it is mode %d, partition %d, thread %d" % decision)
        yield Step(number, part, event, line, "", start, now, ran, scheduler)


def read(sheet, data, lines, readers):
    """Shows a whole day to its readers, each of which takes the steps and is then closed."""
    for step in replay(sheet, data, lines):
        for reader in readers:
            reader.take(step)
    for reader in readers:
        reader.close()
