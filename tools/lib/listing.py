"""Each event beside its line, in words."""
from lib import records
from lib.scheduler import LOWERED, MODES, NOBODY, RAISED


def meaning(step, day, names):
    """A line of the desk in words."""
    line = step.line
    if line.refusal:
        return f"REFUSED ({line.refusal}), {day.source(step.number - 1)}: {step.words}"
    if line.thread == NOBODY:
        return f"idle{place(step)}"
    return f"{names[line.partition]} runs (thread {line.thread}), {MODES[line.mode]}{tie(step)}{edition(step, names)}{turn(step)}{place(step)}"


def tie(step):
    """Several jobs were tied for best: the one that ran until the event won, or the one of the lowest number."""
    scheduler = step.scheduler
    if len(scheduler.tied) < 2:
        return ""
    return "; a tie, and it stays" if scheduler.favoured in scheduler.tied else "; a tie, and it has the lowest number"


def edition(step, names):
    """The decision turned on the edition that the sheet states: in the other one another job would run, or the mode would be another."""
    other = step.scheduler.otherwise()
    if other is None:
        return ""
    would = f"{names[other.partition]} would run" if other.partition != step.line.partition else f"it would be {MODES[other.mode]}"
    return f"; in edition {step.scheduler.sheet.other_edition} {would}"


def turn(step):
    """The event ended a slice, and so another thread of the same job runs now: before it the one whose slice ended was the job's choice."""
    ended, thread = step.scheduler.ended, step.line.thread
    if ended in (None, thread) or step.scheduler.threads[ended].partition != step.line.partition:
        return ""
    return f"; the slice of thread {ended} ended"


def place(step):
    """The event set a priority: what that did to the thread's place in the line."""
    change = step.scheduler.changed
    if change is None:
        return ""
    if not change.ready:
        return f"; thread {change.thread} is not ready and has no place"
    return {RAISED: f"; raised, thread {change.thread} went to the tail", LOWERED: f"; lowered, thread {change.thread} went to the head",
            None: f"; thread {change.thread} had this priority and stayed"}[change.move]


class Row:
    """One event, or several that one line of day.txt stands for and that got the same answer."""

    def __init__(self, step, text, words):
        self.first = self.last = step.number
        self.text, self.line, self.words = text, str(step.line), words

    def joins(self, other, day):
        """Whether a later row says the same of the next event of the same line of text."""
        return bool(day.text) and day.places[self.last - 1] == day.places[other.first - 1] and (self.line, self.words) == (other.line, other.words)

    def join(self, other):
        self.last, self.text = other.last, f"{self.text.split(' .. ')[0]} .. {other.text}"

    def shown(self):
        number = f"{self.first}" if self.first == self.last else f"{self.first}-{self.last}"
        return f"{number:>9}  {self.line}  {self.text:<46}  {self.words}"


class Listing:
    """The rows of a day, collected step by step: comments and empty lines of day.txt as they are, events with their answers."""

    def __init__(self, day, names):
        self.day, self.names = day, names
        self.place = 0      # how many lines of day.txt are done
        self.rows = []      # text, or a row that the next event may join

    def take(self, step):
        row = Row(step, records.decode_record(step.data), meaning(step, self.day, self.names))
        if self.day.text:
            self.remarks(self.day.places[step.number - 1])
        if self.rows and isinstance(self.rows[-1], Row) and self.rows[-1].joins(row, self.day):
            self.rows[-1].join(row)
        else:
            self.rows.append(row)

    def remarks(self, place):
        """What the lines of day.txt up to this one say to people: their comments, and the empty lines."""
        for line in self.day.text[self.place:place]:
            event, sign, comment = line.partition("#")
            if sign:
                self.rows.append(f"{'':9}  #{comment.rstrip()}")
            elif not event.strip():
                self.rows.append("")
        self.place = max(self.place, place)

    def close(self):
        self.remarks(len(self.day.text))

    def text(self):
        return [row if isinstance(row, str) else row.shown() for row in self.rows]


class Refused:
    """The refused events alone."""

    def __init__(self, day, names):
        self.day, self.names, self.rows = day, names, []

    def take(self, step):
        if not step.accepted:
            self.rows.append(f"event {step.number}: {meaning(step, self.day, self.names)}")

    def close(self):
        pass

    def text(self):
        return self.rows
