"""A share sheet: its settings, what follows from them, and the plain lines that stand for it.

    window 100
    tick 1000
    policy 0        0 default, 1 ratio; 0 if it is left out
    core 0          0 if it is left out
    edition 2       1 a quarter of a tick must remain of a budget, 2 half a tick; if it is left out the sheet does not state it, and means 1
    share 0 40      partition 0 has 40 percent
"""
from dataclasses import dataclass

from lib.errors import Mistake
from lib.text import count, lines_of, quoted, whole_number

RECORD = 12
# the records before the shares: the letter, and the name of the setting in plain lines
HEAD = (("W", "window"), ("C", "tick"), ("P", "policy"), ("M", "core"))
# the record that may come after these
EDITION = ("E", "edition")
LEFT_OUT = {"policy": 0, "core": 0, "edition": 1}
# what must remain of a budget in each edition: one part of so many of a tick, and in words
EDITIONS = {1: (4, "a quarter of a tick"), 2: (2, "half a tick")}
PARTITIONS = 16
LARGEST = 999_999


@dataclass(frozen=True)
class Sheet:
    """The settings of a sheet that is right. The tick is its length in cycles; the edition is 1 where it is not stated."""
    window: int
    tick: int
    policy: int
    core: int
    edition: int
    edition_stated: bool
    shares: tuple

    def budget(self, partition):
        """The cycles of a partition in a window."""
        return self.shares[partition] * self.window * self.tick // 100

    @property
    def other_edition(self):
        return 3 - self.edition

    def need(self, edition=None):
        """What must remain of a budget for the partition to have budget, in the sheet's edition or in another."""
        parts, _ = EDITIONS[edition or self.edition]
        return self.tick // parts

    def need_in_words(self, edition=None):
        _, words = EDITIONS[edition or self.edition]
        return f"{words} ({count(self.need(edition))} cycles)"

    def bound(self, partition):
        """What demand 3 promises in a stretch; nothing where it is not above 0. Each other partition may overdraw by a tick less what must remain."""
        return self.budget(partition) - (self.tick - self.need()) * (len(self.shares) - 1)

    def stretch(self):
        """How long the stretches of demand 3 are, in ticks."""
        return 2 * self.window


def states_edition(data):
    """Whether the fifth record begins with E. That is looked at before anything else."""
    return data[len(HEAD) * RECORD:][:1] == b"E"


def head(stated):
    """The records before the shares, where the edition is stated and where it is not."""
    return (*HEAD, EDITION) if stated else HEAD


def read(data):
    """The settings of a sheet whose records have the right form."""
    values = [int(data[i + 5:i + 11]) for i in range(0, len(data), RECORD)]
    stated = states_edition(data)
    names = [name for _, name in head(stated)]
    return Sheet(**{**LEFT_OUT, **dict(zip(names, values))}, edition_stated=stated, shares=tuple(values[len(names):]))


def write(sheet):
    """The records of the settings."""
    settings = [(letter, 0, getattr(sheet, name)) for letter, name in head(sheet.edition_stated)]
    shares = [("S", partition, share) for partition, share in enumerate(sheet.shares)]
    return b"".join(b"%c %02d %06d\n" % (ord(letter), number, value) for letter, number, value in settings + shares)


def plain(sheet):
    """The plain lines of the settings."""
    settings = [f"{name} {getattr(sheet, name)}\n" for _, name in head(sheet.edition_stated)]
    return "".join(settings + [f"share {partition} {share}\n" for partition, share in enumerate(sheet.shares)])


def value(word, what):
    number = whole_number(word)
    if number is None:
        halves = ": halves do not exist here, and nothing is shortened" if "," in word or "." in word else ""
        raise Mistake(f"{what} is a whole number, and not {quoted(word)}{halves}")
    if number > LARGEST:
        raise Mistake(f"{what} has at most six digits, and {quoted(word)} has more")
    return number


def read_line(words, settings, shares):
    """Enters what a plain line says into the settings or the shares."""
    name = words[0]
    if name == "share" and len(words) == 3:
        place, key, into = value(words[1], "the partition"), f"share {words[1]}", shares
        if place >= PARTITIONS:
            raise Mistake(f"partitions are numbered 0 to {PARTITIONS - 1}, and this one {place}")
    elif name in dict(head(stated=True)).values() and len(words) == 2:
        place, key, into = name, name, settings
    else:
        raise Mistake("write it as: " + ", ".join(f"{name} N" for _, name in head(stated=True)) + " or share PARTITION PERCENT")
    if place in into:
        raise Mistake(f"{key} is there twice")
    into[place] = value(words[-1], key)


def read_plain(data):
    """The settings that a text file of plain lines gives; whether they are within their limits is for the program to say."""
    settings, shares = {}, {}
    for place, line in enumerate(lines_of(data), 1):
        words = line.split("#", 1)[0].split()
        try:
            if words:
                read_line(words, settings, shares)
        except Mistake as mistake:
            raise Mistake(f"line {place}: {mistake}")
    stated = "edition" in settings
    settings = {**LEFT_OUT, **settings}
    for name in dict(HEAD).values():
        if name not in settings:
            raise Mistake(f"there is no line for the {name}")
    if sorted(shares) != list(range(len(shares))):
        missing = next(p for p in range(PARTITIONS) if p not in shares)
        raise Mistake(f"there is no line 'share {missing} ..', and there are shares of higher partitions")
    return Sheet(**settings, edition_stated=stated, shares=tuple(shares[p] for p in range(len(shares))))
