"""A day's folder: shares.txt, day.txt or day.bin, and names.txt if there is one."""
from dataclasses import dataclass
from pathlib import Path

from lib import records
from lib.errors import Mistake, Usage
from lib.text import lines_of, quoted, whole_number

LONGEST_NAME = 40


@dataclass
class Day:
    """The records of a day, and where in day.txt each comes from; a recorded day has no text."""
    data: list
    places: list
    text: list

    def source(self, index):
        """Where the record stands, for a sentence."""
        return f"line {self.places[index]} of day.txt" if self.text else f"record {index + 1} of day.bin"


def read_bytes(path):
    return path.read_bytes() if path.is_file() else None


def read_sheet(folder):
    """The bytes of shares.txt; a missing file is an empty sheet, as it is to the desk."""
    return read_bytes(Path(folder) / "shares.txt") or b""


def read_day(folder):
    text, data = read_bytes(Path(folder) / "day.txt"), read_bytes(Path(folder) / "day.bin")
    if text is None and data is None:
        raise Usage(f"{folder} has neither day.txt nor day.bin")
    if text is None:
        return Day(records.split(data), [], [])
    lines = lines_of(text)
    try:
        made = records.encode_lines(lines)
    except Mistake as mistake:
        raise Mistake(f"day.txt, {mistake}")
    day = Day([part for _, part in made], [place for place, _ in made], lines)
    if data is not None and data != b"".join(day.data):
        raise Usage(f"{folder} has a day.txt and a day.bin that is not made from it: which one is the day?")
    return day


def numbered(count):
    """What the partitions are called where nobody named them."""
    return [f"partition {partition}" for partition in range(count)]


def read_names(folder, count):
    """The names of the partitions, by number, from names.txt: a line for each, its number and its name."""
    names, named = numbered(count), set()
    for place, line in enumerate(lines_of(read_bytes(Path(folder) / "names.txt") or b""), 1):
        words = line.split("#", 1)[0].split()
        try:
            if words:
                number = read_name(words, names)
                if number in named:
                    raise Mistake(f"partition {number} has a name already")
                named.add(number)
        except Mistake as mistake:
            raise Mistake(f"names.txt, line {place}: {mistake}")
    return names


def read_name(words, names):
    """Enters the name that a line gives, and answers the partition's number."""
    number, name = whole_number(words[0]), " ".join(words[1:])
    if number is None or not name:
        raise Mistake(f"a partition's number and its name are wanted, and not {quoted(' '.join(words))}")
    if number >= len(names):
        raise Mistake(f"the sheet has partitions 0 to {len(names) - 1}, and not {quoted(words[0])}")
    if len(name) > LONGEST_NAME:
        raise Mistake(f"a name has at most {LONGEST_NAME} characters, and this one {len(name)}")
    if name in names[:number] + names[number + 1:]:
        raise Mistake(f"another job is called {quoted(name)} already")
    names[number] = name
    return number
