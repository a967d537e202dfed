"""Why a share sheet is refused: the number by document 01's table, with the E record of document 02, (iv), and for each fault its line, its column
and its cause in a sentence.

The number is only foretold here. The proved program says it, and the tools that explain a sheet compare the two.
"""
from typing import NamedTuple

from lib import sheets
from lib.errors import Disagreement
from lib.sheets import EDITIONS, HEAD, PARTITIONS, RECORD

ORDER = "W, C, P, M, E where the edition is stated, then S 00, S 01 and so on"
# the places of the lines in that order are numbered from 1; that of the E line may stay empty
EDITION = len(HEAD) + 1
LAST = EDITION + PARTITIONS
MARK = b"\xef\xbb\xbf"


class Fault(NamedTuple):
    line: int
    column: int
    cause: str


class Found(NamedTuple):
    """The number that a sheet gets, 0 if it is right, and its faults."""
    number: int
    faults: list


def find(data):
    """The first number of document 01's table that fits, with the faults that explain it."""
    count, cut = divmod(len(data), RECORD)
    faults, before = form_faults(data), len(sheets.head(sheets.states_edition(data)))
    if cut or not before + 1 <= count <= before + PARTITIONS:
        return Found(1, faults)
    if faults:
        return Found(2, faults)
    sheet = sheets.read(data)
    for number, test in ((3, window_faults), (4, tick_faults), (5, choice_faults), (6, share_faults)):
        if faults := test(sheet):
            return Found(number, faults)
    return Found(0, [])


def explain(data, number):
    """The sentences for a sheet that the program refuses with this number. Lines with the same cause share a sentence."""
    found = find(data)
    if found.number != number:
        raise Disagreement(f"the program refuses the sheet with {number}, and the explanation would be for {found.number}")
    causes = {}
    for fault in found.faults:
        causes.setdefault(fault.cause, []).append(fault)
    for cause, places in causes.items():
        also = [str(fault.line) for fault in places[1:]]
        more = f" (and in line{'s' * (len(also) > 1)} {', '.join(also)})" if also else ""
        yield f"line {places[0].line}, column {places[0].column}{more}: {cause}"


# ---- numbers 1 and 2: the form of the records

def form_faults(data):
    """What keeps a file from being whole records in their order. There is a fault exactly if it gets number 1 or 2: a file without one is 5 to 20
    lines, or 6 to 21 with an E line, each of them the twelve bytes that are wanted in its place."""
    if fault := file_fault(data):
        return [fault]
    lines = data.split(b"\n")
    ended = lines[-1] == b""
    if ended:
        lines.pop()
    before = len(sheets.head(any(map(is_edition, lines))))
    faults, place = [], 1
    for number, line in enumerate(lines[:before + PARTITIONS + 1], 1):
        if place <= LAST or is_edition(line) or not is_record(line):
            faults += [Fault(number, column, cause) for column, cause in line_faults(number, place_of(place, line), line)]
        place = place_after(place, line)
    if not ended:
        faults.append(Fault(len(lines), len(lines[-1]) + 1, "the line feed at the end of the last line is missing: press Enter there, and save"))
    return faults + count_faults(lines, before)


def file_fault(data):
    """What is wrong with the file as a whole, so that its lines need not be looked at."""
    if not data:
        return Fault(1, 1, "the file is empty, or there is none")
    if data[:2] in (b"\xff\xfe", b"\xfe\xff") or (data[0:4:2] == b"\0\0") != (data[1:4:2] == b"\0\0"):
        return Fault(1, 1, "the file is saved as UTF-16, two bytes for each letter: save it as plain text (ASCII or UTF-8)")
    if b"\n" not in data and b"\r" in data:
        return Fault(1, data.index(b"\r") + 1, "the lines end with a carriage return alone: save the file with Unix line ends (LF)")
    return None


def count_faults(lines, before):
    """Too few lines or too many, with so many before the shares."""
    count, fewest, most = sum(map(is_record, lines)), before + 1, before + PARTITIONS
    if count < fewest:
        return [Fault(len(lines), 1, f"the sheet ends here, after {count} of at least {fewest} lines: {ORDER}")]
    if count > most:
        return [Fault(most + 1, 1, f"the sheet has {count} lines, and at most {most} are possible: "
                                   f"{before}, and a share for each of 1 to {PARTITIONS} partitions")]
    return []


def is_record(line):
    """Whether a line is meant as a record: it is not empty, and no comment."""
    return bool(line.strip()) and not line.startswith(b"#")


def is_edition(line):
    """Whether a line is meant as the E line."""
    return line[:1] in (b"E", b"e")


def place_of(place, line):
    """The place that a line is held to where this one comes next: that of the E line stays empty where another line comes."""
    return place + 1 if place == EDITION and not is_edition(line) else place


def place_after(place, line):
    """Which place comes next after a line, so that one line too many or too few is one fault. A line that is no record, or is for an earlier place,
    takes none, nor does an E line elsewhere than in its own; one for a later place leaves out those between."""
    if not is_record(line) or (is_edition(line) and place != EDITION):
        return place
    text = line[len(MARK):] if line.startswith(MARK) else line
    found = next((at for at in range(1, LAST + 1) if text.startswith(wanted(at)[0])), place_of(place, line))
    return max(found + 1, place)


def wanted(place):
    """The first five bytes of the line in this place, and what its number counts."""
    if place <= EDITION:
        letter, name = sheets.head(stated=True)[place - 1]
        return f"{letter} 00 ".encode(), name
    return f"S {place - EDITION - 1:02d} ".encode(), "share"


def line_faults(number, place, line):
    """What is wrong with a line, which stands here without its line feed, in the place that it has in the order: what an editor leaves at its ends,
    then the first wrong byte between. Each fault is a column and a cause."""
    start, name = wanted(place)
    skipped = 0
    if number == 1 and line.startswith(MARK):
        yield 1, "the file begins with a byte order mark, three bytes that no editor shows: save it as UTF-8 without one, or as ASCII"
        skipped = len(MARK)
    text = line[skipped:]
    if text.endswith(b"\r"):
        yield len(line), "a carriage return before the line feed: the file has Windows line ends; save it with Unix line ends (LF)"
        text = text[:-1]
    if text != text.rstrip(b" \t\r") and text.strip():
        text = text.rstrip(b" \t\r")
        yield skipped + len(text) + 1, "there is a space or tab at the end of the line: take it out"
    if misfit := start_fault(text, start) or value_fault(text[len(start):], start, name):
        column, cause = misfit
        yield skipped + column, cause


def start_fault(text, start):
    """The first wrong byte of the letter, the two digits and their spaces: its column and the cause."""
    if not text.strip():
        return 1, "the line is empty: take it out"
    if text.startswith(b"#"):
        return 1, "a sheet has no comments: take the line out"
    for at, byte in enumerate(start):
        if text[at:at + 1] == start[at:at + 1]:
            continue
        if at == 0 and text[:1].upper() == start[:1]:
            return 1, f"a capital {start[:1].decode()} is wanted here"
        if at == 0 and is_edition(text):
            return 1, "an E line can stand only right after the M line, and only once: take it out here"
        if at == 0:
            return 1, f"the {start[:1].decode()} line is wanted here, and not {shown(text[:1])}: the order of the lines is {ORDER}"
        if byte == ord(" "):
            return at + 1, f"a space is wanted here, and not {shown(text[at:at + 1])}"
        return at + 1, f"the line begins with '{start.decode()}', two digits and a space after the letter, and not with {shown(text[:5])}"
    return None


def value_fault(value, start, name):
    """The first wrong byte of the six digits: its column and the cause."""
    for at, byte in enumerate(value):
        if chr(byte) in "0123456789":
            continue
        column, here = len(start) + at + 1, shown(value[at:at + 1])
        if chr(byte) in ",." and name == "share":
            return column, (f"{here} in a share: half percents do not exist, and nothing is shortened; "
                            f"write a whole percent in six digits, as {start.decode()}000001 for 1 percent")
        if chr(byte) in ",.":
            return column, f"{here} in a number: it is whole, and written in six digits"
        if chr(byte) == "%":
            return column, "there is no percent sign in a sheet: the six digits alone"
        if chr(byte) in "OoIl":
            return column, f"the letter {chr(byte)} stands where a digit is wanted"
        return column, f"a digit is wanted here, and not {here}"
    if len(value) != 6:
        digits = value.lstrip(b"0")
        example = f", as in {start.decode()}{digits.decode():0>6}" if value and len(digits) <= 6 else ""
        return len(start) + min(len(value), 6) + 1, f"the number has {len(value)} digits, and six are wanted{example}"
    return None


def shown(part):
    """Bytes as a person may know them."""
    names = {b"": "the end of the line", b" ": "a space", b"\t": "a tab", b",": "a comma", b".": "a point", b"\r": "a carriage return"}
    if part in names:
        return names[part]
    if all(32 < byte < 127 or byte == 32 for byte in part):
        return f"'{part.decode()}'"
    return "the bytes " + part.hex(" ") if len(part) > 1 else "the byte " + part.hex()


# ---- numbers 3 to 6: limits. The value begins in column 6.

def window_faults(sheet):
    if 2 <= sheet.window <= 400:
        return []
    return [Fault(1, 6, f"the window is {sheet.window} ticks, and 2 to 400 are possible")]


def tick_faults(sheet):
    if 100 <= sheet.tick <= 999_900 and sheet.tick % 100 == 0:
        return []
    return [Fault(2, 6, f"a tick is {sheet.tick} cycles, and it must be a multiple of 100, from 100 to 999900")]


def choice_faults(sheet):
    faults = []
    if sheet.policy > 1:
        faults.append(Fault(3, 6, f"the policy is {sheet.policy}, and it is 0 (default) or 1 (ratio)"))
    if sheet.core > 7:
        faults.append(Fault(4, 6, f"the core is {sheet.core}, and it is 0 to 7"))
    if sheet.edition not in EDITIONS:
        faults.append(Fault(5, 6, f"the edition is {sheet.edition}, and it is 1 (a quarter of a tick must remain) or 2 (half a tick)"))
    return faults


def share_faults(sheet):
    first, total = len(sheets.head(sheet.edition_stated)) + 1, sum(sheet.shares)
    faults = [Fault(first + partition, 6, f"the share of partition {partition} is {share}, and no share is above 100")
              for partition, share in enumerate(sheet.shares) if share > 100]
    if total != 100:
        added = " + ".join(str(share) for share in sheet.shares)
        faults.append(Fault(first, 6, f"the shares add up to {total}, and not to 100: {added} = {total}"))
    return faults
