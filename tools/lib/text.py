"""How text files are read, and how numbers and tables are written, wherever a person reads them."""
import re

QUOTED = 60
# more digits than any number that is wanted has
DIGITS = 20


def lines_of(data):
    """The lines of a text file, with Unix, Windows or old Macintosh line ends, and with or without a byte order mark. What a terminal would obey
    instead of showing it is replaced."""
    marked = data[:2] in (b"\xff\xfe", b"\xfe\xff")
    lines = re.split("\r\n|\r|\n", data.decode("utf-16" if marked else "utf-8-sig", "replace"))
    if lines[-1] == "":
        lines.pop()
    return [re.sub("[\0-\x08\x0b-\x1f\x7f-\x9f]", "\ufffd", line) for line in lines]


def whole_number(word):
    """The number that a word of decimal digits says; None for any other word. Of a number too long for any use only the first digits count."""
    return int((word.lstrip("0") or "0")[:DIGITS]) if word.isascii() and word.isdigit() else None


def quoted(word):
    """A word that a person wrote, in a sentence about it."""
    return repr(word if len(word) <= QUOTED else word[:QUOTED] + "..")


def count(number):
    """A whole number with its thousands apart."""
    return f"{number:,}"


def counted(number, one, many):
    """How many there are of something."""
    return f"{count(number)} {one if number == 1 else many}"


def percent(part, whole):
    """Of a hundred, with one digit; nothing of nothing is 0."""
    return f"{100 * part / whole:.1f} %" if whole else "0.0 %"


def columns(rows, sides):
    """Rows of words as lines, each column as wide as its widest word, its words at the left (l) or right (r)."""
    widths = [max(len(row[i]) for row in rows) for i in range(len(sides))]
    for row in rows:
        words = [word.ljust(width) if side == "l" else word.rjust(width) for word, width, side in zip(row, widths, sides)]
        yield "  ".join(words).rstrip()
