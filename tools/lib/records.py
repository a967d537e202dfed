"""Event records of twelve bytes, and the lines of text that stand for them.

A line is the stamp, what happens, and its numbers by name; # starts a comment, empty lines are passed over. A create's policy is left out where it
is 0. `ticks` stands for many ticks: how many, and how many cycles lie between one and the next. A record that says nothing of this kind (an unknown
kind, a byte that should be zero, a cut last record) is written as `raw` with its bytes in hexadecimal, so that decode and then encode give back any
input whatever, byte for byte.
"""
from typing import NamedTuple

from lib.errors import Mistake
from lib.text import lines_of, quoted, whole_number

LENGTH = 12
TICK, CREATE, READY, BLOCK, PRIORITY, END, RESUME = range(1, 8)
# a create's policy; 0 is first in, first out
ROUND_ROBIN = 1

# How a kind is written after its stamp: a word in capitals is the number of that name. These are also the bytes that the kind uses: beside
# kind and stamp, all others are zero.
FORMS = {
    TICK: ("tick",),
    CREATE: ("create", "THREAD", "partition", "PARTITION", "priority", "PRIORITY", "mask", "MASK", "policy", "POLICY"),
    READY: ("ready", "THREAD"),
    BLOCK: ("block", "THREAD"),
    PRIORITY: ("priority", "THREAD", "to", "PRIORITY"),
    END: ("end", "THREAD"),
    RESUME: ("resume",),
}
# the end of a form that is not written where its number is 0, and may be left out where it is read
OPTIONAL = ("policy", "POLICY")
KINDS = {form[0]: kind for kind, form in FORMS.items()}
TICKS = ("ticks", "COUNT", "every", "PERIOD")
LIMITS = {"stamp": 2**32 - 1, "thread": 255, "partition": 255, "priority": 255, "mask": 255, "policy": 255, "count": 1_000_000,
          "period": 2**32 - 1}


class Event(NamedTuple):
    """A record's bytes, apart. `rest` is bytes 10 and 11."""
    kind: int
    thread: int
    partition: int
    priority: int
    stamp: int
    mask: int
    policy: int
    rest: bytes


def read(data):
    """The event of a whole record."""
    return Event(data[0], data[1], data[2], data[3], int.from_bytes(data[4:8], "little"), data[8], data[9], data[10:12])


def record(kind, stamp, thread=0, partition=0, priority=0, mask=0, policy=0):
    """The record of an event. A stamp is a counter reading of 32 bits, which wraps."""
    return bytes([kind, thread, partition, priority]) + (stamp % 2**32).to_bytes(4, "little") + bytes([mask, policy, 0, 0])


def split(data):
    """The records of a stream; the last one may be cut."""
    return [data[i:i + LENGTH] for i in range(0, len(data), LENGTH)]


def number(word, what):
    value = whole_number(word)
    if value is None:
        raise Mistake(f"{what} is a whole number, and not {quoted(word)}")
    if value > LIMITS[what]:
        raise Mistake(f"{what} is at most {LIMITS[what]}, and not {quoted(word)}")
    return value


def without_optional(form):
    return form[:-len(OPTIONAL)] if form[-len(OPTIONAL):] == OPTIONAL else form


def numbers(words, form):
    """The numbers among the words, by name, where the form has a word in capitals; the other words must be the form's."""
    short = without_optional(form)
    if len(words) not in (len(short), len(form)):
        raise Mistake("write it as: STAMP " + " ".join(short) + (f" [{' '.join(OPTIONAL)}]" if short != form else ""))
    found = {}
    for word, wanted in zip(words, form):
        if wanted.isupper():
            found[wanted.lower()] = number(word, wanted.lower())
        elif word != wanted:
            raise Mistake(f"{wanted!r} is wanted, and not {quoted(word)}")
    return found


def raw(words):
    try:
        data = bytes.fromhex("".join(words))
    except ValueError:
        raise Mistake("raw takes bytes in hexadecimal, two digits each")
    if not 1 <= len(data) <= LENGTH:
        raise Mistake(f"raw takes 1 to {LENGTH} bytes, and not {len(data)}")
    return data


def encode_line(text):
    """The records of a line that has no comment and is not empty."""
    words = text.split()
    if words[0] == "raw":
        return [raw(words[1:])]
    stamp = number(words[0], "stamp")
    if len(words) < 2:
        raise Mistake("a stamp alone: what happens?")
    name = words[1]
    if name == TICKS[0]:
        given = numbers(words[1:], TICKS)
        return [record(TICK, stamp + i * given["period"]) for i in range(given["count"])]
    if name not in KINDS:
        raise Mistake(f"{quoted(name)} is no event: {', '.join(KINDS)}, ticks or raw")
    return [record(KINDS[name], stamp, **numbers(words[1:], FORMS[KINDS[name]]))]


def encode_lines(lines):
    """The records of lines of text, each with the number of its line."""
    made = []
    for place, line in enumerate(lines, 1):
        line = line.split("#", 1)[0].strip()
        if not line:
            continue
        if made and len(made[-1][1]) < LENGTH:
            raise Mistake(f"line {place}: only the last record may be cut")
        try:
            made += [(place, data) for data in encode_line(line)]
        except Mistake as mistake:
            raise Mistake(f"line {place}: {mistake}")
    return made


def encode(data):
    """The records of a text file's bytes."""
    return b"".join(record for _, record in encode_lines(lines_of(data)))


def decode_record(data):
    """The text of a record; `raw` where it is none that the text can say."""
    if len(data) == LENGTH:
        event = read(data)
        form = FORMS.get(event.kind)
        if form:
            form = form if event.policy else without_optional(form)
            words = [str(getattr(event, word.lower())) if word.isupper() else word for word in form]
            text = " ".join([str(event.stamp)] + words)
            if encode_line(text) == [data]:
                return text
    return "raw " + data.hex()


def decode(data):
    return "".join(decode_record(part) + "\n" for part in split(data))
