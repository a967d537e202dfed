"""The two proved programs, and how their answers are read."""
import subprocess
from pathlib import Path
from typing import NamedTuple

from lib import records
from lib.errors import Failed
from lib.sheets import RECORD

ROOT = Path(__file__).resolve().parents[2]
# where the build leaves the programs in the repository, and where the archive for the laptop has them
PLACES = ("target/bin", "bin")
# the refusal numbers that a sheet can get; an event gets a higher one
SHEET_NUMBERS = range(1, 7)


class Line(NamedTuple):
    """A line of the desk program: a refusal, or 0 and the decision."""
    refusal: int
    mode: int
    partition: int
    thread: int

    def __str__(self):
        return "%02d %d %02d %03d" % self


def program(name):
    for place in PLACES:
        if (ROOT / place / name).exists():
            return ROOT / place / name
    raise Failed(f"there is no program {name} in {' or '.join(PLACES)}: `make run` builds it")


def run(name, data, folder=None):
    """What a program prints for what it is given."""
    path = program(name)
    try:
        done = subprocess.run([path], cwd=folder, input=data, stdout=subprocess.PIPE, stderr=subprocess.PIPE)
    except OSError as error:
        raise Failed(f"{path.name} does not run on this machine: {error.strerror}. It is for Linux on x86-64")
    if done.returncode or done.stderr:
        raise Failed(f"{path.name} ended with status {done.returncode}: {done.stderr.decode(errors='replace').strip()}")
    return done.stdout


def read_line(data):
    """The numbers of a line of twelve bytes."""
    line = Line(*(int(part) if part.isdigit() else -1 for part in (data[:2], data[3:4], data[5:7], data[8:11])))
    if f"{line}\n".encode() != data:
        raise Failed(f"{data!r} is no line of the desk program")
    return line


def check_sheet(data):
    """The number that checksheet gives a sheet; 0 where it prints the sheet back."""
    answer = run("checksheet", data)
    if len(answer) == RECORD:  # a sheet that is right has five records or more
        return read_line(answer).refusal
    if answer != data:
        raise Failed("checksheet printed another sheet than it was given")
    return 0


def run_desk(folder, stream):
    """The desk's lines for a stream of events, with the folder's shares.txt. A refused sheet gives one line and no more."""
    lines = [read_line(part) for part in records.split(run("desk", stream, folder))]
    if not sheet_refused(lines) and len(lines) != len(records.split(stream)):
        raise Failed(f"the desk printed {len(lines)} lines for {len(records.split(stream))} events")
    return lines


def sheet_refused(lines):
    return bool(lines) and lines[0].refusal in SHEET_NUMBERS
