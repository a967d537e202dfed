"""A tool as a command: what it answers goes to standard output, and what keeps it from its work is told in a sentence and by the exit status."""
import os
import sys
from pathlib import Path

from lib.errors import Error, Usage

INTERRUPTED = 130  # as a shell has it: 128, and the number of the signal


def run(name, action):
    """Runs an action on the words of the call, and answers the exit status. The action answers its status, and its output as bytes, as text or as
    lines of text. All of its work is done before the first word is printed, so that the status holds also where nobody reads on."""
    try:
        status, output = action(sys.argv[1:])
        write_output(output)
        return status
    except Error as error:
        sentence, status = error, error.status
    except OSError as error:
        sentence, status = f"{error.filename}: {error.strerror}", Usage.status
    except KeyboardInterrupt:
        sentence, status = "interrupted", INTERRUPTED
    print(f"{name}: {sentence}", file=sys.stderr)
    return status


def write_output(output):
    if sys.stdout is None:
        raise Usage("standard output is closed")
    if isinstance(output, list):
        output = "".join(line + "\n" for line in output)
    if isinstance(output, str):
        output = output.encode(sys.stdout.encoding, "replace")
    try:
        with open(sys.stdout.fileno(), "wb", closefd=False) as stream:
            stream.write(output)
    except BrokenPipeError:
        pass  # whoever reads this has seen enough
    except OSError as error:
        raise Usage(f"standard output: {error.strerror}")


def read_input():
    if sys.stdin is None:
        raise Usage("standard input is closed")
    return sys.stdin.buffer.read()


def write_file(path, text):
    try:
        Path(path).write_text(text, encoding="utf-8", errors="replace")
    except OSError as error:
        raise Usage(f"{path}: {error.strerror}")
