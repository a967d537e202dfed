#!/usr/bin/env python3
"""Runs the desk program beside what another scheduler printed, and on input that comes in odd ways.

    tests/desk.py DESK REFERENCE    the two desk programs: ours, and the second scheduler's
"""
import random
import resource
import select
import subprocess
import sys
import tempfile
import time
from pathlib import Path

from records import record

VECTORS = Path(__file__).resolve().parent / "vectors"
SHEET = b"W 00 000004\nC 00 001000\nP 00 000000\nM 00 000000\nS 00 000050\nS 01 000050\n"
# the longest sheet: an edition (document 02, (iv)), and 16 partitions
LONGEST = SHEET[:48] + b"E 00 000002\n" + b"".join(b"S %02d %06d\n" % (p, 85 if p == 0 else 1) for p in range(16))


def run(program, sheet, events, piece=0, memory=None):
    """What the program prints for a sheet (None: no file; Path: a folder in its place) and events, fed in pieces of so many bytes."""
    with tempfile.TemporaryDirectory() as folder:
        if sheet is Path:
            (Path(folder) / "shares.txt").mkdir()
        elif sheet is not None:
            (Path(folder) / "shares.txt").write_bytes(sheet)
        if not piece:
            done = subprocess.run([program], cwd=folder, input=events, stdout=subprocess.PIPE, stderr=subprocess.PIPE, timeout=120,
                                  preexec_fn=memory and (lambda: resource.setrlimit(resource.RLIMIT_AS, (memory, memory))))
            return done.stdout, done.stderr
        process = subprocess.Popen([program], cwd=folder, stdin=subprocess.PIPE, stdout=subprocess.PIPE, stderr=subprocess.PIPE)
        for at in range(0, len(events), piece):
            process.stdin.write(events[at:at + piece])
            process.stdin.flush()
            time.sleep(0.002)
        process.stdin.close()
        return process.stdout.read(), process.stderr.read()


def told(program, sheet, events, waits):
    """What the program prints before each next piece is sent: the pieces' lines, each awaited for so long; no line is awaited after a cut piece."""
    with tempfile.TemporaryDirectory() as folder:
        (Path(folder) / "shares.txt").write_bytes(sheet)
        with subprocess.Popen([program], cwd=folder, stdin=subprocess.PIPE, stdout=subprocess.PIPE, bufsize=0) as process:
            lines, held = [], 0
            for piece in events:
                process.stdin.write(piece)
                held += len(piece)
                line = b""
                while len(line) < held // 12 * 12 and select.select([process.stdout], [], [], waits)[0]:
                    line += process.stdout.read(held // 12 * 12 - len(line))
                held %= 12
                early = select.select([process.stdout], [], [], 0.02)[0] if held else []
                lines.append(line + (b"a line before its event was whole" if early else b""))
            process.stdin.close()
            lines.append(process.stdout.read())
            return lines


def busy(count):
    """A long stream of ticks, wakes, sleeps and new priorities, some of them refused, of threads of which some take turns. Now and then the clock
    jumps, and what comes then is refused until a resume."""
    draw = random.Random(count)
    events = [record(2, 0, t, t % 2, draw.randrange(2), 1, int(t < 6)) for t in range(8)]
    stamp = 0
    while len(events) < count:
        stamp += draw.choice((0, 100, 200, 400)) if draw.random() < 0.99 else 3000
        thread = draw.randrange(9)
        kind = draw.choice((1, 3, 4, 5)) if draw.random() < 0.95 else 7
        events.append(record(kind, stamp, thread * (kind in (3, 4, 5)), priority=draw.randrange(2) * (kind == 5)))
    return b"".join(events)


def main():
    desk, reference = (Path(p).resolve() for p in sys.argv[1:3])
    wrong, tried = [], 0

    def check(name, got, expected):
        nonlocal tried
        tried += 1
        if got != (expected, b""):
            wrong.append(name)
            print(f"desk: {name}: expected {expected[:60]!r}, got {got[0][:60]!r} and {got[1][:60]!r} on standard error")

    runs = sorted(p for p in VECTORS.iterdir() if p.is_dir())
    for folder in runs:
        sheet = folder / "shares.txt"
        check(f"run {folder.name}", run(desk, sheet.read_bytes() if sheet.exists() else None, (folder / "events.bin").read_bytes()),
              (folder / "expected.txt").read_bytes())

    # a missing sheet, one that cannot be read, and one far too long are each refused with 1, and no event is answered
    refused = b"01 0 00 000\n"
    check("no shares.txt", run(desk, None, record(1, 0)), refused)
    check("a folder called shares.txt", run(desk, Path, record(1, 0)), refused)
    check("a sheet of a megabyte", run(desk, SHEET * 14000, record(1, 0)), refused)
    check("S 01 0000,5", run(desk, SHEET[:60] + b"S 01 0000,5\n", record(1, 0)), b"02 0 00 000\n")
    # the longest sheet is taken, and a record more is refused; so is one of its length without the edition
    check("21 records", run(desk, LONGEST, record(1, 0)), b"00 0 00 255\n")
    check("22 records", run(desk, LONGEST + b"S 16 000000\n", record(1, 0)), refused)
    check("22 records and more", run(desk, LONGEST + b"S 16 000000\nS 17 000000\n", record(1, 0)), refused)
    check("21 records without an edition", run(desk, LONGEST[:48] + LONGEST[60:] + b"S 16 000000\n", record(1, 0)), refused)

    # no events, and a cut last one
    check("no events", run(desk, SHEET, b""), b"")
    check("one byte", run(desk, SHEET, b"\x01"), b"14 0 00 000\n")
    check("a cut last event", run(desk, SHEET, record(1, 0) + record(1, 500)[:11]), b"00 0 00 255\n14 0 00 000\n")

    # short reads, and streams around the size of a chunk
    small = busy(60) + b"\x01\x02"
    expected = run(reference, SHEET, small)[0]
    for piece in (1, 5, 13):
        check(f"pieces of {piece} bytes", run(desk, SHEET, small, piece), expected)
    for count in (5460, 5461, 5462, 10922, 20000):
        for cut in (0, 7):
            stream = busy(count) + bytes(cut)
            check(f"{count} events and {cut} bytes", run(desk, SHEET, stream), run(reference, SHEET, stream)[0])

    # by the quarter of a tick and by the half
    stream, answers = busy(5000), []
    for edition in (1, 2):
        sheet = SHEET[:48] + b"E 00 %06d\n" % edition + SHEET[48:]
        answers.append(run(reference, sheet, stream)[0])
        check(f"edition {edition}", run(desk, sheet, stream), answers[-1])
    check("edition 1, not stated", run(desk, SHEET, stream), answers[0])
    if answers[0] == answers[1]:
        wrong.append("the editions")
        print("desk: the stream has the same lines in both editions")

    # each event is answered before the next one is sent, also where a piece cuts it; only the end of the input makes a cut one 14
    first, second = record(1, 1000), record(1, 2000)
    pieces = [record(2, 0, 0, 0, 10, 1), record(3, 0, 0), first[:5], first[5:] + second[:1], second[1:], b"\x01\x02"]
    runs_0 = b"00 1 00 000\n"
    expected = [b"00 0 00 255\n", runs_0, b"", runs_0, runs_0, b"", b"14 0 00 000\n"]
    tried += 1
    answers = told(desk, SHEET, pieces, 10)
    if answers != expected:
        wrong.append("a live stream")
        print(f"desk: a live stream: expected {expected}, got {answers}")

    # a million events, 12 MB of them, in 8 MB: what the program holds does not grow with the stream
    stream = busy(5000) * 200
    check("a million events", run(desk, SHEET, stream, memory=2**23), run(reference, SHEET, stream)[0])
    print(f"desk: {tried - len(wrong)} of {tried} inputs answered as expected, {len(runs)} of them runs of another scheduler")
    sys.exit(bool(wrong))


if __name__ == "__main__":
    main()
