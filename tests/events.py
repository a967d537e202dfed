#!/usr/bin/env python3
"""tools/events: a line of each kind is document 01's record, and the record that line; any stream of records comes back from its text byte
for byte; a text file may come from any editor; a line that makes no sense is refused with its number, and a call with status 2."""
import random
import subprocess
import sys
from pathlib import Path

ROOT = Path(__file__).resolve().parent.parent
TOOL = ROOT / "tools/events"
sys.path.insert(0, str(ROOT / "tools"))
from lib import records  # in this process: a process for each stream and direction would take ten seconds

# a line of each kind, and its record by the papers: kind, thread, partition, priority, stamp (low byte first), mask, policy (document 02, (i)), two
# zeros
KNOWN = [
    ("300 tick", "01 00 00 00 2c 01 00 00 00 000000"),
    ("4294967295 create 5 partition 1 priority 20 mask 3", "02 05 01 14 ff ff ff ff 03 000000"),
    ("7 create 5 partition 1 priority 20 mask 3 policy 1", "02 05 01 14 07 00 00 00 03 01 0000"),
    ("7 create 5 partition 1 priority 20 mask 3 policy 255", "02 05 01 14 07 00 00 00 03 ff 0000"),
    ("0 ready 63", "03 3f 00 00 00 00 00 00 00 000000"),
    ("16777216 block 2", "04 02 00 00 00 00 00 01 00 000000"),
    ("2 priority 9 to 255", "05 09 00 ff 02 00 00 00 00 000000"),
    ("3 end 4", "06 04 00 00 03 00 00 00 00 000000"),
    ("65536 resume", "07 00 00 00 00 00 01 00 00 000000"),
]
# Policy 0 may be written, and is not when the record is written as text.
WRITTEN = ("7 create 5 partition 1 priority 20 mask 3 policy 0", "7 create 5 partition 1 priority 20 mask 3", "02 05 01 14 07 00 00 00 03 000000")
# records that are no line: byte 9 of another kind, and bytes 10 and 11 of a create
RAW = ["010000002c01000000010000", "030500000700000000010000", "020501140700000003000100", "020501140700000003010001"]
# a line that stands for many ticks, and its records; the counter wraps
MANY = ("4294967295 ticks 3 every 256", "01000000 ffffffff 00000000" "01000000 ff000000 00000000" "01000000 ff010000 00000000")
BAD = [
    ("x tick", "line 1: stamp is a whole number"),
    ("5", "line 1: a stamp alone"),
    ("5 tick 3", "line 1: write it as: STAMP tick"),
    ("\n\n5 create 1", "line 3: write it as: STAMP create THREAD partition PARTITION priority PRIORITY mask MASK [policy POLICY]\n"),
    ("5 tick\n6 create 1 partition 0 priority 9 mask 1 policy", "line 2: write it as: STAMP create THREAD partition PARTITION priority PRIORITY"),
    ("6 create 1 partition 0 priority 9 mask 1 policy 0,5", "line 1: policy is a whole number, and not '0,5'"),
    ("6 create 1 partition 0 priority 9 mask 1 policy -1", "line 1: policy is a whole number, and not '-1'"),
    ("6 create 1 partition 0 priority 9 mask 1 policy 256", "line 1: policy is at most 255, and not '256'"),
    ("6 create 1 partition 0 priority 9 mask 1 round robin", "line 1: 'policy' is wanted, and not 'round'"),
    ("6 ready 1 policy 1", "line 1: write it as: STAMP ready THREAD\n"),
    ("4294967296 tick", "line 1: stamp is at most 4294967295"),
    ("1 ready 256", "line 1: thread is at most 255"),
    ("1 ready -1", "line 1: thread is a whole number"),
    ("1 ready 0,5", "line 1: thread is a whole number"),
    ("1 fly", "line 1: 'fly' is no event"),
    ("1 priority 3 be 4", "line 1: 'to' is wanted"),
    ("1 ticks 3", "line 1: write it as: STAMP ticks COUNT every PERIOD"),
    ("1 ticks 9999999 every 5", "line 1: count is at most 1000000"),
    ("raw zz", "line 1: raw takes bytes in hexadecimal"),
    ("raw 00000000000000000000000000", "line 1: raw takes 1 to 12 bytes"),
    ("raw 01\n5 tick", "line 2: only the last record may be cut"),
    ("9" * 5000 + " tick", "line 1: stamp is at most 4294967295"),
    ("# a form feed \x0c and U+2028 \u2028 end no line\n5 fly", "line 2: 'fly' is no event"),
]


# the same two ticks as different editors save them
EDITORS = [b"0 tick\n1 tick\n", b"0 tick\r\n1 tick\r\n", b"0 tick\r1 tick", b"\xef\xbb\xbf0 tick\n1 tick", "0 tick\n1 tick\n".encode("utf-16"),
           b"\t0\ttick # \xff\n0001 tick"]


def tool(*words, data=b""):
    """The tool as a program."""
    return subprocess.run([TOOL, *words], input=data, stdout=subprocess.PIPE, stderr=subprocess.PIPE, timeout=20)


def statuses():
    """What is wrong with the statuses that the tool ends with, and with what it says then."""
    for words, status, stream, said in [((), 2, "stderr", b"encode or decode"), (("encode", "x"), 2, "stderr", b"encode or decode"),
                                        (("--help",), 0, "stdout", b"text to records")]:
        done = tool(*words)
        if done.returncode != status or said not in getattr(done, stream) or b"Traceback" in done.stderr:
            yield f"{words}: status {done.returncode}, {done.stderr!r}"
    with open("/dev/full", "wb") as full:
        done = subprocess.run([TOOL, "encode"], input=b"0 tick\n", stdout=full, stderr=subprocess.PIPE)
    if done.returncode != 2 or done.stderr != b"events: standard output: No space left on device\n":
        yield f"a full disk: status {done.returncode}, {done.stderr!r}"
    with subprocess.Popen([TOOL, "encode"], stdin=subprocess.PIPE, stdout=subprocess.PIPE, stderr=subprocess.PIPE) as process:
        process.stdout.close()
        _, said = process.communicate(b"0 ticks 100000 every 1\n")
    if process.returncode != 0 or said:
        yield f"nobody reads: status {process.returncode}, {said!r}"


def main():
    wrong = 0
    draw = random.Random(1)
    streams = [p.read_bytes() for p in sorted(ROOT.glob("tests/vectors/*/events.bin"))]
    streams += [bytes(draw.choice((0, 0, 1, 2, 3, 4, 5, 6, 7, 8, 255)) for _ in range(draw.randrange(90))) for _ in range(60)]
    for stream in streams:
        if records.encode(records.decode(stream).encode()) != stream:
            wrong += 1
            print(f"events: {stream.hex()} came back otherwise")
    for stream in streams[:3] + streams[-3:]:
        if tool("encode", data=tool("decode", data=stream).stdout).stdout != stream:
            wrong += 1
            print(f"events: {stream.hex()} came back otherwise from the program")
    for text, record in KNOWN:
        data = bytes.fromhex(record)
        if records.encode(text.encode()) != data or records.decode(data).split() != text.split():
            wrong += 1
            print(f"events: {text!r} and {data.hex()} are not each other's")
    if records.encode(WRITTEN[0].encode()) != bytes.fromhex(WRITTEN[2]) or records.decode(bytes.fromhex(WRITTEN[2])) != WRITTEN[1] + "\n":
        wrong += 1
        print(f"events: {WRITTEN[0]!r} is not written as {WRITTEN[1]!r}")
    for record in map(bytes.fromhex, RAW):
        if records.decode(record) != f"raw {record.hex()}\n" or records.encode(records.decode(record).encode()) != record:
            wrong += 1
            print(f"events: {record.hex()} is written as {records.decode(record)!r}")
    if records.encode(MANY[0].encode()) != bytes.fromhex(MANY[1]):
        wrong += 1
        print(f"events: {MANY[0]!r} is not {MANY[1]!r}")
    for text in EDITORS:
        if records.encode(text) != bytes.fromhex("01000000 00000000 00000000" "01000000 01000000 00000000"):
            wrong += 1
            print(f"events: {text!r} is not two ticks")
    for text, reason in BAD:
        done = tool("encode", data=text.encode())
        if done.returncode != 1 or done.stdout or not done.stderr.decode().startswith("events: " + reason):
            wrong += 1
            print(f"events: {text!r}: status {done.returncode}, {done.stderr.decode()!r} does not say {reason!r}")
    for said in statuses():
        wrong += 1
        print(f"events: {said}")
    print(f"events: {len(KNOWN) + 2} lines as the papers say, {len(streams)} streams there and back, {len(BAD)} bad lines refused, {wrong} wrong")
    sys.exit(wrong != 0)


if __name__ == "__main__":
    main()
