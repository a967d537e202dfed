#!/usr/bin/env python3
"""tools/sheet: on thousands of sheets, good, damaged and typed as people type them, the explanation's number is the proved program's, and there is
an explanation exactly where there is a number; a byte that was damaged is found where it is; known faults are named; encode and decode are
each other's, with an edition, stated as 1 or 2, and without; the edition is told, and bounds are those of document 01 and document 02, (iv).
"""
import random
import subprocess
import sys
import tempfile
from pathlib import Path

from expecting import Expecting

ROOT = Path(__file__).resolve().parent.parent
sys.path.insert(0, str(ROOT / "tools"))
from lib import faults, programs, sheets

TOOL = ROOT / "tools/sheet"


def written(window=100, tick=1000, policy=0, core=0, shares=(40, 20, 10, 30), edition=None):
    """A sheet by document 01's table and document 02, (iv), not by the tool."""
    head = "W 00 %06d\nC 00 %06d\nP 00 %06d\nM 00 %06d\n" % (window, tick, policy, core)
    head += "" if edition is None else "E 00 %06d\n" % edition
    return (head + "".join("S %02d %06d\n" % (p, s) for p, s in enumerate(shares))).encode()


GOOD, EDITION = written(), written(edition=2)
E = EDITION[48:60]
SIXTEEN = (85,) + (1,) * 15
# what a person's hand or editor does to a sheet: the number by document 01, the place, and a word of the cause. There is one sentence for each,
# but for those in `MORE`.
KNOWN = [
    ("Windows line ends", GOOD.replace(b"\n", b"\r\n"), 1, 1, 12, "Windows line ends"),
    ("a byte order mark", b"\xef\xbb\xbf" + GOOD, 1, 1, 1, "byte order mark"),
    ("UTF-16", GOOD.decode().encode("utf-16"), 1, 1, 1, "UTF-16"),
    ("UTF-16 without a mark", GOOD.decode().encode("utf-16-le"), 2, 1, 1, "UTF-16"),
    ("UTF-16, high byte first", GOOD.decode().encode("utf-16-be"), 2, 1, 1, "UTF-16"),
    ("bytes of 0", bytes(96), 2, 1, 1, "the byte 00"),
    ("old line ends", GOOD.replace(b"\n", b"\r"), 2, 1, 12, "carriage return alone"),
    ("no last line feed", GOOD[:-1], 1, 8, 12, "line feed"),
    ("a space at the end of a line", GOOD.replace(b"000020\n", b"000020 \n"), 1, 6, 12, "space or tab at the end"),
    ("0,5 as it is typed", GOOD.replace(b"S 01 000020", b"S 01 0,5"), 1, 6, 7, "half percents do not exist"),
    ("0.5 as it is typed", GOOD.replace(b"S 01 000020", b"S 01 0.5"), 1, 6, 7, "half percents do not exist"),
    ("0000,5", GOOD.replace(b"S 01 000020", b"S 01 0000,5"), 2, 6, 10, "half percents do not exist"),
    ("a share without its zeros", GOOD.replace(b"000040", b"40"), 1, 5, 8, "six are wanted, as in S 00 000040"),
    ("a partition's number without its zero", GOOD.replace(b"S 01 ", b"S 1 "), 1, 6, 3, "two digits"),
    ("a percent sign", GOOD.replace(b"000040", b"00040%"), 2, 5, 11, "percent sign"),
    ("a share of 5000 digits", GOOD.replace(b"000040", b"4" * 5000), 1, 5, 12, "5000 digits"),
    ("a minus", GOOD.replace(b"000040", b"-00040"), 2, 5, 6, "a digit is wanted"),
    ("the letter O", GOOD.replace(b"000040", b"00004O"), 2, 5, 11, "letter O"),
    ("a small letter", GOOD.replace(b"W", b"w"), 2, 1, 1, "capital W"),
    ("a tab", GOOD.replace(b"C 00 ", b"C\t00 "), 2, 2, 2, "a tab"),
    ("a comment", b"# my sheet\n" + GOOD, 1, 1, 1, "no comments"),
    ("an empty line in between", GOOD.replace(b"C 00", b"\nC 00"), 1, 2, 1, "empty"),
    ("an empty line at the end", GOOD + b"\n", 1, 9, 1, "empty"),
    ("no M line", GOOD[:36] + GOOD[48:], 2, 4, 1, "the M line is wanted"),
    ("no S 01 line", GOOD[:60] + GOOD[72:], 2, 6, 4, "begins with 'S 01 '"),
    ("the C line twice", GOOD[:24] + GOOD[12:], 2, 3, 1, "the P line is wanted"),
    ("W and C exchanged", GOOD[12:24] + GOOD[:12] + GOOD[24:], 2, 1, 1, "the W line is wanted"),
    ("a comment after 20 records", written(shares=SIXTEEN) + b"# the end\n", 1, 21, 1, "no comments"),
    ("an empty line after 20 records", written(shares=SIXTEEN) + b"\n", 1, 21, 1, "empty"),
    ("S 02 twice", GOOD.replace(b"S 03", b"S 02"), 2, 8, 4, "begins with 'S 03 '"),
    ("an empty file", b"", 1, 1, 1, "empty"),
    ("four records", GOOD[:48], 1, 4, 1, "4 of at least 5"),
    ("21 records", written(shares=(84,) + (1,) * 16), 1, 21, 1, "21 lines"),
    ("W 401", written(window=401), 3, 1, 6, "401 ticks"),
    ("C 150", written(tick=150), 4, 2, 6, "150 cycles"),
    ("P 2", written(policy=2), 5, 3, 6, "policy is 2"),
    ("M 8", written(core=8), 5, 4, 6, "core is 8"),
    ("a sum of 99", written(shares=(40, 20, 10, 29)), 6, 5, 6, "add up to 99"),
    ("a sum of 101", written(shares=(40, 20, 10, 31)), 6, 5, 6, "add up to 101"),
    ("a share of 101", written(shares=(0, 101)), 6, 6, 6, "101"),
    ("E twice", GOOD[:48] + E + E + GOOD[48:], 2, 6, 1, "only once"),
    ("E before M", GOOD[:36] + E + GOOD[36:], 2, 4, 1, "only right after the M line"),
    ("E before M and 16 shares", written(shares=SIXTEEN)[:36] + E + written(shares=SIXTEEN)[36:], 1, 4, 1, "only right after the M line"),
    ("E first", E + GOOD, 2, 1, 1, "only right after the M line"),
    ("E for M", GOOD[:36] + E + GOOD[48:], 2, 4, 1, "only right after the M line"),
    ("E after S 00", GOOD[:60] + E + GOOD[60:], 2, 6, 1, "only right after the M line"),
    ("E at the end", GOOD + E, 2, 9, 1, "only right after the M line"),
    ("E at the end, after 16 shares", written(shares=SIXTEEN) + E, 1, 21, 1, "only right after the M line"),
    ("M twice, and E", GOOD[:48] + GOOD[36:48] + E + GOOD[48:], 2, 5, 1, "the S line is wanted"),
    ("E with the number 01", EDITION.replace(b"E 00", b"E 01"), 2, 5, 4, "begins with 'E 00 '"),
    ("E without a number of its own", EDITION.replace(E, b"E 2\n"), 1, 5, 3, "begins with 'E 00 '"),
    ("E without its zeros", EDITION.replace(E, b"E 00 2\n"), 1, 5, 7, "six are wanted, as in E 00 000002"),
    ("E with a comma", EDITION.replace(E, b"E 00 0000,5\n"), 2, 5, 10, "a comma in a number"),
    ("E with the letter l", EDITION.replace(E, b"E 00 00000l\n"), 2, 5, 11, "letter l"),
    ("E and nothing right after it", GOOD[:48] + b"Exxxxxxxxxxx" + GOOD[48:], 2, 5, 2, "a space is wanted"),
    ("a small e", EDITION.replace(b"E", b"e"), 2, 5, 1, "a capital E"),
    ("a small e and 16 shares", written(shares=SIXTEEN, edition=2).replace(b"E", b"e"), 1, 5, 1, "a capital E"),
    ("a comment before E", GOOD[:48] + b"# an old kit\n" + EDITION[48:], 1, 5, 1, "no comments"),
    ("five records, the fifth an E", EDITION[:60], 1, 5, 1, "5 of at least 6"),
    ("22 records with E", written(shares=(84,) + (1,) * 16, edition=1), 1, 22, 1, "22 lines, and at most 21"),
    ("a comment after 21 records", written(shares=SIXTEEN, edition=1) + b"# the end\n", 1, 22, 1, "no comments"),
    ("no S 00 line after E", EDITION[:60] + EDITION[72:], 2, 6, 4, "begins with 'S 00 '"),
    ("E 0", written(edition=0), 5, 5, 6, "edition is 0"),
    ("E 3", written(edition=3), 5, 5, 6, "edition is 3, and it is 1 (a quarter of a tick must remain) or 2 (half a tick)"),
    ("E 999999", written(edition=999999), 5, 5, 6, "edition is 999999"),
    ("P 2, M 8 and E 3", written(policy=2, core=8, edition=3), 5, 5, 6, "edition is 3"),
    ("a sum of 99 with E", written(shares=(40, 20, 10, 29), edition=2), 6, 6, 6, "add up to 99"),
    ("a share of 101 with E", written(shares=(0, 101), edition=2), 6, 7, 6, "101"),
]
MORE = {"bytes of 0": 3, "W and C exchanged": 2, "a share of 101": 2, "E for M": 2, "E and nothing right after it": 2,
        "P 2, M 8 and E 3": 3, "a share of 101 with E": 2}
# what is said of the edition, and the bounds: document 01's example (W 100, C 1000, four partitions, share 10), and the sheet of ten ticks on which
# two jobs are promised nothing; and others with an edition, of which edition 2 takes half a tick for each other partition
BOUNDS = [
    (written(), "1 (not stated): a job has budget while at least a quarter of a tick (250 cycles) remains", (37750, 17750, 7750, 27750)),
    (written(window=10), "1 (not stated): a job has budget while at least a quarter of a tick (250 cycles) remains", (1750, -250, -1250, 750)),
    (written(edition=1), "1: a job has budget while at least a quarter of a tick (250 cycles) remains", (37750, 17750, 7750, 27750)),
    (written(edition=2), "2: a job has budget while at least half a tick (500 cycles) remains", (38500, 18500, 8500, 28500)),
    (written(window=10, tick=100, edition=2), "2: a job has budget while at least half a tick (50 cycles) remains", (250, 50, -50, 150)),
]


def some_good(draw):
    shares = [0] * draw.randint(1, 16)
    for _ in range(100):
        shares[draw.randrange(len(shares))] += 1
    return written(draw.randint(2, 400), 100 * draw.randint(1, 9999), draw.randrange(2), draw.randrange(8), shares, draw.choice((None, 1, 2)))


def some_near(draw):
    """Right in form, and at or past a limit."""
    shares = list(draw.choice(((50, 50), (99,), (100,), (101,), (0, 100), (60, 41), (999999, 1), (100, 100))))
    return written(draw.choice((0, 1, 2, 400, 401, 999999)), draw.choice((0, 99, 100, 150, 999900, 999999)), draw.choice((0, 1, 2, 256)),
                   draw.choice((0, 7, 8, 256)), shares, draw.choice((None, None, 0, 1, 2, 3, 257, 999999)))


def some_damaged(draw):
    """A good sheet with one to three changes: a byte, a line, or a piece."""
    data = some_good(draw)
    for _ in range(draw.randint(1, 3)):
        at, to = draw.randrange(len(data) + 1), draw.randrange(len(data) + 1)
        byte = bytes([draw.choice(b"0123456789,. \t\r\nWCPMESweO#%\x00\xef\xff")])
        lines = data.splitlines(keepends=True)
        if draw.random() < 0.3 and lines:
            line = draw.randrange(len(lines))
            data = b"".join(draw.choice((lines[:line] + lines[line + 1:], lines[:line] + [lines[line]] + lines[line:], lines[::-1])))
        else:
            data = draw.choice((data[:at] + byte + data[at + 1:], data[:at] + byte + data[at:], data[:at] + data[at + 1:], data[:min(at, to)]))
    return data


def some_typed(draw):
    """A sheet as it is typed: numbers without zeros, halves, other line ends, spaces, comments."""
    shares = [draw.choice(("0,5", "0.5", "40", "000040", "7", "100", "050%", "0000,5")) for _ in range(draw.randint(0, 5))]
    values = [("W", 0, draw.choice(("100", "000100", "000010"))), ("C", 0, draw.choice(("1000", "001000"))), ("P", 0, "000000"), ("M", 0, "000000")]
    values += [("E", 0, draw.choice(("2", "000002", "000001", "0,5")))] * draw.choice((0, 0, 1, 1, 2))
    values += [("S", p, share) for p, share in enumerate(shares)]
    form = draw.choice(("{} {:02d} {}", "{} {} {}", "{}  {:02d} {}", "{}\t{:02d}\t{}"))
    end = draw.choice(("\n", "\r\n", " \n", "\r", "\n\n"))
    text = draw.choice(("", "", "\ufeff", "# shares\n")) + end.join(form.format(*v) for v in values) + draw.choice(("", end))
    return text.encode()


def tool(*words, data=b""):
    return subprocess.run([TOOL, *words], input=data, stdout=subprocess.PIPE, stderr=subprocess.PIPE, timeout=20)


def main():
    expect = Expecting("explained")

    def judged(data):
        """The explanation of a sheet, held to the program's answer."""
        found, number = faults.find(data), programs.check_sheet(data)
        expect(found.number == number, f"{data!r} is {number} to the program and {found.number} to the explanation")
        expect(bool(found.faults) == (number != 0), f"{data!r} is {number} and is explained by {found.faults}")
        return found

    draw = random.Random(14)
    makers = [(some_good, 300), (some_near, 500), (some_damaged, 1200), (some_typed, 500)]
    for maker, count in makers:
        for _ in range(count):
            judged(maker(draw))

    # one byte of a good sheet, changed: that byte is named
    changes = [(data, at) for data in (GOOD, EDITION) for at in range(len(data))]
    for data, at in changes:
        byte = draw.choice(b"/:x_-,.%\x01\x80" if at % 12 == 11 else b"/:x_-,.%\x00\x80")
        found = judged(data[:at] + bytes([byte]) + data[at + 1:])
        expect(found.faults[0][:2] == (at // 12 + 1, at % 12 + 1), f"byte {at} as {byte} is sought at {found.faults[0]}")

    with tempfile.TemporaryDirectory() as folder:
        path = Path(folder) / "shares.txt"
        for name, data, number, line, column, cause in KNOWN:
            judged(data)
            path.write_bytes(data)
            done = tool("check", path)
            said = done.stdout.decode()
            expect(done.returncode == 1 and said.startswith(f"refused with {number}\n") and f"line {line}, column {column}" in said
                   and cause in said, f"{name}: status {done.returncode}, {said!r}")
            expect(len(said.splitlines()) == 1 + MORE.get(name, 1), f"{name} is said in {said!r}")
        for data, edition, bounds in BOUNDS:
            path.write_bytes(data)
            done = tool("check", path)
            expect(done.stdout.decode().splitlines()[1] == f"edition {edition}", f"{data!r}: edition {edition!r} is not said")
            sheet = sheets.read(data)
            expect(done.returncode == 0 and tuple(map(sheet.bound, range(4))) == bounds, f"{data!r} has other bounds than {bounds}")
            for partition, bound in enumerate(bounds):
                row = f"{bound:,}" if bound > 0 else f"nothing ({bound:,})"
                expect(any(text.startswith(f"partition {partition} ") and text.endswith(" " + row) for text in done.stdout.decode().splitlines()),
                       f"{data!r}: nothing says {row} of partition {partition}")
            expect(done.stdout.count(b"warning") == sum(b <= 0 for b in bounds), f"{data!r}: not a warning for each bound that is not above 0")
        path.write_bytes(written(shares=(100, 0)))
        expect(b"warning: partition 1 has a share of 0" in tool("check", path).stdout, "a share of 0 is not warned of")
        (Path(folder) / "names.txt").write_text("1 the radio\n")
        expect(b"warning: the radio has a share of 0" in tool("check", path).stdout, "a name is not used")
        (Path(folder) / "names.txt").write_text("x\n")
        done = tool("check", path)
        expect(done.returncode == 0 and b"warning: names.txt, line 1: a partition's number" in done.stdout, f"a bad name makes a sheet wrong: {done}")

    # there and back, without an edition and with one; what is no sheet is not written
    editions = set()
    for _ in range(100):
        data = some_good(draw)
        expect(sheets.write(sheets.read_plain(sheets.plain(sheets.read(data)).encode())) == data, f"{data!r} came back otherwise")
        editions.add(data[48:60] if data[48:49] == b"E" else b"")
    expect(editions == {b"", b"E 00 000001\n", b"E 00 000002\n"}, f"only {editions} came back")
    plain = b"window 100 # ticks\nshare 1 20\nshare 0 40\nshare 2 10\n\nshare 3 30\ntick 1000\n"
    for text in (plain, plain.replace(b"\n", b"\r\n"), b"\xef\xbb\xbf" + plain, plain.decode().encode("utf-16")):
        expect(tool("encode", data=text).stdout == GOOD, f"{text!r} is not the sheet that it says")
    for edition, line in ((None, b""), (1, b"edition 1\n"), (2, b"edition 2\n")):
        data = written(edition=edition)
        for text in (plain + line, line + plain, plain + line.replace(b" ", b"  000")):
            expect(tool("encode", data=text).stdout == data, f"{text!r} is not the sheet that it says")
        wanted = b"window 100\ntick 1000\npolicy 0\ncore 0\n" + line + b"share 0 40\nshare 1 20\nshare 2 10\nshare 3 30\n"
        expect(tool("decode", data=data).stdout == wanted, f"{data!r} is not decoded as it is")
    for text, reason in [(b"window 100\ntick 1000\nshare 0 0,5", b"line 3: share 0 is a whole number, and not '0,5'"),
                         (b"tick 1000\nshare 0 100", b"window"), (b"window 100\ntick 1000\nshare 1 100", b"share 0"),
                         (b"window 4\nwindow 5", b"line 2: window is there twice"), (b"window 100\ntick 1000\nshare 0 99", b"refused with 6"),
                         (b"window 100\ntick 1000", b"refused with 1"), (b"window 1000000", b"six digits"), (b"share 16 5", b"0 to 15"),
                         (b"weight 3", b"write it as"), (b"window " + b"9" * 5000, b"six digits"), (b"share 0 -5", b"whole number"),
                         (b"edition 1\nedition 1", b"line 2: edition is there twice"), (b"edition", b"core N, edition N or share PARTITION PERCENT"),
                         (b"edition 0,5", b"line 1: edition is a whole number, and not '0,5'"), (b"edition half", b"edition is a whole number"),
                         (b"window 100\ntick 1000\nshare 0 100\nedition 3", b"refused with 5\n  line 5, column 6: the edition is 3"),
                         (b"window 100\ntick 1000\nshare 0 100\nedition 0", b"refused with 5\n  line 5, column 6: the edition is 0"),
                         (b"window 100\ntick 1000\nedition 2", b"refused with 1\n  line 5, column 1: the sheet ends here, after 5 of at least 6"),
                         (bytes(range(256)), b"write it as")]:
        done = tool("encode", data=text)
        expect(done.returncode == 1 and not done.stdout and reason in done.stderr and b"Traceback" not in done.stderr,
               f"{text!r}: {done.stderr!r} does not say {reason!r}")
    expect(tool("decode", data=GOOD[:-1]).returncode == tool("decode", data=EDITION[:60]).returncode == 1, "a cut sheet is decoded")
    expect([tool().returncode, tool("check").returncode, tool("check", "/nowhere/at/all").returncode, tool("--help").returncode] == [2, 2, 2, 0],
           "bad usage has another status than 2, or help another than 0")

    print(f"explained: {sum(c for _, c in makers) + len(changes) + len(KNOWN)} sheets have the program's number, {expect.wrong} things wrong")
    sys.exit(expect.wrong != 0)


if __name__ == "__main__":
    main()
