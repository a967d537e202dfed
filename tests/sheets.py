#!/usr/bin/env python3
"""Runs checksheet on sheets whose answer document 01, or document 02, (iv), gives: each refusal number, and each limit from both sides. A sheet that
is right comes back as it is, with an edition and without."""
import subprocess
import sys
from pathlib import Path

PROGRAM = Path(__file__).resolve().parent.parent / "target/bin/checksheet"


def record(letter, number, value):
    return b"%c %02d %06d\n" % (letter, number, value)


def sheet(window=4, tick=1000, policy=0, core=0, shares=(50, 50), edition=None):
    head = record(b"W"[0], 0, window) + record(b"C"[0], 0, tick) + record(b"P"[0], 0, policy) + record(b"M"[0], 0, core)
    head += b"" if edition is None else record(b"E"[0], 0, edition)
    return head + b"".join(record(b"S"[0], p, s) for p, s in enumerate(shares))


GOOD, EDITION, FULL = sheet(), sheet(edition=2), sheet(shares=(85,) + (1,) * 15)


def patched(place, byte):
    """The good sheet with another byte at a place."""
    return GOOD[:place] + byte + GOOD[place + 1:]


# the records start at 0 (W), 12 (C), 24 (P), 36 (M), 48 (S 00), 60 (S 01); with an edition at 48 (E), 60 (S 00), 72 (S 01)
CASES = [
    # accepted: each limit from inside
    ("the paper's sheet", GOOD, 0),
    ("W 2", sheet(window=2), 0),
    ("W 400", sheet(window=400), 0),
    ("C 100", sheet(tick=100), 0),
    ("C 999900", sheet(tick=999900), 0),
    ("P 1", sheet(policy=1), 0),
    ("M 7", sheet(core=7), 0),
    ("one partition: 5 records", sheet(shares=(100,)), 0),
    ("sixteen partitions: 20 records", FULL, 0),
    ("shares of 0 and 100", sheet(shares=(0, 100, 0)), 0),
    ("E 1, which is written back", sheet(edition=1), 0),
    ("E 2", EDITION, 0),
    ("an edition and one partition: 6 records", sheet(shares=(100,), edition=2), 0),
    ("an edition and sixteen partitions: 21 records", FULL[:48] + EDITION[48:60] + FULL[48:], 0),
    # 1: not 5 to 20 whole records, or 6 to 21 where the fifth begins with E
    ("empty", b"", 1),
    ("4 records", GOOD[:48], 1),
    ("21 records", sheet(shares=(84,) + (1,) * 16), 1),
    ("22 records", sheet(shares=(83,) + (1,) * 17), 1),
    ("cut in its last record", GOOD[:-1], 1),
    ("one byte too many", GOOD + b"\n", 1),
    ("a cut record and wrong letters", b"X" * 59, 1),
    # a seventh digit makes a record of thirteen bytes, so the sheet is not whole records
    ("C 1000000", GOOD[:12] + b"C 00 1000000\n" + GOOD[24:], 1),
    ("five records, the fifth an edition", EDITION[:60], 1),
    ("five records, the fifth begins with E and is no record", EDITION[:48] + b"E" * 12, 1),
    ("five records, the fifth begins with E, and none is a record", b"x" * 48 + b"E" + b"x" * 11, 1),
    ("22 records with an edition", sheet(shares=(84,) + (1,) * 16, edition=2), 1),
    ("23 records with an edition", sheet(shares=(83,) + (1,) * 17, edition=2), 1),
    ("22 records, the fifth begins with E", b"x" * 48 + b"E" + b"x" * 215, 1),
    ("21 records, an edition before M", FULL[:36] + EDITION[48:60] + FULL[36:], 1),
    ("21 records, an edition at the end", FULL + EDITION[48:60], 1),
    ("21 records, the fifth begins with e", FULL[:48] + b"e 00 000002\n" + FULL[48:], 1),
    ("an edition, cut in the last record", EDITION[:-1], 1),
    ("an edition that ends the file too early", EDITION[:49], 1),
    # 2: letter, order, digit, space, line feed or two-digit number wrong
    ("wrong letter", patched(0, b"w"), 2),
    ("W and C exchanged", GOOD[12:24] + GOOD[:12] + GOOD[24:], 2),
    ("S before M", GOOD[:36] + GOOD[48:60] + GOOD[36:48] + GOOD[60:], 2),
    ("S 01 before S 00", GOOD[:48] + GOOD[60:72] + GOOD[48:60], 2),
    ("S 00 twice", GOOD[:60] + GOOD[48:60], 2),
    ("W 01", patched(3, b"1"), 2),
    ("S 02 for S 01", patched(63, b"2"), 2),
    ("a letter in the two-digit number", patched(2, b"O"), 2),
    ("no space after the letter", patched(1, b"_"), 2),
    ("no space before the value", patched(4, b"_"), 2),
    ("no line feed", patched(11, b" "), 2),
    ("carriage return for line feed", patched(71, b"\r"), 2),
    ("S 01 0000,5", GOOD[:60] + b"S 01 0000,5\n", 2),
    ("S 01 0000.5", GOOD[:60] + b"S 01 0000.5\n", 2),
    ("a minus among the digits", GOOD[:60] + b"S 01 -00050\n", 2),
    ("a letter among the digits", GOOD[:60] + b"S 01 0000O5\n", 2),
    ("a space among the digits", GOOD[:60] + b"S 01     50\n", 2),
    ("the byte before 0", patched(10, b"/"), 2),
    ("the byte after 9", patched(10, b":"), 2),
    ("bytes of no text", bytes(60), 2),
    ("E twice", EDITION[:60] + EDITION[48:], 2),
    ("E for S 00", EDITION[:60] + EDITION[48:60], 2),
    ("E before M", EDITION[:36] + EDITION[48:60] + EDITION[36:48] + EDITION[60:], 2),
    ("E for M", EDITION[:36] + EDITION[48:], 2),
    ("E after S 00", GOOD[:60] + EDITION[48:60] + GOOD[60:], 2),
    ("E at the end", GOOD + EDITION[48:60], 2),
    ("E first", EDITION[48:60] + GOOD, 2),
    ("E for W", EDITION[48:60] + GOOD[12:], 2),
    ("E 01", EDITION[:51] + b"1" + EDITION[52:], 2),
    ("E 10", EDITION[:50] + b"1" + EDITION[51:], 2),
    ("no space after E", EDITION[:49] + b"_" + EDITION[50:], 2),
    ("no space before the edition", EDITION[:52] + b"0" + EDITION[53:], 2),
    ("no line feed after the edition", EDITION[:59] + b" " + EDITION[60:], 2),
    ("E 0000,5", EDITION[:48] + b"E 00 0000,5\n" + EDITION[60:], 2),
    ("a letter among the edition's digits", EDITION[:48] + b"E 00 00000l\n" + EDITION[60:], 2),
    ("e for E", EDITION.replace(b"E", b"e"), 2),
    ("S 01 before S 00, after E", EDITION[:60] + EDITION[72:] + EDITION[60:72], 2),
    ("six records, the fifth begins with E, and none is a record", b"x" * 48 + b"E" + b"x" * 23, 2),
    ("21 records, the fifth begins with E, and none is a record", b"x" * 48 + b"E" + b"x" * 203, 2),
    # 3, 4, 5: limits, each from outside
    ("W 0", sheet(window=0), 3),
    ("W 1", sheet(window=1), 3),
    ("W 401", sheet(window=401), 3),
    ("W 999999", sheet(window=999999), 3),
    ("C 0", sheet(tick=0), 4),
    ("C 150", sheet(tick=150), 4),
    ("C 99", sheet(tick=99), 4),
    ("C 999999", sheet(tick=999999), 4),
    ("P 2", sheet(policy=2), 5),
    ("P 256: not shortened to 0", sheet(policy=256), 5),
    ("M 8", sheet(core=8), 5),
    ("M 256: not shortened to 0", sheet(core=256), 5),
    ("E 0", sheet(edition=0), 5),
    ("E 3", sheet(edition=3), 5),
    ("E 257: not shortened to 1", sheet(edition=257), 5),
    ("E 65538: not shortened to 2", sheet(edition=65538), 5),
    ("E 999999", sheet(edition=999999), 5),
    # 6: the shares
    ("a lone share of 99", sheet(shares=(99,)), 6),
    ("a lone share of 101", sheet(shares=(101,)), 6),
    ("a sum of 99", sheet(shares=(50, 49)), 6),
    ("a sum of 101", sheet(shares=(50, 51)), 6),
    ("all shares 0", sheet(shares=(0, 0)), 6),
    # the first number that fits is the answer
    ("form before limits", sheet(window=1)[:60] + b"S 01 0000,5\n", 2),
    ("3 before 4", sheet(window=1, tick=150), 3),
    ("4 before 5", sheet(tick=150, policy=2), 4),
    ("5 before 6", sheet(core=8, shares=(99,)), 5),
    ("the edition's form before limits", sheet(window=1, edition=2)[:48] + b"E 01 000002\n" + EDITION[60:], 2),
    ("a share's form before the edition's limits", sheet(edition=3)[:72] + b"S 01 0000,5\n", 2),
    ("4 before the edition", sheet(tick=150, edition=0), 4),
    ("the edition before 6", sheet(edition=3, shares=(99,)), 5),
    ("6 with an edition", sheet(edition=2, shares=(50, 51)), 6),
]


def main():
    wrong = 0
    for name, data, number in CASES:
        expected = data if number == 0 else b"%02d 0 00 000\n" % number
        got = subprocess.run([PROGRAM], input=data, stdout=subprocess.PIPE, timeout=20, check=True).stdout
        if got != expected:
            wrong += 1
            print(f"sheets: {name}: expected {expected!r}, got {got!r}")
    print(f"sheets: {len(CASES) - wrong} of {len(CASES)} answered as documents 01 and 02 say")
    sys.exit(wrong != 0)


if __name__ == "__main__":
    main()
