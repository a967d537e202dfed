#!/usr/bin/env python3
"""Every promise stands in three places: as a statement in specs/, as a field of the record that proves them all, and in docs/PROOFS.md.

A promise is a definition in specs/ of a type without parameters, `abbrev pub NAME : Type 0`, or `Type 1` where it is about every scheduler. The
record is Promised in crates/sessions/specs, of which the prover wants a value. Without this test a statement could be left out of the record, and
lose its proof, or be told nowhere.
"""
import re
import sys

from edits import ROOT


def main():
    stated = set()
    for path in ROOT.glob("crates/*/specs/*.antt"):
        stated |= set(re.findall(r"^abbrev pub (\w+) : Type [01]$", path.read_text(), re.M))
    record = (ROOT / "crates/sessions/specs/Promised.antt").read_text()
    proved = set(re.findall(r"^  pub [\w-]+ : \w+\.(\w+)$", record, re.M))
    told = set(re.findall(r"`(?:\w+\.)?(\w+)`", (ROOT / "docs/PROOFS.md").read_text()))
    wrong = [f"{name} is stated and is no field of Promised" for name in sorted(stated - proved)]
    wrong += [f"{name} is a field of Promised and is not stated" for name in sorted(proved - stated)]
    wrong += [f"{name} is not told in docs/PROOFS.md" for name in sorted(stated - told)]
    for line in wrong:
        print(f"promised: {line}")
    print(f"promised: {len(stated)} promises" + ("" if wrong else ", each stated, proved and told"))
    sys.exit(bool(wrong) or not stated)


if __name__ == "__main__":
    main()
