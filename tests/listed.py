#!/usr/bin/env python3
"""docs/MUST-FAIL.md lists every fault that must be refused, and no other; in code, with the function whose proof must break.

Every public function has a fault there, and every door two, as it says.
"""
import re
import sys

from edits import ROOT, faults, functions_of

DOORS = {("doors", "start::start"), ("doors", "single::event"), ("doors", "batch::run"), ("doors", "queries::decision"),
         ("doors", "queries::remaining"), ("sheet", "read_sheet"), ("sheet", "write_sheet")}


def public_functions():
    """The public functions, as an edit names them, and those that a public type gives for a trait."""
    found = set()
    for crate in {path.parent.parent for path in ROOT.glob("crates/*/src/*.rt")}:
        own = {name for path in crate.glob("src/*.rt") for name in re.findall(r"^(?:struct|enum|trait) (\w+)", path.read_text(), re.M)}
        public = [path for path, f in functions_of(crate).items() if f.public and not own & set(re.findall(r"\w+", f.block))]
        found |= {(crate.name, path) for path in public}
    return found


def in_code(text):
    """The lists of a crate's faults: `label` and the function."""
    return {(crate, label, function)
            for crate, body in re.findall(r"^- `(\w+)`: (.*(?:\n  .*)*)", text, re.M)
            for label, function in re.findall(r"`(\w+)`\s+in\s+([\w:+]+)", body)}


def of_statements(text):
    """The table, where a crate stands in its first row."""
    found, crate = set(), None
    for line in text.splitlines():
        row = re.match(r"\| (\S*) ?\| (\w+) \|", line)
        if row and row.group(2) != "label":
            crate = row.group(1) or crate
            found.add((crate, row.group(2), ""))
    return found


def main():
    code, statements = (ROOT / "docs/MUST-FAIL.md").read_text().split("## Faults in code", 1)[1].split("## Faults of definitions and statements", 1)
    listed = in_code(code) | of_statements(statements)
    there = {(f.crate, f.label, f.breaks if f.in_code() else "") for f in faults()}
    there |= {("must-break", p.stem, "") for p in ROOT.glob("tools/must-break/*.edit")}
    for one in sorted(there ^ listed):
        print(f"listed: {' '.join(one)} is {'not listed' if one in there else 'listed, and not there'}")
    broken = [(f.crate, f.breaks) for f in faults()]
    public = public_functions()
    assert DOORS <= public
    few = sorted(one for one in public if broken.count(one) < (2 if one in DOORS else 1))
    for crate, name in few:
        print(f"listed: {crate} {name} has too few faults")
    print(f"listed: {len(there)} faults that must be refused; {len(public)} public functions")
    sys.exit(there != listed or bool(few))


if __name__ == "__main__":
    main()
