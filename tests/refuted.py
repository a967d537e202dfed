#!/usr/bin/env python3
"""Each faulty definition and each faulty statement is shown to be wrong.

That an edit is refused may only say that a proof follows the text. So for each edit of tools/must-break, and of must-fail in the crates of
statements, the prover also proves that it is wrong: of a faulty definition, that a run, a place, a tie, a sheet or a number of crate `cases` is
another than the paper says (the line `# shown:` of the edit names it), and of some that a promise is false with it; of a faulty statement, that it is
false, by a run that is computed (LABEL.refuted, beside the edit or in tests/refuted/CRATE). All that an edit reaches is copied into one crate, which
must be proved whole. In a second crate, of the same proofs on the files as they are, every proof must fail. Every promise, a field of `Promised`,
must have such a fault of its own.

    tests/refuted.py [LABEL ..]    all of them, or the named ones
"""
import os
import re
import sys
import tempfile
from concurrent.futures import ThreadPoolExecutor
from pathlib import Path

sys.path.insert(0, str(Path(__file__).resolve().parent.parent / "tools/must-break"))
from edited import ROOT, Crate, Edit, errors, file_of, modules, name_of, prover, reached, uses  # noqa: E402

# the crates whose statements are tried by edits in their must-fail
STATEMENTS = ["invariants", "guarantee", "sessions"]

# the crates that the copies stand on
BELOW = [name for name in prover.USES if name in {*prover.below(["sessions", "cases"]), "sessions", "cases"}]

# what every refutation starts with
HEAD = """use Rattle.std.specs.Prelude.{
  ℕ, suc, zero, ◌+◌, ◌-◌, ◌*◌, ◌^◌, ◌≤◌, ◌<◌, ◌≡◌, refl, Bool, true, false, List, [], ◌∷◌, ◌++◌, map, length, get_or, take, drop, replicate,
  ℤ, pos, negsuc,
}
use Rattle.std.proofs.Common.{sym, ap, arith}
use Rattle.lists.specs.Lists.{member}
use Rattle.lists.proofs.Tests.{clash}
use Rattle.sheet.specs.Sheet.{settings_of, sheet_of}
use Rattle.model.specs.Step.{Saved}
use Rattle.model.specs.Run.{Entry, fresh, run, after}
use Rattle.cases.specs.Written.{kit, halves, tick, create, ready, block, line, refusal}
use Rattle.cases.specs.Computed.{lines, remains}
"""

# of a faulty definition: what is computed is not what the paper says
SHOWN = """use Rattle.cases.specs.{file}.{{{test}, {entry}}}

refuted : {test} {entry} ≡ false
unfolding remains
refuted = refl
"""


def refutations(edit):
    """The proofs that an edit is wrong, as modules."""
    found, beside = {}, edit.path.with_suffix(".refuted")
    if edit.crate:
        beside = ROOT / "tests/refuted" / edit.crate / beside.name
    if beside.exists():
        found["Refuted"] = beside.read_text()
    if edit.shown:
        file, entry = edit.shown.split()
        test = {"Runs": "agrees", "Places": "stand", "Ties": "won", "Editions": "told", "Refusals": "agree"}[file]
        found["Shown"] = SHOWN.format(file=file, entry=entry, test=test)
    assert found, f"{edit.path}: neither a line `# shown:` nor {beside.name}"
    return found


def said_of(folder, edits, edited):
    """What the prover says of a crate with a module for each edit, of the files that its refutations look at, with the edit made in them or not."""
    crate = Crate(folder, "refuted" if edited else "unrefuted", BELOW)
    shared = {("refuted", "proofs", p.stem): HEAD + p.read_text() for p in (ROOT / "tests/refuted").glob("*.txt")}
    # lemmas are those of the files as they are
    files = modules("specs")
    for edit in edits:
        proofs = {("refuted", "proofs", name): HEAD + text for name, text in refutations(edit).items()}
        texts = shared | proofs
        graph = files | {m: uses(text, files | texts) for m, text in texts.items()}
        there = reached(edit if edited else None, proofs, graph, BELOW)
        for module in there:
            text = texts.get(module) or (edit.applied(file_of(module)) if edited else (ROOT / file_of(module)).read_text())
            crate.add(name_of(edit.label), module, text, there)
    return crate.check()


def promises():
    """The names of the statements that `Promised` has, by field."""
    text = (ROOT / "crates/sessions/specs/Promised.antt").read_text()
    return dict(re.findall(r"^  pub (\w+) : \w+\.(\w+)$", text, re.M))


def faults():
    """The edits to be shown wrong; a label that stands in two places gets its crate's name."""
    paths = sorted((ROOT / "tools/must-break").glob("*.edit"))
    for name in STATEMENTS:
        paths += sorted((ROOT / "crates" / name / "must-fail").glob("*.edit"))
    labels = [p.stem for p in paths]
    edits = [Edit(p) for p in paths if not sys.argv[1:] or p.stem in sys.argv[1:]]
    for edit in edits:
        if labels.count(edit.label) > 1:
            edit.label += "_of_" + (edit.crate or "the_definitions")
    return edits


def main():
    edits, stated, wrong = faults(), promises(), {}
    refuted = set()
    for edit in edits:
        if "Refuted" in refutations(edit):
            claim = re.search(r"^refuted : (\w+) → ⊥$", refutations(edit)["Refuted"], re.M)
            if claim and claim.group(1) in stated.values():
                refuted.add(claim.group(1))
            else:
                wrong[edit.label] = "what is refuted is no promise"
    with tempfile.TemporaryDirectory() as folder, ThreadPoolExecutor(int(os.environ.get("RT_JOBS") or 2)) as pool:
        prover.build(BELOW)
        faulty = pool.submit(said_of, Path(folder) / "wrong", edits, True)
        right = pool.submit(said_of, Path(folder) / "right", edits, False)
        faulty, right = faulty.result(), right.result()
    (ROOT / "target").mkdir(exist_ok=True)
    (ROOT / "target/refuted.log").write_text(faulty)
    (ROOT / "target/unrefuted.log").write_text(right)
    failed, refused = errors(faulty), errors(right)
    for edit in edits:
        for module, place, text in failed.get(name_of(edit.label), []):
            wrong.setdefault(edit.label, f"not shown wrong: {file_of(module)}:{place}: {text[:400]}")
        there = {name for (owner, _, name), _, _ in refused.get(name_of(edit.label), []) if owner == "refuted"}
        if not there >= set(refutations(edit)):
            wrong.setdefault(edit.label, "what shows the fault wrong is proved without the fault too")
    if "logic=proved" not in faulty and not wrong:
        sys.exit(f"refuted: the prover says nothing of the faults: {faulty[-2000:]}")
    for label, why in wrong.items():
        print(f"refuted: {label}: {why}")
    without = [] if sys.argv[1:] else [field for field, name in stated.items() if name not in refuted]
    if not sys.argv[1:]:
        print("refuted: promises with no fault of their own: " + (", ".join(without) or "none"))
    print(f"refuted: {len(edits) - len(wrong)} of {len(edits)} faulty definitions and statements are shown to be wrong")
    sys.exit(bool(wrong or without))


if __name__ == "__main__":
    main()
