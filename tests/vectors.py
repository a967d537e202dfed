#!/usr/bin/env python3
"""Has the checker compute the model's definitions on runs of another scheduler.

tests/vectors/NAME has a sheet (shares.txt), events (events.bin) and the lines that a scheduler which shares nothing with the model printed
for them (expected.txt). slices-NNN are runs of it with request (i) of document 02, priorities-NNN with (i) and (ii), ties-NNN with (i) to (iii),
editions-.. with (i) to (iv), where a name with an E tells what the sheet has of it; in tells-.. a wrong reading of one of them, which the name tells,
prints something else (tells-lowered-to-the-head has the rule's own name). It does so too where a raised thread keeps its place, in ties-006, where a
preempted one has a full slice, in priorities-043, where one that is set to the priority it has goes to the tail, in ties-037, and where half a tick
must remain in edition 1, in editions-009, or where no edition is stated, in editions-014.

For each run this writes a theorem, that the definitions give just these lines, into a crate of its own in a temporary
copy of the repository, and has the checker prove that crate. The theorem tests the state before each event, as the doors do; its proof tests
a state once, by the theorem `tested_once` of crate invariants, and computes the rest.

    tests/vectors.py [NAME ..]    all runs, or the named ones
"""
import sys
import tempfile
from pathlib import Path

ROOT = Path(__file__).resolve().parent.parent
sys.path.insert(0, str(ROOT / "tools"))
from lib import prover  # noqa: E402

VECTORS = ROOT / "tests/vectors"

# what the computation has to look through: every definition of these files that is not an abbreviation
OPENED = [
    ("lists", "Lists"), ("units", "Units"), ("sheet", "Limits"), ("sheet", "Records"), ("sheet", "Order"), ("sheet", "Settings"),
    ("sheet", "Sheet"), ("model", "State"), ("model", "Slices"), ("model", "Policy"), ("model", "Event"), ("model", "Step"),
    ("model", "Answers"), ("invariants", "Once"),
]

# the crates that they stand on
BELOW = ["lists", "refusals", "units", "sheet", "model", "invariants"]

HEAD = """-- Written by tests/vectors.py.
use Rattle.std.proofs.Common.{◌≡◌, ℕ, Bool, true, false, cond, List, [], ◌∷◌, map, length, replicate, refl, ◌∙◌, eqb, eqb-true, arith}
use Rattle.std.proofs.lemmas.Bool.{le-ltb}
use Rattle.std.proofs.Math.ListN.{length-replicate}
use Rattle.sheet.specs.Sheet.{settings_of, refused_sheet}
use Rattle.model.specs.State.{wanted}
use Rattle.model.specs.Step.{Saved}
use Rattle.model.specs.Run.{Entry, fresh_state, fresh, run}
use Rattle.model.specs.Doors.{refused_start}
use Rattle.model.specs.Answers.{refusal_line, answer_line, text_of}
use Rattle.model.proofs.Accepted.{of_fit}
use Rattle.invariants.specs.Once.{steps}
use Rattle.invariants.proofs.Answered.{Good}
use Rattle.invariants.proofs.Fresh.{start_good}
use Rattle.invariants.proofs.Once.{tested_once}
"""

LINES = """
-- a history that just fits the sheet
unfoldable rows : List ℕ → List ℕ
rows sheet = replicate (wanted (fresh_state (settings_of sheet))) 0

-- what the desk program prints for a sheet and a list of events, by this run of the events
unfoldable printed_by : (Saved → List (List ℕ) → List Entry) → List ℕ → List (List ℕ) → List (List ℕ)
printed_by by sheet events =
    cond (eqb (refused_sheet sheet) 0)
    (map (λ e. text_of (answer_line e.answer)) (by (fresh (settings_of sheet) (rows sheet)) events))
    (text_of (refusal_line (refused_sheet sheet)) ∷ [])

room : (sheet : List ℕ) → length (rows sheet) ≡ wanted (fresh_state (settings_of sheet))
unfolding rows
room sheet = length-replicate _ 0

good : (sheet : List ℕ) → refused_sheet sheet ≡ 0 → Good (settings_of sheet) (fresh (settings_of sheet) (rows sheet))
unfolding refused_start
good sheet e =
    start_good sheet (rows sheet) (rw (e, le-ltb (length (rows sheet)) (wanted (fresh_state (settings_of sheet))) (omega (arith, room sheet))))

once : (sheet : List ℕ) (events : List (List ℕ)) → printed_by run sheet events ≡ printed_by steps sheet events
unfolding printed_by
once sheet events = go (eqb (refused_sheet sheet) 0) refl
  where
    go : (z : Bool) → eqb (refused_sheet sheet) 0 ≡ z → printed_by run sheet events ≡ printed_by steps sheet events
    go true e =
        let g : Good (settings_of sheet) (fresh (settings_of sheet) (rows sheet)) = good sheet (eqb-true _ _ e) in
        rw (e, tested_once _ g.lengths (of_fit _ _ g.fit) events)
    go false e = rw e
"""


def bytes_list(data):
    return " ∷ ".join([str(b) for b in data] + ["[]"])


def lists(parts):
    return " ∷ ".join([f"({bytes_list(p)})" for p in parts] + ["[]"])


def definitions(crate, file):
    """The names that are `unfoldable pub` in a file of definitions."""
    text = (ROOT / "crates" / crate / "specs" / f"{file}.antt").read_text()
    return [line.split()[2] for line in text.splitlines() if line.startswith("unfoldable pub")]


def theorem(run):
    folder, name = VECTORS / run, run.replace("-", "_")
    sheet = (folder / "shares.txt").read_bytes() if (folder / "shares.txt").exists() else b""
    events = (folder / "events.bin").read_bytes()
    expected = (folder / "expected.txt").read_bytes()
    assert len(expected) % 12 == 0, run
    records = [events[i:i + 12] for i in range(0, len(events), 12)]
    lines = [expected[i:i + 12] for i in range(0, len(expected), 12)]
    opened = " ".join(f"{file}.{d}" for crate, file in OPENED for d in definitions(crate, file))
    return f"""
abbrev sheet_{name} : List ℕ
sheet_{name} = {bytes_list(sheet)}

abbrev events_{name} : List (List ℕ)
events_{name} = {lists(records)}

abbrev lines_{name} : List (List ℕ)
lines_{name} = {lists(lines)}

computed_{name} : printed_by steps sheet_{name} events_{name} ≡ lines_{name}
unfolding rows printed_by {opened}
computed_{name} = refl

v_{name} : printed_by run sheet_{name} events_{name} ≡ lines_{name}
v_{name} = once sheet_{name} events_{name} ∙ computed_{name}
"""


def main():
    names = sys.argv[1:] or sorted(p.name for p in VECTORS.iterdir() if p.is_dir())
    prover.build(BELOW)
    with tempfile.TemporaryDirectory() as folder:
        crate = Path(folder)
        (crate / "src").mkdir()
        (crate / "specs").mkdir()
        (crate / "src/lib.rt").write_text("// No code: runs of another scheduler, computed.\n")
        (crate / "specs/Lib.antt").write_text("pub mod Runs\n")
        opens = "".join(f"use Rattle.{owner}.specs.{file}\n" for owner, file in OPENED)
        (crate / "specs/Runs.antt").write_text(HEAD + opens + LINES + "".join(theorem(n) for n in names))
        said, status = prover.check(crate, "vectors", BELOW)
        if status != 0:
            for line in said.splitlines():
                if "error" in line:
                    print(line[:600])
            sys.exit("vectors: the model disagrees with a run")
    print(f"vectors: the model computes the {len(names)} runs as the other scheduler printed them")


if __name__ == "__main__":
    main()
