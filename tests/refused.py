#!/usr/bin/env python3
"""Each fault that must be refused is refused where it must be, and because a fact no longer holds.

    tests/refused.py [CRATE ..]    all crates, or the named ones

The prover refuses an edit for any error at all; this asks for an error in the proof that the edit names, at the goal that it names or at the first
one there, and that it is about a fact. That a name or a step of the proof is gone, or that something else is not proved, shows nothing. Each fault is
alone: in code the faulty function is checked beside the right one, or in its place, with a copy of its proof files (edits.py says how), and a
statement with all that uses it is a copy of its own (tools/must-break/edited.py). In the faulty function a goal or a step may have another name than
in the right one, since a name tells what a condition asks: the copy of the proof cites it by that. Where a function has no proof file, or a goal has no
answer there, the prover's own line has to say that it finds no proof of what the function ensures, or of what a callee requires.
"""
import json
import os
import re
import shutil
import sys
import tempfile
import time
from concurrent.futures import ThreadPoolExecutor
from pathlib import Path

from edits import ROOT, beside, faults, functions, functions_of

sys.path.insert(0, str(ROOT / "tools/must-break"))
from edited import Edit, broken, prover  # noqa: E402

# an error's file below proofs/, the goal that it is about, if it says one, and all that it says
ERROR = re.compile(r"^\./proofs/(\S+?)/\w+\.antt:\d+:\d+: error: (?:`([^`]*)`: )?(.*(?:\n  .*)*)", re.M)
# what is said of a function, after the goals that stay open in it
LINE = re.compile(r"^(?:note: src/\S+: ((?:it is not proved that|`search` found no proof) .*)|fn (\S+): (.*))$", re.M)
OPEN = re.compile(r"(?:it is not proved that|`search` found no proof) .*?\(`([^`]+)`\)")
# a name or a step of the proof is gone or stands elsewhere: none of that is about a fact
SHOWS_NOTHING = re.compile(r"has no\s+(`|field)|\(nearest: |is not in scope|no occurrence|was not admitted|that can be named from here")
WORD = re.compile(r"[\w'₀-₉]+(?:[-+][\w'₀-₉]+)*")


def put_beside(crate, tried, folder):
    """A copy of a crate with each fault's functions beside the right ones, and with copies of the proofs that must break; gives where those are."""
    prover.copy(crate, folder)
    places = []
    for number, fault in enumerate(tried):
        path, _, name = fault.breaks.rpartition("::")
        for file, _, faulty in fault.functions():
            with open(folder / file, "a") as source:
                source.write(faulty.beside(number))
        proofs = folder / "proofs" / path.replace("::", "/") / name
        if proofs.is_dir():
            shutil.copytree(proofs, proofs.with_name(beside(name, number)))
        places.append(f"{path}::{beside(name, number)}".removeprefix("::"))
    return places


def put_in_place(crate, tried, folder):
    """A copy of a crate with each fault's functions in the place of the right ones; gives where the proofs are that must break."""
    prover.copy(crate, folder)
    for fault in tried:
        for file, right, faulty in fault.functions():
            text = (folder / file).read_text()
            (folder / file).write_text(functions(text)[right.name].put(text, faulty.text))
    return [fault.breaks for fault in tried]


def copies(tried):
    """The faults as one copy of a crate can have them: those that stand beside, and of the others no two in one function."""
    found = [(put_beside, [])]
    for fault in tried:
        names = {(file, right.name) for file, right, _ in fault.functions()}
        if not any(right.of_trait for _, right, _ in fault.functions()):
            found[0][1].append(fault)
            continue
        for put, there in found[1:]:
            if not names & {(file, right.name) for other in there for file, right, _ in other.functions()}:
                there.append(fault)
                break
        else:
            found.append((put_in_place, [fault]))
    return found


def names_of(crate, folder):
    """The names of each function's goals, places and steps, by the function."""
    flags = ["--generated", str(folder / "names"), "--old-names"]
    said, status = prover.check(folder, crate, prover.USES[crate], *flags)
    assert status == 0, f"{crate}: {said[:2000]}"
    told = json.loads((folder / "names/names.json").read_text())
    told = {key.removeprefix(f"Rattle-{crate}-proofs.").removesuffix(".Lts").replace(".", "::"): told[key] for key in told}
    return told


def other_names(right, faulty):
    """The names that the goals, places and steps of a function have in the faulty one, where that has as many, place by place."""
    pairs = []
    for of in (lambda d: [new for _, new in d["needs"]], lambda d: d["places_by_name"], lambda d: [place[2][1] for place in d["places"]]):
        if len(of(right)) == len(of(faulty)):
            pairs += zip(of(right), of(faulty))
    found = {}
    for one, other in pairs:
        if one and other:
            found.setdefault(one, set()).add(other)
            # in a name that joins several places each begins small
            found.setdefault(one[0].lower() + one[1:], set()).add(other[0].lower() + other[1:])
    return {one: others.pop() for one, others in found.items() if len(others) == 1}


def cite(crate, fault, place, right, faulty, folder):
    """Has the proof of a faulty function name its goals and steps; gives the present name of the goal that must be open."""
    other = other_names(right[fault.breaks], faulty[place]) if place in faulty else {}
    here, there = (".".join(["Rattle", crate, "proofs", *path.split("::")]) for path in (fault.breaks, place))
    for file in (folder / "proofs" / place.replace("::", "/")).glob("*.antt"):
        text = re.sub(rf"{re.escape(here)}(?=[.\s;]|$)", there, file.read_text())
        file.write_text(WORD.sub(lambda m: "+".join(other.get(part, part) for part in m[0].split("+")), text))
    return other.get(fault.goal, fault.goal)


def said_of(said, crate):
    """What the prover said of each function's proof: of each goal with an error or left open, its name and the words."""
    found, opened = {}, []
    for path, goal, text in ERROR.findall(said):
        found.setdefault(path.replace("/", "::"), []).append((goal, text))
    for note, function, _ in LINE.findall(said):
        if note:
            opened.append(note)
        else:
            function = function.removeprefix(f"{crate}::")
            found.setdefault(function, []).extend((m[1], note) for note in opened if (m := OPEN.match(note)))
            opened = []
    return found


def wrong(errors, place, goal):
    """What is wrong with a refusal, whose errors in the place of the fault are given; or None."""
    there = [(g, text) for g, text in errors if goal in ("", g)]
    if not there:
        return f"no error in {place} {goal}"
    if SHOWS_NOTHING.search(there[0][1]):
        return f"the first error of {place} shows nothing: {there[0][0]}: {there[0][1][:300]}"
    return None


def in_code(crate, tried):
    """What is wrong with the refusal of each fault in a crate's code."""
    whys, log, right = {}, "", None
    with tempfile.TemporaryDirectory() as at:
        for number, (put, some) in enumerate(copies(tried)):
            folder = Path(at) / str(number)
            places = put(crate, some, folder)
            names = names_of(crate, folder)
            if not right:
                right = names  # the first copy has every right function
                for path in functions_of(ROOT / "crates" / crate):
                    assert path in right, f"{crate}: the prover has another name for {path}"
            if not some:
                continue
            goals = [cite(crate, fault, place, right, names, folder) for fault, place in zip(some, places)]
            flags = [word for place in places for word in ("--only", place)]
            said, _ = prover.check(folder, crate, prover.USES[crate], *flags, work=prover.kept([crate], folder / "kept"))
            log += said
            found = said_of(said, crate)
            for fault, place, goal in zip(some, places, goals):
                why = wrong(found.get(place, []), fault.breaks, goal) if place in names else f"{fault.breaks} has no proof for another reason"
                whys[fault.edit, fault.label] = why
    keep(crate, log)
    return [whys[fault.edit, fault.label] for fault in tried]


def in_statements(crate, tried):
    """What is wrong with the refusal of each fault in a crate's statements."""
    edits = [Edit(ROOT / "crates" / crate / "must-fail" / f"{fault.edit}.edit") for fault in tried]
    said, refused = broken([(edit, crate, edit.breaks) for edit in edits])
    keep(crate, said)
    return [None if where else why for where, why in refused]


def keep(crate, said):
    log = ROOT / f"target/refused/{crate}.log"
    log.parent.mkdir(parents=True, exist_ok=True)
    log.write_text(said)


def main():
    begin, by_crate = time.monotonic(), {}
    for fault in faults():
        if not sys.argv[1:] or fault.crate in sys.argv[1:]:
            by_crate.setdefault((fault.crate, fault.in_code()), []).append(fault)
    prover.build({*prover.below({crate for crate, _ in by_crate}), *(crate for crate, of_code in by_crate if not of_code)})
    # those first that take long: with many faults, or over many crates
    order = sorted(by_crate, key=lambda key: -len(by_crate[key]) - 3 * len(prover.USES[key[0]]))
    with ThreadPoolExecutor(int(os.environ.get("RT_JOBS") or os.cpu_count())) as pool:
        results = dict(zip(order, pool.map(lambda key: (in_code if key[1] else in_statements)(key[0], by_crate[key]), order)))
    bad = 0
    for key, tried in by_crate.items():
        for fault, why in zip(tried, results[key]):
            bad += bool(why)
            if why:
                print(f"refused: {fault.crate} {fault.label}: {why}")
    tried = [fault for each in by_crate.values() for fault in each]
    edits = len({(fault.crate, fault.edit) for fault in tried})
    print(f"refused: {len(tried) - bad} of {len(tried)} faults, in {edits} edits, where they must be, in {time.monotonic() - begin:.0f} s")
    sys.exit(bool(bad))


if __name__ == "__main__":
    main()
