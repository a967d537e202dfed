#!/usr/bin/env python3
"""Turns the faults that must be refused, and what shows them to be faults, to today's spelling.

Usage: tools/port/edits.py LANDED NAMES      at the top of the repository, once, after port.py and respell.py

LANDED is the commit that the faults were written for, and NAMES/CRATE/names.json is what `rattle check --generated NAMES/CRATE --old-names` writes: each
goal's older name with the present one, for the goals that faults name. Each fault of crates/*/must-fail/*.edit and tools/must-break/*.edit is put into a copy of the
file that it changes, as that stood in LANDED; so are the proofs that faults are faults (LABEL.refuted, tests/refuted/*.txt). The kit's port.py and
respell.py then turn the whole tree with these copies in it, and what a copy differs in from the turned file is the fault in today's spelling. It is
written over the old one between the same words, so that a fault keeps its file, its place and its name, and is refused here unless

- the text that it replaces stands exactly once in the file as it is today, and
- put into the turned file it gives what the scripts made of the faulty file, up to layout.

The lines that rt does not read, `fault:`, `breaks:` and `shown:`, begin with a # now, so that rt takes them for comments. In must-fail/ rt wants edits
alone: what shows those faults false goes to tests/refuted/CRATE.
"""

import importlib.util
import json
import os
import re
import shutil
import subprocess
import sys
import tempfile
from pathlib import Path

ROOT = Path(subprocess.run(["git", "rev-parse", "--show-toplevel"], capture_output=True, text=True, check=True).stdout.strip())
KIT = Path(subprocess.run(["rt", "doc"], capture_output=True, text=True, check=True).stdout.strip()).parent
LINES = ("file", "old", "new")


def loaded(path):
    spec = importlib.util.spec_from_file_location(path.stem, path)
    made = importlib.util.module_from_spec(spec)
    spec.loader.exec_module(made)
    return made


# ---- the faults


class Fault:
    """The pairs of one fault, each with its file from the root and the line of the edit where it begins."""

    def __init__(self, edit, label):
        self.edit, self.label, self.pairs = edit, label, []

    def files(self):
        return list(dict.fromkeys(file for file, _, _, _ in self.pairs))

    def of(self, file):
        return [(old, new, line) for f, old, new, line in self.pairs if f == file]


def faults(path):
    base = f"crates/{path.parts[-3]}/" if path.parent.name == "must-fail" else ""
    found, file, old, at = [], None, None, None
    for number, line in enumerate(path.read_text().split("\n")):
        word, _, rest = line.removeprefix("# ").partition(":")
        rest = rest.removeprefix(" ")
        if word == "fault":
            found.append(Fault(path, rest))
        elif word == "file":
            file = base + rest
        elif word == "old":
            old, at = rest, number
        elif word == "new":
            if not found:
                found.append(Fault(path, path.stem))
            found[-1].pairs.append((file, old, rest, at))
    return found


def put(text, pairs, what):
    """The text with the pairs put in, all at once."""
    places = []
    for old, new, _ in pairs:
        assert text.count(old) == 1, f"{what}: {text.count(old)} times: {old}"
        places.append((text.index(old), old, new))
    for at, old, new in sorted(places, reverse=True):
        text = text[:at] + new + text[at + len(old) :]
    return text


# ---- the turned tree


def turned(landed, every, beside):
    """A folder with the tree of LANDED turned: in it each faulty file, and each module of `beside`; and where they are."""
    top = Path(tempfile.mkdtemp(prefix="edits-"))
    tree = subprocess.run(["git", "archive", landed, "crates", "crates.txt"], cwd=ROOT, capture_output=True, check=True).stdout
    subprocess.run(["tar", "-x", "-C", top], input=tree, check=True)
    # a function's own proof names nothing that others use, and takes most of the time
    for proof in top.glob("crates/*/proofs/**/Proof.antt"):
        proof.unlink()
    places = {}
    for number, fault in enumerate(every):
        for file in fault.files():
            whole = (top / file).read_text()
            copy = Path(file).with_name(f"{Path(file).stem}Fault{number}{Path(file).suffix}")
            (top / copy).write_text(put(whole, fault.of(file), f"{fault.edit}: {fault.label}: {file}"))
            places[fault, file] = copy
    specs = top / "crates/refuted/specs"
    specs.mkdir(parents=True)
    (top / "crates/refuted/src").mkdir()
    (top / "crates/refuted/src/lib.rt").write_text("// What shows faults false.\n")
    for name, text in beside.items():
        (specs / f"{name}.antt").write_text(text)
    (specs / "Lib.antt").write_text("".join(f"pub mod {name}\n" for name in beside))
    with open(top / "crates.txt", "a") as listed:
        listed.write("refuted: lists refusals units sheet model invariants guarantee cases sessions\n")
    git = ["git", "-c", "user.name=port", "-c", "user.email=port@localhost"]
    for words in (["init", "-q"], ["add", "-A"], ["commit", "-qm", "what had landed, with each faulty file beside the file"]):
        subprocess.run([*git, *words], cwd=top, check=True)
    port = loaded(KIT / "port/port.py")
    port.SAID = str(top / "said")
    assert port.turn(str(top)) == 0
    loaded(ROOT / "tools/port/respell.py").main(str(top))
    for crate in sorted((top / "crates").iterdir()):
        subprocess.run(["rt", "fmt"], cwd=crate, capture_output=True)
    return top, places


# ---- a fault in today's spelling

TOKEN = re.compile(r"[\w'′₀-₉]+(?:-[\w'′₀-₉]+)*|\s+|.")
WORD = re.compile(r"[^\s().]+")


def words(text):
    return [m for m in TOKEN.findall(text) if WORD.fullmatch(m)]


def flat(text):
    """A text without its layout, and without the order of the names that a line imports."""
    text = re.sub(r"(?m)^(use [^{\n]*\{)([^}]*)\}", lambda m: m[1] + ", ".join(sorted(n.strip() for n in m[2].split(","))) + "}", text)
    return re.sub(r",(?=[)\]}])", "", re.sub(r"\s+", "", text))


def joined(lines):
    """Lines as one, in which the same is said."""
    return " ".join([lines[0].rstrip(), *[line.strip() for line in lines[1:] if line.strip()]])


def hunks(old, new):
    """The lines in which two texts differ: (old line, new line), or (old lines, new lines) where they are not as many."""
    one, other = old.split("\n"), new.split("\n")
    if len(one) == len(other):
        return [([a], [b]) for a, b in zip(one, other) if a != b]
    with tempfile.TemporaryDirectory() as folder:
        for name, text in (("a", old), ("b", new)):
            Path(folder, name).write_text(text)
        said = subprocess.run(["diff", "--minimal", "a", "b"], cwd=folder, capture_output=True, text=True).stdout
    found = []
    for line in said.split("\n"):
        if re.match(r"\d", line):
            found.append(([], []))
        elif line.startswith("< "):
            found[-1][0].append(line[2:])
        elif line.startswith("> "):
            found[-1][1].append(line[2:])
        elif line in ("<", ">"):
            found[-1][line == ">"].append("")
    return found


def edge(line, count):
    """Where a line's word of a number begins, and where the word before it ends."""
    seen = ended = 0
    for m in TOKEN.finditer(line):
        if WORD.fullmatch(m[0]):
            if seen == count:
                return ended, m.start()
            seen += 1
            ended = m.end()
    return ended, len(line)


def same_part(landed, old, base):
    """The part of a turned line that stands for `old` in the line as it had landed, or None."""
    at = landed.index(old)
    before, inside, after = words(landed[:at]), words(old), words(landed[at + len(old) :])
    if len(words(landed)) != len(words(base)) or before + inside + after != words(landed):
        return None
    begin, end = edge(base, len(before)), edge(base, len(before) + len(inside))
    # brackets before the first word, and the line's indentation
    starts = [a for a in range(begin[0], begin[1] + 1) if not base[a : begin[1]].strip("( ")]
    ends = [b for b in range(end[0], end[1] + 1) if not base[end[0] : b].strip(") ")]
    blank = lambda text: len(text) - len(text.lstrip())
    found = []
    for part in (base[a:b] for a in starts for b in ends):
        if part.count("(") - part.count(")") == old.count("(") - old.count(")") and part[-1:].isspace() == old[-1:].isspace():
            found.append((abs(blank(part) - blank(old)), abs(part.count("(") - old.count("(")), len(part), part))
    return min(found)[-1] if found else None


def by_words(base, faulty, today):
    """The one place in which two texts differ, whatever their layout, as a pair of which the first stands once in the file of today."""
    one, other = ([m for m in TOKEN.finditer(text) if m[0].strip()] for text in (base, faulty))
    head = tail = 0
    while head < min(len(one), len(other)) and one[head][0] == other[head][0]:
        head += 1
    while tail < min(len(one), len(other)) - head and one[-1 - tail][0] == other[-1 - tail][0]:
        tail += 1
    while True:
        for wide in range(40):
            for left in range(wide + 1):
                a, b = head - left, len(one) - tail + wide - left
                if a < 0 or b > len(one) or a == b:
                    continue
                old = base[one[a].start() : one[b - 1].end()]
                if "\n" not in old and today.count(old) == 1:
                    c, d = a, len(other) - len(one) + b
                    new = joined((faulty[other[c].start() : other[d - 1].end()] if c < d else "").split("\n"))
                    # the whole line, where that stands once too
                    line = base[base.rfind("\n", 0, one[a].start()) + 1 : base.index("\n", one[b - 1].end())].strip()
                    return (line, line.replace(old, new)) if today.count(line) == 1 and line.count(old) == 1 else (old, new)
        # what is put in may begin a word earlier
        if head + tail < len(one) or not head or one[head - 1][0] != other[-1 - tail][0]:
            break
        head, tail = head - 1, tail + 1
    raise AssertionError("nothing there stands once today")


def brings(was, becomes):
    """The names that a line of imports gets, as a pair at the line's first name."""
    one, other = ([n.strip() for n in line.partition("{")[2].rstrip("}").split(",")] for line in (was, becomes))
    assert set(one) < set(other), f"{was} becomes {becomes}"
    head = was[: was.index("{") + 1] + one[0]
    return head, ", ".join([head, *[n for n in other if n not in one]])


def pairs_of(fault, file, landed, base, faulty, today):
    """The pairs of a fault in a file, in today's spelling and in the order of the old ones; None for a pair that another took in."""
    pairs = [(old, new) for old, new, _ in fault.of(file)]
    if all(base.count(old) == today.count(old) == 1 for old, _ in pairs) and flat(put(base, [(*p, 0) for p in pairs], "")) == flat(faulty):
        return pairs
    made = hunks(base, faulty)
    in_imports = [p for p in pairs if p[0].startswith("use ")]
    if len(pairs) == 1 and not in_imports and (len(made) != 1 or len(made[0][0]) != 1):
        return [by_words(base, faulty, today)]
    # a line of imports takes in what several pairs bring
    kept = [p for p in pairs if p not in in_imports[1:]]
    assert len(made) == len(kept) and all(len(was) == 1 for was, _ in made), f"{len(pairs)} pairs, {len(made)} places: {made}"
    found = {}
    for (old, new), (was, becomes) in zip(sorted(kept, key=lambda p: landed.index(p[0])), made):
        was, becomes = was[0], joined(becomes)
        if old.startswith("use "):
            found[old, new] = brings(was, becomes)
            continue
        part = same_part(next(line for line in landed.split("\n") if old in line), old, was)
        if part and today.count(part) == 1 and was.count(part) == 1:
            head, _, tail = was.partition(part)
            if becomes.startswith(head) and becomes.endswith(tail) and len(becomes) >= len(head) + len(tail):
                found[old, new] = part, becomes[len(head) : len(becomes) - len(tail)]
                continue
        found[old, new] = (was, becomes) if today.count(was) == 1 else by_words(was, becomes, today)
    return [found.get(p) for p in pairs]


# ---- the other lines of an edit


def goal_of(names, crate, function, claim):
    """The present name of a goal of a function."""
    listed = Path(names, crate, "names.json")
    if not listed.exists():
        print(f"by hand: {crate} {function} at {claim}: no {listed}")
        return claim
    told = json.loads(listed.read_text())
    [needs] = [told[key]["needs"] for key in told if key.endswith(f"-proofs.{function.replace('::', '.')}.Lts")]
    claim = "loop-preserved" if claim == "loop-again" else claim
    [goal] = [new for old, new in needs if old.replace("_", "-") == claim.replace("_", "-")]
    return goal


def label_of(line, crate, names, snake):
    """A line `fault:`, `breaks:` or `shown:` as it is now."""
    word, _, rest = line.partition(": ")
    if word == "breaks" and " at " in rest:
        function, _, claim = rest.partition(" at ")
        rest = f"{function} at {goal_of(names, crate, function, claim)}"
    elif word == "shown":
        rest = " ".join([rest.split()[0], snake(rest.split()[1])])
    return f"# {word}: {rest}"


# ---- what shows faults false

IMPORT = re.compile(r"(?m)^use ([\w.◌']+)(?:\.\{([^}]*)\})?$")


def imports(text):
    """A module's imports: the names of each module, or None for a module that is taken whole."""
    found = {}
    for m in IMPORT.finditer(text):
        found.setdefault(m[1], []).extend(n.strip() for n in m[2].split(",")) if m[2] else found.setdefault(m[1], [])
    return found


def without(text, head):
    """A module without the imports of the head that stands before it."""
    has, lines = imports(head), []
    for line in text.split("\n"):
        m = IMPORT.match(line)
        if m and m[2]:
            names = [n.strip() for n in m[2].split(",") if n.strip() not in has.get(m[1], [])]
            if not names:
                continue
            line = f"use {m[1]}.{{{', '.join(names)}}}"
        elif m and m[1] in has:
            continue
        lines.append(line)
    return re.sub(r"\n{3,}", "\n\n", "\n".join(lines)).strip("\n") + "\n"


def module_name(label):
    return "Of" + "".join(part.capitalize() for part in label.split("_"))


def main(landed, names_at):
    paths = sorted([*ROOT.glob("crates/*/must-fail/*.edit"), *ROOT.glob("tools/must-break/*.edit")])
    every = [fault for path in paths for fault in faults(path)]
    head = subprocess.run(["git", "show", f"{landed}:tests/refuted.py"], cwd=ROOT, capture_output=True, text=True, check=True).stdout
    head = re.search(r'^HEAD = """(.*?)"""', head, re.M | re.S)[1]
    shown = sorted([*ROOT.glob("crates/*/must-fail/*.refuted"), *ROOT.glob("tools/must-break/*.refuted"), *ROOT.glob("tests/refuted/*.txt")])
    names = {}
    for path in shown:
        name = path.stem if path.suffix == ".txt" else module_name(path.stem)
        names[path] = name if name not in names.values() else name + "Again"
    # what stands above the imports stays above them
    beside = {names[p]: re.sub(r"\A((?:--.*\n)*)", lambda m: m[1] + head, p.read_text(), count=1) for p in shown}
    top, places = turned(landed, every, beside | {"OfNone": head + "\nabbrev pub nothing : ℕ\nnothing = 0\n"})
    wrong, texts = 0, {}
    for fault in every:
        for file in fault.files():
            try:
                was = subprocess.run(["git", "show", f"{landed}:{file}"], cwd=ROOT, capture_output=True, text=True, check=True).stdout
                base, faulty, today = (top / file).read_text(), (top / places[fault, file]).read_text(), (ROOT / file).read_text()
                found = pairs_of(fault, file, was, base, faulty, today)
                there = [(*pair, 0) for pair in found if pair]
                put(today, there, "today")
                assert flat(put(base, there, "turned")) == flat(faulty), f"it gives another text than the scripts: {there}"
            except AssertionError as error:
                print(f"by hand: {fault.edit.name} {fault.label}: {file}: {error}")
                wrong += 1
                continue
            lines = texts.setdefault(fault.edit, fault.edit.read_text().split("\n"))
            for (_, _, n), pair in zip(fault.of(file), found):
                lines[n], lines[n + 1] = (f"old: {pair[0]}", f"new: {pair[1]}") if pair else (None, None)
    snake = loaded(ROOT / "tools/port/respell.py").snake
    for path, lines in texts.items():
        crate = path.parts[-3]
        lines = [label_of(line, crate, names_at, snake) if line and line.split(":")[0] in ("fault", "breaks", "shown") else line for line in lines]
        path.write_text("\n".join(line for line in lines if line is not None))
    headless = (top / "crates/refuted/specs/OfNone.antt").read_text()
    for path in shown:
        # proofs call tactics, and stand in proofs/ now
        text = (top / f"crates/refuted/specs/{names[path]}.antt").read_text().replace("Rattle.refuted.specs.", "Rattle.refuted.proofs.")
        path.write_text(without(text, headless))
        if path.parent.name == "must-fail":
            to = ROOT / "tests/refuted" / path.parts[-3] / path.name
            to.parent.mkdir(exist_ok=True)
            path.rename(to)
    print(f"{len(every)} faults in {len(paths)} edits turned, {wrong} left by hand; {len(shown)} modules that show faults false")
    print(f"imports that each of these begins with:\n{headless}")
    print(f"what the scripts made: {top}")
    return bool(wrong)


if __name__ == "__main__":
    sys.exit(main(*sys.argv[1:]))
