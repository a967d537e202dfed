#!/usr/bin/env python3
"""The places of the design pass (docs/DESIGN-PASS.md), found in the sources by their text.

    tools/port/places.py [FOLDER] [POINT ..]    in the crates of a folder (this repository), all points or some

It prints a line for each place, and how many there are of each kind. It knows no meaning: what it lists is read by a person, and what it cannot see
(twins, say) the page lists by name.
"""
import re
import sys
from pathlib import Path

FUNCTION = re.compile(r"^ *(?:pub )?(?:extern \"C\" )?fn (\w+)(?:<[^>]*>)?\(", re.M)


def sources(root):
    for path in sorted(root.glob("crates/*/src/*.rt")):
        yield path.relative_to(root), path.read_text()


def proofs(root):
    for path in sorted(root.glob("crates/*/proofs/**/Answers.antt")):
        yield path.relative_to(root), path.read_text()


def lines(root, pattern, files=sources):
    """The lines that have the pattern, comments left out."""
    for path, text in files(root):
        for number, line in enumerate(text.splitlines(), 1):
            if not line.lstrip().startswith(("//", "--")) and re.search(pattern, line):
                yield f"{path}:{number}: {line.strip()}"


def parameters(text):
    """Each function's name, the line where it stands, and its parameters as written."""
    for m in FUNCTION.finditer(text):
        depth, words, at = 0, [""], m.end()
        while depth >= 0:
            c = text[at]
            depth += (c in "([<") - (c in ")]>" and text[at - 1] != "-")
            if c == "," and not depth:
                words.append("")
            elif depth >= 0:
                words[-1] += c
            at += 1
        yield m[1], text[: m.start()].count("\n") + 1, [w.strip() for w in words if w.strip()]


def many(root, most=7):
    """Functions with more parameters than these."""
    for path, text in sources(root):
        for name, line, words in parameters(text):
            if len(words) > most:
                yield f"{path}:{line}: {name} has {len(words)} parameters"


def together(root):
    """Arrays of one length beside each other among a function's parameters, and an array with a length beside it."""
    for path, text in sources(root):
        for name, line, words in parameters(text):
            kinds = [re.sub(r"^[^:]*: |&|mut |'\w+ ", "", word) for word in words]
            arrays = sorted({kind for kind in kinds if kind.startswith("[") and kinds.count(kind) > 1})
            if arrays:
                yield f"{path}:{line}: {name}: " + ", ".join(f"{kinds.count(kind)} of {kind}" for kind in arrays)
            elif any(re.match(r"(n|queued|count|size|room): ", word) for word in words) and any(kind.startswith("[") for kind in kinds):
                yield f"{path}:{line}: {name}: an array and a length"


def facts(root):
    """A fact about a number that stands in the requires of three functions or more, by its bound."""
    found = {}
    for path, text in sources(root):
        for m in re.finditer(r"requires (?:\w+ )?\{(.*?)\}\s*\n\s*(?:ensures|\{)", text, re.S):
            for fact in set(re.findall(r"\b(\w+(?:\.\w+)*) (<|≤) (16|64|7|1)\b", m[1])):
                found.setdefault(f"{fact[0].split('.')[0]} {fact[1]} {fact[2]}", []).append(str(path))
            for fact in set(re.findall(r"length «?\w+»?(?:\.\w+)* ≡ (\d+)", m[1])):
                found.setdefault(f"length ≡ {fact}", []).append(str(path))
            for fact in set(re.findall(r"\b(QueueStored|Limits|distinct|Lined)\b", m[1])):
                found.setdefault(fact, []).append(str(path))
    for fact, where in sorted(found.items()):
        if len(where) > 2:
            yield f"{fact}: in {len(where)} contracts ({', '.join(sorted(set(where)))})"


def copied(root):
    """Structs that are built field by field from the fields of another, and locals that only have a field's name."""
    yield from lines(root, r"^\s+(\w+): \w+(\.\w+)*\.\1,$")
    yield from lines(root, r"^\s+(\w+): \1,$")
    yield from lines(root, r"^\s+let (mut )?(\w+) = (\w+\.)+\2;$")


POINTS = {
    1: [("an enum with a case that holds a value", lambda r: lines(r, r"^    [A-Z]\w*\(.*\),$")),
        ("a flag, or an outcome, in a struct", lambda r: lines(r, r"^    (pub )?\w+: (bool|Outcome|Result<\(\), \w+>),$")),
        ("a flag as a number", lambda r: lines(r, r"^    (pub )?(stated|exists|ready): u\d+,$")),
        ("a number that stands for none", lambda r: lines(r, r"(?<!=)\b(255|255u8|IDLE)\b")),
        ("a number for a kind or a policy", lambda r: lines(r, r"^    (pub )?(policy|kind|edition): u\d+,$|const \w+: u8 = \d+;$"))],
    2: [("functions that the page names as twins", lambda r: lines(
        r, r"fn (create|forget|refused_ready|refused_block|raise|lower|highest|smallest|text|put|line|write|number|mode_number|outcome_number|verdict_numbers|least"
           r"|smaller|larger|block_size|sized|bytes_of|words_of|enter|percents|amounts|shares_from)\b")),
        ("types that the page names as twins", lambda r: lines(r, r"struct (Peak|Front|Cycles|Ticks|Percent)\b")),
        ("constants that the page names as twins", lambda r: lines(r, r"const IDLE\b"))],
    3: [("while and loop", lambda r: lines(r, r"^\s*(let \w+ = )?('\w+: )?(while|loop)\b"))],
    4: [("a conversion by a function", lambda r: lines(
        r, r"fn (number|mode_number|outcome_number|verdict_numbers|packed|form_of|stamp_of|word|wide|settings_in|keep_settings|clock_in|keep|percents|amounts|flag_in|line|level_of)\b")),
        ("copied field by field, or into a local of a field's name", copied),
        ("a method of the library called as a function", lambda r: lines(r, r"(?<![.\w])(std::num::)?(wrapping_\w+|u16::trailing_zeros)\("))],
    5: [("more than seven parameters", many), ("a fact in three contracts or more", facts)],
    6: [("arrays beside each other, or an array with a length", together)],
    7: [("a match on which step to run", lambda r: lines(r, r"match (action|event\.action|kind)\b"))],
    8: [("an answer that says no more than `search rules` or `refl`", lambda r: lines(r, r"^[\w+-]+ c = (search rules|refl)$", proofs))],
}


def main():
    words = sys.argv[1:]
    root = Path(words.pop(0)) if words and not words[0].isdigit() else Path(__file__).resolve().parent.parent.parent
    for point in map(int, words or POINTS):
        for kind, find in POINTS[point]:
            found = list(find(root))
            print(*(f"{point}  {place}" for place in found), f"point {point}: {len(found)} times {kind}", sep="\n")


if __name__ == "__main__":
    main()
