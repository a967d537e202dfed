#!/usr/bin/env python3
"""Brings the repository's own definitions, lemmas and record fields to one spelling: words in snake case.

Usage: tools/port/respell.py      at the top of the repository, once, right after the kit's port.py

port.py respells a name only where the library has it too. This does the same for the rest: `stateIn` and `thread-at` become `state_in` and
`thread_at`. Types and modules are in camel case already. Where a lemma and a definition would fall together (`thread-at` about `threadAt`), the lemma
gets `_law` after its name. Functions of src/, what is exported to C, strings, inputs and outputs keep their names.
"""

import os
import re
import sys

WORD = re.compile(r"[\w'₀-₉]+(?:-[\w'₀-₉]+)*")
# a name's declaration: `abbrev pub name .. : type`, `pub lemma : type`, a record's field, a constructor
DECLARED = re.compile(r"^(\s*)(?:abbrev |unfoldable )?(?:pub )?(?:abbrev |unfoldable )?(?:record |data )?([\w'₀-₉]+(?:-[\w'₀-₉]+)*)((?: [({].*)?) :(?: |$)")
IMPORT = re.compile(r"(?ms)^(?:ghost |pub )?use ([\w.\-]+)\.\{([^}]*)\}")
ALIAS = re.compile(r"(?m)^(?:ghost |pub )?use (Rattle\.[\w.\-]+) as ([\w\-]+)")


def snake(name):
    name = name.replace("-", "_")
    if name[0].islower():
        name = re.sub(r"(?<=[a-z0-9])([A-Z])", lambda m: "_" + m[1].lower(), name)
    return name


def files(root):
    for folder, dirs, names in os.walk(os.path.join(root, "crates")):
        dirs[:] = sorted(d for d in dirs if d not in ("out", "must-fail", "data"))
        for name in sorted(names):
            if name.endswith((".antt", ".rt")):
                yield os.path.join(folder, name)


def of_a_function(path):
    return "/proofs/" in path and os.path.basename(path) in ("Proof.antt", "Answers.antt", "Invariants.antt")


def declared(text):
    """Names that a file declares, and of them a record's fields."""
    all_of_it, fields, record = set(), set(), False
    for line in text.split("\n"):
        if line and not line[0].isspace():
            record = bool(re.match(r"(pub )?record ", line))
        m = DECLARED.match(line)
        if m and ";" not in line:
            all_of_it.add(m[2])
            if record and m[1]:
                fields.add(m[2])
    return all_of_it, fields


def main(root):
    texts = {}
    for path in files(root):
        with open(path, encoding="utf-8") as f:
            texts[path] = f.read()
    own = set(os.listdir(os.path.join(root, "crates")))
    names, fields, of_library = set(), set(), set()
    for path, text in texts.items():
        for m in IMPORT.finditer(text):
            parts = m[1].split(".")
            if parts[0] != "Rattle" or parts[1] not in own:
                of_library |= {w.strip() for w in m[2].split(",")}
        if path.endswith(".antt") and not of_a_function(path):
            d, f = declared(text)
            names |= d
            fields |= f
    turned = {n: snake(n) for n in names if snake(n) != n and n not in of_library}
    # Names that would fall together: a definition in camel case keeps the plain name, and a lemma gives way.
    taken = {}
    laws = {}
    for old in sorted(turned, key=lambda n: ("-" in n, n)):
        new = turned[old]
        if new in names and "-" not in old:
            laws[new] = new + "_law"
        elif new in taken or new in names:
            new += "_law"
        taken[new] = old
        turned[old] = new
    turned |= laws

    def respelled(path, text):
        aliases = {m[2] for m in ALIAS.finditer(text) if ".specs." in m[1] or re.search(r"\.proofs\.[A-Z]\w*$", m[1])}
        out, at = [], 0
        for m in WORD.finditer(text):
            word = m[0]
            if word not in turned:
                continue
            if word in laws and path.endswith(".rt"):
                continue
            before = text[m.start() - 1] if m.start() else ""
            if before == "." and ("-" in word or word in laws):
                qualifier = re.search(r"([\w\-']+)\.$", text[: m.start()])
                if word not in fields and not (qualifier and qualifier[1] in aliases):
                    continue
            if word in laws and text[m.end() : m.end() + 1] == ".":
                continue
            out.append(text[at : m.start()])
            out.append(turned[word])
            at = m.end()
        out.append(text[at:])
        return "".join(out)

    changed = 0
    for path, text in texts.items():
        new = respelled(path, text)
        if new != text:
            changed += 1
            with open(path, "w", encoding="utf-8") as f:
                f.write(new)
    print(f"{len(turned)} names, {changed} files")
    for old in sorted(laws):
        print(f"a lemma gave way: {old} is {laws[old]} now")
    for old in sorted(turned):
        if turned[old].endswith("_law") and old not in laws:
            print(f"a lemma gave way: {old} is {turned[old]} now")


if __name__ == "__main__":
    main(sys.argv[1] if len(sys.argv) > 1 else ".")
