#!/usr/bin/env python3
"""Turns a function's Proof.antt, which closed the borrow checker's goals by hand, into Invariants.antt and Answers.antt.

Usage: tools/port/answers.py NAMES CRATE [FUNCTION ..]      at the top of the repository

NAMES is the names.json that `rattle check --generated DIR --old-names` writes of the crate: each goal's name in a Proof.antt with its name in
Answers.antt, and so the steps of a proof. Answers that only said `search rules` are left out: the check tries that by itself. What it cannot turn it
says, and the check says what is wrong.
"""

import json
import os
import re
import sys

WORD = r"[\w'₀-₉ℕ𝓤𝓛]+(?:-[\w'₀-₉]+)*"


def norm(name):
    return name.replace("_", "-")


def items(text):
    """The file's imports as lines, and its declarations: name, kind, comment, signature, unfolding lines, body."""
    uses, decls, comment = [], [], []
    lines = text.split("\n")
    i = 0
    while i < len(lines):
        line = lines[i]
        if not line.strip():
            if comment and not decls and not uses:
                pass
            i += 1
            continue
        if line.startswith("--"):
            comment.append(line)
            i += 1
            continue
        if re.match(r"(pub )?use |module ", line):
            block = [line]
            i += 1
            while i < len(lines) and lines[i].startswith((" ", "\t")):
                block.append(lines[i])
                i += 1
            if comment and uses:
                uses += comment
            elif comment:
                uses += ["#" + c for c in comment]
            comment = []
            uses.append("\n".join(block))
            continue
        m = re.match(rf"((?:abbrev |unfoldable |pub |record |data )*)({WORD})", line)
        if not m:
            # a bracket that closes the item before
            decls[-1][3].append(line)
            i += 1
            continue
        block = [line]
        name = m[2]
        i += 1
        while i < len(lines):
            l = lines[i]
            if not l.strip():
                # a blank line ends the item unless it goes on, indented or with its own name
                j = i
                while j < len(lines) and not lines[j].strip():
                    j += 1
                if j < len(lines) and lines[j].startswith((" ", "\t")):
                    block += lines[i:j]
                    i = j
                    continue
                break
            if l.startswith((" ", "\t")) or l.startswith(("unfolding", "→")) or re.match(rf"{re.escape(name)}(?![\w'-])", l):
                block.append(l)
                i += 1
                continue
            break
        decls.append((name, m[1], comment, block))
        comment = []
    return uses, decls


def split(name, block):
    """Signature lines, unfolding lines, clause lines."""
    k = 1
    while k < len(block) and not block[k].startswith("unfolding") and not re.match(rf"{re.escape(name)}(?![\w'-])", block[k]):
        k += 1
    u = k
    while u < len(block) and block[u].startswith("unfolding"):
        u += 1
    return block[:k], block[k:u], block[u:]


class Names:
    def __init__(self, d):
        self.needs, self.asked = {}, {}
        for (old, new), (place, _) in zip(d["needs"], d["asked_at"]):
            self.needs[norm(old)] = new
            self.needs.setdefault(norm(new), new)
            self.asked[new] = norm(place)
        self.places, self.steps, self.below = {}, {}, {}
        for place, by_name, arm in zip(d["places"], d["places_by_name"], d["arms"]):
            name = norm(place[0])
            self.places[name] = by_name
            self.below[name] = norm(place[1]) if place[1] else None
            old, new = place[2]
            self.steps[name] = []
            # what has a name of Rattle's own keeps it: a field of the author's may have the same
            if old and (place[3] or re.match(r"(if|loop|in|match)\b", new) or not re.search(r"-\d+$", new)):
                self.steps[name] = [(norm(old), new, arm[2] if arm else [])]
        self.loops = {}
        for ((old, new), variables), changed in zip(d["loops"], d["changed"]):
            self.loops[norm(old)] = (new, variables, changed)

    def goal(self, need):
        n = norm(need)
        for it in (n, re.sub(r"^overflow-", "", n), re.sub(r"^(overflow|nonzero)-", "", n)):
            if it in self.needs:
                return self.needs[it]
        return None

    def path(self, text, place=None):
        """Paths through the steps of a proof, which are all fields of the last one now. place: where the proof stands, if that is known."""
        text = re.sub(r"\.before(?![\w'-])", "", text)
        steps = []
        while place in self.steps:
            steps += self.steps[place]
            place = self.below[place]
        if not steps:
            steps = [s for name in self.steps for s in self.steps[name]]
        fields = {}
        for old, new, arm in steps:
            fields.setdefault(old, (new, arm))

        def step(m):
            if norm(m[1]) not in fields:
                return m[0]
            new, arm = fields[norm(m[1])]
            for name, old, inner in arm:
                if inner and m[2] and m[2][1:] in inner:
                    return f".{new}.{name}"
            for name, old, inner in arm:
                if not inner and m[2]:
                    return f".{name}{m[2]}"
            return "." + new + (m[2] or "")

        return re.sub(rf"(?<=[\w')])\.({WORD})(\.{WORD})?", lambda m: step(m) if norm(m[1]) in fields else m[0], text)

    def types(self, text, said):
        def place(m):
            new = self.places.get(norm(m[1]))
            if not new:
                said.append(f"no place {m[1]}")
                return m[0]
            return "goal." + new

        text = re.sub(rf"tie\.((?:In|At|After|Then|Else|Start|Arm|Untold)\d*(?:-{WORD})?)((?: (?:invariant|decreases)-[\w-]+)*)", place, text)

        def need(m):
            new = self.goal(m[1])
            if not new:
                said.append(f"no goal {m[1]}")
                return m[0]
            return "goal." + new

        return re.sub(rf"tie\.Need-({WORD})((?: (?:invariant|decreases)-[\w-]+)*)", need, text)

    def place_in(self, sig):
        m = re.search(rf"tie\.((?:In|At|After|Then|Else|Start|Arm|Untold)\d*(?:-{WORD})?)", sig)
        return norm(m[1]) if m and norm(m[1]) in self.places else None


def turn(path, d, crate, module):
    said = []
    names = Names(d)
    with open(path, encoding="utf-8") as f:
        uses, decls = items(f.read())
    heads = [u[1:] for u in uses if u.startswith("#")]
    uses = [u for u in uses if not u.startswith("#") and not re.search(r"\.(Statement|Tie)(\.\{| as |$)", u)]
    invariants, answers, renamed = [], [], {}
    helpers = []
    for name, kind, comment, block in decls:
        whole = " ".join(split(name, block)[0])
        m = re.search(r": tie\.Need-(" + WORD + ")", whole)
        m2 = re.search(r": tie\.(invariant|decreases)-(" + WORD + ")", whole)
        if m and names.goal(m[1]):
            renamed[name] = names.goal(m[1])
        elif m2 and norm(m2[2]) in names.loops:
            renamed[name] = f"{m2[1]}-{names.loops[norm(m2[2])][0]}"

    def named(text):
        return re.sub(rf"(?<![\w'.\-])({WORD})", lambda m: renamed.get(m[1], m[1]), text)

    for name, kind, comment, block in decls:
        sig, unf, clauses = split(name, block)
        whole = " ".join(sig)
        m = re.search(r": tie\.Need-(" + WORD + ")", whole)
        if re.search(r"statement M", whole):
            continue
        m2 = re.search(r": tie\.(invariant|decreases)-(" + WORD + ")", whole)
        if m2:
            loop = names.loops.get(norm(m2[2]))
            if not loop:
                said.append(f"no loop {m2[2]}")
                continue
            new, variables, changed = loop
            head = " ".join(clauses)
            lhs, _, _ = head.partition(" =")
            args = lhs.split()[1:]
            first, last = [], []
            for v, c in zip(variables, changed):
                first.append(("l.initial." if c else "l.") + v)
                if c:
                    last.append("l." + v)
            meant = first + last
            if len(meant) != len(args):
                said.append(f"{name}: {len(args)} arguments, {len(meant)} expected ({variables} {changed})")
            text = "\n".join(clauses)
            body = text[text.index(" =") + 2 :]
            for a, v in zip(args, meant):
                if a == "_":
                    continue
                if re.search(rf"λ[^.]*(?<![\w']){re.escape(a)}(?![\w'₀-])[^.]*\.", body):
                    said.append(f"{name}: {a} is bound in it again")
                body = re.sub(rf"(?<![\w'.\-]){re.escape(a)}(?![\w'₀\-])", v, body)
            newname = f"{m2[1]}-{new}"
            invariants.append((comment, [f"abbrev pub {newname} : goal.{newname}"], unf, f"{newname} l ={body}"))
            continue
        if m:
            new = names.goal(m[1])
            if not new:
                said.append(f"no goal {m[1]}")
                new = m[1]
            text = "\n".join(clauses)
            if re.fullmatch(rf"{re.escape(name)} c(?: κs)? = search rules", text.strip()) and not unf:
                continue
            text = named(re.sub(rf"^{re.escape(name)} (\w+) κs\b", rf"{name} \1", text))
            if "κs" in text:
                said.append(f"{new}: κs is used")
            answers.append((comment, [f"pub {new} : goal.{new}"], unf, names.path(text, names.asked.get(new))))
            continue
        text = "\n".join(clauses)
        helpers.append((name, kind, comment, sig, unf, text))
    # helpers that an invariant uses stand beside it
    inv_text = "\n".join(t for _, _, _, t in invariants)
    shared, todo = [], [h for h in helpers]
    changed = True
    while changed:
        changed = False
        for h in list(todo):
            if re.search(rf"(?<![\w'.\-]){re.escape(h[0])}(?![\w'\-])", inv_text):
                shared.append(h)
                todo.remove(h)
                inv_text += "\n".join(h[3]) + h[5]
                changed = True
    order = {h[0]: k for k, h in enumerate(helpers)}
    shared.sort(key=lambda h: order[h[0]])
    folder = os.path.dirname(path)
    base = f"Rattle.{crate}.proofs.{module}"

    def shown(entries):
        out = []
        for comment, sig, unf, text in entries:
            out.append("\n".join([*comment, *sig, *unf, text]))
        return "\n\n".join(out) + "\n"

    wrote = []
    if invariants:
        pre = []
        for name, kind, comment, sig, unf, text in shared:
            s = "\n".join(sig)
            if "pub" not in kind:
                s = re.sub(rf"^((?:abbrev |unfoldable )?)({re.escape(name)})", r"\1pub \2", s)
            at = names.place_in(s)
            pre.append((comment, [names.types(names.path(s, at), said)], unf, names.path(named(text), at)))
        text = "\n".join([*heads, *uses, f"use {base}.Given as goal"]) + "\n\n" + shown(pre + invariants)
        with open(os.path.join(folder, "Invariants.antt"), "w", encoding="utf-8") as f:
            f.write(text)
        wrote.append("Invariants")
    entries = []
    for name, kind, comment, sig, unf, text in todo:
        at = names.place_in("\n".join(sig))
        entries.append((order[name], (comment, [names.types(names.path("\n".join(sig), at), said)], unf, names.path(named(text), at))))
    mine = [e for _, e in entries] + answers
    if answers:
        more = [f"use {base}.Goals as goal"]
        if shared:
            more.append(f"use {base}.Invariants.{{{', '.join(h[0] for h in shared)}}}")
        text = shown(mine)
        with open(os.path.join(folder, "Answers.antt"), "w", encoding="utf-8") as f:
            f.write("\n".join([*(heads if not invariants else []), *uses, *more]) + "\n\n" + text)
        wrote.append("Answers")
    os.remove(path)
    print(f"{module}: {' and '.join(wrote) or 'no file'}" + "".join(f"\n  by hand: {s}" for s in said))


def main(argv):
    with open(argv[0]) as f:
        made = json.load(f)
    crate, only = argv[1], argv[2:]
    root = f"crates/{crate}/proofs"
    for folder, _, files in sorted(os.walk(root)):
        if "Proof.antt" not in files:
            continue
        module = os.path.relpath(folder, root).replace("/", ".")
        if only and module not in only:
            continue
        key = f"Rattle-{crate}-proofs.{module}.Lts"
        path = os.path.join(folder, "Proof.antt")
        with open(path, encoding="utf-8") as f:
            if "tie.close" not in f.read():
                print(f"{module}: a walk by hand")
                continue
        if key not in made:
            print(f"{module}: no names")
            continue
        turn(path, made[key], crate, module)


if __name__ == "__main__":
    main(sys.argv[1:])
