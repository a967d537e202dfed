"""Definitions, statements and lemmas with a fault in them: an edit applied to a copy of the files in specs/ and proofs/ that it reaches.

An edit has the lines `file:` and then pairs of `old:` and `new:`, as the prover's own must-fail edits have. In crates/CRATE/must-fail a file is
named from its crate, in tools/must-break from the root. An edited file takes with it every file that uses it, definitions and lemmas: all of them are
copied as modules of a crate of their own, so that one check of that crate tries many edits, and no proof that breaks stands in the way of another.
"""
import re
import sys
import tempfile
from pathlib import Path

ROOT = Path(__file__).resolve().parent.parent.parent
sys.path.insert(0, str(ROOT / "tools"))
from lib import prover  # noqa: E402

USE = re.compile(r"Rattle\.(\w+)\.(specs|proofs)\.([A-Z]\w*)")
ERROR = re.compile(r"^\S*?/?(specs|proofs)/(\w+)/(\w+)/(\w+)\.antt:(\d+:\d+): (error: .*|unsolved .*|.* is not admitted.*)", re.M)


class Edit:
    def __init__(self, path):
        self.path, self.label = path, path.stem
        self.crate = path.parent.parent.name if path.parent.name == "must-fail" else None
        self.breaks, self.shown, self.pairs = "", "", {}
        file = old = None
        for line in path.read_text().splitlines():
            word, _, rest = line.partition(": ")
            if word == "file":
                file = f"crates/{self.crate}/{rest}" if self.crate else rest
            elif word == "old":
                old = rest
            elif word == "new":
                self.pairs.setdefault(file, []).append((old, rest))
            elif word == "# breaks":
                self.breaks = rest
            elif word == "# shown":
                self.shown = rest
        assert self.pairs, f"{path}: no edit"

    def applied(self, file):
        """The text of a file from the root, with this edit's replacements made in it, all at once."""
        text, places = (ROOT / file).read_text(), []
        for old, new in self.pairs.get(file, []):
            assert old and text.count(old) == 1, f"{self.path.name}: its old text is not in {file} exactly once: {old}"
            places.append((text.index(old), old, new))
        for at, old, new in sorted(places, reverse=True):
            text = text[:at] + new + text[at + len(old):]
        return text

    def edited(self):
        return {module_of(file) for file in self.pairs}


def file_of(module):
    owner, side, name = module
    return f"crates/{owner}/{side}/{name}.antt"


def module_of(file):
    """A module, (crate, specs or proofs, name), by its file from the root."""
    _, owner, side, name = Path(file).parts
    return owner, side, name.removesuffix(".antt")


def uses(text, known):
    """The modules that a text uses, of those that are known."""
    return {m for m in USE.findall(text) if m in known}


def modules(*sides):
    """Every file of these sides, definitions or lemmas, with those of them that it uses."""
    paths = [p for side in sides for p in ROOT.glob(f"crates/*/{side}/*.antt") if p.stem != "Lib" and p.stem[0].isupper()]
    texts = {module_of(p.relative_to(ROOT)): p.read_text() for p in paths}
    return {m: uses(text, texts) for m, text in texts.items()}


def reached(edit, wanted, graph, below):
    """The modules to copy, of the wanted ones and those that they use: what the edit reaches, and whatever is of no crate below."""
    inside, todo = set(), list(wanted)
    while todo:
        m = todo.pop()
        if m not in inside:
            inside.add(m)
            todo += graph[m]
    there = {m for m in inside if m[0] not in below}
    if edit:
        assert edit.edited() <= inside, f"{edit.label}: nothing that is looked at uses the edited file"
        there |= edit.edited()
    while more := {m for m in inside if m not in there and graph[m] & there}:
        there |= more
    return there


def name_of(label):
    """A fault's label as a module's name."""
    return "".join(part.capitalize() for part in label.split("_"))


class Crate:
    """A crate of copies in a folder, on the crates below it as they were proved."""

    def __init__(self, folder, name, below):
        self.folder, self.name, self.below, self.files = Path(folder), name, below, {}

    def rewritten(self, text, copied, group):
        def path(m):
            owner, side, module = m.groups()
            return f"Rattle.{self.name}.{side}.{group}.{owner}.{module}" if (owner, side, module) in copied else m.group(0)
        return USE.sub(path, text)

    def add(self, group, module, text, copied):
        """A module of a group, copied from a crate, its owner; it uses the copies of its group where there are any."""
        self.files[(group, *module)] = self.rewritten(text, copied, group)

    def check(self):
        """What the prover says of it, whole."""
        (self.folder / "src").mkdir(parents=True)
        (self.folder / "src/lib.rt").write_text("// No code: definitions and statements with faults in them.\n#![tactic(auto)]\n")
        mods = {}
        for (group, owner, side, module), text in self.files.items():
            place = self.folder / side / group / owner / f"{module}.antt"
            place.parent.mkdir(parents=True, exist_ok=True)
            place.write_text(text)
            mods.setdefault(f"{side}/Lib", set()).add(group)
            mods.setdefault(f"{side}/{group}", set()).add(owner)
            mods.setdefault(f"{side}/{group}/{owner}", set()).add(module)
        for file, inside in mods.items():
            (self.folder / f"{file}.antt").write_text("".join(f"pub mod {m}\n" for m in sorted(inside)))
        prover.build(self.below)
        said, _ = prover.check(self.folder, self.name, self.below)
        return said


def errors(said):
    """What the prover said of each group: its errors as (owner, specs or proofs, module), the place and the words, in their order."""
    found = {}
    for side, group, owner, module, place, text in ERROR.findall(said):
        found.setdefault(group, []).append(((owner, side, module), place, text))
    return found


# that a name or a step of a proof is gone, or stands elsewhere, is about no fact
SHOWS_NOTHING = re.compile(r"has no\s+(`|field)|\(nearest: |is not in scope|no occurrence|was not admitted|that can be named from here")


def broken(tried):
    """Whether edits break what they must: each is tried on a copy of what uses the edited files, up to the file of a crate that must no longer be
    proved. Gives what the prover said, and of each edit the place of its first error, or None and what is wrong with that."""
    below = prover.below(crate for _, crate, _ in tried) + [crate for crate in prover.USES if crate in {c for _, c, _ in tried}]
    below = list(dict.fromkeys(below))
    graph, found = modules("specs", "proofs"), []
    with tempfile.TemporaryDirectory() as folder:
        crate = Crate(Path(folder) / "broken", "broken", below)
        for edit, owner, file in tried:
            there = reached(edit, [module_of(f"crates/{owner}/{file}")], graph, below)
            for module in there:
                crate.add(name_of(edit.label), module, edit.applied(file_of(module)), there)
        said = crate.check()
    of = errors(said)
    for edit, owner, file in tried:
        here = of.get(name_of(edit.label), [])
        target = module_of(f"crates/{owner}/{file}")
        elsewhere = [(file_of(module), place, text) for module, place, text in here if module != target]
        if not here:
            found.append((None, f"NOT REFUSED: {owner} {file} is still proved with this edit"))
        elif elsewhere:
            found.append((None, "refused first at {}:{}, not at {}: {}".format(*elsewhere[0][:2], file, elsewhere[0][2][:200])))
        elif SHOWS_NOTHING.search(here[0][2]):
            found.append((None, f"the first error shows nothing: {here[0][2][:300]}"))
        else:
            found.append((f"{owner}/{file}:{here[0][1]}", None))
    return said, found
