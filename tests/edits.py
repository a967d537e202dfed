"""The edits that must be refused, crates/*/must-fail/*.edit, as the faults that they hold.

Beside the replacements that the prover makes (file:, old:, new:) an edit has for each fault `# breaks:` and the place where the proof must break:
a function, whose own proof it is, or a file of laws; with `at` and a goal of that proof, where its first error is at a goal that still holds and
only wants another proof. An edit of one fault has the fault's name. An edit of several, each in a function of its own, has `# fault:` and its name
before each: one check tries them all. (A proof rests on what its callees promise, which no fault changes, and not on their code.)

A fault in code is looked at alone: beside each function that it changes stands the changed one, under the function's name with `_faulty_` and the
fault's number. So one copy of a crate holds all its faults, and nothing that they do not change. Of what a trait asks for, a type has one alone: there
the changed function takes the place of the right one, in another copy.
"""
import re
from dataclasses import dataclass, field
from pathlib import Path

ROOT = Path(__file__).resolve().parent.parent


@dataclass
class Fault:
    crate: str
    edit: str
    label: str
    breaks: str = ""
    goal: str = ""
    changes: list = field(default_factory=list)  # (file, old text, new text): each old text once in its file

    def in_code(self):
        return all(file.startswith("src/") for file, _, _ in self.changes)

    def texts(self):
        """The files that this fault changes, alone, as they are and with the fault."""
        found = {}
        for file, old, new in self.changes:
            right, faulty = found.get(file) or ((ROOT / "crates" / self.crate / file).read_text(),) * 2
            assert faulty.count(old) == 1, f"{self.crate} {self.label}: {old.strip()!r} is {faulty.count(old)} times in {file}"
            found[file] = right, faulty.replace(old, new)
        return found

    def functions(self):
        """The functions that this fault changes: the file, the function as it is, and as it is with the fault."""
        found = []
        for file, (right, faulty) in self.texts().items():
            was, now = functions(right), functions(faulty)
            assert list(was) == list(now), f"{self.crate} {self.label}: with it {file} has other functions"
            changed = [name for name in now if now[name].text != was[name].text]
            for name in reversed(changed):
                right, faulty = was[name].put(right, ""), now[name].put(faulty, "")
            assert right == faulty, f"{self.crate} {self.label}: it changes more of {file} than functions"
            found += [(file, was[name], now[name]) for name in changed]
        return found


def faults():
    found = []
    for path in sorted(ROOT.glob("crates/*/must-fail/*.edit")):
        crate, here, file, old = path.parts[-3], [], None, None
        for line in path.read_text().splitlines():
            word, _, rest = line.removeprefix("# ").partition(":")
            rest = rest.removeprefix(" ")
            if word == "fault":
                here.append(Fault(crate, path.stem, rest))
            elif word == "breaks":
                if not here:
                    here.append(Fault(crate, path.stem, path.stem))
                here[-1].breaks, _, here[-1].goal = rest.partition(" at ")
            elif word == "file":
                file = rest
            elif word == "old":
                old = rest
            elif word == "new":
                assert here, f"{path}: a replacement before the line `# breaks:`"
                here[-1].changes.append((file, old, rest))
        assert here and all(f.breaks for f in here), f"{path}: a fault without a line `# breaks:`"
        assert len({f.breaks for f in here}) == len(here), f"{path}: two faults in one place"
        found += here
    return found


# ---- functions in a source file: each begins and ends at a line's start or, in an `impl` or a trait, four columns from it

BLOCK = re.compile(r"^(?:pub(?:\([^)]*\))? )?(?:impl|trait)\b(?:.*\{\}\n|(?:.*\n)*?\}\n)", re.M)
HEAD = r'^(?:{0}#\[.*(?:\n{0}[ )\]].*)*?\]\n)*(?P<line>{0}(?P<public>pub(?:\([^)]*\))? )?(?:extern "C" )?fn (?P<name>\w+))'
# a bracket at the end of a line of the function's own column opens its body; a trait may only ask for it
OPENS = r"^{0}(?! ).*(?P<body>\{{)(?:\n|\}}\n)|;\n"
WORDS_OF_FN = re.compile(r"^(?! *//).*\bfn \w+[<(]", re.M)


@dataclass
class Function:
    name: str  # as the prover has it in its file: `step`, `Cache::follow`, `U8FromRefusal::from`
    public: bool
    block: str  # what opens the `impl` or the trait in which it stands, or nothing
    of_trait: bool
    text: str
    start: int  # where it stands in its file
    opens: int  # where in its text its body begins

    def last(self):
        return self.name.rpartition("::")[2]

    def head(self):
        return self.text[: self.opens]

    def put(self, whole, text):
        """Its file, with another text in its place."""
        assert whole.startswith(self.text, self.start)
        return whole[: self.start] + text + whole[self.start + len(self.text) :]

    def beside(self, number):
        """Its text under the name of a faulty one, to stand at the end of its file."""
        text = re.sub(rf"\bfn {self.last()}\b", f"fn {beside(self.last(), number)}", self.text, count=1)
        return f"\n{self.block}\n{text}}}\n" if self.block else f"\n{text}"


def functions(text):
    """The functions with a body in a source file, by name, in their order."""
    outside = BLOCK.sub(lambda m: re.sub(r"[^\n]", " ", m[0]), text)
    found, asked = within(outside, 0, "", "", "", False)
    for m in BLOCK.finditer(text):
        block = re.match(r"(?:.*\n)*?.*\{(?=\}?\n)", m[0])[0]
        name, of_trait = block_name(block)
        there, only_asked = within(m[0], m.start(), "    ", block, f"{name}::", of_trait)
        found, asked = found + there, asked + only_asked
    known = [range(f.start, f.start + len(f.text)) for f in found]
    for m in WORDS_OF_FN.finditer(text):
        assert m.start() in asked or any(m.start() in there for there in known), f"a function in a form that is not known: {m[0]}"
    assert len({f.name for f in found}) == len(found), "two functions have one name"
    return {f.name: f for f in sorted(found, key=lambda f: f.start)}


def within(text, at, edge, block, path, of_trait):
    """The functions in a block, or in what is outside all blocks, which begins somewhere in the file; and where others are only asked for."""
    found, asked, opens, closes = [], [], re.compile(OPENS.format(edge), re.M), f"\n{edge}}}\n"
    for m in re.finditer(HEAD.format(edge), text, re.M):
        body = opens.search(text, m.start("line"))
        if not (body and body["body"]):
            asked += [at + m.start("line")] if body else []
            continue
        end = body.end() if body[0].endswith("}\n") else text.index(closes, body.end() - 1) + len(closes)
        public = bool(m["public"]) or of_trait
        found.append(Function(path + m["name"], public, block, of_trait, text[m.start() : end], at + m.start(), body.end("body") - m.start()))
    return found, asked


def block_name(block):
    """The name that the prover gives a trait or an `impl`, from what opens it; and whether it is a trait or of one."""
    words = re.findall(r"->|::|\w+|\S", re.sub(r"'\w+", "", block[:-1]).partition("where")[0])
    while words[0] not in ("impl", "trait"):
        words.pop(0)
    if words.pop(0) == "trait":
        return words[0], True
    # the type parameters and constants, which are in no name
    free, depth = set(), 0
    while words[0] == "<" or depth:
        depth += (words[0] in "<([") - (words[0] in ">)]")
        if depth == 1 and words[0] in "<,":
            free.add(words[2] if words[1] == "const" else words[1])
        words.pop(0)
    written = "".join(words)
    of = type_name(words, free)
    if words:
        assert words.pop(0) == "for", block
        return type_name(words, free) + of, True
    name, _, rest = written.partition("<")
    return "+".join([name, *(word for word in rest.rstrip(">").split(",") if word and word not in free)]), False


def type_name(words, free):
    """The type that the words begin with, as it is in names: `RefArrayU325` for `&[u32; 5]`. Takes its words."""

    def inside(closes):
        parts = []
        while (word := words.pop(0)) != closes:
            if word not in ",;":
                words.insert(0, word)
                parts.append(type_name(words, free))
        return parts

    word = words.pop(0)
    if word == "&":
        mut = words[0] == "mut" and words.pop(0)
        return ("RefMut" if mut else "Ref") + type_name(words, free)
    if word == "[":
        parts = inside("]")
        return ("Array" if len(parts) == 2 else "Slice") + "".join(parts)
    if word == "(":
        parts = inside(")")
        return f"Tuple{len(parts)}" + "".join(parts)
    path = [word]
    while words[:1] == ["::"]:
        path.append(words[1])
        del words[:2]
    name = "".join(part[0].upper() + part[1:] for part in path if part not in free | {"crate", "self", "super"})
    if words[:1] == ["<"]:
        words.pop(0)
        name += "".join(inside(">"))
    return name


def module(file):
    """The path of a source file's functions, as `tasks::`, or nothing for a crate's root."""
    return "" if Path(file).stem in ("lib", "main") else f"{Path(file).stem}::"


def functions_of(crate):
    """The functions of the crate in a folder, by the paths that the prover gives them: a type's own are where the type is, in whatever file."""
    texts = {path: path.read_text() for path in crate.glob("src/*.rt")}
    homes = {name: module(path) for path, text in texts.items() for name in re.findall(r"^(?:pub(?:\([^)]*\))? )?(?:struct|enum) (\w+)", text, re.M)}
    found = {}
    for path, text in texts.items():
        for name, function in functions(text).items():
            own = function.block and not function.of_trait
            found[(homes[re.match(r"\w+", name)[0]] if own else module(path)) + name] = function
    return found


def beside(name, number):
    return f"{name}_faulty_{number}"
