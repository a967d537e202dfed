"""The prover, asked about copies of crates: over the libraries below them as `rt check` and `rt ci` leave them, crates/NAME/out."""
import os
import shutil
import subprocess
from pathlib import Path

ROOT = Path(__file__).resolve().parent.parent.parent
CRATES = ROOT / "crates"
# the folder of the prover, its library and its tools
KIT = Path(subprocess.run(["rt", "doc"], capture_output=True, text=True, check=True).stdout.strip()).parent
PARTS = ["src", "specs", "proofs"]


def listed():
    """What each crate builds on, as crates.txt lists it: lower crates first."""
    lines = (line.partition("#")[0] for line in (ROOT / "crates.txt").read_text().splitlines())
    return {line.split(":")[0].split()[0]: line.split(":")[1].split() for line in lines if ":" in line}


USES = listed()


def below(names):
    """The repository's crates below these, each after those that it builds on."""
    inside, todo = set(), list(names)
    while todo:
        more = [name for name in USES[todo.pop()] if name in USES and name not in inside]
        inside.update(more)
        todo += more
    return [name for name in USES if name in inside]


def library(name):
    return CRATES / name / "out/rlib" / f"{name}.rlib"


def build(names):
    """Has rt make the libraries of these crates, and those below them, where they are not there as the files now stand."""
    names = set(names)
    for name in names - set(below(names)):
        done = subprocess.run(["rt", "lib"], cwd=CRATES / name, capture_output=True, text=True)
        assert done.returncode == 0, f"{name} is not proved: {done.stdout[-1000:]}{done.stderr[-1000:]}"


def copy(crate, folder):
    """Copies what the prover reads of a crate."""
    for part in PARTS:
        if (CRATES / crate / part).is_dir():
            shutil.copytree(CRATES / crate / part, Path(folder) / part)


def kept(crates, folder):
    """A folder for kept work that begins with what checks of these crates kept: a check replaces such a file, and changes none."""

    def link(one, other):
        try:
            os.link(one, other)
        except OSError:
            shutil.copy2(one, other)

    for crate in crates:
        if (CRATES / crate / "out/incremental").is_dir():
            shutil.copytree(CRATES / crate / "out/incremental", folder, copy_function=link, dirs_exist_ok=True)
    return folder


def words(name, uses):
    """The words for a check of a crate in the current folder, which builds on the crates of `uses`."""
    root = "src/main.rt" if (CRATES / name / "src/main.rt").exists() else "src/lib.rt"
    found = ["--crate-name", name, root, "--extern", f"std={KIT}/rlibs/std.rlib", "-L", f"dependency={KIT}/rlibs"]
    for crate in uses:
        found += ["--extern", f"{crate}={library(crate)}"]
    for crate in dict.fromkeys([*below(uses), *uses]):
        found += ["-L", f"dependency={library(crate).parent}"]
    return found + ["--antt-project", f"{KIT}/rattle/logic/antt-project.json", "--logic-built", f"{KIT}/logic_built"]


def check(folder, name, uses, *flags, work=None):
    """What a check of the crate in a folder says, and how it ends. What `work` holds of an earlier check is not checked again."""
    said = [str(KIT / "bin/rattle"), "check", *words(name, uses), "--jobs", "1", *flags]
    said += ["--incremental", str(work)] if work else []
    done = subprocess.run(said, cwd=folder, stdin=subprocess.DEVNULL, stdout=subprocess.PIPE, stderr=subprocess.STDOUT, text=True, errors="replace")
    return done.stdout, done.returncode
