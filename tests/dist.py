#!/usr/bin/env python3
"""tools/dist and tools/build: the archive, unpacked elsewhere, shows the example as the repository does, has no path of this machine in it, and its
programs need no library; a build says which crate of how many it proves, and is not made twice.
"""
import os
import re
import shutil
import subprocess
import sys
import tempfile
from pathlib import Path

from expecting import Expecting
from folders import ROOT, show

expect = Expecting("dist")
# crates.txt of a small repository, and what `rt` does there: c is in no program, anyhow is the kit's own, and a quick pass over the sources comes first
CRATES = "# layers\na:\nb: a\nc:\ns staticlib: a\n\n# programs\nchecksheet: a anyhow\ndesk: b anyhow\n"
RT = """#!/bin/sh
program=$(basename "$PWD")
[ "$*" = "run --cpu x86-64" ] || { echo "rt: other words: $*" >&2; exit 2; }
proved() {
    echo "fn $1::f: proved" >&2
    echo "crate $1: modules loaded=0 checked=7" >&2
    echo "logic=proved functions=1" >&2
}
if [ $program = desk ]; then
    echo "crate desk: modules loaded=0 checked=0" >&2
    echo "only=0 holes=0" >&2
    proved a
    echo "what the prover says otherwise" >&2
    proved b
fi
[ ! -e ../../broken ] || { echo "fn desk::main: not proved" >&2; echo "logic=not-proved" >&2; exit 1; }
proved $program
mkdir -p out && touch out/$program out/$program.o && chmod +x out/$program
echo "rt: running out/$program" >&2
echo "what the program prints"
"""


def needed(program):
    """What a program asks of the machine: libraries, and a loader for them."""
    told = subprocess.run(["readelf", "-ld", program], stdout=subprocess.PIPE, text=True, check=True).stdout
    return re.findall(r"NEEDED.*\[(.*)\]|(INTERP)", told)


def packed(folder):
    archive = folder / "saplingloft.tar.gz"
    done = subprocess.run([ROOT / "tools/dist", archive], stdout=subprocess.PIPE, stderr=subprocess.STDOUT, text=True)
    expect(done.returncode == 0 and archive.exists(), f"no archive: {done.stdout}")
    there = folder / "an other place"
    there.mkdir()
    subprocess.run(["tar", "xzf", archive], cwd=there, check=True)
    root = there / "saplingloft"
    for path in (path for path in root.rglob("*") if path.is_file()):
        expect(str(ROOT).encode() not in path.read_bytes(), f"{path.name} has a path of this machine in it")
        expect("__pycache__" not in path.parts, f"{path.name} is there")
    for name in ("desk", "checksheet"):
        expect(needed(root / "bin" / name) == [], f"{name} needs {needed(root / 'bin' / name)}")
    for example in ("workshop", "refused", "turns", "places", "ties", "editions"):
        here = show(ROOT / "examples" / example)
        done = subprocess.run(["tools/day", f"examples/{example}"], cwd=root, env={"PATH": os.environ["PATH"]}, stdout=subprocess.PIPE, text=True)
        expect(done.stdout == here.stdout and done.returncode == here.returncode == 1, f"{example} is shown otherwise from the archive")
    subprocess.run(["tools/day", "examples/workshop", "--picture", "page.html"], cwd=root, stdout=subprocess.PIPE)
    expect((root / "page.html").exists() and "<svg" in (root / "page.html").read_text(), "no picture can be made from the archive")
    done = subprocess.run(["tools/sheet", "check", "examples/workshop/shares.txt"], cwd=root, stdout=subprocess.PIPE, text=True)
    expect(done.returncode == 0 and "radio      10 %" in done.stdout, "tools/sheet does not work from the archive")


def built(folder):
    """A build in a small repository whose rt only prints."""
    (folder / "tools").mkdir(parents=True)
    for crate in ("a", "b", "c", "s", "desk", "checksheet"):
        (folder / "crates" / crate / "src").mkdir(parents=True)
    (folder / "path").mkdir()
    shutil.copy2(ROOT / "tools/build", folder / "tools/build")
    (folder / "crates.txt").write_text(CRATES)
    (folder / "path/rt").write_text(RT)
    (folder / "path/rt").chmod(0o755)

    def build():
        path = f"{folder}/path:{os.environ['PATH']}"
        return subprocess.run([folder / "tools/build"], env={"PATH": path}, stdout=subprocess.PIPE, stderr=subprocess.STDOUT, text=True)

    first = build()
    expect(first.returncode == 0 and "4 crates" in first.stdout and re.findall(r"(\d) of 4: (\w+) proved", first.stdout)
           == [("1", "a"), ("2", "b"), ("3", "desk"), ("4", "checksheet")], f"a build says {first.stdout!r}")
    expect("what the program prints" not in first.stdout, f"a build says what the programs print: {first.stdout!r}")
    expect(all((folder / "target" / made).exists() for made in ("bin/desk", "bin/checksheet", "obj/desk.o", "obj/checksheet.o")),
           "a build leaves no programs")
    expect(build().stdout == "", "what is built is built again")
    (folder / "crates/a/new").touch()
    expect("4 of 4" in build().stdout, "what was changed is not built again")
    expect(build().stdout == "", "what was found as it was is built again, because its programs are older than a file")
    for program in ("desk", "checksheet"):
        (folder / "target/built").unlink()
        (folder / "target/bin" / program).touch()
        expect("4 of 4" in build().stdout, f"only {program} is younger than every file, and nothing is built")
        os.utime(folder / "target/bin" / program, (1, 1))
    (folder / "crates/a/new").touch()
    (folder / "broken").touch()
    for _ in range(2):
        last = build()
        expect(last.returncode == 1 and "desk::main: not proved" in last.stdout and "what the prover says otherwise" in last.stdout,
               f"a broken build says {last.stdout!r}")


def main():
    with tempfile.TemporaryDirectory() as name:
        packed(Path(name))
        built(Path(name) / "built")
    print(f"dist: the archive shows the examples elsewhere, {expect.wrong} things wrong")
    sys.exit(expect.wrong != 0)


if __name__ == "__main__":
    main()
