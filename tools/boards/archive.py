"""The proved library for other processors: the modules of its build, and an archive for a target.

The build of a proved library makes an LLVM module and hands it to a back end, which makes it into x86-64. Here the same module, freed of what it says
of x86-64, goes to the back end of another processor. To get at it the kit is mirrored by links, and in the place of its compiler stands a script
that keeps the module and goes on as usual. Nothing is needed but the kit.
"""
import configparser
import re
import shlex
import shutil
import subprocess
import tempfile
from pathlib import Path

from boards import elf

ROOT = Path(__file__).resolve().parents[2]
HOSTED = ROOT / "target/staticlib/libsaplingloft.a"  # for x86-64, as tools/archive makes it
OUT = ROOT / "target/board"
LIST = ROOT / "tools/boards/targets.ini"
CRATES = ("saplingloft", "saplingloft_run")
DOORS = ("start", "event", "run", "decision", "remaining", "read_sheet", "write_sheet")
# as the kit compiles for x86-64, but for the level: a board has less room
OPTIONS = ("--no-default-config", "-Wno-override-module", "-ffunction-sections", "-fdata-sections", "-fstack-size-section",
           "-mllvm", "-trap-unreachable", "-mllvm", "-no-trap-after-noreturn", "-mllvm", "-disable-machine-licm",
           "-mllvm", "-disable-postra-machine-licm", "-mllvm", "-sink-common-insts=false", "-O2", "-c")


class Failed(Exception):
    """What stands in the way, in words."""


def said(words, **more):
    """Runs a command that says nothing of interest unless it fails."""
    done = subprocess.run([str(word) for word in words], stdout=subprocess.PIPE, stderr=subprocess.STDOUT, text=True, **more)
    if done.returncode:
        raise Failed(f"{done.stdout}\n{' '.join(map(str, words))} ended with status {done.returncode}")
    return done.stdout


def kit():
    """The kit's folder, and where in it the compiler and its like are."""
    if not shutil.which("rt"):
        raise Failed("the Rattle kit (rt) is needed. README.md says more")
    return Path(said(["rt", "doc"]).strip()).parent, Path("toolchain/bin")


def targets():
    """Of each listed target the options, and what it may call."""
    listed = configparser.ConfigParser()
    listed.read(LIST)
    return {name: (listed[name]["options"].split(), set(listed[name]["calls"].split())) for name in listed.sections()}


def fresh(made, *sources):
    return all(path.exists() for path in made) and min(path.stat().st_mtime for path in made) > max(path.stat().st_mtime for path in sources)


# ---- the modules

KEEPER = """#!/bin/sh
for word in "$@"; do [ "$word" != module.bc ] || cp module.bc {kept}; done
exec {compiler} "$@"
"""


def mirrored(mirror, home, tools, kept):
    """The kit, by links, but with a script in the place of its compiler that keeps the module. The files of `rt` are copies: it looks for its kit around
    them."""
    folders = [Path(), Path("bin"), tools.parent, tools]
    for folder in folders:
        (mirror / folder).mkdir()
        for path in (home / folder).iterdir():
            if folder / path.name in (Path("bin/rt"), Path("bin/rtlib.py")):
                shutil.copy2(path, mirror / folder)
            elif folder / path.name not in folders:
                (mirror / folder / path.name).symlink_to(path)
    compiler = mirror / tools / "clang"
    compiler.unlink()
    compiler.write_text(KEEPER.format(kept=shlex.quote(str(kept)), compiler=shlex.quote(str(home / tools / "clang"))))
    compiler.chmod(0o755)


# the bytes of a number and a pointer on x86-64; each begins at a multiple of them
SIZES = {"i1": 1, "i8": 1, "i16": 2, "i32": 4, "i64": 8, "ptr": 8}


def parted(load):
    """The load of a pair as loads of its parts, from the places that they have on x86-64: there they were stored, each by its place."""
    space, name, pair, address, align = load[1], load[2], load[3].split(", "), load[4], int(load[5])
    lines, place, whole = [], 0, "poison"
    for number, part in enumerate(pair):
        place = -(-place // SIZES[part]) * SIZES[part]
        lines.append(f"{name}.place{number} = getelementptr i8, ptr {address}, i64 {place}")
        lines.append(f"{name}.part{number} = load {part}, ptr {name}.place{number}, align {min(align, place & -place or align)}")
        with_part = name if number + 1 == len(pair) else f"{name}.with{number}"
        lines.append(f"{with_part} = insertvalue {{ {load[3]} }} {whole}, {part} {name}.part{number}, {number}")
        whole, place = with_part, place + SIZES[part]
    return "\n".join(space + line for line in lines)


def neutral(source):
    """A module's text without what it says of x86-64: the layout of data, the processor, how a stack is probed.

    In memory the module has everything at places of its own choice, in bytes, but for a pair that a function answers with: its load names the types
    alone, and another processor would take a pointer's neighbour from another place.
    """
    source = re.sub(r"^target (datalayout|triple) = .*\n", "", source, flags=re.M)
    source, changed = re.subn(r' "probe-stack"="inline-asm" "stack-probe-size"="\d+" "target-cpu"="x86-64"', "", source)
    if not changed or "x86" in source:
        raise Failed("the module speaks of x86 in a way that is not known here")
    source = re.sub(r"^( *)(%[\w.]+) = load \{ ([^{}]*) \}, ptr (%[\w.]+), align (\d+)$", parted, source, flags=re.M)
    if re.search(r" = type |\b(load|store|alloca|constant|global|getelementptr[a-z ]*) <?\{", source):
        raise Failed("the module has data whose layout a processor would choose")
    return source


def without_cycles(source):
    """No function of the module comes to call itself: so the frames along the calls are a bound of the stack."""
    calls = {}
    for name, body in re.findall(r'^define [^@]*(@"[^"]+"|@[\w.$]+)\(.*?\{\n(.*?)^\}', source, flags=re.M | re.S):
        calls[name] = set(re.findall(r'(@"[^"]+"|@[\w.$]+)\(', body))
    while True:
        ends = {name for name, called in calls.items() if not called & calls.keys()}
        if not ends:
            break
        calls = {name: called for name, called in calls.items() if name not in ends}
    if calls:
        raise Failed(f"these functions come to call themselves: {' '.join(sorted(calls))}")


def modules():
    """The neutral modules of the proved crates, made anew where a crate was."""
    home, tools = kit()
    made = [OUT / "module" / f"{crate}.ll" for crate in CRATES]
    if not HOSTED.exists():
        print("Proving the library: the first time this takes some minutes.", flush=True)
    said([ROOT / "tools/archive"])
    if fresh(made, HOSTED, Path(__file__)):
        return made
    made[0].parent.mkdir(parents=True, exist_ok=True)
    # not in the repository, in which the checker refuses links
    with tempfile.TemporaryDirectory() as work:
        mirror, kept = Path(work, "kit"), Path(work, "kept.bc")
        mirrored(mirror, home, tools, kept)
        for crate, path in zip(CRATES, made):
            said([mirror / "bin/rt", "lib", "--cpu", "x86-64"], cwd=ROOT / "crates" / crate)
            source = neutral(said([home / tools / "clang", "--no-default-config", "-x", "ir", kept, "-S", "-emit-llvm", "-O0", "-Xclang",
                                   "-disable-llvm-passes", "-o", "-"]))
            without_cycles(source)
            path.write_text(source)
            # the archive for x86-64 that was made of it, for comparing
            shutil.copy(ROOT / "crates" / crate / f"out/lib{crate}.a", path.with_suffix(".x86-64.a"))
            kept.unlink()
    return made


# ---- the archives

# what the header wants of a C library, from the compiler's own words: the kit has no headers
HEADERS = {
    "stdint.h": "typedef __UINT8_TYPE__ uint8_t;\ntypedef __UINT32_TYPE__ uint32_t;\ntypedef __UINT64_TYPE__ uint64_t;\n"
                "typedef __INT32_TYPE__ int32_t;\n#define INT32_MAX __INT32_MAX__\n#define UINT32_MAX __UINT32_MAX__\n",
    "stddef.h": "typedef __SIZE_TYPE__ size_t;\n#define NULL ((void *)0)\n",
}


def compiled(target, options, sources):
    """The archive of a target, and the size that the header's state has there."""
    home, tools = kit()
    folder = OUT / target
    archive = folder / "libsaplingloft.a"
    objects = [folder / f"{crate}.o" for crate in CRATES]
    sizes = folder / "sizes.o"
    header = ROOT / "include/saplingloft.h"
    if not fresh([archive, sizes, *objects], *sources, LIST, header, Path(__file__)):
        folder.mkdir(parents=True, exist_ok=True)
        for source, made in zip(sources, objects):
            said([home / tools / "clang", *options, *OPTIONS, "-x", "ir", source, "-o", made])
        for name, text in HEADERS.items():
            (folder / name).write_text(text)
        (folder / "sizes.c").write_text('#include "saplingloft.h"\nstruct saplingloft_state state;\n')
        said([home / tools / "clang", *options, "--no-default-config", "-ffreestanding", "-nostdinc", "-I", folder, "-I", header.parent, "-c",
              folder / "sizes.c", "-o", sizes])
        archive.unlink(missing_ok=True)
        said([home / tools / "llvm-ar", "rcsD", archive, *objects])
    try:
        return archive, [elf.Object(path.read_bytes()) for path in objects], elf.Object(sizes.read_bytes())
    except ValueError as error:
        archive.unlink()
        raise Failed(f"{target}: {error}")


class Archive:
    """What is told of one."""

    def __init__(self, target, sources, options, allowed):
        self.target, self.allowed = target, allowed
        self.path, objects, sizes = compiled(target, options, sources)
        single, batch = objects
        self.code, self.code_of_run = (part.size(elf.LOADED, elf.WRITTEN) for part in (single, batch))
        self.data = sum(part.size(elf.LOADED | elf.WRITTEN) for part in objects)
        self.state = next(symbol.size for symbol in sizes.symbols if symbol.name == "state")
        self.outside = single.outside() | batch.outside()
        stacks = {name.removeprefix("saplingloft_lent_"): stack for part in objects for name, stack in part.stacks().items()}
        if set(stacks) != set(DOORS):
            raise Failed(f"{target}: the doors are {', '.join(sorted(stacks))}")
        self.stacks = [stacks[door] for door in DOORS]

    def surprises(self):
        """What it calls and may not."""
        return self.outside - self.allowed if self.allowed is not None else set()
