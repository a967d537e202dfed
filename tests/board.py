#!/usr/bin/env python3
"""The library for a board's processor: it is made of the module of the proved library for x86-64, calls nothing from outside that
tools/boards/targets.ini does not list, and answers like x86-64, byte for byte, on the vectors, on streams of the reference and on damaged states. The
kernel of examples/board decides as the desk does on the same records, a job that hogs the processor does not starve the radio, and its two threads
take turns.

What needs a cross compiler or an emulator runs where they are there. What is left out is said, with the Debian packages that it needs.
"""
import shutil
import subprocess
import sys
from pathlib import Path

from expecting import Expecting
from folders import DESK, ROOT, VECTORS, Judged, show, slices, table

sys.path.insert(0, str(ROOT / "tools"))
from boards import archive as board

expect = Expecting("board")
OUT = ROOT / "target/board/test"
SEEDS = (1, 2, 3, 5, 8, 13, 21, 34)
DAMAGES = ("7", "1500")  # a seed, and so many sheets
COUNTS = 15 + 4          # lines at the end of tools/boards/damage.c: each refusal, 0 to 14, and each mode
# The archives that are run: the target, a C compiler that links it into a program for Linux, the emulator, and the Debian packages of both.
# Those for the two Cortex-M are run as they are: the emulator's processor has all their instructions. The compiler's own programs pass floating-point
# numbers in another way, of which there are none.
RUN = (
    ("thumbv7em-none-eabi", "arm-linux-gnueabihf-gcc -Wl,--no-warn-mismatch", "qemu-arm", "gcc-arm-linux-gnueabihf qemu-user"),
    ("thumbv6m-none-eabi", "arm-linux-gnueabihf-gcc -Wl,--no-warn-mismatch", "qemu-arm", "gcc-arm-linux-gnueabihf qemu-user"),
    ("aarch64-unknown-linux-gnu", "aarch64-linux-gnu-gcc", "qemu-aarch64", "gcc-aarch64-linux-gnu qemu-user"),
    ("riscv64-unknown-linux-gnu", "riscv64-linux-gnu-gcc", "qemu-riscv64", "gcc-riscv64-linux-gnu qemu-user"),
)


def run(words, **more):
    done = subprocess.run([str(word) for word in words], stdout=subprocess.PIPE, stderr=subprocess.PIPE, timeout=600, **more)
    expect(done.returncode == 0, f"{' '.join(map(str, words))} ended with {done.returncode}: {done.stderr.decode(errors='replace')[-400:]}")
    return done.stdout


def there(what, packages, *programs):
    """Whether the programs are there; what is left out without them is said."""
    missing = [name for name in programs if not shutil.which(name)]
    if missing:
        print(f"board: LEFT OUT: {what}. There is no {' and no '.join(missing)}; Debian has what it needs in the packages {packages}")
    return not missing


def archives():
    """Each archive calls what is listed and no more, has every door, and no data of its own."""
    sources = board.modules()
    made = [board.Archive(name, sources, *how) for name, how in board.targets().items()]
    for archive in made:
        expect(not archive.surprises(), f"{archive.target}: the archive calls {' '.join(sorted(archive.surprises()))}, and the list does not have it")
        expect(archive.state == 688 and archive.data == 0, f"{archive.target}: a state of {archive.state} bytes, {archive.data} bytes of data")
        expect(all(0 < stack < 4096 for stack in archive.stacks), f"{archive.target}: stacks of {archive.stacks}")
        # the list is not empty words: without the first name of it that the archive calls, it would be refused
        archive.allowed = archive.allowed - {min(archive.outside)}
        expect(archive.surprises() == {min(archive.outside)}, f"{archive.target}: a call that is not listed is not seen")
    return len(made)


def same_module():
    """The modules are those of the archive for x86-64: the objects that were made of them are its objects."""
    run([ROOT / "tools/archive"])
    home, tools = board.kit()
    for crate in board.CRATES:
        made = board.OUT / "module" / f"{crate}.x86-64.a"
        one, other = (run([home / tools / "llvm-ar", "p", archive, f"{crate}.o"]) for archive in (made, board.HOSTED))
        expect(one == other and one.startswith(b"\x7fELF"), f"the module of {crate} is not that of the archive for x86-64")


def streams():
    """Folders with a sheet, events and the lines that they must get: runs of another scheduler, and streams of the reference."""
    reach = ROOT / "target/reference/reach"
    if not reach.exists():
        run(["sh", ROOT / "reference/build.sh", reach.parent])
    for seed in SEEDS:
        run([reach, "save", seed, OUT / f"case/{seed}"])
    return [folder for folder in [*sorted(VECTORS.iterdir()), *(OUT / f"case/{seed}" for seed in SEEDS)] if (folder / "shares.txt").exists()]


def built(compiler, archive, folder):
    """The programs in C, for one processor."""
    folder.mkdir(parents=True, exist_ok=True)
    for source in ("tools/desk.c", "tools/boards/damage.c", "tools/layout.c"):
        run([*compiler, "-std=c11", "-O2", f"-I{ROOT / 'include'}", ROOT / source, archive, "-o", folder / Path(source).stem])
    return folder


def same_answers():
    """Every processor answers as the reference and other schedulers do on their streams, and as x86-64 on damaged states."""
    here = built(["cc"], board.HOSTED, OUT / "x86-64")
    wanted, layout = run([here / "damage", *DAMAGES]), run([here / "layout"])
    counts = dict(line.split(": ") for line in wanted.decode().splitlines() if ": " in line)
    expect(len(counts) == COUNTS and all(int(count) > 20 for count in counts.values()), f"the damages do not meet every refusal and mode: {counts}")
    folders = done = None
    for target, compiler, emulator, packages in RUN:
        words = compiler.split()
        if not there(f"the answers of {target}", packages, words[0], emulator):
            continue
        folders = folders or streams()
        folder = built([*words, "-static"], board.OUT / target / "libsaplingloft.a", OUT / target)
        expect(run([emulator, folder / "layout"]) == layout, f"{target}: the header's layout")
        for case in folders:
            lines = run([emulator, folder / "desk", case / "shares.txt"], stdin=(case / "events.bin").open("rb"))
            expect(lines == (case / "expected.txt").read_bytes(), f"{target}: other lines than expected on {case}")
        expect(run([emulator, folder / "damage", *DAMAGES]) == wanted, f"{target}: other answers, states or histories than on x86-64")
        done = (done or []) + [target]
    if done:
        print(f"board: the same answers on {', '.join(done)}: {len(folders)} streams, and {len(wanted.splitlines()) - COUNTS:,} lines with damages")


# riscv32 has no Linux among Debian's packages: its program runs on a bare machine, and what it is asked for is compiled in.
RISCV32 = "riscv32imac-unknown-none-elf"
ASKED = """
int program(int, char **);
int main(void)
{
    char *words[] = { "damage", "7", "150", 0 };
    return program(3, words);
}
"""


def same_on_riscv32():
    """The damages, as on x86-64."""
    packages = "gcc-riscv64-unknown-elf picolibc-riscv64-unknown-elf qemu-system-misc"
    if not there(f"the answers of {RISCV32}", packages, "riscv64-unknown-elf-gcc", "qemu-system-riscv32"):
        return
    if not Path(run(["riscv64-unknown-elf-gcc", "-print-file-name=picolibc.specs"]).decode().strip()).is_file():
        print(f"board: LEFT OUT: the answers of {RISCV32}. Debian has what it needs in the packages {packages}")
        return
    folder = OUT / RISCV32
    folder.mkdir(parents=True, exist_ok=True)
    (folder / "main.c").write_text(ASKED)
    compiler = ["riscv64-unknown-elf-gcc", "--specs=picolibc.specs", "--oslib=semihost", "--crt0=hosted", "-march=rv32imac", "-mabi=ilp32",
                "-std=c11", "-O2"]
    run([*compiler, f"-I{ROOT / 'include'}", "-Dmain=program", "-c", ROOT / "tools/boards/damage.c", "-o", folder / "damage.o"])
    places = {"__flash": "0x80000000", "__flash_size": "4M", "__ram": "0x80400000", "__ram_size": "8M"}
    run([*compiler, folder / "main.c", folder / "damage.o", board.OUT / RISCV32 / "libsaplingloft.a",
         *(f"-Wl,--defsym={name}={place}" for name, place in places.items()), "-o", folder / "damage"])
    # the emulator's console goes to standard error
    done = subprocess.run(["qemu-system-riscv32", "-M", "virt", "-bios", "none", "-display", "none", "-monitor", "none", "-serial", "none",
                           "-semihosting-config", "enable=on,target=native", "-kernel", folder / "damage"], stderr=subprocess.PIPE, timeout=600)
    expect(done.stderr == run([OUT / "x86-64/damage", "7", "150"]), f"{RISCV32}: other answers, states or histories than on x86-64")
    print(f"board: the same answers on {RISCV32}: {len(done.stderr.splitlines()) - COUNTS:,} lines with damages")


# What the restart of the demonstration is replaced by: the saved state is changed, and then the kernel is restarted, or goes on with it.
CHANGED = """
#include "saplingloft.h"
#include "kernel.h"
void __real_restart(void);
void __wrap_restart(void)
{
    BEFORE
    for (uint32_t *word = (uint32_t *)0x20000000; word != (uint32_t *)0x20001000; word++)
        if (word[0] == SAPLINGLOFT_VERSION && word[1] == sizeof(struct saplingloft_state)) {
            struct saplingloft_state *state = (struct saplingloft_state *)(word + 2);
            CHANGE
        }
    AFTERWARDS
}
"""


def turns(name, data, lines):
    """Of the screen's threads, 3 and 4, neither is found running by more than four ticks while the other one is ready: then it is the other's turn.
    Ticks at which another job runs do not count."""
    ready, running, found, longest, changes = set(), None, (None, 0), 0, 0
    for at, line in enumerate(lines):
        kind, thread = data[12 * at:12 * at + 2]
        if line[:2] != b"00":
            continue
        if kind in (3, 4):
            ready = ready | {thread} if kind == 3 else ready - {thread}
        if thread in (3, 4) or not {3, 4} <= ready:
            found = None, 0
        elif kind == 1 and running in (3, 4):
            changes += found[0] not in (None, running)
            found = running, found[1] + 1 if found[0] == running else 1
            longest = max(longest, found[1])
        running = int(line[8:11])
    ends = [ended for ended, _ in slices(data, lines) if ended is not None]
    expect(longest == 4 and changes > 20 and set(ends) == {3, 4}, f"{name}: turns of up to {longest} ticks, {changes} changes; slices end: {ends}")


def demonstration(name):
    """The kernel on a board: what it printed, and the folder of its day."""
    folder = OUT / "demo" / name
    printed = run([ROOT / "tools/board-demo", name, folder]).decode().splitlines()
    expect(printed == ["started from the sheet", "the saved state is taken up"], f"{name}: the kernel says {printed}")
    data, lines = (folder / "day.bin").read_bytes(), (folder / "lines.txt").read_bytes()
    expect(run([DESK], input=data, cwd=folder) == lines, f"{name}: the kernel's decisions are not the desk's on the same records")
    stamps = [int.from_bytes(data[i + 4:i + 8], "little") for i in range(0, len(data), 12)]
    expect(any(a > 2**32 - 10**6 and b < 10**6 for a, b in zip(stamps, stamps[1:])), f"{name}: the counter does not wrap")
    resumes = data[::12].count(7)
    expect(resumes == 4, f"{name}: there are {resumes} resumes, and not one at each start and one after each jump of the clock")
    refusals = {lines[i:i + 2] for i in range(0, len(lines), 12)}
    expect(refusals == {b"00", b"10", b"13"}, f"{name}: the refusals are {refusals}")

    # A job blocks by itself, so it has to run: the thread that blocks is the one that was chosen, unless a tick came just then.
    blocks, chosen, others = 0, None, 0
    for i in range(0, len(data), 12):
        if data[i] == 4:
            blocks, others = blocks + 1, others + (data[i + 1] != chosen)
        chosen = int(lines[i + 8:i + 11]) if lines[i:i + 2] == b"00" else chosen
    expect(blocks > 100 and others <= blocks // 20, f"{name}: of {blocks} threads that blocked {others} were not chosen")

    # The screen has the highest priority and never blocks, and the radio always wants the processor: it gets what demand 3 promises.
    judged = Judged((folder / "shares.txt").read_bytes(), data, [lines[i:i + 12] for i in range(0, len(lines), 12)])
    turns(name, data, [lines[i:i + 12] for i in range(0, len(lines), 12)])
    rows = table(show(folder, "--brief").stdout)
    found, bound = list(judged.stretches(2)), judged.bound(2)
    expect(bound == 68_750 and len(found) > 50, f"{name}: a bound of {bound} and {len(found)} stretches")
    expect(found and min(found) >= bound, f"{name}: the radio got {min(found or [0])}")
    expect(len(list(judged.stretches(3))) > 50 and judged.charged(3) > judged.charged(2), f"{name}: the screen does not hog the processor")
    expect(rows["radio"][5:] == [f"{bound:,}", f"{min(found or [0]):,}"], f"{name}: tools/day has {rows['radio']}")
    return folder


def damaged(name):
    """A damaged state is not taken up after a restart, and is given up where an event finds it; nor is one of another sheet taken up. Each time the
    kernel and its day start anew."""
    damage, other_sheet = "state->used[RADIO] += 1;", "state->settings.shares[RADIO] += 1; state->settings.shares[SCREEN] -= 1;"
    slice_of_five, no_policy = "state->slices[MENU] = SAPLINGLOFT_SLICE + 1;", "state->policies[RADIO] = 2;"
    restart, go_on = "__real_restart();", "for (;;) {}"
    # no event may come between a change and the restart
    before = {restart: '__asm__ volatile("cpsid i");', go_on: ""}
    not_taken_up, given_up = ["the saved state is not taken up: the state is not sound"], ["the state is not sound: it is given up"]
    for label, change, afterwards, said in (("restart", damage, restart, not_taken_up), ("event", damage, go_on, given_up),
                                            ("slice", slice_of_five, restart, not_taken_up), ("policy", no_policy, go_on, given_up),
                                            ("sheet", other_sheet, restart, [])):
        folder = OUT / "demo" / f"{name}-{label}"
        folder.mkdir(parents=True, exist_ok=True)
        source = folder / "changed.c"
        source.write_text(CHANGED.replace("BEFORE", before[afterwards]).replace("CHANGE", change).replace("AFTERWARDS", afterwards))
        printed = run([ROOT / "tools/board-demo", name, folder, "-Wl,--wrap=restart", f"-I{ROOT / 'examples/board'}", source]).decode().splitlines()
        wanted = ["started from the sheet", *said, "started from the sheet"]
        expect(printed == wanted, f"{name}, changed before the {label}: the kernel says {printed}")
        data, lines = (folder / "day.bin").read_bytes(), (folder / "lines.txt").read_bytes()
        expect(data[:24:12] == bytes([7, 2]) and run([DESK], input=data, cwd=folder) == lines, f"{name}, {label}: the new day is not the desk's")


def stacks():
    """What the calls use of the stack is what the compiler says, and the arguments and the frame of who calls."""
    rows = [line.split("|")[2:-1] for line in run([ROOT / "tools/board-bench"]).decode().splitlines()[-2:]]
    for said, used in zip(*([int(cell.replace(",", "")) for cell in row] for row in rows)):
        expect(0 < used - said <= 128, f"a call uses {used} bytes of stack where the compiler's account has {said}")


def main():
    count = archives()
    print(f"board: {count} archives, each calls what is listed and no more")
    same_module()
    same_answers()
    same_on_riscv32()
    if there("the kernel of examples/board", "gcc-arm-none-eabi qemu-system-arm", "arm-none-eabi-gcc", "qemu-system-arm"):
        for name in ("mps2", "microbit"):
            demonstration(name)
            damaged(name)
        stacks()
        print("board: on a Cortex-M4 and a Cortex-M0 the kernel decides as the desk does, beside a job that hogs the radio got what is promised, and "
              "the job's threads take turns")
    sys.exit(expect.wrong != 0)


if __name__ == "__main__":
    main()
