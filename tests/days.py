#!/usr/bin/env python3
"""tools/day: its numbers are those of document 01's words, on the paper's run, on runs of another scheduler and on days made here; each event stands
beside the desk's own line; refusals name their line; what starved is named, and what is not promised; a slice that ended, what a new priority did to
the thread's place in the line, who won a tie and why, and where the edition of the sheet turned a decision, are told as document 02, (i) to (iv), has
them; whatever is in the folder is told in a sentence; the README shows what the tool prints; and where the program says something else than the
rules, the tool says so.
"""
import random
import re
import shutil
import subprocess
import sys
import tempfile
from collections import Counter
from pathlib import Path

from expecting import Expecting
from folders import (ROOT, VECTORS, WORKED_SHEET, WORKED_TEXT, Judged, desk_lines, editions, fill, places, random_day, settings_of, sheet_of, show,
                     slices, table, ties)

sys.path.insert(0, str(ROOT / "tools"))
from lib import programs, records, replay, sheets, why
from lib.folder import Day

expect = Expecting("days")


def has(done, *texts):
    """The tool said each of these."""
    for text in texts:
        expect(text in done.stdout, f"{text!r} is not in what was said of {done.args[1]}")


def worked(folder):
    """Document 01's run. Document 02 has its charges: 2000, 2000, and 0 idle. The rest by hand: thread 1 runs up to 2000, then thread 0."""
    fill(folder, WORKED_SHEET, WORKED_TEXT)
    done = show(folder)
    expect(done.returncode == 1, "a day with refusals has another status than 1")
    has(done, "10 events, 2 of them refused; 4 ticks; 4,000 cycles, of which 0 idle (0.0 %)", "nobody starved",
        "REFUSED (13), line 9 of day.txt: thread 1 is ready already", "partition 0  ww##\n", "partition 1  ##ww\n",
        "REFUSED (10), line 10 of day.txt: it would be 3,000 cycles since the last tick")
    row = ["50 %", "2,000", "50.0 %", "2,000", "2,000", "1,250", "-"]
    expect(table(done.stdout) == {"partition 0": row, "partition 1": row}, f"the run of document 01 has the rows {table(done.stdout)}")
    # after the tick at 2000 partition 1 has used its 2000, so that a lower priority wins
    at = show(folder, "--at", "6")
    expect(at.returncode == 0 and re.search(r"partition 0 +yes +10 +0 +2,000 +2,000 +yes +0 of 2,000", at.stdout)
           and re.search(r"partition 1 +yes +20 +2,000 +2,000 +0 +no +2,000 of 2,000", at.stdout), f"the decision after event 6 is: {at.stdout}")
    has(at, "mode 2, underload", "compared by: has budget, then top priority, then fraction used", "thread 0 runs",
        "partition 0 before partition 1: partition 0 has budget, and partition 1 has not")
    expect(show(folder, "--at", "9").returncode == 1, "the decision after a refused event has another status than 1")


def counted(folder, name, sheet, data):
    """The numbers of a day are those of the paper's words."""
    fill(folder, sheet, data=data)
    lines = desk_lines(folder, data)
    done = show(folder, "--brief")
    if lines and lines[0][:2] in (b"01", b"02", b"03", b"04", b"05", b"06"):
        expect(done.returncode == 1 and f"refused with {int(lines[0][:2])}" in done.stdout, f"{name}: the refused sheet is not told: {done}")
        return 0
    expect(done.returncode == any(line[:2] != b"00" for line in lines), f"{name}: status {done.returncode}, {done.stderr}")
    judged, rows, seen = Judged(sheet, data, lines), table(done.stdout), 0
    for p in range(len(judged.shares)):
        found, bound = list(judged.stretches(p)), judged.bound(p)
        seen += len(found)
        part = f"{100 * judged.charged(p) / max(judged.whole(), 1):.1f} %"
        row = [f"{judged.shares[p]} %", f"{judged.charged(p):,}", part, f"{judged.waited(p):,}", f"{judged.longest(p):,}",
               f"{bound:,}" if bound > 0 else "nothing", f"{min(found):,}" if found else "-"]
        expect(rows[f"partition {p}"] == row, f"{name}: partition {p} has {rows[f'partition {p}']}, and by the paper's words {row}")
        starved = judged.longest(p) > 2 * judged.window * judged.tick
        expect((f"STARVED: partition {p} " in done.stdout) == starved, f"{name}: is partition {p} starved?")
        expect((f"no promise: partition {p} " in done.stdout) == (bound <= 0), f"{name}: is partition {p} promised something?")
        if bound > 0 and found:
            has(done, f"partition {p} got {min(found):,} cycles or more where {bound:,} are promised ({len(found):,} stretch")
    expect(done.stdout.count("REFUSED (") == sum(line[:2] != b"00" for line in lines), f"{name}: not every refusal is told")
    return seen


def starving(folder):
    """Partition 1 has no share and never wins beside partition 0. In W 2 and C 100 a stretch is 400 cycles: waiting them is not starving yet."""
    sheet = sheet_of(2, 100, (100, 0))
    text = "0 create 0 partition 0 priority 9 mask 1\n0 create 1 partition 1 priority 8 mask 1\n0 ready 0\n0 ready 1\n100 ticks 4 every 100\n"
    done = show(fill(folder, sheet, text, names="0 the screen\n1 the radio # at the antenna\n"))
    expect(done.returncode == 0, f"a day without refusals has the status {done.returncode}")
    has(done, "nobody starved", "no promise: the radio has a bound of -75", "the radio   wwww\n")
    done = show(fill(folder, text=text + "500 tick\n"))
    has(done, "STARVED: the radio waited 500 cycles", "the least it got in 4 ticks that it wanted was 0", "the screen  #####\n")
    expect("nobody starved" not in done.stdout, "somebody starved, and nobody did")


def example():
    """The story: every bound is above 0, and the day shows that the radio got what it is promised; each event beside the desk's own line."""
    folder = ROOT / "examples/workshop"
    done = show(folder)
    rows = table(done.stdout)
    bounds = [rows[name][5] for name in ("tracking", "logger", "radio", "screen")]
    expect(bounds == ["37,750", "17,750", "7,750", "27,750"], f"the example's bounds are {bounds}")
    expect(done.returncode == 1 and int(rows["radio"][6].replace(",", "")) >= 7750, f"the radio's row is {rows['radio']}")
    has(done, "promise kept: radio")
    # the radio sleeps for 30 ticks, runs for 700 cycles of the next and 200 of the one after, sleeps for 18 and waits
    has(done, "radio     " + 30 * "." + "#+" + 18 * "." + "w")
    data = subprocess.run([ROOT / "tools/events", "encode"], input=(folder / "day.txt").read_bytes(), stdout=subprocess.PIPE, check=True).stdout
    lines = [line.decode().strip() for line in desk_lines(folder, data)]
    shown = {}
    for first, last, line in re.findall(r"^ +(\d+)(?:-(\d+))?  (\d\d \d \d\d \d\d\d)  ", done.stdout, re.M):
        for number in range(int(first), int(last or first) + 1):
            expect(number not in shown, f"event {number} of the example is shown twice")
            shown[number] = line
    expect(shown == dict(enumerate(lines, 1)), "the lines beside the example's events are not the desk's")
    text = (folder / "day.txt").read_text().splitlines()
    expect(all(line in done.stdout for line in text if line.startswith("#")), "a comment of the example is not shown")
    refusals = re.findall(r"(\d+ \w+(?: \d+)?) +REFUSED \(\d+\), line (\d+) of day.txt", done.stdout)
    expect(len(refusals) == 3 and all(text[int(place) - 1].split() == event.split() for event, place in refusals), f"refusals: {refusals}")
    part = (ROOT / "README.md").read_text().split("## What you see")[1].split("\n## ")[0]
    shown = [line[4:] for line in part.splitlines() if line.startswith("    ") and line.strip() != ".."]
    expect(len(shown) > 8 and all(line in done.stdout.splitlines() for line in shown), "the README shows another day than the example")
    refused = show(ROOT / "examples/refused", "--picture", "/nowhere/page.html")
    expect(refused.returncode == 1, "the second example is not refused")
    has(refused, "shares.txt is refused with 1", "line 7, column 7: a comma in a share: half percents do not exist",
        "Nothing is written to /nowhere/page.html")


# The example of turns, by hand from document 02, (i): the thread that runs after each event. A tick counts down the thread that ran until the tick.
TURNS = (
    # created, ready; twelve ticks; ended, the later one first
    [255, 255, 3, 3, *12 * [3], 3, 255]
    # created as round robin, ready; ticks 1 to 14: at the 4th, 8th and 12th a slice ends
    + [255, 255, 3, 3, *3 * [3], *4 * [4], *4 * [3], *3 * [4]]
    # tracking comes with two ticks left of thread 4's slice, two ticks are tracking's, and it goes; the second tick after that ends the slice
    + [4, 0, 0, 0, 4, 4, 3, 3, 3]
    # thread 3 blocks and comes back; thread 4, whose slice is full, has four ticks, and then thread 3, whose slice is full, has four; refused
    + [4, 4, *3 * [4], *4 * [3], 4, 0]
)
# the numbers of the events that end a slice, and whose it is
TURNS_END = {26: 3, 30: 4, 34: 3, 43: 4, 51: 4, 55: 3}


def turns():
    """Two screen threads of one priority: thread 4 runs only where both are round robin. A slice that ends is told beside its event, and by --at."""
    folder = ROOT / "examples/turns"
    done = show(folder)
    rows = re.findall(r"^ +(\d+)(?:-(\d+))?  \d\d (\d) (\d\d) (\d\d\d)  .*?(?:; the slice of thread (\d+) ended)?$", done.stdout, re.M)
    ran = [int(thread) for first, last, _, _, thread, _ in rows for _ in range(int(first), int(last or first) + 1)]
    expect(ran == TURNS, f"the threads of the example of turns are {ran}")
    expect({int(first): int(ended) for first, _, _, _, _, ended in rows if ended} == TURNS_END, "other slices end in the example of turns")
    has(done, "REFUSED (12), line 34 of day.txt: its policy is 2, and there are two: 0 (first in, first out) and 1 (round robin)\n",
        "    23-25  00 1 03 003  13000 tick .. 15000 tick ", "       19  00 0 00 255  12000 create 3 partition 3 priority 10 mask 1 policy 1  idle\n")
    expect(done.returncode == 1 and table(done.stdout)["screen"][1] == "37,900", f"status {done.returncode}, {table(done.stdout)['screen']}")
    has(show(folder, "--at", "26"), "thread 4 runs: it has priority 10, the highest of its job's ready threads that this core may run; it is the "
        "first of 4, 3 in the line\nthis tick ended the slice of thread 3, which ran until then: it has a full one again, 4 ticks, and went to "
        "the tail of the line\nthread 4 is round robin: 4 of the 4 ticks of its slice are left\n"
        "the line, in order of becoming ready, or of the end of a slice: 4, 3\n")
    has(show(folder, "--at", "42"), "\nthread 4 is round robin: 1 of the 4 ticks of its slice is left\n")
    has(show(folder, "--at", "56"), "nothing is changed by it, and the decision before it stands:\n",
        "\nthe last accepted tick ended the slice of thread 3, which ran until then: it has a full one again, 4 ticks,")
    has(show(folder, "--at", "5"), "\nthe line, in order of becoming ready: 3, 4\n")
    part = (ROOT / "README.md").read_text().split("## Threads of one priority")[1].split("\n## ")[0]
    shown = [line[4:] for line in part.splitlines() if line.startswith("    ")]
    expect(len(shown) > 3 and all(line in done.stdout.splitlines() for line in shown), "the README shows other turns than the example")


def turns_told(folder, seed):
    """On a day of threads of one priority, most of them round robin, each event that ends a slice, and has another thread of the job run, says so; no
    other does."""
    shares = ((60, 40), (100,))[seed % 2]  # two jobs alternate, so that few slices end with a turn of the same job
    sheet, data = sheet_of(3, 400, shares), random_day(seed, 3, 400, len(shares), 8, 150, (10,), (0, 1, 1, 1))
    lines = desk_lines(fill(folder, sheet, data=data), data)
    said = {int(number): int(thread) for number, thread in re.findall(r"^ +(\d+) .*; the slice of thread (\d+) ended$", show(folder).stdout, re.M)}
    wanted, before = {}, b"00 0 00 255\n"
    for number, (line, (ended, _)) in enumerate(zip(lines, slices(data, lines)), 1):
        if ended is not None and before[5:7] == line[5:7] and int(line[8:11]) != ended:
            wanted[number] = ended
        before = line if line[:2] == b"00" else before
    expect(said == wanted, f"seed {seed}: the slices that end are {wanted}, and said is {said}")
    return decisions(f"turns of seed {seed}", sheet, data, lines), len(wanted)


# The example of places, by hand from document 02, (ii): the thread that runs after each event.
PLACES = (
    # created; ready, the lower one first; two ticks; thread 5 is raised to the others' priority, and a tick; they block, and a tick
    [255, 255, 255, 5, 3, 3, 3, 3, 3, 3, 4, 5, 5]
    # both come back; thread 4 is raised, and a tick; it is lowered, and a tick
    + [5, 5, 4, 4, 4, 4]
    # thread 4 is lowered below them and raised again, and a tick; thread 5 is set to the priority that it has
    + [5, 5, 5, 5]
    # thread 3 blocks and is set to another priority, and a tick; it is ready, and lowered, and a tick; all end, thread 3 last
    + [5, 5, 5, 3, 3, 3, 3, 3, 255]
    # two that are round robin are created and ready; two ticks; thread 6 is raised and lowered; of three ticks the second ends its slice; refused
    + [255, 255, 6, 6, 6, 6, 6, 6, 6, 7, 7, 0]
)
# what is said beside each event that sets a priority, and the line then
PLACES_SAID = {
    9: ("raised, thread 5 went to the tail", "3, 4, 5"), 16: ("raised, thread 4 went to the tail", "5, 3, 4"),
    18: ("lowered, thread 4 went to the head", "4, 5, 3"), 20: ("lowered, thread 4 went to the head", "4, 5, 3"),
    21: ("raised, thread 4 went to the tail", "5, 3, 4"), 23: ("thread 5 had this priority and stayed", "5, 3, 4"),
    25: ("thread 3 is not ready and has no place", "5, 4"), 28: ("lowered, thread 3 went to the head", "3, 5, 4"),
    39: ("raised, thread 6 went to the tail", "7, 6"), 40: ("lowered, thread 6 went to the head", "6, 7"),
}


def places_shown(folder):
    """Threads that are raised and lowered: each has its turn where the paper puts it, and what became of its place is told beside the event, and by
    --at."""
    example = ROOT / "examples/places"
    done = show(example)
    rows = re.findall(r"^ +(\d+)(?:-(\d+))?  \d\d \d \d\d (\d\d\d)  .*$", done.stdout, re.M)
    ran = [int(thread) for first, last, thread in rows for _ in range(int(first), int(last or first) + 1)]
    expect(ran == PLACES, f"the threads of the example of places are {ran}")
    said = {int(number): words for number, words in re.findall(r"^ +(\d+)  .* priority \d to \d+ .*, free time; (.*)$", done.stdout, re.M)}
    expect(said == {number: words for number, (words, _) in PLACES_SAID.items()}, f"beside the example's new priorities is said {said}")
    for number, (_, line) in PLACES_SAID.items():
        last = show(example, "--at", str(number)).stdout.splitlines()[-1]
        expect(last.startswith("the line, ") and last.endswith(f": {line}"), f"after event {number} of the example of places: {last}")
    has(done, "\n       42  00 1 03 007  13000 tick ", "screen runs (thread 7), free time; the slice of thread 6 ended\n",
        "REFUSED (11), line 60 of day.txt: there is no thread 9\n")
    has(show(example, "--at", "9"), "it is the first of 3, 4, 5 in the line\n"
        "this event raised thread 5 from priority 5 to 10: it went to the tail of the line\n"
        "the line, in order of becoming ready, or of being raised: 3, 4, 5\n")
    has(show(example, "--at", "18"), "it is the first of 4, 5, 3 in the line\n"
        "this event lowered thread 4 from priority 20 to 10: it went to the head of the line\n"
        "the line, in order of becoming ready, or of being raised, with those in front that were lowered (4): 4, 5, 3\n")
    has(show(example, "--at", "23"), "\nthis event set thread 5 to the priority that it had, 10: it kept its place in the line\n")
    has(show(example, "--at", "25"), "\nthis event set thread 3 from priority 10 to 30: it is not ready, and has no place in the line\n")
    has(show(example, "--at", "40"), "\nthread 6 is round robin: 2 of the 4 ticks of its slice are left\n"
        "this event lowered thread 6 from priority 11 to 10: it went to the head of the line, and kept what is left of its slice\n"
        "the line, in order of becoming ready, or of the end of a slice, with those in front that were lowered (6): 6, 7\n")
    part = (ROOT / "README.md").read_text().split("## A new priority")[1].split("\n## ")[0]
    shown = [line[4:] for line in part.splitlines() if line.startswith("    ")]
    expect(len(shown) > 3 and all(line in done.stdout.splitlines() for line in shown), "the README shows other places than the example")
    # a thread of another core has a place in the line too; and after a refused event the change before it stands
    text = "0 create 0 partition 0 priority 9 mask 2\n0 priority 0 to 8\n0 ready 0\n0 priority 0 to 7\n"
    text += "0 create 1 partition 0 priority 7 mask 1\n0 ready 1\n0 priority 0 to 8\n0 ready 0\n"
    has(show(fill(folder, sheet_of(2, 1000, (100,)), text)), " idle; thread 0 is not ready and has no place\n",
        " idle; lowered, thread 0 went to the head\n", " partition 0 runs (thread 1), underload; raised, thread 0 went to the tail\n")
    has(show(folder, "--at", "8"), "\nthe last accepted event raised thread 0 from priority 7 to 8: it went to the tail of the line\n"
        "the line, in order of becoming ready, or of being raised: 1, 0\n")


# what is said of a new priority, in a listing and by --at
SAID = {"raised": "; raised, thread {} went to the tail", "lowered": "; lowered, thread {} went to the head",
        "same": "; thread {} had this priority and stayed", "unready": "; thread {} is not ready and has no place"}
TOLD = {"raised": "this event raised thread {} from priority {} to {}: it went to the tail of the line",
        "lowered": "this event lowered thread {} from priority {} to {}: it went to the head of the line",
        "same": "this event set thread {} to the priority that it had, {}: it kept its place in the line",
        "unready": "this event set thread {} from priority {} to {}: it is not ready, and has no place in the line"}


def places_told(folder, seed):
    """On a day of few priorities each event that sets one says what that did to the thread's place, and no other event says such a thing."""
    shares = ((60, 40), (100,))[seed % 2]
    sheet, data = sheet_of(3, 400, shares), random_day(seed, 3, 400, len(shares), 8, 250, (10, 11, 12), (0, 1))
    lines = desk_lines(fill(folder, sheet, data=data), data)
    rows = re.findall(r"^ +(\d+)  .*(; [^;]*(?:tail|head|stayed|place))$", show(folder).stdout, re.M)
    found = {number: did for number, (did, _, _, _) in enumerate(places(data, lines), 1) if did}
    wanted = {number: SAID[did[0]].format(did[1]) for number, did in found.items()}
    said = {int(number): words for number, words in rows}
    expect(said == wanted, f"seed {seed}: said of new priorities is {said}, and by the paper it is {wanted}")
    return decisions(f"places of seed {seed}", sheet, data, lines), [did[0] for did in found.values()]


# The example of ties, by hand from document 02, (iii): the thread that runs after each event. All priorities and budgets are equal, so that who has
# used less comes first.
TIES = (
    # created; the screen is ready, then tracking; eight ticks, after which each of the two has run for 4,000 cycles
    [*5 * [255], 3, 3, 0, 0, 3, 3, 0, 0, 3, 3]
    # the screen's second thread is ready, its first one ends; three ticks; a resume; the logger and the radio are ready
    + [3, 4, 0, 0, 4, 4, 4, 4]
    # the screen blocks; three ticks, after which each of the other three has run for 1,000 cycles; the logger is raised and lowered
    + [0, 1, 2, 2, 1, 1]
    # all block, and a tick; the radio is ready, the logger, the logger again, which is refused, and tracking; a tick, 500 cycles later
    + [1, 2, 255, 255, 2, 2, 0, 2, 0]
)
# the numbers of the events after which several jobs are tied for best, where the one that ran is one of them, and where it is not
TIES_STAY, TIES_LOWEST = {7, 9, 11, 13, 15, 16, 17, 19, 21, 22, 23, 27, 29, 30, 35, 37}, {24, 25, 38}
STAYS, LOWEST = "a tie, and it stays", "a tie, and it has the lowest number"
TIE_OF_OTHERS = "a tie without the favoured job, so the lower number goes first"


def ties_shown():
    """Jobs that tie: the one that ran stays, and that is told beside the event, and by --at, and so is why the lowest number won elsewhere."""
    example = ROOT / "examples/ties"
    done = show(example)
    rows = re.findall(r"^ +(\d+)  \d\d \d \d\d (\d\d\d)  .*?(?:; (a tie, [a-z ]+).*)?$", done.stdout, re.M)
    expect([int(thread) for _, thread, _ in rows] == TIES, f"the threads of the example of ties are {[int(thread) for _, thread, _ in rows]}")
    said = {int(number): words for number, _, words in rows if words}
    expect(said == {**{n: STAYS for n in TIES_STAY}, **{n: LOWEST for n in TIES_LOWEST}}, f"of the example's ties is said {said}")
    has(done, "\n       29  00 1 01 001  903000 priority 1 to 10 ", "; a tie, and it stays; lowered, thread 1 went to the head\n",
        "REFUSED (13), line 47 of day.txt: thread 1 is ready already\n")
    expect(done.returncode == 1 and [row[1] for row in table(done.stdout).values()] == ["7,000", "1,000", "1,500", "5,000"],
           f"status {done.returncode}, {table(done.stdout)}")
    # the screen's running thread ends with the event, and its job is favoured all the same
    has(show(example, "--at", "17"), "\nfavoured in a tie: screen, which ran until this event\n"
        "screen before tracking: a tie, and screen is favoured: it ran, and stays\nthread 4 runs: ")
    has(show(example, "--at", "23"), "screen before tracking: a tie, and screen is favoured: it ran, and stays\n"
        "screen before logger: a tie, and screen is favoured: it ran, and stays\n"
        "screen before radio: a tie, and screen is favoured: it ran, and stays\n")
    has(show(example, "--at", "24"), "\nfavoured in a tie: screen, which ran until this event\n"
        "tracking before logger: a tie without the favoured job, so the lower number goes first\n"
        "tracking before radio: a tie without the favoured job, so the lower number goes first\n")
    has(show(example, "--at", "25"), "\nfavoured in a tie: tracking, which ran until this event\n"
        "logger before tracking: 0 of 25,000 is a smaller fraction than 1,000 of 25,000\n"
        "logger before radio: a tie without the favoured job, so the lower number goes first\n")
    has(show(example, "--at", "28"), "\nlogger before tracking: top priority 11 is higher than 10\n")
    has(show(example, "--at", "34"), "\nfavoured in a tie: nobody, because the processor idled until this event\n"
        "radio is the only one that competes\n")
    has(show(example, "--at", "36"), "nothing is changed by it, and the decision before it stands:\n",
        "\nfavoured in a tie: radio, which ran until the last accepted event\nradio before logger: a tie, and radio is favoured: it ran, and stays\n")
    part = (ROOT / "README.md").read_text().split("## Ties")[1].split("\n## ")[0]
    shown = [line[4:] for line in part.splitlines() if line.startswith("    ")]
    expect(len(shown) > 3 and all(line in done.stdout.splitlines() for line in shown), "the README shows other ties than the example")


def ties_told(folder, seed):
    """On a day of one priority, in which jobs have often used the same or have no budget, each event after which several are tied for best says so,
    and whether the one that ran stays; no other event does."""
    shares, policy = ((25, 25, 25, 25), (50, 0, 50, 0))[seed % 2], seed // 2 % 2
    sheet, data = sheet_of(3, 400, shares, policy), random_day(seed, 3, 400, 4, 8, 120, (10,), (0, 1), 100)
    lines = desk_lines(fill(folder, sheet, data=data), data)
    rows = re.findall(r"^ +(\d+)  .*; (a tie, [a-z ]+)(?:;.*)?$", show(folder).stdout, re.M)
    found = {n: (ran, best) for n, (line, (ran, best)) in enumerate(zip(lines, ties(sheet, data, lines)), 1) if line[:2] == b"00" and len(best) > 1}
    wanted = {n: STAYS if ran in best else LOWEST for n, (ran, best) in found.items()}
    said = {int(number): words for number, words in rows}
    expect(said == wanted, f"seed {seed}: said of ties is {said}, and by the paper it is {wanted}")
    # a tie that the lowest number wins because it ran shows nothing
    return decisions(f"ties of seed {seed}", sheet, data, lines), [wanted[n] for n, (ran, best) in found.items() if ran != best[0]]


# The example of editions, by hand from document 02, (iv): mode and thread after each event, in edition 2, which its sheet states, and in edition 1.
# The budgets are 1,600 and 2,400; 500 cycles must remain, or 250.
EDITIONS = {
    # created, ready, and a tick; at 1900 and at three ticks, with an event between, at 3300; at 4950, and at five ticks
    2: [(0, 255), (0, 255), (1, 0), (2, 1), (2, 1), (2, 1), (2, 0), (2, 0), (3, 0), (2, 1), (3, 1), (2, 1), (2, 0), (2, 0), (2, 1), (2, 1),
        # the radio blocks, and a tick; it is ready; refused; a tick
        (1, 1), (1, 1), (2, 0), (0, 0), (2, 0)],
    # the screen runs for three ticks and the radio for one; at 4950 the screen is overdrawn, and has 450 left again at the next tick
    1: [(0, 255), (0, 255), (1, 0), (2, 1), (2, 1), (2, 1), (2, 1), (2, 0), (2, 0), (2, 1), (2, 0), (2, 1), (2, 1), (2, 0), (2, 1), (2, 1),
        (1, 1), (1, 1), (2, 1), (0, 0), (2, 0)],
}
# what is said of the other edition, beside the events whose decision turned on the edition
EDITIONS_SAID = {2: {**{number: "screen would run" for number in (7, 8, 9, 13, 14, 19, 21)}, 11: "it would be underload"},
                 1: {number: "radio would run" for number in (7, 10, 12, 13, 15, 16, 19)}}
EDITIONS_TABLE = {2: {"radio": ["40 %", "5,000", "45.5 %", "5,400", "2,000", "1,100", "4,000"],
                      "screen": ["60 %", "6,000", "54.5 %", "5,000", "2,000", "1,900", "4,000"]},
                  1: {"radio": ["40 %", "2,050", "18.6 %", "8,350", "3,000", "850", "2,050"],
                      "screen": ["60 %", "8,950", "81.4 %", "2,050", "1,000", "1,650", "5,950"]}}


def editions_shown(folder):
    """A job that still has a quarter of a tick, but not half of one: beside the event stands what would run in the other edition. Without an edition
    the same day has the lines of edition 1, and nothing is told of the other."""
    example = ROOT / "examples/editions"
    shutil.copytree(example, folder)
    for edition, record, said in ((2, b"E 00 000002\n", EDITIONS_SAID[2]), (1, b"E 00 000001\n", EDITIONS_SAID[1]), (1, b"", {})):
        (folder / "shares.txt").write_bytes((example / "shares.txt").read_bytes().replace(b"E 00 000002\n", record))
        done = show(folder)
        rows = re.findall(r"^ +(\d+)(?:-(\d+))?  \d\d (\d) \d\d (\d\d\d)  .*?(?:; in edition (\d) (.*))?$", done.stdout, re.M)
        events = [(number, *row[2:]) for row in rows for number in range(int(row[0]), int(row[1] or row[0]) + 1)]
        expect([(int(mode), int(thread)) for _, mode, thread, _, _ in events] == EDITIONS[edition], f"the example with {record} has {events}")
        expect({number: (other, words) for number, _, _, other, words in events if other} == {n: (str(3 - edition), w) for n, w in said.items()},
               f"of the other edition is said in the example with {record}: {events}")
        expect(done.returncode == 1 and table(done.stdout) == EDITIONS_TABLE[edition], f"with {record}: status {done.returncode}, {table(done.stdout)}")
        expect(("edition" in show(folder, "--at", "7").stdout) == bool(record), f"with {record} the edition is told, or is not")
    done = show(example)
    has(done, "\nradio   ww##ww##ww#\nscreen  ##ww##ww##w\n", "REFUSED (13), line 35 of day.txt: thread 0 is ready already\n",
        "\npromise kept: radio got 4,000 cycles or more where 1,100 are promised (1 stretch of 8 ticks)\n")
    need = "\nedition 2: a job has budget while at least half a tick (500 cycles) remains\n"
    turned = ("the decision turns on that: in edition 1, where a quarter of a tick (250 cycles) must remain, it would be mode 2, underload, and screen "
              "would run (thread 1)\n")
    has(show(example, "--at", "6"), f"{need}favoured in a tie: screen, which ran until this event\n")
    for number in ("9", "11"):
        has(show(example, "--at", number), "\nmode 3, at limit: ", f"{need}{turned}favoured in a tie: ")
    has(show(example, "--at", "20"), "nothing is changed by it, and the decision before it stands:\n", f"{need}{turned}")
    expect("edition" not in show(example, "--at", "1").stdout, "the edition is told where nobody competes")
    part = (ROOT / "README.md").read_text().split("## Two editions of the budget test")[1].split("\n## ")[0]
    shown = [line[4:] for line in part.splitlines() if line.startswith("    ")]
    expect(len(shown) > 3 and all(line in done.stdout.splitlines() for line in shown), "the README shows another day than the example of editions")


def editions_told(folder, seed):
    """On a day with an edition each event that the other edition would answer otherwise says so, and no other event does. Shares of 44 and 45 percent
    leave more than a quarter of a tick, and less than half, when a job has run for one tick of the window; one of 11 percent does so from the start."""
    edition, policy, shares = 1 + seed % 2, seed // 2 % 2, ((44, 45, 11), (45, 55))[seed // 4 % 2]
    sheet, data = sheet_of(3, 400, shares, policy, edition=edition), random_day(seed, 3, 400, len(shares), 6, 150, (10, 11, 12), (0, 1), 50)
    lines = desk_lines(fill(folder, sheet, data=data), data)
    said = {int(number): words for number, words in re.findall(r"^ +(\d+)  .*; (in edition [^;\n]*)(?:;.*)?$", show(folder).stdout, re.M)}
    wanted = {}
    for number, (line, decision) in enumerate(zip(lines, editions(sheet, data, lines)), 1):
        (mode, won, _), other = decision[edition], decision[3 - edition]
        if line[:2] == b"00" and other[:2] != (mode, won):
            would = f"partition {other[1]} would run" if other[1] != won else f"it would be {IN_WORDS[other[0]]}"
            wanted[number] = f"in edition {3 - edition} {would}"
    expect(said == wanted, f"seed {seed}: said of the other edition is {said}, and by the paper it is {wanted}")
    return decisions(f"editions of seed {seed}", sheet, data, lines), [words.split()[2] + words.split()[-1] for words in wanted.values()]


def statuses(folder):
    """What is bad usage, what is refused, and what is in the folder."""
    good = fill(folder / "good", WORKED_SHEET, "0 tick # a remark\n")
    expect(show(good).returncode == 0 and "# a remark" in show(good).stdout, "a good day has another status than 0, or loses its remark")
    data = fill(folder / "data", WORKED_SHEET, data=bytes([1] + [0] * 11) + b"\x01\x02")
    has(show(data), "REFUSED (14), record 2 of day.bin: the record is cut: 2 of 12 bytes")
    clock = fill(folder / "clock", WORKED_SHEET, "700 tick\n200 tick\n1500000700 tick\n")
    has(show(clock), "line 2 of day.txt: the clock goes back by 500\n", "line 3 of day.txt: it would be 1,500,000,000 cycles since the last tick")
    terminal = show(fill(folder / "terminal", WORKED_SHEET, "# \x1b[31m\n0 tick\n", names="0 \x1b[31m\n"))
    expect(terminal.returncode == 0 and "\x1b" not in terminal.stdout, "the terminal is told to do something")
    for name, text in [("Windows", WORKED_TEXT.replace("\n", "\r\n")), ("mark", "\ufeff" + WORKED_TEXT), ("UTF-16", WORKED_TEXT.encode("utf-16"))]:
        here, usual = show(fill(folder / name, WORKED_SHEET, text)), show(fill(folder / "usual", WORKED_SHEET, WORKED_TEXT))
        expect((here.returncode, here.stdout) == (1, usual.stdout), f"a day.txt as {name} has it: status {here.returncode}, {here.stderr}")
    nothing = show(fill(folder / "nothing", WORKED_SHEET, ""))
    expect(nothing.returncode == 0 and "0 events, 0 of them refused; 0 ticks; 0 cycles" in nothing.stdout, f"an empty day: {nothing}")
    both = fill(folder / "both", WORKED_SHEET, "0 tick\n", data=bytes([1] + [0] * 11))
    expect(show(both).returncode == 0, "a day.bin made from day.txt is in the way")
    fill(both, data=bytes([1] + [0] * 10 + [1]))
    for status, done, said in [
        (2, show(folder / "nowhere"), "is no folder"), (2, show(fill(folder / "empty")), "neither day.txt nor day.bin"),
        (2, show(both), "which one is the day"), (2, show(good, "--at", "2"), "1 to 1"), (2, show(good, "--at", "x"), "invalid int"),
        (2, show(good, "--fly"), "unrecognized"),
        (2, show(good, "--picture", folder / "no/such/folder.html"), "No such file"), (2, show(good, "--picture", folder), "Is a directory"),
        (2, show(good, "--trace", "/dev/full"), "day: /dev/full: No space left on device"),
        (2, show(good, "--at", "1", "--picture", folder / "page.html"), "--at shows one decision"),
        (1, show(fill(folder / "typo", WORKED_SHEET, "0 tick\n5 fly\n")), "day.txt, line 2: 'fly' is no event"),
        (1, show(fill(folder / "names", WORKED_SHEET, "0 tick\n", names="0 a\n2 c\n")), "names.txt, line 2"),
        (1, show(fill(folder / "twice", WORKED_SHEET, "0 tick\n", names="\n0 a\n0 b\n")), "names.txt, line 3: partition 0 has a name already"),
        (1, show(fill(folder / "same", WORKED_SHEET, "0 tick\n", names="0 a\n1 a\n")), "names.txt, line 2: another job is called 'a' already"),
        (1, show(fill(folder / "long", WORKED_SHEET, "0 tick\n", names="0 " + 41 * "a")), "names.txt, line 1: a name has at most 40 characters"),
        (1, show(fill(folder / "many", WORKED_SHEET, "0 tick\n", names=5000 * "9" + " a")), "names.txt, line 1: the sheet has partitions 0 to 1"),
        (1, show(fill(folder / "half", WORKED_SHEET, "0 create 0 partition 0 priority 9 mask 1 policy 0,5\n")),
         "day.txt, line 1: policy is a whole number, and not '0,5'"),
        (1, show(fill(folder / "less", WORKED_SHEET, "-1 tick\n")), "day.txt, line 1: stamp is a whole number, and not '-1'"),
        (1, show(fill(folder / "huge", WORKED_SHEET, 5000 * "9" + " tick\n")), "day.txt, line 1: stamp is at most 4294967295"),
    ]:
        expect(done.returncode == status and said in done.stderr, f"{done.args[1:]}: status {done.returncode}, {done.stderr!r}")
    with subprocess.Popen([ROOT / "tools/day", ROOT / "examples/workshop"], stdout=subprocess.PIPE, stderr=subprocess.PIPE) as process:
        process.stdout.close()
        said = process.stderr.read()
    expect(process.returncode == 1 and not said, f"nobody reads: status {process.returncode}, {said}")
    expect(show(fill(folder / "bare", text="0 tick\n")).returncode == 1, "a day without a sheet is not refused")
    expect(show("--help").returncode == 0, "help has another status than 0")


def damaged(folder, seed):
    """Whatever is in the files of a day, the tool ends with a status that it tells of, and with a sentence if it shows no day."""
    draw = random.Random(seed)
    files = {"shares.txt": WORKED_SHEET, "day.txt": WORKED_TEXT.encode(), "names.txt": b"0 a\n1 b\n"}
    if seed % 2:
        files["day.bin"] = records.encode(files.pop("day.txt"))
    broken = draw.choice(sorted(files))
    data = bytearray(files[broken])
    for _ in range(draw.choice((1, 3, 30))):
        data[draw.randrange(len(data))] = draw.randrange(256)
    files[broken] = bytes(data[:draw.choice((len(data), draw.randrange(len(data))))])
    folder.mkdir(parents=True)
    for name, content in files.items():
        (folder / name).write_bytes(content)
    done = show(folder, "--picture", folder / "page.html", "--trace", folder / "trace.json")
    sentence = done.stderr.startswith("day: ") and done.stderr.count("\n") == 1
    expect(done.returncode in (0, 1) and (sentence if done.stderr else done.stdout), f"{broken} as {bytes(data)!r}: {done.returncode}, {done.stderr}")


def decisions(name, sheet, data, lines):
    """Every decision of a run is explained: the mode and the thread are the desk's, each other competing job is told why it came later, and a slice
    that ended, what is left of one, what a new priority did, the line, who is favoured, who is tied, and what the other edition would decide, where
    the sheet states one, are as document 02, (i) to (iv), has them."""
    read, told = [programs.read_line(line) for line in lines], 0
    if programs.sheet_refused(read):
        return 0
    names, tick, edition = [f"job {p}" for p in range(16)], settings_of(sheet).tick, settings_of(sheet).edition
    steps = zip(replay.replay(sheets.read(sheet), records.split(data), read), slices(data, lines), places(data, lines), ties(sheet, data, lines),
                editions(sheet, data, lines), strict=True)
    for step, (ended, left), (did, line, raised, lowered), (ran, best), decision in steps:
        text = list(why.text(step, Day(records.split(data), [], []), names))
        if step.accepted and step.line.mode:
            told += 1
            later = [line for line in text if line.startswith(f"job {step.line.partition} before ")]
            compete = sum(re.match(r"job \d+ +yes ", line) is not None for line in text)
            said = "\n".join(text)
            expect(f"\nmode {step.line.mode}, " in said and f"\nthread {step.line.thread} runs" in said and len(later) == compete - 1,
                   f"{name}: the decision after event {step.number} is told as {said}")
            won, ran_until = step.line.partition, f"job {ran}, which ran" if ran is not None else "nobody, because the processor idled"
            why_won = f"a tie, and job {won} is favoured: it ran, and stays" if ran in best else TIE_OF_OTHERS
            expect(f"\nfavoured in a tie: {ran_until} until this event\n" in said and won == (ran if ran in best else best[0])
                   and [line for line in later if "a tie" in line] == [f"job {won} before job {p}: {why_won}" for p in best if p != won],
                   f"{name}: after event {step.number}, until which {ran} ran, {best} are tied for best, and it is told as {said}")
            expect(decision[edition or 1] == step.line[1:] and [line for line in text if "edition" in line and not line.startswith("event ")]
                   == edition_words(edition, tick, decision), f"{name}: after event {step.number} the editions decide {decision}: {said}")
            expect(re.findall(r"this tick ended the slice of thread (\d+),", said) == [str(ended)] * (ended is not None)
                   and re.findall(rf"\nthread {step.line.thread} is round robin: (\d) of the 4 ticks", said) == [str(left)] * (left > 0),
                   f"{name}: after event {step.number} the slice of {ended} ended, {left} ticks are left, and it is told as {said}")
            set_to = [TOLD[did[0]].format(*did[1:3 if did[0] == "same" else 4])] if did else []
            expect([line.removesuffix(", and kept what is left of its slice") for line in text if line.startswith("this event ")] == set_to,
                   f"{name}: event {step.number} did {did}, and it is told as {said}")
            front = f", with those in front that were lowered ({', '.join(map(str, lowered))})" if lowered else ""
            expect(re.fullmatch(f"the line, in order of becoming ready(, or of the end of a slice)?{', or of being raised' * bool(raised)}"
                                + re.escape(f"{front}: {', '.join(map(str, line))}"), text[-1]) is not None,
                   f"{name}: after event {step.number} the line is {line}, of which {raised} were raised and {lowered} lowered: {text[-1]}")
    return told


IN_WORDS = ("idle", "free time", "underload", "at limit")


def edition_words(edition, tick, decision):
    """What --at tells of the edition, by document 02, (iv)."""
    if edition is None:
        return []
    need = {1: f"a quarter of a tick ({tick // 4:,} cycles)", 2: f"half a tick ({tick // 2:,} cycles)"}
    words, (mode, won, thread) = [f"edition {edition}: a job has budget while at least {need[edition]} remains"], decision[3 - edition]
    if decision[1] != decision[2]:
        words.append(f"the decision turns on that: in edition {3 - edition}, where {need[3 - edition]} must remain, it would be mode {mode}, "
                     f"{IN_WORDS[mode]}, and job {won} would run (thread {thread})")
    return words


def disagreeing(folder):
    """With a program in the desk's place that answers wrongly, the tool explains nothing and says where. The last ones give a tie to the lowest
    number, although the other job ran, and decide by edition 1 where the sheet states edition 2."""
    shutil.copytree(ROOT / "tools/lib", folder / "tools/lib")
    shutil.copy2(ROOT / "tools/day", folder / "tools/day")
    tie = "0 create 0 partition 0 priority 9 mask 1\n0 create 1 partition 1 priority 9 mask 1\n0 ready 1\n0 ready 0\n"
    example = ROOT / "examples/editions"
    halves, half = (example / "shares.txt").read_bytes(), (example / "day.txt").read_text()
    for sheet, text, at, line, said in [
        (WORKED_SHEET, WORKED_TEXT, 4, "00 2 00 000\n", "event 5 "), (WORKED_SHEET, WORKED_TEXT, 8, "00 2 01 001\n", "event 9 "),
        (WORKED_SHEET, WORKED_TEXT, 0, "13 0 00 000\n", "event 1 "), (WORKED_SHEET, WORKED_TEXT, 3, "", "9 lines for 10"),
        (WORKED_SHEET, WORKED_TEXT, 2, "hello world\n", "no line of the desk"), (WORKED_SHEET, tie, 3, "00 2 00 000\n", "event 4 "),
        (halves, half, 6, "00 2 01 001\n", "event 7 "), (halves, half, 10, "00 2 01 001\n", "event 11 "),
    ]:
        day = fill(folder / "day", sheet, text)
        right = [line.decode() for line in desk_lines(day, records.encode(text.encode()))]
        lines = right[:at] + [line] + right[at + 1:]
        (folder / "bin").mkdir(exist_ok=True)
        (folder / "answers").write_text("".join(lines))
        (folder / "bin/desk").write_text(f"#!/bin/sh\ncat > /dev/null\ncat '{folder}/answers'\n")
        (folder / "bin/desk").chmod(0o755)
        done = show(day, tool=folder / "tools/day")
        expect(done.returncode == 3 and said in done.stderr and not done.stdout, f"line {at} as {line!r}: {done.returncode}, {done.stderr!r}")


def main():
    with tempfile.TemporaryDirectory() as name:
        folder = Path(name)
        worked(folder / "worked")
        stretches = days = told = 0
        for run in sorted(VECTORS.iterdir()):
            sheet = (run / "shares.txt").read_bytes() if (run / "shares.txt").exists() else None
            data = (run / "events.bin").read_bytes()
            told += decisions(run.name, sheet, data, records.split((run / "expected.txt").read_bytes()))
            stretches += counted(folder / run.name, run.name, sheet, data)
            days += 1
        tight = show(folder / "tight", "--brief").stdout
        expect("partition 0 got 200 cycles or more where 200 are promised (1 stretch of 10 ticks)" in tight, "tight is not tight")
        for seed in range(36):
            window, shares = 2 + seed % 5, ((50, 30, 20), (90, 10), (34, 33, 33, 0))[seed % 3]
            sheet = sheet_of(window, 400, shares, seed % 2, edition=None if seed < 24 else 1 + seed // 2 % 2)
            data = random_day(seed, window, 400, len(shares), 6, 120, *([(10, 20), (0, 1)] if seed % 4 == 3 else []))
            stretches += counted(folder / f"day{seed}", f"day {seed}", sheet, data)
            days += 1
        found = [turns_told(folder / f"turns{seed}", seed) for seed in range(6)]
        told += sum(count for count, _ in found)
        expect(sum(count for _, count in found) > 30, f"only {sum(count for _, count in found)} turns were told")
        found = [places_told(folder / f"places{seed}", seed) for seed in range(8)]
        told += sum(count for count, _ in found)
        words = [word for _, did in found for word in did]
        expect(all(words.count(word) > 10 for word in SAID), f"only so many new priorities were told: { {word: words.count(word) for word in SAID} }")
        found = [ties_told(folder / f"ties{seed}", seed) for seed in range(8)]
        told += sum(count for count, _ in found)
        words = [word for _, won in found for word in won]
        expect(all(words.count(word) > 30 for word in (STAYS, LOWEST)), f"only so many ties were told: {words.count(STAYS)}, {words.count(LOWEST)}")
        found = [editions_told(folder / f"editions{seed}", seed) for seed in range(8)]
        told += sum(count for count, _ in found)
        words = Counter(word for _, would in found for word in would)
        expect(all(words[word] > 20 for word in ("1run", "2run", "1underload", "2limit")), f"only so many turned on the edition: {words}")
        expect(stretches > 500, f"only {stretches} stretches were compared")
        starving(folder / "starving")
        example()
        turns()
        places_shown(folder / "places")
        ties_shown()
        editions_shown(folder / "editions")
        statuses(folder / "statuses")
        for seed in range(40):
            damaged(folder / f"damaged{seed}", seed)
        disagreeing(folder / "disagreeing")
        expect(told > 500, f"only {told} decisions were explained")
    print(f"days: {days} days and {stretches} stretches counted as document 01 says, {told} decisions explained, {expect.wrong} things wrong")
    sys.exit(expect.wrong != 0)


if __name__ == "__main__":
    main()
