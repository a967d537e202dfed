#!/usr/bin/env python3
"""The trace that tools/day writes, in the Chrome trace event format: a process for each job, a track for each thread, slices that do not overlap and
add up to what document 01's words say, counters for used and remaining, and an instant for each refusal, for each end of a time slice, and for each
new priority that moves a thread in the line.
"""
import json
import shutil
import sys
import tempfile
from pathlib import Path

from expecting import Expecting
from folders import ROOT, WORKED_SHEET, WORKED_TEXT, Judged, desk_lines, fill, places, random_day, sheet_of, show, slices

expect = Expecting("traces")
# what an instant of a thread's track is called
ENDED, RAISED, LOWERED = "time slice ended", "raised, to the tail of the line", "lowered, to the head of the line"


class Trace:
    """A trace by the names that it gives: slices and counters of each process."""

    def __init__(self, folder):
        out = Path(folder) / "trace.json"
        done = show(folder, "--brief", "--trace", out)
        expect(done.returncode in (0, 1), f"{folder}: status {done.returncode}, {done.stderr}")
        self.events = json.loads(out.read_text())["traceEvents"]
        self.processes = {e["pid"]: e["args"]["name"] for e in self.events if e["name"] == "process_name"}
        self.tracks = {(e["pid"], e["tid"]): e["args"]["name"] for e in self.events if e["name"] == "thread_name"}
        self.slices, self.counters, self.instants, self.moves = {}, {}, [], []
        expect(len(set(self.processes.values())) == len(self.processes) and 0 not in self.processes, f"{folder}: processes are {self.processes}")
        expect(len({tid for _, tid in self.tracks}) == len(self.tracks), f"{folder}: two tracks have one number")
        for event in self.events:
            if event["ph"] == "X":
                name = self.processes[event["pid"]], self.tracks[event["pid"], event["tid"]]
                self.slices.setdefault(name, []).append((event["ts"], event["ts"] + event["dur"], event["name"]))
            elif event["ph"] == "C":
                self.counters.setdefault((self.processes[event["pid"]], event["name"]), []).append((event["ts"], event["args"]["cycles"]))
            elif event["ph"] == "i" and event["s"] == "t":
                self.moves.append((event["ts"], self.tracks[event["pid"], event["tid"]], event["name"]))
            elif event["ph"] == "i":
                self.instants.append((event["name"], event.get("args")))
            else:
                expect(event["ph"] == "M", f"{folder}: an event of the phase {event['ph']}")
        for name, slices in self.slices.items():
            expect(all(a < b for a, b, _ in slices) and all(x[1] <= y[0] for x, y in zip(slices, slices[1:])), f"{folder}: slices of {name} overlap")

    def total(self, job, kind):
        return sum(b - a for (process, _), slices in self.slices.items() if process == job for a, b, name in slices if name == kind)


def worked(folder):
    """Document 01's run, by hand."""
    trace = Trace(fill(folder, WORKED_SHEET, WORKED_TEXT, names="0 tracking\n1 screen\n"))
    expect(sorted(trace.processes.values()) == ["screen", "the day", "tracking"], f"the processes are {trace.processes}")
    for track, slices in ((("tracking", "thread 0"), [(0, 2000, "waiting"), (2000, 4000, "running")]),
                          (("screen", "thread 1"), [(0, 2000, "running"), (2000, 4000, "waiting")])):
        expect(trace.slices[track] == slices, f"{track} has the slices {trace.slices[track]}")
    periods = [(start, end) for start, end, _ in trace.slices["the day", "tick periods"]]
    expect(periods == [(0, 1000), (1000, 2000), (2000, 3000), (3000, 4000)], f"the tick periods are {periods}")
    # the tick at 4000 moves to the slot of the first tick, in which partition 1 was charged 1000
    for counter, values in ((("screen", "used"), {0: 0, 1000: 1000, 2000: 2000, 4000: 1000}),
                            (("tracking", "remaining"), {0: 2000, 2000: 2000, 3000: 1000, 4000: 0})):
        expect(dict(trace.counters[counter]) == values, f"{counter} is {trace.counters[counter]}")
    expect([name for name, _ in trace.instants] == ["refused 13", "refused 10"] and trace.instants[0][1]["event"] == 9
           and "thread 1 is ready already" in trace.instants[0][1]["why"], f"the instants are {trace.instants}")


# the ends of slices in the example of turns, by hand: see tests/days.py
TURNS = [(16000, 3), (20000, 4), (24000, 3), (30000, 4), (36000, 4), (40000, 3)]


def turns(folder):
    """The example of turns: the ends of slices stand on the tracks of their threads."""
    shutil.copytree(ROOT / "examples/turns", folder)
    trace = Trace(folder)
    expect(trace.moves == [(time, f"thread {thread}, at times round robin", ENDED) for time, thread in TURNS], f"slices end at {trace.moves}")
    found = trace.slices["screen", "thread 4, at times round robin"][:3]
    expect(found == [(0, 16000, "waiting"), (16000, 20000, "running"), (20000, 24000, "waiting")], f"thread 4 has the slices {found}")
    expect([name for name, _ in trace.instants] == ["refused 12"], f"the instants are {trace.instants}")


# what moves threads in the example of places, by hand
PLACES = [(2500, "thread 5", RAISED), (4500, "thread 4", RAISED), (5500, "thread 4", LOWERED), (6500, "thread 4", LOWERED),
          (6600, "thread 4", RAISED), (8500, "thread 3", LOWERED), (11500, "thread 6, round robin", RAISED),
          (11700, "thread 6, round robin", LOWERED), (13000, "thread 6, round robin", ENDED)]


def moved(folder):
    """The example of places: what moves a thread stands on its track. Thread 4 waits behind thread 3, and runs when it is raised and when it is
    lowered again, until it is lowered below its equals."""
    shutil.copytree(ROOT / "examples/places", folder)
    trace = Trace(folder)
    expect(trace.moves == PLACES, f"threads move at {trace.moves}")
    found = trace.slices["screen", "thread 4"]
    expect(found == [(0, 3500, "waiting"), (3500, 3600, "running"), (4300, 4500, "waiting"), (4500, 6500, "running"), (6500, 9000, "waiting")],
           f"thread 4 has the slices {found}")


# the screen's threads in the example of ties, by hand, in thousands of cycles
KEPT = {
    "thread 3": [(0, 1, "running"), (1, 3, "waiting"), (3, 5, "running"), (5, 7, "waiting"), (7, 8, "running")],
    "thread 4": [(8, 9, "running"), (9, 11, "waiting")],
}


def kept(folder):
    """The example of ties: the screen and tracking run for two ticks each, the screen's second thread where its first one ends."""
    shutil.copytree(ROOT / "examples/ties", folder)
    trace = Trace(folder)
    for thread, wanted in KEPT.items():
        found = trace.slices["screen", thread]
        expect(found == [(1000 * start, 1000 * end, name) for start, end, name in wanted], f"{thread} has the slices {found}")


# the threads in the example of editions, by hand, in thousands of cycles: the radio's, and the screen's, which has the higher priority
EDITIONS = {
    ("radio", "thread 0"): [(0, 2, "waiting"), (2, 4, "running"), (4, 6, "waiting"), (6, 8, "running"), (8, 9.4, "waiting"), (10, 11, "running")],
    ("screen", "thread 1"): [(0, 2, "running"), (2, 4, "waiting"), (4, 6, "running"), (6, 8, "waiting"), (8, 10, "running"), (10, 11, "waiting")],
}


def half(folder):
    """The example of editions: the screen stops running where less than half a tick remains of its budget."""
    shutil.copytree(ROOT / "examples/editions", folder)
    trace = Trace(folder)
    for track, wanted in EDITIONS.items():
        expect(trace.slices[track] == [(1000 * start, 1000 * end, name) for start, end, name in wanted], f"{track} has {trace.slices[track]}")
    remaining = dict(trace.counters["screen", "remaining"])
    expect([remaining[time] for time in (1900, 2000, 4950)] == [500, 400, 450], f"what remains to the screen is {remaining}")


def measured(folder, seed):
    sheet, data = sheet_of(4, 400, (50, 30, 20)), random_day(seed, 4, 400, 3, 6, 300, *([(10, 20), (0, 1)] if seed % 2 else []))
    trace = Trace(fill(folder, sheet, data=data))
    lines = desk_lines(folder, data)
    judged = Judged(sheet, data, lines)
    for p in range(3):
        running = trace.total(f"partition {p}", "running")
        expect(running == judged.charged(p), f"day {seed}: partition {p} runs {running}")
        used, remaining = trace.counters[f"partition {p}", "used"], trace.counters[f"partition {p}", "remaining"]
        budget = judged.shares[p] * 4 * 400 // 100
        expect(all((t, budget - u) == r for (t, u), r in zip(used, remaining, strict=True)), f"day {seed}: remaining is not budget less used")
    expect(trace.total("the day", "idle") == sum(e for e, r in zip(judged.elapsed, judged.ran) if r is None), f"day {seed}: idle time is other")
    names, moves = {"raised": RAISED, "lowered": LOWERED}, []
    for (ended, _), (did, *_) in zip(slices(data, lines), places(data, lines)):
        moves += [(ended, ENDED)] if ended is not None else [(did[1], names[did[0]])] if did and did[0] in names else []
    kinds = {move for _, move in moves}
    expect([(int(name.split()[1].strip(",")), move) for _, name, move in trace.moves] == moves and {RAISED, LOWERED} <= kinds
           and (ENDED in kinds) == bool(seed % 2), f"day {seed}: in the line moved {moves}")
    refused = sum(line[:2] != b"00" for line in lines)
    expect(sum(name.startswith("refused") for name, _ in trace.instants) == refused, f"day {seed}: refusals are missing")
    expect(sum(name == "resume" for name, _ in trace.instants) == judged.kinds.count(7), f"day {seed}: resumes are missing")


def main():
    with tempfile.TemporaryDirectory() as name:
        worked(Path(name) / "worked")
        turns(Path(name) / "turns")
        moved(Path(name) / "places")
        kept(Path(name) / "ties")
        half(Path(name) / "editions")
        for seed in range(10):
            measured(Path(name) / f"day{seed}", seed)
    print(f"traces: the traces of 15 days, {expect.wrong} things wrong")
    sys.exit(expect.wrong != 0)


if __name__ == "__main__":
    main()
