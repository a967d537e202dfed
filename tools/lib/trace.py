"""A day in the Chrome trace event format, which Perfetto and chrome://tracing read.

A process for each job, with a track for each of its threads and counters for what it used of the window and what remains; one more process for the
day itself, with the tick periods, idle time, resumes and refusals. A microsecond of the trace is a cycle of the day. A slice is here a piece of a
track, as the format has it; the slice of a round-robin thread is called a time slice. Its end is an instant on the thread's track, and so is a new
priority that moves the thread in the line.
"""
import json

from lib import records
from lib.lanes import ELSEWHERE, READY, RUNNING
from lib.listing import meaning
from lib.scheduler import ENDED, LOWERED, RAISED

# what a slice of a thread's track is called; where there is none the thread is blocked, or does not exist
SLICES = {RUNNING: "running", READY: "waiting", ELSEWHERE: "ready, on other cores alone"}
# and what an instant on it is called
MOVES = {ENDED: "time slice ended", RAISED: "raised, to the tail of the line", LOWERED: "lowered, to the head of the line"}
PERIODS, IDLE = 1, 2


def process(partition):
    """Number 0 means the kernel itself to the viewers, so jobs count from 1, and the day comes last."""
    return partition + 1


def track(partition, thread):
    """Tracks have numbers of their own in all processes."""
    return 1000 * process(partition) + thread


def named(pid, name):
    yield {"ph": "M", "name": "process_name", "pid": pid, "args": {"name": name}}
    yield {"ph": "M", "name": "process_sort_index", "pid": pid, "args": {"sort_index": pid}}


def named_track(pid, tid, name):
    yield {"ph": "M", "name": "thread_name", "pid": pid, "tid": tid, "args": {"name": name}}


def slices(lane, end, pid, tid, names):
    for start, stop, state in lane.spans(end):
        if state in names:
            yield {"ph": "X", "name": names[state], "pid": pid, "tid": tid, "ts": start, "dur": stop - start}


def counters(lanes, sheet, partition):
    """Used and remaining, at each corner of the line of what is used."""
    last = None
    for time, used in lanes.used[partition]:
        if (time, used) != last:
            for name, value in (("used", used), ("remaining", sheet.budget(partition) - used)):
                yield {"ph": "C", "name": name, "pid": process(partition), "ts": time, "args": {"cycles": value}}
        last = time, used


def moments(lanes, pid, day, names):
    """The tick periods as slices; resumes and refusals as instants."""
    begins = sorted([0, *lanes.ticks, *lanes.resumes])
    for start, stop in zip(begins, begins[1:] + [lanes.end]):
        if start < stop:
            yield {"ph": "X", "name": "tick period", "pid": pid, "tid": PERIODS, "ts": start, "dur": stop - start}
    for time in lanes.resumes:
        yield {"ph": "i", "s": "g", "name": "resume", "pid": pid, "tid": PERIODS, "ts": time}
    for time, step in lanes.refusals:
        yield {"ph": "i", "s": "g", "name": f"refused {step.line.refusal}", "pid": pid, "tid": PERIODS, "ts": time,
               "args": {"event": step.number, "text": records.decode_record(step.data), "why": meaning(step, day, names)}}


def events(sheet, lanes, day, names):
    for partition, name in enumerate(names):
        yield from named(process(partition), name)
        yield from counters(lanes, sheet, partition)
    for thread, lane in sorted(lanes.threads.items()):
        yield from named_track(process(thread[0]), track(*thread), lanes.title(thread))
        yield from slices(lane, lanes.end, process(thread[0]), track(*thread), SLICES)
    for time, thread, move in lanes.moves:
        yield {"ph": "i", "s": "t", "name": MOVES[move], "pid": process(thread[0]), "tid": track(*thread), "ts": time}
    whole = process(len(names))
    yield from named(whole, "the day")
    yield from named_track(whole, PERIODS, "tick periods")
    yield from named_track(whole, IDLE, "idle")
    yield from slices(lanes.idle, lanes.end, whole, IDLE, {RUNNING: "idle"})
    yield from moments(lanes, whole, day, names)


def document(sheet, lanes, day, names):
    """One event a line, so that a person can look into the file too."""
    lines = ",\n".join(json.dumps(event, separators=(",", ":")) for event in events(sheet, lanes, day, names))
    return f'{{"displayTimeUnit": "ns", "traceEvents": [\n{lines}\n]}}\n'
