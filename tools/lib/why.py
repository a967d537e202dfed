"""Why this one? The decision after an event, as it was made."""
from lib.listing import meaning
from lib.scheduler import (AT_LIMIT, FREE_TIME, IDLE, LOWERED, MODES, NAMES, RAISED, SLICE, UNDERLOAD, by_budget, by_priority, criteria, mode_of,
                           settled)
from lib.text import columns, count, percent

HEADS = ("job", "competing", "top priority", "used", "budget", "remaining", "has budget", "fraction used")
REASONS = {
    IDLE: "no job has a ready thread that this core may run",
    FREE_TIME: "a job with a share does not compete, so what it leaves is given to the others",
    UNDERLOAD: "all jobs with a share compete, and some have budget",
    AT_LIMIT: "all jobs with a share compete, and none has budget",
}


def row(standing, names):
    fraction = f"{count(standing.used)} of {count(standing.budget)} ({percent(standing.used, standing.budget)})"
    if standing.budget == 0:
        fraction = "worse than every other: a budget of 0"
    return (names[standing.partition], "yes" if standing.competing else "no", str(standing.top) if standing.competing else "-", count(standing.used),
            count(standing.budget), count(standing.remaining), "yes" if standing.has_budget else "no", fraction)


def edition(scheduler, names):
    """What must remain of a budget, where the sheet states its edition; and what the other edition would decide, where that is something else."""
    sheet, other = scheduler.sheet, scheduler.otherwise()
    if sheet.edition_stated:
        yield f"edition {sheet.edition}: a job has budget while at least {sheet.need_in_words()} remains"
    if other is not None:
        need = sheet.need_in_words(sheet.other_edition)
        yield (f"the decision turns on that: in edition {sheet.other_edition}, where {need} must remain, it would be mode {other.mode}, "
               f"{MODES[other.mode]}, and {names[other.partition]} would run (thread {other.thread})")


def favour(step, names):
    """Who is favoured in a tie. A refused event favours nobody else than the last accepted one did."""
    until = "this event" if step.accepted else "the last accepted event"
    if step.scheduler.favoured is None:
        return f"favoured in a tie: nobody, because the processor idled until {until}"
    return f"favoured in a tie: {names[step.scheduler.favoured]}, which ran until {until}"


def reason(best, other, order, favoured, names):
    """Why the winner is before another that competes. It is never worse: where nothing tells the two apart, they are tied for best."""
    apart = settled(best, other, order)
    first, second = names[best.partition], names[other.partition]
    if apart is None and best.partition == favoured:
        return f"{first} before {second}: a tie, and {first} is favoured: it ran, and stays"
    if apart is None:
        return f"{first} before {second}: a tie without the favoured job, so the lower number goes first"
    if apart[0] is by_budget:
        return f"{first} before {second}: {first} has budget, and {second} has not"
    if apart[0] is by_priority:
        return f"{first} before {second}: top priority {best.top} is higher than {other.top}"
    if other.budget == 0:
        return f"{first} before {second}: {second} has a budget of 0, which is worse than every other"
    return (f"{first} before {second}: {count(best.used)} of {count(best.budget)} is a smaller fraction than "
            f"{count(other.used)} of {count(other.budget)}")


def choice(scheduler, best):
    """Why this thread of the winner."""
    chosen = scheduler.candidates(best)
    rest = f"; it is the first of {', '.join(map(str, chosen))} in the line" if len(chosen) > 1 else ""
    return f"thread {chosen[0]} runs: it has priority {best.top}, the highest of its job's ready threads that this core may run{rest}"


def slices(step):
    """The slice that the last accepted event ended, and what is left of the slice of the thread that runs."""
    scheduler = step.scheduler
    if scheduler.ended is not None:
        yield (f"{'this tick' if step.accepted else 'the last accepted tick'} ended the slice of thread {scheduler.ended}, which ran until then: "
               f"it has a full one again, {SLICE} ticks, and went to the tail of the line")
    thread = scheduler.threads[scheduler.running]
    if thread.round_robin:
        left = f"{thread.slice} of the {SLICE} ticks of its slice {'is' if thread.slice == 1 else 'are'} left"
        yield f"thread {scheduler.running} is round robin: {left}"


def place(step):
    """What the last accepted event did to a thread's place in the line, if it set a priority."""
    change = step.scheduler.changed
    if change is None:
        return
    event = "this event" if step.accepted else "the last accepted event"
    if not change.ready:
        yield f"{event} set thread {change.thread} from priority {change.before} to {change.after}: it is not ready, and has no place in the line"
    elif change.move is None:
        yield f"{event} set thread {change.thread} to the priority that it had, {change.after}: it kept its place in the line"
    else:
        did, end = ("raised", "tail") if change.move == RAISED else ("lowered", "head")
        kept = ", and kept what is left of its slice" if step.scheduler.threads[change.thread].round_robin else ""
        yield f"{event} {did} thread {change.thread} from priority {change.before} to {change.after}: it went to the {end} of the line{kept}"


def line(scheduler):
    """The line, and where its order comes from. Those that were lowered stand in front, the last one first, because all others go to the tail."""
    threads = [scheduler.threads[t] for t in scheduler.line]
    order = "in order of becoming ready"
    if any(thread.round_robin for thread in threads):
        order += ", or of the end of a slice"
    if any(thread.moved == RAISED for thread in threads):
        order += ", or of being raised"
    if lowered := [number for number, thread in zip(scheduler.line, threads) if thread.moved == LOWERED]:
        order += f", with those in front that were lowered ({', '.join(map(str, lowered))})"
    return f"the line, {order}: {', '.join(map(str, scheduler.line))}"


def text(step, day, names):
    """The decision that stands after a step. A refused event changes nothing, and so the decision before it stands."""
    scheduler = step.scheduler
    standings = scheduler.standings()
    mode, policy = mode_of(standings), scheduler.sheet.policy
    order = criteria(mode, policy)
    yield f"event {step.number}: {step.line}  {meaning(step, day, names)}"
    if not step.accepted:
        yield "nothing is changed by it, and the decision before it stands:"
    yield ""
    yield from columns([HEADS, *(row(s, names) for s in standings)], "lrrrrrrl")
    yield ""
    yield f"mode {mode}, {MODES[mode]}: {REASONS[mode]}"
    if mode == IDLE:
        return
    yield f"policy {policy}; compared by: {', then '.join(NAMES[c] for c in order)}"
    yield from edition(scheduler, names)
    yield favour(step, names)
    best = standings[scheduler.running_partition()]
    others = [s for s in standings if s.competing and s is not best]
    for other in others:
        yield reason(best, other, order, scheduler.favoured, names)
    if not others:
        yield f"{names[best.partition]} is the only one that competes"
    yield choice(scheduler, best)
    yield from slices(step)
    yield from place(step)
    yield line(scheduler)
