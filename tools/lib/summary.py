"""The day's account in words, the same for the terminal and the page."""
from lib.account import RAN, RAN_A_LITTLE, RESUMED, SLEPT, WAITED
from lib.text import columns, count, counted, percent

HEADS = ("job", "share", "charged", "of the whole", "waited", "longest wait", "promised", "least it got")
SIDES = "lrrrrrrr"
STRIP = 100
STARVED = "STARVED: "


def heading(account):
    return (f"{counted(account.events, 'event', 'events')}, {count(account.refused)} of them refused; {counted(account.ticks, 'tick', 'ticks')}; "
            f"{counted(account.now, 'cycle', 'cycles')}, of which {count(account.idle)} idle ({percent(account.idle, account.now)})")


def rows(account, names):
    """A row for each job: its share, its charges and waits in cycles, and in a stretch what it is promised and the least that it got."""
    for partition, job in enumerate(account.jobs):
        bound = account.sheet.bound(partition)
        yield (names[partition], f"{account.sheet.shares[partition]} %", count(job.charged), percent(job.charged, account.now), count(job.waited),
               count(job.longest), count(bound) if bound > 0 else "nothing", count(job.least) if job.stretches else "-")


def explained(account):
    return (f"All but shares are cycles. Promised, and the least it got: in a stretch of {account.sheet.stretch()} ticks that come on time and in "
            "which the job always wants the processor.")


def remarks(account, names):
    """Who starved, and of each job: promise or none, and whether the day shows the promise."""
    sheet = account.sheet
    starved = [starved_words(account, partition, names) for partition in range(len(names)) if account.starved(partition)]
    nobody = f"nobody starved: no job waited longer than {sheet.stretch()} ticks ({count(sheet.stretch() * sheet.tick)} cycles) without a cycle"
    return (starved or [nobody]) + [promise_words(account, partition, names) for partition in range(len(names))]


def starved_words(account, partition, names):
    job = account.jobs[partition]
    return (f"{STARVED}{names[partition]} waited {count(job.longest)} cycles, up to cycle {count(job.longest_end)} of the day, "
            f"without one of its own; that is longer than {account.sheet.stretch()} ticks")


def promise_words(account, partition, names):
    job, name, bound, stretch = account.jobs[partition], names[partition], account.sheet.bound(partition), f"{account.sheet.stretch()} ticks"
    if bound <= 0:
        least = f"; the least it got in {stretch} that it wanted was {count(job.least)}" if job.stretches else ""
        return f"no promise: {name} has a bound of {count(bound)}, which is not above 0{least}"
    if not job.stretches:
        return f"promise not called on: {name} never wanted the processor for {stretch} in a row, all of them on time"
    stretches = counted(job.stretches, "stretch", "stretches")
    return f"promise kept: {name} got {count(job.least)} cycles or more where {count(bound)} are promised ({stretches} of {stretch})"


def ruler(ticks):
    """The numbers of every tenth tick, from the first on, each from above its character on."""
    text = ""
    for place, tick in enumerate(ticks):
        if tick % 10 == 1 and place >= len(text):
            text = f"{text.ljust(place)}{tick} "
    return text


def strips(account, names):
    """A character a tick for each job, in blocks of a hundred."""
    width = max(len(name) for name in names)
    for start in range(0, len(account.ruler), STRIP):
        yield f"{'':{width}}  {ruler(account.ruler[start:start + STRIP])}".rstrip()
        for name, job in zip(names, account.jobs):
            yield f"{name:{width}}  {''.join(job.strip[start:start + STRIP])}"


def text(account, names):
    """The longest part comes first, so that what a person wants to know stands at the end, where a terminal is."""
    yield (f"A character for each tick: {RAN} ran half of it or more, {RAN_A_LITTLE} ran a little, {WAITED} waited, {SLEPT} slept, "
           f"{RESUMED} a resume")
    yield from strips(account, names)
    yield ""
    yield heading(account)
    yield ""
    yield from columns([HEADS, *rows(account, names)], SIDES)
    yield ""
    yield explained(account)
    yield from remarks(account, names)
