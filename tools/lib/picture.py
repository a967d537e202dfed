"""A day as one page for the browser: a lane for each job and each of its threads, and below them what was used of the window against the budget.

The page needs no network and no script. What is narrower than a pixel is joined, so its size does not grow with the day.
"""
from html import escape
from pathlib import Path

from lib import records, summary
from lib.lanes import ABSENT, BLOCKED, ELSEWHERE, READY, RUNNING
from lib.text import count, percent

STYLE = Path(__file__).with_name("picture.css")
# The drawings are so many units wide, and stretched to the page; pieces narrower than a pixel's worth of units are joined.
WIDTH, PIXEL = 16000, 10
LITTLE = "little"
# later ones are drawn over earlier ones
DRAWN = (BLOCKED, ELSEWHERE, READY, LITTLE, RUNNING)
HEIGHT = 1000
# what is beyond the budget is never drawn narrower than this
SEEN = 4 * PIXEL
LABELS = 10
MOST_TICKS = 100
# more resumes than this are drawn beside the ticks alone, and not through every lane
MOST_RESUMES = 30
# refusals nearer than this part of the width share a mark; so many are listed in words
TOGETHER = 0.05
MOST_LISTED = 500
LEGEND = ((RUNNING, "running"), (LITTLE, "running a little, where the time is too short to draw"), (READY, "waiting: ready, and another runs"),
          (BLOCKED, "asleep"), (ELSEWHERE, "ready, on other cores alone"), ("level", "used in the window"), ("over", "used beyond the budget"),
          ("resume", "resume: the window starts anew"))


class Scale:
    """From the time of the day to the place in a drawing."""

    def __init__(self, end):
        self.end = max(end, 1)

    def x(self, time):
        return round(time * WIDTH / self.end)

    def part(self, time):
        """For what stands on the page beside the drawings, in percent of the width."""
        return f"{100 * time / self.end:.2f}%"


# ---- lanes

def joined(spans, scale):
    """The pieces of a lane as places and kinds. Pieces narrower than a pixel are gathered until they fill one."""
    gathered, start = {}, 0
    for begin, end, state in spans:
        wide = (end - begin) * WIDTH >= PIXEL * scale.end
        if wide and gathered:
            yield scale.x(start), scale.x(begin), kind_of(gathered)
            gathered = {}
        if wide:
            yield scale.x(begin), scale.x(end), state
            continue
        if not gathered:
            start = begin
        gathered[state] = gathered.get(state, 0) + end - begin
        if (end - start) * WIDTH >= PIXEL * scale.end:
            yield scale.x(start), scale.x(end), kind_of(gathered)
            gathered = {}
    if gathered:
        yield scale.x(start), scale.x(end), kind_of(gathered)


def kind_of(gathered):
    """What to show for a short time in which a lane had several states, as the strips of the summary do."""
    if RUNNING in gathered:
        return RUNNING if 2 * gathered[RUNNING] >= sum(gathered.values()) else LITTLE
    return next(state for state in (READY, ELSEWHERE, BLOCKED, ABSENT) if state in gathered)


def paths(spans, scale):
    """A lane's drawing: a path for each kind, of horizontal strokes. What runs is never drawn narrower than a pixel."""
    strokes = {kind: [] for kind in DRAWN}
    for start, end, kind in joined(spans, scale):
        if kind in strokes:
            strokes[kind].append(f"M{start} 5h{max(end - start, PIXEL if kind in (RUNNING, LITTLE) else 1)}")
    return "".join(f'<path class="{kind}" d="{"".join(parts)}"/>' for kind, parts in strokes.items() if parts)


def drawing(inside, height):
    return f'<svg viewBox="0 0 {WIDTH} {height}" preserveAspectRatio="none"><use href="#grid"/>{inside}</svg>'


def row(kind, name, lane):
    return f'<div class="row {kind}"><div class="name">{name}</div><div class="lane">{lane}</div></div>'


# ---- what was used

def corners(line, scale):
    """The corners of a line of what was used; of those within a pixel the first, the least, the greatest and the last."""
    column, found = None, []
    for time, used in line:
        place = scale.x(time) // PIXEL
        if place != column:
            yield from kept(found)
            column, found = place, []
        found.append((scale.x(time), used))
    yield from kept(found)


def kept(points):
    if len(points) <= 4:
        return points
    values = [used for _, used in points]
    low, high = sorted((values.index(min(values)), values.index(max(values))))
    return [points[0], points[low], points[high], points[-1]]


def beyond(line, budget, scale):
    """Where the line is above the budget, as places; pieces less than a pixel apart are one."""
    found = []
    for (begin, before), (end, after) in zip(line, line[1:]):
        if begin == end or after <= budget:
            continue
        if before < budget:  # it rises from below
            begin += (budget - before) * (end - begin) / (after - before)
        if found and scale.x(begin) - found[-1][1] < PIXEL:
            found[-1][1] = scale.x(end)
        else:
            found.append([scale.x(begin), scale.x(end)])
    return found


def used_row(partition, lanes, sheet, scale):
    """The line of what was used, filled, with what is beyond the budget in another colour, and the budget's line in that colour meanwhile: what is
    beyond it may be too little to be seen."""
    line = lanes.used[partition] + [(lanes.end, lanes.used[partition][-1][1])]
    budget, most = sheet.budget(partition), max(used for _, used in line)
    top = max(budget, most, 1) * 1.08

    def y(cycles):
        return round(HEIGHT * (1 - cycles / top))

    outline = f"M0 {HEIGHT}" + "".join(f"L{x} {y(used)}" for x, used in corners(line, scale)) + f"L{WIDTH} {HEIGHT}z"
    inside = (f'<defs><path id="used{partition}" d="{outline}" style="fill:inherit"/>'
              f'<clipPath id="over{partition}"><rect width="{WIDTH}" height="{y(budget)}"/></clipPath></defs>'
              f'<use class="level" href="#used{partition}"/><use class="over" href="#used{partition}" clip-path="url(#over{partition})"/>'
              f'<path class="budget" d="M0 {y(budget)}h{WIDTH}"/>')
    strokes = "".join(f"M{start} {y(budget)}h{max(end - start, SEEN)}" for start, end in beyond(line, budget, scale))
    inside += f'<path class="beyond" d="{strokes}"/>' if strokes else ""
    over = f'<br><span class="overdrawn">overdrawn by {count(most - budget)}</span>' if most > budget else ""
    return row("used", f"used, at most {count(most)}<br>budget {count(budget)} (dashed){over}", drawing(inside, HEIGHT))


# ---- ticks, resumes and refusals

def step_of(number, most):
    """1, 2 or 5 with zeros: the least step in which so many things have at most so many marks."""
    step = 1
    while number > step * most:
        step = step * 5 // 2 if str(step)[0] == "2" else step * 2
    return step


def uprights(times, scale, kind):
    """Lines from top to bottom, one for all times within a pixel."""
    places = {scale.x(time) // PIXEL: scale.x(time) for time in times}
    return f'<path class="{kind}" d="{"".join(f"M{place} 0v{HEIGHT}" for place in places.values())}"/>'


def ticks_row(lanes, scale):
    """The ticks with the numbers of some, and the grid that all other drawings repeat."""
    labelled, marked = step_of(len(lanes.ticks), LABELS), step_of(len(lanes.ticks), MOST_TICKS)
    grid, marks = uprights(lanes.ticks[labelled - 1::labelled], scale, "grid"), uprights(lanes.ticks[marked - 1::marked], scale, "tick")
    resumes = uprights(lanes.resumes, scale, "resume")
    if len(lanes.resumes) <= MOST_RESUMES:
        grid += resumes
    else:
        marks += resumes
    inside = f'<defs><g id="grid">{grid}</g></defs>{marks}'
    labels = "".join(f'<span class="label" style="left:{scale.part(lanes.ticks[i])}">{count(i + 1)}</span>'
                     for i in range(labelled - 1, len(lanes.ticks), labelled))
    name = "ticks" if marked == 1 else f"ticks, a mark for every {count(marked)}"
    return row("ticks", name, drawing(inside, 10) + labels)


def refusal_words(step, day):
    event, place = records.decode_record(step.data), day.source(step.number - 1)
    return f"event {count(step.number)} ({event}), {place}: refused with {step.line.refusal}, {step.words}"


def marks_row(lanes, scale, day):
    groups = []
    for time, step in lanes.refusals:
        if groups and (time - groups[-1][0][0]) < TOGETHER * scale.end:
            groups[-1].append((time, step))
        else:
            groups.append([(time, step)])
    marks = []
    for group in groups:
        many = str(len(group)) if len(group) < 1000 else f"{len(group) // 1000}k"  # short, because the next mark is near
        label = str(group[0][1].line.refusal) if len(group) == 1 else f"{many}&times;"
        words = "\n".join(refusal_words(step, day) for _, step in group[:8]) + (f"\nand {count(len(group) - 8)} more" if len(group) > 8 else "")
        marks.append(f'<a class="mark" href="#refused" style="left:{scale.part(group[0][0])}" title="{escape(words)}">{label}</a>')
    return row("marks", "refused events", "".join(marks)) if marks else ""


def refusals_table(lanes, day):
    if not lanes.refusals:
        return ""
    lines = table_rows((count(step.number), day.source(step.number - 1), records.decode_record(step.data), str(step.line.refusal), step.words)
                       for _, step in lanes.refusals[:MOST_LISTED])
    left = len(lanes.refusals) - MOST_LISTED
    more = f'<p class="note">And {count(left)} more: tools/day lists them all.</p>' if left > 0 else ""
    return (f'<h2 id="refused">Refused</h2><p class="note">A refused event changes nothing.</p><div class="scroll"><table class="refusals">'
            f"<tr><th>event</th><th>where</th><th>what</th><th>number</th><th>why</th></tr>{lines}</table></div>{more}")


# ---- the page

def job_rows(partition, lanes, account, names, scale):
    job, share = account.jobs[partition], account.sheet.shares[partition]
    said = f"share {share} %, charged {percent(job.charged, account.now)} of the day"
    starved = ' <span class="overdrawn">starved</span>' if account.starved(partition) else ""
    yield f"<h2>{escape(names[partition])}<small>{said}{starved}</small></h2>"
    yield row("job", "the job", drawing(paths(lanes.jobs[partition].spans(lanes.end), scale), 10))
    for thread, track in sorted(lanes.threads.items()):
        if thread[0] == partition:
            yield row("thread", lanes.title(thread), drawing(paths(track.spans(lanes.end), scale), 10))
    yield used_row(partition, lanes, account.sheet, scale)


def numbers_table(account, names):
    head = "".join(f"<th>{word}</th>" for word in summary.HEADS)
    lines = table_rows(summary.rows(account, names))
    return f'<div class="scroll"><table class="numbers"><tr>{head}</tr>{lines}</table></div><p class="note">{escape(summary.explained(account))}</p>'


def table_rows(rows):
    return "".join("<tr>" + "".join(f"<td>{escape(word)}</td>" for word in words) + "</tr>" for words in rows)


def remarks_list(account, names):
    items = [(" class=starved" if remark.startswith(summary.STARVED) else "", escape(remark)) for remark in summary.remarks(account, names)]
    return '<ul class="remarks">' + "".join(f"<li{kind}>{remark}</li>" for kind, remark in items) + "</ul>"


def page(title, account, lanes, day, names):
    """The whole page of a day's account and lanes."""
    scale = Scale(lanes.end)
    legend = "".join(f'<span><i class="{kind}"></i>{words}</span>' for kind, words in LEGEND)
    parts = [
        f"<h1>{escape(title)}</h1><p>{escape(summary.heading(account))}</p>",
        remarks_list(account, names),
        f'<div class="legend">{legend}</div>',
        ticks_row(lanes, scale),
        marks_row(lanes, scale, day),
        *(part for partition in range(len(names)) for part in job_rows(partition, lanes, account, names, scale)),
        "<h2>The numbers</h2>",
        numbers_table(account, names),
        refusals_table(lanes, day),
    ]
    body = "\n".join(part for part in parts if part)
    return ('<!doctype html>\n<html lang="en"><head><meta charset="utf-8"><meta name="viewport" content="width=device-width, initial-scale=1">'
            f"<title>{escape(title)}</title>\n<style>\n{STYLE.read_text()}</style></head>\n<body>\n{body}\n</body></html>\n")
