#!/usr/bin/env python3
"""The page that tools/day writes: its numbers are the summary's, its lanes are the day's as worked out by hand or by document 01's words, an
overdrawn job is seen as such, refusals are marked with their words, nothing is fetched from elsewhere, and a day of 100,000 events stays small.
"""
import re
import shutil
import sys
import tempfile
from html import unescape
from html.parser import HTMLParser
from pathlib import Path

from expecting import Expecting
from folders import ROOT, WORKED_SHEET, WORKED_TEXT, Judged, desk_lines, fill, random_day, sheet_of, show, table

WIDTH = 16000
expect = Expecting("pictures")


class Page(HTMLParser):
    """The page's parts: the table of numbers by job, each job's rows as they follow each other, the marks, and everything that could be fetched."""

    def __init__(self, text):
        super().__init__(convert_charrefs=True)
        self.jobs, self.marks, self.links, self.tags, self.text = {}, [], [], set(), ""
        self.cells, self.tables, self.row = [], {}, None
        self.feed(text)
        self.close()

    def handle_starttag(self, tag, given):
        given = dict(given)
        self.tags.add(tag)
        self.links += [given[name] for name in ("href", "src", "xlink:href") if name in given]
        kind = given.get("class", "")
        if tag == "h2":
            self.text = ""
        elif tag == "a" and kind == "mark":
            self.marks.append(given["title"])
        elif tag == "table":
            self.cells = self.tables.setdefault(kind, [])
        elif tag == "tr":
            self.cells.append([])
        elif tag in ("td", "th"):
            self.text = ""
        elif tag == "div" and kind.startswith("row "):
            self.row = {"kind": kind.split()[1], "name": "", "strokes": {}}
            if self.jobs:
                list(self.jobs.values())[-1].append(self.row)
        elif tag == "div" and kind == "name":
            self.text = ""
        elif tag == "path" and self.row and "h" in given.get("d", "") and kind not in ("budget", "grid"):
            self.row["strokes"][kind] = [(int(x), int(x) + int(w)) for x, w in re.findall(r"M(\d+) 5h(\d+)", given["d"])]

    def handle_data(self, data):
        self.text += data

    def handle_endtag(self, tag):
        if tag in ("td", "th"):
            self.cells[-1].append(self.text)
        elif tag == "h2":
            self.jobs[re.sub(r"share \d+ %.*", "", self.text)] = []
        elif tag == "div" and self.row and not self.row["name"]:
            self.row["name"] = self.text


def drawn(folder, *words):
    """The page of a day, and what the terminal said."""
    out = Path(folder) / "page.html"
    done = show(folder, "--brief", "--picture", out, *words)
    expect(done.returncode in (0, 1), f"{folder}: status {done.returncode}, {done.stderr}")
    text = out.read_text()
    page = Page(text)
    expect(all(link.startswith("#") for link in page.links) and not page.tags & {"script", "link", "img", "iframe"} and "url(#" in text
           and not re.search(r"url\((?!#)|@import|https?:", text), f"{folder}: something is fetched from elsewhere")
    rows = table(done.stdout)
    expect({row[0]: row[1:] for row in page.tables["numbers"][1:]} == rows, f"{folder}: the page's numbers are not the summary's")
    expect(all(line in unescape(text) for line in done.stdout.splitlines() if line.startswith(("promise", "no promise", "nobody", "STARVED"))),
           f"{folder}: the page does not say what the summary says")
    return page, text, done


def rows_of(page, job, kind):
    return [row for row in page.jobs[job] if row["kind"] == kind]


def worked(folder):
    """Document 01's run over 4000 cycles: thread 1 runs in the first half of the day and waits in the second, thread 0 the other way round."""
    page, text, _ = drawn(fill(folder, WORKED_SHEET, WORKED_TEXT))
    first, second = [(0, WIDTH // 2)], [(WIDTH // 2, WIDTH)]
    for job, thread, running, ready in (("partition 0", "thread 0", second, first), ("partition 1", "thread 1", first, second)):
        for row in (rows_of(page, job, "job")[0], rows_of(page, job, "thread")[0]):
            expect(row["strokes"] == {"running": running, "ready": ready}, f"document 01's run: {job} is drawn as {row['strokes']}")
        expect(rows_of(page, job, "thread")[0]["name"] == thread, f"{job} has the lane {rows_of(page, job, 'thread')[0]['name']}")
        expect(rows_of(page, job, "used")[0]["name"] == "used, at most 2,000budget 2,000 (dashed)", f"{job}: {rows_of(page, job, 'used')[0]['name']}")
    words = "\n".join(page.marks)
    for said in ("thread 1 is ready already", "line 9 of day.txt", "3,000 cycles since the last tick"):
        expect(said in words, f"the marks say {words!r}, and not {said!r}")
    refusals = [["9", "line 9 of day.txt", "4500 ready 1", "13"], ["10", "line 10 of day.txt", "7000 tick", "10"]]
    expect([row[:4] for row in page.tables["refusals"][1:]] == refusals, f"the refusals are {page.tables['refusals']}")


def overdrawn(folder):
    """Alone for two ticks in a window of two: 2000 used, of a budget of 1000. Its thread sleeps half a tick, another may run on core 1 alone."""
    text = ("0 create 0 partition 0 priority 1 mask 1\n0 create 3 partition 0 priority 2 mask 2\n0 ready 0\n"
            "1000 ticks 2 every 1000\n2500 block 0\n3000 ready 3\n4000 tick\n")
    page, text, _ = drawn(fill(folder, sheet_of(2, 1000, (50, 50)), text, names="0 <hög> & \"co\"\n"))
    expect("<hög>" not in text and '& "' not in text, "a name is not escaped")
    used = rows_of(page, "<hög> & \"co\"", "used")[0]["name"]
    expect("at most 2,000" in used and "overdrawn by 1,000" in used, f"an overdrawn job is told as {used!r}")
    expect("overdrawn" not in rows_of(page, "partition 1", "used")[0]["name"], "a job that never ran is overdrawn")
    # up to 1000 it has budget; then 1000 of the tick before and more, up to the end of the day
    expect(re.findall(r'<path class="beyond" d="M(\d+) 53[67]h(\d+)"', text) == [("4000", "12000")], "the time beyond the budget is drawn elsewhere")
    lanes = rows_of(page, "<hög> & \"co\"", "thread")
    expect(lanes[0]["strokes"] == {"running": [(0, 10000)], "blocked": [(10000, 16000)]}, f"thread 0 is drawn as {lanes[0]['strokes']}")
    expect(lanes[1]["strokes"] == {"blocked": [(0, 12000)], "elsewhere": [(12000, 16000)]}, f"thread 3 is drawn as {lanes[1]['strokes']}")
    # the budget is at 1000 of the drawing's 2160, and what is above it has the other colour
    expect(re.search(r'<clipPath id="over0"><rect width="16000" height="(53[67])"', text) is not None, "the budget is drawn elsewhere")
    # of a budget of 1500 the last cycle is used in the middle of the second of two ticks
    text = "0 create 0 partition 0 priority 1 mask 1\n0 ready 0\n1000 ticks 2 every 1000\n"
    _, text, _ = drawn(fill(folder / "rising", sheet_of(2, 1000, (75, 25)), text))
    expect(re.findall(r'<path class="beyond" d="M(\d+) \d+h(\d+)"', text) == [("12000", "4000")], "the budget is used up at another time")


def measured(folder, seed):
    """On a day made here the lanes are as long as document 01's words say the job ran and waited, but for what is less than a pixel."""
    sheet, data = sheet_of(5, 400, (50, 30, 20)), random_day(seed, 5, 400, 3, 6, 60)
    page, _, _ = drawn(fill(folder, sheet, data=data))
    judged = Judged(sheet, data, desk_lines(folder, data))
    for p in range(3):
        strokes = rows_of(page, f"partition {p}", "job")[0]["strokes"]
        for kind, cycles in (("running", judged.charged(p)), ("ready", judged.waited(p))):
            pieces = strokes.get(kind, [])
            length = sum(end - start for start, end in pieces)
            expect(abs(length - cycles * WIDTH / judged.whole()) <= 6 * max(len(pieces), 1), f"day {seed}: partition {p}, {kind} is {length} long")


def joined(folder):
    """Pieces that are narrower than a pixel: 1600 ticks in each of which a thread runs for a quarter, 400 asleep, 1600 in which it runs for three
    quarters. A pixel of 1600 is more than two ticks, so that it is drawn as running a little, asleep, and running."""
    text, now = ["0 create 0 partition 0 priority 1 mask 1"], 0
    for count, part in ((1600, 250), (400, 0), (1600, 750)):
        for _ in range(count):
            text += [f"{now} ready 0", f"{now + part} block 0"] if part else []
            now += 1000
            text.append(f"{now} tick")
    page, _, _ = drawn(fill(folder, sheet_of(2, 1000, (100,)), "\n".join(text)))
    strokes = rows_of(page, "partition 0", "job")[0]["strokes"]
    first, second = 1600 * WIDTH // 3600, 2000 * WIDTH // 3600
    for kind, start, end in (("little", 0, first), ("blocked", first, second), ("running", second, WIDTH)):
        pieces = strokes[kind]
        expect(abs(pieces[0][0] - start) <= 20 and abs(pieces[-1][1] - end) <= 20 and sum(b - a for a, b in pieces) >= end - start - 40,
               f"narrow pieces: {kind} is drawn from {pieces[0][0]} to {pieces[-1][1]}, {len(pieces)} pieces")
        expect(all(a[1] <= b[0] + 10 for a, b in zip(pieces, pieces[1:])), f"narrow pieces: those of {kind} overlap")
    expect(set(strokes) == {"little", "blocked", "running"}, f"narrow pieces are drawn as {set(strokes)}")


# The lanes of the example of turns, by hand from document 02, (i), in thousands of cycles: thread 3 keeps thread 4 from running until 12, and then
# each runs for four ticks. Tracking runs from 26.3 to 28.4; thread 3 blocks from 32.5 to 32.8, and thread 4, whose slice is full, has the four ticks
# up to 36.
TURNS = {
    "thread 3, at times round robin": {
        "running": [(0, 16), (20, 24), (30, 32.5), (36, 40)], "ready": [(16, 20), (24, 30), (32.8, 36)], "blocked": [(32.5, 32.8)]},
    "thread 4, at times round robin": {
        "running": [(16, 20), (24, 26.3), (28.4, 30), (32.5, 36)], "ready": [(0, 16), (20, 24), (26.3, 28.4), (30, 32.5), (36, 40)]},
}


def turns(folder):
    """The lanes of two threads that take turns; a lane says of its thread that it is round robin."""
    shutil.copytree(ROOT / "examples/turns", folder)
    page, _, _ = drawn(folder)
    lanes = {row["name"]: row["strokes"] for row in rows_of(page, "screen", "thread")}
    wanted = {name: {kind: [tuple(round(at * WIDTH / 40) for at in piece) for piece in pieces] for kind, pieces in strokes.items()}
              for name, strokes in TURNS.items()}
    expect(lanes == wanted, f"the threads of the example of turns are drawn as {lanes}")
    expect([row["name"] for row in rows_of(page, "tracking", "thread")] == ["thread 0"], "tracking's thread has another lane")
    text = "0 create 5 partition 0 priority 1 mask 1 policy 1\n0 ready 5\n1000 tick\n"
    page, _, _ = drawn(fill(folder / "one", sheet_of(2, 1000, (100,)), text))
    expect([row["name"] for row in rows_of(page, "partition 0", "thread")] == ["thread 5, round robin"], "a round-robin thread has another lane")


def slept(folder):
    """A line through all lanes for each of a few resumes; where they are many, one for those within a pixel, beside the ticks alone."""
    for count, lines in ((3, 3), (40, 0)):
        text = "".join(f"{1000 * i} resume\n{1000 * i + 500} tick\n" for i in range(count))
        _, page, _ = drawn(fill(folder / str(count), sheet_of(2, 1000, (100,)), text))
        grid, beside = re.search(r'<g id="grid">(.*?)</g></defs>(.*?)</svg>', page).groups()
        expect((len(uprights(grid)), len(uprights(beside))) == (lines, count - lines), f"{count} resumes are drawn as {uprights(grid + beside)}")


def uprights(drawing):
    return [place for path in re.findall(r'<path class="resume" d="([^"]*)"', drawing) for place in re.findall(r"M(\d+) 0v", path)]


def large(folder):
    """100,000 events and more: joined, the page stays small and every job has its lanes."""
    sheet, data = sheet_of(100, 1000, (50, 30, 20)), random_day(1, 100, 1000, 3, 9, 58000)
    expect(len(data) > 12 * 100_000, f"only {len(data) // 12} events")
    page, text, _ = drawn(fill(folder, sheet, data=data))
    expect(len(text) < 1_500_000, f"the page of a long day has {len(text)} bytes")
    for p in range(3):
        for row in rows_of(page, f"partition {p}", "job") + rows_of(page, f"partition {p}", "thread"):
            pieces = sum(len(strokes) for strokes in row["strokes"].values())
            expect(0 < pieces <= 2 * WIDTH / 10, f"partition {p}, {row['name']}: {pieces} pieces")


def main():
    with tempfile.TemporaryDirectory() as name:
        folder = Path(name)
        worked(folder / "worked")
        overdrawn(folder / "overdrawn")
        for seed in range(6):
            measured(folder / f"day{seed}", seed)
        joined(folder / "joined")
        slept(folder / "slept")
        turns(folder / "turns")
        large(folder / "large")
        shutil.copytree(ROOT / "examples/workshop", folder / "workshop")
        page, text, _ = drawn(folder / "workshop")
        expect(text.count('class="beyond"') == text.count("overdrawn by") == 2, "another number of jobs is overdrawn in the example")
        expect([row["name"] for row in rows_of(page, "screen", "thread")] == ["thread 3", "thread 4"], "the screen's threads have other lanes")
    print(f"pictures: pages of 16 days, one of them of 100,000 events, {expect.wrong} things wrong")
    sys.exit(expect.wrong != 0)


if __name__ == "__main__":
    main()
