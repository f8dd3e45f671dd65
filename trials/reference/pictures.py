#!/usr/bin/env python3
"""pictures.py picture SCENARIO HISTORY [FROM [TO]] [--width N] | plot SCENARIO HISTORY POINT [--width N] | chart SCENARIO HISTORY [--width N]

Draws what the program draws, with `reference.py` for what happened, written from the `specs/` of crates/svg_shapes, lane_pictures,
axis_pictures and history_picture. The fixed texts below the pictures are read from `src/legend.rt` of the middle two."""

import os
import re
import sys

import reference

MOST = 2 ** 64 - 1
WRONG = "#c00020"
COLOURS = {
    "#2a6fb0": "update porequest poack posummary",
    "#2e8b57": "preprepare prepare commit",
    "#d98200": "voucher",
    "#8a3fb0": "suspect report newview",
    "#9a9a9a": "ping pong rtt tatreport tatbound",
    "#8b5a2b": "askupdate give askorder giveordered",
    "#008b8b": "mark",
}
COLOUR_OF = {kind: colour for colour, kinds in COLOURS.items() for kind in kinds.split()}
SHADES = ["#e3eefa", "#fdf0d2", "#e2f4e2", "#f7e3f1"]


def legend(name):
    crate = "lane_pictures" if name == "LEGEND" else "axis_pictures"
    at = os.path.join(os.path.dirname(os.path.abspath(__file__)), f"../../crates/{crate}/src/legend.rt")
    with open(at, encoding="utf-8") as file:
        return re.search(rf'const {name}: &str =\s+r##"(.*?)"##;', file.read(), re.S)[1]


def box(x, y, width, height, colour):
    return f'<rect x="{x}" y="{y}" width="{width}" height="{height}" fill="{colour}"/>\n'


def dot(x, y, radius, colour):
    return f'<circle cx="{x}" cy="{y}" r="{radius}" fill="{colour}"/>\n'


def ring(x, y, radius, colour):
    return f'<circle cx="{x}" cy="{y}" r="{radius}" fill="#ffffff" stroke="{colour}" stroke-width="2"/>\n'


def line(a, b, colour, dashes=""):
    return f'<line x1="{a[0]}" y1="{a[1]}" x2="{b[0]}" y2="{b[1]}"{dashes} stroke="{colour}"/>\n'


def dashed(a, b, colour):
    return line(a, b, colour, ' stroke-dasharray="6 4"')


def words(x, y, colour, text):
    return f'<text x="{x}" y="{y}" fill="{colour}">{text}</text>\n'


def below(a, b):
    return max(0, a - b)


def document(width, height, body):
    return (f'<svg xmlns="http://www.w3.org/2000/svg" width="{width}" height="{height}" viewBox="0 0 {width} {height}" '
            'font-family="sans-serif" font-size="12">\n' + box(0, 0, width, height, "#ffffff") + body + "</svg>\n")


class Marks:
    """What each entry is drawn by."""

    def __init__(self, scenario):
        self.scenario, self.marks, self.came, self.last = scenario, [], {}, {}

    def entry(self, bench, e, executed, shown, view):
        me = bench.actor
        before = self.came.get(me, 0)
        n = self.scenario.sizes.n
        written = len(bench.writes())
        self.marks.append({
            "stamp": e.stamp, "actor": me, "event": e.event, "said": len(e.said), "since": self.last.get(me),
            "is_master": me < n and me not in self.scenario.intruded,
            "executes": len(bench.executions()) - executed, "writes": written - before,
            "shows": len(bench.board()) - shown, "was": view, "view": bench.view(),
        })
        self.came[me], self.last[me] = written, e.stamp


class Picture:
    def __init__(self, scenario, benches, marks, width, first, last):
        self.scenario, self.benches, self.marks = scenario, benches, marks
        self.first, self.last, self.width = first, last, width
        self.columns = max(1, below(width, 90) // 14)
        self.height = len(benches) * 46 + 30

    def row(self, stamp):
        return below(stamp, self.first) // self.columns

    def across(self, stamp):
        return below(stamp, self.first) % self.columns * 14 + 70

    def level(self, row, lane):
        return row * self.height + lane * 46 + 50

    def place(self, mark):
        return self.across(mark["stamp"]), self.level(self.row(mark["stamp"]), mark["actor"])

    def strip(self, mark, row, start, end):
        return box(start, self.level(row, mark["actor"]) - 20, below(end, start), 40, SHADES[mark["was"] % 4])

    def band(self, mark):
        if not mark["is_master"]:
            return ""
        x, row, since, out = self.place(mark)[0], self.row(mark["stamp"]), mark["since"], ""
        if since is not None and since >= self.first and self.row(since) == row:
            out += self.strip(mark, row, self.across(since), x)
        else:
            if since is not None and since >= self.first:
                out += self.strip(mark, self.row(since), self.across(since), self.width - 16)
            out += self.strip(mark, row, 70, x)
        return out

    def views(self, mark):
        if not mark["is_master"]:
            return ""
        (x, y), since, out = self.place(mark), mark["since"], ""
        if since is None or since < self.first or self.row(since) != self.row(mark["stamp"]):
            out += words(70, y - 9, "#707070", f"view {mark['was']}")
        if mark["was"] != mark["view"]:
            out += words(x, y - 9, "#707070", f"view {mark['view']}")
        return out

    def lanes(self, row):
        out = words(70, row * self.height + 20, "#707070", f"from entry {self.first + row * self.columns}")
        for bench in self.benches:
            y, name = self.level(row, bench.actor), self.scenario.name(bench.actor)
            colour = WRONG if bench.actor in self.scenario.intruded else "#404040"
            out += line((70, y), (self.width - 16, y), colour)
            out += words(8, y + 4, colour, name + (" halted" if bench.halted else ""))
        return out

    def arrow(self, mark):
        event = mark["event"]
        if event[0] != "took" or event[2] == reference.U32MAX:
            return ""
        row, frame, by = self.row(mark["stamp"]), event[3], self.marks[event[1]]["actor"]
        x, y = self.place(mark)
        if event[1] >= self.first and self.row(event[1]) == row:
            start = (self.across(event[1]), self.level(row, by))
        else:
            start = (x - 10, y - 12 if by < mark["actor"] else y + 12)
        return line(start, self.place(mark), COLOUR_OF[reference.KINDS[frame.body.kind]])

    def sign(self, event, x, y):
        what = event[0]
        if what == "took":
            if event[2] == reference.U32MAX:
                return dot(x, y, 5, WRONG)
            return dot(x, y, 3, COLOUR_OF[reference.KINDS[event[3].body.kind]])
        return {
            "tick": lambda: box(x - 1, y - 5, 2, 10, "#404040"),
            "command": lambda: box(x - 4, y - 4, 8, 8, "#000000"),
            "field": lambda: box(x - 4, y - 2, 8, 4, "#2a6fb0"),
            "poll": lambda: ring(x, y, 4, "#2a6fb0"),
            "cry": lambda: box(x - 4, y - 4, 8, 8, WRONG),
            "skip": lambda: dot(x, y, 1, "#404040"),
            "restart": lambda: ring(x, y, 6, "#404040"),
        }[what]()

    def group(self, mark):
        x, y = self.place(mark)
        event = mark["event"]
        what = event[0]
        if what == "took":
            said = "that nobody said" if event[2] == reference.U32MAX else f"of {event[1]}"
            what = f"took {reference.KINDS[event[3].body.kind]} {said}"
        title = f"{mark['stamp']} {self.scenario.name(mark['actor'])} {what}"
        for deed, count in (("says", mark["said"]), *((it, mark[it]) for it in ("executes", "writes", "shows"))):
            title += f", {deed} {count}" if count else ""
        out = f"<g><title>{title}</title>\n" + self.sign(event, x, y)
        for deed, at, colour in (("executes", y + 16, "#2e8b57"), ("writes", y - 8, "#000000"), ("shows", y - 8, "#d98200")):
            out += words(x - 3, at, colour, mark[deed]) if mark[deed] else ""
        return out + "</g>\n"

    def text(self):
        marks = [it for it in self.marks if self.first <= it["stamp"] <= self.last]
        rows = self.row(self.last) + 1
        foot = rows * self.height + 20
        body = "".join(map(self.band, marks)) + "".join(map(self.views, marks)) + "".join(map(self.lanes, range(rows)))
        body += "".join(map(self.arrow, marks)) + "".join(map(self.group, marks))
        body += f'<g transform="translate(0,{foot})">\n' + legend("LEGEND") + "</g>\n"
        return document(self.width, foot + 150, body)


class Field:
    def __init__(self, width, count):
        self.width, self.count, self.right = width, count, width - 20

    def along(self, place):
        return place * below(self.width, 90) // max(1, below(self.count, 1)) + 70

    def ticks(self, first):
        step, out = self.count // 8 + 1, ""
        for place in range(0, 8 * step, step):
            if place < self.count:
                x = self.along(place)
                out += line((x, 280), (x, 285), "#808080") + words(x - 3, 300, "#404040", place + first)
        return out


def plot(scenario, benches, number, width):
    if number >= len(scenario.plant.points):
        raise reference.End(9, "spire: plot NoPoint")
    point = scenario.plant.points[number]
    done = []
    for bench in benches:
        if bench.actor < scenario.sizes.n and bench.actor not in scenario.intruded and len(bench.executions()) > len(done):
            done = bench.executions()
    field = Field(width, len(done))
    reach = max(1, point.high - point.low)

    def height(value):
        return 40 + min(below(point.high, value), reach) * 240 // reach

    def heard(update):
        op = update.a[2]
        counts = op[0] == "reading" and op[1] == number and update.a[0] == point.proxy and point.low <= op[2] <= point.high
        return op[2] if counts else None

    out = words(70, 20, "#202020", f"point {number}: {text_of(point.name)} of p{point.proxy}, in its own unit")
    span = point.high - point.low
    for y, value in ((40, point.high), (280, point.low), (100, point.high - span // 4), (160, point.high - span // 2),
                     (220, point.high - (span - span // 4))):
        out += line((70, y), (field.right, y), "#d8d8d8") + words(4, y + 4, "#404040", value)
    out += field.ticks(1)
    alarms = [it for it in scenario.plant.alarms if it.point == number]
    for it in alarms:
        y = height(it.limit)
        side = "at least" if is_high(it) else "at most"
        out += dashed((70, y), (field.right, y), WRONG) + words(76, y - 4, WRONG, f"{text_of(it.name)}: {side} {it.limit}")
    for it in alarms:
        raised = False
        for place, update in enumerate(done):
            value = heard(update)
            if value is None:
                continue
            if is_high(it):
                now = value >= it.limit - it.band if raised else value >= it.limit
            else:
                now = value <= it.limit + it.band if raised else value <= it.limit
            if now != raised:
                x = field.along(place)
                out += line((x, 40), (x, 280), WRONG if now else "#2e8b57")
            raised = now
    before = None
    for place, update in enumerate(done):
        x, op, value = field.along(place), update.a[2], heard(update)
        if value is not None:
            here = (x, height(value))
            out += (line(before, here, "#2a6fb0") if before else "") + dot(*here, 3, "#2a6fb0")
            before = here
        if op[0] == "set" and op[1] == number:
            out += box(x - 4, height(op[2]) - 4, 8, 8, "#d98200")
    return document(width, 370, out + legend("PLOT_LEGEND"))


def text_of(name):
    return name.decode() if isinstance(name, bytes) else name


def is_high(alarm):
    return alarm.kind == "high"


def chart(scenario, watched, count, width):
    field = Field(width, count)
    outcomes = list(watched.outcomes())
    greatest = max([it[5][1] for it in outcomes if it[5] is not None], default=0)

    def rise(entries):
        return 280 - min(entries * 240 // max(1, greatest), 240)

    out = ""
    for at, (view, begun) in enumerate(watched.views):
        to = watched.views[at + 1][1] if at + 1 < len(watched.views) else below(count, 1)
        x = field.along(begun)
        out += box(x, 40, below(field.along(to), x), 240, SHADES[view % 4]) + words(x, 36, "#707070", f"view {view}")
    half, top = rise(greatest // 2), rise(greatest)
    for y, count in ((280, 0), (half, greatest // 2)):
        out += line((70, y), (field.right, y), "#b0b0b0") + words(30, y + 4, "#404040", count)
    out += dashed((70, top), (field.right, top), WRONG) + words(30, top + 4, WRONG, greatest)
    out += field.ticks(0)
    for client, _, said, actor, _, delay in outcomes:
        x = field.along(said)
        if delay is None:
            out += dot(x, 28, 4, WRONG)
            continue
        y = rise(delay[1])
        out += box(x - 1, y, 2, 280 - y, "#9db8d6") + dot(x, y, 3, "#2a6fb0" if actor < scenario.sizes.n else "#d98200")
    return document(width, 370, out + legend("CHART_LEGEND"))


def main(name, *rest):
    rest, width = [*rest], 900
    if "--width" in rest:
        at = rest.index("--width")
        width = int(rest[at + 1])
        del rest[at:at + 2]
    scenario = reference.load_scenario(reference.RealFiles(), rest[0])
    marks, watched = Marks(scenario), reference.Watched(scenario)

    def watch(bench, e, *came):
        marks.entry(bench, e, *came)
        watched.entry(bench, e, *came)

    benches, entries = reference.load_history(reference.RealFiles(), scenario, rest[1], watch)
    numbers = [int(it) for it in rest[2:]]
    if name == "plot":
        return plot(scenario, benches, numbers[0], width)
    if name == "chart":
        return chart(scenario, watched, len(entries), width)
    first = numbers[0] if numbers else 0
    end = below(len(entries), 1)
    last = numbers[1] if len(numbers) > 1 else max(first, end)
    if last < first:
        raise reference.End(9, "spire: picture BadRange")
    if numbers and last >= len(entries):
        raise reference.End(9, f"spire: picture NotReached {end}")
    return Picture(scenario, benches, marks.marks, width, first, last).text()


if __name__ == "__main__":
    try:
        sys.stdout.write(main(*sys.argv[1:]))
    except reference.End as end:
        print(end.line, file=sys.stderr)
        sys.exit(end.status)
