#!/usr/bin/env python3
"""page_stand_in.py SCENARIO HISTORY: prints the page of a printed run, as `spire page` does.

It acts the history by the program of trials/reference, which shares nothing with the proved one: trials/page compares the
two, and tries the stand-in's page where the program isn't built.
"""

import os
import subprocess
import sys

HERE = os.path.dirname(os.path.realpath(__file__))
PAGE = f"{HERE}/../crates/page_text/page"
sys.path.insert(0, f"{HERE}/reference")
import reference as R  # noqa: E402

sys.setrecursionlimit(20000)


def escaped(text):
    """The text as an element's content: the three characters are `&lt;`, `&amp;` and `&quot;`, all others themselves."""
    return text.replace("&", "&amp;").replace("<", "&lt;").replace('"', "&quot;")


def plant_lines(scenario):
    """What the page wants of the scenario. The lines are in crates/page_text/PAGE.md."""
    sizes = scenario.sizes
    yield f"group {sizes.f} {sizes.k} rules {scenario.rules}"
    for p in scenario.plant.points:
        yield (f"point {p.name} p{p.proxy} {R.AREAS[p.area]} {p.place} scale {p.scale} offset {p.offset}"
               f" low {p.low} high {p.high} start {p.start}")
    for a in scenario.plant.alarms:
        yield f"alarm {a.name} point {a.point} {a.kind} {a.limit} band {a.band}"
    for lock in scenario.plant.interlocks:
        yield f"interlock {lock.name} point {lock.point} value {'any' if lock.value is None else lock.value}"


def digits(digest):
    return digest[:4].hex()


def order_text(order):
    if order[0] == "write":
        return f"write {order[1]} {order[2]}"
    return f"notice {R.NOTICES[order[1]]} {order[2]} {order[3]}"


def word_text(scenario, frame):
    """A signer and a word: its kind, its fields, and of frames inside it who signed them."""
    n, body = scenario.sizes.n, frame.body
    kind, a = body.kind, body.a
    name = lambda actor: scenario.name(actor) if actor < scenario.actors else f"s{actor - n - len(scenario.plant.devices)}"
    signers = lambda frames: " ".join(name(f.signer) for f in frames)
    if kind == R.UPDATE:
        fields = f"{name(n + a[0])} {a[1]} {R.op_text(a[2])}"
    elif kind == R.POREQUEST:
        u = a[1].body.a
        fields = f"{a[0]} {name(n + u[0])} {u[1]} {R.op_text(u[2])}"
    elif kind == R.POACK:
        fields = f"m{a[0]} {a[1]} {digits(a[2])}"
    elif kind == R.POSUMMARY:
        fields = " ".join(map(str, a[0]))
    elif kind == R.PREPREPARE:
        fields = f"{a[0]} {a[1]} " + " ".join(f"{':'.join([name(f.signer), *map(str, f.body.a[0])])}" for f in a[2])
    elif kind in (R.PREPARE, R.COMMIT):
        fields = f"{a[0]} {a[1]} {digits(a[2])}"
    elif kind in (R.PONG, R.RTT, R.ASKUPDATE):
        fields = " ".join([f"m{a[0]}", *map(str, a[1:])])
    elif kind == R.REPORT:
        fields = " ".join([f"{a[0]} base {a[1]} marks", *map(name, (f.signer for f in a[2])), "certificates", *(f"{c.s}:{c.v}" for c in a[3])])
    elif kind == R.NEWVIEW:
        fields = f"{a[0]} {signers(a[1])}"
    elif kind == R.GIVE:
        fields = f"m{a[0].signer} {a[0].body.a[0]} {signers(a[1])}"
    elif kind == R.GIVEORDERED:
        fields = f"{a[0]} {a[1]} {signers(a[3])}"
    elif kind == R.VOUCHER:
        fields = f"{name(n + a[0])} {a[1]} {order_text(a[2])}"
    else:
        fields = " ".join(map(str, a))
    return f"{name(frame.signer)} {R.KINDS[kind]} {fields}".rstrip()


def came(bench):
    """How far an actor came."""
    if bench.master and bench.is_intruded:
        return (0, 0, 0, 0)
    if bench.master:
        return (len(bench.executions()), 0, 0, bench.view())
    if bench.proxy:
        return (0, len(bench.writes()), 0, 0)
    return (0, 0, len(bench.board()), 0)


def detail_lines(scenario, entries, changes):
    for e in entries:
        if e.event[0] == "took" and e.event[2] == R.U32MAX:
            yield f"{e.stamp} took {word_text(scenario, e.event[3])}"
        for frame in [e.cried] if e.cried is not None else e.said:
            yield f"{e.stamp} said {word_text(scenario, frame)}"
        before, after = changes[e.stamp]
        if after != before:
            yield f"{e.stamp} came {' '.join(map(str, after))}"


def load(name):
    with open(name, "rb") as file:
        return file.read()


def page_text(plant, run, details):
    """The page around the three texts, each escaped."""
    page = subprocess.run([f"{PAGE}/make", "--html"], check=True, capture_output=True, text=True).stdout
    made = []
    for name, text in (("PLANT", plant), ("RUN", run), ("DETAILS", details)):
        before, _, page = page.partition(f"@{name}@")
        made += [before, escaped(text)]
    return "".join([*made, page])


def page_of(scenario_name, history_name):
    scenario = R.Scenario.read(load(scenario_name))
    changes = []
    act = R.Bench.act

    def watched(bench, stamp, event):
        before = came(bench)
        entry = act(bench, stamp, event)
        changes.append((before, came(bench)))
        return entry

    R.Bench.act = watched
    benches, entries = R.read_history(scenario, load(history_name))
    lines = lambda them: "".join(f"{line}\n" for line in them)
    # The run is printed anew, as `replay` does, so that nothing of the file but its history comes to the page.
    return page_text(lines(plant_lines(scenario)), R.write_run(scenario, benches, entries),
                     lines(detail_lines(scenario, entries, changes)))


if __name__ == "__main__":
    if len(sys.argv) != 3:
        sys.exit(__doc__)
    sys.stdout.write(page_of(*sys.argv[1:]))
