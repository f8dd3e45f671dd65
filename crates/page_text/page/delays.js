// How long updates took: what `spire delays` prints (docs/DELAYS.md), made of the page's own texts, and shown as bars and tables.

// The figures of the rules that stay alive, and what the first rules take of a master that told no bound (docs/RULES.md).
const FIRST_PATIENCE = 32;
const MOST_DOUBLINGS = 16;
const FORGIVEN_STEP = 1024;
const UNTOLD_BOUND = 16;
const BARS = { left: 62, right: 12, top: 20, bottom: 32, height: 250 };

// How many of these rising stamps are at most so high.
function upTo(stamps, stamp) {
    let [low, high] = [0, stamps.length];
    while (low < high) {
        const middle = (low + high) >> 1;
        if (stamps[middle] <= stamp) low = middle + 1;
        else high = middle;
    }
    return low;
}

function pushAt(map, key, value) {
    if (map.has(key)) map.get(key).push(value);
    else map.set(key, [value]);
}

// What delays go by: each lane's ticks; of each lane the stamps at which it executed an update, or showed a notice that answers
// one; all stamps with executions of correct masters; views in the order in which these came into them; what masters said of a
// view's leader.
function happeningsOf(run) {
    const found = { ticks: run.actors.map(() => []), ends: run.actors.map(() => new Map()), executed: [], entered: [], told: new Map() };
    const tick = EVENTS.indexOf("tick");
    for (let stamp = 0; stamp < run.count; stamp++) if (run.event[stamp] === tick) found.ticks[run.actor[stamp]].push(stamp);
    for (const word of run.words) {
        if (["tatreport", "tatbound", "suspect"].includes(word.kind)) pushAt(found.told, `${word.kind} ${word.fields[0]} ${word.signer}`, Number(word.fields[1]));
    }
    for (const [stamp, deed] of run.deeds) {
        const lane = run.actor[stamp];
        const { list } = run.actors[lane];
        for (const [first, last] of [deed.executes, deed.shows].filter((range) => range)) {
            for (let number = first; number <= last; number++) {
                const it = list[number - 1];
                pushAt(found.ends[lane], deed.executes ? `${it.client} ${it.t}` : String(it.t), stamp);
            }
        }
        if (deed.executes) found.executed.push(stamp);
        if (deed.view) found.entered.push({ view: deed.view[0], stamp, lane });
    }
    return found;
}

// When an update came to its end at an actor, in entries and in the actor's own ticks, or null where it didn't.
function delayAt(found, lane, key, said) {
    const stamps = found.ends[lane].get(key);
    const ended = stamps ? stamps.find((stamp) => stamp >= said) : undefined;
    if (ended === undefined) return null;
    return { stamp: ended, entries: ended - said, ticks: upTo(found.ticks[lane], ended) - upTo(found.ticks[lane], said) };
}

// Each update that a client said, with its outcomes at the correct masters and, of a screen, where it was answered.
function updatesSaid(run, found) {
    const lanes = run.correct.map((actor) => run.lane.get(actor.name));
    const said = run.words.filter((word) => word.kind === "update" && run.event[word.stamp] !== CRY);
    return said.map((word) => {
        const [client, t] = word.fields;
        const outcome = (lane, key) => ({ client, t, said: word.stamp, lane, tick: upTo(found.ticks[lane], word.stamp), delay: delayAt(found, lane, key, word.stamp) });
        const own = run.lane.get(word.signer);
        const answered = run.actors[run.lane.get(client)].role === "screen" ? [outcome(own, t)] : [];
        return { client, t, said: word.stamp, word, masters: lanes.map((lane) => outcome(lane, `${client} ${t}`)), answered };
    });
}

// The greatest number that so many of them reach, 0 where there are fewer.
function reachedBy(falling, many) {
    return many <= falling.length ? falling[many - 1] : 0;
}

function figuresOf(numbers) {
    const falling = Float64Array.from(numbers).sort().reverse();
    const share = (parts) => reachedBy(falling, Math.floor(falling.length / parts) + 1);
    return [share(2), share(10), share(100), reachedBy(falling, 1)];
}

function spreadsOf(run, updates) {
    const all = new Map();
    for (const update of updates) for (const it of [...update.masters, ...update.answered]) pushAt(all, `${run.lane.get(it.client)} ${it.lane}`, it);
    const keys = [...all.keys()].map((key) => key.split(" ").map(Number)).sort((a, b) => a[0] - b[0] || a[1] - b[1]);
    return keys.map(([client, lane]) => {
        const outcomes = all.get(`${client} ${lane}`);
        const delays = outcomes.flatMap((it) => it.delay || []);
        return { client: run.actors[client].name, at: run.actors[lane].name, said: outcomes.length, ended: delays.length,
            entries: figuresOf(delays.map((it) => it.entries)), ticks: figuresOf(delays.map((it) => it.ticks)) };
    });
}

// The views in turn, each from the first correct master in it to the first in a later one.
function reignsOf(run, found) {
    const begun = [{ view: 0, from: 0, lane: run.correct.length ? run.lane.get(run.correct[0].name) : 0 }];
    for (const it of found.entered) if (it.view > begun[begun.length - 1].view) begun.push({ view: it.view, from: it.stamp, lane: it.lane });
    return begun.map((it, at) => {
        const to = at + 1 < begun.length ? begun[at + 1].from : null;
        return { ...it, to, leader: leaderOf(run, it.view), votes: votesAgainst(run, found, it.view), idle: longestIdle(found.executed, it.from, to === null ? run.count : to),
            ...boundOf(run, found, it) };
    });
}

// How many correct masters said a vote against the view's leader.
function votesAgainst(run, found, view) {
    return run.correct.filter((actor) => found.told.has(`suspect ${view} ${actor.name}`)).length;
}

// The longest distance between two stamps of these from one stamp up to another, which count too.
function longestIdle(stamps, from, to) {
    let [last, longest] = [from, 0];
    for (const stamp of stamps) {
        if (stamp < from || stamp >= to) continue;
        longest = Math.max(longest, stamp - last);
        last = stamp;
    }
    return Math.max(longest, to - last);
}

// How many ticks a leader may keep masters waiting. By the rules that stay alive it is the patience of the master that came into
// the view first, as it came; by the first rules it comes of all reports and bounds that masters said, and so does how long the
// leader did keep them waiting.
function boundOf(run, found, reign) {
    const { f, rules } = run.plant;
    const n = run.masters.length;
    if (rules === 2) {
        const forgiven = Math.floor(upTo(found.ticks[reign.lane], reign.from) / FORGIVEN_STEP);
        return { turnaround: null, bound: FIRST_PATIENCE * 2 ** Math.min(MOST_DOUBLINGS, Math.floor(Math.max(0, reign.view - forgiven) / n)) };
    }
    const told = (kind, master) => found.told.get(`${kind} ${reign.view} ${master}`) || [];
    const rising = (numbers) => numbers.sort((a, b) => a - b);
    const names = run.masters.map((actor) => actor.name);
    return {
        turnaround: rising(names.map((name) => Math.max(0, ...told("tatreport", name))))[f],
        bound: rising(names.map((name) => [...told("tatbound", name), UNTOLD_BOUND][0])).reverse()[f],
    };
}

function delaysOf(run) {
    const found = happeningsOf(run);
    const updates = updatesSaid(run, found);
    const counted = updates.map((update) => ({ ...update, executed: update.masters.filter((it) => it.delay).length }));
    return { found, updates, spreads: spreadsOf(run, updates), reigns: reignsOf(run, found),
        unexecuted: counted.filter((update) => update.executed < run.correct.length) };
}

// The lines that `spire delays` prints.
function delayLines(run, delays) {
    const reign = (it) => `view ${it.view} leader ${it.leader} from ${it.from}${it.to === null ? "" : ` to ${it.to}`} votes ${it.votes} idle ${it.idle}`;
    const spread = (it) => `${it.client} at ${it.at} said ${it.said} ended ${it.ended} entries ${it.entries.join(" ")} ticks ${it.ticks.join(" ")}`;
    const outcome = (it) => `${it.client} ${it.t} said ${it.said} at ${run.actors[it.lane].name} tick ${it.tick}`
        + (it.delay ? ` ended ${it.delay.stamp} entries ${it.delay.entries} ticks ${it.delay.ticks}` : " never");
    const outcomes = delays.updates.flatMap((update) => [...update.masters, ...update.answered]);
    return [`views ${delays.reigns.length}`, ...delays.reigns.map(reign), `spreads ${delays.spreads.length}`, ...delays.spreads.map(spread),
        `unexecuted ${delays.unexecuted.length}`, ...delays.unexecuted.map((it) => `${it.client} ${it.t} said ${it.said} executed ${it.executed}`),
        `outcomes ${outcomes.length}`, ...outcomes.map(outcome)];
}

// How long an update took in a unit: at the fastest and at the slowest correct master, where those that never executed it count up
// to the end; whether all did; and until its screen was answered.
function barOf(run, delays, update, unit) {
    const last = run.count - 1;
    const open = (it) => (unit === "entries" ? last - update.said : upTo(delays.found.ticks[it.lane], last) - it.tick);
    const took = update.masters.map((it) => (it.delay ? it.delay[unit] : open(it)));
    const answer = update.answered.length && update.answered[0].delay ? update.answered[0].delay.stamp : -1;
    const greatest = Math.max(0, ...took);
    return { least: Math.min(greatest, ...took), greatest, isWhole: update.masters.every((it) => it.delay), answer };
}

// The places of the bars: one for each update, in the order in which they were said, and one for a view in which none was.
function slotsOf(delays) {
    const bands = [];
    const slots = [];
    let at = 0;
    for (const reign of delays.reigns) {
        const first = slots.length;
        while (at < delays.updates.length && (reign.to === null || delays.updates[at].said < reign.to)) slots.push(delays.updates[at++]);
        if (slots.length === first) slots.push(null);
        bands.push({ reign, first, end: slots.length });
    }
    return { slots, bands };
}

function barsOf(run, delays, unit, width) {
    const { slots, bands } = slotsOf(delays);
    const bars = slots.map((update) => (update ? barOf(run, delays, update, unit) : null));
    const bounds = unit === "ticks" ? bands.map((band) => band.reign.bound) : [];
    const high = 1.08 * Math.max(1, ...bars.map((bar) => (bar ? bar.greatest : 0)).concat(bounds.length ? Math.min(...bounds) : []));
    const slot = (width - BARS.left - BARS.right) / slots.length;
    const place = {
        slots, bars, slot, high, width, foot: BARS.height - BARS.bottom,
        x: (at) => BARS.left + at * slot,
        y: (value) => BARS.top + ((high - value) / high) * (BARS.height - BARS.top - BARS.bottom),
    };
    const svg = shape("svg", { viewBox: `0 0 ${width} ${BARS.height}`, width, height: BARS.height, role: "img", "aria-label": `How long each update took, in ${unit}` });
    drawReigns(svg, place, bands);
    drawScale(svg, place, unit);
    drawBars(svg, place);
    if (unit === "ticks") drawBounds(svg, place, bands);
    svg.append(shape("line", { x1: -9, x2: -9, y1: BARS.top, y2: place.foot, class: "pointed" }));
    return { svg, place };
}

function drawReigns(svg, place, bands) {
    for (const { reign, first, end } of bands) {
        const wide = place.x(end) - place.x(first);
        const told = `view ${reign.view}, ${reign.leader}`;
        svg.append(shape("rect", { x: place.x(first), y: BARS.top, width: wide, height: place.foot - BARS.top, class: "reign", fill: SHADES[reign.view % 4] },
            shape("title", {}, told)));
        if (wide > 9 * told.length) svg.append(shape("text", { x: place.x(first) + 4, y: BARS.top - 6 }, told));
        else if (wide > 14) svg.append(shape("text", { x: place.x(first) + 2, y: BARS.top - 6 }, String(reign.view)));
    }
}

function drawScale(svg, place, unit) {
    for (const value of ticksOf(0, place.high)) {
        svg.append(shape("line", { x1: BARS.left, x2: place.width - BARS.right, y1: place.y(value), y2: place.y(value), class: "grid" }),
            shape("text", { x: BARS.left - 6, y: place.y(value) + 4, class: "tick right" }, short(value)));
    }
    svg.append(shape("text", { x: 4, y: BARS.top - 6 }, unit),
        shape("line", { x1: BARS.left, x2: place.width - BARS.right, y1: place.foot, y2: place.foot, class: "axis" }),
        shape("text", { x: place.width - BARS.right, y: BARS.height - 3, class: "tick right" }, "updates, in the order in which they were said"));
    const step = niceStep(60 / place.slot);
    let number = 0;
    for (const [at, update] of place.slots.entries()) {
        if (!update) continue;
        number++;
        if (number % step === 0 || (number === 1 && step > 1)) svg.append(shape("text", { x: place.x(at + 0.5), y: place.foot + 14, class: "tick middle" }, String(number)));
    }
}

// Bars as two lines each, from the foot to the slowest master and, darker, to the fastest; red where one never executed it.
function drawBars(svg, place) {
    const paths = { slowest: "", fastest: "", missed: "" };
    for (const [at, bar] of place.bars.entries()) {
        if (!bar) continue;
        const from = `M ${place.x(at + 0.5).toFixed(1)} ${place.foot} V `;
        const up = (value) => `${from}${Math.min(place.foot - 1.5, place.y(value)).toFixed(1)} `;
        if (bar.isWhole) paths.fastest += up(bar.least);
        paths[bar.isWhole ? "slowest" : "missed"] += up(bar.greatest);
    }
    const wide = Math.max(1, Math.min(18, 0.7 * place.slot));
    for (const name of ["slowest", "fastest", "missed"]) svg.append(shape("path", { d: paths[name], class: `bar ${name}`, "stroke-width": wide }));
}

// The line above which masters vote against the leader, in each view.
function drawBounds(svg, place, bands) {
    let told = -1;
    for (const { reign, first, end } of bands) {
        if (reign.bound > place.high) continue;
        const y = place.y(reign.bound);
        svg.append(shape("line", { x1: place.x(first), x2: place.x(end), y1: y, y2: y, class: "limit bound" }));
        if (reign.bound !== told && place.x(end) - place.x(first) > 150) {
            svg.append(shape("text", { x: place.x(first) + 6, y: y - 4, class: "limit" }, `a leader may take ${reign.bound} ticks`));
            told = reign.bound;
        }
    }
}

// What became of an update, in words.
function updateWords(run, delays, update) {
    const bar = barOf(run, delays, update, "ticks");
    const at = (it) => `${run.actors[it.lane].name} ${it.delay ? `after ${it.delay.entries} entries and ${counted(it.delay.ticks, "tick", "ticks")}` : "never"}`;
    const shown = bar.answer < 0 ? "" : ` Its screen showed the answer at ${bar.answer}.`;
    return `Update ${update.t} of ${update.client}, ${opWords(run, readOp(update.word.fields.slice(2)))}, said at ${update.said}; executed by ${update.masters.map(at).join(", ")}.${shown}`;
}

function showBars(run, delays, box, unit) {
    const { svg, place } = barsOf(run, delays, unit, Math.max(280, box.clientWidth));
    const told = document.getElementById("bar_told");
    const slotAt = (event) => Math.floor((event.clientX - svg.getBoundingClientRect().left - BARS.left) / place.slot);
    svg.addEventListener("pointermove", (event) => {
        const at = slotAt(event);
        if (!(at in place.slots)) return;
        told.textContent = place.slots[at] ? updateWords(run, delays, place.slots[at]) : "No update was said in this view.";
        for (const end of ["x1", "x2"]) svg.querySelector(".pointed").setAttribute(end, place.x(at + 0.5));
    });
    svg.addEventListener("click", (event) => {
        const update = place.slots[slotAt(event)];
        if (update) choose(update.said, true);
    });
    box.replaceChildren(svg);
    box.dataset.bars = String(place.bars.filter((bar) => bar).length);
}

function reignsTable(run, delays) {
    const isFirst = run.plant.rules === 1;
    const rows = (it) => [String(it.view), it.leader, toEntry(it.from), it.to === null ? "the end" : toEntry(it.to), String(it.votes), String(it.idle),
        ...(isFirst ? [String(it.turnaround)] : []), String(it.bound)];
    return longTable("Views", ["view", "leader", "from", "to", "votes against", "longest without an execution", ...(isFirst ? ["turnaround"] : []),
        isFirst ? "acceptable" : "patience"], delays.reigns, 12, rows);
}

function boundWords(run) {
    if (run.plant.rules === 2) return "Patience is the wait in ticks above which a master votes against the leader, as the view's first master came into it.";
    return "Turnaround is how many ticks the leader kept masters waiting, acceptable how many it may, both by all reports and bounds that the masters said.";
}

function spreadsTable(delays) {
    const rows = (it) => [it.client, it.at, String(it.said), String(it.ended), ...it.entries.map(String), ...it.ticks.map(String)];
    const four = ["median", "90 %", "99 %", "greatest"];
    return longTable("How long updates took", ["of", "at", "said", "ended", ...four.map((name) => `entries, ${name}`), ...four.map((name) => `ticks, ${name}`)],
        delays.spreads, 10, rows);
}

function unexecutedTable(run, delays) {
    const rows = (it) => [`${it.client} ${it.t}`, opWords(run, readOp(it.word.fields.slice(2))), toEntry(it.said), `${it.executed} of ${run.correct.length}`];
    return longTable("Not executed by all correct masters", ["update", "what", "said at", "executed by"], delays.unexecuted, 12, rows);
}

// The same in the lines of `spire delays`, made when they are asked for.
function printedDelays(run, delays) {
    const text = element("pre", { class: "printed", id: "delay_lines" });
    const box = element("details", { id: "delays_printed" }, element("summary", {}, "As spire delays prints it"), text);
    box.addEventListener("toggle", () => { if (box.open && !text.textContent) text.textContent = `${delayLines(run, delays).join("\n")}\n`; });
    return box;
}

function showDelays(run) {
    const delays = delaysOf(run);
    if (delays.updates.length === 0 && delays.reigns.length === 1) return;
    const bars = element("div", { id: "bars" });
    const units = ["ticks", "entries"].map((unit) => element("button", { type: "button", onclick: () => showBars(run, delays, bars, unit) }, unit));
    document.getElementById("delays").append(element("h2", {}, "Delays"),
        element("p", {}, "A bar an update: how long the slowest correct master took to execute it from where its client said it, and darker the fastest, in a master's own ticks or in entries; red where one never did, up to the end of the run. A ground is a view, a broken line how long its leader may take. ", ...units),
        bars, element("p", { id: "bar_told", class: "quiet" }, "Point at a bar to see its update; a click shows where it was said."),
        element("div", { class: "tables" }, reignsTable(run, delays), spreadsTable(delays), ...(delays.unexecuted.length ? [unexecutedTable(run, delays)] : [])),
        element("p", { class: "quiet" }, boundWords(run)), printedDelays(run, delays));
    whenSeen([bars], () => showBars(run, delays, bars, "ticks"));
}
