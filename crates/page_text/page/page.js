// The page's state, its filter, what is chosen, the walk, and the keys.

const page = { run: null, chosen: -1, causes: [], effects: [], walk: null, showsLines: true, kinds: new Set(), isShown: null };

// A filter is words with spaces between them. Words of one class are joined by "or", classes by "and", and a minus takes out.
function readFilter(text) {
    const filter = { actors: new Set(), events: new Set(), kinds: new Set(), deeds: new Set(), without: [], ranges: [], unknown: [] };
    for (const raw of text.toLowerCase().split(/[\s,]+/).filter((word) => word !== "")) {
        const isOut = raw[0] === "-" && raw.length > 1;
        const into = isOut ? { actors: new Set(), events: new Set(), kinds: new Set(), deeds: new Set(), ranges: [] } : filter;
        if (!addToFilter(into, isOut ? raw.slice(1) : raw)) filter.unknown.push(raw);
        else if (isOut) filter.without.push(into);
    }
    return filter;
}

function addToFilter(filter, word) {
    const { run } = page;
    const actors = run.actors.filter((actor) => actor.name === word || `${actor.role}s` === word || (word === "proxies" && actor.role === "proxy")
        || (word === "intruded" && actor.intruded));
    const range = /^(\d+)(?:-|\.\.)(\d+)$/.exec(word);
    const family = FAMILIES.find((it) => `:${it.name}` === word);
    if (actors.length) actors.forEach((actor) => filter.actors.add(run.lane.get(actor.name)));
    else if (EVENTS.includes(word)) filter.events.add(EVENTS.indexOf(word));
    else if (KINDS.includes(word)) filter.kinds.add(word);
    else if (family) family.kinds.forEach((kind) => filter.kinds.add(kind));
    else if (["executes", "writes", "shows", "view"].includes(word)) filter.deeds.add(word);
    else if (range) filter.ranges.push([Number(range[1]), Number(range[2])]);
    else return false;
    return true;
}

function passes(filter, stamp) {
    const { run } = page;
    if (filter.actors.size && !filter.actors.has(run.actor[stamp])) return false;
    if (filter.events.size && !filter.events.has(run.event[stamp])) return false;
    if (filter.ranges.length && !filter.ranges.some(([a, b]) => a <= stamp && stamp <= b)) return false;
    if (filter.deeds.size) {
        const deed = run.deeds.get(stamp);
        if (!deed || ![...filter.deeds].some((what) => deed[what])) return false;
    }
    if (filter.kinds.size === 0) return true;
    const taken = wordTaken(run, stamp);
    if (taken && filter.kinds.has(taken.kind)) return true;
    for (let at = run.firstWord[stamp]; at < run.firstWord[stamp + 1]; at++) if (filter.kinds.has(run.words[at].kind)) return true;
    return false;
}

function applyFilter(text) {
    const { run } = page;
    const filter = readFilter(text);
    page.kinds = filter.kinds;
    let count = 0;
    for (let stamp = 0; stamp < run.count; stamp++) {
        const isIn = passes(filter, stamp) && !filter.without.some((out) => passes(out, stamp));
        page.isShown[stamp] = isIn ? 1 : 0;
        if (isIn) count++;
    }
    page.backdrop = null;
    const unknown = filter.unknown.length ? ` Not an actor, an event or a kind of word here: ${filter.unknown.join(" ")}.` : "";
    document.getElementById("shown").textContent = `${count} of ${run.count} entries are shown.${unknown}`;
    document.body.dataset.shown = String(count);
    redraw();
}

function redraw() {
    if (page.isAsked) return;
    page.isAsked = true;
    requestAnimationFrame(() => {
        page.isAsked = false;
        drawLanes();
    });
}

// Chooses an entry, -1 for none, and shows what it is; brings it into sight where that is asked for.
function choose(stamp, bring) {
    page.chosen = stamp;
    page.causes = stamp < 0 ? [] : causesOf(page.run, stamp);
    page.effects = stamp < 0 ? [] : effectsOf(page.run, stamp);
    showChosen();
    if (stamp >= 0 && bring) bringIntoSight(stamp);
    document.body.dataset.chosen = String(stamp);
    redraw();
}

function bringIntoSight(stamp) {
    const room = (sight.width - GUTTER) / 14;
    if (sight.scale < 7) {
        sight.scale = 14;
        sight.first = stamp - room / 2;
    }
    const x = atX(stamp);
    if (x < GUTTER + 40 || x > sight.width - 40) sight.first = stamp - (sight.width - GUTTER) / sight.scale / 2;
    keepInRun();
    const box = document.getElementById("stage").getBoundingClientRect();
    if (box.top > window.innerHeight - 200 || box.bottom < 200) document.getElementById("time").scrollIntoView();
}

function lined(title, lines, most) {
    if (lines.length === 0) return null;
    const list = element("ul", {}, ...lines.slice(0, most).map((line) => element("li", {}, line)));
    if (lines.length > most) list.append(element("li", {}, `and ${lines.length - most} more`));
    return element("div", {}, element("h4", {}, title), list);
}

// An entry in a line: a button, its actor, and what it was.
function entryLine(stamp) {
    const said = wordsAt(page.run, stamp).map((word) => word.kind);
    const what = `${eventWords(page.run, stamp)}${said.length ? ` Says ${cutTo(said.join(" "), 60)}.` : ""}`;
    return element("span", {}, toEntry(stamp), " ", cutTo(what, 170));
}

function cutTo(text, most) {
    return text.length <= most ? text : `${text.slice(0, most)}..`;
}

function showChosen() {
    const box = document.getElementById("chosen");
    if (page.chosen < 0) {
        box.replaceChildren(element("p", { class: "quiet" }, "Choose a mark to see what it was, what caused it (blue) and what it caused (orange)."));
        return;
    }
    const { run } = page;
    const stamp = page.chosen;
    const words = wordsAt(run, stamp).map((word) => wordWords(run, word));
    const part = (title, lines, most) => lined(title, lines, most) || "";
    const sides = [
        element("div", {}, part("It says", words, 40), part("It does", deedWords(run, stamp), 40)),
        element("div", { class: "cause" }, part("Caused by", page.causes.map(entryLine), 24)),
        element("div", { class: "effect" }, part("Causes", page.effects.map(entryLine), 24)),
    ].filter((side) => side.childElementCount > 0);
    box.replaceChildren(element("h3", {}, `Entry ${stamp}, ${run.actors[run.actor[stamp]].name}`),
        element("pre", { class: "printed" }, cutTo(run.line(stamp), 600)),
        element("p", {}, eventWords(run, stamp)),
        element("div", { class: "sides" }, ...sides));
}

function startWalk(at) {
    page.walk = { at, parts: walkOf(page.run, page.run.commands[at]), step: 0 };
    page.walk.steps = page.walk.parts.flatMap((part) => part.stamps.map((stamp) => ({ name: part.name, stamp })));
    document.body.dataset.steps = String(page.walk.steps.length);
    const stamps = page.walk.steps.map((step) => step.stamp);
    if (sight.scale < 7) fitSight(Math.max(0, Math.min(...stamps) - 2), Math.max(...stamps) + 2);
    takeStep(0);
    document.getElementById("lanes").focus({ preventScroll: true });
    document.getElementById("time").scrollIntoView();
}

function takeStep(step) {
    const { walk } = page;
    walk.step = Math.max(0, Math.min(walk.steps.length - 1, step));
    choose(walk.steps[walk.step].stamp, true);
    document.body.dataset.step = String(walk.step);
    showWalk();
}

function showWalk() {
    const box = document.getElementById("walk");
    const { walk, run } = page;
    box.hidden = !walk;
    if (!walk) return;
    const command = run.commands[walk.at];
    const now = walk.steps[walk.step];
    let before = 0;
    const parts = walk.parts.map((part) => {
        const first = before;
        before += part.stamps.length;
        const isNow = part.name === now.name;
        const place = isNow ? ` ${walk.step - first + 1} of ${part.stamps.length}` : ` ${part.stamps.length}`;
        return element("button", { type: "button", class: isNow ? "part now" : "part", onclick: () => takeStep(first) }, part.name + place);
    });
    box.replaceChildren(element("strong", {}, `Command ${command.t} of ${command.screen}: ${opWords(run, command.op)}`), " ",
        ...parts, element("button", { type: "button", onclick: endWalk }, "end the walk"));
}

function endWalk() {
    page.walk = null;
    showWalk();
    redraw();
}

// The next shown entry from the chosen one on, forth (1) or back (-1), of the same lane where that is asked for.
function nextEntry(way, lane) {
    const { run } = page;
    let stamp = page.chosen < 0 ? Math.round(sight.first) + (way > 0 ? -1 : 1) : page.chosen;
    for (stamp += way; stamp >= 0 && stamp < run.count; stamp += way) {
        if (page.isShown[stamp] && (lane < 0 || run.actor[stamp] === lane)) return stamp;
    }
    return -1;
}

function goAcross(way) {
    if (page.walk) takeStep(page.walk.step + way);
    else goTo(nextEntry(way, -1));
}

function goTo(stamp) {
    if (stamp >= 0) choose(stamp, true);
}

// The nearest shown entry of the next lane that has one.
function goDown(way) {
    const { run } = page;
    if (page.chosen < 0) return;
    for (let lane = run.actor[page.chosen] + way; lane >= 0 && lane < run.actors.length; lane += way) {
        for (let far = 0; far < 2000; far++) {
            for (const stamp of [page.chosen + far, page.chosen - far]) {
                if (stamp >= 0 && stamp < run.count && run.actor[stamp] === lane && page.isShown[stamp]) return goTo(stamp);
            }
        }
    }
}

// The command to walk through: the one that is chosen, or the last one at or before what is chosen.
function commandHere() {
    const found = page.run.commands.filter((command) => command.stamp <= Math.max(0, page.chosen)).length - 1;
    return Math.max(0, found);
}

function onKey(event) {
    const isTyping = event.target.id === "filter";
    if (event.key === "Escape") {
        if (isTyping) event.target.blur();
        else if (page.walk) endWalk();
        else choose(-1, false);
        return;
    }
    if (isTyping || event.ctrlKey || event.metaKey || event.altKey) return;
    const middle = GUTTER + (sight.width - GUTTER) / 2;
    const at = page.chosen >= 0 ? Math.max(GUTTER, Math.min(sight.width, atX(page.chosen))) : middle;
    const does = {
        "/": () => document.getElementById("filter").select(),
        "ArrowRight": () => goAcross(1), "ArrowLeft": () => goAcross(-1),
        "ArrowDown": () => goDown(1), "ArrowUp": () => goDown(-1),
        "+": () => zoomAt(at, 1.5), "=": () => zoomAt(at, 1.5), "-": () => zoomAt(at, 1 / 1.5), "0": showWhole,
        "w": () => page.run.commands.length && startWalk(commandHere()),
        "n": () => page.run.commands.length && startWalk(page.walk ? (page.walk.at + 1) % page.run.commands.length : 0),
    }[event.key];
    if (!does) return;
    event.preventDefault();
    does();
}

function showWhole() {
    fitSight(0, page.run.count - 1);
    redraw();
}

function showTip(event) {
    const tip = document.getElementById("tip");
    const [x, y] = [event.offsetX, event.offsetY];
    const stamp = entryNear(x, y);
    const take = stamp < 0 ? lineNear(x, y) : -1;
    tip.hidden = stamp < 0 && take < 0;
    document.getElementById("lanes").style.cursor = tip.hidden ? "grab" : "pointer";
    if (tip.hidden) return;
    if (stamp >= 0) {
        const said = wordsAt(page.run, stamp).map((word) => `says ${wordWords(page.run, word)}`);
        const lines = [eventWords(page.run, stamp), ...said.slice(0, 6), ...deedWords(page.run, stamp).slice(0, 6)];
        tip.replaceChildren(element("code", {}, cutTo(page.run.line(stamp), 160)), ...lines.map((line) => element("div", {}, cutTo(line, 140))));
    } else {
        const word = wordTaken(page.run, take);
        tip.replaceChildren(element("div", {}, word ? wordWords(page.run, word) : "a frame"),
            element("div", {}, `said by ${page.run.actors[page.run.actor[page.run.from[take]]].name} at ${page.run.from[take]}, taken by ${page.run.actors[page.run.actor[take]].name} at ${take}`));
    }
    tip.style.left = `${Math.max(0, Math.min(x + 14, sight.width - tip.offsetWidth - 6))}px`;
    tip.style.top = `${y + 18}px`;
}

function listenToPointer() {
    const lanes = document.getElementById("lanes");
    let drag = null;
    lanes.addEventListener("pointerdown", (event) => {
        drag = { x: event.offsetX, first: sight.first, moved: false };
        lanes.setPointerCapture(event.pointerId);
    });
    lanes.addEventListener("pointermove", (event) => {
        if (!drag) return showTip(event);
        if (Math.abs(event.offsetX - drag.x) > 3) drag.moved = true;
        if (!drag.moved) return;
        sight.first = drag.first - (event.offsetX - drag.x) / sight.scale;
        keepInRun();
        redraw();
    });
    lanes.addEventListener("pointerup", (event) => {
        const wasClick = drag && !drag.moved;
        drag = null;
        if (!wasClick) return;
        const stamp = entryNear(event.offsetX, event.offsetY);
        choose(stamp >= 0 ? stamp : lineNear(event.offsetX, event.offsetY), false);
    });
    lanes.addEventListener("pointerleave", () => { document.getElementById("tip").hidden = true; });
    lanes.addEventListener("wheel", (event) => {
        event.preventDefault();
        if (Math.abs(event.deltaX) > Math.abs(event.deltaY) || event.shiftKey) {
            sight.first += (event.deltaX || event.deltaY) / sight.scale;
            keepInRun();
            redraw();
        } else {
            zoomAt(event.offsetX, Math.exp(-event.deltaY / 400));
        }
    }, { passive: false });
    listenToOverview();
}

function listenToOverview() {
    const overview = document.getElementById("overview");
    const move = (event) => {
        if (event.buttons === 0) return;
        const room = sight.width - GUTTER;
        sight.first = ((event.offsetX - GUTTER) / room) * page.run.count - room / sight.scale / 2;
        keepInRun();
        redraw();
    };
    overview.addEventListener("pointerdown", move);
    overview.addEventListener("pointermove", move);
}

function showLegend() {
    const box = document.getElementById("legend");
    for (const family of FAMILIES) {
        const sign = element("span", { class: "dot" });
        sign.style.background = family.colour;
        box.append(element("button", { type: "button", title: `filter by ${family.kinds.join(", ")}`, onclick: () => setFilter(family.kinds.join(" ")) }, sign, family.kinds.join(", ")));
    }
}

function setFilter(text) {
    document.getElementById("filter").value = text;
    applyFilter(text);
}

// `#entry=49`, `#walk=1`, `#filter=m0+commit` and `#from=10&to=90` are kept in a link.
function followLink() {
    if (!window.location.hash.includes("=")) return;
    const asked = new URLSearchParams(window.location.hash.slice(1));
    if (asked.has("filter")) setFilter(asked.get("filter"));
    const from = Number(asked.get("from"));
    if (asked.has("to") && from <= Number(asked.get("to"))) fitSight(from, Number(asked.get("to")));
    const walk = Number(asked.get("walk"));
    if (walk >= 1 && walk <= page.run.commands.length) {
        startWalk(walk - 1);
        takeStep(Number(asked.get("step")) || 0);
    }
    const entry = asked.has("entry") ? Number(asked.get("entry")) : -1;
    if (entry >= 0 && entry < page.run.count) choose(entry, true);
    redraw();
}

function tellFault(text) {
    const box = document.getElementById("faults");
    box.hidden = false;
    box.textContent = `The page has a fault: ${text}`;
    document.body.dataset.faults = String(1 + Number(document.body.dataset.faults || 0));
}

function listenToControls() {
    const on = (id, event, does) => document.getElementById(id).addEventListener(event, does);
    on("filter", "input", (event) => applyFilter(event.target.value));
    on("whole", "click", showWhole);
    on("closer", "click", () => zoomAt(sight.width / 2, 1.5));
    on("wider", "click", () => zoomAt(sight.width / 2, 1 / 1.5));
    on("lines", "change", (event) => {
        page.showsLines = event.target.checked;
        redraw();
    });
    document.addEventListener("keydown", onKey);
    window.addEventListener("hashchange", followLink);
    window.addEventListener("resize", () => {
        layOut();
        redraw();
    });
}

function open() {
    const run = readRun();
    page.run = run;
    run.commands = commandsOf(run);
    run.bands = bandsOf(run);
    run.alarmSpans = alarmsOf(run);
    page.isShown = new Uint8Array(run.count).fill(1);
    page.palette = [...FAMILIES.map((family) => family.colour), WRONG, "#000000", "#404040"];
    page.colours = new Uint8Array(run.count);
    for (let stamp = 0; stamp < run.count; stamp++) page.colours[stamp] = Math.max(0, page.palette.indexOf(colourOf(run, stamp)));
    showHead(run);
    showCommands(run);
    showAlarms(run);
    showDelays(run);
    showPoints(run);
    showLegend();
    for (const link of document.querySelectorAll("nav a")) link.hidden = document.querySelector(link.hash).childElementCount === 0;
    layOut();
    listenToControls();
    listenToPointer();
    showChosen();
    applyFilter("");
    followLink();
    drawLanes();
    document.body.dataset.entries = String(run.count);
    document.body.dataset.words = String(run.words.length);
    document.body.dataset.opened = String(Math.round(performance.now()));
}

window.addEventListener("error", (event) => tellFault(event.message));
window.addEventListener("unhandledrejection", (event) => tellFault(String(event.reason)));
open();
