// The time line: a lane for each actor, a mark for each entry, words as lines from where they were said to where they were
// taken, views as bands. Only what is in sight is drawn.

const GUTTER = 74;
const AXIS = 22;
const WIDEST = 44;
const SHADES = ["#eef4fa", "#fdf3dc", "#eaf6ea", "#f7e9f3"];
// So many entries and so many words may be in sight for the words to be drawn as lines, and so long may a word be under way to
// be looked for where neither of its ends is in sight. A browser takes about a tenth of a millisecond to draw a line.
const MOST_ENTRIES = 4000;
const MOST_LINES = 1200;
const FAR = 3000;
const COMMAND = EVENTS.indexOf("command");
const CRY = EVENTS.indexOf("cry");

const sight = { first: 0, scale: 1, width: 0, height: 0, lane: 34 };

function laneY(lane) {
    return AXIS + lane * sight.lane + sight.lane / 2;
}

function atX(stamp) {
    return GUTTER + (stamp - sight.first + 0.5) * sight.scale;
}

function stampAt(x) {
    return sight.first + (x - GUTTER) / sight.scale - 0.5;
}

function inSight() {
    return { from: Math.max(0, Math.floor(sight.first) - 1), to: Math.min(page.run.count - 1, Math.ceil(sight.first + (sight.width - GUTTER) / sight.scale)) };
}

// The whole run, or a part of it, fills the width.
function fitSight(from, to) {
    const wide = Math.max(1, to - from + 1);
    sight.scale = Math.min(WIDEST, (sight.width - GUTTER - 8) / wide);
    sight.first = from;
    keepInRun();
}

// The nearest sight that shows the run: not wider than the whole run, and not beyond its ends.
function keepInRun() {
    const room = sight.width - GUTTER - 8;
    const least = Math.min(WIDEST, room / Math.max(1, page.run.count));
    sight.scale = Math.max(least, Math.min(WIDEST, sight.scale));
    sight.first = Math.max(0, Math.min(sight.first, page.run.count - room / sight.scale));
}

function zoomAt(x, factor) {
    const stamp = stampAt(x);
    sight.scale *= factor;
    keepInRun();
    sight.first = stamp + 0.5 - (x - GUTTER) / sight.scale;
    keepInRun();
    redraw();
}

function sizeCanvas(canvas, width, height) {
    const ratio = window.devicePixelRatio || 1;
    canvas.width = Math.round(width * ratio);
    canvas.height = Math.round(height * ratio);
    canvas.style.width = `${width}px`;
    canvas.style.height = `${height}px`;
    const pen = canvas.getContext("2d");
    pen.setTransform(ratio, 0, 0, ratio, 0, 0);
    return pen;
}

function layOut() {
    const lanes = page.run.actors.length;
    const was = inSightOrAll();
    sight.lane = Math.max(24, Math.min(40, Math.floor(620 / lanes)));
    sight.width = document.getElementById("stage").clientWidth;
    sight.height = AXIS + lanes * sight.lane + 4;
    page.pen = sizeCanvas(document.getElementById("lanes"), sight.width, sight.height);
    page.overview = sizeCanvas(document.getElementById("overview"), sight.width, 34);
    page.backdrop = null;
    fitSight(was.from, was.to);
}

function inSightOrAll() {
    if (sight.width === 0) return { from: 0, to: page.run.count - 1 };
    return inSight();
}

// The colour of an entry's mark.
function colourOf(run, stamp) {
    switch (EVENTS[run.event[stamp]]) {
    case "took": {
        if (run.from[stamp] < 0) return WRONG;
        const word = wordTaken(run, stamp);
        return word ? FAMILIES[FAMILY_OF.get(word.kind)].colour : WRONG;
    }
    case "command": return "#000000";
    case "field": case "poll": return "#2a6fb0";
    case "cry": return WRONG;
    default: return "#404040";
    }
}

function drawLanes() {
    const { pen, run } = page;
    const began = performance.now();
    const range = inSight();
    pen.clearRect(0, 0, sight.width, sight.height);
    drawBands(pen, run, range);
    drawAxis(pen, range);
    for (const [lane, actor] of run.actors.entries()) {
        pen.fillStyle = actor.intruded ? WRONG : "#b0b0b0";
        pen.fillRect(GUTTER, laneY(lane) - 0.5, sight.width - GUTTER, 1);
    }
    pen.save();
    pen.beginPath();
    pen.rect(GUTTER, 0, sight.width - GUTTER, sight.height);
    pen.clip();
    const takes = linesIn(run, range);
    if (takes) drawLines(pen, run, takes);
    const drawn = drawMarks(pen, run, range);
    drawChosen(pen, run);
    pen.restore();
    drawNames(pen, run);
    if (page.showsLines && !takes) pen.fillText("+ for lines", 8, AXIS / 2);
    drawOverview(run);
    document.body.dataset.marks = String(drawn);
    document.body.dataset.drawn = (performance.now() - began).toFixed(1);
}

function drawNames(pen, run) {
    pen.fillStyle = "#ffffff";
    pen.fillRect(0, 0, GUTTER - 1, sight.height);
    pen.textBaseline = "middle";
    pen.textAlign = "left";
    for (const [lane, actor] of run.actors.entries()) {
        const y = laneY(lane);
        pen.fillStyle = actor.intruded ? WRONG : "#202020";
        pen.font = "bold 13px system-ui, sans-serif";
        pen.fillText(actor.name, 8, y - (actor.intruded || actor.halted ? 6 : 0));
        pen.font = "11px system-ui, sans-serif";
        if (actor.intruded) pen.fillText("intruded", 8, y + 8);
        else if (actor.halted) pen.fillText("halted", 8, y + 8);
    }
}

function drawAxis(pen, range) {
    const step = niceStep(70 / sight.scale);
    pen.font = "11px system-ui, sans-serif";
    pen.textBaseline = "middle";
    pen.textAlign = "center";
    for (let stamp = Math.ceil(range.from / step) * step; stamp <= range.to; stamp += step) {
        const x = atX(stamp);
        if (x < GUTTER + 4) continue;
        pen.fillStyle = "#e4e4e4";
        pen.fillRect(x - 0.5, AXIS - 4, 1, sight.height - AXIS);
        pen.fillStyle = "#505050";
        pen.fillText(String(stamp), x, AXIS / 2);
    }
}

// 1, 2 or 5 times a power of ten, at least so much and at least 1.
function niceStep(least) {
    let step = 1;
    for (let at = 0; step < least; at++) step *= at % 3 === 1 ? 2.5 : 2;
    return step;
}

// The bands of correct masters' views.
function drawBands(pen, run, range) {
    for (const [lane, bands] of run.bands) {
        for (const band of bands) {
            if (band.to < range.from || band.from > range.to) continue;
            const left = Math.max(GUTTER, atX(band.from) - sight.scale / 2);
            const right = Math.min(sight.width, atX(band.to) + sight.scale / 2);
            pen.fillStyle = SHADES[band.view % 4];
            pen.fillRect(left, laneY(lane) - sight.lane / 2 + 1, right - left, sight.lane - 2);
            if (run.hasViews && right - left > 44) {
                pen.fillStyle = "#6a6a6a";
                pen.font = "11px system-ui, sans-serif";
                pen.textBaseline = "top";
                pen.textAlign = "left";
                pen.fillText(`view ${band.view}`, left + 3, laneY(lane) - sight.lane / 2 + 2);
            }
        }
    }
}

function bandsOf(run) {
    const bands = new Map();
    for (const actor of run.correct) bands.set(run.lane.get(actor.name), [{ view: 0, from: 0, to: run.count - 1 }]);
    run.hasViews = false;
    for (const [stamp, deed] of run.deeds) {
        const mine = bands.get(run.actor[stamp]);
        if (!deed.view || !mine) continue;
        run.hasViews = true;
        mine[mine.length - 1].to = stamp - 1;
        mine.push({ view: deed.view[0], from: stamp, to: run.count - 1 });
    }
    return bands;
}

// The entries that took a word which is under way within the range, where both are to be seen.
function takesAcross(run, range) {
    const found = [];
    const last = Math.min(run.count - 1, range.to + FAR);
    for (let stamp = range.from; stamp <= last; stamp++) {
        const from = run.from[stamp];
        if (from < 0 || from > range.to) continue;
        if (!page.isShown[stamp] || !matchesWord(stamp)) continue;
        found.push(stamp);
    }
    return found;
}

// The same where words are drawn as lines, else null.
function linesIn(run, range) {
    if (!page.showsLines || range.to - range.from > MOST_ENTRIES) return null;
    const takes = takesAcross(run, range);
    return takes.length > MOST_LINES ? null : takes;
}

function matchesWord(stamp) {
    if (page.kinds.size === 0) return true;
    const word = wordTaken(page.run, stamp);
    return word !== null && page.kinds.has(word.kind);
}

function drawLines(pen, run, takes) {
    const paths = FAMILIES.map(() => new Path2D());
    for (const stamp of takes) {
        const word = wordTaken(run, stamp);
        if (!word) continue;
        const path = paths[FAMILY_OF.get(word.kind)];
        path.moveTo(atX(run.from[stamp]), laneY(run.actor[run.from[stamp]]));
        path.lineTo(atX(stamp), laneY(run.actor[stamp]));
    }
    pen.lineWidth = 1;
    // The more lines there are, and where an entry is chosen, the fainter they are.
    const clear = page.chosen >= 0 ? 0.15 : Math.max(0.14, Math.min(0.5, sight.scale / 20));
    pen.globalAlpha = Math.max(0.012, clear * Math.min(1, 250 / Math.max(1, takes.length)));
    for (const [at, path] of paths.entries()) {
        pen.strokeStyle = FAMILIES[at].colour;
        pen.stroke(path);
    }
    pen.globalAlpha = 1;
}

// Draws the marks in sight, and answers how many there are.
function drawMarks(pen, run, range) {
    if (sight.scale < 3) return drawNarrowMarks(pen, run, range);
    let count = 0;
    for (let stamp = range.from; stamp <= range.to; stamp++) {
        if (!page.isShown[stamp]) continue;
        count++;
        drawSign(pen, run, stamp, atX(stamp), laneY(run.actor[stamp]), page.colours[stamp]);
    }
    return count;
}

// Where entries are narrow, those of one colour that fall on one pixel of a lane are drawn once, and each colour's marks one
// after another.
function drawNarrowMarks(pen, run, range) {
    const colours = page.palette.length;
    const last = new Int32Array(run.actors.length * colours).fill(-1);
    const places = page.palette.map(() => []);
    let count = 0;
    for (let stamp = range.from; stamp <= range.to; stamp++) {
        if (!page.isShown[stamp]) continue;
        count++;
        const x = Math.floor(atX(stamp));
        const key = run.actor[stamp] * colours + page.colours[stamp];
        const isTall = run.event[stamp] === COMMAND || run.event[stamp] === CRY;
        if (last[key] === x && !isTall) continue;
        last[key] = x;
        places[page.colours[stamp]].push(x, run.actor[stamp], isTall ? 1 : 0);
    }
    for (const [colour, all] of places.entries()) {
        pen.fillStyle = page.palette[colour];
        for (let at = 0; at < all.length; at += 3) {
            const half = all[at + 2] ? sight.lane / 2 - 3 : 5;
            pen.fillRect(all[at], laneY(all[at + 1]) - half, 1 + all[at + 2], 2 * half);
        }
    }
    return count;
}

function drawSign(pen, run, stamp, x, y, colour) {
    const big = Math.min(1, sight.scale / 12);
    const size = 2.5 + 2.5 * big;
    pen.fillStyle = page.palette[colour];
    pen.strokeStyle = page.palette[colour];
    pen.lineWidth = 2;
    pen.beginPath();
    switch (EVENTS[run.event[stamp]]) {
    case "tick": pen.fillRect(x - 1, y - size - 1, 2, 2 * size + 2); break;
    case "command": case "cry": pen.fillRect(x - size, y - size, 2 * size, 2 * size); break;
    case "field": pen.fillRect(x - size, y - size / 2, 2 * size, size); break;
    case "poll": pen.arc(x, y, size - 1, 0, 7); pen.stroke(); break;
    case "restart": pen.arc(x, y, size + 1, 0, 7); pen.stroke(); break;
    case "skip": pen.arc(x, y, 1, 0, 7); pen.fill(); break;
    default:
        pen.arc(x, y, size - 1, 0, 7);
        pen.fill();
    }
    // An entry that says something has a rim, so that it stands out among those that only take.
    if (run.firstWord[stamp + 1] > run.firstWord[stamp]) {
        pen.strokeStyle = "#000000";
        pen.lineWidth = 1.2;
        pen.beginPath();
        if (run.event[stamp] === COMMAND || run.event[stamp] === CRY) pen.rect(x - size - 2, y - size - 2, 2 * size + 4, 2 * size + 4);
        else pen.arc(x, y, size + 1, 0, 7);
        pen.stroke();
    }
    if (sight.scale > 7) drawDeeds(pen, run, stamp, x, y);
}

// Numbers of updates executed below the lane, of values written and notices shown above it.
function drawDeeds(pen, run, stamp, x, y) {
    const deed = run.deeds.get(stamp);
    if (!deed) return;
    pen.font = "bold 11px system-ui, sans-serif";
    pen.textAlign = "center";
    pen.textBaseline = "middle";
    const put = (range, colour, at) => {
        if (!range) return;
        pen.fillStyle = colour;
        pen.fillText(String(range[0]), x, at);
    };
    put(deed.executes, "#1d6b3c", y + sight.lane / 2 - 6);
    put(deed.writes, "#000000", y - sight.lane / 2 + 6);
    put(deed.shows, "#a86400", y - sight.lane / 2 + 6);
}

// The entry that is chosen, what caused it (before it, blue) and what it caused (behind it, orange).
function drawChosen(pen, run) {
    const ring = (stamp, colour, radius) => {
        pen.strokeStyle = colour;
        pen.lineWidth = 2.5;
        pen.beginPath();
        pen.arc(atX(stamp), laneY(run.actor[stamp]), radius, 0, 7);
        pen.stroke();
    };
    const join = (stamp, colour) => {
        if (run.from[stamp] < 0) return;
        pen.strokeStyle = colour;
        pen.lineWidth = 2;
        pen.beginPath();
        pen.moveTo(atX(run.from[stamp]), laneY(run.actor[run.from[stamp]]));
        pen.lineTo(atX(stamp), laneY(run.actor[stamp]));
        pen.stroke();
    };
    for (const part of page.walk ? page.walk.parts : []) for (const stamp of part.stamps) ring(stamp, "#d0a000", 8);
    if (page.chosen < 0) return;
    join(page.chosen, "#1c5fd0");
    for (const stamp of page.causes) {
        ring(stamp, "#1c5fd0", 7);
        if (run.from[stamp] >= 0 && page.causes.includes(run.from[stamp])) join(stamp, "#1c5fd0");
    }
    for (const stamp of page.effects) {
        join(stamp, "#e06000");
        ring(stamp, "#e06000", 7);
    }
    ring(page.chosen, "#000000", 10);
    pen.fillStyle = "rgba(0, 0, 0, 0.12)";
    pen.fillRect(atX(page.chosen) - 1, AXIS - 4, 2, sight.height);
}

// The whole run below the lanes, and what is in sight of it.
function drawOverview(run) {
    const pen = page.overview;
    const room = sight.width - GUTTER;
    if (!page.backdrop) page.backdrop = backdropOf(run, room);
    pen.clearRect(0, 0, sight.width, 34);
    pen.font = "11px system-ui, sans-serif";
    pen.fillStyle = "#505050";
    pen.textBaseline = "middle";
    pen.fillText("whole run", 8, 17);
    pen.drawImage(page.backdrop, GUTTER, 0, room, 34);
    const left = GUTTER + (sight.first / run.count) * room;
    const wide = Math.max(3, (room / sight.scale / run.count) * room);
    pen.fillStyle = "rgba(30, 90, 200, 0.14)";
    pen.fillRect(left, 0, wide, 34);
    pen.strokeStyle = "#1c5fd0";
    pen.lineWidth = 1;
    pen.strokeRect(left + 0.5, 0.5, Math.min(wide, sight.width - left) - 1, 33);
}

// How the colours of shown entries divide over the run, in columns of a pixel or an entry.
function backdropOf(run, room) {
    const columns = Math.max(1, Math.min(run.count, room));
    const colours = page.palette.length;
    const counts = new Uint32Array(columns * colours);
    const totals = new Uint32Array(columns);
    for (let stamp = 0; stamp < run.count; stamp++) {
        const column = Math.floor((stamp * columns) / run.count);
        totals[column]++;
        if (page.isShown[stamp]) counts[column * colours + page.colours[stamp]]++;
    }
    const made = document.createElement("canvas");
    [made.width, made.height] = [Math.max(1, room), 34];
    const pen = made.getContext("2d");
    const wide = room / columns;
    for (let colour = 0; colour < colours; colour++) {
        pen.fillStyle = page.palette[colour];
        for (let column = 0; column < columns; column++) {
            const cells = counts.subarray(column * colours, (column + 1) * colours);
            if (cells[colour] === 0) continue;
            const below = cells.subarray(0, colour).reduce((sum, count) => sum + count, 0);
            const height = (cells[colour] / totals[column]) * 30;
            pen.fillRect(column * wide, 32 - (below / totals[column]) * 30 - height, wide + 0.2, height);
        }
    }
    return made;
}

// The shown entry that is nearest to a place, within 9 pixels across and half a lane down, or -1.
function entryNear(x, y) {
    const lane = Math.floor((y - AXIS) / sight.lane);
    if (lane < 0 || lane >= page.run.actors.length || x < GUTTER) return -1;
    const middle = stampAt(x);
    const reach = Math.max(1, 9 / sight.scale);
    let best = -1;
    for (let stamp = Math.max(0, Math.floor(middle - reach)); stamp <= Math.min(page.run.count - 1, middle + reach + 1); stamp++) {
        if (page.run.actor[stamp] !== lane || !page.isShown[stamp]) continue;
        if (best < 0 || Math.abs(stamp - middle) < Math.abs(best - middle)) best = stamp;
    }
    return best >= 0 && Math.abs(best - middle) <= reach + 0.5 ? best : -1;
}

// The take of the word whose line is nearest to a place, within 4 pixels, or -1.
function lineNear(x, y) {
    if (x < GUTTER) return -1;
    let best = -1;
    let least = 4;
    for (const stamp of linesIn(page.run, inSight()) || []) {
        const from = page.run.from[stamp];
        const ends = [atX(from), laneY(page.run.actor[from]), atX(stamp), laneY(page.run.actor[stamp])];
        const far = distanceTo(x, y, ...ends);
        if (far < least) {
            least = far;
            best = stamp;
        }
    }
    return best;
}

function distanceTo(x, y, ax, ay, bx, by) {
    const [dx, dy] = [bx - ax, by - ay];
    const along = Math.max(0, Math.min(1, ((x - ax) * dx + (y - ay) * dy) / Math.max(1e-9, dx * dx + dy * dy)));
    return Math.hypot(x - ax - along * dx, y - ay - along * dy);
}
