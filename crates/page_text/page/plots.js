// The points over the executions of the correct master that executed most: readings, settings, the alarms' limits, and
// when alarms were raised.

const PLOT = { left: 62, right: 12, top: 20, bottom: 32, height: 204 };

function shape(name, attributes, ...children) {
    const made = document.createElementNS("http://www.w3.org/2000/svg", name);
    for (const [key, value] of Object.entries(attributes)) made.setAttribute(key, value);
    made.append(...children);
    return made;
}

// Of each point the readings that count and the settings, by the numbers of their executions.
function seriesOfAll(run) {
    const all = run.plant.points.map(() => ({ readings: [], settings: [] }));
    (run.furthest ? run.furthest.list : []).forEach((update, at) => {
        const series = update.op.kind === "ack" ? undefined : all[update.op.point];
        if (!series) return;
        const it = { x: at + 1, value: update.op.value, printed: update.op.printed, update };
        if (update.op.kind === "set") series.settings.push(it);
        else if (isReadingOf(run.plant.points[update.op.point], update.op.point, update)) series.readings.push(it);
    });
    return all;
}

// From the least to the greatest value that is there, with some room. A setting out of the point's range stands at its edge.
function rangeOf(point, series, limits) {
    const values = [point.start, ...series.readings.map((it) => it.value), ...limits,
        ...series.settings.map((it) => Math.max(point.low, Math.min(point.high, it.value)))];
    let low = Math.min(...values);
    let high = Math.max(...values);
    if (low === high) [low, high] = [Math.max(point.low, low - 1), Math.min(point.high, high + 1)];
    if (low === high) high = low + 1;
    const room = (high - low) * 0.06;
    return { low: low - room, high: high + room };
}

// Round numbers from low to high, four to eight of them, all whole.
function ticksOf(low, high) {
    const step = niceStep((high - low) / 6);
    const ticks = [];
    for (let value = Math.ceil(low / step) * step; value <= high; value += step) ticks.push(value);
    return ticks;
}

// What became of a setting, as its screen shows it.
function answerOf(run, update) {
    const screen = run.actors[run.lane.get(update.client)];
    const notice = screen && screen.role === "screen" ? screen.list.find((it) => it.t === update.t) : undefined;
    return notice ? noticeWords(run, notice) : "no notice yet";
}

function plotOf(run, number, width) {
    const point = run.plant.points[number];
    const series = run.series[number];
    const alarms = run.plant.alarms.flatMap((alarm, at) => (alarm.point === number ? [{ at, ...alarm }] : []));
    const range = rangeOf(point, series, alarms.map((alarm) => alarm.limit));
    const count = Math.max(1, run.furthest ? run.furthest.list.length : 1);
    const xAt = (x) => PLOT.left + (x / count) * (width - PLOT.left - PLOT.right);
    const yAt = (value) => PLOT.top + ((range.high - Math.max(range.low, Math.min(range.high, value))) / (range.high - range.low)) * (PLOT.height - PLOT.top - PLOT.bottom);
    const svg = shape("svg", { viewBox: `0 0 ${width} ${PLOT.height}`, width, height: PLOT.height, role: "img", "aria-label": `${point.name} over the executions` });
    drawGrid(svg, range, count, width, xAt, yAt);
    drawRaised(svg, run, alarms, xAt);
    drawLimits(svg, alarms, width, xAt, yAt);
    drawSeries(svg, run, point, series, count, xAt, yAt);
    return svg;
}

// A number that is told in at most seven signs.
function short(value) {
    return Math.abs(value) < 1e6 ? String(value) : value.toExponential(Math.abs(value) % 10 ** Math.floor(Math.log10(Math.abs(value))) ? 1 : 0).replace("e+", "e");
}

function drawGrid(svg, range, count, width, xAt, yAt) {
    const foot = PLOT.height - PLOT.bottom;
    for (const value of ticksOf(range.low, range.high)) {
        svg.append(shape("line", { x1: PLOT.left, x2: width - PLOT.right, y1: yAt(value), y2: yAt(value), class: "grid" }),
            shape("text", { x: PLOT.left - 6, y: yAt(value) + 4, class: "tick right" }, short(value)));
    }
    const step = niceStep(count / Math.max(2, (width - PLOT.left) / 70));
    for (let x = 0; x <= count; x += step) {
        svg.append(shape("line", { x1: xAt(x), x2: xAt(x), y1: foot, y2: foot + 4, class: "axis" }),
            shape("text", { x: xAt(x), y: foot + 16, class: "tick middle" }, String(x)));
    }
    svg.append(shape("line", { x1: PLOT.left, x2: width - PLOT.right, y1: foot, y2: foot, class: "axis" }),
        shape("text", { x: width - PLOT.right, y: PLOT.height - 2, class: "tick right" }, "number of the execution"));
}

// A ground from where an alarm was raised to where it was cleared, with the numbers of these executions where there is room.
function drawRaised(svg, run, alarms, xAt) {
    let free = 0;
    for (const span of run.alarmSpans.filter((it) => alarms.some((alarm) => alarm.at === it.alarm))) {
        const left = xAt(span.raised);
        const right = xAt(span.cleared || run.furthest.list.length);
        const told = `${alarmName(run, span.alarm)}: raised at execution ${span.raised}, ${span.cleared ? `cleared at ${span.cleared}` : "still raised"}`;
        svg.append(shape("rect", { x: left, y: PLOT.top, width: Math.max(1, right - left), height: PLOT.height - PLOT.top - PLOT.bottom, class: "raised" },
            shape("title", {}, told)));
        const words = span.cleared ? `raised ${span.raised} to ${span.cleared}` : `raised ${span.raised} on`;
        const from = Math.max(PLOT.left, Math.min(left, xAt(run.furthest.list.length) - 7 * words.length));
        if (from < free) continue;
        svg.append(shape("text", { x: from, y: PLOT.top - 6, class: "limit" }, words));
        free = from + 7 * words.length;
    }
}

function drawLimits(svg, alarms, width, xAt, yAt) {
    for (const alarm of alarms) {
        const words = `${alarm.name}: ${alarm.kind === "high" ? "at least" : "at most"} ${alarm.limit}`;
        svg.append(shape("line", { x1: PLOT.left, x2: width - PLOT.right, y1: yAt(alarm.limit), y2: yAt(alarm.limit), class: "limit" }),
            shape("text", { x: PLOT.left + 6, y: yAt(alarm.limit) - 4, class: "limit" }, words));
    }
}

// A point's place and range. A scenario names no unit, so the range, and how the raw value is read, is what there is to tell.
function pointWords(point, number) {
    const scale = point.scale === 1 ? "" : ` x ${point.scale}`;
    const offset = point.offset === 0 ? "" : ` ${point.offset < 0 ? "-" : "+"} ${Math.abs(point.offset)}`;
    const raw = scale || offset ? `, raw value${scale}${offset}` : "";
    return `point ${number}, ${point.area} ${point.place} of ${point.proxy}; ${point.low} to ${point.high}${raw}`;
}

// A point has its value from one reading to the next.
function drawSeries(svg, run, point, series, count, xAt, yAt) {
    let path = `M ${xAt(0)} ${yAt(point.start)}`;
    for (const it of series.readings) path += ` H ${xAt(it.x)} V ${yAt(it.value)}`;
    svg.append(shape("path", { d: `${path} H ${xAt(count)}`, class: "reading" }));
    const few = series.readings.length <= 400;
    for (const it of few ? series.readings : []) {
        svg.append(shape("circle", { cx: xAt(it.x), cy: yAt(it.value), r: 3, class: "reading" }, shape("title", {}, `execution ${it.x}: reads ${it.printed}`)));
    }
    for (const it of series.settings.slice(0, 2000)) {
        const answer = answerOf(run, it.update);
        svg.append(shape("rect", { x: xAt(it.x) - 4, y: yAt(it.value) - 4, width: 8, height: 8, class: answer === "done" ? "setting done" : "setting" },
            shape("title", {}, `execution ${it.x}: set to ${it.printed}, ${answer}`)));
    }
}

function showPoints(run) {
    const box = document.getElementById("points");
    if (run.plant.points.length === 0) return;
    const name = run.furthest ? run.furthest.name : "nobody";
    box.append(element("h2", {}, "Points"), element("p", {}, `Over the executions of ${name}: a line that keeps each reading until the next, a full square where a value was set, an empty one where that was refused (at the edge where it is out of range), a broken line where an alarm begins, a red ground while it is raised. A scenario names no units, so values stand as they are, and behind a point's name its range.`));
    const grid = element("div", { class: "plots" });
    box.append(grid);
    const told = [];
    run.series = seriesOfAll(run);
    run.plant.points.forEach((point, number) => {
        const series = run.series[number];
        if (series.readings.length === 0 && series.settings.length === 0) {
            told.push(point.name);
            return;
        }
        const figure = element("figure", {}, element("figcaption", {}, element("strong", {}, point.name), ` (${pointWords(point, number)})`));
        figure.dataset.point = String(number);
        grid.append(figure);
    });
    if (told.length) box.append(element("p", {}, `Neither read nor set: ${told.join(", ")}.`));
    whenSeen(grid.children, (figure) => figure.append(plotOf(run, Number(figure.dataset.point), Math.max(280, figure.clientWidth))));
}

// Does a thing for each element once it comes near the sight.
function whenSeen(elements, does) {
    const watch = new IntersectionObserver((seen) => {
        for (const it of seen) {
            if (!it.isIntersecting) continue;
            watch.unobserve(it.target);
            does(it.target);
        }
    }, { rootMargin: "400px" });
    for (const it of elements) watch.observe(it);
}
