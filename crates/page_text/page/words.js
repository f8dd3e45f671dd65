// What words, updates and notices say in plain words.

function pointName(run, point) {
    return run.plant.points[point] ? run.plant.points[point].name : `point ${point}`;
}

function alarmName(run, alarm) {
    return run.plant.alarms[alarm] ? run.plant.alarms[alarm].name : `alarm ${alarm}`;
}

function interlockName(run, interlock) {
    return run.plant.interlocks[interlock] ? run.plant.interlocks[interlock].name : `interlock ${interlock}`;
}

function opWords(run, op) {
    if (op.kind === "reading") return `${pointName(run, op.point)} reads ${op.printed}`;
    if (op.kind === "set") return `set ${pointName(run, op.point)} to ${op.printed}`;
    return `acknowledge ${alarmName(run, op.alarm)}`;
}

function noticeWords(run, notice) {
    switch (notice.what) {
    case "done": return "done";
    case "denied": return `denied by interlock ${interlockName(run, notice.number)}`;
    case "nopoint": return `there is no point ${notice.number}`;
    case "outofrange": return `out of the range of ${pointName(run, notice.number)}`;
    case "notwritable": return `${pointName(run, notice.number)} can't be written`;
    case "noalarm": return `${alarmName(run, notice.number)} isn't raised`;
    case "raised": return `${alarmName(run, notice.number)} is raised`;
    case "cleared": return `${alarmName(run, notice.number)} is cleared`;
    default: return "a screen can't say that";
    }
}

function listed(items) {
    return items.length ? items.join(", ") : "none";
}

function orderWords(run, w) {
    if (w[0] === "write") return `write raw ${w[2]} to ${pointName(run, Number(w[1]))}`;
    const notice = { what: w[1], t: Number(w[2]), number: Number(w[3]) };
    const of = notice.t > 0 ? `command ${notice.t}: ` : "";
    return `notice, ${of}${noticeWords(run, notice)}`;
}

function leaderOf(run, view) {
    return `m${view % run.masters.length}`;
}

// A word in plain words, its kind first.
function wordWords(run, word) {
    const w = word.fields;
    const kind = word.kind;
    switch (kind) {
    case "update": return `update ${w[1]} of ${w[0]}: ${opWords(run, readOp(w.slice(2)))}`;
    case "porequest": return `porequest ${w[0]} of ${word.signer}: update ${w[2]} of ${w[1]}, ${opWords(run, readOp(w.slice(3)))}`;
    case "poack": return `poack of request ${w[1]} of ${w[0]} (digest ${w[2]}..)`;
    case "posummary": return `posummary: certified up to ${w.map((x, j) => `${x} of m${j}`).join(", ")}`;
    case "preprepare": return `preprepare ${w[1]} of view ${w[0]}: rows of ${listed(w.slice(2).map((row) => row.split(":")[0]))}`;
    case "prepare": case "commit": return `${kind} ${w[1]} of view ${w[0]} (digest ${w[2]}..)`;
    case "ping": return `ping ${w[0]}`;
    case "pong": return `pong: answers ping ${w[1]} of ${w[0]}`;
    case "rtt": return `rtt: ${w[0]} answered ping ${w[1]} after ${w[2]} ticks`;
    case "tatreport": return `tatreport of view ${w[0]}: waited ${w[1]} ticks for the leader`;
    case "tatbound": return `tatbound of view ${w[0]}: a leader may take ${w[1]} ticks`;
    case "suspect": return `suspect: a vote against ${leaderOf(run, Number(w[0]))}, the leader of view ${w[0]}`;
    case "report": return reportWords(w);
    case "newview": return `newview ${w[0]}: reports of ${listed(w.slice(1))}`;
    case "askupdate": return `askupdate: wants request ${w[1]} of ${w[0]}`;
    case "give": return `give: request ${w[1]} of ${w[0]}, acknowledged by ${listed(w.slice(2))}`;
    case "askorder": return `askorder: wants number ${w[0]}`;
    case "giveordered": return `giveordered: number ${w[0]}, committed in view ${w[1]} by ${listed(w.slice(2))}`;
    case "voucher": return `voucher ${w[1]} for ${w[0]}: ${orderWords(run, w.slice(2))}`;
    case "mark": return `mark: all numbers up to ${w[0]} are ordered`;
    default: return kind;
    }
}

function reportWords(w) {
    const cut = w.indexOf("certificates");
    const certificates = w.slice(cut + 1).map((x) => x.replace(":", " of view "));
    return `report for view ${w[0]}: stable up to ${w[2]}, certificates for ${listed(certificates)}`;
}

// What came to an actor, in plain words.
function eventWords(run, stamp) {
    const name = run.actors[run.actor[stamp]].name;
    const line = run.line(stamp).split(" says ")[0].split(" ").slice(3);
    switch (EVENTS[run.event[stamp]]) {
    case "took": return tookWords(run, stamp, name);
    case "tick": return `The clock of ${name} ticks.`;
    case "command": return `The operator at ${name} commands: ${opWords(run, readOp(line))}.`;
    case "field": return `Behind ${name} the ${line[0]} at place ${line[1]} has the raw value ${line[2]}.`;
    case "poll": return `${name} reads its points.`;
    case "cry": return `The intruded master ${name} says bytes of its own.`;
    case "restart": return `${name} starts anew from what was kept.`;
    default: return `${name} passes over a stamp.`;
    }
}

function tookWords(run, stamp, name) {
    const word = wordTaken(run, stamp);
    if (run.from[stamp] < 0) return `${name} takes a frame that is told by its bytes: ${word ? wordWords(run, word) : "no word"}.`;
    const said = `said at ${run.from[stamp]}`;
    return word ? `${name} takes of ${word.signer}, ${said}: ${wordWords(run, word)}.` : `${name} takes a frame ${said}.`;
}

// What an actor did at an entry beside saying words.
function deedWords(run, stamp) {
    const deed = run.deeds.get(stamp);
    if (!deed) return [];
    const actor = run.actors[run.actor[stamp]];
    const out = [];
    const each = (range, put) => {
        for (let number = range[0]; number <= range[1]; number++) out.push(put(number, actor.list[number - 1]));
    };
    if (deed.executes) each(deed.executes, (x, u) => `executes ${x}: update ${u.t} of ${u.client}, ${opWords(run, u.op)}`);
    if (deed.writes) each(deed.writes, (x, it) => `write ${x}: raw ${it.raw} to ${pointName(run, it.point)}, ${it.answer}`);
    if (deed.shows) each(deed.shows, (x, it) => `notice ${x}: ${it.t ? `command ${it.t}, ` : ""}${noticeWords(run, it)}`);
    if (deed.view) out.push(`comes to view ${deed.view[0]}, whose leader is ${leaderOf(run, deed.view[0])}`);
    return out;
}
