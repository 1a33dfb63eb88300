// The page: where everything stands behind a group, and ways to go from group to group.
"use strict";

const EVERY = 256; // a copy of the state is kept at each such group, to go back from
const AROUND = 5; // groups shown before and behind the one that is looked at
const LARGE = 40; // no list on the page is longer

const MANY = 9; // with more machines they stand closer, so that sixteen are on one screen
const LONGEST = 95; // of a line that is at fault so much is shown

const trace = parse(text("trace"));
const names = namesOf(text("boot"));
const pids = atStart(trace.groups, trace.ends, names);
const page = { at: 0, state: null, kept: [], followed: "", words: "", found: null, fault: null };

function text(id) {
    return document.getElementById(id).textContent;
}

function copied(state) {
    return JSON.parse(JSON.stringify(state));
}

// The state behind so many groups.
function stateAt(count) {
    let state = page.state;
    if (state === null || state.groups > count) {
        const near = Math.min(Math.floor(count / EVERY), page.kept.length - 1);
        state = copied(page.kept[near]);
    }
    while (state.groups < count) {
        foldGroup(state, trace.groups[state.groups]);
        if (state.groups % EVERY === 0 && page.kept.length === state.groups / EVERY) {
            page.kept.push(copied(state));
        }
    }
    return state;
}

// Folds all groups once. Where a line can't be folded the page has the lines before it, and tells it.
function foldAll() {
    if (trace.stray !== null) {
        page.fault = { line: trace.stray, number: lineNumber(text("trace"), 0), why: "no head of a group stands before it" };
        return;
    }
    try {
        page.state = stateAt(trace.groups.length);
    } catch (fault) {
        const { group, place } = fault;
        const before = trace.groups.slice(0, group).reduce((sum, lines) => sum + lines.length, place);
        const why = fault instanceof Unfolded ? fault.message : `this page can't fold it (${fault.message})`;
        page.fault = { line: trace.groups[group][place], number: lineNumber(text("trace"), before), why };
        trace.groups[group] = trace.groups[group].slice(0, place);
        trace.groups.length = group + (place > 0 ? 1 : 0);
        trace.ends = null;
    }
}

function shortened(line) {
    return line.length > LONGEST ? `${line.slice(0, LONGEST)}..` : line;
}

// An element of a class with what stands in it.
function made(name, of, ...parts) {
    const element = document.createElement(name);
    element.className = of;
    for (const part of parts) {
        element.append(part);
    }
    return element;
}

function titled(pid) {
    const name = SERVER_NAMES[pid] ?? names[pid];
    return name ? `${pid} ${name}` : pid;
}

// A message, or a process, that a click follows.
function follows(element, what) {
    element.dataset.what = what;
    element.classList.toggle("followed", what === page.followed);
    element.addEventListener("click", (event) => {
        event.stopPropagation();
        follow(what === page.followed ? "" : what);
    });
    return element;
}

function messageChip(id) {
    const { kind, to } = page.state.messages[id] ?? { kind: "", to: "" };
    const chip = follows(made("span", "id", id, " ", made("span", "kind", `${kind} for ${to}`)), id);
    if (to === page.followed) {
        chip.classList.add("followed");
    }
    return chip;
}

function listRow(word, ids) {
    const row = made("div", "row", made("span", "word", word));
    row.append(...ids.slice(0, LARGE).map(messageChip));
    if (ids.length > LARGE) {
        row.append(`and ${ids.length - LARGE} more`);
    }
    return row;
}

// What a machine knows of a process, in words.
const KNOWN_WORDS = {
    [HERE]: () => "",
    [LEAVING]: ({ to }) => (to === null ? "is frozen" : `is frozen, on its way to machine ${to}`),
    [ARRIVING]: ({ from, whole }) => `comes from machine ${from}${whole ? ", all of it is here" : ""}`,
    [GONE_ON]: ({ to }) => `has gone on to machine ${to}`,
};

function processCard(m, pid, known) {
    const process = page.state.processes[pid];
    const stands = known.is === HERE;
    const words = stands ? `${process.status}${process.stopped ? ", stopped" : ""}` : KNOWN_WORDS[known.is](known);
    const look = stands ? (process.stopped ? "stopped" : process.status) : known.is;
    const card = made("div", `process ${look.replace(" ", "-")}`, made("span", "name", titled(pid)), " ", words);
    if (stands && process.said !== "") {
        card.append(" ", made("span", "said", process.said));
    }
    if (known.is !== GONE_ON && known.is !== ARRIVING && process.queue.length > 0) {
        card.append(listRow("queue", process.queue));
    }
    const held = page.state.machines[m].held[pid] ?? [];
    if (held.length > 0) {
        card.append(listRow("held", held));
    }
    return follows(card, pid);
}

function endedCards(m) {
    const ended = Object.entries(page.state.processes).filter(([, process]) => process.ended !== null && process.at === m);
    return ended.sort(([a], [b]) => byName(a, b)).map(([pid, process]) => follows(made("div", "process ended", titled(pid), ` ended ${process.ended}`), pid));
}

function machineCard(machine, m) {
    const card = made("div", "machine", made("h3", "", `machine ${m}`));
    card.dataset.machine = m;
    card.classList.toggle("acts", page.at > 0 && actsIn(trace.groups[page.at - 1]) === m);
    if (machine.inbox.length > 0) {
        card.append(listRow("inbox", machine.inbox));
    }
    for (const pid of Object.keys(machine.known).sort(byName)) {
        card.append(processCard(m, pid, machine.known[pid]));
    }
    card.append(...endedCards(m));
    return card;
}

// The machine that acts in a group.
function actsIn(lines) {
    const words = lines[0].split(" ");
    if (words[0] === "migrate") {
        return page.state.processes["0.2"].at;
    }
    return Number(words[0] === "deliver" || words[0] === "calloff" ? words[2] : words[1]);
}

// The packets of a pair that were never delivered, and the messages that were routed and not taken.
function pairRow(key, pair) {
    const [a, b] = key.split(" ");
    const open = pair.wire.map((packet, number) => ({ packet, number })).filter(({ packet }) => packet.delivered === 0);
    const waiting = pair.given.slice(pair.taken);
    if (open.length === 0 && waiting.length === 0) {
        return null;
    }
    const row = made("div", "pair", made("span", "from", `${a} to ${b}`));
    row.append(...open.slice(0, LARGE).map(({ packet, number }) => packetChip(pair, packet, number)));
    if (open.length > LARGE) {
        row.append(`and ${open.length - LARGE} packets more`);
    }
    if (waiting.length > 0) {
        row.append(listRow("not taken", waiting));
    }
    return row;
}

function packetChip(pair, packet, number) {
    if (packet.kind === "ack") {
        return made("span", "packet ack", `packet ${number}: ${packet.count} have come`);
    }
    const id = pair.given[packet.count];
    const chip = follows(made("span", "packet", `packet ${number}: message ${packet.count}, ${id}`), id);
    return chip;
}

function show() {
    page.state = stateAt(page.at);
    const { state } = page;
    replace("machines", state.machines.map(machineCard));
    const pairs = Object.keys(state.pairs).sort(byPair).map((key) => pairRow(key, state.pairs[key])).filter((row) => row !== null);
    replace("packets", pairs.length > 0 ? pairs : ["nothing"]);
    replace("outputs", outputs());
    showLines();
    byId("slider").value = page.at;
    byId("place").textContent = page.at === 0 ? "before the first group" : `group ${page.at} of ${trace.groups.length}`;
    showCheck();
    document.body.dataset.at = page.at;
}

function byPair(a, b) {
    const [x, y] = [a, b].map((key) => key.split(" ").map(Number));
    return x[0] - y[0] || x[1] - y[1];
}

// The words that each process put out, and as text where all are letters.
function outputs() {
    const said = {};
    for (const [, pid, word] of page.state.outputs) {
        said[pid] = said[pid] ?? [];
        said[pid].push(word);
    }
    const rows = Object.keys(said).sort(byName).map((pid) => {
        const words = said[pid];
        const shown = words.every((word) => word >= 32 && word < 127) ? ` = "${String.fromCharCode(...words)}"` : "";
        return follows(made("div", "", `${titled(pid)}: ${words.slice(-LARGE).join(" ")}${shown}`), pid);
    });
    return rows.length > 0 ? rows : ["nothing"];
}

function replace(id, parts) {
    byId(id).replaceChildren(...parts);
}

function byId(id) {
    return document.getElementById(id);
}

// The lines of the group that is looked at, with some groups around it.
function showLines() {
    const from = Math.max(0, page.at - 1 - AROUND);
    const to = Math.min(trace.groups.length, page.at + AROUND);
    const parts = [];
    for (let g = from; g < to; g++) {
        parts.push(groupLines(g));
    }
    if (to === trace.groups.length && page.fault !== null) {
        parts.push(made("div", "group fault", shortened(page.fault.line)));
    }
    if (to === trace.groups.length && trace.ends !== null) {
        parts.push(made("div", "group", "final, and where everything stands"));
    }
    replace("lines", parts);
}

function groupLines(g) {
    const now = g + 1 === page.at;
    const part = made("div", now ? "group now" : "group", made("span", "number", String(g + 1)));
    trace.groups[g].forEach((line, place) => {
        const row = made("div", "", line);
        row.classList.toggle("followed", page.followed !== "" && line.split(" ").includes(page.followed));
        row.classList.toggle("found", page.found !== null && page.found.group === g && page.found.line === place);
        part.append(row);
    });
    part.addEventListener("click", () => go(g + 1));
    return part;
}

// A line that couldn't be folded; else whether what was folded is what the lines at the end say.
function showCheck() {
    const place = byId("check");
    if (page.at < trace.groups.length) {
        return;
    }
    if (page.fault !== null || (trace.groups.length === 0 && trace.ends === null)) {
        const { number, line, why } = page.fault ?? {};
        place.textContent = page.fault === null ? "this file has no group: there is nothing to show" : `line ${number}: ${shortened(line)}\n${why}: what stands from here on isn't shown`;
        place.className = "differs";
        return;
    }
    if (trace.ends === null) {
        place.textContent = "no lines at the end: nothing to check this page by";
        place.className = "";
        return;
    }
    const wrong = differences(page.state, trace.ends);
    const unnamed = Object.keys(names).length > 0 ? "; names of processes are those of the boot file, with which no line was compared" : "";
    place.textContent = wrong.length === 0 ? `at its end this page agrees with the lines at the end${unnamed}` : `this page is wrong: at its end the lines say something else\n${wrong.join("\n")}`;
    place.className = wrong.length === 0 ? "agrees" : "differs";
}

function go(count) {
    page.at = Math.max(0, Math.min(trace.groups.length, count));
    if (page.found !== null && page.found.group + 1 !== page.at) {
        page.found = null;
    }
    show();
}

// To the next group, or to one before, with a line that goes on with these words, whole words.
function seek(step) {
    const words = byId("find").value.trim().split(/\s+/).join(" ");
    if (words === "") {
        return;
    }
    for (let g = page.at - 1 + step; g >= 0 && g < trace.groups.length; g += step) {
        const line = trace.groups[g].findIndex((each) => ` ${each} `.includes(` ${words} `));
        if (line >= 0) {
            page.found = { group: g, line };
            go(g + 1);
            return;
        }
    }
    byId("place").textContent = `no ${step > 0 ? "further" : "earlier"} line: ${words}`;
}

function follow(what) {
    page.followed = what;
    byId("follow").value = what;
    show();
}

const KEYS = {
    ArrowRight: (event) => go(page.at + (event.shiftKey ? 10 : 1)),
    ArrowLeft: (event) => go(page.at - (event.shiftKey ? 10 : 1)),
    Home: () => go(0),
    End: () => go(trace.groups.length),
    n: () => seek(1),
    p: () => seek(-1),
    "/": () => byId("find").focus(),
    Escape: () => follow(""),
};

function pressed(event) {
    const typing = event.target instanceof HTMLInputElement && event.target.type !== "range";
    if (typing && event.key === "Escape") {
        event.target.blur();
    }
    if ((typing && event.key !== "Escape") || event.ctrlKey || event.altKey || event.metaKey || !(event.key in KEYS)) {
        return;
    }
    event.preventDefault();
    KEYS[event.key](event);
}

const LOOKS = ["ready", "waiting", "moving data", "server", "stopped", "leaving", "arriving", "gone on", "ended"];

function begin() {
    page.kept = [firstState(machineCount(trace.groups, trace.ends, pids), pids)];
    foldAll();
    byId("machines").classList.toggle("many", page.kept[0].machines.length > MANY);
    byId("slider").max = trace.groups.length;
    byId("slider").addEventListener("input", (event) => go(Number(event.target.value)));
    byId("first").addEventListener("click", () => go(0));
    byId("back").addEventListener("click", () => go(page.at - 1));
    byId("forward").addEventListener("click", () => go(page.at + 1));
    byId("last").addEventListener("click", () => go(trace.groups.length));
    byId("next").addEventListener("click", () => seek(1));
    byId("previous").addEventListener("click", () => seek(-1));
    byId("unfollow").addEventListener("click", () => follow(""));
    byId("follow").addEventListener("change", (event) => follow(event.target.value.trim()));
    byId("find").addEventListener("keydown", (event) => event.key === "Enter" && seek(event.shiftKey ? -1 : 1));
    document.addEventListener("keydown", pressed);
    replace("legend", LOOKS.map((look) => made("span", `process ${look.replace(" ", "-")}`, look)));
    // to the end once, so that the page is checked before anybody rests on it
    go(trace.groups.length);
    // a page may be opened at a group, as run.html#12
    go(Number(location.hash.slice(1)) || 0);
}

begin();
