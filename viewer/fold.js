// Folds printed lines: what each machine has and what is on the way, group by group.
//
// A state is plain data, so that a copy of it can be kept and gone back to. Nothing here knows of a page.
"use strict";

// What a machine knows of a process.
const HERE = "here", LEAVING = "leaving", ARRIVING = "arriving", GONE_ON = "gone on";

// The kinds of messages that begin a piece of a data move, and those that answer one.
const REQUESTS = ["read", "write"];
const ANSWERS = ["block", "written", "gone"];

const SERVER_NAMES = { "0.1": "switchboard", "0.2": "process manager" };

const MACHINES = 16; // no system has more

// The words behind the first one of each line: a machine, a process, a message, a number, a kind, the sort of a packet.
const FORMS = {
    turn: "M", tick: "M", deliver: "M M N", migrate: "P M", calloff: "P M",
    idle: "M", none: "", away: "", nochild: "P", ran: "P N", call: "P N N", send: "P I", wait: "P", out: "P N", end: "P N",
    receive: "P I", refuse: "P I N", put: "M M I K P", packet: "M M N S N", taken: "M M N", old: "M M N", early: "M M N", acked: "M M N",
    resent: "M N", queued: "I", held: "I", forwarded: "I M", dropped: "I", served: "I", gone: "I", took: "I", created: "I P",
    nospace: "I N N", updated: "I N", step: "N P", lacks: "P N N", stays: "P", called: "P N", nocall: "P", stale: "I", buried: "I N",
    here: "I", nomove: "I", asked: "I", answered: "I N", proto: "I",
};
const LONGER_STEP = "N P N"; // step 6 says how many messages go on
const WORDS = {
    M: [/^\d+$/, "a machine"],
    P: [/^\d+\.\d+$/, "a process"],
    I: [/^\d+\.\d+#\d+!?$/, "a message"],
    N: [/^\d+$/, "a number"],
    K: [/^[a-z]+$/, "a kind of message"],
    S: [/^(data|ack)$/, "data or ack"],
};

// A line that can't be folded, and why; where it stands in its group is told on the way.
class Unfolded extends Error {}

// The words of a line, which are as its form says.
function wordsOf(state, line) {
    const words = line.split(" ");
    if (!Object.hasOwn(FORMS, words[0])) {
        throw new Unfolded("no such line");
    }
    const form = (line.startsWith("step 6 ") ? LONGER_STEP : FORMS[words[0]]).split(" ").filter((each) => each !== "");
    if (words.length - 1 !== form.length) {
        throw new Unfolded(`the line ${words[0]} has ${form.length} more words, not ${words.length - 1}`);
    }
    form.forEach((sort, place) => {
        const word = words[place + 1];
        if (!WORDS[sort][0].test(word)) {
            throw new Unfolded(`${WORDS[sort][1]} must stand where ${word === "" ? "nothing" : word} stands`);
        }
        if (sort === "M" && Number(word) >= state.machines.length) {
            throw new Unfolded(`there is no machine ${word}`);
        }
    });
    return words;
}

function processOf(state, pid) {
    if (state.processes[pid] === undefined) {
        throw new Unfolded(`there is no process ${pid}`);
    }
    return state.processes[pid];
}

function messageOf(state, id) {
    if (state.messages[id] === undefined) {
        throw new Unfolded(`no line before has put ${id}`);
    }
    return state.messages[id];
}

// What a machine knows of a process; it must be one of these.
function knownOf(state, m, pid, ...are) {
    const known = state.machines[m].known[pid];
    if (known === undefined || (are.length > 0 && !are.includes(known.is))) {
        throw new Unfolded(`on machine ${m} process ${pid} is ${known === undefined ? "unknown" : known.is}`);
    }
    return known;
}

function homeOf(pid) {
    return Number(pid.slice(0, pid.indexOf(".")));
}

// The process that a message has its name from.
function senderOf(id) {
    return id.slice(0, id.indexOf("#"));
}

// Processes in order of home, then number.
function byName(a, b) {
    const [homeA, numberA] = a.split(".").map(Number);
    const [homeB, numberB] = b.split(".").map(Number);
    return homeA - homeB || numberA - numberB;
}

// Cuts a text into groups, each its lines with its head first, and the lines at the end. A text that begins with another line than a
// head has none: that line strays.
function parse(text) {
    const heads = ["turn", "tick", "deliver", "migrate", "calloff"];
    const groups = [];
    let ends = null;
    for (const line of text.split("\n")) {
        if (line === "") {
            continue;
        }
        if (ends !== null || line === "final") {
            ends = ends ?? [];
            ends.push(line);
        } else if (heads.includes(line.split(" ", 1)[0])) {
            groups.push([line]);
        } else if (groups.length === 0) {
            return { groups, ends, stray: line };
        } else {
            groups[groups.length - 1].push(line);
        }
    }
    return { groups, ends, stray: null };
}

// The number of a text's line that is the so-manieth which isn't empty.
function lineNumber(text, count) {
    let left = count;
    return text.split("\n").findIndex((line) => line !== "" && left-- === 0) + 1;
}

// The names that a boot file gives its processes: by machine, in the order of the file, numbered from 3.
function namesOf(boot) {
    const names = {};
    const made = {};
    for (const part of boot.split(/^\s*\[\[\s*process\s*\]\]/m).slice(1)) {
        const own = part.split(/^\s*\[/m, 1)[0];
        const name = own.match(/^\s*name\s*=\s*(?:"([^"]*)"|'([^']*)')/m);
        const machine = own.match(/^\s*machine\s*=\s*(\d+)/m);
        if (machine) {
            const home = Number(machine[1]);
            made[home] = (made[home] ?? 2) + 1;
            names[`${home}.${made[home]}`] = name ? name[1] ?? name[2] : "";
        }
    }
    return names;
}

// The processes that there are before the first group: those with a line at the end that no group made, or, where there are
// no lines at the end, those of the boot file and those that a line says of before one makes them.
function atStart(groups, ends, names) {
    const made = new Set();
    const found = new Set(Object.keys(names));
    for (const line of (ends ?? [])) {
        const words = line.split(" ");
        if (words[0] === "process") {
            found.add(words[1]);
        }
    }
    const speak = ["ran", "call", "send", "wait", "out", "end", "receive", "refuse"];
    for (const line of groups.flat()) {
        const words = line.split(" ");
        if (words[0] === "created") {
            made.add(words[2]);
        } else if (words[0] === "step") {
            found.add(words[2]);
        } else if (speak.includes(words[0]) && /^\d+\.\d+$/.test(words[1])) {
            found.add(words[1]);
        }
    }
    return [...found].filter((pid) => /^\d+\.\d+$/.test(pid) && homeOf(pid) < MACHINES && !made.has(pid) && !(pid in SERVER_NAMES)).sort(byName);
}

// How many machines the lines speak of.
function machineCount(groups, ends, pids) {
    let most = 0;
    const see = (word) => {
        const number = Number(word);
        most = Number.isInteger(number) && number < MACHINES ? Math.max(most, number) : most;
    };
    for (const line of groups.flat().concat(ends ?? [])) {
        const words = line.split(" ");
        if (["turn", "tick", "idle", "resent", "inbox", "holding"].includes(words[0])) {
            see(words[1]);
        } else if (["deliver", "put", "packet", "stream"].includes(words[0])) {
            see(words[1]);
            see(words[2]);
        } else if (words[0] === "migrate" || words[0] === "calloff") {
            see(words[2]);
        } else if (words[0] === "process" && words[2] === "at") {
            see(words[3]);
        }
    }
    pids.map(homeOf).forEach(see);
    return most + 1;
}

// Before the first group.
function firstState(machines, pids) {
    const state = { machines: [], processes: {}, messages: {}, pairs: {}, outputs: [], groups: 0 };
    for (let m = 0; m < machines; m++) {
        state.machines.push({ inbox: [], held: {}, known: {} });
    }
    for (const pid of Object.keys(SERVER_NAMES)) {
        makeProcess(state, pid, 0, "server");
    }
    for (const pid of pids) {
        makeProcess(state, pid, homeOf(pid), "ready");
    }
    return state;
}

function makeProcess(state, pid, at, status) {
    if (state.machines[at] === undefined) {
        throw new Unfolded(`there is no machine ${at}`);
    }
    state.processes[pid] = { at, place: HERE, status, stopped: false, ended: null, queue: [], said: "" };
    state.machines[at].known[pid] = { is: HERE };
}

// What was routed from one machine to another: each message, how many were taken, and the packets put.
function pairOf(state, a, b) {
    const key = `${a} ${b}`;
    state.pairs[key] = state.pairs[key] ?? { given: [], taken: 0, wire: [] };
    return state.pairs[key];
}

function without(list, id) {
    const place = list.indexOf(id);
    if (place < 0) {
        return false;
    }
    list.splice(place, 1);
    return true;
}

// One group more. Where a line of it can't be folded, the error says which, and why.
function foldGroup(state, lines) {
    let place = 0;
    try {
        const group = beginGroup(state, wordsOf(state, lines[0]));
        for (place = 1; place < lines.length; place++) {
            const words = wordsOf(state, lines[place]);
            LINES[words[0]](state, group, words);
        }
    } catch (fault) {
        fault.group = state.groups;
        fault.place = place;
        throw fault;
    }
    state.groups += 1;
}

// The head: which machine acts, and the message that it handles, the front of its inbox.
function beginGroup(state, words) {
    const group = { acts: Number(words[1]), message: null, spoke: null };
    if (words[0] === "deliver") {
        group.acts = Number(words[2]);
        const sent = pairOf(state, words[1], words[2]).wire[Number(words[3])];
        if (sent) {
            sent.delivered += 1;
        }
    } else if (words[0] === "migrate") {
        // the manager sends the request
        group.acts = state.processes["0.2"].at;
    } else if (words[0] === "calloff") {
        group.acts = Number(words[2]);
    } else if (words[0] === "turn") {
        group.message = state.machines[group.acts].inbox.shift() ?? null;
    }
    return group;
}

// The message that a turn handles.
function handled(group) {
    if (group.message === null) {
        throw new Unfolded("this group handles no message");
    }
    return group.message;
}

// What a process said last, and what it does now.
function speaks(state, group, pid, status, said) {
    const process = processOf(state, pid);
    group.spoke = pid;
    process.status = status;
    process.said = said;
}

// What was held for a process that goes on here comes before all else.
function goesOn(state, m, pid) {
    const machine = state.machines[m];
    machine.inbox.unshift(...(machine.held[pid] ?? []));
    delete machine.held[pid];
    machine.known[pid] = { is: HERE };
    Object.assign(processOf(state, pid), { at: m, place: HERE });
}

function ends(state, group, pid, why) {
    const process = processOf(state, pid);
    Object.assign(process, { ended: why, status: "ended" });
    delete state.machines[group.acts].known[pid];
    group.ended = pid;
    group.about = pid;
}

const STEPS = {
    1(state, group, pid) {
        processOf(state, pid).place = LEAVING;
        state.machines[group.acts].known[pid] = { is: LEAVING, to: null };
    },
    2() {},
    3(state, group, pid) {
        state.machines[group.acts].known[pid] = { is: ARRIVING, from: homeOf(senderOf(handled(group))) };
    },
    4() {},
    5(state, group, pid) {
        knownOf(state, group.acts, pid, ARRIVING).whole = true;
    },
    6(state, group, pid) {
        processOf(state, pid).queue = [];
        delete state.machines[group.acts].held[pid];
    },
    7(state, group, pid) {
        const { to } = knownOf(state, group.acts, pid, LEAVING);
        if (to === null) {
            throw new Unfolded(`no machine was asked to take ${pid}`);
        }
        // until step 8 it stands where it comes
        Object.assign(processOf(state, pid), { at: to, place: ARRIVING });
        state.machines[group.acts].known[pid] = { is: GONE_ON, to };
    },
    8(state, group, pid) {
        goesOn(state, group.acts, pid);
    },
};

const LINES = {
    idle() {},
    none() {},
    nochild() {},
    away() {},
    nocall() {},
    lacks() {},
    resent() {},
    old() {},
    early() {},
    proto() {},
    here() {},
    nomove() {},
    stale() {},
    acked() {},
    asked() {},
    answered() {},
    took() {},
    nospace() {},
    updated() {},
    gone() {},
    forwarded() {},
    buried(state, group) {
        const { about } = messageOf(state, handled(group));
        group.about = about;
        delete state.machines[group.acts].known[about];
    },
    ran(state, group, [, pid, count]) {
        speaks(state, group, pid, "ready", `ran ${count}`);
    },
    call(state, group, [, pid, number, code]) {
        speaks(state, group, pid, "ready", `call ${number}: ${code}`);
    },
    send(state, group, [, pid, id]) {
        speaks(state, group, pid, "ready", `sent ${id}`);
    },
    wait(state, group, [, pid]) {
        speaks(state, group, pid, "waiting", "receives");
    },
    out(state, group, [, pid, word]) {
        speaks(state, group, pid, "ready", `out ${word}`);
        state.outputs.push([state.groups + 1, pid, Number(word)]);
    },
    receive(state, group, [, pid, id]) {
        without(processOf(state, pid).queue, id);
        speaks(state, group, pid, "ready", `received ${id}`);
    },
    refuse(state, group, [, pid, id, code]) {
        speaks(state, group, pid, "ready", `refused ${id}: ${code}`);
    },
    end(state, group, [, pid, why]) {
        speaks(state, group, pid, "ended", "");
        ends(state, group, pid, Number(why));
    },
    put(state, group, [, a, b, id, kind, to]) {
        const known = state.messages[id];
        state.messages[id] = { kind, to, about: known === undefined ? group.about : known.about };
        if (a === b) {
            state.machines[Number(a)].inbox.push(id);
        } else {
            pairOf(state, a, b).given.push(id);
        }
        if (kind === "ask") {
            knownOf(state, Number(a), group.moves, LEAVING).to = Number(b);
        }
        if (REQUESTS.includes(kind) && senderOf(id) in state.processes && !id.endsWith("!") && senderOf(id) === group.spoke) {
            state.processes[senderOf(id)].status = "moving data";
        }
    },
    packet(state, group, [, a, b, number, kind, count]) {
        const { wire, given } = pairOf(state, a, b);
        if (Number(number) !== wire.length) {
            throw new Unfolded(`the next packet from ${a} to ${b} is number ${wire.length}`);
        }
        if (kind === "data" && Number(count) >= given.length) {
            throw new Unfolded(`no message ${count} was put from ${a} to ${b}`);
        }
        wire.push({ kind, count: Number(count), delivered: 0 });
    },
    taken(state, group, [, a, b, number]) {
        const pair = pairOf(state, a, b);
        if (Number(number) >= pair.given.length) {
            throw new Unfolded(`no message ${number} was put from ${a} to ${b}`);
        }
        state.machines[Number(b)].inbox.push(pair.given[Number(number)]);
        pair.taken = Number(number) + 1;
    },
    queued(state, group, [, id]) {
        processOf(state, messageOf(state, id).to).queue.push(id);
    },
    held(state, group, [, id]) {
        const { held } = state.machines[group.acts];
        const { to } = messageOf(state, id);
        held[to] = held[to] ?? [];
        held[to].push(id);
    },
    dropped(state, group, [, id]) {
        const process = state.processes[group.ended];
        if (process !== undefined) {
            without(process.queue, id);
        }
    },
    served(state, group, [, id]) {
        const { kind, to } = messageOf(state, id);
        const process = state.processes[to];
        if (process === undefined) {
            return;
        }
        if (kind === "kill") {
            ends(state, group, to, 5);
        } else if (kind === "stop" || kind === "resume") {
            process.stopped = kind === "stop";
        } else if (ANSWERS.includes(kind)) {
            // unless a further request goes out: then the put says so
            group.spoke = to;
            process.status = "ready";
        }
    },
    created(state, group, [, , pid]) {
        makeProcess(state, pid, group.acts, "ready");
    },
    step(state, group, [, number, pid]) {
        group.moves = pid;
        if (!Object.hasOwn(STEPS, number)) {
            throw new Unfolded(`there is no step ${number}`);
        }
        STEPS[number](state, group, pid);
    },
    stays(state, group, [, pid]) {
        goesOn(state, group.acts, pid);
    },
    called(state, group, [, pid]) {
        const machine = state.machines[group.acts];
        const { from } = knownOf(state, group.acts, pid, ARRIVING);
        delete machine.held[pid];
        machine.known[pid] = { is: GONE_ON, to: from };
    },
};

// What differs between a state and the lines at the end: a list of sentences, empty where both agree.
function differences(state, lines) {
    const wrong = [];
    const told = { process: {}, queue: {}, holding: {}, inbox: {}, stream: {} };
    for (const pid of Object.keys(SERVER_NAMES)) {
        told.process[pid] = ["at", "0", HERE, "server", "go", ""];
    }
    for (const line of lines) {
        const words = line.split(" ");
        if (words[0] === "process") {
            told.process[words[1]] = words.slice(2);
        } else if (words[0] === "place") {
            told.process[words[1]] = [...words.slice(2), "server", "go", ""];
        } else if (words[0] === "queue" || words[0] === "inbox") {
            told[words[0]][words[1]] = words.slice(2).join(" ");
        } else if (words[0] === "holding" || words[0] === "stream") {
            told[words[0]][`${words[1]} ${words[2]}`] = words.slice(3).join(" ");
        } else if (words[0] === "end" && Number(words[1]) !== state.groups) {
            wrong.push(`${state.groups} groups, and the line says: ${line}`);
        }
    }
    compareProcesses(state, told.process, wrong);
    compareLists("queue", queues(state), told.queue, wrong);
    compareLists("holding", holdings(state), told.holding, wrong);
    compareLists("inbox", inboxes(state), told.inbox, wrong);
    compareLists("stream", streams(state), told.stream, wrong);
    return wrong;
}

function compareProcesses(state, told, wrong) {
    for (const pid of Object.keys({ ...state.processes, ...told })) {
        const process = state.processes[pid];
        const words = told[pid];
        if (process === undefined || words === undefined) {
            wrong.push(`process ${pid}: ${process === undefined ? "not on this page" : "not among the lines at the end"}`);
            continue;
        }
        const folded = folds(process);
        if (told_as(words) !== folded) {
            wrong.push(`process ${pid}: ${folded}, and the line says: ${told_as(words)}`);
        }
    }
}

function folds(process) {
    if (process.ended !== null) {
        return `ended ${process.ended}`;
    }
    return `at ${process.at} ${process.place} ${process.status} ${process.stopped ? "stopped" : "go"}`;
}

// `ended W`, or `at M PLACE STATUS .. GO SENT` without the numbers of the status and the count of sends.
function told_as(words) {
    if (words[0] === "ended") {
        return `ended ${words[1]}`;
    }
    const status = words[3] === "moving" ? "moving data" : words[3];
    return `at ${words[1]} ${words[2]} ${status} ${words[words.length - 2]}`;
}

function compareLists(word, folded, told, wrong) {
    for (const key of Object.keys({ ...folded, ...told })) {
        if ((folded[key] ?? "") !== (told[key] ?? "")) {
            wrong.push(`${word} ${key}: ${folded[key] ?? "nothing"}, and the line says: ${told[key] ?? "nothing"}`);
        }
    }
}

function queues(state) {
    const found = {};
    for (const [pid, process] of Object.entries(state.processes)) {
        if (process.queue.length > 0) {
            found[pid] = process.queue.join(" ");
        }
    }
    return found;
}

function holdings(state) {
    const found = {};
    state.machines.forEach((machine, m) => {
        for (const [pid, ids] of Object.entries(machine.held)) {
            if (ids.length > 0) {
                found[`${m} ${pid}`] = ids.join(" ");
            }
        }
    });
    return found;
}

function inboxes(state) {
    const found = {};
    state.machines.forEach((machine, m) => {
        if (machine.inbox.length > 0) {
            found[m] = machine.inbox.join(" ");
        }
    });
    return found;
}

function streams(state) {
    const found = {};
    for (const [key, pair] of Object.entries(state.pairs)) {
        if (pair.taken < pair.given.length) {
            found[key] = pair.given.slice(pair.taken).join(" ");
        }
    }
    return found;
}

if (typeof module !== "undefined") {
    module.exports = { parse, namesOf, atStart, machineCount, firstState, foldGroup, differences };
}
