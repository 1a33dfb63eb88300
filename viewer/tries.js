// What viewer/check has the browser do with each page: a page is written into a frame of its own, and its keys are pressed.
"use strict";

const HEAD = /^(turn|tick|deliver|migrate|calloff) /;
const LARGE = 40; // no list on the page is longer

// A frame with the page in it, and what was wrong in its scripts.
function opened(html) {
    const frame = document.createElement("iframe");
    frame.width = 1300;
    document.body.append(frame);
    const faults = [];
    frame.contentDocument.open();
    frame.contentWindow.onerror = (words) => {
        faults.push(String(words));
        return true;
    };
    frame.contentDocument.write(html);
    frame.contentDocument.close();
    return { frame, faults, window: frame.contentWindow, document: frame.contentDocument };
}

function press(tried, key, shiftKey = false) {
    tried.document.body.dispatchEvent(new tried.window.KeyboardEvent("keydown", { key, shiftKey, bubbles: true, cancelable: true }));
}

function at(tried) {
    return Number(tried.document.body.dataset.at);
}

function count(tried) {
    return Number(tried.document.getElementById("slider").max);
}

// The keys and the slider.
function triesKeys(tried, must) {
    const all = count(tried);
    must(at(tried) === 0, "begins before the first group");
    press(tried, "ArrowRight");
    must(at(tried) === Math.min(1, all), "the right arrow goes a group on");
    press(tried, "ArrowLeft");
    must(at(tried) === 0, "the left arrow goes a group back");
    slide(tried, Math.min(3, all));
    press(tried, "ArrowLeft");
    must(at(tried) === Math.max(0, Math.min(3, all) - 1), "the left arrow goes one group back");
    press(tried, "Home");
    press(tried, "ArrowLeft");
    must(at(tried) === 0, "there is nothing before the beginning");
    press(tried, "ArrowRight", true);
    must(at(tried) === Math.min(10, all), "shift and the right arrow go ten groups on");
    press(tried, "End");
    must(at(tried) === all, "End goes to the end");
    press(tried, "ArrowLeft", true);
    must(at(tried) === Math.max(0, all - 10), "shift and the left arrow go ten groups back");
    press(tried, "End");
    press(tried, "ArrowRight");
    must(at(tried) === all, "there is nothing behind the end");
    press(tried, "Home");
    must(at(tried) === 0, "Home goes to the beginning");
    const slider = tried.document.getElementById("slider");
    slider.value = Math.floor(all / 2);
    slider.dispatchEvent(new tried.window.Event("input", { bubbles: true }));
    must(at(tried) === Math.floor(all / 2), "the slider goes where it is put");
    const shown = tried.document.querySelector("#lines .now .number");
    must(at(tried) === 0 || shown.textContent === String(at(tried)), "the lines shown are those of the group");
}

// The buttons that go from group to group.
function triesButtons(tried, must) {
    const all = count(tried);
    for (const [id, from, to] of [["first", all, 0], ["last", 0, all], ["forward", 0, Math.min(1, all)], ["back", all, Math.max(0, all - 1)]]) {
        slide(tried, from);
        tried.document.getElementById(id).click();
        must(at(tried) === to, `the button ${id} goes from group ${from} to ${to}`);
    }
}

// Goes to a group by the slider.
function slide(tried, group) {
    const slider = tried.document.getElementById("slider");
    slider.value = group;
    slider.dispatchEvent(new tried.window.Event("input", { bubbles: true }));
}

// What stands on the page is the same whether one came forward to it or went back, step by step or at once.
function triesBack(tried, must) {
    const all = count(tried);
    const middle = Math.floor(all / 2);
    const look = () => tried.document.getElementById("system").textContent;
    const seen = new Map();
    press(tried, "Home");
    for (let g = 1; g <= all; g++) {
        press(tried, "ArrowRight");
        if ([1, middle, 255, 256, 257, all - 1].includes(g)) {
            seen.set(g, look());
        }
    }
    for (let g = all; g > middle; g--) {
        press(tried, "ArrowLeft");
        must(!seen.has(g - 1) || look() === seen.get(g - 1), `group ${g - 1} looks the same from both sides`);
    }
    for (const [g, looked] of seen) {
        press(tried, "End");
        slide(tried, g);
        must(look() === looked, `group ${g} looks the same where one comes from the end`);
    }
}

// What the lines say of packets, of output and of processes that have ended is what the page has at its end.
function triesEnd(tried, must) {
    const lines = tried.document.getElementById("trace").textContent.split("\n").map((line) => line.split(" "));
    press(tried, "End");
    const open = {};
    const said = {};
    for (const [word, a, b, c] of lines) {
        if (word === "packet") {
            open[`${a} ${b}`] = (open[`${a} ${b}`] ?? new Set()).add(c);
        } else if (word === "deliver") {
            open[`${a} ${b}`]?.delete(c);
        } else if (word === "out") {
            said[a] = [...(said[a] ?? []), Number(b)];
        }
    }
    const packets = tried.document.querySelectorAll("#packets .packet").length;
    must(packets === Object.values(open).reduce((sum, each) => sum + Math.min(each.size, LARGE), 0), "the packets that were never delivered are shown");
    const outputs = tried.document.getElementById("outputs").textContent;
    for (const words of Object.values(said)) {
        const letters = words.every((word) => word >= 32 && word < 127) ? ` = "${words.map((word) => String.fromCharCode(word)).join("")}"` : "";
        must(outputs.includes(`: ${words.slice(-LARGE).join(" ")}${letters}`), "what a process put out is shown");
    }
    const rows = [...tried.document.querySelectorAll("#system .row .word")].map((word) => word.textContent);
    if (!rows.includes("inbox") && !rows.includes("not taken")) {
        const pids = (name) => [...tried.document.querySelectorAll(`#machines .process.${name}`)].map((card) => card.dataset.what);
        const ended = pids("ended");
        must(pids("gone-on").every((pid) => !ended.includes(pid)), "no machine knows of a process that has ended, where nothing is on its way");
    }
}

// The messages in a row of a card, as far as the page shows them.
function rowOf(card, word) {
    const row = [...(card?.children ?? [])].find((each) => each.querySelector(":scope > .word")?.textContent === word);
    return [...(row?.querySelectorAll(".id") ?? [])].map((chip) => chip.dataset.what);
}

// What was held for a process that goes on stands first in the inbox there, in its order, and is held no more.
function triesHeld(tried, must) {
    const card = (m, pid) => [...tried.document.querySelectorAll(`#machines .machine[data-machine="${m}"] .process`)].find((each) => each.dataset.what === pid);
    const inbox = (m) => rowOf(tried.document.querySelector(`#machines .machine[data-machine="${m}"]`), "inbox");
    let group = 0;
    let acts = 0;
    for (const line of tried.document.getElementById("trace").textContent.split("\n")) {
        const words = line.split(" ");
        if (HEAD.test(line)) {
            group += 1;
            acts = words[1];
        }
        const pid = { "step 8": words[2], stays: words[1] }[words[0] === "step" ? `step ${words[1]}` : words[0]];
        if (pid !== undefined) {
            slide(tried, group - 1);
            const held = rowOf(card(acts, pid), "held");
            slide(tried, group);
            must(held.every((id, place) => inbox(acts)[place] === id), `what was held for ${pid} stands in the inbox behind group ${group}`);
            must(rowOf(card(acts, pid), "held").length === 0, `nothing is held for ${pid} behind group ${group}`);
        }
    }
}

// What the lines up to a group say of the packets that are under way: the rows of the page, from pair to pair.
function packetRows(lines, groups) {
    const pairs = {};
    const pairOf = (a, b) => (pairs[`${a} ${b}`] = pairs[`${a} ${b}`] ?? { order: 100 * a + Number(b), given: [], open: new Map(), taken: 0 });
    let group = 0;
    for (const [word, a, b, c, d, e] of lines.map((line) => line.split(" "))) {
        group += HEAD.test(`${word} `);
        if (group > groups || word === "final") {
            break;
        }
        if (word === "put" && a !== b) {
            pairOf(a, b).given.push(c);
        } else if (word === "packet") {
            pairOf(a, b).open.set(Number(c), [d, Number(e)]);
        } else if (word === "deliver") {
            pairOf(a, b).open.delete(Number(c));
        } else if (word === "taken") {
            pairOf(a, b).taken = Number(c) + 1;
        }
    }
    const told = ({ given, open }) => [...open].sort(([x], [y]) => x - y).slice(0, LARGE)
        .map(([number, [kind, n]]) => (kind === "ack" ? `packet ${number}: ${n} have come` : `packet ${number}: message ${n}, ${given[n]}`));
    const rows = Object.entries(pairs).filter(([, { given, open, taken }]) => open.size > 0 || taken < given.length);
    return rows.sort(([, x], [, y]) => x.order - y.order).map(([key, pair]) => [key.replace(" ", " to "), ...told(pair)].join(", "));
}

// The packets under way are those of the lines, pair by pair.
function triesPackets(tried, must) {
    const lines = tried.document.getElementById("trace").textContent.split("\n");
    const all = count(tried);
    for (const group of [Math.floor(all / 3), Math.floor(all / 2), all]) {
        slide(tried, group);
        const rows = [...tried.document.querySelectorAll("#packets .pair")];
        const shown = rows.map((row) => [".from", ".packet"].flatMap((each) => [...row.querySelectorAll(each)].map((part) => part.textContent)).join(", "));
        must(shown.join("\n") === packetRows(lines, group).join("\n"), `the packets under way behind group ${group} are those of the lines`);
    }
}

// Each machine that a line routes something from or to is shown.
function triesMachines(tried, must) {
    const shown = tried.document.querySelectorAll("#machines .machine").length;
    for (const line of tried.document.getElementById("trace").textContent.split("\n")) {
        const words = line.split(" ");
        if (["put", "packet", "deliver"].includes(words[0])) {
            must(Math.max(Number(words[1]), Number(words[2])) < shown, `the machines of ${line} are shown`);
        }
    }
}

// How many groups put a message.
function groupsWithPut(lines) {
    let groups = 0;
    let put = false;
    for (const line of lines) {
        put = put && !HEAD.test(line);
        if (line.startsWith("put ") && !put) {
            put = true;
            groups += 1;
        }
    }
    return groups;
}

// The search.
function triesSearch(tried, must) {
    const find = tried.document.getElementById("find");
    const lines = tried.document.getElementById("trace").textContent.split("\n");
    press(tried, "Home");
    find.value = "put";
    find.dispatchEvent(new tried.window.KeyboardEvent("keydown", { key: "Enter", bubbles: true }));
    const found = tried.document.querySelector("#lines .found");
    const some = lines.some((line) => line.startsWith("put "));
    must(some === (found !== null), "a line is found exactly where there is one");
    if (found !== null) {
        must(found.textContent.startsWith("put "), "the line that is found has the word");
        must(found.closest(".group").classList.contains("now"), "the group that is shown has the line");
        must(lines.filter((line) => HEAD.test(line)).length === count(tried), "each group has its head");
        const first = at(tried);
        press(tried, "n");
        must((at(tried) > first) === (groupsWithPut(lines) > 1), "the next one stands behind it, where there is one");
        const second = at(tried);
        press(tried, "p");
        must(at(tried) === first, "the one before it is the first");
        tried.document.getElementById("next").click();
        must(at(tried) === second, "the button next goes where n does");
        tried.document.getElementById("previous").click();
        must(at(tried) === first, "the button before goes where p does");
    }
    // only whole words are found
    press(tried, "Home");
    find.value = "pu";
    find.dispatchEvent(new tried.window.KeyboardEvent("keydown", { key: "Enter", bubbles: true }));
    must(at(tried) === 0 && tried.document.querySelector("#lines .found") === null, "a part of a word isn't found");
    must(tried.document.getElementById("place").textContent === "no further line: pu", "that there is no such line is told");
    find.value = "";
}

// Following a message.
function triesFollow(tried, must) {
    press(tried, "Home");
    for (let g = 0; g < count(tried) && tried.document.querySelector(".id") === null; g++) {
        press(tried, "ArrowRight");
    }
    const chip = tried.document.querySelector(".id");
    if (chip === null) {
        return;
    }
    const what = chip.dataset.what;
    chip.click();
    const followed = [...tried.document.querySelectorAll(".followed")];
    must(followed.some((element) => element.dataset.what === what), "a message that is clicked on has a colour");
    must(followed.every((element) => element.dataset.what === what || element.textContent.includes(what)), "and nothing else has it");
    must(tried.document.getElementById("follow").value === what, "its name is told");
    press(tried, "Escape");
    must(tried.document.querySelectorAll(".followed").length === 0, "Escape lets it go");
    const follow = tried.document.getElementById("follow");
    follow.value = what;
    follow.dispatchEvent(new tried.window.Event("change", { bubbles: true }));
    must([...tried.document.querySelectorAll(".followed")].some((element) => element.dataset.what === what), "what is written there is followed");
    tried.document.getElementById("unfollow").click();
    must(tried.document.querySelectorAll(".followed").length === 0, "the button lets it go");
}

// A page of lines that can't all be folded: it says what is due, if that is known, and shows what stands before.
function triesFault(tried, must, { words, groups }) {
    const check = tried.document.getElementById("check");
    if (words !== undefined) {
        must(check.textContent === words, `it says ${check.textContent}, where ${words} is due`);
        must(check.classList.contains("differs"), "it says so in red");
        must(count(tried) === groups, `it has ${count(tried)} groups, not ${groups}`);
    }
    must(check.textContent !== "", "it says something at its head");
    must(tried.document.querySelectorAll("#machines .machine").length > 0, "it shows machines");
    if (tried.faults.length === 0) {
        [triesKeys, triesButtons, triesBack, triesFollow].forEach((each) => each(tried, must));
    }
    press(tried, "End");
    const shown = tried.document.querySelector("#lines .fault")?.textContent;
    must(words === undefined || !words.startsWith("line ") || words.includes(`: ${shown}\n`), "the line at fault stands behind the others");
    must(tried.faults.length === 0, `its scripts are at fault: ${tried.faults}`);
}

// What is wrong with a page, or nothing.
function tries({ html, wrong, told }) {
    const tried = opened(html);
    const missed = [];
    const must = (holds, words) => holds || missed.push(words);
    const check = tried.document.getElementById("check");
    const good = tried.faults.length === 0 && !check.classList.contains("differs");
    if (wrong) {
        must(!good, "this page is wrong, and doesn't say so");
    } else if (told !== null) {
        triesFault(tried, must, told);
    } else {
        must(tried.faults.length === 0, `its scripts are at fault: ${tried.faults}`);
        must(check.classList.contains("agrees") || check.textContent.startsWith("no lines at the end"), check.textContent);
        if (tried.faults.length === 0) {
            [triesKeys, triesButtons, triesBack, triesEnd, triesHeld, triesMachines, triesPackets, triesSearch, triesFollow].forEach((each) => each(tried, must));
        }
        must(tried.faults.length === 0, `its scripts are at fault: ${tried.faults}`);
    }
    tried.frame.remove();
    return missed;
}

const said = [];
const amounts = [0, 0, 0]; // good ones, those whose lines are at fault, those that are wrong on purpose
for (const each of PAGES) {
    for (const words of tries(each)) {
        said.push(`${each.name}: ${words}`.replaceAll("\n", " / "));
    }
    amounts[each.wrong ? 2 : each.told === null ? 0 : 1] += 1;
}
const amount = `${amounts[0]} pages, ${amounts[1]} whose lines are at fault, and ${amounts[2]} that are wrong on purpose`;
said.push(said.length === 0 ? `${amount}: all do as they should` : `${amount}: ${said.length} faults`);
document.getElementById("result").textContent = said.join("\n");
