"""What viewer/check tries the page with beside good traces: traces at fault, examples torn at random, and bugs of the page."""

import re

STOPS = ": what stands from here on isn't shown"
SENT = "turn 0\nsend 0.3 0.3#0\nput 0 2 0.3#0 user 2.3\n"
DRILL = """turn 0
ran 0.3 3
send 0.3 0.3#0
put 0 1 0.3#0 user 1.3
packet 0 1 0 data 0
turn 1
ran 1.3 3
send 1.3 1.3#0
put 1 0 1.3#0 user 0.4
packet 1 0 0 data 0
drill 0 2 1
groups 2
quiet no
"""


def at(number, line, why):
    return f"line {number}: {line}\n{why}{STOPS}"


# Each trace at fault: what it is, the trace, what the page must say at its head, and how many groups it shows.
AT_FAULT = [
    ("a put left out", "turn 0\nran 0.3 2\nsend 0.3 0.3#0\nturn 0\nqueued 0.3#0\nturn 0\nidle 0\n", at(5, "queued 0.3#0", "no line before has put 0.3#0"), 2),
    ("a line that is none", "turn 0\nidle 0\nhop 0\nturn 0\nidle 0\n", at(3, "hop 0", "no such line"), 1),
    ("a line that is a word of the script", "turn 0\nconstructor 1\n", at(2, "constructor 1", "no such line"), 1),
    ("a drill with what it counted", DRILL, at(11, "drill 0 2 1", "no such line"), 2),
    ("a first line that is no head", "ran 0.3 2\nturn 0\n", at(1, "ran 0.3 2", "no head of a group stands before it"), 0),
    ("behind an empty line", "turn 0\n\nhop\n", at(3, "hop", "no such line"), 1),
    ("a machine that there can't be", "turn 0\nidle 0\nturn 16\nidle 16\n", at(3, "turn 16", "there is no machine 16"), 1),
    ("a machine of many digits", "turn 99999999999999999999\n", at(1, "turn 99999999999999999999", "there is no machine 99999999999999999999"), 0),
    ("a word that is missing", "turn 0\nran 0.3\n", at(2, "ran 0.3", "the line ran has 2 more words, not 1"), 1),
    ("a word that is empty", "turn 0\nran 0.3 \n", at(2, "ran 0.3 ", "a number must stand where nothing stands"), 1),
    ("a number that is none", "turn 0\nran 0.3 x\n", at(2, "ran 0.3 x", "a number must stand where x stands"), 1),
    ("a process that is none", "turn 0\nwait 0\n", at(2, "wait 0", "a process must stand where 0 stands"), 1),
    ("a message for nobody", "turn 0\nsend 0.3 0.3#0\nput 0 0 0.3#0 user 0.9\nturn 0\nqueued 0.3#0\n", at(5, "queued 0.3#0", "there is no process 0.9"), 2),
    ("a packet out of its turn", SENT + "packet 0 2 7 data 0\n", at(4, "packet 0 2 7 data 0", "the next packet from 0 to 2 is number 0"), 1),
    ("a packet of no message", SENT + "packet 0 2 0 data 1\n", at(4, "packet 0 2 0 data 1", "no message 1 was put from 0 to 2"), 1),
    ("a message that wasn't put is taken", "deliver 0 1 0\ntaken 0 1 0\n", at(2, "taken 0 1 0", "no message 0 was put from 0 to 1"), 1),
    ("a step that there isn't", "turn 0\nstep 9 0.3\n", at(2, "step 9 0.3", "there is no step 9"), 1),
    ("who isn't frozen leaves", "turn 0\nstep 7 0.3\n", at(2, "step 7 0.3", "on machine 0 process 0.3 is here"), 1),
    ("who leaves for nowhere", "turn 0\nstep 1 0.3\nstep 7 0.3\n", at(3, "step 7 0.3", "no machine was asked to take 0.3"), 1),
    ("who isn't known comes", "turn 0\nidle 0\nturn 1\nstep 5 0.3\n", at(4, "step 5 0.3", "on machine 1 process 0.3 is unknown"), 2),
    ("a group that handles nothing", "turn 0\nstep 3 0.3\n", at(2, "step 3 0.3", "this group handles no message"), 1),
    ("a long line", "turn 0\n" + "h" * 200 + "\n", at(2, "h" * 95 + "..", "no such line"), 1),
    ("an empty file", "", "this file has no group: there is nothing to show", 0),
    ("a file of empty lines", "\n\n", "this file has no group: there is nothing to show", 0),
]


def torn(trace, drawn):
    """A trace to which something was done, once to three times, that no system does."""
    lines = trace.splitlines()
    for _ in range(drawn.randint(1, 3)):
        place, other = drawn.randrange(len(lines)), drawn.randrange(len(lines))
        ways = {
            "left out": lambda: lines.pop(place) and None,
            "twice": lambda: lines.insert(place, lines[other]),
            "changed places": lambda: lines.__setitem__(slice(None), [*lines[:place], *reversed(lines[place : place + 2]), *lines[place + 2 :]]),
            "another number": lambda: lines.__setitem__(place, re.sub(r"\d+", lambda found: drawn.choice([found[0], str(drawn.randrange(20))]), lines[place])),
            "a word less": lambda: lines.__setitem__(place, lines[place].rpartition(" ")[0] or "?"),
            "junk": lambda: lines.insert(place, drawn.choice(["", " ", "hop 0", "final", "turn", "put 0 0", "packet 0 1 0 data 0", "process x at 3", "</pre>", "\u00e4"])),
            "cut off": lambda: lines.__delitem__(slice(max(1, place), None)),
        }
        ways[drawn.choice(sorted(ways))]()
    return "\n".join(lines) + drawn.choice(["", "\n"])


HOP = ("turn 0\nidle 0\nturn 0\nhop 0\n", {"words": at(4, "hop 0", "no such line"), "groups": 2})
EMPTY = ("", {"words": "this file has no group: there is nothing to show", "groups": 0})
# Each bug of the page: how what is said of it begins, the example that is shown, or a trace and what must be told of it, and the bug: in
# which script, which text, and what stands in its place.
BUGS = [
    # keys
    ("begins before the first group", "move", None, ("page", "go(Number(location.hash.slice(1)) || 0);", "go(1);")),
    ("the right arrow goes a group on", "move", None, ("page", "page.at + (event.shiftKey ? 10 : 1)", "page.at + (event.shiftKey ? 10 : 2)")),
    ("shift and the right arrow go ten groups on", "move", None, ("page", "page.at + (event.shiftKey ? 10 : 1)", "page.at + 1")),
    ("the left arrow goes one group back", "move", None, ("page", "page.at - (event.shiftKey ? 10 : 1)", "page.at - (event.shiftKey ? 10 : 2)")),
    ("shift and the left arrow go ten groups back", "move", None, ("page", "page.at - (event.shiftKey ? 10 : 1)", "page.at - 1")),
    ("the left arrow goes a group back", "move", None, ("page", "    ArrowLeft: (event) =>", "    Left: (event) =>")),
    ("there is nothing before the beginning", "move", None, ("page", "Math.max(0, Math.min(trace.groups.length, count))", "(Math.min(trace.groups.length, count) + trace.groups.length + 1) % (trace.groups.length + 1)")),
    ("End goes to the end", "move", None, ("page", "    End: () => go(trace.groups.length),", "    End: () => go(trace.groups.length - 1),")),
    ("Home goes to the beginning", "move", None, ("page", "    Home: () => go(0),", "    Home: () => go(1),")),
    ("the slider goes where it is put", "move", None, ("page", 'byId("slider").addEventListener("input"', 'byId("slider").addEventListener("keydown"')),
    ("the lines shown are those of the group", "move", None, ("page", "const now = g + 1 === page.at;", "const now = g === page.at;")),
    # buttons
    ("the button first goes", "move", None, ("page", 'byId("first").addEventListener("click", () => go(0));', "")),
    ("the button last goes", "move", None, ("page", 'byId("last").addEventListener("click", () => go(trace.groups.length));', "")),
    ("the button forward goes", "move", None, ("page", 'byId("forward").addEventListener("click", () => go(page.at + 1));', "")),
    ("the button back goes", "move", None, ("page", 'byId("back").addEventListener("click", () => go(page.at - 1));', "")),
    # back and forth
    ("group ", "move", None, ("page", "state.groups > count)", "state.groups > count + 1)")),
    # what stands at the end
    ("the packets that were never delivered are shown", "network", None, ("page", "packet.delivered === 0", "packet.delivered < 2")),
    ("what a process put out is shown", "hi", None, ("page", 'words.slice(-LARGE).join(" ")', 'words.slice(1).join(" ")')),
    ("what a process put out is shown", "hi", None, ("page", "word >= 32 && word < 127", "word >= 127")),
    ("no machine knows of a process that has ended", "buried", None, ("fold", "        delete state.machines[group.acts].known[about];\n", "")),
    # what is held
    ("what was held for", "move", None, ("fold", "machine.inbox.unshift(...(machine.held[pid] ?? []));", "machine.inbox.push();")),
    ("nothing is held for", "move", None, ("fold", "    delete machine.held[pid];\n    machine.known[pid] = { is: HERE };", "    machine.known[pid] = { is: HERE };")),
    # machines and packets
    ("the machines of", "hi", ("turn 0\nran 0.3 4\nsend 0.3 0.3#0\nput 0 2 0.3#0 user 2.3\n", None), ("fold", '["deliver", "put", "packet", "stream"].includes(words[0])', '["deliver"].includes(words[0])')),
    ("the packets under way behind group", "network", None, ("page", "packetChip(pair, packet, number))", "packetChip(pair, packet, number + 1))")),
    ("the packets under way behind group", "swap", None, ("page", "return x[0] - y[0] || x[1] - y[1];", "return y[0] - x[0] || x[1] - y[1];")),
    # search
    ("a line is found exactly where there is one", "move", None, ("page", "page.found = { group: g, line };", "page.found = null;")),
    ("the line that is found has the word", "move", None, ("page", "page.found = { group: g, line };", "page.found = { group: g, line: 0 };")),
    ("the next one stands behind it", "move", None, ("page", "    n: () => seek(1),\n", "")),
    ("the one before it is the first", "move", None, ("page", "    p: () => seek(-1),\n", "")),
    ("the button next goes where n does", "move", None, ("page", 'byId("next").addEventListener("click", () => seek(1));', "")),
    ("the button before goes where p does", "move", None, ("page", 'byId("previous").addEventListener("click", () => seek(-1));', "")),
    ("a part of a word isn't found", "move", None, ("page", "` ${each} `.includes(` ${words} `)", "each.includes(words)")),
    ("that there is no such line is told", "move", None, ("page", 'byId("place").textContent = `no ', 'byId("place").title = `no ')),
    # following
    ("a message that is clicked on has a colour", "move", None, ("page", 'element.classList.toggle("followed", what === page.followed);', "")),
    ("and nothing else has it", "move", None, ("page", 'toggle("followed", what === page.followed);', 'toggle("followed", page.followed !== "");')),
    ("its name is told", "move", None, ("page", '    byId("follow").value = what;\n', "")),
    ("Escape lets it go", "move", None, ("page", '    Escape: () => follow(""),\n', "")),
    ("what is written there is followed", "move", None, ("page", 'byId("follow").addEventListener("change", (event) => follow(event.target.value.trim()));', "")),
    ("the button lets it go", "move", None, ("page", 'byId("unfollow").addEventListener("click", () => follow(""));', "")),
    # scripts, and the lines at the end
    ("its scripts are at fault", "move", None, ("page", 'replace("outputs", outputs());', 'replace("outputs", outputs(state.none.none));')),
    ("this page is wrong: at its end", "move", None, ("fold", "    process.status = status;\n", "")),
    # lines at fault
    ("it says", "hi", HOP, ("fold", 'throw new Unfolded("no such line");', 'throw new Unfolded("so not");')),
    ("its scripts are at fault", "hi", HOP, ("page", "    foldAll();\n", "")),
    ("it has 1 groups, not 2", "hi", HOP, ("page", "trace.groups.length = group + (place > 0 ? 1 : 0);", "trace.groups.length = group;")),
    ("it says so in red", "hi", HOP, ("page", "from here on isn't shown`;\n        place.className = \"differs\";", "from here on isn't shown`;")),
    ("the line at fault stands behind the others", "hi", HOP, ("page", 'made("div", "group fault", shortened(page.fault.line))', 'made("div", "group fault", "")')),
    ("it says", "hi", EMPTY, ("page", "this file has no group: there is nothing to show", "no lines at the end")),
    ("it says something at its head", "hi", ("turn 0\nhop\n", {}), ("page", "line ${number}: ${shortened(line)}\\n${why}: what stands from here on isn't shown", "")),
]
