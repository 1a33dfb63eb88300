"""Checking a trace (docs/FORMATS.md, "Checking a trace" and "Printed lines")."""

import re

from ends import end_lines
from values import Pid
from world import World, Worn

KINDS = (
    "user stop resume kill read write block written gone create created noroom migrate update ask refuse pullstate state"
    " pullblock memory alltaken restart move moved calloff bury"
).split()

# What stands in a line: M a machine or home, N a number, K a packet's number, G a number of groups, P a process, I a message,
# I.. one or more messages, L a link, H bytes whose last isn't 0, B the bytes of a name, T a kind.
SHAPES = """
turn M|tick M|deliver M M K|migrate P M|calloff P M|idle M|ran P N|call P N N|send P I|wait P|out P N|end P N|receive P I|refuse P I N
put M M I T P|packet M M K data N|packet M M K ack N|taken M M N|old M M N|early M M N|acked M M N|none|resent M N
queued I|held I|forwarded I M|dropped I|served I|gone I|took I|created I P|nospace I N N|updated I N
step 1 P|step 2 P|step 3 P|step 4 P|step 5 P|step 6 P N|step 7 P|step 8 P|lacks P N N|stays P|called P N|nocall P|stale I|buried I N|here I|nomove I|proto I|nochild P|away
asked I|answered I N
final|process P ended N|registers P N N N N N N N N N N N N N N N N N|memory P N H|link P N L|server P N|place P at M here|place P at M leaving|place P at M arriving|name B L
child N P at M|pending I|queue P I..|holding M P I..|inbox M I..|stream M M I..|end G
"""
PLACES = ("here", "leaving", "arriving")
STATUSES = ("ready", "waiting N N N", "moving 0 P N N N", "moving 1 P N N N")
LINK = r"(?:general|reply) {P} at {M} moves {N} code {N} channel {N} area {N} {N} (?:-|r|w|rw)"
NUMBER = r"(?:0|[1-9][0-9]*)"
SORTS = {"M": NUMBER, "N": NUMBER, "K": NUMBER, "G": NUMBER}
SORTS["P"] = rf"{NUMBER}\.{NUMBER}"
SORTS["I"] = rf"{NUMBER}\.{NUMBER}#{NUMBER}!?"
SORTS["I.."] = rf"{SORTS['I']}(?: {SORTS['I']})*"
SORTS["L"] = LINK.format(**SORTS)
SORTS["H"] = r"(?:[0-9a-f]{2}){0,255}(?:[0-9a-f][1-9a-f]|[1-9a-f]0)"
SORTS["B"] = r"(?:[0-9a-f]{2}){1,16}"
SORTS["T"] = "(?:" + "|".join(KINDS) + ")"
LIMITS = {"M": 2**8, "N": 2**32, "K": 2**64, "G": 2**128}


class Refused(Exception):
    """The first bad line, from 1, and why it is bad; what is told of it in words."""

    def __init__(self, line, why, words=()):
        super().__init__(f"trace refused: line {line}, why {why}")
        self.words = words


def shapes():
    """Every shape, as its words."""
    for shape in re.split(r"[|\n]", SHAPES.strip()):
        yield shape.split(" ")
    for place in PLACES:
        for status in STATUSES:
            for go in ("go", "stopped"):
                yield f"process P at M {place} {status} {go} N".split(" ")


def pattern_of(words):
    return re.compile(" ".join(SORTS.get(word, re.escape(word)) for word in words))


def numbers_of(words):
    """The sorts of the numbers of a shape, in order; with a list at its end, those of one more message again and again."""
    sorts = []
    for word in words:
        if word in LIMITS:
            sorts.append(word)
        elif word == "P":
            sorts += ["M", "N"]
        elif word in ("I", "I.."):
            sorts += ["M", "N", "N"]
        elif word == "L":
            sorts += ["M", "N", "M"] + ["N"] * 5
        elif word.isdigit():
            sorts.append("N")
    return sorts


TABLE = {}
for _words in shapes():
    TABLE.setdefault(_words[0], []).append((pattern_of(_words), numbers_of(_words)))


def is_line(line):
    """Whether it is a line of the format, by its words alone."""
    for pattern, sorts in TABLE.get(line.split(" ")[0], []):
        if pattern.fullmatch(line):
            words = [word for word in line.split(" ") if word[0].isdigit()]
            if line.startswith(("memory", "name")):
                words = [word for place, word in enumerate(line.split(" ")) if place != (3 if line.startswith("memory") else 1)]
            found = [int(number) for word in words for number in re.findall(r"[0-9]+", word)]
            sorts = sorts + ["M", "N", "N"] * len(found)  # for the further messages of a list
            if all(number < LIMITS[sort] for number, sort in zip(found, sorts)):
                return True
    return False


# The heads, and how what a schedule can't hold is found.


def directive_of(line, machines):
    """The directive that a line is the head of, or None where it is the head of none that a schedule can hold."""
    word, *operands = line.split(" ")
    if word in ("turn", "tick"):
        operands = [int(operands[0])]
        fits = operands[0] < machines
    elif word == "deliver":
        operands = [int(operand) for operand in operands]
        fits = operands[0] < machines and operands[1] < machines and operands[0] != operands[1]
    elif word in ("migrate", "calloff"):
        pid = Pid(*map(int, operands[0].split(".")))
        operands = [pid, int(operands[1])]
        fits = pid.home < machines and operands[1] < machines
    else:
        return None
    return (word, operands) if fits else None


# What may stand in place of a line that is due, and is then told as what no process does.

DOINGS = ("call", "send", "wait", "out", "end")


def sort_of(line):
    """What two lines of one sort have alike."""
    words = line.split(" ")
    if words[0] in DOINGS and "." in words[1]:
        return "doing", words[1]
    if words[0] in ("receive", "refuse"):
        return "receiving", words[1], words[2]
    if words[0] == "created":
        return "created", words[1]
    return None


WHYS = {1: "not a line", 2: "not the line that is due", 3: "not what the process does", 4: "not where everything stands"}
LONGEST_SHOWN = 95
BETWEEN = "a head, or final"


def shown(line):
    """A line as it is told: what isn't printed as `?`, and no more than its first bytes."""
    text = "".join(chr(byte) if 32 <= byte <= 126 else "?" for byte in line)
    return text if len(text) <= LONGEST_SHOWN else text[:LONGEST_SHOWN] + ".."


class Judge:
    def __init__(self, boot, data):
        self.boot = boot
        self.due = BETWEEN  # what is told as due, and the group where it is
        self.where = None
        self.group = []
        self.world = World(boot, self.group.extend)
        self.lines = data.split(b"\n")
        self.last = self.lines.pop()
        self.unended = bool(self.last)  # the last line has no line feed
        self.at = 0

    def refuse(self, why):
        """Refuses the line that was taken last, or the one behind the text."""
        if self.at <= len(self.lines):
            line = shown(self.lines[self.at - 1])
        else:
            line = shown(self.last) if self.unended else "the text ends"
        words = [f"line {self.at}: {line}", f"{WHYS[why]} (why {why})", f"due: {self.due}"]
        raise Refused(self.at, why, words + ([f"group: {self.where}"] if self.where else []))

    def at_line(self):
        """The line that was taken last, with its number."""
        return f"line {self.at}, {self.lines[self.at - 1].decode('latin-1')}"

    def take(self, ended_why):
        """The next line, which is one of the format; the text's end is at fault by this rule."""
        self.at += 1
        if self.at > len(self.lines):
            self.refuse(1 if self.unended else ended_why)
        line = self.lines[self.at - 1].decode("latin-1")
        if not is_line(line):
            self.refuse(1)
        return line

    def is_over(self):
        return self.at == len(self.lines) and not self.unended

    def verdict(self):
        while not self.is_over():
            self.due, self.where = BETWEEN, None
            head = self.take(2)
            if head == "final":
                self.judge_end()
                return f"good {self.world.groups} ended"
            directive = directive_of(head, len(self.boot.machines))
            if directive is None:
                self.refuse(2)
            self.group.clear()
            try:
                self.world.do(directive)
            except Worn as worn:
                self.due, self.where = f"no group, the pair {worn.a} {worn.b} is worn", self.at_line()
                self.refuse(2)
            self.where = self.at_line()
            self.judge_group(self.group[1:])
        return f"good {self.world.groups} open"

    def judge_group(self, due_lines):
        for due in due_lines:
            self.due = due
            line = self.take(2)
            if line == due:
                continue
            if line.split(" ")[0] == due.split(" ")[0] == "ran" and line.split(" ")[1] == due.split(" ")[1]:
                self.judge_ran(int(line.split(" ")[2]), int(due.split(" ")[2]), line.split(" ")[1])
            self.refuse(3 if sort_of(due) is not None and sort_of(line) == sort_of(due) else 2)

    def judge_ran(self, count, due, pid):
        """Refuses a line that has another number of instructions, or the line behind it."""
        if count > due:
            self.refuse(3 if count <= self.boot.quantum else 2)
        self.due = f"line {self.at}, {self.due}"
        self.refuse(3 if sort_of(self.take(2)) == ("doing", pid) else 2)

    def judge_end(self):
        for due in end_lines(self.world)[1:]:
            self.due = due
            if self.take(4) != due:
                self.refuse(4)
        self.due = "nothing"
        if not self.is_over():
            self.take(4)
            self.refuse(4)


def check(boot, data):
    """The verdict on a trace."""
    return Judge(boot, data).verdict()
