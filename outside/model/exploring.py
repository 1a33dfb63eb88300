"""Every schedule within bounds (docs/EXPLORING.md): is there one in which a line is printed, or a process gets stuck?

A schedule is a list of directives, each a choice where the ones before it have led. Of all orders of directives that don't
meet just one is tried. Each is done from the boot file on."""

import contextlib
import re

from check import LIMITS, SHAPES, SORTS
from process import Moving, Waiting
from schedule import NUMBER, Wrong, number_of, pid_of
from values import MANAGER, SERVERS
from world import Here, World, Worn

# The lines of a group, as their words; what stands behind them in the table are lines at the end of a run.
GROUP_LINES = [shape.split(" ") for shape in re.split(r"[|\n]", SHAPES.partition("\nfinal|")[0].strip())]
FIRST_PROCESS = 3  # below are a kernel and the servers


class NotFound(Exception):
    """Everything within the bounds was tried."""

    def __init__(self):
        super().__init__("not found")


class Undecided(Exception):
    """More would be tried than may be."""

    def __init__(self):
        super().__init__("undecided")


class OutOfRange(Exception):
    """No schedule for this boot file could name this process or machine."""


class Bounds:
    def __init__(self, depth, most, moves, call_offs, ticks, repeats, acks):
        self.depth = depth
        self.most = most
        self.moves = moves  # pairs of a process and a machine, in the order given
        self.call_offs = call_offs
        self.ticks = ticks
        self.repeats = repeats
        self.acks = acks


def is_of(sort, word):
    """Whether a word of a line may stand where this sort does."""
    limits = {"P": ["M", "N"], "I": ["M", "N", "N"]}.get(sort, [sort] if sort in LIMITS else [])
    numbers = [int(number) for number in re.findall(r"[0-9]+", word)] if limits else []
    return re.fullmatch(SORTS.get(sort, re.escape(sort)), word, re.ASCII) is not None and all(number < LIMITS[limit] for number, limit in zip(numbers, limits))


def words_that_begin(shape, words):
    """With how many of these words a line of this shape may begin."""
    count = 0
    while count < min(len(shape), len(words)) and is_of(shape[count], words[count]):
        count += 1
    return count


def wrong_word(text):
    """The first word of a text with which no line of a group begins any more, if there is one."""
    words = text.split(" ")
    count = max(words_that_begin(shape, words) for shape in GROUP_LINES)
    return words[count] if count < len(words) else None


def is_text(text):
    """Whether a line of a group may begin with the words of a text, with one space between."""
    return wrong_word(text) is None


def looks_like_pid(word):
    return re.fullmatch(r"[0-9]{1,10}\.[0-9]{1,10}", word, re.ASCII) is not None


def may_be_stuck(word):
    """Whether a word names what may be a process: not a kernel, or a server, which never gets stuck."""
    return looks_like_pid(word) and int(word.partition(".")[2]) >= FIRST_PROCESS


def looks_like_move(word):
    pid, equals, machine = word.partition("=")
    return bool(equals) and looks_like_pid(pid) and NUMBER.fullmatch(machine.encode()) is not None


def pid_in(word, machines):
    try:
        return pid_of(word.encode(), machines)
    except Wrong:
        raise OutOfRange from None


def move_in(word, machines):
    pid, _, machine = word.partition("=")
    try:
        return pid_in(pid, machines), number_of(machine.encode(), 0, machines - 1)
    except Wrong:
        raise OutOfRange from None


class Done:
    """A directive that was done: the machine that acted, the packets that it put, and whether it is a request to move while the
    manager is on its way."""

    def __init__(self, choice, machine, away, lines):
        self.choice = choice
        self.machine = machine
        self.away = away
        self.lines = lines
        self.put = {tuple(map(int, line.split(" ")[1:4])) for line in lines if line.startswith("packet ")}


def seat_of(world):
    """The machine where the manager is here."""
    return next((m.number for m in world.machines if isinstance(m.records.get(MANAGER), Here)), None)


def acting(world, choice):
    """The machine that a directive lets act, and whether it is a request to move while the manager is on its way."""
    word, operands = choice
    if word == "migrate":
        seat = seat_of(world)
        return (0, True) if seat is None else (seat, False)
    return operands[1] if word in ("deliver", "calloff") else operands[0], False


def meet(earlier, choice, machine, away):
    word, operands = choice
    return earlier.away or away or earlier.machine == machine or word == "deliver" and tuple(operands) in earlier.put


def is_left_out(path, choice, machine, away):
    """Whether behind the last directive that it meets one stands that acts on a machine with a higher number."""
    for earlier in reversed(path):
        if meet(earlier, choice, machine, away):
            return False
        if earlier.machine > machine:
            return True
    return False


def lets_out(world, a, b):
    """Whether a message from b to a waits for an acknowledgement."""
    stream = world.streams[b, a]
    return len(stream.given) > stream.gone_out


def left_of(listed, word, path):
    """What is left of these directives, of equal ones the first."""
    left = [(word, list(each)) for each in listed]
    for done in path:
        if done.choice in left:
            left.remove(done.choice)
    return [each for k, each in enumerate(left) if each not in left[:k]]


def choices(world, bounds, path):
    """The choices where these directives have led, worn ones among them."""
    found = [("turn", [m.number]) for m in world.machines if m.inbox or world.first_served(m)]
    chosen = [done.choice for done in path]
    packets = [
        ("deliver", [a, b, k])
        for a, b in world.pairs
        for k, (kind, _) in enumerate(world.wires[a, b].packets)
        if kind == "data" or bounds.acks or lets_out(world, a, b)
    ]
    found += [each for each in packets if each[1][2] in world.wires[each[1][0], each[1][1]].undelivered]
    repeats = sum(word == "deliver" and (word, operands) in chosen[:k] for k, (word, operands) in enumerate(chosen))
    if repeats < bounds.repeats:
        found += [each for each in packets if each[1][2] not in world.wires[each[1][0], each[1][1]].undelivered]
    if sum(word == "tick" for word, _ in chosen) < bounds.ticks:
        out = [sum(len(world.streams[pair].outstanding()) for pair in world.pairs if pair[0] == m.number) for m in world.machines]
        found += [("tick", [m.number]) for m in world.machines if out[m.number]]
    found += left_of(bounds.moves, "migrate", path)
    found += left_of(bounds.call_offs, "calloff", path)
    return found


def is_stuck(world, pids):
    """Whether everything is at rest, and one of these processes lives, waits or moves data, and isn't stopped."""
    if any(m.inbox or world.first_served(m) for m in world.machines):
        return False
    for pair in world.pairs:
        wire = world.wires[pair]
        if any(wire.packets[k][0] == "data" for k in wire.undelivered):
            return False
        if lets_out(world, pair[1], pair[0]):
            return False
    here = [record.process for m in world.machines for pid, record in m.records.items() if isinstance(record, Here) and pid not in SERVERS]
    return any(p.pid in pids and isinstance(p.status, (Waiting, Moving)) and not p.stopped for p in here)


class Explorer:
    """Looks through the schedules of one directive, then of two, and so on: each length is made from the one before, in order."""

    def __init__(self, boot, bounds, finds):
        self.boot = boot
        self.bounds = bounds
        self.finds = finds  # whether a world, with the lines of its last group, is what is looked for
        self.tried = 0

    def world_behind(self, path):
        lines = []
        world = World(self.boot, lambda group: lines.append(group))
        for done in path:
            world.do(done.choice)
        return world, lines

    def open_choices(self, world, path):
        found = []
        for choice in choices(world, self.bounds, path):
            machine, away = acting(world, choice)
            if not is_left_out(path, choice, machine, away):
                found.append(choice)
        return found

    def extended(self, path):
        """The worlds behind these directives and one more that is tried, each with the path to it."""
        world, lines = self.world_behind(path)
        for place, choice in enumerate(self.open_choices(world, path)):
            if place > 0:
                world, lines = self.world_behind(path)
            machine, away = acting(world, choice)
            with contextlib.suppress(Worn):
                world.do(choice)
                yield world, [*path, Done(choice, machine, away, lines[-1])]

    def lengthened(self, paths):
        """The schedules with one directive more; and the first of them in which it is found, where there is one."""
        longer = []
        for path in paths:
            for world, place in self.extended(path):
                if self.tried == self.bounds.most:
                    raise Undecided
                self.tried += 1
                if self.finds(world, place[-1].lines):
                    return longer, place
                longer.append(place)
        return longer, None

    def explore(self):
        """The first of the shortest schedules that are tried in which it is found; none where there is none."""
        paths, found = [[]], None
        for _ in range(self.bounds.depth):
            paths, found = self.lengthened(paths)
            if found is not None:
                return [" ".join(map(str, [word, *operands])) for word, operands in (done.choice for done in found)]
        return None


def begins_with(line, text):
    return line == text or line.startswith(text + " ")


def explore(boot, bounds, text, pids, write):
    """Looks for a line, or for one of these processes stuck, and writes what is found."""
    if text is not None:
        finds = lambda world, lines: any(begins_with(line, text) for line in lines)
    else:
        finds = lambda world, lines: is_stuck(world, pids)
    explorer = Explorer(boot, bounds, finds)
    try:
        found = explorer.explore()
    except Undecided:
        write([f"# undecided: {explorer.tried} schedules"])
        raise
    if found is None:
        write([f"# none within {bounds.depth} directives: {explorer.tried} schedules"])
        raise NotFound
    write([f"# found in {len(found)} directives", *found])
