"""A process, its calls, its receives and its data moves (docs/SYSTEM.md, "Calls" and "Data moves")."""

from collections import deque
from dataclasses import dataclass

import processor
from values import Address, Link, Message, Name, follow

BLOCK = PIECE = 256
DONE, NO_LINK, FULL, BAD_KIND, BAD_RANGE, NO_RIGHT, TOO_LONG, GONE, NOT_COPYABLE = range(9)
EXIT, OUT, MAKE, COPY, DROP, SEND, RECEIVE, MOVE = range(1, 9)


@dataclass
class Waiting:
    """For a message on a channel of the mask."""

    mask: int
    base: int
    capacity: int

    def __str__(self):
        return f"waiting {self.mask} {self.base} {self.capacity}"


@dataclass
class Moving:
    """Data: from an area (0) or into it (1), whose owner is there; where the piece under way begins in the owner's memory
    and in its own, how much is left with it, and the number of its request."""

    direction: int
    owner: Address
    base: int
    own: int
    left: int
    pending: int

    def __str__(self):
        return f"moving {self.direction} {self.owner.pid} {self.base} {self.own} {self.left}"


class Process:
    """A process. Its status is None where it is ready, else what it waits for."""

    def __init__(self, pid, image, links, slots, longest):
        self.pid = pid
        self.blocks = image.blocks
        self.memory = bytearray(image.code) + bytes(BLOCK * image.blocks - len(image.code))
        self.registers = [0] * 16
        self.counter = 0
        self.table = list(links) + [None] * (slots - len(links))
        self.longest = longest
        self.status = None
        self.stopped = False
        self.sent = 0
        self.moves = 0
        self.queue = deque()

    # Being served

    def can_be_served(self):
        if self.stopped:
            return False
        return self.status is None or isinstance(self.status, Waiting) and self.first_awaited() is not None

    def first_awaited(self):
        """The place in the queue of the first message on a channel of the mask."""
        for place, message in enumerate(self.queue):
            if self.status.mask >> message.what["channel"] & 1:
                return place
        return None

    def complete_receive(self):
        """Ends a receive: the message, and the code with which it was refused, or 0."""
        place, wait, registers = self.first_awaited(), self.status, self.registers
        message = self.queue[place]
        body, links = message.what["body"], message.what["links"]
        self.status = None
        registers[0] = DONE
        if len(body) > wait.capacity:
            registers[0] = TOO_LONG
        elif len(links) > self.table.count(None):
            registers[0] = FULL
        if registers[0] != DONE:
            return message, registers[0]
        del self.queue[place]
        self.memory[wait.base : wait.base + len(body)] = body
        registers[1:5] = [message.what["code"], message.what["channel"], len(body), len(links)]
        for number, link in enumerate(links):
            registers[5 + number] = self.keep(link)
        return message, DONE

    def execute(self, quantum):
        """Up to so many plain instructions: how many there were, and the call or fault that was reached before, if any."""
        for count in range(quantum):
            reached = processor.step(self)
            if reached is not None:
                return count, reached
        return quantum, None

    # Links

    def link_in(self, slot):
        return self.table[slot] if slot < len(self.table) else None

    def keep(self, link):
        """Puts a link into the lowest empty slot."""
        slot = self.table.index(None)
        self.table[slot] = link
        return slot

    def is_full(self):
        return None not in self.table

    def follow(self, about, at, moves):
        """Links and a data move lead to where a process went, where they know fewer moves of it: how many links changed."""
        self.table, changed = follow(self.table, about, at, moves)
        if isinstance(self.status, Moving) and self.status.owner.pid == about and self.status.owner.moves < moves:
            self.status.owner = Address(about, at, moves)
        return changed

    # Calls. Each answers ("call", code), ("out", word), ("wait",), ("end", why) or ("send", message).

    def call(self, number, here):
        calls = {OUT: self.out, MAKE: self.make, COPY: self.copy, DROP: self.drop, SEND: self.send, RECEIVE: self.receive, MOVE: self.move}
        if number == EXIT:
            return "end", 0
        if number not in calls:
            return "end", 4
        done = calls[number](here)
        if done[0] == "call":
            self.registers[0] = done[1]
        elif done[0] in ("out", "send") and self.status is None:
            self.registers[0] = DONE
        return done

    def out(self, here):
        return "out", self.registers[1]

    def make(self, here):
        code, channel, flags, base, length = self.registers[1:6]
        if flags > 7:
            return "call", BAD_KIND
        if channel > 31 or base + length > len(self.memory):
            return "call", BAD_RANGE
        if self.is_full():
            return "call", FULL
        address = Address(self.pid, here, self.moves)
        link = Link(address, bool(flags & 1), code, channel, base, length, bool(flags & 2), bool(flags & 4))
        self.registers[1] = self.keep(link)
        return "call", DONE

    def copy(self, here):
        link = self.link_in(self.registers[1])
        if link is None:
            return "call", NO_LINK
        if link.reply:
            return "call", NOT_COPYABLE
        if self.is_full():
            return "call", FULL
        self.registers[1] = self.keep(link)
        return "call", DONE

    def drop(self, here):
        slot = self.registers[1]
        if self.link_in(slot) is None:
            return "call", NO_LINK
        self.table[slot] = None
        return "call", DONE

    def send(self, here):
        slot, body, length, count, listed = self.registers[1:6]
        carrier = self.link_in(slot)
        if carrier is None:
            return "call", NO_LINK
        if length > self.longest or count > 4:
            return "call", TOO_LONG
        if body + length > len(self.memory) or listed + count > len(self.memory):
            return "call", BAD_RANGE
        slots = list(self.memory[listed : listed + count])
        if any(self.link_in(other) is None for other in slots):
            return "call", NO_LINK
        named = [slot] + slots
        replies = {other for other in named if self.table[other].reply}
        if any(named.count(other) > 1 for other in replies):
            return "call", BAD_KIND
        links = [self.table[other] for other in slots]
        for other in replies:
            self.table[other] = None
        what = {"code": carrier.code, "channel": carrier.channel, "body": bytes(self.memory[body : body + length]), "links": links}
        return "send", self.message(carrier.address, here, "user", what)

    def receive(self, here):
        mask, base, capacity = self.registers[1:4]
        if base + capacity > len(self.memory):
            return "call", BAD_RANGE
        self.status = Waiting(mask, base, capacity)
        return ("wait",)

    def move(self, here):
        slot, direction, offset, own, length = self.registers[1:6]
        link = self.link_in(slot)
        if link is None:
            return "call", NO_LINK
        if direction > 1:
            return "call", BAD_KIND
        if not (link.write if direction else link.read):
            return "call", NO_RIGHT
        if offset + length > link.length or own + length > len(self.memory):
            return "call", BAD_RANGE
        if length == 0:
            return "call", DONE
        self.status = Moving(direction, link.address, link.base + offset, own, length, self.sent)
        return "send", self.request(here)

    # Messages

    def address(self, here):
        return Address(self.pid, here, self.moves)

    def message(self, to, here, kind, what):
        """The process's next message."""
        self.sent += 1
        return Message(Name(self.pid, self.sent - 1), to, self.address(here), kind, what)

    # Data moves

    def request(self, here):
        """The request for the piece that the status says."""
        move = self.status
        move.pending = self.sent
        length = min(PIECE, move.left)
        what = {"base": move.base, "length": length}
        if move.direction:
            what["bytes"] = bytes(self.memory[move.own : move.own + length])
        return self.message(move.owner, here, "write" if move.direction else "read", what)

    def serve(self, request, here):
        """Does what a request for a piece of this process's memory asks: the answer."""
        base, length = request.what["base"], request.what["length"]
        what = {}
        if request.kind == "read":
            what["bytes"] = bytes(self.memory[base : base + length])
        else:
            self.memory[base : base + length] = request.what["bytes"]
        return answer(request, self.address(here), "block" if request.kind == "read" else "written", what)

    def land(self, landing, here):
        """A piece has come, or gone, or its owner has ended: the next request, or None where the move has ended."""
        move = self.status
        if landing.kind == "gone":
            self.registers[0] = GONE
            self.status = None
            return None
        length = min(PIECE, move.left)
        if landing.kind == "block":
            self.memory[move.own : move.own + length] = landing.what["bytes"]
        move.base += length
        move.own += length
        move.left -= length
        if move.left:
            return self.request(here)
        self.registers[0] = DONE
        self.status = None
        return None


def answer(request, sender, kind, what):
    """A kernel's answer to a request."""
    return Message(request.name.answer(), request.sender, sender, kind, what)


def state_size(process):
    """How many state bytes a process has (docs/FORMATS.md, "State bytes")."""
    fields = 0
    if isinstance(process.status, Waiting):
        fields = 12
    elif isinstance(process.status, Moving):
        fields = 27
    return 102 + fields + 24 * sum(link is not None for link in process.table)


