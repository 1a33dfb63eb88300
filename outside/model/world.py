"""Machines and what happens on them (docs/SYSTEM.md, "A turn of a machine" and "Between machines"; docs/MIGRATION.md).

Here a process that moves is handed over whole by the last piece of its state; what goes between the machines are the
messages of its eight steps, as many as its state bytes and its blocks make pieces."""

from collections import defaultdict, deque
from dataclasses import dataclass, field
from typing import Any

from network import Stream, Wire
from process import Process, Waiting, answer, state_size
from servers import Manager, Switchboard
from values import MANAGER, SERVERS, SWITCHBOARD, Address, Message, Name, Pid, kernel_of

CHUNK = 512
TELLS_SENDER = ("user", "stop", "resume", "kill", "read", "write", "migrate", "move")
MOVED, STAYED, HAS_ENDED = 0, 1, 3  # what is answered to who asked for a move


class Worn(Exception):
    """A pair of machines counts as many messages as it may."""

    def __init__(self, a, b):
        super().__init__(f"worn: {a} to {b}")
        self.a = a
        self.b = b


# What a machine knows of a process.


@dataclass
class Here:
    process: Process


@dataclass
class Frozen:
    """One that leaves, and the message that asked for it where one did."""

    process: Process
    to: int
    asked_by: Message | None
    held: list = field(default_factory=list)


@dataclass
class Incoming:
    """One that comes, and the message that asked for it where one did."""

    source: int
    blocks: int
    moves: int
    asked_by: Message | None
    process: Any = None
    whole: bool = False  # whether all of it has come
    held: list = field(default_factory=list)


@dataclass
class Forward:
    at: int
    moves: int


class Machine:
    def __init__(self, number, slots, blocks):
        self.number = number
        self.slots = slots
        self.blocks = blocks
        self.inbox = deque()
        self.ring = []
        self.records = {}  # of processes, and of the servers
        self.predecessors = defaultdict(set)  # by process: the machines that send on to this one
        self.count = 0  # of the kernel's own messages
        self.made = 0

    def free(self):
        """The slots and blocks that no process takes; servers take none."""
        taken = [
            record.blocks if isinstance(record, Incoming) else record.process.blocks
            for pid, record in self.records.items()
            if isinstance(record, (Here, Frozen, Incoming)) and pid not in SERVERS
        ]
        return self.slots - len(taken), self.blocks - sum(taken)

    def stands(self, process):
        """A process is here, and last in the ring; a server is in no ring."""
        self.records[process.pid] = Here(process)
        if process.pid not in SERVERS:
            self.ring.append(process.pid)

    def next_pid(self):
        self.made += 1
        return Pid(self.number, 2 + self.made)


class World:
    def __init__(self, boot, write):
        self.boot = boot
        self.write = write  # takes the lines of each group
        self.machines = [Machine(number, *room) for number, room in enumerate(boot.machines)]
        every = range(len(self.machines))
        self.pairs = [(a, b) for a in every for b in every if a != b]
        self.routed = {(a, b): 0 for a in every for b in every}
        self.streams = {pair: Stream() for pair in self.pairs}
        self.wires = {pair: Wire() for pair in self.pairs}
        self.switchboard = Switchboard()
        self.manager = Manager(boot)
        for server in (self.switchboard, self.manager):
            self.machines[0].stands(server)
        self.ended = {}  # why each process that has ended did
        self.groups = 0
        self.lines = []
        for born in boot.processes:
            machine = self.machines[born.machine]
            pid = machine.next_pid()
            assert pid == born.pid
            machine.stands(self.fresh(pid, born.image, born.links))

    def fresh(self, pid, image, links):
        return Process(pid, image, links, self.boot.slots, self.boot.longest)

    def say(self, *words):
        self.lines.append(" ".join(map(str, words)))

    # Directives

    def do(self, directive):
        """A directive of the schedule: group after group."""
        word, operands = directive
        if word == "round":
            self.round()
        elif word == "spin":
            for _ in range(operands[0]):
                self.round()
        elif word == "settle":
            while not self.is_quiet():
                self.settling_pass()
        elif word == "rest":
            for _ in range(operands[0]):
                self.resting_pass()
        else:
            self.group(word, *operands)

    def round(self):
        for a, b in self.pairs:
            for k in list(self.wires[a, b].undelivered):
                self.group("deliver", a, b, k)
        for machine in self.machines:
            self.group("turn", machine.number)

    def settling_pass(self):
        """A round with turns only where the inbox isn't empty, which ends as soon as nothing is on its way."""
        for a, b in self.pairs:
            for k in list(self.wires[a, b].undelivered):
                if self.is_quiet():
                    return
                self.group("deliver", a, b, k)
        for machine in self.machines:
            if self.is_quiet():
                return
            if machine.inbox:
                self.group("turn", machine.number)

    def resting_pass(self):
        """The same with turns of all machines that have something to do, until all is at rest."""
        for a, b in self.pairs:
            for k in list(self.wires[a, b].undelivered):
                if self.is_at_rest():
                    return
                self.group("deliver", a, b, k)
        for machine in self.machines:
            if self.is_at_rest():
                return
            if machine.inbox or self.first_served(machine):
                self.group("turn", machine.number)

    def is_at_rest(self):
        return self.is_quiet() and not any(self.first_served(machine) for machine in self.machines)

    def first_served(self, machine):
        """The first process of a machine's ring that can be served, if there is one."""
        return next((pid for pid in machine.ring if machine.records[pid].process.can_be_served()), None)

    def is_quiet(self):
        return not any(machine.inbox for machine in self.machines) and all(stream.is_quiet() for stream in self.streams.values())

    def group(self, word, *operands):
        self.lines = []
        self.say(word, *operands)
        heads = {"turn": self.turn, "tick": self.tick, "deliver": self.deliver, "migrate": self.migrate, "calloff": self.call_off}
        heads[word](*operands)
        self.groups += 1
        self.write(self.lines)

    # The network

    def put(self, machine, message):
        """Routes a message to where its address leads."""
        a, b = machine.number, message.to.at
        if self.routed[a, b] == self.boot.numbers:
            raise Worn(a, b)
        self.routed[a, b] += 1
        self.say("put", a, b, message.name, message.kind, message.to.pid)
        if a == b:
            machine.inbox.append(message)
        else:
            self.streams[a, b].given.append(message)
            self.let_go(a, b)

    def let_go(self, a, b):
        for number in self.streams[a, b].due():
            self.packet(a, b, "data", number)

    def packet(self, a, b, kind, number):
        self.say("packet", a, b, self.wires[a, b].put((kind, number)), kind, number)

    def tick(self, number):
        pairs = [pair for pair in self.pairs if pair[0] == number]
        self.say("resent", number, sum(len(self.streams[pair].outstanding()) for pair in pairs))
        for a, b in pairs:
            for sent in self.streams[a, b].outstanding():
                self.packet(a, b, "data", sent)

    def deliver(self, a, b, k):
        wire = self.wires[a, b]
        if k >= len(wire.packets):
            self.say("none")
            return
        wire.undelivered.pop(k, None)
        kind, number = wire.packets[k]
        if kind == "ack":
            self.say("acked", a, b, number)
            stream = self.streams[b, a]
            stream.acknowledged = max(stream.acknowledged, number)
            self.let_go(b, a)
            return
        stream = self.streams[a, b]
        word, taken = stream.arrives(number)
        if word != "taken":
            self.say(word, a, b, number)
        for each in taken:
            self.say("taken", a, b, each)
            self.machines[b].inbox.append(stream.given[each])
        self.packet(b, a, "ack", stream.taken)

    # Turns

    def turn(self, number):
        machine = self.machines[number]
        if machine.inbox:
            self.handle(machine, machine.inbox.popleft())
            return
        pid = self.first_served(machine)
        if pid is None:
            self.say("idle", number)
            return
        machine.ring.remove(pid)
        machine.ring.append(pid)
        self.serve(machine, machine.records[pid].process)

    def serve(self, machine, process):
        pid = process.pid
        if isinstance(process.status, Waiting):
            message, code = process.complete_receive()
            if code:
                self.say("refuse", pid, message.name, code)
            else:
                self.say("receive", pid, message.name)
            return
        count, reached = process.execute(self.boot.quantum)
        self.say("ran", pid, count)
        if reached is None:
            return
        what, number = reached
        done = ("end", number) if what == "fault" else process.call(number, machine.number)
        if done[0] == "call":
            self.say("call", pid, number, done[1])
        elif done[0] == "out":
            self.say("out", pid, done[1])
        elif done[0] == "wait":
            self.say("wait", pid)
        elif done[0] == "send":
            self.say("send", pid, done[1].name)
            self.put(machine, done[1])
        else:
            self.say("end", pid, done[1])
            self.end(machine, process, done[1])

    def end(self, machine, process, why):
        """A process has ended: its queue goes with it, and the forwarding addresses that lead to it."""
        machine.ring.remove(process.pid)
        self.ended[process.pid] = why
        for message in process.queue:
            self.say("dropped", message.name)
        self.forget(machine, process.pid, [])

    def forget(self, machine, pid, said):
        """A machine forgets a process that has ended, says this of it, and tells those that send on to it."""
        del machine.records[pid]
        told = sorted(machine.predecessors.pop(pid, ()))
        if said:
            self.say(*said, len(told))
        for other in told:
            self.to_kernel(machine, other, "bury", {"pid": pid})

    def on_bury(self, machine, message):
        pid = message.what["pid"]
        if pid in machine.records:
            self.forget(machine, pid, ["buried", message.name])
        else:
            self.say("buried", message.name, 0)

    def handle(self, machine, message):
        pid = message.to.pid
        if pid == kernel_of(machine.number):
            getattr(self, "on_" + message.kind)(machine, message)
        else:
            record = machine.records.get(pid)
            if isinstance(record, Here) and pid in SERVERS:
                self.handle_server(machine, record.process, message)
            elif isinstance(record, Here):
                self.handle_here(machine, record.process, message)
            elif isinstance(record, (Frozen, Incoming)):
                record.held.append(message)
                self.say("held", message.name)
            elif isinstance(record, Forward):
                self.forward(machine, record, message)
            else:
                self.handle_ended(machine, message)

    def handle_server(self, machine, server, message):
        if message.kind == "update":
            self.updated(server, message)
            return
        if message.kind == "migrate":
            self.is_to_move(machine, server, message)
            return
        self.say("took", message.name)
        sent = server.take(message, machine.number)
        if sent is not None:
            self.put(machine, sent)

    def updated(self, follower, message):
        self.say("updated", message.name, follower.follow(*message.what["address"]))

    def handle_here(self, machine, process, message):
        name, kind = message.name, message.kind
        if kind == "user":
            process.queue.append(message)
            self.say("queued", name)
        elif kind == "update":
            self.updated(process, message)
        elif kind in ("migrate", "move"):
            self.is_to_move(machine, process, message)
        elif kind in ("stop", "resume"):
            process.stopped = kind == "stop"
            self.say("served", name)
        elif kind == "kill":
            self.say("served", name)
            self.end(machine, process, 5)
        elif kind in ("read", "write"):
            self.say("served", name)
            self.put(machine, process.serve(message, machine.number))
        else:
            self.say("served", name)
            request = process.land(message, machine.number)
            if request is not None:
                self.put(machine, request)

    def handle_ended(self, machine, message):
        name, kind = message.name, message.kind
        if kind in ("read", "write", "move"):
            self.say("gone", name)
            sender = Address(message.to.pid, machine.number, message.to.moves)
            if kind == "move":
                self.put(machine, answer(message, sender, "moved", {"result": HAS_ENDED}))
            else:
                self.put(machine, answer(message, sender, "gone", {}))
        elif kind == "migrate":
            self.say("nomove", name)
        elif kind == "update":
            self.say("updated", name, 0)
        else:
            self.say("dropped", name)

    def forward(self, machine, record, message):
        """Sends a message on, and tells its sender where the receiver went."""
        self.say("forwarded", message.name, record.at)
        self.put(machine, message.sent_on(record.at, record.moves))
        if message.kind in TELLS_SENDER:
            about = Address(message.to.pid, record.at, record.moves)
            self.put(machine, self.own(machine, message.sender, "update", {"address": about}))

    def own(self, machine, to, kind, what):
        """The kernel's next message."""
        machine.count += 1
        kernel = kernel_of(machine.number)
        return Message(Name(kernel, machine.count - 1), to, Address(kernel, machine.number), kind, what)

    def to_kernel(self, machine, other, kind, what):
        """Puts the kernel's next message, which is for another machine's kernel."""
        self.put(machine, self.own(machine, Address(kernel_of(other), other), kind, what))

    def on_create(self, machine, message):
        image = self.boot.images[message.what["image"]]
        slots, blocks = machine.free()
        kernel = Address(kernel_of(machine.number), machine.number)
        if slots < 1 or blocks < image.blocks:
            self.say("nospace", message.name, slots, blocks)
            self.put(machine, answer(message, kernel, "noroom", {}))
            return
        pid = machine.next_pid()
        machine.stands(self.fresh(pid, image, message.what["links"]))
        self.say("created", message.name, pid)
        self.put(machine, answer(message, kernel, "created", {"pid": pid}))

    # Migration

    def migrate(self, pid, to):
        machine = next((machine for machine in self.machines if isinstance(machine.records.get(MANAGER), Here)), None)
        if machine is None:
            self.say("away")
            return
        child = self.manager.leads_to(pid, machine.number)
        if child is None:
            self.say("nochild", pid)
            return
        request = self.own(machine, child, "migrate", {"machine": to})
        self.put(machine, Message(request.name, child, self.manager.address(machine.number), "migrate", request.what))

    def is_to_move(self, machine, process, message):
        """A schedule's request to move a process (migrate), or that of one who is told how it ended (move)."""
        to, pid = message.what["machine"], process.pid
        asked_by = message if message.kind == "move" else None
        if asked_by is not None:
            self.say("asked", message.name)
        if to == machine.number:
            if asked_by is None:
                self.say("here", message.name)
            self.answered(machine, process, asked_by, MOVED)
            return
        if pid not in SERVERS:
            machine.ring.remove(pid)
        machine.records[pid] = Frozen(process, to, asked_by)
        self.say("step", 1, pid)
        self.say("step", 2, pid)
        ask = {"pid": pid, "blocks": process.blocks, "moves": process.moves, "asked_by": asked_by}
        self.to_kernel(machine, to, "ask", ask)

    def answered(self, machine, process, asked_by, result):
        """A move has ended: who asked for it, if one did, is told."""
        if asked_by is not None:
            self.say("answered", asked_by.name, result)
            self.put(machine, answer(asked_by, process.address(machine.number), "moved", {"result": result}))

    def on_ask(self, machine, message):
        pid, asked, source = message.what["pid"], message.what["blocks"], message.sender.at
        slots, blocks = machine.free()
        if pid not in SERVERS and (slots < 1 or blocks < asked):
            self.say("lacks", pid, slots, blocks)
            self.to_kernel(machine, source, "refuse", {"pid": pid})
            return
        machine.records[pid] = Incoming(source, asked, message.what["moves"], message.what["asked_by"])
        machine.predecessors[pid].add(source)
        self.say("step", 3, pid)
        self.to_kernel(machine, source, "pullstate", {"pid": pid, "chunk": 0})

    def call_off(self, pid, number):
        """A schedule's word that a process which comes to a machine is to stay where it was."""
        machine = self.machines[number]
        record = machine.records.get(pid)
        if not isinstance(record, Incoming) or record.whole:
            self.say("nocall", pid)
            return
        machine.records[pid] = Forward(record.source, record.moves)
        self.say("called", pid, len(record.held))
        for each in record.held:
            self.put(machine, each.sent_on(record.source, record.moves))
        self.to_kernel(machine, record.source, "calloff", {"pid": pid})

    def on_calloff(self, machine, message):
        pid = message.what["pid"]
        machine.predecessors[pid].add(message.sender.at)
        self.say("stays", pid)
        self.goes_on(machine, machine.records[pid], STAYED)

    def waited_for(self, machine, message):
        """What is known of a process of which a piece has come, where this machine waits for it from the one that sent it."""
        record = machine.records.get(message.what["pid"])
        if isinstance(record, Incoming) and record.source == message.sender.at:
            return record
        self.say("stale", message.name)
        return None

    def on_refuse(self, machine, message):
        record = machine.records[message.what["pid"]]
        self.say("stays", message.what["pid"])
        self.goes_on(machine, record, STAYED)

    def on_pullstate(self, machine, message):
        pid, chunk = message.what["pid"], message.what["chunk"]
        process = machine.records[pid].process
        last = CHUNK * (chunk + 1) >= (process.state_size() if pid in SERVERS else state_size(process))
        self.say("proto", message.name)
        self.to_kernel(machine, message.sender.at, "state", {"pid": pid, "chunk": chunk, "last": last, "process": process})

    def on_state(self, machine, message):
        pid = message.what["pid"]
        record = self.waited_for(machine, message)
        if record is None:
            return
        if message.what["last"]:
            record.process = message.what["process"]
            self.say("step", 4, pid)
            if pid in SERVERS:
                self.has_come(machine, record, message)
            else:
                self.to_kernel(machine, message.sender.at, "pullblock", {"pid": pid, "block": 0})
        else:
            self.say("proto", message.name)
            self.to_kernel(machine, message.sender.at, "pullstate", {"pid": pid, "chunk": message.what["chunk"] + 1})

    def on_pullblock(self, machine, message):
        self.say("proto", message.name)
        self.to_kernel(machine, message.sender.at, "memory", message.what)

    def on_memory(self, machine, message):
        pid, block = message.what["pid"], message.what["block"]
        record = self.waited_for(machine, message)
        if record is None:
            return
        if block == record.blocks - 1:
            self.has_come(machine, record, message)
        else:
            self.say("proto", message.name)
            self.to_kernel(machine, message.sender.at, "pullblock", {"pid": pid, "block": block + 1})

    def has_come(self, machine, record, message):
        """The last piece has come: a process's last block, or a server's last chunk, since it has no memory."""
        pid = message.what["pid"]
        record.whole = True
        self.say("step", 5, pid)
        self.to_kernel(machine, message.sender.at, "alltaken", {"pid": pid})

    def on_alltaken(self, machine, message):
        pid = message.what["pid"]
        record = machine.records[pid]
        waiting = list(record.process.queue) + record.held
        record.process.queue.clear()
        gone = Forward(record.to, record.process.moves + 1)
        machine.records[pid] = gone
        self.say("step", 6, pid, len(waiting))
        for each in waiting:
            self.put(machine, each.sent_on(gone.at, gone.moves))
        self.say("step", 7, pid)
        self.to_kernel(machine, gone.at, "restart", {"pid": pid})

    def on_restart(self, machine, message):
        pid = message.what["pid"]
        record = machine.records[pid]
        record.process.moves = record.moves + 1
        self.say("step", 8, pid)
        self.goes_on(machine, record, MOVED)

    def goes_on(self, machine, record, result):
        """A process that was moving is served again; what was held for it comes before all else."""
        machine.stands(record.process)
        machine.inbox.extendleft(reversed(record.held))
        self.answered(machine, record.process, record.asked_by, result)
