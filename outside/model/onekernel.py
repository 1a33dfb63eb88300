"""The kernel without machines: all processes and messages in one place. Labels are steps of it, or they aren't."""

import re

from process import Moving, Process, Waiting, answer
from processor import step
from servers import Manager, Switchboard
from values import MANAGER, SWITCHBOARD, Address, Name, Pid, kernel_of
from world import HAS_ENDED

NUMBER = r"(?:0|[1-9][0-9]*)"
PID = rf"({NUMBER})\.({NUMBER})"
SHAPES = {
    "ran": "PN", "call": "PNN", "send": "PI", "wait": "P", "out": "PN", "end": "PN", "receive": "PI", "refuse": "PIN",
    "took": "I", "served": "I", "gone": "I", "dropped": "I", "created": "IP", "nospace": "INN", "asked": "I", "answered": "IN",
}
SORTS = {"P": PID, "I": PID + rf"#({NUMBER})(!?)", "N": f"({NUMBER})"}


class NoStep(Exception):
    """The label is no step here, or the line is no label."""


def label_of(line):
    """A label as its word and its operands."""
    word = line.split(" ")[0]
    if word not in SHAPES:
        raise NoStep
    found = re.fullmatch(" ".join([word] + [SORTS[sort] for sort in SHAPES[word]]), line)
    if found is None:
        raise NoStep
    given, operands = iter(found.groups()), []
    for sort in SHAPES[word]:
        if sort == "N":
            operands.append(number_of(next(given), 2**32))
            continue
        pid = Pid(number_of(next(given), 2**8), number_of(next(given), 2**32))
        operands.append(Name(pid, number_of(next(given), 2**32), next(given) == "!") if sort == "I" else pid)
    return word, operands


def number_of(word, limit):
    if int(word) >= limit:
        raise NoStep
    return int(word)


def must(holds):
    if not holds:
        raise NoStep


class OneKernel:
    HERE = 0  # places mean nothing here

    def __init__(self, boot):
        self.boot = boot
        self.bag = {}
        self.processes = {}  # None for one that has ended
        self.made = {}
        self.follows = {}  # the request to move that a process follows
        self.servers = {SWITCHBOARD: Switchboard(), MANAGER: Manager(boot)}
        for born in boot.processes:
            self.make(born.machine, born.image, born.links)

    def make(self, home, image, links):
        self.made[home] = self.made.get(home, 2) + 1
        pid = Pid(home, self.made[home])
        self.processes[pid] = Process(pid, image, links, self.boot.slots, self.boot.longest)
        return pid

    def sent(self, message):
        if message is not None:
            must(message.name not in self.bag)
            self.bag[message.name] = message

    def apply(self, label):
        word, operands = label
        getattr(self, "do_" + word)(*operands)

    # Who takes part

    def served(self, pid):
        """A process that may take a step of its own: it lives, isn't stopped, and follows no request to move."""
        process = self.processes.get(pid)
        must(process is not None and not process.stopped and pid not in self.follows)
        return process

    def ready(self, pid):
        process = self.served(pid)
        must(process.status is None)
        return process

    def reaches(self, pid, what):
        """A ready process that reaches a call or a fault: its number."""
        process = self.ready(pid)
        reached = step(process)
        must(reached is not None and reached[0] == what)
        return process, reached[1]

    def calls(self, pid):
        process, number = self.reaches(pid, "call")
        return number, process.call(number, self.HERE)

    def message(self, name, *kinds):
        message = self.bag.get(name)
        must(message is not None and message.kind in kinds)
        return message

    def receiver(self, message):
        """The process for which a message is, where it lives and doesn't follow a request to move."""
        process = self.processes.get(message.to.pid)
        must(process is not None and message.to.pid not in self.follows)
        return process

    def ended(self, message):
        must(message.to.pid in self.processes and self.processes[message.to.pid] is None)

    # What a process does

    def do_ran(self, pid, count):
        must(self.ready(pid).execute(count) == (count, None))

    def do_call(self, pid, number, code):
        must(self.calls(pid) == (number, ("call", code)))

    def do_send(self, pid, name):
        _, done = self.calls(pid)
        must(done[0] == "send" and done[1].name == name)
        self.sent(done[1])

    def do_wait(self, pid):
        must(self.calls(pid)[1] == ("wait",))

    def do_out(self, pid, word):
        must(self.calls(pid)[1] == ("out", word))

    def do_end(self, pid, why):
        process = self.ready(pid)
        reached = step(process)
        must(reached is not None)
        done = ("end", reached[1]) if reached[0] == "fault" else process.call(reached[1], self.HERE)
        must(done == ("end", why))
        self.processes[pid] = None

    def completes(self, pid, name):
        """A receive of a message ends: the code, 0 where it isn't refused."""
        process, message = self.served(pid), self.message(name, "user")
        must(isinstance(process.status, Waiting) and message.to.pid == pid)
        must(process.status.mask >> message.what["channel"] & 1)
        process.queue.clear()
        process.queue.append(message)
        return process.complete_receive()[1]

    def do_receive(self, pid, name):
        must(self.completes(pid, name) == 0)
        del self.bag[name]

    def do_refuse(self, pid, name, code):
        must(code != 0 and self.completes(pid, name) == code)

    # What servers and kernels do

    def do_took(self, name):
        message = self.message(name, "user", "created", "noroom", "moved")
        server = self.servers.get(message.to.pid)
        must(server is not None)
        del self.bag[name]
        self.sent(server.take(message, self.HERE))

    def do_served(self, name):
        message = self.message(name, "stop", "resume", "kill", "read", "write", "block", "written", "gone")
        process = self.receiver(message)
        del self.bag[name]
        if message.kind in ("stop", "resume"):
            process.stopped = message.kind == "stop"
        elif message.kind == "kill":
            self.processes[process.pid] = None
        elif message.kind in ("read", "write"):
            self.sent(process.serve(message, self.HERE))
        else:
            must(isinstance(process.status, Moving) and process.status.pending == name.count)
            self.sent(process.land(message, self.HERE))

    def do_gone(self, name):
        message = self.message(name, "read", "write", "move")
        self.ended(message)
        del self.bag[name]
        sender = Address(message.to.pid, self.HERE)
        result = {"result": HAS_ENDED} if message.kind == "move" else {}
        self.sent(answer(message, sender, "moved" if message.kind == "move" else "gone", result))

    def do_dropped(self, name):
        message = self.message(name, "user", "stop", "resume", "kill", "block", "written", "gone")
        self.ended(message)
        del self.bag[name]

    def do_created(self, name, pid):
        message = self.message(name, "create")
        del self.bag[name]
        home = message.to.pid.home
        must(self.make(home, self.boot.images[message.what["image"]], message.what["links"]) == pid)
        self.sent(answer(message, Address(kernel_of(home), home), "created", {"pid": pid}))

    def do_nospace(self, name, slots, blocks):
        message = self.message(name, "create")
        del self.bag[name]
        home = message.to.pid.home
        self.sent(answer(message, Address(kernel_of(home), home), "noroom", {}))

    def do_asked(self, name):
        message = self.message(name, "move")
        process = self.receiver(message)
        del self.bag[name]
        self.follows[process.pid] = message

    def do_answered(self, name, result):
        must(result in (0, 1))
        pid = next((pid for pid, message in self.follows.items() if message.name == name), None)
        must(pid is not None)
        message = self.follows.pop(pid)
        self.sent(answer(message, Address(pid, self.HERE), "moved", {"result": result}))


class Refused(Exception):
    """The first line, from 1, that is no label, or whose label is no step."""

    def __init__(self, line):
        super().__init__(f"labels refused: line {line}")


def check_labels(boot, data):
    """How many labels there are, where each is a step."""
    kernel, count = OneKernel(boot), 0
    lines = data.split(b"\n")
    for number, line in enumerate(lines if lines[-1] else lines[:-1], 1):
        if not line or line.startswith(b"#"):
            continue
        try:
            kernel.apply(label_of(line.decode("latin-1")))
        except NoStep:
            raise Refused(number) from None
        count += 1
    return count
