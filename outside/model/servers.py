"""The switchboard and the process manager (docs/SYSTEM.md, "The servers")."""

from typing import NamedTuple

from values import MANAGER, SWITCHBOARD, Address, Link, Message, Name, follow, kernel_of


SERVER_HEAD = 14  # of a server's state bytes: the version, its name, how many it has sent, how often it has moved
LINK, ADDRESS = 24, 10


class Server:
    """It takes no memory of a machine, and has no queue: what it is sent is done at once."""

    blocks = 0

    def __init__(self, pid):
        self.pid = pid
        self.sent = 0
        self.moves = 0
        self.queue = []

    def address(self, here):
        """The server's address, on the machine where it is."""
        return Address(self.pid, here, self.moves)

    def message(self, to, here, kind, what):
        """The server's next message."""
        self.sent += 1
        return Message(Name(self.pid, self.sent - 1), to, self.address(here), kind, what)

    def over(self, link, here, body, links=()):
        """A message over a link, if there is one."""
        if link is None:
            return None
        what = {"code": link.code, "channel": link.channel, "body": bytes(body), "links": list(links)}
        return self.message(link.address, here, "user", what)


class Switchboard(Server):
    REGISTER, LOOK_UP = 1, 2
    REGISTERED, FOUND, UNKNOWN, TAKEN, BAD_LINK, BAD_REQUEST = range(6)

    def __init__(self):
        super().__init__(SWITCHBOARD)
        self.names = {}  # in the order in which they were registered

    def take(self, message, here):
        """Does what a message asks, on the machine where the switchboard is: the answer, if any."""
        body, links = message.what["body"], message.what["links"]
        if not links:
            return None
        operation, name = body[:1], body[1:]
        wants = {bytes([self.REGISTER]): 2, bytes([self.LOOK_UP]): 1}.get(operation)
        if wants != len(links) or not 1 <= len(name) <= 16:
            return self.over(links[0], here, [self.BAD_REQUEST])
        if wants == 1:
            if name in self.names:
                return self.over(links[0], here, [self.FOUND], [self.names[name]])
            return self.over(links[0], here, [self.UNKNOWN])
        if links[1].reply:
            return self.over(links[0], here, [self.BAD_LINK])
        if name in self.names:
            return self.over(links[0], here, [self.TAKEN])
        self.names[name] = links[1]
        return self.over(links[0], here, [self.REGISTERED])

    def state_size(self):
        """How many bytes its state has while it moves."""
        return SERVER_HEAD + 4 + sum(1 + len(name) + LINK for name in self.names)

    def follow(self, about, at, moves):
        links, changed = follow(self.names.values(), about, at, moves)
        self.names = dict(zip(self.names, links))
        return changed


class Pending(NamedTuple):
    """A request without a taken answer: `create` or `move`, and the link for the answer, or None."""

    kind: str
    link: Link | None


class Manager(Server):
    CREATE, STOP, RESUME, KILL, MOVE = 1, 2, 3, 4, 5
    DONE, NO_ROOM, BAD_REQUEST = range(3)
    CONTROLS = {STOP: "stop", RESUME: "resume", KILL: "kill"}

    def __init__(self, boot):
        super().__init__(MANAGER)
        self.machines = len(boot.machines)
        self.images = len(boot.images)
        self.children = [Address(born.pid, born.machine) for born in boot.processes]
        self.pending = {}  # by the names of the requests, in the order in which they were sent
        self.board = Address(SWITCHBOARD, 0)

    def take(self, message, here):
        """Does what a message asks, on the machine where the manager is: what is sent then, if anything."""
        if message.kind == "user":
            return self.asked(here, message.what["code"], message.what["body"], message.what["links"])
        link = self.pending.pop(message.name._replace(answers=False)).link
        if message.kind == "moved":
            return self.over(link, here, [message.what["result"]])
        if message.kind == "noroom":
            return self.over(link, here, [self.NO_ROOM])
        child = message.what["pid"]
        self.children.append(Address(child, child.home))
        control = Link(self.address(here), code=len(self.children))
        return self.over(link, here, [self.DONE], [control])

    def asked(self, here, code, body, links):
        """What a user message asks."""
        answer_link = links[0] if links else None
        if code == 0:
            request = self.to_make(here, body, links)
        else:
            request = self.to_control(here, code, body)
        if request is None:
            return self.over(answer_link, here, [self.BAD_REQUEST])
        if request.kind in ("create", "move"):
            self.pending[request.name] = Pending(request.kind, answer_link)
        return request

    def to_make(self, here, body, links):
        """The request to make a process, or None where that isn't what the body asks."""
        if len(body) != 4 or body[0] != self.CREATE or not links:
            return None
        machine, image = body[1], int.from_bytes(body[2:], "big")
        if machine >= self.machines or image >= self.images:
            return None
        return self.message(Address(kernel_of(machine), machine), here, "create", {"image": image, "links": links[1:]})

    def to_control(self, here, number, body):
        """The message that does to a child what the body asks, or None where the body asks nothing of a child."""
        if number > len(self.children):
            return None
        child = self.children[number - 1]
        if len(body) == 1 and body[0] in self.CONTROLS:
            return self.message(child, here, self.CONTROLS[body[0]], {})
        if len(body) == 2 and body[0] == self.MOVE and body[1] < self.machines:
            return self.message(child, here, "move", {"machine": body[1]})
        return None

    def child(self, pid):
        """The address of a child, if it is one."""
        return next((child for child in self.children if child.pid == pid), None)

    def leads_to(self, pid, here):
        """The manager's address of a process that is to move, on the machine where the manager is: of a child, or of a server."""
        if pid == MANAGER:
            return self.address(here)
        return self.board if pid == SWITCHBOARD else self.child(pid)

    def state_size(self):
        """How many bytes its state has while it moves."""
        requests = sum(6 + (0 if request.link is None else LINK) for request in self.pending.values())
        return SERVER_HEAD + 4 + ADDRESS * (len(self.children) + 1) + 4 + requests

    def follow(self, about, at, moves):
        """Children, links for answers, and its address of the switchboard: how many changed."""
        links = [Link(child) for child in self.children] + [request.link for request in self.pending.values()] + [Link(self.board)]
        links, changed = follow(links, about, at, moves)
        self.board = links.pop().address
        self.children = [link.address for link in links[: len(self.children)]]
        for name, link in zip(self.pending, links[len(self.children) :]):
            self.pending[name] = self.pending[name]._replace(link=link)
        return changed
