"""Names, addresses, links and messages (docs/SYSTEM.md, "Names" and "Links")."""

from dataclasses import dataclass, field, replace
from typing import NamedTuple


class Pid(NamedTuple):
    """A process, a server or a kernel: the machine that made it, and its number there."""

    home: int
    number: int

    def __str__(self):
        return f"{self.home}.{self.number}"


SWITCHBOARD = Pid(0, 1)
MANAGER = Pid(0, 2)
SERVERS = (SWITCHBOARD, MANAGER)


def kernel_of(machine):
    return Pid(machine, 0)


class Address(NamedTuple):
    """Who it is, the machine where that one was last known to be, and how often it had moved when it came there."""

    pid: Pid
    at: int
    moves: int = 0


class Link(NamedTuple):
    address: Address
    reply: bool = False
    code: int = 0
    channel: int = 0
    base: int = 0
    length: int = 0
    read: bool = False
    write: bool = False

    def __str__(self):
        rights = ("r" if self.read else "") + ("w" if self.write else "")
        return (
            f"{'reply' if self.reply else 'general'} {self.address.pid} at {self.address.at} moves {self.address.moves}"
            f" code {self.code} channel {self.channel} area {self.base} {self.length} {rights or '-'}"
        )


class Name(NamedTuple):
    """A message's: its sender, how many that one had sent before, and whether it answers the message of that name."""

    sender: Pid
    count: int
    answers: bool = False

    def __str__(self):
        return f"{self.sender}#{self.count}{'!' if self.answers else ''}"

    def answer(self):
        return self._replace(answers=True)


@dataclass(frozen=True)
class Message:
    name: Name
    to: Address
    sender: Address
    kind: str
    what: dict = field(default_factory=dict)

    def sent_on(self, at, moves):
        """The same message, on its way to where its receiver went."""
        return replace(self, to=Address(self.to.pid, at, moves))


def follow(links, about, at, moves):
    """Those of these links that lead to a process and know fewer moves of it lead to its place: the links, and how many
    changed. Where there is no link there is None."""
    changed = 0
    after = []
    for link in links:
        if link is not None and link.address.pid == about and link.address.moves < moves:
            link = link._replace(address=Address(about, at, moves))
            changed += 1
        after.append(link)
    return after, changed
