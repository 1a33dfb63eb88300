"""Where everything stands behind some groups, and what is in the messages."""

from ends import end_lines
from world import Frozen, Incoming

# What kernels tell each other of moves: the kernel without machines doesn't hold these messages.
KERNELS = (
    "migrate", "update", "ask", "refuse", "pullstate", "state", "pullblock", "memory", "alltaken", "restart", "calloff", "bury",
)


def standing_messages(world):
    """Each message that stands somewhere, by its name; each has one content, however many lists it is in."""
    found = []
    for machine in world.machines:
        found += machine.inbox
        for record in machine.records.values():
            if isinstance(record, (Frozen, Incoming)):
                found += record.held
            process = getattr(record, "process", None)
            if process is not None:
                found += process.queue
    for stream in world.streams.values():
        found += stream.given[stream.taken :]
    return [message for _, message in sorted({message.name: message for message in found}.items())]


def body_words(data):
    """The length of a body, and the body where there is one."""
    return ["length", len(data)] + (["body", data.hex()] if data else [])


def content_words(world, message):
    what, kind = message.what, message.kind
    if kind == "user":
        return ["code", what["code"], "channel", what["channel"]] + body_words(what["body"])
    if kind == "read":
        return ["base", what["base"], "length", what["length"]]
    if kind == "write":
        return ["base", what["base"]] + body_words(what["bytes"])
    if kind == "block":
        return body_words(what["bytes"])
    if kind == "create":
        return ["image", what["image"]]
    if kind == "created":
        return ["process", what["pid"]]
    if kind == "move":
        return ["machine", what["machine"]]
    if kind == "moved":
        return ["result", what["result"]]
    return []


def content_lines(world):
    lines = []
    for message in standing_messages(world):
        if message.kind in KERNELS:
            continue
        words = ["content", message.name, message.kind, message.to.pid] + content_words(world, message)
        lines.append(" ".join(map(str, words)))
        lines += [f"carries {message.name} {place} {link}" for place, link in enumerate(message.what.get("links", ()))]
    return lines


def name_lines(boot, names):
    """What the processes of the boot file are called there, in its order."""
    return [f"name {born.pid} {name}" for born, name in zip(boot.processes, names)]


class Enough(Exception):
    """There are as many groups as were asked for."""


def look(world, directives, most, last):
    """Does directives up to so many groups; `last` has the lines of the last group then. What is to be written."""
    try:
        if most == 0:
            raise Enough
        for directive in directives:
            world.do(directive)
    except Enough:
        pass
    return last + end_lines(world) + content_lines(world)
