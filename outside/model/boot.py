"""The boot file (docs/FORMATS.md, "Boot file")."""

import re
import tomllib
from dataclasses import dataclass

from assembler import Fault, assemble, labels_of
from values import MANAGER, SWITCHBOARD, Address, Link, Pid

NAME = re.compile(r"[a-z0-9_]{1,16}")
SERVERS = {"switchboard": SWITCHBOARD, "manager": MANAGER}
BLOCK = 256


class Refused(Exception):
    """The least rule that the file breaks, and its first place."""

    def __init__(self, number, place):
        super().__init__(f"boot refused: {number} at {place}")
        self.number = number
        self.place = place


@dataclass
class Image:
    name: str
    blocks: int
    code: bytes
    labels: dict


@dataclass
class Born:
    """A process of the boot file: its name, its pid, its machine, its image and its first links."""

    name: str
    pid: Pid
    machine: int
    image: Image
    links: list


@dataclass
class Boot:
    numbers: int
    quantum: int
    slots: int  # of a process's table: 32 in format 1, 128 in format 2
    longest: int  # a body: 64 bytes in format 1, 256 in format 2
    machines: list  # (slots, blocks) of each
    images: list
    processes: list


def is_integer(value):
    return type(value) is int


def is_tables(value):
    return isinstance(value, list) and all(isinstance(element, dict) for element in value)


def has_keys(table, required, optional=()):
    """Whether a table has these keys and no others, each with its type's test."""
    tests = {**dict(required), **dict(optional)}
    return all(key in tests and tests[key](value) for key, value in table.items()) and all(key in table for key in dict(required))


def is_string(value):
    return isinstance(value, str)


def is_truth(value):
    return isinstance(value, bool)


def is_place(value):
    """An integer, or a label."""
    return is_integer(value) or is_string(value)


def within(low, value, high):
    return low <= value <= high


LINK_NUMBERS = ("code", "channel")
LINK_PLACES = ("base", "len")
LINK_TRUTHS = ("reply", "read", "write")


def is_link(link):
    if "control" in link:
        return has_keys(link, {"control": is_string})
    optional = {**{key: is_integer for key in LINK_NUMBERS}, **{key: is_place for key in LINK_PLACES}, **{key: is_truth for key in LINK_TRUTHS}}
    return has_keys(link, {"to": is_string}, optional)


def is_process(process):
    keys = {"name": is_string, "image": is_string, "machine": is_integer}
    return has_keys(process, keys, {"links": is_tables}) and all(is_link(link) for link in process.get("links", []))


def document_of(data):
    """The document: a TOML document whose integers have 64 bits."""
    try:
        document = tomllib.loads(data.decode("utf-8"))
    except (UnicodeDecodeError, tomllib.TOMLDecodeError, RecursionError, ValueError):
        raise Refused(1, 0) from None
    if not fits(document):
        raise Refused(1, 0)
    return document


def fits(value):
    if isinstance(value, dict):
        return all(fits(part) for part in value.values())
    if isinstance(value, list):
        return all(fits(part) for part in value)
    return not is_integer(value) or within(-(2**63), value, 2**63 - 1)


def first(number, holds):
    """Refuses with a rule at the first place where it is broken."""
    for place, broken in enumerate(holds):
        if broken:
            raise Refused(number, place)


def is_used(names, place):
    return names[place] in names[:place]


def read_boot(data):
    """The system of a boot file."""
    document = document_of(data)
    top = {key: is_integer for key in ("format", "numbers", "quantum")}
    top.update({key: is_tables for key in ("machine", "image", "process")})
    first(2, [not has_keys(document, {}, top)])
    numbers, quantum, form = document.get("numbers", 1_048_576), document.get("quantum", 16), document.get("format", 1)
    first(3, [not (within(1, numbers, 1_048_576) and within(1, quantum, 1_000) and within(1, form, 2))])
    machines, images, processes = (document.get(key, []) for key in ("machine", "image", "process"))

    first(4, [not within(1, len(machines), 16)])
    first(5, (not has_keys(machine, {"slots": is_integer, "blocks": is_integer}) for machine in machines))
    first(6, (not (within(0, machine["slots"], 64) and within(0, machine["blocks"], 4_096)) for machine in machines))

    first(7, [len(images) > 256])
    first(8, (not has_keys(image, {"name": is_string, "text": is_string, "blocks": is_integer}) for image in images))
    names = [image["name"] for image in images]
    first(9, (not NAME.fullmatch(name) or is_used(names, place) for place, name in enumerate(names)))
    first(10, (not within(1, image["blocks"], 256) for image in images))
    codes = [code_of(image["text"]) for image in images]
    first(11, (code is None for code in codes))
    first(12, (len(code) > BLOCK * image["blocks"] for code, image in zip(codes, images)))
    made = [Image(image["name"], image["blocks"], code, labels_of(image["text"])) for image, code in zip(images, codes)]

    first(13, (not is_process(process) for process in processes))
    names = [process["name"] for process in processes]
    first(14, (not NAME.fullmatch(name) or name in SERVERS or is_used(names, place) for place, name in enumerate(names)))
    first(15, (not within(0, process["machine"], len(machines) - 1) for process in processes))
    by_name = {image.name: image for image in made}
    first(16, (process["image"] not in by_name for process in processes))
    free = [[machine["slots"], machine["blocks"]] for machine in machines]
    first(17, (not takes(free[process["machine"]], by_name[process["image"]].blocks) for process in processes))
    slots = 32 if form == 1 else 128
    first(18, (len(process.get("links", [])) > slots for process in processes))

    born, counts = {}, [3] * len(machines)
    for process in processes:
        machine = process["machine"]
        born[process["name"]] = Born(process["name"], Pid(machine, counts[machine]), machine, by_name[process["image"]], [])
        counts[machine] += 1
    first(19, (not all(is_known(link, born) for link in process.get("links", [])) for process in processes))
    first(20, (not all(is_in_range(link, born) for link in process.get("links", [])) for process in processes))
    children = {name: number for number, name in enumerate(born, 1)}
    for process in processes:
        born[process["name"]].links = [link_of(link, born, children) for link in process.get("links", [])]
    rooms = [(machine["slots"], machine["blocks"]) for machine in machines]
    return Boot(numbers, quantum, slots, 64 if form == 1 else 256, rooms, made, list(born.values()))


def code_of(text):
    try:
        return assemble(text)
    except Fault:
        return None


def takes(room, blocks):
    """Takes a slot and blocks of a machine's room: whether there were as many."""
    if room[0] < 1 or room[1] < blocks:
        return False
    room[0] -= 1
    room[1] -= blocks
    return True


def is_known(link, born):
    if "control" in link:
        return link["control"] in born
    return link["to"] in born or link["to"] in SERVERS


def is_in_range(link, born):
    if "control" in link:
        return True
    code, channel = (link.get(key, 0) for key in LINK_NUMBERS)
    if not (within(0, code, 2**32 - 1) and within(0, channel, 31)):
        return False
    if link["to"] not in born:
        return code == link.get("base", 0) == link.get("len", 0) == 0 and not link.get("read", False) and not link.get("write", False)
    base, length = area_of(link, born[link["to"]].image.labels)
    return base is not None and length is not None and base >= 0 and length >= 0 and base + length <= BLOCK * born[link["to"]].image.blocks


def area_of(link, labels):
    """Where a link's area begins, and how long it is. A label as base is where it stands, and as length the area ends there. None where
    there is no such label, or it stands before the base."""
    base, length = (link.get(key, 0) for key in LINK_PLACES)
    if is_string(base):
        base = labels.get(base)
    if is_string(length):
        end = labels.get(length)
        length = end - base if None not in (base, end) and base <= end else None
    return base, length


def link_of(link, born, children):
    if "control" in link:
        return Link(Address(MANAGER, 0), code=children[link["control"]])
    code, channel = (link.get(key, 0) for key in LINK_NUMBERS)
    reply, read, write = (link.get(key, False) for key in LINK_TRUTHS)
    if link["to"] in born:
        to = born[link["to"]]
        address = Address(to.pid, to.machine)
        base, length = area_of(link, to.image.labels)
    else:
        address = Address(SERVERS[link["to"]], 0)
        base = length = 0
    return Link(address, reply, code, channel, base, length, read, write)

