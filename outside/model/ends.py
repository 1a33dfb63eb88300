"""The lines at the end (docs/FORMATS.md, "Printed lines")."""

from dataclasses import dataclass

from values import MANAGER, SERVERS, SWITCHBOARD
from world import Frozen, Here, Incoming

BLOCK = 256


@dataclass
class Ended:
    """What the world keeps of a process that no machine knows of any more."""

    why: int


def list_line(*words, messages):
    return [" ".join(map(str, [*words, *(message.name for message in messages)]))] if messages else []


def standings(world):
    """Where each process and each server is, in the order of their names: its record, and its machine. Of a process that has ended
    the world knows why."""
    found = {pid: (Ended(why), 0) for pid, why in world.ended.items()}
    for machine in world.machines:
        for pid, record in machine.records.items():
            # what leaves is there until it has gone; only then what comes is it
            if isinstance(record, (Here, Frozen)) or isinstance(record, Incoming) and pid not in found:
                found[pid] = (record, machine.number)
    return sorted(found.items())


PLACES = {Here: "here", Frozen: "leaving", Incoming: "arriving"}


def server_lines(pid, record, machine, server):
    """How many a server has sent, and where it is, unless it is where it began."""
    place = PLACES[type(record)]
    return [f"server {pid} {server.sent}"] + ([] if (machine, place) == (0, "here") else [f"place {pid} at {machine} {place}"])


def process_lines(pid, record, machine):
    if isinstance(record, Ended):
        return [f"process {pid} ended {record.why}"]
    process = record.process
    place = PLACES[type(record)]
    go = "stopped" if process.stopped else "go"
    lines = [
        f"process {pid} at {machine} {place} {process.status or 'ready'} {go} {process.sent}",
        " ".join(map(str, ["registers", pid, *process.registers, process.counter])),
    ]
    for block in range(process.blocks):
        used = bytes(process.memory[BLOCK * block : BLOCK * (block + 1)]).rstrip(b"\0")
        if used:
            lines.append(f"memory {pid} {block} {used.hex()}")
    lines += [f"link {pid} {slot} {link}" for slot, link in enumerate(process.table) if link is not None]
    return lines


def end_lines(world):
    everybody = standings(world)
    found = [(pid, where) for pid, where in everybody if pid not in SERVERS]
    servers = {SWITCHBOARD: world.switchboard, MANAGER: world.manager}
    lines = ["final"]
    for pid, (record, machine) in found:
        lines += process_lines(pid, record, machine)
    for pid, (record, machine) in everybody:
        if pid in SERVERS:
            lines += server_lines(pid, record, machine, servers[pid])
    lines += [f"name {name.hex()} {link}" for name, link in world.switchboard.names.items()]
    lines += [f"child {number} {child.pid} at {child.at}" for number, child in enumerate(world.manager.children, 1)]
    lines += [f"pending {name}" for name in world.manager.pending]
    for pid, (record, _) in found:
        if not isinstance(record, Ended):
            lines += list_line("queue", pid, messages=record.process.queue if record.process else [])
    for machine in world.machines:
        for pid, record in sorted(machine.records.items()):
            if isinstance(record, (Frozen, Incoming)):
                lines += list_line("holding", machine.number, pid, messages=record.held)
    for machine in world.machines:
        lines += list_line("inbox", machine.number, messages=machine.inbox)
    for a, b in world.pairs:
        stream = world.streams[a, b]
        lines += list_line("stream", a, b, messages=stream.given[stream.taken :])
    return lines + [f"end {world.groups}"]


