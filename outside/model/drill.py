"""A system and directives drawn from a number, and what is counted of them (docs/FORMATS.md, "Drill")."""

from boot import Boot, Born, Image
from check import KINDS
from counting import Counts, quiet_line
from values import Address, Link, Pid
from world import World

CODE = bytes.fromhex(
    "01010000 01030004 01040000 14000006 01010001 010200c8 01030008 14000007"
    "01010001 01020000 01030000 010400f0 01050008 14000008 10000000"
)

class Drawing:
    """Numbers that are drawn one after another."""

    def __init__(self, seed):
        self.x = seed

    def draw(self, n):
        self.x = (6364136223846793005 * self.x + 1442695040888963407) % 2**64
        return self.x // 2**33 % n


def drawn_boot(machines):
    image = Image("drill", 1, CODE, {})
    count = 2 * machines
    pids = [Pid(i % machines, 3 + i // machines) for i in range(count)]
    addresses = [Address(pid, pid.home) for pid in pids]
    processes = []
    for i, pid in enumerate(pids):
        first = Link(addresses[(i + 1) % count], code=i)
        second = Link(addresses[(i + machines) % count], base=192, length=16, read=True)
        processes.append(Born("", pid, pid.home, image, [first, second]))
    return Boot(1_048_576, 16, 32, 64, [(3, 3)] * machines, [image], processes)


def drawn_directive(drawing, machines):
    draw = drawing.draw
    kind = draw(8)
    if kind <= 2:
        return "turn", [draw(machines)]
    if kind == 3:
        return "tick", [draw(machines)]
    if kind == 4:
        pid = Pid(draw(machines), 3 + draw(2))
        return "migrate", [pid, draw(machines)]
    if kind == 5:
        a = draw(machines)
        b = (a + 1 + draw(machines - 1)) % machines
        return "deliver", [a, b, draw(64)]
    return "round", []


def own_directive(drawing, machines, pids):
    """The same for somebody's own system, with these processes."""
    draw = drawing.draw
    kind = draw(9)
    if kind in (4, 8) and pids:
        pid = pids[draw(len(pids))]
        return "migrate" if kind == 4 else "calloff", [pid, draw(machines)]
    if kind in (0, 1, 2, 4, 8):
        return "turn", [draw(machines)]
    if kind == 3:
        return "tick", [draw(machines)]
    if kind == 5:
        if machines == 1:
            return "turn", [0]
        a = draw(machines)
        b = (a + 1 + draw(machines - 1)) % machines
        return "deliver", [a, b, draw(64)]
    return "round", []


def directives_of(seed, machines, count, pids=None):
    """The directives that a number draws: of a drawn system, or of one's own with these processes."""
    drawing = Drawing(seed)
    for _ in range(count):
        yield drawn_directive(drawing, machines) if pids is None else own_directive(drawing, machines, pids)


def drill(boot, seed, count, directives, trace, write):
    """Does the drill: its groups go to `write` if they are wanted, and then the summary."""
    counts = Counts(KINDS)

    def group(lines):
        counts.add(lines)
        if trace:
            write(lines)

    world = World(boot, group)
    for directive in directives:
        world.do(directive)
    write([f"drill {seed} {len(boot.machines)} {count}"] + counts.lines() + [quiet_line(world)])
