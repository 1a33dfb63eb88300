"""What the fuzzer draws from numbers: systems that do something, files for the readers, traces, drills."""

from random import Random


class Drawing:
    """What is drawn from a number, by chance."""

    def __init__(self, number):
        self.chance = Random(number)

    def below(self, n):
        return self.chance.randrange(n)

    def between(self, low, high):
        return self.chance.randint(low, high)

    def one_in(self, n):
        return self.chance.randrange(n) == 0

    def pick(self, values):
        return self.chance.choice(values)


# What a system may be drawn without, and what that is.
PARTS = {
    "machines": "more than one machine",
    "losses": "packets that are lost, repeated or come in another order: lines `deliver` and `tick`",
    "moves": "processes that move, whoever asks for it",
    "calloffs": "moves that are called off",
    "servermoves": "lines `migrate` for a server",
    "requests": "processes that ask for moves",
    "data": "data moves",
    "manager": "links to the process manager",
    "switchboard": "links to the switchboard",
    "links": "links that are made, copied, dropped or enclosed, and reply links",
    "faults": "programs that fault, and calls that are mostly refused",
    "format": "the second format, with its larger tables and bodies",
    "numbers": "pairs of machines that count as many messages as they may",
}


class System(Drawing):
    """A boot file and a schedule of a system that does something; of some, one place is changed. It is drawn without some of
    PARTS, where these are named, and whole, where nothing is to be changed in it."""

    SIZES = [1, 1, 1, 2, 3]  # of images, in blocks

    def __init__(self, number, without=(), whole=False):
        super().__init__(number)
        assert all(part in PARTS for part in without)
        self.without = set(without)
        self.careful = not self.one_in(4) or "faults" in without  # programs whose calls are mostly not refused
        self.machines = 16 if self.one_in(20) else self.pick([1, 2, 2, 3, 3, 4, 5])
        if "machines" in without:
            self.machines = 1
        self.format = 2 if self.one_in(5) and "format" not in without else 1
        self.images = self.between(2, 5)
        self.blocks = [self.pick(self.SIZES) for _ in range(self.images)]
        self.processes = [(self.below(self.machines), self.below(self.images)) for _ in range(self.between(1, 8))]
        self.links = [self.first_links() for _ in self.processes]
        self.boot = self.boot_file()
        self.schedule = self.directives()
        if whole:
            return
        if self.one_in(12):
            self.boot = self.spoiled(self.boot)
        elif self.one_in(15):
            self.schedule = self.spoiled(self.schedule)

    # The boot file

    def boot_file(self):
        lines = []
        if self.format == 2 or self.one_in(4):
            lines.append(f"format = {self.format}")
        if self.one_in(2):
            lines.append(f"quantum = {self.pick([1, 2, 3, 5, 16, 40, 1000])}")
        if self.one_in(8) and "numbers" not in self.without:
            lines.append(f"numbers = {self.between(1, 40)}")
        for machine in range(self.machines):
            here = [image for at, image in self.processes if at == machine]
            slots, blocks = self.room()
            slots, blocks = slots + len(here), blocks + sum(self.blocks[image] for image in here)
            lines += ["[[machine]]", f"slots = {slots}", f"blocks = {blocks}"]
        for image in range(self.images):
            lines += ["[[image]]", f'name = "i{image}"', f"blocks = {self.blocks[image]}", "text = '''", *self.program(image), "'''"]
        for number, (machine, image) in enumerate(self.processes):
            lines += ["[[process]]", f'name = "p{number}"', f"machine = {machine}", f'image = "i{image}"']
            lines.append("links = [" + ", ".join(self.links[number]) + "]")
        return "\n".join(lines).encode() + b"\n"

    def room(self):
        """The slots and blocks that are free on a machine."""
        return self.pick([0, 0, 1, 2, 3, 8]), self.pick([0, 1, 2, 3, 6, 20])

    def first_links(self):
        if self.careful:
            links = [self.link() for _ in range(4)] + ['{ to = "manager" }', '{ to = "switchboard" }']
            links.append(f'{{ control = "p{self.below(len(self.processes))}" }}')
            return [link if self.may_stand(link) else '{ to = "p0" }' for link in links]
        return [self.link() for _ in range(self.between(1, 6))]

    def may_stand(self, link):
        """Whether a link leads to no server that the system is drawn without."""
        if "manager" in self.without and ("manager" in link or "control" in link):
            return False
        return not ("switchboard" in self.without and "switchboard" in link)

    def link(self):
        links = iter(self.drawn_link, None)
        return next(link for link in links if self.may_stand(link) and not ("links" in self.without and "reply" in link))

    def drawn_link(self):
        if self.one_in(6):
            return '{ to = "switchboard" }' if self.one_in(2) else '{ to = "switchboard", reply = true }'
        if self.one_in(6):
            return '{ to = "manager" }'
        to = self.below(len(self.processes))
        if self.one_in(6):
            return f'{{ control = "p{to}" }}'
        words = [f'to = "p{to}"', f"code = {self.pick([0, 1, 7, 300, 4294967295])}"]
        if self.one_in(2):
            words.append(f"channel = {self.pick([0, 0, 1, 2] if self.careful else [0, 1, 2, 31])}")
        if self.one_in(4):
            words.append("reply = true")
        if not self.one_in(3):
            memory = 256 * self.blocks[self.processes[to][1]]
            base = self.pick([0, 0, 128, 200, self.below(memory)])
            words += [f"base = {base}", f"len = {self.pick([memory - base, self.between(0, memory - base)])}"]
            words += [f"{right} = true" for right in ("read", "write") if not self.one_in(4)]
        return "{ " + ", ".join(words) + " }"

    # Programs

    def program(self, image):
        """The lines of a program. Behind its code stand bytes for bodies and lists of slots."""
        memory = 256 * self.blocks[image]
        lines, data = [], []
        for number in range(self.between(2, 9)):
            part, behind = self.part(memory, number)
            if self.size(lines + part + data + behind) > memory - (80 if self.careful else 16):
                break
            lines += part
            data += behind
        if self.careful or self.one_in(3):
            lines.insert(self.below(len(lines) + 1) if self.one_in(3) else 0, "again:")
            lines.append("jmp again")
        lines.append(self.pick(["jmp 0", "jmp 0", "sys 1", "li r1 0\nli r2 0\nli r3 0\nsys 7"]))
        return lines + data

    @staticmethod
    def size(lines):
        """How many bytes such lines come to, at most."""
        return sum(len(line.split()) - 2 if ".byte" in line else 4 * (line.count("\n") + 1) for line in lines)

    def slot(self):
        if self.careful and not self.one_in(10):
            return self.below(4)
        return self.pick([0, 0, 1, 1, 2, 3, 4, 5, 6, 31, 32, self.below(256)]) if self.one_in(3) else self.between(0, 5)

    def part(self, memory, number):
        """A few lines of a program, and those of what stands behind it."""
        return self.pick([kind for kind in self.kinds() if self.may_be(kind)])(memory, f"d{number}")

    def kinds(self):
        kinds = [self.send] * 5 + [self.receive] * 5 + [self.move] * 3 + [self.make] * 2 + [self.ask_switchboard] * 2
        kinds += [self.ask_manager] * 2 + [self.ask_move] * 2 + [self.out] * 2 + [self.compute] * 2
        return kinds + [self.control, self.copy, self.drop, self.odd]

    def may_be(self, kind):
        """Whether a program may have this part."""
        parts = {"data": [self.move], "requests": [self.ask_move], "moves": [self.ask_move], "links": [self.make, self.copy, self.drop]}
        parts.update(manager=[self.ask_manager, self.ask_move, self.control], switchboard=[self.ask_switchboard], faults=[self.odd])
        return not any(kind in parts.get(part, []) for part in self.without)

    def rarely(self, n):
        """One in n, and much rarer in a program that is careful."""
        return self.one_in(10 * n if self.careful else n)

    def odd_number(self, memory):
        return self.pick([0, 1, 4, 5, 63, 64, 65, 255, 256, 257, memory - 1, memory, memory + 1, 65535, self.below(65536)])

    def send(self, memory, label):
        slots = [self.slot() for _ in range(self.pick([0, 0, 0, 1, 1, 2, 3, 4]))] if "links" not in self.without else []
        body = [self.below(256) for _ in range(self.pick([0, 1, 2, 5]))]
        length = len(body) if not self.rarely(6) else self.odd_number(memory)
        count = len(slots) if not self.rarely(12) else self.pick([5, 4, 255])
        lines = [f"li r1 {self.slot()}", f"li r2 {label}", f"li r3 {length}", f"li r4 {count}", f"li r5 {label}s", "sys 6"]
        return lines, [f"{label}: .byte " + " ".join(map(str, body + [0])), f"{label}s: .byte " + " ".join(map(str, slots + [0]))]

    def receive(self, memory, label):
        capacity = self.pick([0, 1, 4, 16, 64, 64, 64]) if not self.rarely(8) else self.odd_number(memory)
        place = memory - 64 if not self.rarely(8) else self.odd_number(memory)
        mask = self.pick([7, 7, 1, 3] if self.careful else [1, 1, 3, 7, 2, 0, 65535])
        lines = [f"li r1 {mask}", f"li r2 {place}", f"li r3 {capacity}", "sys 7"]
        if self.one_in(3):
            lines.insert(1, "lih r1 65535")
        if self.one_in(3):
            lines += ["mov r1 r5", f"li r2 {label}", f"li r3 {self.pick([0, 1, 1])}", "li r4 0", "sys 6"]
        if self.one_in(3):
            lines += [f"mov r1 r{self.below(9)}", "sys 2"]
        return lines, [f"{label}: .byte {self.between(2, 4)}"]

    def move(self, memory, label):
        length = self.pick([1, 4, 56, 56, 200, 256, 257, 300, memory]) if not self.rarely(8) else self.odd_number(memory)
        offset = self.pick([0, 0, 0, 1, 56])
        own = self.pick([memory - 64, 128, 0, memory - 1]) if self.rarely(3) else max(memory - 64 if length < 65 else 0, memory - length)
        direction = self.pick([0, 1]) if not self.rarely(5) else 2
        lines = [f"li r1 {self.slot()}", f"li r2 {direction}", f"li r3 {offset}", f"li r4 {own}", f"li r5 {length}", "sys 8"]
        return lines, []

    def make(self, memory, label):
        base = self.pick([0, 128, 200, self.odd_number(memory)])
        length = self.pick([0, 16, memory - min(base, memory), self.odd_number(memory)])
        lines = [f"li r1 {self.below(10)}", f"li r2 {self.pick([0, 1, 2, 31, 32])}", f"li r3 {self.pick([0, 1, 2, 4, 6, 7, 8])}"]
        return lines + [f"li r4 {base}", f"li r5 {length}", "sys 3"], []

    def copy(self, memory, label):
        return [f"li r1 {self.slot()}", "sys 4"], []

    def drop(self, memory, label):
        return [f"li r1 {self.slot()}", "sys 5"], []

    def out(self, memory, label):
        return [f"mov r1 r{self.below(16)}", "sys 2"], []

    def over(self, label, body, slots, server=None):
        slot = server if self.careful and server and not self.one_in(4) else self.slot()
        slots = slots if "links" not in self.without else []
        lines = [f"li r1 {slot}", f"li r2 {label}", f"li r3 {len(body)}", f"li r4 {len(slots)}", f"li r5 {label}s", "sys 6"]
        return lines, [f"{label}: .byte " + " ".join(map(str, body)), f"{label}s: .byte " + " ".join(map(str, slots + [0]))]

    def ask_switchboard(self, memory, label):
        name = [self.pick([97, 98, 0])] * self.pick([1, 1, 2, 16, 17, 0])
        return self.over(label, [self.pick([1, 1, 2, 2, 3])] + name, [self.slot() for _ in range(self.pick([1, 1, 2, 2, 0, 3]))], 5)

    def ask_manager(self, memory, label):
        machine = self.below(self.machines + 1)
        image = self.below(self.images + 1)
        return self.over(label, [self.pick([1, 1, 1, 2]), machine, 0, image], [self.slot() for _ in range(self.pick([1, 2, 3, 4, 0]))], 4)

    def ask_move(self, memory, label):
        machine = self.below(self.machines + self.one_in(6))
        body = [5, machine] if not self.rarely(6) else self.pick([[5], [5, machine, 0], [4, machine], [5, 255]])
        return self.over(label, body, [self.slot() for _ in range(self.pick([0, 1, 1, 2]))], 6)

    def control(self, memory, label):
        operation = self.pick([2, 3, 3, 4, 5])
        if operation == 5 and self.without & {"requests", "moves"}:
            operation = 2
        return self.over(label, [operation] + [0] * self.one_in(6), [self.slot()] * self.one_in(3))

    def compute(self, memory, label):
        word = self.pick(["add", "sub", "mul", "and", "or", "xor", "shl", "shr"])
        a, b, c = (self.between(6, 15) for _ in range(3))
        lines = [f"li r{b} {self.odd_number(memory)}", f"{word} r{a} r{b} r{c}"]
        if self.one_in(2):
            word = self.pick(["lw", "lb", "lw", "lb", "sb"])
            lines += [f"li r{b} {4 * self.below(memory // 4)}", f"{word} r{a} r{b} {self.pick([0, 0, 4, 3])}"]
        return lines, []

    def odd(self, memory, label):
        lines = [
            f"sys {self.pick([0, 9, 255])}",
            ".word 0xff000000",
            ".byte 4 16 0 0",
            f"lw r6 r7 {self.below(256)}",
            f"jmp {self.odd_number(memory)}",
            "sys 1",
            f"bltu r{self.below(16)} r{self.below(16)} {label}\n{label}:",
        ]
        return [self.pick(lines)] if self.one_in(3) else [lines[-1]], []

    # The schedule

    def pid(self):
        machine = self.pick(self.processes)[0]
        return f"{machine}.{3 + self.below(sum(at == machine for at, _ in self.processes) + self.one_in(6))}"

    def directives(self):
        most = self.machines - 1
        lines = []
        for _ in range(self.between(5, 45)):
            d = self.below(16)
            if d < 4:
                lines.append(f"turn {self.between(0, most)}")
            elif d == 4:
                lines.append(f"tick {self.between(0, most)}")
            elif d in (5, 6) and most:
                a = self.between(0, most)
                b = (a + self.between(1, most)) % (most + 1)
                first = self.below(self.pick([1, 3, 10, 60]))
                packets = self.pick([[0], [1, 0], [1, 2, 0], [2, 1, 0, 1], [0, 0]])
                lines += [f"deliver {a} {b} {first + packet}" for packet in packets]
            elif d in (7, 8):
                pid, machine = self.pid(), self.between(0, most)
                lines.append(f"migrate {pid} {machine}")
                if self.one_in(3):
                    lines += self.pick([["round"], ["round", "round"], [f"spin {self.between(1, 6)}"], []])
                    lines.append(f"calloff {pid} {machine}")
            elif d == 9:
                pid = self.pid()
                for _ in range(self.between(2, 5)):
                    machine = self.between(0, most)
                    lines.append(f"migrate {pid} {machine}")
                    if self.one_in(3):
                        lines += self.pick([["round"], ["round", "round"], [f"spin {self.between(1, 4)}"], []])
                        lines.append(f"calloff {pid} {machine}")
                    spins = f"{self.pick(['spin', 'spin', 'rest'])} {self.between(1, 20)}"
                    lines += self.pick([["settle"], ["round"], [spins], ["settle", spins], []])
            elif d in (10, 11):
                lines.append("round")
            elif d == 12:
                lines.append(f"spin {self.between(1, 12)}")
            elif d == 13:
                lines.append(f"spin {self.between(10, 60)}")
            elif d == 14:
                lines.append(self.pick(["settle", f"rest {self.between(1, 60)}"]))
            elif self.one_in(4):
                lines.append(self.pick(["", "# nothing", " \t round\t", f"turn 00{self.between(0, most)}", f"migrate 0.{self.below(3)} 0"]))
        if self.one_in(2):
            lines.append(self.pick(["settle", f"rest {self.pick([1, 30, 300])}"]))
        lines = [line for line in lines if self.may_come(line.split())]
        return "\n".join(lines).encode() + b"\n" * self.below(2)

    def may_come(self, words):
        """Whether a schedule may have this line."""
        word = words[0] if words else ""
        left_out = {"losses": ["tick", "deliver"], "moves": ["migrate", "calloff"], "calloffs": ["calloff"]}
        if any(word in left_out.get(part, []) for part in self.without):
            return False
        return not ("servermoves" in self.without and word == "migrate" and words[1] in ("0.1", "0.2"))

    def spoiled(self, data):
        """The same with one place changed."""
        at = self.below(len(data) + 1)
        end = min(len(data), at + self.between(0, 3))
        new = bytes(self.pick(b"0123456789 \n\t\r\"'=[]{},.#abr-_:\xff") for _ in range(self.between(0, 3)))
        return data[:at] + new + data[end:]


class Lively(System):
    """A system in which more comes about: machines have room, links have areas, and servers are asked for what they can do."""

    SIZES = [1, 2, 2, 3]

    def room(self):
        return self.pick([1, 4, 8]), self.pick([3, 8, 20])

    def kinds(self):
        return super().kinds() + [self.move, self.ask_switchboard, self.ask_manager, self.control] * 2

    def first_links(self):
        self.careful = True
        return [self.wide_link(), self.wide_link(), *super().first_links()[2:]]

    def wide_link(self):
        """A link with all of a process's memory as its area."""
        to = self.below(len(self.processes))
        return f'{{ to = "p{to}", len = {256 * self.blocks[self.processes[to][1]]}, read = true, write = true }}'

    def move(self, memory, label):
        length = self.pick([1, 56, 256, 257, 300, 512])
        lines = [f"li r1 {self.below(2)}", f"li r2 {self.below(2)}", f"li r3 {self.pick([0, 0, 56])}"]
        return lines + [f"li r4 {max(memory - max(length, 64), 0)}", f"li r5 {length}", "sys 8"], []

    def ask_switchboard(self, memory, label):
        operation = self.pick([1, 1, 2])
        slots = [self.below(2), self.pick([0, 1, 2, 3])][: 3 - operation]
        return self.over(label, [operation, self.between(97, 99)], slots, 5)

    def ask_manager(self, memory, label):
        slots = [self.below(2), self.below(4), self.below(4)][: self.between(1, 3)]
        return self.over(label, [1, self.below(self.machines), 0, self.below(self.images)], slots, 4)

    def control(self, memory, label):
        return self.over(label, [self.pick([2, 3, 3, 3, 4])], [], 6)


class Files(Drawing):
    """A boot file and a schedule for the readers: small ones. Odd are some keys and values, or lines of a program, or of the
    schedule."""

    WORDS = {"li": "rv", "lih": "rv", "mov": "rr", "jmp": "v", "sys": "c", ".word": "w", ".byte": "nn", ".zero": "z", ".align": "m", ".ascii": "t"}
    WORDS.update(dict.fromkeys("add sub mul and or xor shl shr".split(), "rrr"))
    WORDS.update(dict.fromkeys("lw sw lb sb".split(), "rrn"))
    WORDS.update(dict.fromkeys("beq bne bltu".split(), "rrl"))
    # how often a call stands with one, three and five operands
    CALLS = {"send": (2, 3, 2), "receive": (2, 3, 0), "make": (0, 3, 2), "move": (0, 0, 3), "copy": (1, 0, 0), "drop": (1, 0, 0)}
    WORDS.update({**dict.fromkeys(CALLS, "a"), "out": "r", "exit": "", ".equ": "en"})
    OPERANDS = {"r": "r0 r7 r15", "v": "x y z 5 65535 0xff 'a' e x+4", "n": "0 1 255 0x7f '~'", "w": "x 4294967295 0 f+1", "z": "0 1 4 500", "l": "x y z e"}
    OPERANDS.update({"a": "r0 r6 r7 r15 0 5 65535 x e x+8 'a'", "e": "e f e1 e2 e3"})
    OPERANDS.update({"c": "0 1 255 0x7f EXIT SEND MOVE", "m": "1 2 3 4 0x10", "t": '"" "a" "a,b" "~!"'})
    ODD_OPERANDS = (
        "r16 r01 R1 r rr Foo SEND \"a \"a;b\" nowhere abcdefghijklmnop abcdefghijklmnopq 256 65536 65537 4294967296 0x0 0xFF 0x10000 0x100000000 0x 0X1"
        " 007 00000000000000000000000000000000001 99999999999999999999999999 -1 +1 1_0 \u00e9 - . r1 r2 r3 r4 r5 'ab' '' ' ''' 'a x+ x+y x+65535 e+65536"
        " nowhere+1 nowhere+x +4 x+4+4 x-4 '\u00e9'"
    ).split(" ")
    ODD_LABELS = "x: y: z: : A: 1a: _: x:y: x:: abcdefghijklmnop: abcdefghijklmnopq: r1: li:".split(" ")
    ODD_VALUES = (
        '0 -1 1 64 65 256 257 4096 4097 true 1.5 "A" "" "abcdefghijklmnop" "abcdefghijklmnopq" "manager" "switchboard" "i0" "p0"'
        " [] [1] [[]] {} 1979-05-27 4294967295 4294967296"
    ).split(" ")
    ODD_NUMBERS = (
        "0 00 003 0000000000 00000000000 4294967295 4294967296 9999999999 65536 65537 9 x -1 +1 1.0 0x1 0.3.1 0. .3 0.x \u00e9"
    ).split(" ")

    def __init__(self, number):
        super().__init__(f"files {number}")
        self.odd = self.pick(["keys", "keys", "text", "text", "schedule"])
        self.machines = self.between(1, 3)
        self.images = self.between(1, 2)
        self.processes = self.between(0, 3)
        self.boot = self.boot_file().encode()
        self.schedule = "".join(self.directive() for _ in range(self.below(7))).encode("latin-1")
        if self.one_in(4):
            self.schedule = self.schedule.rstrip(b"\n")

    def boot_file(self):
        top = {"numbers": "1 9 99 1048576", "quantum": "1 2 16 1000", "format": "1 2"}
        if self.odd == "keys" and self.one_in(5):
            top = {"numbers": "0 1 1048576 1048577", "quantum": "0 1 1000 1001", "format": "0 1 2 3", "Numbers": "1"}
        text = "".join(f"{key} = {self.pick(values.split())}\n" for key, values in top.items() if self.one_in(4))
        tables = []
        for _ in range(self.machines):
            tables.append(("machine", {"slots": self.pick("2 3 64".split()), "blocks": self.pick("2 4 4096".split())}))
        for i in range(self.images):
            tables.append(("image", {"name": f'"i{i}"', "blocks": self.pick("1 1 2 4".split()), "text": self.text()}))
        for i in range(self.processes):
            keys = {"name": f'"p{i}"', "machine": str(self.below(self.machines)), "image": f'"i{self.below(self.images)}"'}
            count = self.pick([0, 1, 2, 3, self.pick([1, 32, 33])])
            tables.append(("process", {**keys, "links": "[" + ", ".join(self.link() for _ in range(count)) + "]"}))
        for _ in range(self.pick([0, 1, 2]) if self.odd == "keys" else 0):
            self.spoil(self.pick(tables)[1])
        return text + "".join(f"[[{name}]]\n" + "".join(f"{key} = {value}\n" for key, value in keys.items()) for name, keys in tables)

    def spoil(self, keys):
        change = self.below(6)
        if change == 0:
            keys.pop(self.pick(list(keys)))
        elif change == 1:
            keys[self.pick(["x", "Name", "blocks"])] = "1"
        else:
            keys[self.pick(list(keys))] = self.pick(self.ODD_VALUES)

    def link(self):
        name = f'"p{self.below(self.processes)}"'
        if self.one_in(6):
            keys = {"control": name}
        elif self.one_in(4):
            keys = {"to": self.pick(['"switchboard"', '"manager"'])}
        else:
            keys = {"to": name, "base": self.pick("0 0 0 0 1 128 255 256".split()), "len": self.pick("0 0 1 1 128 256".split())}
        if "to" in keys:
            values = "0 0 1 31 32 4294967295 4294967296 -1" if self.odd == "keys" and self.one_in(4) else "0 0 1 31"
            keys.update({key: self.pick(values.split()) for key in ("code", "channel") if self.one_in(3)})
            keys.update({key: self.pick(["true", "false"]) for key in ("reply", "read", "write") if self.one_in(4)})
        if self.odd == "keys" and self.one_in(15):
            self.spoil(keys)
        return "{ " + ", ".join(f"{key} = {value}" for key, value in keys.items()) + " }"

    def text(self):
        if self.odd != "text":
            return '"sys 7"'
        lines = "\n".join([self.line() for _ in range(self.pick([1, 2, 2, 3, 5]))] + ["x:\ny:\nz:"] * (not self.one_in(6)))
        if self.one_in(30):
            lines += "\n.zero 65536\n" + self.line()
        for one, other in (("\\", "\\\\"), ('"', '\\"'), ("\n", "\\n"), ("\t", "\\t"), ("\r", "\\r")):
            lines = lines.replace(one, other)
        return f'"{lines}"'

    def line(self):
        label = self.pick(self.ODD_LABELS) + " " if self.one_in(40) else self.pick(["x: ", "l:", "m:\t"]) if self.one_in(12) else ""
        word = self.pick(list(self.WORDS)) if not self.one_in(60) else self.pick(["hop", "LI", "li:", "", "r1", ";", "Send", ".equ x"])
        kinds = self.WORDS.get(word, "")
        if word in self.CALLS:
            kinds *= self.pick([count for count, often in zip((1, 3, 5), self.CALLS[word]) for _ in range(often)])
        operands = [self.pick(self.OPERANDS[kind].split(" ")) for kind in kinds]
        change = self.below(40)
        if change < 2 and operands:
            operands[self.below(len(operands))] = self.pick(self.ODD_OPERANDS)
        elif change == 2:
            operands.append(self.pick(self.ODD_OPERANDS))
        elif change == 3 and operands:
            operands.pop()
        behind = self.pick(["; a remark", " ; li r99", "\r", " ,", "  "]) if self.one_in(6) else ""
        return label + word + " " + self.pick([" ", " ", ", ", ",", "\t", " , ", "\r"]).join(operands) + behind

    def directive(self):
        """A line of a schedule, with its line feed."""
        word = self.pick(["turn", "tick", "deliver", "migrate", "calloff", "round", "spin", "settle", "rest"])
        a = self.below(self.machines)
        pid = f"{a}.{self.below(6)}"
        operands = {"deliver": [a, (a + 1) % self.machines, self.pick([0, 1, 2**32 - 1])], "turn": [a], "tick": [a]}
        operands.update(dict.fromkeys(["migrate", "calloff"], [pid, a]))
        words = [str(operand) for operand in operands.get(word, [self.between(1, 3)] if word in ("spin", "rest") else [])]
        change = self.below(16) if self.odd == "schedule" else None
        if change == 0 and words:
            words[self.below(len(words))] = self.pick(self.ODD_NUMBERS)
        elif change == 1:
            words.append(self.pick(self.ODD_NUMBERS))
        elif change == 2 and words:
            words.pop()
        elif change == 3:
            word = self.pick(["Turn", "hop", "#turn", "turn#", "spin1", "", "# a remark"])
        before, behind = self.pick(["", "", " ", "\t"]), self.pick(["", "", "", " ", "\r", " \r", "\r\r"])
        return before + self.pick([" ", "  ", "\t"]).join([word, *words]) + behind + "\n"


def spoiled_trace(number, trace):
    """A trace with a place or two changed, or the whole one."""
    chance = Random(f"trace {number}")
    lines = trace.split(b"\n")
    for _ in range(chance.choice([0, 1, 1, 1, 2])):
        at = chance.randrange(len(lines))
        words = lines[at].split(b" ")
        change = chance.randrange(8)
        if change == 0:
            del lines[at]
        elif change == 1:
            lines.insert(at, lines[at])
        elif change == 2:
            lines.insert(at, chance.choice(lines))
        elif change == 3:
            lines[at + 1 :] = [b""]
        elif change == 4:
            lines[at] = chance.choice(lines)
        elif change in (5, 6):
            alike = chance.choice([line for line in lines if line.split(b" ")[0] == words[0]]).split(b" ")
            place = chance.randrange(min(len(words), len(alike)))
            words[place] = alike[place]
            lines[at] = b" ".join(words)
        else:
            place = chance.choice([place for place, word in enumerate(words) if word.isdigit()] or [0])
            words[place] = chance.choice(b"0 1 2 3 4 5 8 15 16 17 255 256 4294967295 4294967296 01 x 0.3 0.3#0 !".split(b" "))
            lines[at] = b" ".join(words)
        if not lines:
            break
    return b"\n".join(lines)


def drawn_drill(number):
    chance = Random(f"drill {number}")
    seed, machines, count = chance.randrange(2**32), chance.randint(2, 16), chance.choice([1, 10, 40, 100, 200])
    return ["drill", "--seed", str(seed), "--machines", str(machines), "--lines", str(count), *["--trace"] * chance.randrange(2)]


def drawn_own_drill(number, boot):
    """A drill of the system of this boot file."""
    chance = Random(f"own drill {number}")
    seed, count = chance.randrange(2**32), chance.choice([1, 10, 40, 100, 200])
    return ["drill", "--boot", boot, "--seed", str(seed), "--lines", str(count), *chance.choice([[], ["--trace"], ["--schedule"]])]
