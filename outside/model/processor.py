"""One instruction (docs/FORMATS.md, "Instructions")."""

WORD = 2**32
# How many of the fields a, b and c name registers, from a on.
REGISTERS = {1: 1, 2: 1, 3: 2, 16: 0, 20: 0}
REGISTERS.update({operation: 3 for operation in range(4, 12)})
REGISTERS.update({operation: 2 for operation in (12, 13, 14, 15, 17, 18, 19)})

OUT_OF_RANGE, UNKNOWN, NOT_ALIGNED = 1, 2, 3


def step(process):
    """One step: None where it was a plain instruction, ("call", number), or ("fault", number) with nothing changed."""
    registers, memory, counter = process.registers, process.memory, process.counter
    if counter + 4 > len(memory):
        return "fault", OUT_OF_RANGE
    if counter % 4:
        return "fault", NOT_ALIGNED
    operation, a, b, c = memory[counter : counter + 4]
    if operation not in REGISTERS or any(field > 15 for field in (a, b, c)[: REGISTERS[operation]]):
        return "fault", UNKNOWN
    immediate = 256 * b + c
    after = (counter + 4) % WORD
    if operation == 1:
        registers[a] = immediate
    elif operation == 2:
        registers[a] = registers[a] % 65_536 + 65_536 * immediate
    elif operation == 3:
        registers[a] = registers[b]
    elif 4 <= operation <= 11:
        registers[a] = computed(operation, registers[b], registers[c]) % WORD
    elif 12 <= operation <= 15:
        address = registers[b] + c
        size = 4 if operation < 14 else 1
        if address + size > len(memory):
            return "fault", OUT_OF_RANGE
        if address % size:
            return "fault", NOT_ALIGNED
        if operation in (12, 14):
            registers[a] = int.from_bytes(memory[address : address + size], "big")
        else:
            memory[address : address + size] = (registers[a] % 256**size).to_bytes(size, "big")
    elif operation == 16:
        after = immediate
    elif operation in (17, 18, 19):
        x, y = registers[a], registers[b]
        if {17: x == y, 18: x != y, 19: x < y}[operation]:
            after = (counter + 4 + 4 * (c if c < 128 else c - 256)) % WORD
    process.counter = after
    return ("call", c) if operation == 20 else None


def computed(operation, x, y):
    if operation == 4:
        return x + y
    if operation == 5:
        return x - y
    if operation == 6:
        return x * y
    if operation == 7:
        return x & y
    if operation == 8:
        return x | y
    if operation == 9:
        return x ^ y
    if operation == 10:
        return x << (y % 32)
    return x >> (y % 32)
