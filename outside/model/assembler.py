"""The assembler (docs/FORMATS.md, "Assembler")."""

import re

THREE = {"add": 4, "sub": 5, "mul": 6, "and": 7, "or": 8, "xor": 9, "shl": 10, "shr": 11}
LOADS = {"lw": 12, "sw": 13, "lb": 14, "sb": 15}
BRANCHES = {"beq": 17, "bne": 18, "bltu": 19}

CALLS = {"EXIT": 1, "OUT": 2, "MAKE": 3, "COPY": 4, "DROP": 5, "SEND": 6, "RECEIVE": 7, "MOVE": 8}

# What the operands of each word are, and its number. Kinds: r register, v value or label, n number to 255, c call, d distance.
FORMS = {"li": ("rv", 1), "lih": ("rv", 2), "mov": ("rr", 3), "jmp": ("v", 16), "sys": ("c", 20)}
FORMS.update({word: ("rrr", number) for word, number in THREE.items()})
FORMS.update({word: ("rrn", number) for word, number in LOADS.items()})
FORMS.update({word: ("rrd", number) for word, number in BRANCHES.items()})

# Calls with operands: the call's number, how many registers it reads, and how many operands may stand.
LINES = {"exit": (1, 0, (0,)), "out": (2, 1, (1,)), "make": (3, 5, (3, 5)), "copy": (4, 1, (1,)), "drop": (5, 1, (1,)),
         "send": (6, 5, (1, 3, 5)), "receive": (7, 3, (1, 3)), "move": (8, 5, (5,))}

LABEL = re.compile(r"[a-z_][a-z0-9_]{0,15}")
REGISTER = re.compile(r"r([0-9]|1[0-5])")
NUMBER = re.compile(r"[0-9]+|0x[0-9a-fA-F]+|'[!-~]'")
BEGINS_A_LABEL = re.compile(r"[A-Za-z_]")
ENDS_WITH_A_TEXT = re.compile(r'[^"]*"([ !#-~]*)"[ \t\r,]*')
DIRECTIVES = (".word", ".byte", ".zero", ".align", ".ascii", ".equ")
MOST_BYTES = 65_536


class Fault(Exception):
    """A line, from 1, and what is wrong there."""

    def __init__(self, line, why):
        super().__init__(f"line {line}, why {why}")
        self.line = line
        self.why = why


class Wrong(Exception):
    """What is wrong with an operand."""

    def __init__(self, why):
        super().__init__(why)
        self.why = why


def words_of(line):
    """The words of a line, without its comment."""
    return [word for word in re.split(r"[ \t\r,]", line.split(";")[0]) if word]


def text_of(line):
    """The text between quotation marks with which a line ends, without its comment."""
    found = ENDS_WITH_A_TEXT.fullmatch(line.split(";")[0])
    return found and found[1]


def number_of(word, most):
    if not NUMBER.fullmatch(word):
        raise Wrong(3)
    if word.startswith("'"):
        value = ord(word[1])
    else:
        value = int(word[2:], 16) if word.startswith("0x") else within_digits(word)
    if value > most:
        raise Wrong(4)
    return value


def within_digits(word):
    """A decimal number; one of very many digits stands for any that is too large."""
    digits = word.lstrip("0") or "0"
    return int(digits) if len(digits) <= 20 else 10**20


def is_label(name):
    return LABEL.fullmatch(name) is not None and REGISTER.fullmatch(name) is None


def register_of(word):
    found = REGISTER.fullmatch(word)
    if not found:
        raise Wrong(2)
    return int(found[1])


def label_of(word, labels):
    if word not in labels:
        raise Wrong(5)
    return labels[word]


def value_of(word, labels, most):
    """A number, or a label's value, or that and a number more."""
    if not BEGINS_A_LABEL.match(word):
        return number_of(word, most)
    name, plus, more = word.partition("+")
    behind = number_of(more, float("inf")) if plus else 0
    value = label_of(name, labels) + behind
    if value > most:
        raise Wrong(4)
    return value


def call_of(word):
    """A call's number, or its name in capital letters."""
    return CALLS[word] if word in CALLS else number_of(word, 255)


def distance_of(word, labels, place):
    """How many words a label is from behind the instruction at this place."""
    if not BEGINS_A_LABEL.match(word):
        raise Wrong(3)
    bytes_off = label_of(word, labels) - (place + 4)
    if bytes_off % 4 or not -128 <= bytes_off // 4 <= 127:
        raise Wrong(4)
    return bytes_off // 4


def parts_of(line):
    """A line's label, as it is written, its other words, and whether a label stands there that isn't one or can't."""
    words = words_of(line)
    if words and words[0].endswith(":"):
        label = words[0][:-1]
        return (label, words[1:], words[1:2] == [".equ"]) if is_label(label) else (None, words[1:], True)
    if len(words) > 1 and words[0] == ".equ" and is_label(words[1]):
        return words[1], words, False
    return None, words, False


def value_given(words, place):
    """What a line's label is worth: its place, or the number of .equ, which counts 0 where it isn't good."""
    if words[:1] != [".equ"]:
        return place
    try:
        return number_of(words[2], 2**32 - 1) if len(words) == 3 else 0
    except Wrong:
        return 0


def setting_of(word, register, operand, labels):
    """The instruction that sets a register of a call to its operand."""
    if not REGISTER.fullmatch(operand) and word != "out":
        return bytes([1, register]) + value_of(operand, labels, 65_535).to_bytes(2, "big")
    other = register_of(operand)
    if 1 <= other < register:
        raise Wrong(2)
    return bytes([3, register, other, 0])


def line_of_call(word, operands, labels):
    """The bytes of a call with its operands."""
    number, registers, _ = LINES[word]
    operands = operands + ["0"] * (registers - len(operands))
    settings = [setting_of(word, register, operand, labels) for register, operand in enumerate(operands, 1)]
    return b"".join(settings) + bytes([20, 0, 0, number])


def padding_of(word, place):
    """How many bytes it is from a place to the next multiple of a number."""
    multiple = number_of(word, MOST_BYTES)
    if multiple == 0:
        raise Wrong(4)
    return -place % multiple


def text_operand(word, text):
    """A text in whose line the first operand begins with its mark."""
    if text is None or not word.startswith('"'):
        raise Wrong(3)
    return text


def size_of(words, place, text):
    """How many bytes a line with such a text counts at a place, whether or not something is wrong with it."""
    if not words:
        return 0
    if words[0] in FORMS or words[0] == ".word":
        return 4
    if words[0] in LINES:
        return 4 * LINES[words[0]][1] + 4
    if words[0] == ".byte":
        return len(words) - 1
    try:
        if words[0] == ".zero" and len(words) == 2:
            return number_of(words[1], MOST_BYTES)
        if words[0] == ".align" and len(words) == 2:
            return padding_of(words[1], place)
        if words[0] == ".ascii" and len(words) >= 2:
            return len(text_operand(words[1], text))
    except Wrong:
        return 0
    return 0


def count_fits(word, count):
    if word in (".byte", ".ascii"):
        return count >= 1
    if word == ".equ":
        return count == 2
    if word in DIRECTIVES:
        return count == 1
    if word in LINES:
        return count in LINES[word][2]
    return count == len(FORMS[word][0])


def bytes_of(words, labels, place, text):
    """The bytes of an instruction, call or directive, in a line with such a text."""
    word, operands = words[0], words[1:]
    if word in LINES:
        return line_of_call(word, operands, labels)
    if word == ".equ":
        if not is_label(operands[0]):
            raise Wrong(3)
        number_of(operands[1], 2**32 - 1)
        return b""
    if word == ".word":
        return value_of(operands[0], labels, 2**32 - 1).to_bytes(4, "big")
    if word == ".byte":
        return bytes(number_of(operand, 255) for operand in operands)
    if word == ".zero":
        return bytes(number_of(operands[0], MOST_BYTES))
    if word == ".align":
        return bytes(padding_of(operands[0], place))
    if word == ".ascii":
        return text_operand(operands[0], text).encode("ascii")
    kinds, number = FORMS[word]
    values = []
    for kind, operand in zip(kinds, operands):
        if kind == "r":
            values.append(register_of(operand))
        elif kind == "v":
            values.extend(value_of(operand, labels, 65_535).to_bytes(2, "big"))
        elif kind == "n":
            values.append(number_of(operand, 255))
        elif kind == "c":
            values.append(call_of(operand))
        else:
            values.append(distance_of(operand, labels, place) % 256)
    if word in ("jmp", "sys"):
        values = [0] * (3 - len(values)) + values
    return bytes([number] + values + [0] * (3 - len(values)))


def labels_of(text):
    """The labels of a text, and their values."""
    labels, place = {}, 0
    for line in text.split("\n"):
        label, words, bad_label = parts_of(line)
        if label is not None:
            labels.setdefault(label, value_given(words, place))
        place += 0 if bad_label else size_of(words, place, text_of(line))
    return labels


def assemble(text):
    """A text's image, or its first fault."""
    lines = [(*parts_of(line), text_of(line)) for line in text.split("\n")]
    labels, places, again, place = {}, [], set(), 0
    for number, (label, words, _, ending) in enumerate(lines, 1):
        places.append(place)
        if label is not None:
            if label in labels:
                again.add(number)
            else:
                labels[label] = value_given(words, place)
        place += size_of(words, place, ending)
    image = bytearray()
    for number, (label, words, bad_label, ending) in enumerate(lines, 1):
        if bad_label or words and words[0] not in FORMS and words[0] not in LINES and words[0] not in DIRECTIVES:
            raise Fault(number, 1)
        if number in again:
            raise Fault(number, 6)
        if not words:
            continue
        if not count_fits(words[0], len(words) - 1):
            raise Fault(number, 7)
        try:
            image += bytes_of(words, labels, places[number - 1], ending)
        except Wrong as wrong:
            raise Fault(number, wrong.why) from None
        if len(image) > MOST_BYTES:
            raise Fault(number, 8)
    return bytes(image)
