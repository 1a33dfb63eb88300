"""The schedule (docs/FORMATS.md, "Schedule")."""

import re

from values import Pid

NUMBER = re.compile(rb"[0-9]{1,10}")
MOST = 2**32 - 1
# What the operands of each word are: m machine, k number of a packet, n number of rounds or passes, p process.
FORMS = {"turn": "m", "tick": "m", "deliver": "mmk", "migrate": "pm", "calloff": "pm", "round": "", "spin": "n", "settle": "", "rest": "n"}


class Refused(Exception):
    """The first bad line, from 1, and what is wrong there."""

    def __init__(self, line, why):
        super().__init__(f"schedule refused: line {line}, why {why}")
        self.line = line
        self.why = why


class Wrong(Exception):
    def __init__(self, why):
        super().__init__(why)
        self.why = why


def lines_of(data):
    """The lines of a file: without their line feeds, and without a carriage return directly before one."""
    lines = data.split(b"\n")
    last = lines.pop()
    lines = [line[:-1] if line.endswith(b"\r") else line for line in lines]
    return lines + [last] if last else lines


def number_of(word, low, high):
    if not NUMBER.fullmatch(word):
        raise Wrong(3)
    value = int(word)
    if not low <= value <= high:
        raise Wrong(4)
    return value


def pid_of(word, machines):
    parts = word.split(b".")
    if len(parts) != 2 or not all(NUMBER.fullmatch(part) for part in parts):
        raise Wrong(3)
    return Pid(number_of(parts[0], 0, machines - 1), number_of(parts[1], 0, MOST))


def directive_of(words, machines):
    """The directive that these words are: its word and its operands."""
    word = words[0].decode("latin-1")
    if word not in FORMS:
        raise Wrong(1)
    kinds = FORMS[word]
    if len(words) - 1 != len(kinds):
        raise Wrong(2)
    operands = []
    for kind, operand in zip(kinds, words[1:]):
        if kind == "m":
            operands.append(number_of(operand, 0, machines - 1))
        elif kind == "k":
            operands.append(number_of(operand, 0, MOST))
        elif kind == "n":
            operands.append(number_of(operand, 1, 65_536))
        else:
            operands.append(pid_of(operand, machines))
    if word == "deliver" and operands[0] == operands[1]:
        raise Wrong(5)
    return word, operands


def read_schedule(data, machines):
    """The directives of a schedule, for so many machines."""
    directives = []
    for number, line in enumerate(lines_of(data), 1):
        words = [word for word in line.replace(b"\t", b" ").split(b" ") if word] if line else []
        if not words or words[0].startswith(b"#"):
            continue
        try:
            directives.append(directive_of(words, machines))
        except Wrong as wrong:
            raise Refused(number, wrong.why) from None
    return directives
