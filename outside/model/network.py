"""Streams and wires (docs/SYSTEM.md, "Between machines")."""

WINDOW = 8


class Stream:
    """The messages from one machine to another, at both ends: all that were given, how many went out, are acknowledged and
    were taken, and the numbers of those that came early."""

    def __init__(self):
        self.given = []
        self.gone_out = 0
        self.acknowledged = 0
        self.taken = 0
        self.early = set()

    def due(self):
        """The numbers of the messages that may go out now; from then on they have."""
        most = min(len(self.given), self.acknowledged + WINDOW)
        numbers = range(self.gone_out, most)
        self.gone_out = max(self.gone_out, most)
        return numbers

    def outstanding(self):
        return range(self.acknowledged, self.gone_out)

    def arrives(self, number):
        """What becomes of a message that comes: a word, and the numbers that are taken with it."""
        if number < self.taken:
            return "old", []
        if number > self.taken:
            self.early.add(number)
            return "early", []
        numbers = [number]
        while numbers[-1] + 1 in self.early:
            numbers.append(numbers[-1] + 1)
            self.early.remove(numbers[-1])
        self.taken = numbers[-1] + 1
        return "taken", numbers

    def is_quiet(self):
        return len(self.given) == self.taken == self.acknowledged


class Wire:
    """All packets that were ever put: ("data", number) or ("ack", count); and those never delivered, in order."""

    def __init__(self):
        self.packets = []
        self.undelivered = {}

    def put(self, packet):
        self.packets.append(packet)
        self.undelivered[len(self.packets) - 1] = True
        return len(self.packets) - 1
