"""What is counted of a run: by a drill, and by `count`."""

# The counts, and the words of the lines that each counts; a move is counted by its last step.
COUNTS = {
    "puts": "put",
    "packets": "packet",
    "taken": "taken",
    "old": "old",
    "early": "early",
    "received": "receive",
    "moved": "step 8",
    "stayed": "stays",
    "forwarded": "forwarded",
    "held": "held",
}


class Counts:
    def __init__(self, kinds):
        self.groups = 0
        self.counts = dict.fromkeys(COUNTS, 0)
        self.kinds = {kind: [0, 0] for kind in kinds}  # how many were put, and how many of these between different machines

    def add(self, lines):
        """The lines of one more group."""
        self.groups += 1
        for line in lines:
            for name, word in COUNTS.items():
                self.counts[name] += line.startswith(word + " ")
            if line.startswith("put "):
                _, a, b, _, kind, _ = line.split(" ")
                self.kinds[kind][0] += 1
                self.kinds[kind][1] += a != b

    def lines(self):
        return [f"groups {self.groups}"] + [f"{name} {number}" for name, number in self.counts.items()]

    def kind_lines(self):
        """A line for each kind that was put, by the kinds' numbers."""
        return [f"{kind} {count} {between}" for kind, (count, between) in self.kinds.items() if count]


def quiet_line(world):
    return f"quiet {'yes' if world.is_quiet() else 'no'}"
