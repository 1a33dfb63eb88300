#!/usr/bin/env python3
"""definitions.py [--check | --bare] [TOP]: writes docs/NAMES.md, the definitions that whoever reads docs/DEFINITIONS.md meets, each
with the comment that stands at it, of the repository whose top is TOP (default: the folder above).

A definition of specs/ is listed if
- docs/DEFINITIONS.md has it in backticks, in a line that names its file or the folder of that;
- a clause of a public function of PROGRAM names it, or what such a clause names does;
- the statements of three laws name it, at least. A law is a public function without parameters and with an empty body; where its clause
  is one name, its statement is what that name is defined as.
Of a comment the first sentence stands there, cut behind a comma where it is long. Where a definition has none, or one of a few words
(those that go on from the definition before it), the first sentence at the head of its file stands behind it in brackets, once for all
such that have none.

With --check it writes nothing, and says how the page differs, and which crate of crates.txt docs/DEFINITIONS.md has no line of, more
than one, or not in its picture (the lines that stand four places further in); the status is 1 if there is something to say. With --bare
it prints the listed definitions that have no comment."""
import glob, os, re, sys
sys.dont_write_bytecode = True
sys.path.insert(0, os.path.dirname(os.path.abspath(__file__)))
import lawbook

PAGE, MAP, PROGRAM = "docs/NAMES.md", "docs/DEFINITIONS.md", "dm_program"
MOST, FEW, LAWS = 40, 5, 3
HEAD = """# The names

`measure/definitions.py` writes this page, from the comments in the crates' specs/; nothing is written here by hand. It has what docs/DEFINITIONS.md names, what the program's clauses stand on, and what the statements of three laws name. What stands in brackets is said of the whole file.
"""


def read(path):
    with open(path, encoding="utf-8") as file:
        return file.read()


def remark(lines):
    """The first sentence of the remark with which some lines begin."""
    words = []
    for line in lines:
        if not line.strip().startswith("--"):
            break
        words += line.strip().lstrip("-").split()
    text = re.split(r"(?<=[.!?])\s+(?=[A-Z`])", " ".join(words))[0].rstrip(".")
    if len(text.split()) <= MOST:
        return text
    short = " ".join(text.split()[:MOST])
    return short[:max(short.rfind(","), short.rfind(";")) + 1 or None] + " .."


def clauses(text):
    """(name, clauses, whether it is a law) of each public function of a file."""
    for found in re.finditer(r"^ *pub fn (\w+)(.*?)^ *\{(\}?)", text, re.M | re.S):
        yield found[1], found[2].partition("ensures")[2], found[2].startswith("()") and found[3] == "}"


class Names:
    def __init__(self, top):
        self.top, self.book = top, lawbook.Book(top)
        self.order = re.findall(r"^(\w+)[^:\n]*:", read(f"{top}/crates.txt"), re.M)

    def is_own(self, d):
        return d is not None and d.module.part == "specs"

    def behind(self, d):
        """The definitions of specs/ that one names."""
        return {x for x in self.book.named(d.module, d.module.lines[d.signature:d.end]) - {d} if self.is_own(x)}

    def imports(self, text):
        """name -> definition, of the definitions that code imports."""
        found = {}
        for path, items in re.findall(r"ghost use ([\w.]+)\.\{([^}]*)\};", text):
            for item in filter(None, (x.strip() for x in items.split(","))):
                source, _, local = item.partition(" as ")
                found[local or source] = self.book.find(path, source)
        return found

    def of_code(self):
        """What clauses of the program stand on, and what laws share."""
        program, counts = set(), {}
        for file in sorted(glob.glob(f"{self.top}/crates/*/src/**/*.rt", recursive=True)):
            text = read(file)
            known = self.imports(text)
            for _, clause, is_law in clauses(text):
                names = [known.get(w) for w in re.findall(r"[^\s(){}\[\];,]+", clause)]
                named = {d for d in names if self.is_own(d)}
                if is_law:
                    stated = set().union(*map(self.behind, named)) if re.fullmatch(r"\s*\w*\s*\{\s*\S+\s*\}\s*", clause) else named
                    for d in stated:
                        counts[d] = counts.get(d, 0) + 1
                elif f"/crates/{PROGRAM}/" in file:
                    program |= named
        return program.union(*map(self.behind, program)), {d for d, n in counts.items() if n >= LAWS}

    def of_map(self):
        """What a line of the map has in backticks, in the files that it names."""
        files = {os.path.relpath(m.file, f"{self.top}/crates"): m for m in self.book.modules.values()}
        for line in read(f"{self.top}/{MAP}").split("\n"):
            modules, folder = [], None
            for path, bare in re.findall(r"((?:crates/)?dm_\w+/specs\b[\w/]*(?:\.antt)?)|\b([A-Z]\w*\.antt)\b", line):
                path = path.removeprefix("crates/") if path else f"{folder}/{bare}"
                folder = os.path.dirname(path) if path.endswith(".antt") else path
                modules += [m for file, m in files.items() if file == path or file.startswith(f"{path}/")]
            for name in re.findall(r"`([^`\s]+)`", line):
                yield from {m.declared[name] for m in modules if name in m.declared}

    def listed(self):
        program, shared = self.of_code()
        return sorted({d for d in program | shared | set(self.of_map())}, key=lambda d: (self.order.index(d.module.crate), d.module.file, d.start))

    def bare(self):
        return [d for d in self.listed() if not remark(d.text())]

    def page(self):
        lines, crate, last = [HEAD.rstrip()], None, None
        for d in self.listed():
            if d.module.crate != crate:
                crate = d.module.crate
                lines.append(f"\n## {crate}\n")
            said = remark(d.text())
            whole = [f"({remark(d.module.lines)})"] if len(said.split()) < FEW or said.startswith(("and ", "or ")) else []
            file = os.path.relpath(d.module.file, f"{self.top}/crates/{crate}/specs")
            if not said and last == d.module:
                lines[-1] = lines[-1].replace(f"`, {file}: ", f"`, `{d.name}`, {file}: ")
            else:
                lines.append(f"- `{d.name}`, {file}: " + " ".join([said] * bool(said) + whole))
            last = None if said else d.module
        return "\n".join(lines) + "\n"

    def faults(self, new, old):
        """How the page differs from what it must be, and what the map lacks."""
        now, then = new.split("\n"), old.split("\n")
        yield from (f"{PAGE} lacks: {x}" for x in now if x not in then)
        yield from (f"{PAGE} has, and shouldn't: {x}" for x in then if x not in now)
        if new != old:
            yield f"{PAGE} isn't as the definitions have it: measure/definitions.py writes it"
        text = read(f"{self.top}/{MAP}")
        pictured = re.findall(r"\w+", "\n".join(re.findall(r"^    .*$", text, re.M)))
        for crate in self.order:
            if text.count(f"\n- **{crate}**: ") != 1:
                yield f"{MAP} has {text.count(f'- **{crate}**: ')} lines of {crate}"
            if crate not in pictured:
                yield f"{MAP} has no {crate} in its picture"


def main(words):
    rest = [w for w in words if not w.startswith("--")]
    top = os.path.normpath(rest[0] if rest else f"{os.path.dirname(os.path.abspath(__file__))}/..")
    names, path = Names(top), f"{top}/{PAGE}"
    if "--bare" in words:
        print(*(f"{os.path.relpath(d.module.file, top)}:{d.start + 1}: {d.name}" for d in names.bare()), sep="\n")
        return 0
    new, old = names.page(), read(path) if os.path.exists(path) else ""
    if "--check" not in words:
        with open(path, "w", encoding="utf-8") as file:
            file.write(new)
    elif faults := list(names.faults(new, old)):
        print(*faults, sep="\n")
        return 1
    print(f"{PAGE} has {len(names.listed())} definitions, as their comments say")
    return 0


if __name__ == "__main__":
    sys.exit(main(sys.argv[1:]))
