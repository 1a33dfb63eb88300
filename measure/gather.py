#!/usr/bin/env python3
"""gather.py CRATE..: imports of proofs by way of one file for each crate.

What the proof files of a crate name of what lies outside its proofs/ is passed on by crates/CRATE/proofs/Names.antt (Imports.antt where the crate has a module `names`), and each
file names it there. A name that stands for two things keeps its own line where it stands for the rarer one. Write a new import
as any other, below the rest, and run this: it rewrites Names.antt and the heads of the files, and drops from Names.antt what
nobody names any more. What crates above take from there stays. A name comes from the nearest of the crates in this one's line of
crates.txt that passes it on (the one that stands on most others), and only where none does from where it is declared; so the line
may leave out what only those stand on (measure/listed.py says what it may). It can be run again at any time, lowest crate first."""
import collections, os, re, sys
sys.dont_write_bytecode = True
sys.path.insert(0, os.path.dirname(os.path.abspath(__file__)))
from lawbook import Book

TOP = os.path.join(os.path.dirname(os.path.abspath(__file__)), "..")
WIDTH = 240
HEAD = "-- What the proofs of this crate name of what lies below it."
STD = ("Rattle.std.proofs.Common", "Rattle.std.specs.Prelude")      # these two pass on the same things


def split(items):
    """(name there, name here) of each item of a use line."""
    for item in re.split(r", ", items):
        there, _, here = item.strip().partition(" as ")
        yield there, here or there.split(".")[-1]


def item(there, here):
    return there if there.split(".")[-1] == here else f"{there} as {here}"


def wrap(head, items):
    rows = [[]]
    for x in items:
        if rows[-1] and len(f"{head}.{{{', '.join(rows[-1] + [x])}}}") > WIDTH:
            rows.append([])
        rows[-1].append(x)
    return [f"{head}.{{{', '.join(row)}}}" for row in rows if row]


def beneath(crate, deps, seen=None):
    """The crates that a crate stands on, by way of others too."""
    seen = set() if seen is None else seen
    for c in deps.get(crate, ()):
        if c not in seen:
            seen.add(c)
            beneath(c, deps, seen)
    return seen


def names_of(crate):
    """The file's name: a crate that has a module `names` can't have a file Names beside it."""
    return "Imports" if os.path.exists(os.path.join(TOP, "crates", crate, "src", "names.rt")) else "Names"


class Crate:
    def __init__(self, book, name):
        self.book, self.name, self.home = book, name, f"Rattle.{name}.proofs"
        self.file = names_of(name)
        self.names = f"{self.home}.{self.file}"
        self.files = [m for m in book.modules.values() if m.crate == name and m.part == "proofs" and m.path not in (self.home, self.names)]
        here = book.modules.get(self.names)
        if here and here.lines[0] != HEAD:
            sys.exit(f"{here.file} has another use")
        self.passed = here.names if here else {}

    def meaning(self, path, name, seen=()):
        """What a name of a module is, whoever passes it on."""
        m = self.book.modules.get(path)
        if m and "." not in name and name not in m.declared and name not in m.inner and name in m.names and (path, name) not in seen:
            return self.meaning(self.book.full(m, m.names[name][0]), m.names[name][1], seen + ((path, name),))
        d = self.book.find(path, name)
        return ("own", str(d), name.split(".")[-1]) if d else ("std", name) if path in STD else (path, name)

    def imported(self, m):
        """(line, module, name there, name here) of each name from outside proofs/."""
        for k, use in m.uses:
            path, items = use[2], use[3]
            if items is None or use[1]:
                continue
            for there, here in split(items):
                if path == self.names:
                    if there not in self.passed:
                        sys.exit(f"{m.file}: {there} is not in {self.names}")
                    yield (k, *self.passed[there], here)
                elif not path.startswith(self.home) and path.split(".")[0] in ("Rattle", "mathlib", "std"):
                    yield k, path, there, here

    def origins(self, order, deps):
        """name -> (module, name there) of what is passed on, and name -> what it is."""
        count, spelled = collections.defaultdict(collections.Counter), collections.defaultdict(collections.Counter)
        for m in self.files:
            for _, path, there, here in self.imported(m):
                what = self.meaning(path, there)
                count[here][what] += 1
                spelled[here, what][path, there] += 1
        pick = {here: whats.most_common(1)[0][0] for here, whats in count.items()}
        for m in self.book.modules.values():
            for k, use in m.uses:
                if m.crate != self.name and use[2] == self.names and use[3] is not None:
                    for there, _ in split(use[3]):
                        pick[there] = self.meaning(*self.passed[there])
                        spelled[there, pick[there]][self.passed[there]] += 1
        opened = {x for m in self.files for line in m.lines if re.match(r"^ *unfolding ", line) for x in line.split()[1:]}
        below = sorted((c for c in order if c in deps[self.name]), key=lambda c: (-len(beneath(c, deps)), -order.index(c)))
        below = [n for n in (f"Rattle.{c}.proofs.{names_of(c)}" for c in below) if n in self.book.modules and self.book.modules[n].lines[0] == HEAD]
        origin = {}
        for here, what in pick.items():
            path, there = spelled[here, what].most_common(1)[0][0]
            while path.endswith((".proofs.Names", ".proofs.Imports")) and path in self.book.modules and self.book.modules[path].lines[0] == HEAD:
                path, there = self.book.modules[path].names[there]
            for n in below:
                # a crate's own types can't be named by way of its proofs
                if path.startswith(n.split(".proofs.")[0] + ".specs.declared."):
                    continue
                if here in self.book.modules[n].names and self.meaning(n, here) == what and here not in opened:
                    path, there = n, here
                    break
            origin[here] = (path, there)
        return origin, pick, opened

    def gather(self, order, deps):
        origin, pick, opened = self.origins(order, deps)
        rank = {c: k for k, c in enumerate(order)}
        by_module = collections.defaultdict(list)
        for here, (path, there) in origin.items():
            by_module[path].append((here, item(there, here)))
        out = [HEAD]
        for path in sorted(by_module, key=lambda p: (rank.get((p.split(".") + [""])[1], -1), p)):
            items = sorted(by_module[path])
            out += wrap(f"pub use {path}", [x for here, x in items if here not in opened])
            out += wrap(f"unfoldable pub use {path}", [x for here, x in items if here in opened])
        folder = f"{TOP}/crates/{self.name}/proofs"
        write(f"{folder}/{self.file}.antt", "\n".join(out) + "\n")
        lib = open(f"{folder}/Lib.antt", encoding="utf-8").read()
        if f"mod {self.file}\n" not in lib:
            write(f"{folder}/Lib.antt", f"pub mod {self.file}\n" + lib)
        return sum(self.rewrite(m, pick) for m in self.files)

    def rewrite(self, m, pick):
        found = list(self.imported(m))
        taken = [x for x in found if pick[x[3]] == self.meaning(x[1], x[2])]
        if not taken:
            return 0
        lines, names, left = {k for k, *_ in taken}, [], collections.defaultdict(list)
        for k, path, there, here in found:
            if pick[here] != self.meaning(path, there):
                left[k, path].append(item(there, here))
            elif here not in names:
                names.append(here)
        new = wrap(f"use {self.names}", names)
        if len(new) > len(lines):
            return 0
        out = []
        for k, line in enumerate(m.lines):
            if k == min(lines):
                out += new
            if k not in lines:
                out.append(line)
            out += [f"use {path}.{{{', '.join(items)}}}" for (j, path), items in left.items() if j == k and k in lines]
        write(m.file, "\n".join(out))
        return len(m.lines) - len(out)


def write(file, text):
    if not os.path.exists(file) or open(file, encoding="utf-8").read() != text:
        open(file, "w", encoding="utf-8").write(text)


def main():
    if len(sys.argv) < 2 or sys.argv[1].startswith("-"):
        sys.exit(__doc__)
    deps = {}
    for line in open(f"{TOP}/crates.txt", encoding="utf-8"):
        if line.strip() and not line.startswith("#"):
            head, _, rest = line.partition(":")
            deps[head.split()[0]] = rest.split()
    for name in sys.argv[1:]:
        print(f"{name}: {Crate(Book(TOP), name).gather(list(deps), deps)} lines fewer")


if __name__ == "__main__":
    main()
