#!/usr/bin/env python3
"""changing.py [--rows CRATE::TYPE ..] [TOP]: checks docs/CHANGING.md of the repository whose top is TOP (default: the folder above).

A recipe is a part with a heading `##`. It may say `Rows of:` with types, as `dm_line::Line`; each file with rows of five of such a
type's constructors, or of all where it has fewer, must be named in it. Rows are clauses and arms by their pattern, lines of a chain
of `else if`, elements of an array that have a line each, and the declaration. Each file that a recipe names must exist and
have the words in backticks that stand in brackets right behind it, or else the name of one of the types, or of a constructor of
theirs, that the recipe has anywhere. In a table the first cell has the crate, and a file without a folder is in the folder of the
one before it; elsewhere files are named as dm_line/src/line.rt.

Prints what is wrong; the status is 1 if anything is. With --rows it prints the files with such rows, as a table for a recipe."""
import collections, importlib.machinery, importlib.util, os, re, sys
sys.dont_write_bytecode = True
HERE = os.path.dirname(os.path.abspath(__file__))
sys.path.insert(0, HERE)
loader = importlib.machinery.SourceFileLoader("like", f"{HERE}/like")
like = importlib.util.module_from_spec(importlib.util.spec_from_loader("like", loader))
loader.exec_module(like)

MOST = 5
FILE = re.compile(r"(?<![\w/])((?:[\w.]+/)*[\w]+\.(?:rt|antt|md|txt|svg|toml|js))\b|(?<![\w/])((?:crates/|outside/|examples/|measure/)?[\w]+/[\w/]+)(?![\w/.:])")


class Rows:
    """How many constructors of each of some types each file has rows of."""

    def __init__(self, tree, types):
        self.tree, self.types = tree, types
        self.paths = {t.path: t for t in types}
        self.count = collections.defaultdict(lambda: collections.defaultdict(set))
        for s in tree.sources:
            self.source(s)
        for m in tree.book.modules.values():
            self.module(m)

    def put(self, file, t, name):
        if name in t.arguments:
            self.count[t][os.path.relpath(file, f"{self.tree.top}/crates")].add(name)

    def source(self, s):
        names = {t.name for t in self.types} | {"Self"}
        places = [s.code[a:b] for a, b, *_ in s.arms] if any(n in s.code for n in names) else []
        places += re.findall(r"(?m)^\s*(?:\w+::\w+\()*\w+::\w+\)*,$", s.code)
        for text in places:
            for word, name in re.findall(r"\b(\w+)::(\w+)\b", text):
                t = s.type_of(word, self.types) if word in names else None
                if t:
                    self.put(s.file, t, name)
        for t in self.types:
            if t.file == s.file:
                for name in t.arguments:
                    self.put(s.file, t, name)

    def type_of(self, m, path, name, depth=0):
        """(type, constructor) that a name of a module is, or (type, None) for the type itself."""
        full = self.tree.book.full(m, path)
        t = self.paths.get(f"{full}.{name}") or (self.paths.get(full) if full.endswith(f".{name}") else None)
        if t:
            return t, None
        t = self.paths.get(full.removesuffix(".TheVariants")) or next((t for t in self.types if t.path.rpartition(".")[0] == full and name in t.arguments), None)
        if t and name in t.arguments:
            return t, name
        home = self.tree.book.modules.get(full)
        if home and name in home.names and depth < 20:
            return self.type_of(home, *home.names[name], depth + 1)
        return None, None

    def module(self, m):
        heads, bare = {}, {}
        for local, (path, name) in m.names.items():
            t, constructor = self.type_of(m, path, name)
            if t and constructor:
                bare[local] = t, constructor
            elif t:
                heads[local] = t
        for local, path in m.modules.items():
            full = self.tree.book.full(m, path)
            t = self.paths.get(full.removesuffix(".TheVariants"))
            for x in [t] if t else [t for t in self.types if t.path.rpartition(".")[0] == full]:
                heads[local] = x
        for t in self.types:
            if t.path.rpartition(".")[0] == m.path:
                bare.update({name: (t, name) for name in t.arguments})
                for name in t.arguments:
                    self.put(m.file, t, name)
        if not heads and not bare:
            return
        texts = [m.lines[k][:equals] for k, _, equals, _ in like.Like.clauses(m)] + [x for x in m.lines if re.match(r" *else if ", x)]
        for word in re.findall(r"[^\s(){}\[\];,]+", " ".join(texts)):
            head, _, name = word.rpartition(".")
            if head in heads:
                self.put(m.file, heads[head], name)
            elif not head and name in bare:
                self.put(m.file, *bare[name])

    def walks(self, t):
        least = min(MOST, len(t.arguments))
        return {file: names for file, names in sorted(self.count[t].items()) if len(names) >= least}


class Recipe:
    """A part of the page: the files that it names, and the types that it has."""

    def __init__(self, title, at, lines, types):
        self.title, self.at, self.files = title, at, {}
        text = "\n".join(lines)
        named = re.findall(r"\b(dm_\w+)::(\w+)\b", text)
        self.types = [t for t in types if (t.crate, t.name) in named]
        rows = " ".join(re.findall(r"(?m)^Rows of: (.*)$", text))
        self.rows = [t for t in self.types if f"{t.crate}::{t.name}" in rows]
        self.unknown = [f"{c}::{n}" for c, n in named if not any((t.crate, t.name) == (c, n) for t in types)]
        for k, line in enumerate(lines):
            cells = [x.strip() for x in line.strip("|").split("|")] if line.startswith("|") else [None, line]
            folder, crate = "", cells[0] if cells[0] and re.fullmatch(r"dm_\w+", cells[0]) else None
            rest = " ".join(cells[1:])
            for m in FILE.finditer(rest):
                path = m[1] or m[2]
                if "/" not in path and crate:
                    path = folder + path
                folder = path.rpartition("/")[0] + "/" if "/" in path else folder
                place = f"crates/{crate}/{path}" if crate else path if not path.startswith("dm_") else f"crates/{path}"
                if "/" in path:
                    told = re.match(r" \(([^)]*)\)", rest[m.end():])
                    line_, words = self.files.get(place, (at + k, []))
                    self.files[place] = line_, words + re.findall(r"`(\w+)`", told[1] if told else "")


def recipes(top, types):
    lines = open(f"{top}/docs/CHANGING.md", encoding="utf-8").read().split("\n")
    starts = [k for k, line in enumerate(lines) if line.startswith("## ")] + [len(lines)]
    return [Recipe(lines[a][3:], a + 1, lines[a:b], types) for a, b in zip(starts, starts[1:])]


def faults(top, tree):
    parts = recipes(top, tree.types)
    rows = Rows(tree, list({t for p in parts for t in p.rows}))
    for p in parts:
        for name in p.unknown:
            yield f"{p.at}: {p.title}: no type is {name}"
        of_types = {w for t in p.types for w in (t.name, *t.arguments)}
        for file, (line, told) in p.files.items():
            path = f"{top}/{file}"
            if not os.path.exists(path):
                yield f"{line}: {p.title}: there is no {file}"
            elif os.path.isfile(path):
                words = set(re.findall(r"\w+", open(path, encoding="utf-8").read()))
                for word in told:
                    if word not in words:
                        yield f"{line}: {p.title}: {file} has no {word}"
                if not told and of_types and file.endswith((".rt", ".antt")) and not words & of_types:
                    yield f"{line}: {p.title}: {file} has none of its types"
        for t in p.rows:
            for file, names in rows.walks(t).items():
                if f"crates/{file}" not in p.files:
                    yield f"{p.at}: {p.title}: crates/{file} has rows of {len(names)} of {t.name}"


def table(tree, names):
    """The files with rows of some types: a line a crate, its code and definitions, its proofs."""
    types = [t for t in tree.types if f"{t.crate}::{t.name}" in names]
    rows, cells = Rows(tree, types), collections.defaultdict(lambda: collections.defaultdict(list))
    for file in sorted({f for t in types for f in rows.walks(t)}):
        crate, part, rest = file.split("/", 2)
        cells[crate][part].append(rest)
    order = list(dict.fromkeys(re.findall(r"(?m)^(dm_\w+)", open(f"{tree.top}/crates.txt", encoding="utf-8").read())))
    for crate in sorted(cells, key=lambda c: order.index(c) if c in order else 0):
        shown = {part: ", ".join(([f"{part}/{f}"] if k == 0 or "/" in f or "/" in fs[k - 1] else [f])[0] for k, f in enumerate(fs)) for part, fs in cells[crate].items()}
        print(f"| {crate} | {', '.join(shown[p] for p in ('src', 'specs') if p in shown)} | {shown.get('proofs', '')} |")


def main(words):
    names = [w for w in words if "::" in w]
    rest = [w for w in words if "::" not in w and not w.startswith("--")]
    top = os.path.normpath(rest[0] if rest else f"{HERE}/..")
    tree = like.Tree(top)
    if "--rows" in words:
        return table(tree, names)
    found = list(faults(top, tree))
    print(*(f"docs/CHANGING.md:{x}" for x in found) if found else ["docs/CHANGING.md names the files that have rows, and only files that there are"], sep="\n")
    return bool(found)


if __name__ == "__main__":
    sys.exit(main(sys.argv[1:]))
