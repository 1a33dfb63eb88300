"""Reads the definitions and proofs of a repository: its modules, what each declares, and which declaration names which."""
import glob, os, re

NAME = r"[^\s(){}\[\];,.:=]+"
SIGNATURE = re.compile(rf"^((?:(?:pattern|unfoldable|abbrev|axiom|pub) )*)({NAME})(?: \{{[^}}]*\}})? :(?: |$)")
TYPE = re.compile(rf"^(?:(?:unfoldable|abbrev|pub) )*(?:record|data|ruleset) ({NAME})")
BLOCK = re.compile(r"^(?:module _.*where|(?:(?:unfoldable|abbrev) )*mutual)\s*$")
USE = re.compile(r"^(?:unfoldable )?(pub )?use ([^\s{]+?)(?:\.\{(.*)\}|\.(\*)| as (\S+))?$")
TOKEN = re.compile(r"[^\s(){}\[\];,]+")


class Declared:
    """A declaration: its name, its lines [start, end) with the comment above it, and the names that its text has."""

    def __init__(self, module, name, start):
        self.module, self.name, self.start, self.end, self.opened = module, name, start, start, False
        self.also = []

    def text(self):
        return self.module.lines[self.start:self.end]

    def statement(self):
        """The lines of its signature."""
        lines = self.module.lines[self.signature:self.end]
        width = len(lines[0]) - len(lines[0].lstrip())
        for k, line in enumerate(lines[1:], 1):
            if len(line) - len(line.lstrip()) <= width or line.strip().startswith(("unfolding ", "where")):
                return lines[:k]
        return lines

    def __repr__(self):
        return f"{self.module.path}.{self.name}"


class Module:
    """One file of specs/ or proofs/."""

    def __init__(self, top, file):
        parts = os.path.relpath(file, os.path.join(top, "crates"))[:-len(".antt")].split(os.sep)
        if parts[-1] == "Lib":
            parts.pop()
        self.file, self.crate, self.part = file, parts[0], parts[1]
        self.path = "Rattle." + ".".join(parts)
        self.lines = open(file, encoding="utf-8").read().split("\n")
        self.children, self.names, self.modules, self.globs, self.declared, self.uses = set(), {}, {}, [], {}, []
        self.own, self.inner = [], {}      # inner: constructors and fields
        self.read()

    def read(self):
        for k, line in enumerate(self.lines):
            m = re.match(r"^(?:pub )?mod (\S+)$", line)
            if m:
                self.children.add(m[1])
            m = USE.match(line)
            if m:
                self.used(k, m)
        current, k = None, 0
        indent = 0
        for k, line in enumerate(self.lines):
            if not line.strip():
                continue
            width = len(line) - len(line.lstrip())
            if BLOCK.match(line) and width == 0:
                if current:
                    current = None
                indent = 2
                continue
            if width == 0 and not line.startswith("--"):
                if re.match(r"^(?:unfoldable )?(?:pub )?(?:use|mod) ", line) or re.match(r"^infix", line):
                    continue
                if indent and (SIGNATURE.match(line) or TYPE.match(line)):
                    indent = 0
            if width == indent or width == 0:
                m = TYPE.match(line[width:]) or None
                s = None if m else SIGNATURE.match(line[width:])
                if m or s:
                    name = m[1] if m else s[2]
                    start = k
                    while start and self.lines[start - 1].strip().startswith("--"):
                        start -= 1
                    current = Declared(self, name, start)
                    current.signature = k
                    current.opened = line[width:].startswith("pub ") or " pub " in line[width:width + 30].split(":")[0]
                    current.kind = line[width:].split(" ")[1 if line[width:].startswith("pub ") else 0] if m else "value"
                    self.declared[name] = current
                    self.own.append(current)
            if current and not (line.strip().startswith("--") and width <= indent):
                current.end = k + 1
        for d in self.own:
            if d.kind in ("data", "record"):
                for line in d.text()[d.signature - d.start + 1:]:
                    m = re.match(rf"^ +(?:pub )?((?:{NAME} )*{NAME}) :", line)
                    if m:
                        for n in m[1].split(" "):
                            self.inner.setdefault(n, d)

    def used(self, k, m):
        path, items, star, alias = m[2], m[3], m[4], m[5]
        self.uses.append((k, m))
        if items is not None:
            for item in filter(None, (x.strip() for x in re.split(r", ", items))):
                source, _, local = item.partition(" as ")
                local = local or source.split(".")[-1]
                self.names[local] = (path, source)
        elif star:
            self.globs.append(path)
        else:
            self.modules[alias or path.split(".")[-1]] = path


class Book:
    def __init__(self, top):
        self.top, self.modules = top, {}
        for file in sorted(glob.glob(f"{top}/crates/*/specs/**/*.antt", recursive=True) + glob.glob(f"{top}/crates/*/proofs/**/*.antt", recursive=True)):
            if "/out/" not in file:
                m = Module(top, file)
                self.modules[m.path] = m

    def full(self, module, path):
        """The whole path of a module named in another."""
        head, _, rest = path.partition(".")
        if head == "package":
            return rest
        if head in module.children:
            return f"{module.path}.{path}"
        if head in module.modules and head != "Rattle" and not module.modules[head].startswith(head + "."):
            return self.full(module, module.modules[head]) + ("." + rest if rest else "")
        return path

    def find(self, path, name, seen=()):
        """The declaration that `name` of the module with this path is, or None."""
        if (path, name) in seen:
            return None
        seen += ((path, name),)
        module = self.modules.get(path)
        parts = name.split(".")
        if len(parts) > 1:
            if module and parts[0] in module.modules and not f"{path}.{parts[0]}" in self.modules:
                return self.find(self.full(module, module.modules[parts[0]]), ".".join(parts[1:]), seen)
            if module and (parts[0] in module.declared or parts[0] in module.inner):
                return module.declared.get(parts[0]) or module.inner[parts[0]]
            return self.find(f"{path}.{parts[0]}", ".".join(parts[1:]), seen)
        if not module:
            return None
        if name in module.declared:
            return module.declared[name]
        if name in module.inner:
            return module.inner[name]
        if name in module.names:
            source, item = module.names[name]
            return self.find(self.full(module, source), item, seen)
        for g in module.globs:
            found = self.find(self.full(module, g), name, seen)
            if found:
                return found
        return None

    def named(self, module, text):
        """The declarations that a text in a module names."""
        found = set()
        for line in text:
            if line.lstrip().startswith("--"):
                continue
            line = re.sub(r'"[^"]*"', '""', line)
            for token in TOKEN.findall(line):
                for word in self.words(token):
                    found.add(self.means(module, word))
                    found.add(module.inner.get(word))
        return found - {None}

    def words(self, token):
        yield token
        if "." in token:
            parts = token.split(".")
            for k in range(1, len(parts) + 1):
                yield ".".join(parts[:k])
            yield from filter(None, parts)

    def means(self, module, word):
        if word in module.declared:
            return module.declared[word]
        if word in module.names:
            path, item = module.names[word]
            return self.find(self.full(module, path), item)
        head, _, rest = word.partition(".")
        if rest:
            if head in module.modules:
                return self.find(self.full(module, head), rest)
            if head == "Rattle":
                parts = word.split(".")
                for k in range(len(parts) - 1, 1, -1):
                    if ".".join(parts[:k]) in self.modules:
                        return self.find(".".join(parts[:k]), ".".join(parts[k:]))
            if head in module.names:
                return self.means(module, head)
        for g in module.globs:
            found = self.find(self.full(module, g), word)
            if found:
                return found
        for piece in self.mixed(module, word):
            return piece
        return None

    def mixed(self, module, word):
        for name in list(module.names) + list(module.declared):
            if "◌" in name and word in name.split("◌"):
                d = self.means(module, name) if name != word else None
                if d:
                    yield d

    def graph(self):
        """declaration -> declarations that it names."""
        edges = {}
        for module in self.modules.values():
            for d in module.own:
                edges[d] = self.named(module, d.text()) - {d}
        return edges

    def cited(self, chosen=lambda file: True):
        """What .rt files name: definitions and lemmas."""
        found = set()
        for file in filter(chosen, glob.glob(f"{self.top}/crates/*/src/**/*.rt", recursive=True)):
            text = open(file, encoding="utf-8").read()
            for m in re.finditer(r"ghost use ([\w.]+)\.\{([^}]*)\};", text):
                for item in m[2].replace("\n", " ").split(","):
                    d = self.find(m[1], item.strip().split(" as ")[0])
                    if d:
                        found.add(d)
            for m in re.finditer(r"ghost use ([\w.]+)(?: as \w+)?;", text):
                if m[1] in self.modules:
                    found |= set(self.modules[m[1]].own)
            for m in re.finditer(r"\b(crate|\w+)::((?:specs|proofs)::[\w:]+)", text):
                crate = file.split("/crates/")[1].split("/")[0] if m[1] == "crate" else m[1]
                path, _, name = m[2].replace("::", ".").rpartition(".")
                d = self.find(f"Rattle.{crate}.{path}", name)
                if d:
                    found.add(d)
            for m in re.finditer(r"Rattle\.[\w.◌-]+", text):
                parts = m[0].split(".")
                for k in range(len(parts) - 1, 1, -1):
                    if ".".join(parts[:k]) in self.modules:
                        d = self.find(".".join(parts[:k]), ".".join(parts[k:]))
                        if d:
                            found.add(d)
                        break
        return found

    def lemma_modules(self):
        """The modules below proofs/Lib.antt: files of lemmas, and not the answers of one function."""
        found = set()
        for path, module in self.modules.items():
            if module.part == "proofs" and path.endswith(".proofs"):
                todo = [path]
                while todo:
                    p = todo.pop()
                    if p in found or p not in self.modules:
                        continue
                    found.add(p)
                    todo += [f"{p}.{c}" for c in self.modules[p].children]
        return found


def reach(edges, roots):
    seen, todo = set(), list(roots)
    while todo:
        d = todo.pop()
        if d not in seen:
            seen.add(d)
            todo += edges.get(d, ())
    return seen
