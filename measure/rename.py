#!/usr/bin/env python3
"""rename.py MAP [TOP]: gives definitions, or crates, new names, in the repository whose top is TOP (default: the folder above this one).

MAP has lines `Rattle.dm_x.specs.Module.old new`, for lemmas `Rattle.dm_x.proofs.Module.old new`; '#' begins a comment. Each is
renamed where it is declared; in every module that imports it, also by way of one that passes it on, or names it by a module's
name; in the `ghost use` items, clauses and tactics of .rt files; in must-fail/*.edit, whose lines are lines of such sources; and
in docs/*.md and README.md where it stands in backticks and the line, or the part of the page, says by a file or a crate whose it
is. What only looks like it stays: a variable, a field, a label, another definition of that name. An import of a renamed
definition under a name of its own (`as`) becomes a plain one, and so does that of one of the same name which keeps it, where it
now can. Lists of imports that were sorted stay sorted, and those of .antt files are broken where they get longer than WIDTH.

Nothing is written where the map can't hold, and each reason is printed: a line that names no declaration, or a new name that
another declaration has, or that a module or .rt file concerned has for something else, be it a variable. Else it prints which
names in docs it changed, and which it left there that might mean one of these definitions, for you to look at. Then run
`rt fmt` in the crates.

A MAP for crates has lines `dm_old dm_new` alone. Each whole word dm_old becomes dm_new in every text of the repository but .git,
what rt made (out/) and measure/test, whose trees are made up, and its folder moves. Nothing is written where dm_old is no crate, or where dm_new stands anywhere."""
import collections, glob, os, re, sys
sys.dont_write_bytecode = True
sys.path.insert(0, os.path.dirname(os.path.abspath(__file__)))
from lawbook import Book

WIDTH = 240
LEX = re.compile(r'--[^\n]*|"(?:[^"\\]|\\.)*"|«[^»]*»|[(){}\[\];,@]|[^\s(){}\[\];,@"«»]+')
OPEN, CLOSE = {"(": ")", "{": "}", "[": "]"}, {")", "}", "]"}
IMPORT = re.compile(r"^(?P<ghost>[ \t]*ghost )?(?P<head>(?:unfoldable )?(?:pub )?)use (?P<path>[^\s{;]+?)(?:\.\{(?P<items>[^}]*)\}| as (?P<alias>[^\s;]+))?;?[ \t]*$", re.M)
CLAUSE = re.compile(r"\b(?:requires|ensures)\*?(?:\s+\w+)?\s*\{|\bghost\s+\w+\s*[:=]\s*\{")
RUST = re.compile(r"\b(crate|dm_\w+)::((?:specs|proofs)(?:::[\w◌-]+)+)")


class Token:
    def __init__(self, text, start):
        self.text, self.start, self.end = text, start, start + len(text)
        self.is_name = text[0] not in '(){}[];,@"«' and not text.startswith("--")


def lex(text, start, end):
    return [Token(m[0], m.start()) for m in LEX.finditer(text, start, end)]


class Scopes:
    """Where names of some text are a variable's or a label's: for each of `names` the places [from, to) that it covers."""

    def __init__(self, text, names):
        self.text, self.names, self.covered, self.labels = text, names, collections.defaultdict(list), set()

    def covers(self, name, at):
        return any(a <= at < b for a, b in self.covered[name]) or at in self.labels

    def line_width(self, at):
        begin = self.text.rfind("\n", 0, at) + 1
        return at - begin if not self.text[begin:at].strip() else None

    def chunks(self, tokens):
        """Cuts tokens where a line begins that is no further in than the first."""
        tokens = [t for t in tokens if not t.text.startswith("--")]
        if not tokens:
            return []
        widths = [self.line_width(t.start) for t in tokens]
        least = min((w for w in widths if w is not None), default=None)
        cuts = [k for k, w in enumerate(widths) if w is not None and w == least] if least is not None else []
        if not cuts or cuts[0] != 0:
            cuts = [0] + cuts
        return [tokens[a:b] for a, b in zip(cuts, cuts[1:] + [len(tokens)])]

    def walk(self, tokens):
        for chunk in self.chunks(tokens):
            self.chunk(chunk)

    def chunk(self, ts):
        words = [t.text for t in ts]
        first = 0
        while first < len(words) and words[first] in ("pub", "abbrev", "unfoldable", "pattern", "axiom"):
            first += 1
        head = words[first] if first < len(words) else ""
        end = ts[-1].end
        if head in ("use", "mod", "infixl", "infixr", "infix", "ruleset"):
            self.terms(ts)
        elif head in ("module", "mutual", "record", "data"):
            where = words.index("where") if "where" in words else len(ts) - 1 if head != "mutual" else first
            self.terms(ts[:where], end)
            inner = ts[where + 1:]
            for sub in self.chunks(inner):
                if head in ("record", "data"):
                    self.members(sub, end if head == "record" else None)
                else:
                    self.chunk(sub)
        else:
            self.equation(ts, first, end)

    def members(self, ts, end):
        """Fields of a record, or constructors: `pub a b : T`."""
        k = 0
        while k < len(ts) and ts[k].text != ":":
            if ts[k].text in self.names:
                self.labels.add(ts[k].start)
                if end:
                    self.covered[ts[k].text].append((ts[-1].end, end))
            k += 1
        self.terms(ts)

    def equation(self, ts, first, end):
        """A signature, a clause, or an `unfolding` line, with the helpers behind its `where`."""
        depth, where, sign = 0, len(ts), None
        for k, t in enumerate(ts):
            depth += (t.text in OPEN) - (t.text in CLOSE)
            if depth == 0 and t.text == "where":
                where = k
                break
            if depth == 0 and sign is None and t.text in ("=", ":"):
                sign = k
        if sign is not None and ts[sign].text == "=":
            for k in range(first + 1, sign):
                t = ts[k]
                if t.text in self.names:
                    if k + 1 < sign and ts[k + 1].text == "=":
                        self.labels.add(t.start)
                    else:
                        self.covered[t.text].append((t.start, end))
            self.terms(ts[sign + 1:where], None)
        else:
            self.terms(ts[:where])
        for sub in self.chunks(ts[where + 1:]):
            head = sub[0].text
            if head in self.names and any(t.text == ":" for t in sub):
                self.covered[head].append((ts[0].start, end))
            self.equation(sub, 0, sub[-1].end)

    def terms(self, ts, whole=None):
        """Terms, types, or the parameters of a head, whose binders cover all up to `whole`."""
        Terms(self, ts, whole).mark()


class Terms:
    """A run of tokens that is no declaration, with its brackets. A group is the index of its opening bracket, or -1."""

    def __init__(self, scopes, tokens, whole):
        self.scopes, self.ts, self.whole = scopes, tokens, whole
        self.words = [t.text for t in tokens]
        self.closing, self.inside, stack = {}, [], [-1]
        for k, word in enumerate(self.words):
            if word in CLOSE and len(stack) > 1:
                self.closing[stack.pop()] = k
            self.inside.append(stack[-1])
            if word in OPEN:
                stack.append(k)

    def mark(self):
        for k, word in enumerate(self.words):
            name = word[:-1] if word.endswith(".") and len(word) > 1 else word
            if name in self.scopes.names:
                any(way(k, name) for way in (self.label, self.drawn, self.bound, self.typed, self.pattern))

    def close(self, group):
        return self.closing.get(group, len(self.ts))

    def at(self, k):
        return self.ts[k].start if k < len(self.ts) else self.ts[-1].end

    def cover(self, name, start, end):
        self.scopes.covered[name].append((start, end))

    def level(self, group, k, step=1):
        """What stands right in a group, from k on."""
        while 0 <= k < len(self.ts) and k != self.close(group):
            if self.inside[k] == group:
                yield k
            k += step

    def first(self, group, k, test):
        return next((j for j in self.level(group, k) if test(self.words[j])), None)

    def is_open(self, group, brackets):
        return group >= 0 and self.words[group] in brackets

    def rest(self, group, k, stops=(";", ",")):
        """Where what stands in a group from k on ends: at a stop, at the `in` of a `let` before it, or with the group."""
        lets = 0
        for j in self.level(group, k):
            word = self.words[j]
            lets += word in ("let", "unfold")
            if word == "in":
                if lets == 0:
                    return j
                lets -= 1
            if word in stops and not (word == "," and group == -1) or word == "|" and self.is_open(group, "["):
                return j
        return self.close(group)

    def label(self, k, name):
        """`record { name = e; .. }`, `f {name = e}`, and `record { name : T; .. }`, whose later fields see the name."""
        group = self.inside[k]
        follows = self.words[k + 1] if k + 1 < len(self.words) else ""
        if not self.is_open(group, "{") or self.words[k - 1] not in ("{", ";") or follows not in ("=", ":"):
            return False
        if follows == ":" and (group == 0 or self.words[group - 1] != "record"):
            return False
        self.scopes.labels.add(self.ts[k].start)
        if follows == ":":
            self.cover(name, self.at(self.rest(group, k)), self.at(self.close(group)))
        return True

    def drawn(self, k, name):
        """`name ← e` of a `do`."""
        if k + 1 == len(self.words) or self.words[k + 1] != "←":
            return False
        self.cover(name, self.ts[k].start, self.at(self.close(self.inside[k])))
        return True

    def bound(self, k, name):
        """Between a `λ` and its dot, or behind a `let`, here or in a group that stands there."""
        start, group, typed = self.ts[k].start, self.inside[k], False
        while not typed:
            typed = self.is_open(group, "({") and any(self.words[j] == ":" for j in self.level(group, group + 1) if j < k)
            opener = None if typed else self.opener(group, k)
            if opener is not None and self.words[opener] == "λ":
                dot = self.first(group, opener + 1, lambda w: w.endswith("."))
                if dot is not None and k <= dot:
                    self.cover(name, start, self.at(self.rest(group, dot + 1)))
                    return True
            elif opener is not None:
                stop = self.first(group, opener + 1, lambda w: w in (":", "="))
                if stop is not None and k < stop:
                    equals = self.first(group, stop, lambda w: w == "=")
                    body = self.rest(group, (equals or stop) + 1, ())
                    self.cover(name, start, start + len(name))
                    self.cover(name, self.at(body), self.at(self.rest(group, body + 1)))
                    return True
            if group < 0:
                return False
            k, group = group, self.inside[group]
        return False

    def opener(self, group, k):
        """The `λ` or `let` before k in its group whose binders may go as far as k."""
        for j in self.level(group, k, -1):
            word = self.words[j]
            if word in ("λ", "let"):
                return j
            if j < k and (word in ("|", "↦", "in", "=", "≡") or word.endswith(".") or word in (";", ",") and group < 0):
                return None
        return None

    def typed(self, k, name):
        """`(name .. : T)`."""
        group = self.inside[k]
        colon = self.first(group, group + 1, lambda w: w == ":") if self.is_open(group, "({") else None
        if colon is None or k > colon or not all(t.is_name for t in self.ts[group + 1:colon]):
            return False
        end = self.close(group)
        self.cover(name, self.ts[k].start, self.ts[k].end)
        self.cover(name, self.at(end), self.whole or self.at(self.rest(self.inside[group], end + 1)))
        return True

    def pattern(self, k, name):
        """A pattern of an `elim`."""
        start, group = self.ts[k].start, self.inside[k]
        while group >= 0 and not self.is_open(group, "["):
            k, group = group, self.inside[group]
        arrow = self.first(group, k, lambda w: w in ("↦", "|")) if group >= 0 else None
        if arrow is None or self.words[arrow] != "↦":
            return False
        self.cover(name, start, self.at(self.rest(group, arrow + 1)))
        return True


class Index(Book):
    """A book that tells a definition from what is passed on or declared with it."""

    def __init__(self, top):
        super().__init__(top)
        parts = [p.split(".") for p in self.modules]
        self.folders = {".".join(p[:k]) for p in parts for k in range(1, len(p) + 1)}

    def exactly(self, path, item):
        """The declaration that an item of a module is, whoever passes it on; None for a constructor or a field."""
        m = self.modules.get(path)
        if "." in item or not m:
            d = self.find(path, item)
            return d if d and d.name == item.split(".")[-1] else None
        if item in m.declared or item in m.inner or item not in m.names:
            return m.declared.get(item)
        source, there = m.names[item]
        return self.exactly(self.full(m, source), there)

    def imported(self, m):
        """(local name, path, item, the declaration or None) of each import."""
        for local, (path, item) in m.names.items():
            yield local, path, item, self.exactly(self.full(m, path), item)

    def part(self, m, words):
        """Of a dotted name in a module: (which of its words names a declaration, the declaration), or None."""
        head = words[0]
        if head in m.declared:
            return 0, m.declared[head]
        if head in m.names and not (len(words) > 1 and head in m.modules):
            path, item = m.names[head]
            d = self.exactly(self.full(m, path), item)
            return (0, d) if d else None
        if len(words) > 1 and head == "Rattle":
            return self.below(words, 0, "")
        if len(words) > 1 and (head in m.modules or head in m.children):
            return self.below(words, 1, self.full(m, head) + ".")
        return None

    def below(self, words, k, path):
        """The same of a whole name, whose words before k are the path."""
        while k < len(words) and path + words[k] in self.folders:
            path, k = path + words[k] + ".", k + 1
        d = self.exactly(path[:-1], words[k]) if k < len(words) else None
        return (k, d) if d else None


class RustFile:
    """The ghost imports of a .rt file, as a module has them."""

    def __init__(self, file):
        self.file, self.text = file, open(file, encoding="utf-8").read()
        self.crate = file.split("/crates/")[1].split("/")[0]
        self.code = re.sub(r"//[^\n]*", lambda m: " " * len(m[0]), self.text)
        self.path, self.declared, self.inner, self.children, self.names, self.modules = "", {}, {}, set(), {}, {}
        for m in IMPORT.finditer(self.text):
            if m["ghost"] and m["items"] is not None:
                self.names.update({local: (m["path"], source) for source, local in items_of(m["items"])})
            elif m["ghost"]:
                self.modules[m["alias"] or m["path"].split(".")[-1]] = m["path"]

    def clauses(self):
        """(from, to, parameters) of each text of antt."""
        for m in CLAUSE.finditer(self.code):
            depth, k = 1, m.end()
            while depth:
                if self.code[k] == '"':
                    k = self.code.index('"', k + 1)
                depth += (self.code[k] == "{") - (self.code[k] == "}")
                k += 1
            yield m.end(), k - 1, self.parameters(m.start())

    def parameters(self, at):
        """The parameters, and ghost values, of the function or closure whose clause begins here."""
        before = self.code[:at]
        bars = re.search(r"\|([^|;{}\n]*)\|[^|;]*$", before[-300:])
        found = set(re.findall(r"\w+", bars[1])) if bars else set()
        function = before.rfind("fn ")
        signature = before[function:] if function >= 0 else ""
        found |= set(re.findall(r"\b([a-z_]\w*)\s*:(?!:)", signature)) | set(re.findall(r"\bghost\s+(\w+)", signature))
        return found | {"result", "self"}


class Edits:
    """Replacements in one text; in a .rt file also what its imported names become, and where its clauses stand."""

    def __init__(self, text):
        self.text, self.found, self.names, self.clauses = text, {}, {}, []

    def put(self, start, end, new):
        """In place of what was to be put within."""
        for place in [k for k in self.found if start <= k[0] and k[1] <= end] if "\n" in self.text[start:end] else []:
            del self.found[place]
        if self.text[start:end] != new:
            self.found[start, end] = new

    def put_word(self, words, k, start, new, between=1):
        """The k-th of the words of a dotted name that begins at start."""
        start += sum(len(w) + between for w in words[:k])
        self.put(start, start + len(words[k]), new)

    def within(self, a, b):
        out, at = [], a
        for (start, end), new in sorted(self.found.items()):
            if a <= start and end <= b:
                out += [self.text[at:start], new]
                at = end
        return "".join(out + [self.text[at:b]])


def items_of(text):
    """(name there, name here) of each item of a list of imports."""
    for item in filter(None, (x.strip() for x in text.split(","))):
        source, _, local = item.partition(" as ")
        yield source, local or source.split(".")[-1]


def item(there, here):
    return there if there.split(".")[-1] == here else f"{there} as {here}"


def here(x):
    """The name that an item of imports has here."""
    return x.split(" as ")[-1].split(".")[-1]


def names_of(items):
    return [x for x in items if re.match(r"[\w']", here(x))]


def is_sorted(items):
    """The key by which the names of a list of imports stand in order: as they are, or whatever their case; None, if they don't."""
    names = names_of(items)
    keys = (lambda x: x, lambda x: (x.lower(), x))
    return next((key for key in keys if len(names) > 2 and names == sorted(names, key=key)), None)


def as_sorted(before, items):
    """The items with their names in order, if the names before were. Operators stay where they are."""
    key = is_sorted(before)
    if not key:
        return items
    ordered = iter(sorted(names_of(items), key=lambda x: key(here(x))))
    return [next(ordered) if re.match(r"[\w']", here(x)) else x for x in items]


class Renamer:
    def __init__(self, top, map_file):
        self.top, self.book = top, Index(top)
        self.new, self.faults, self.texts, self.known = {}, {}, {}, {}
        self.read_map(map_file)
        self.olds = {d.name for d in self.new}
        every = [d for m in self.book.modules.values() for d in m.own]
        self.specs = [d for d in every if d.module.part == "specs"]
        self.twins = {d for d in self.specs if d.name in self.olds and d not in self.new}
        count = collections.Counter(self.new.values())
        for n, k in count.items():
            if k > 1:
                self.fault("the map", n, f"would be the name of {k} declarations")
        for d in every:
            if d.name in count and d not in self.new:
                self.fault(str(d), d.name, "is this declaration's name")

    def read_map(self, file):
        for line in open(file, encoding="utf-8"):
            words = line.split("#")[0].split()
            path, _, old = words[0].rpartition(".") if words else ("", "", "")
            module = self.book.modules.get(path)
            if words and (len(words) != 2 or not module or old not in module.declared):
                self.fault("the map", line.strip(), "isn't a declaration and its new name")
            elif words and module.declared[old] in self.new:
                self.fault("the map", words[0], "stands there twice")
            elif words:
                self.new[module.declared[old]] = words[1]

    def fault(self, where, name, why, text="", at=0):
        """Notes why the map can't hold, once for each name of a file; `text` from `at` on shows where."""
        line = text[text.rfind("\n", 0, at) + 1:].split("\n")[0].strip()[:120]
        self.faults.setdefault((where, name), f"{where}: {name} {why}" + (f": {line}" if line else ""))

    # -- what a module calls things afterwards

    def locals_of(self, m, text):
        """local name -> its new local name, of what is renamed and of imports that become plain."""
        if m.path not in self.known or not m.path:
            after = {name: self.new[d] for name, d in m.declared.items() if d in self.new}
            after.update({local: self.new[d] for local, _, _, d in self.book.imported(m) if d in self.new})
            words = {w.split(".")[0] for w in re.findall(r"[^\s(){}\[\];,]+", text)}
            taken = set(m.names) | set(m.declared) | set(m.modules) | set(m.children)
            for n in set(after.values()) & (taken - set(after)):
                self.fault(m.file, n, "is taken")
            self.known[m.path] = {**after, **self.plain_twins(m, after, (taken | set(m.inner) | words) - set(after) | set(after.values()))}
        return self.known[m.path]

    def plain_twins(self, m, after, taken):
        """The imports, under another name, of what keeps a name that others lose: they become plain where the name is free now."""
        met = {d.name for d in m.declared.values() if d in self.new} | {d.name for _, _, _, d in self.book.imported(m) if d in self.new}
        found = {}
        for local, path, there, d in self.book.imported(m):
            if d in self.twins and local != d.name == self.passed_as(m, path, there) and d.name not in taken and (d.name in met or there != d.name):
                found.setdefault(d.name, []).append(local)
        return {locals_[0]: name for name, locals_ in found.items() if len(locals_) == 1}

    def passed_as(self, m, path, name):
        """What the module that a name is taken from will call it."""
        home = self.book.modules.get(self.book.full(m, path))
        return self.locals_of(home, "\n".join(home.lines)).get(name, name) if home else name

    def there(self, m, path, source):
        """An item as the module that it is taken from will call it."""
        words = source.split(".")
        d = self.book.exactly(self.book.full(m, path), source)
        if d in self.new:
            return ".".join(words[:-1] + [self.new[d]])
        if d in self.twins and len(words) == 1:
            return self.passed_as(m, path, source)
        head = self.book.exactly(self.book.full(m, path), words[0])
        return ".".join([self.new[head]] + words[1:]) if head in self.new else source

    def imports(self, m, edits, after, is_ghost):
        """Rewrites the imports, and returns where they stand."""
        lines, runs = [use for use in IMPORT.finditer(edits.text) if bool(use["ghost"]) == is_ghost], []
        for use in lines:
            words = use["path"].split(".")
            hit = self.book.part(m, words)
            if hit and hit[1] in self.new:
                edits.put_word(words, hit[0], use.start("path"), self.new[hit[1]])
            before = runs[-1][-1] if runs else None
            if before and use["items"] and before["items"] and use.start() == before.end() + 1 and use.group("head", "path") == before.group("head", "path"):
                runs[-1].append(use)
            else:
                runs.append([use])
        for run in runs:
            rows = [list(items_of(use["items"] or "")) for use in run]
            now = [[item(self.there(m, use["path"], source), after.get(local, local)) for source, local in row] for use, row in zip(run, rows)]
            if now != [[item(*x) for x in row] for row in rows]:
                self.write_items(edits, run, [[local for _, local in row] for row in rows], now)
        return [(use.start(), use.end()) for use in lines]

    def write_items(self, edits, run, before, rows):
        """Lines that import from one module are one list, if that was sorted, or where one of them gets too long."""
        use = run[0]
        head = f"{use['head']}use {edits.within(use.start('path'), use.end('path'))}"
        width = lambda row: len(f"{head}.{{{', '.join(row)}}}")
        was, items = sum(before, []), sum(rows, [])
        rows = [as_sorted(*pair) for pair in zip(before, rows)]
        breaks = not use["ghost"] and all(len(u[0]) <= WIDTH for u in run)
        if breaks and (len(run) > 1 and is_sorted(was) or any(width(row) > WIDTH for row in rows)):
            rows = [[]]
            for x in as_sorted(was, items):
                if rows[-1] and width(rows[-1] + [x]) > WIDTH:
                    rows.append([])
                rows[-1].append(x)
            text = f"}}\n{head}.{{".join(", ".join(row) for row in rows)
            edits.put(use.start("items"), run[-1].end("items"), text)
            return
        for use, row in zip(run, rows):
            pad, tail = re.match(r"\s*", use["items"])[0], re.search(r",?\s*$", use["items"])[0]
            text = pad + ("," + pad).join(row) + tail if "\n" in use["items"] else ", ".join(row)
            edits.put(use.start("items"), use.end("items"), text)

    def uses(self, m, edits, after, scopes, tokens):
        """Each use of a name in terms, types and `unfolding` lines."""
        fresh = set(after.values()) - set(after)
        for t in tokens:
            words = t.text.rstrip(".").split(".") if t.is_name else [""]
            head = words[0]
            if not head:
                continue
            if head in fresh and t.start not in scopes.labels:
                self.fault(m.file, head, "is taken", edits.text, t.start)
            if head in after and not scopes.covers(head, t.start) and not (len(words) > 1 and head in m.modules):
                if any(a <= t.start < b for a, b in scopes.covered[after[head]]):
                    self.fault(m.file, after[head], "is a variable", edits.text, t.start)
                edits.put_word(words, 0, t.start, after[head])
            elif len(words) > 1 and (head == "Rattle" or head in m.modules or head in m.children):
                hit = self.book.part(m, words)
                if hit and hit[1] in self.new and hit[0] > 0:
                    edits.put_word(words, hit[0], t.start, self.new[hit[1]])

    # -- the files

    def module(self, m):
        text = "\n".join(m.lines)
        edits, after = Edits(text), self.locals_of(m, text)
        heads = self.imports(m, edits, after, False)
        tokens = [t for t in lex(text, 0, len(text)) if not any(a <= t.start < b for a, b in heads)]
        scopes = Scopes(text, set(after) | set(after.values()))
        scopes.walk(tokens)
        self.uses(m, edits, after, scopes, tokens)
        for t in tokens:
            for quoted in re.finditer(r"`([^`\s]+)`", t.text if t.text.startswith("--") else ""):
                if quoted[1] in after:
                    edits.put(t.start + quoted.start(1), t.start + quoted.end(1), after[quoted[1]])
        self.texts[m.file] = edits

    def rust_file(self, rust):
        edits, after = Edits(rust.text), self.locals_of(rust, rust.code)
        edits.names = after
        self.imports(rust, edits, after, True)
        for m in RUST.finditer(rust.text):
            words = [rust.crate if m[1] == "crate" else m[1]] + m[2].split("::")
            hit = self.book.below(words, 0, "Rattle.")
            if hit and hit[1] in self.new:
                edits.put_word(words[1:], hit[0] - 1, m.start(2), self.new[hit[1]], 2)
        for start, end, parameters in rust.clauses():
            edits.clauses.append((start, end))
            tokens = lex(rust.text, start, end)
            scopes = Scopes(rust.text, set(after) | set(after.values()))
            scopes.terms([t for t in tokens if not t.text.startswith("--")])
            for p in parameters:
                scopes.covered[p].append((start, end))
            self.uses(rust, edits, after, scopes, tokens)
        for name in set(after.values()) - set(after):
            if re.search(rf"(?<![\w-]){re.escape(name)}(?![\w-])", rust.code):
                self.fault(rust.file, name, "is taken in code")
        self.texts[rust.file] = edits

    def must_fail(self, file):
        """An `old:` line becomes what its text in the source becomes; where that is of a clause, so do names of the `new:` line."""
        edits, source, names = Edits(open(file, encoding="utf-8").read()), None, {}
        for m in re.finditer(r"^(file|old|new): ?(.*)$", edits.text, re.M):
            if m[1] == "file":
                source = self.texts.get(os.path.normpath(os.path.join(os.path.dirname(file), "..", m[2].strip())))
            elif source and m[1] == "old" and m[2] in source.text:
                start = source.text.index(m[2])
                end = start + len(m[2])
                names = source.names if any(a < end and start < b for a, b in source.clauses) else {}
                edits.put(m.start(2), m.end(2), source.within(start, end))
            elif m[1] == "new":
                edits.put(m.start(2), m.end(2), re.sub(r"(?<!\.)[\w◌'-]+", lambda w: names.get(w[0], w[0]), m[2]))
        self.texts[file] = edits

    # -- docs

    def page(self, file):
        edits, part, at = Edits(open(file, encoding="utf-8").read()), None, 0
        for line in edits.text.split("\n"):
            if line.startswith("#"):
                part = None
            told = [] if line.startswith("|") else re.findall(r"\b(dm_\w+)(?:/specs\b|\))", line)
            if told and (line.startswith("#") or re.search(r"specs/?[,;:.)]", line)):
                part = told[-1]
            for quoted in re.finditer(r"`([^`]+)`", line):
                for w in re.finditer(r"(?<![\w◌.:-])[A-Za-z_]\w*(?![\w◌-]|::)", quoted[1]):
                    if w[0] in self.olds:
                        self.doc_name(file, edits, line, at, quoted.start(1) + w.start(), w[0], quoted[1], part)
            at += len(line) + 1
        self.texts[file] = edits

    def doc_name(self, file, edits, line, begin, place, name, quoted, part):
        whose = self.whose(line, place, name, part)
        words = list(dict.fromkeys(self.new.get(d, d.name) for d in whose))
        where = f"{os.path.relpath(file, self.top)}: {line.strip()[:100]}"
        if words and words != [name] and (len(words) == 1 or quoted == name):
            edits.put(begin + place, begin + place + len(name), "`, `".join(words))
            print(f"doc: {name} -> {', '.join(words)}: {where}")
        elif words != [name]:
            print(f"doc, left: {name}: {where}")

    def whose(self, line, place, name, part):
        """The definitions of a name that a line of a page means, by the files or crates that it names, or the part's crate."""
        files, crate = [], part
        for m in re.finditer(r"(?:crates/)?(dm_\w+)/specs/?|([A-Z]\w*)\.antt", line):
            crate = m[1] or crate
            files += [f"Rattle.{crate}.specs.{m[2]}"] if m[2] else []
        beside = re.match(r"`(?:, `[^`]*`)* \((?:crates/)?(?:dm_\w+/specs/)?([A-Z]\w*)\.antt", line[place + len(name):])
        near = [p for p in files if beside and p.endswith("." + beside[1])]
        crates = re.findall(r"\bdm_\w+\b(?!::)", line)
        behind = re.findall(r"\bdm_\w+\b(?!::)", line[place:])[:1]
        every = [d for d in self.specs if d.name == name]
        ways = [[d for p in paths for d in every if d.module.path == p] for paths in (near, files)]
        ways += [[d for c in chosen for d in every if d.module.crate == c] for chosen in (behind, crates, [part])]
        return next(filter(None, ways), [])

    def run(self):
        for m in self.book.modules.values():
            self.module(m)
        for file in sorted(glob.glob(f"{self.top}/crates/*/src/**/*.rt", recursive=True)):
            self.rust_file(RustFile(file))
        for file in sorted(glob.glob(f"{self.top}/crates/*/must-fail/*.edit")):
            self.must_fail(file)
        if self.faults:
            sys.exit("\n".join(self.faults.values()))
        for file in sorted(glob.glob(f"{self.top}/docs/*.md") + [f"{self.top}/README.md"]):
            self.page(file)
        changed = {file: edits for file, edits in self.texts.items() if edits.found}
        for file, edits in changed.items():
            open(file, "w", encoding="utf-8").write(edits.within(0, len(edits.text)))
        print(f"{len(self.new)} definitions and lemmas renamed, in {len(changed)} files")


class CrateRenamer:
    """New names for crates: words and folders alone, since no name of a crate means anything else."""

    def __init__(self, top, pairs):
        self.top, self.pairs = top, pairs
        listed = open(f"{top}/crates.txt", encoding="utf-8").read()
        self.crates = {m[1] for m in re.finditer(r"^(\w+)[ \w]*:", listed, re.M)}
        self.word = re.compile(r"\b(?:" + "|".join(map(re.escape, [w for pair in pairs for w in pair])) + r")\b")

    def files(self):
        for at, folders, names in os.walk(self.top):
            folders[:] = [f for f in folders if f not in (".git", "out", "__pycache__")]
            for name in names:
                file = os.path.join(at, name)
                if not os.path.islink(file) and os.path.relpath(file, self.top) != "measure/test":
                    yield file

    def texts(self):
        for file in self.files():
            try:
                text = open(file, encoding="utf-8", newline="").read()
            except UnicodeDecodeError:
                continue
            if self.word.search(text):
                yield file, text

    def run(self, map_file):
        texts = {file: text for file, text in self.texts() if os.path.abspath(file) != os.path.abspath(map_file)}
        new, faults = dict(self.pairs), []
        if len(new) != len(self.pairs) or len(set(new.values())) != len(self.pairs):
            faults.append("the map: a name stands there twice")
        faults += [f"the map: {old} isn't a crate" for old in new if old not in self.crates]
        for file, text in texts.items():
            taken = sorted({w for w in self.word.findall(text) if w not in new})
            faults += [f"{os.path.relpath(file, self.top)}: {w} stands there" for w in taken]
        if faults:
            sys.exit("\n".join(faults))
        for file, text in texts.items():
            open(file, "w", encoding="utf-8", newline="").write(self.word.sub(lambda m: new[m[0]], text))
        for old in new:
            os.rename(f"{self.top}/crates/{old}", f"{self.top}/crates/{new[old]}")
        print(f"{len(new)} crates renamed, in {len(texts)} files")


def crates_of(map_file):
    """The pairs of a map for crates, None where it is one for definitions."""
    lines = [line.split("#")[0].split() for line in open(map_file, encoding="utf-8")]
    lines = [words for words in lines if words]
    return lines if lines and all(len(words) == 2 and "." not in words[0] for words in lines) else None


def main():
    words = sys.argv[1:]
    if not 1 <= len(words) <= 2 or words[0].startswith("-"):
        sys.exit(__doc__)
    top = words[1] if len(words) > 1 else os.path.join(os.path.dirname(os.path.abspath(__file__)), "..")
    top = os.path.normpath(top)
    pairs = crates_of(words[0])
    if pairs:
        CrateRenamer(top, pairs).run(words[0])
    else:
        Renamer(top, words[0]).run()


if __name__ == "__main__":
    main()
