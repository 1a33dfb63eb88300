#!/usr/bin/env python3
"""weigh.py [TOP]: what the law book weighs, in the repository whose top is TOP (default: the folder above this one).

Prints, one a line: lines of proof in the five law crates, lines of proof that import, files that name a kind of message and a
line of a run that stand for all of their sort (`CallOff`, `Away`), lines of definitions behind the clauses of the command `run`
and of the whole program (imports, comments and empty lines aren't counted), the rows among them that say nothing, and lemmas that
nothing reaches; then lemmas whose statement another crate has too, and those of them where one crate stands below the other; then
lines by crate. Beside lines stand thousands of characters, since a line may be long. Statements are the same if their words are,
once each name is what it stands for, and each variable its place. With --lemmas it lists the lemmas that nothing reaches, with
--twice those whose statement another crate has too, first where one crate stands below the other: there the upper one can go."""
import collections, os, re, sys
sys.dont_write_bytecode = True
sys.path.insert(0, os.path.dirname(os.path.abspath(__file__)))
from lawbook import Book, reach

LAWS = ("dm_law_rule", "dm_law_always", "dm_law_sides", "dm_law_places", "dm_law_mirror", "dm_law_moves")
CLAUSES = {"the command run": ("dm_cmd_run/src/run.rt",), "the program": ("dm_program/src/entry.rt", "dm_program/src/program.rt")}
NOTHING = re.compile(r"^\s*[a-z_].* = (?:None|false|\[\]|⊥|⊤|v|s|a|x|tt)$")


def lines(modules):
    return sum(len(m.lines) - 1 for m in modules)


def characters(modules):
    return sum(len(line) + 1 for m in modules for line in m.lines)


def thousands(n):
    return f"{n / 1000:.0f}k"


def imports(modules):
    return [line for m in modules for line in m.lines if re.match(r"^(?:unfoldable )?(?:pub )?use ", line)]


def naming(modules, word):
    return sum(bool(re.search(rf"\b{word}\b", "\n".join(m.lines))) for m in modules)


def unreached(book, edges):
    """Lemmas that no clause, no definition, no worked value and no other lemma which is reached names."""
    lemmas, roots = book.lemma_modules(), book.cited()
    for path, m in book.modules.items():
        if m.part == "specs" or path not in lemmas or "Worked" in path:
            roots |= set(m.own)
    seen = reach(edges, roots)
    return sorted((d for p in lemmas for d in book.modules[p].own if d not in seen), key=str)


def behind(book, edges, files):
    """Lines of the definitions that the clauses in these files stand on."""
    roots = {d for d in book.cited(lambda f: f.endswith(files)) if d.module.part == "specs"}
    found = reach({d: {x for x in ds if x.module.part == "specs"} for d, ds in edges.items()}, roots)
    return [line for d in found for line in d.text() if line.strip() and not line.strip().startswith("--")]


def below(top):
    """crate -> the crates that it stands on, by way of others too."""
    deps = {}
    for line in open(f"{top}/crates.txt", encoding="utf-8"):
        if line.strip() and not line.startswith("#"):
            head, _, rest = line.partition(":")
            deps[head.split()[0]] = set(rest.split())
    return {c: reach(deps, deps[c]) for c in deps}


def meaning(book, module, name, seen=()):
    """What a name of a module stands for, whoever passes it on: a declaration, or the name that another library has for it."""
    if (module, name) in seen or module is None:
        return name
    if name in module.declared or name in module.inner or name not in module.names:
        return str(book.means(module, name) or name)
    path, there = module.names[name]
    path = book.full(module, path)
    head, _, rest = there.partition(".")
    home = book.modules.get(path)
    if not home:
        return ".".join(path.split(".")[:2] + [there]) if path.startswith("Rattle.std.") else f"{path}.{there}"
    return meaning(book, home, head, seen + ((module, name),)) + ("." + rest if rest else "")


def resolved(book, d):
    """The statement of a lemma without its name, each name as what it stands for."""
    text = " ".join(x.strip() for x in d.statement())
    text = re.sub(r"^(?:(?:pattern|unfoldable|abbrev|axiom|pub) )*\S+ ", "", text)
    bound = set(re.findall(r"[^\s(){}\[\];,.:]+", " ".join(re.findall(r"[({]([^(){}:]*) :", text) + re.findall(r"λ ([^.()]*)\.", text))))
    places = {}

    def word(match):
        head, _, rest = match[0].partition(".")
        if head in bound:
            return f"{places.setdefault(head, len(places))}.{rest}"
        if not re.match(r"[^\W\d]|[◌'\[]", head):
            return match[0]
        if head in d.module.modules:
            found = book.find(book.full(d.module, head), rest)
            return str(found) if found else f"{book.full(d.module, head)}.{rest}".replace(".TheVariants", "")
        return meaning(book, d.module, head) + ("." + rest if rest else "")

    return text, re.sub(r"[^\s(){}\[\];,:]+", word, text)


def is_lemma(text):
    """Whether a signature says that something holds: it isn't of a type, nor of a function that gives a type or a plain value."""
    depth, last = 0, 0
    for k, c in enumerate(text):
        depth += (c in "({[") - (c in ")}]")
        if depth == 0 and text[k:k + 3] == " → ":
            last = k + 3
    says = text[last:].removeprefix(": ").strip()
    return ("≡" in text or "→" in text) and " " in says and not re.match(r"(?:Type|List|Option) ", says)


def twice(book):
    """Statements of lemmas that stand in two crates or more, and the lemmas."""
    found = collections.defaultdict(list)
    for path in sorted(book.lemma_modules()):
        for d in book.modules[path].own:
            if d.kind == "value" and "Worked" not in path:
                text, key = resolved(book, d)
                if is_lemma(text):
                    found[key].append(d)
    return {key: ds for key, ds in found.items() if len({d.module.crate for d in ds}) > 1}


def above(statements, under):
    """(lemma, the same below it) of each lemma whose statement a crate below has."""
    for ds in statements.values():
        for d in ds:
            lower = [x for x in ds if x.module.crate in under.get(d.module.crate, ())]
            if lower:
                yield d, lower[0]


def main():
    words = [w for w in sys.argv[1:] if not w.startswith("--")]
    book = Book(words[0] if words else os.path.join(os.path.dirname(os.path.abspath(__file__)), ".."))
    edges = book.graph()
    proofs = [m for m in book.modules.values() if m.part == "proofs"]
    specs = [m for m in book.modules.values() if m.part == "specs"]
    lost = unreached(book, edges)
    laws, used = [m for m in proofs if m.crate in LAWS], imports(proofs)
    print(f"{lines(laws):7}  lines of proof in {', '.join(LAWS)}; {thousands(characters(laws))} characters")
    print(f"{len(used):7}  lines of proof that import; {thousands(sum(len(x) + 1 for x in used))} characters")
    for word in ("CallOff", "Away"):
        print(f"{naming(proofs, word):7}  files of proof that name {word}")
        print(f"{naming(specs, word):7}  files of definitions that name {word}")
    for what, files in CLAUSES.items():
        body = behind(book, edges, files)
        print(f"{len(body):7}  lines of definitions behind the clauses of {what}; {thousands(sum(len(x) + 1 for x in body))} characters")
        print(f"{sum(bool(NOTHING.match(line)) for line in body):7}  of these, rows that say nothing")
    print(f"{len(lost):7}  lemmas that nothing reaches")
    same = twice(book)
    upper = sorted(above(same, below(book.top)), key=str)
    print(f"{sum(len(ds) - 1 for ds in same.values()):7}  lemmas whose statement another crate has too")
    print(f"{len(upper):7}  of these, lemmas whose statement a crate below has")
    print(f"\n{'crate':16}{'defs':>8}{'chars':>8}{'proofs':>8}{'chars':>8}{'files':>8}{'imports':>8}{'lost':>8}")
    for crate in sorted({m.crate for m in book.modules.values()}):
        mine = [m for m in proofs if m.crate == crate]
        ours = [m for m in specs if m.crate == crate]
        row = (lines(ours), thousands(characters(ours)), lines(mine), thousands(characters(mine)), len(mine), len(imports(mine)),
               sum(d.module.crate == crate for d in lost))
        print(f"{crate:16}" + "".join(f"{n:>8}" for n in row))
    if "--lemmas" in sys.argv:
        print(*(f"{d}  {d.end - d.start} lines" for d in lost), sep="\n")
    if "--twice" in sys.argv:
        print("\nwhere one crate stands below the other:", *(f"{d}  as  {x}" for d, x in upper), sep="\n")
        print("\nall:")
        for _, ds in sorted(same.items(), key=lambda x: -len(x[1])):
            print(resolved(book, ds[0])[0], *(f"    {d}" for d in ds), sep="\n")


if __name__ == "__main__":
    main()
