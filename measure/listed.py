#!/usr/bin/env python3
"""listed.py [TOP]: for each crate, the names in its line of crates.txt that no file of it uses, and those that it uses without
listing them, in the repository whose top is TOP (default: the folder above this one).

A file of src/ uses a crate by a path (`dm_x::..`, `use dm_x`), a file of specs/ or proofs/ and a `ghost use` by `Rattle.dm_x`;
comments and texts don't count. What only `proofs/Names.antt` uses is marked, since measure/gather.py may take it from another
crate. With --write CRATE .. it writes the lines of these crates in crates.txt anew: the names that are used, those that weren't
listed behind the others. The status is 1 if a line isn't exact."""
import glob, os, re, sys
sys.dont_write_bytecode = True

RUST = re.compile(r'//[^\n]*|"(?:[^"\\]|\\.)*"')
ANTT = re.compile(r'--[^\n]*|"[^"]*"')


def listed(top):
    """crate -> the names of its line, in the order of crates.txt."""
    found = {}
    for line in open(f"{top}/crates.txt", encoding="utf-8"):
        if line.strip() and not line.startswith("#"):
            head, _, rest = line.partition(":")
            found[head.split()[0]] = rest.split()
    return found


def used(top, crate, known):
    """name -> the files of a crate that use it, of the names that are known."""
    found = {}
    for file in sorted(glob.glob(f"{top}/crates/{crate}/src/**/*.rt", recursive=True)):
        code = RUST.sub("", open(file, encoding="utf-8").read())
        own = set(re.findall(r"\bmod (\w+)\b", code))
        names = set(re.findall(r"(?<![\w:])(\w+)::", code)) | set(re.findall(r"\buse (\w+)\b", code)) | set(re.findall(r"\bRattle\.(\w+)\.", code))
        for name in names & known - own:
            found.setdefault(name, []).append(file)
    for part in ("specs", "proofs"):
        for file in sorted(glob.glob(f"{top}/crates/{crate}/{part}/**/*.antt", recursive=True)):
            for name in set(re.findall(r"\bRattle\.(\w+)\b", ANTT.sub("", open(file, encoding="utf-8").read()))) & known:
                found.setdefault(name, []).append(file)
    return {name: files for name, files in found.items() if name != crate}


def exact(top, crate, lines, known):
    """The names that a crate's line should have."""
    names, order = used(top, crate, known), list(lines)
    kept = [n for n in lines[crate] if n in names]
    return kept + sorted(names.keys() - set(kept), key=lambda n: (n not in lines, order.index(n) if n in lines else 0, n))


def rewrite(top, crates, lines, known):
    path, out = f"{top}/crates.txt", []
    for line in open(path, encoding="utf-8"):
        crate = line.partition(":")[0].split()
        if crate and crate[0] in crates:
            line = " ".join([line.partition(":")[0] + ":", *exact(top, crate[0], lines, known)]) + "\n"
        out.append(line)
    open(path, "w", encoding="utf-8").write("".join(out))


def main():
    words = sys.argv[1:]
    write = words[words.index("--write") + 1:] if "--write" in words else []
    words = words[:words.index("--write")] if "--write" in words else words
    top = os.path.normpath(words[0] if words else os.path.join(os.path.dirname(os.path.abspath(__file__)), ".."))
    lines = listed(top)
    known = set(lines) | {n for names in lines.values() for n in names}
    if write:
        rewrite(top, write, lines, known)
    wrong = 0
    for crate, names in listed(top).items():
        uses = used(top, crate, known)
        for_imports = {n for n, files in uses.items() if all(re.search(r"/proofs/(?:Names|Imports)\.antt$", f) for f in files)}
        parts = (("not used", [n for n in names if n not in uses]), ("not listed", [n for n in uses if n not in names]),
                 ("only by its file of imports", [n for n in names if n in for_imports]))
        wrong += sum(len(ns) for what, ns in parts[:2])
        told = "; ".join(f"{what}: {' '.join(ns)}" for what, ns in parts if ns)
        if told:
            print(f"{crate}: {told}")
    return wrong > 0


if __name__ == "__main__":
    sys.exit(main())
