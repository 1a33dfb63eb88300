#!/usr/bin/env python3
"""names.py: whether what the pages name exists, and whether what they count is as many.

The pages are README.md, examples/README.md and those of docs/ of the repository above this file. A name is a file or folder of the
repository, a crate, or a word in backticks that is written as code has it (with `_`, with `::`, or with capitals within); it exists
where a file has it as a whole word, that of a crate (`dm_x::name`) in the crate's own files. A clause (`dm_x::f`, clause `a`) is one
of that crate. What is counted stands in COUNTED. Prints each that isn't so with its place; the status is 1 if there is one."""
import glob, os, re, sys

TOP = os.path.normpath(os.path.join(os.path.dirname(os.path.abspath(__file__)), ".."))
FOLDERS = "crates|docs|examples|outside|measure|viewer"
NUMBERS = "none one two three four five six seven eight nine ten eleven twelve thirteen fourteen fifteen sixteen".split()


def read(path):
    with open(path, encoding="utf-8", errors="replace") as file:
        return file.read()


def words_of(patterns):
    """The words of all files that match."""
    found = set()
    for pattern in patterns:
        for path in glob.glob(os.path.join(TOP, pattern), recursive=True):
            if os.path.isfile(path):
                found.add(os.path.basename(path).split(".")[0])
                found.update(re.findall(r"\w+(?:-\w+)*|\w+", read(path)))
    return found


def crate_words(crate):
    return words_of([f"crates/{crate}/{part}/**/*" for part in ("src", "specs", "proofs", "must-fail")])


def clauses_of(crate):
    """The names of the clauses of a crate's functions, and of the fields of its records."""
    code = "".join(read(p) for p in glob.glob(f"{TOP}/crates/{crate}/src/**/*.rt", recursive=True))
    specs = "".join(read(p) for p in glob.glob(f"{TOP}/crates/{crate}/specs/**/*.antt", recursive=True))
    return set(re.findall(r"ensures (\w+)", code)) | set(re.findall(r"^  pub (\w+) :", specs, re.M))


def is_there(path):
    """A file or folder, perhaps without its ending."""
    full = os.path.join(TOP, path)
    return os.path.exists(full) or bool(glob.glob(glob.escape(full) + ".*"))


def files_named(line):
    for found in re.findall(rf"(?<![\w/.-])((?:{FOLDERS})/[\w./-]*\w|dm_\w+/(?:src|specs|proofs|must-fail|data)/[\w./-]*\w)", line):
        path = found if re.match(FOLDERS, found) else f"crates/{found}"
        if not re.search(r"NAME|/out\b", path):
            yield found, path


def names_in(line):
    for word in re.findall(r"`([A-Za-z_]\w*(?:::\w+)*)`", line):
        if "_" in word.strip("_") or "::" in word or re.search(r"[a-z][A-Z]", word):
            yield word


def clauses_in(line):
    """(crate, clause) of each clause that is named behind a function of a crate."""
    for m in re.finditer(r"`(dm_\w+)::[\w:]+`((?:,? (?:and )?`[\w]+`)*),? clauses? (`\w+`(?:(?:,| and) `\w+`)*)", line):
        for clause in re.findall(r"`(\w+)`", m[3]):
            yield m[1], clause


class Faults:
    def __init__(self):
        self.all = words_of([f"crates/*/{part}/**/*" for part in ("src", "specs", "proofs", "must-fail")])
        self.all |= words_of(["crates.txt", "demosmp", "check-all", "measure/*.py", "measure/like", "measure/settle", "outside/**/*", "viewer/*", "examples/*.toml", "crates/dm_rows/data/ru*", "crates/dm_rows/data/row*"])
        self.crates = {c for c in os.listdir(f"{TOP}/crates")}
        self.words, self.clauses = {}, {}

    def of_crate(self, crate, kept, make):
        if crate not in kept:
            kept[crate] = make(crate)
        return kept[crate]

    def is_known(self, word):
        parts = word.split("::")
        if parts[0] in self.crates:
            return all(p in self.of_crate(parts[0], self.words, crate_words) for p in parts[1:])
        return all(p in self.all or p in self.crates for p in parts)

    def of_line(self, line):
        for found, path in files_named(line):
            if not is_there(path):
                yield f"no such file: {found}"
        for crate in re.findall(r"\bdm_\w+\b", line):
            if crate not in self.crates and not re.search(r"dm_x\b", crate):
                yield f"no such crate: {crate}"
        for word in names_in(line):
            if not self.is_known(word):
                yield f"nothing has this name: {word}"
        for crate, clause in clauses_in(line):
            if crate in self.crates and clause not in self.of_crate(crate, self.clauses, clauses_of):
                yield f"{crate} has no such clause: {clause}"


def entries(table, wrong):
    """How many entries a table of dm_rows has, those that are wrong on purpose or the others."""
    right, _, meant = read(f"{TOP}/crates/dm_rows/data/{table}").partition("\n# Wrong on purpose")
    return sum(1 for line in (meant.partition("\n")[2] if wrong else right).split("\n") if line and not line.startswith("#"))


def wrong_bodies():
    return len(glob.glob(f"{TOP}/crates/*/must-fail/*.edit"))


def kinds():
    """How many constructors the kinds of message have."""
    table = read(f"{TOP}/crates/dm_message/specs/Sorts.antt")
    return len(re.findall(r"^kind_row ", table, re.M))


# page, words with a number for each group, and what the numbers must be
COUNTED = [
    ("docs/PROMISES.md", r"a program that does (\S+) runs of `finish`", lambda: [entries("runs", False)]),
    ("docs/PROMISES.md", r"It says of each of (\S+) rows", lambda: [entries("rows", False)]),
    ("docs/GATE.md", r"(\S+) runs and (\S+) rows are wrong on purpose", lambda: [entries("runs", True), entries("rows", True)]),
    ("docs/GATE.md", r"\d+ of (\d+) are refused by a value", lambda: [wrong_bodies()]),
    ("docs/DEFINITIONS.md", r"one table of the (\d+) kinds of message", lambda: [kinds()]),
    ("docs/DEFINITIONS.md", r"packets of version 4 and all (\d+) kinds", lambda: [kinds()]),
]


def number(word):
    word = word.replace(",", "").lower()
    return int(word) if word.isdigit() else NUMBERS.index(word) if word in NUMBERS else None


def counted():
    for page, words, must in COUNTED:
        found = re.search(words, read(f"{TOP}/{page}"))
        if not found:
            yield f"{page}: it doesn't say how many any more: {words}"
        elif [number(g) for g in found.groups()] != must():
            yield f"{page}: {found[0]!r}, and there are {', '.join(map(str, must()))}"


def main():
    pages = ["README.md", "examples/README.md"] + sorted(os.path.relpath(p, TOP) for p in glob.glob(f"{TOP}/docs/*.md"))
    faults = Faults()
    found = [f"{page}:{k}: {fault}" for page in pages for k, line in enumerate(read(f"{TOP}/{page}").split("\n"), 1) for fault in faults.of_line(line)]
    found += counted()
    print(*found or [f"{len(pages)} pages name what there is, and count it rightly"], sep="\n")
    return bool(found)


if __name__ == "__main__":
    sys.exit(main())
