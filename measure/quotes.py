#!/usr/bin/env python3
"""quotes.py: whether the printed lines that docs/MIGRATION.md and other pages of docs/ quote are those of the example that they tell; and
whether each answer of `explore` that a page quotes (README.md, those of docs/) is that of a run of crates/dm_rows/data.

A part of the page that tells a run has a heading that says `from its printed lines`, and names the run by `examples/NAME.toml`. What stands in backticks in the first column of its
table are lines of examples/NAME.out, and in one row they stand behind one another there, perhaps with others between; so do the
first lines of the rows. Prints each that isn't so with its place; the status is 1 if there is one, or if docs/MIGRATION.md quotes nothing."""
import glob, os, re, sys

TOP = os.path.normpath(os.path.join(os.path.dirname(os.path.abspath(__file__)), ".."))
PAGE = "docs/MIGRATION.md"
ANSWER = r"# (?:found in \d+ directives|none within \d+ directives: \d+ schedules|undecided: \d+ schedules)"


def read(path):
    with open(f"{TOP}/{path}", encoding="utf-8") as file:
        return file.read()


def parts(page):
    """(name of the example, [(number of the line, quoted lines)]) of each part that tells a run."""
    found = []
    for number, line in enumerate(page.split("\n"), 1):
        if re.match("##? ", line):
            found.append((None if line.endswith("from its printed lines") else "", []))
        named = re.search(r"examples/(\w+)\.toml", line)
        if found and found[-1][0] is None and named:
            found[-1] = (named[1], found[-1][1])
        elif found and found[-1][0] and line.startswith("| `"):
            found[-1][1].append((number, re.findall(r"`([^`]+)`", line.split("|")[1])))
    return [(name, rows) for name, rows in found if name]


def behind(lines, quoted, at):
    """Where the last of these stands that begin at this place or behind it, one behind another: (first, last), or the line that doesn't."""
    first = None
    for line in quoted:
        if line not in lines[at:]:
            return line
        at = lines.index(line, at)
        first = at if first is None else first
        at += 1
    return first, at


def faults(path):
    count = 0
    for name, rows in parts(read(path)):
        lines, at = read(f"examples/{name}.out").split("\n"), 0
        for number, quoted in rows:
            count += len(quoted)
            found = behind(lines, quoted, at)
            if isinstance(found, str):
                yield f"{path}:{number}: examples/{name}.out has no line there: {found}"
            else:
                at = found[0] + 1
    if not count and path == PAGE:
        yield f"{PAGE} quotes no lines any more"


def named(pattern):
    return [os.path.relpath(path, TOP) for path in sorted(glob.glob(f"{TOP}/{pattern}"))]


def wrong_answers():
    """The answers that pages quote and no run has."""
    stored = {read(path).split("\n")[0] for pattern in ("explore_*.out", "example_*.txt") for path in named(f"crates/dm_rows/data/{pattern}")}
    for page in named("README.md") + named("docs/*.md"):
        for number, line in enumerate(read(page).split("\n"), 1):
            for answer in re.findall(ANSWER, line):
                if answer not in stored:
                    yield f"{page}:{number}: no run has this answer: {answer}"


def main():
    found = [fault for path in named("docs/*.md") for fault in faults(path)] + list(wrong_answers())
    print(*found or ["what docs/MIGRATION.md and other pages quote is printed, in that order, and each answer of `explore` is a run's"], sep="\n")
    return bool(found)


if __name__ == "__main__":
    sys.exit(main())
