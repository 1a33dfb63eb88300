#!/usr/bin/env python3
"""Measures what the parts of a crate's check cost, in seconds, by the times of the files that a check with one job writes.

    taskset -c 0 python3 measure/parts.py CRATE [FUNCTION ..]

At the top of the checkout, once `rt ci` has built the libraries below the crate. With functions (their path below the crate, as
`world::World::take`) only they are checked, and what they call. A line a function, the dearest first: the whole, its name, and
each part of a tenth of a second or more. `Lts` is the system of its steps, `Proof` what is searched for (`Answers` what is written),
`Tie` that the steps are the code's; then what belongs to no function, and the last line of the check."""

import collections
import os
import re
import shutil
import subprocess
import sys
import tempfile

sys.dont_write_bytecode = True
sys.path.insert(0, os.path.dirname(os.path.realpath(shutil.which("rt"))))
import rtlib

PART = r"Lts|Proof|Answers|Invariants|Tie|Reads|Mir|Kinds|Layout|Code|Named"
LEAST = 0.1


def written(folder):
    """The files below a folder, in the order in which they were written: when, and the module that each is of."""
    found = []
    for at, _, names in os.walk(folder):
        for name in names:
            path = os.path.join(at, name)
            module = re.sub(r"\.decls|\.oantt", "", name)
            found.append((os.stat(path).st_mtime, module))
    return sorted(found)


def parts(crate, files):
    """The seconds by function and part, and of other modules by name."""
    of_function = re.compile(rf"Rattle-{crate}-proofs\.(.*?)(?:\.Code)?\.({PART})(?:\..*)?$")
    functions, others = collections.defaultdict(collections.Counter), collections.Counter()
    for (before, _), (when, module) in zip(files, files[1:]):
        match = of_function.match(module)
        if match:
            functions[match[1]][match[2]] += when - before
        else:
            others[module] += when - before
    return functions, others


def checked(top, name, only):
    """Checks a crate, and gives the files that were written and what was said."""
    crate = rtlib.Crate(f"{top}/crates/{name}", top, {})
    with tempfile.TemporaryDirectory() as folder:
        words = [rtlib.RATTLE, "check", *crate.words(["--jobs", "1"], keeps=False), "--incremental", folder]
        for function in only:
            words += ["--only", function]
        done = subprocess.run(words, cwd=crate.folder, stdout=subprocess.PIPE, stderr=subprocess.STDOUT, text=True)
        return written(folder), done.stdout.rstrip("\n")


def main(name, *only):
    files, said = checked(os.getcwd(), name, only)
    functions, others = parts(name, files)
    for function, by_part in sorted(functions.items(), key=lambda it: -sum(it[1].values())):
        dear = ", ".join(f"{part} {seconds:.1f}" for part, seconds in by_part.most_common() if seconds >= LEAST)
        print(f"{sum(by_part.values()):.1f} {function}: {dear}")
    for module, seconds in others.most_common():
        if seconds >= LEAST:
            print(f"{seconds:.1f} {module}")
    print(said.rpartition("\n")[2])


if __name__ == "__main__":
    if len(sys.argv) < 2:
        sys.exit(__doc__)
    main(*sys.argv[1:])
