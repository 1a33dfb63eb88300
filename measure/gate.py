#!/usr/bin/env python3
"""Measures a gate from nothing: what each crate costs, its proof and its wrong bodies, in seconds of processor time.

    RT_JOBS=4 python3 measure/gate.py FILE

At the top of the checkout, with nothing beside it. RT_JOBS is how many processors there are: each proof has one job then, and as
many are done at once. It runs `rt ci` on the processors that it is given, writes what that says to FILE, and looks at its
processes in /proc, twice a second. At the end it prints the table, the whole in processor minutes and minutes by the clock, and
the last line of the run; its status is the run's.
"""

import os
import re
import resource
import subprocess
import sys
import time

TICKS = os.sysconf("SC_CLK_TCK")
PAUSE = 0.5


def seen_now(session):
    """The processes of a session: by number and start, the folder, the words and the seconds so far."""
    found = {}
    for number in filter(str.isdigit, os.listdir("/proc")):
        try:
            with open(f"/proc/{number}/stat", "rb") as file:
                # What stands behind the name, which may have any characters.
                fields = file.read().rpartition(b")")[2].split()
            if int(fields[3]) != session:
                continue
            with open(f"/proc/{number}/cmdline", "rb") as file:
                words = file.read().decode(errors="replace").split("\0")
            seconds = (int(fields[11]) + int(fields[12])) / TICKS
            if not any(words):
                # It is ending, and its words have gone before it: what the last look saw of it stays.
                continue
            found[number, fields[19]] = os.readlink(f"/proc/{number}/cwd"), words, seconds
        except OSError:
            # It has ended meanwhile.
            continue
    return found


def costs(seen, top):
    """By crate, the seconds of its proof and of its wrong bodies, which are checked in copies elsewhere."""
    table = {}
    for folder, words, seconds in seen.values():
        if "--crate-name" in words[:-1]:
            crate = words[words.index("--crate-name") + 1]
            row = table.setdefault(crate, [0.0, 0.0])
            row[not folder.startswith(f"{top}/crates/")] += seconds
    return table


def listed(top):
    """The crates in the order of crates.txt."""
    with open(f"{top}/crates.txt", encoding="utf-8") as file:
        return re.findall(r"(?m)^(\w+)\s*:", file.read())


def main(log):
    top, began, seen = os.getcwd(), time.time(), {}
    with open(log, "w", encoding="utf-8") as out:
        gate = subprocess.Popen(["rt", "ci"], stdout=out, stderr=subprocess.STDOUT, start_new_session=True)
        while gate.poll() is None:
            seen.update(seen_now(gate.pid))
            time.sleep(PAUSE)
    used = resource.getrusage(resource.RUSAGE_CHILDREN)
    table = costs(seen, top)
    print("| Crate | Proof | Wrong bodies |\n|---|---|---|")
    for crate in listed(top):
        proof, bodies = table.get(crate, (0.0, 0.0))
        print(f"| {crate} | {proof:.0f} | {f'{bodies:.0f}' if bodies else ''} |")
    proofs, bodies = (sum(row[at] for row in table.values()) / 60 for at in (0, 1))
    whole = (used.ru_utime + used.ru_stime) / 60
    print(f"{whole:.1f} processor minutes, of which {proofs:.1f} of proofs and programs and {bodies:.1f} of wrong bodies")
    print(f"{(time.time() - began) / 60:.1f} minutes by the clock on {len(os.sched_getaffinity(0))} processors")
    with open(log, encoding="utf-8") as said:
        print(said.read().rstrip("\n").rpartition("\n")[2])
    return gate.returncode


if __name__ == "__main__":
    sys.exit(main(sys.argv[1]) if len(sys.argv) == 2 else "usage: python3 measure/gate.py FILE")
