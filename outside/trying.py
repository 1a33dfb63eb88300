"""What the scripts of this folder share: which program is tried, what it says, and a table of rows that are right or wrong."""

import os
import shlex
import subprocess
import tempfile
from pathlib import Path

TOP = Path(__file__).resolve().parent.parent
PROVED = TOP / "crates/dm_cli/out/dm_cli"


def program_at_hand():
    """The program of these sources, as words: the proved one or the quick build, else the script that makes it."""
    script = str(TOP / "demosmp")
    said = subprocess.run([script, "--version"], stdin=subprocess.DEVNULL, capture_output=True, text=True, check=False).stdout
    if "the proved program" in said:
        return [str(PROVED)]
    if "the quick build of these sources is at hand" in said:
        return [str(TOP / f"out/demosmp-{said.split()[2]}")]
    return [script]


def takes_program(parser, default=None):
    """Has a reader of words take `--program PATH`, a program with its first words; without it the one at hand is meant."""
    parser.add_argument("--program", type=shlex.split, default=default, metavar="PATH")


def own_lines(errors):
    """The program's own lines on standard error: those of ./demosmp say what build runs."""
    return [line for line in errors.decode(errors="replace").splitlines() if not line.startswith("demosmp: ")]


def run(words):
    """What a program does: its status, its last line on standard error, and its output."""
    ended = subprocess.run(words, stdin=subprocess.DEVNULL, capture_output=True, check=False)
    said = own_lines(ended.stderr)
    return ended.returncode, said[-1] if said else "", ended.stdout


class PassedOver(Exception):
    """A row that can't be tried here."""


class Tried:
    """What a row is tried with: a program, as words, and a folder of its own."""

    def __init__(self, program, folder):
        first, *others = program
        self.program = [os.path.abspath(first) if "/" in first else first, *others]
        self.folder = Path(folder)

    def file(self, name, content):
        """A file of the folder."""
        path = self.folder / name
        path.write_bytes(content.encode() if isinstance(content, str) else content)
        return path


class Rows:
    """A table of rows: functions that say whether a Tried is right, each by the first line of its documentation. What `kept` says of
    the Tried behind a row must hold too."""

    def __init__(self, kept=lambda tried: True):
        self.rows, self.kept = [], kept

    def __call__(self, function):
        self.rows.append((function.__doc__.strip().splitlines()[0].rstrip("."), function))
        return function

    def ends(self, make, only=None):
        """Tries each row, or the one of this name, with what `make` makes of a folder, and says how each ends. The last line is
        `N right, M wrong, K passed over`; the status is 0 only if none is wrong and there is one."""
        ends = {"right": 0, "WRONG": 0, "passed over": 0}
        for name, function in self.rows:
            if only not in (None, function.__name__):
                continue
            with tempfile.TemporaryDirectory() as folder:
                tried = make(folder)
                try:
                    end, why = "right" if function(tried) and self.kept(tried) else "WRONG", ""
                except PassedOver as reason:
                    end, why = "passed over", f", {reason}"
            print(f"{name}: {end}{why}", flush=True)
            ends[end] += 1
        print(f"{ends['right']} right, {ends['WRONG']} wrong, {ends['passed over']} passed over")
        return 0 if ends["WRONG"] == 0 and sum(ends.values()) > 0 else 1

