#!/usr/bin/env python3
"""Compare a program that reads lines with examples.

    bench/check_examples.py ./run trailer                        the command given, on examples/
    bench/check_examples.py ./run console examples/console       on another folder
    bench/check_examples.py bench/model.py trailer crates/trials/data
    bench/check_examples.py                                      the model of the line program

The last argument is the folder if it names one, else the folder is examples/.
Every .txt of the folder with a .out beside it is fed to the program; what it
prints must be the .out, byte for byte, and it must end with status 0.  On
standard error it must print one line for an input that is longer than it reads,
and nothing for any other; where standard error takes nothing, the rest must be the same.
Differences are reported line by line, and any makes the exit status 1.
"""

import subprocess
import sys
from itertools import zip_longest
from pathlib import Path

sys.dont_write_bytecode = True

from model import LONGEST_INPUT

BENCH = Path(__file__).resolve().parent
EXAMPLES = BENCH.parent / "examples"
MODEL = [sys.executable, str(BENCH / "model.py"), "trailer"]
SHOWN = 10  # differences printed for each example


def differences(source, expected, printed):
    """(line number, input line, line expected, line printed), unlike ones
    only; None stands for a line that is not there."""
    rows = zip_longest(source.split(b"\n"), expected.split(b"\n"), printed.split(b"\n"))
    return [(n, *row) for n, row in enumerate(rows, 1) if row[1] != row[2]]


def show(line):
    """A line as ASCII, other bytes escaped."""
    return "(none)" if line is None else ascii(line.decode("latin-1"))[1:-1]


def check(command, example):
    """Run one example; say what is wrong and whether nothing is."""
    source = example.read_bytes()
    expected = example.with_suffix(".out").read_bytes()
    done = subprocess.run(command, input=source, capture_output=True)
    unlike = differences(source, expected, done.stdout)
    long = len(source) > LONGEST_INPUT
    warned = done.stderr.count(b"\n") == long and bool(done.stderr) == long
    good = not unlike and warned and done.returncode == 0
    if long:
        with open("/dev/full", "wb") as full:
            unheard = subprocess.run(command, input=source, stdout=subprocess.PIPE, stderr=full)
        good &= unheard.stdout == expected and unheard.returncode == 0
    print(f"{example.name}: {'ok' if good else 'DIFFERENT'}")
    if long and (unheard.stdout, unheard.returncode) != (done.stdout, done.returncode):
        print(f"  otherwise where standard error takes nothing, with exit status {unheard.returncode}")
    if done.returncode != 0:
        print(f"  exit status {done.returncode}")
    if not warned:
        print(f"  on standard error: {show(done.stderr)}")
    for number, line, wanted, got in unlike[:SHOWN]:
        print(f"  line {number}: {show(line)}")
        print(f"    expected {show(wanted)}")
        print(f"    printed  {show(got)}")
    if len(unlike) > SHOWN:
        print(f"  and {len(unlike) - SHOWN} more")
    return good


def main():
    command, folder = sys.argv[1:], EXAMPLES
    if command and Path(command[-1]).is_dir():
        folder = Path(command.pop())
    command = command or MODEL
    examples = [e for e in sorted(folder.glob("*.txt")) if e.with_suffix(".out").exists()]
    if not examples:
        print(f"no examples in {folder}")
        return 1
    results = [check(command, example) for example in examples]
    return 0 if all(results) else 1


if __name__ == "__main__":
    sys.exit(main())
