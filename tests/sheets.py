#!/usr/bin/env python3
"""Runs the sheet program on many inputs and compares what it prints with the sheets that settlement.py works out.

  sheets.py PROGRAM COMMAND

The inputs are the stored day files, random days, and inputs as long as the program reads and longer. Also compared: what
it says where it cannot read or write, and the sheet that README.md shows, of the file that COMMAND (citronreef) makes.
"""
import os
import subprocess
import sys
from pathlib import Path

from random_days import random_day
from records import MAX_CORRECTIONS, MAX_MARKS, MAX_POSITIONS, file_of
from require import require
from settlement import INPUT_LIMIT, sheet
from stored import cases

ROOT = Path(__file__).resolve().parent.parent
SIZES = [(1, 0, 1), (3, 5, 9), (20, 40, 60), (MAX_MARKS, 0, 700), (7, MAX_CORRECTIONS, 200), (100, 100, MAX_POSITIONS)]


def inputs():
    """A name and the bytes of each input."""
    for name, file, _ in cases():
        yield name, file
    for seed, sizes in enumerate(SIZES, 1):
        yield f"a random day of {sizes}", file_of(random_day(seed * 7_919, *sizes))
    full = file_of(random_day(65_539, MAX_MARKS, MAX_CORRECTIONS, MAX_POSITIONS))
    for length in (INPUT_LIMIT - 1, INPUT_LIMIT, INPUT_LIMIT + 1, 3 * INPUT_LIMIT):
        yield f"a full day and zeros up to {length} bytes", full.ljust(length, b"\0")


def check_failures(program):
    """A read or a write that fails is told on standard error, and nothing else is printed."""
    unreadable = subprocess.run([program], stdin=subprocess.DEVNULL, capture_output=True, preexec_fn=lambda: os.close(0))
    require(unreadable.stdout == b"", "no sheet where the input cannot be read")
    require(unreadable.stderr == b"sheet: standard input cannot be read\n", "a failed read is told")
    require(unreadable.returncode == 1, "a failed read ends in status 1")
    with open("/dev/full", "wb") as full:
        unwritten = subprocess.run([program], input=b"", stdout=full, stderr=subprocess.PIPE)
    require(unwritten.stderr == b"sheet: standard output cannot be written\n", "a failed write is told")
    require(unwritten.returncode == 1, "a failed write ends in status 1")
    print("sheets: failures to read and to write are told")


def indented(text):
    """The text as a page shows it."""
    return "".join(f"    {line}\n" if line else "\n" for line in text.splitlines())


def check_readme(program, command):
    """README.md shows the sheet of the sample day, as it is and explained, and a refusal that docs/COMMAND.md shows."""
    sample, readme = ROOT / "samples" / "day.txt", (ROOT / "README.md").read_text()
    file = subprocess.run([command, "make", sample], capture_output=True, check=True).stdout
    printed = subprocess.run([program], input=file, capture_output=True, check=True).stdout.decode()
    require(indented(printed) in readme, "the sheet that README.md shows")
    explained = subprocess.run([command, "explain", "--text", sample], capture_output=True, check=True).stdout.decode()
    require(indented(explained) in readme, "the explained sheet that README.md shows")
    refusal = readme[readme.index("    refused 7 at 0:"):].split("\n`citronreef make")[0]
    require(refusal in (ROOT / "docs" / "COMMAND.md").read_text(), "the refusal that README.md shows")
    print("sheets: README.md shows the sheet of the sample day, explained too, and a refusal")


def main(program, command):
    check_failures(program)
    check_readme(program, command)
    count = 0
    for name, standard_input in inputs():
        done = subprocess.run([program], input=standard_input, capture_output=True, check=True)
        require(done.stdout == sheet(standard_input).encode(), "the sheet of", name)
        require(done.stderr == b"", "nothing on standard error for", name)
        count += 1
    print(f"sheets: {count} sheets agree")


if __name__ == "__main__":
    if len(sys.argv) != 3:
        sys.exit(__doc__)
    main(sys.argv[1], sys.argv[2])
