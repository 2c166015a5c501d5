#!/usr/bin/env python3
"""The stored day files of the program cases, and what it must print for them. The answers are worked out by settlement.py.

  cases.py write DIR     writes DIR/data/NAME for each day file, and DIR/stdout
  cases.py check DIR     compares what is there with the same, and says what differs

A line is `NAME: refused K at I`, or the name, N, the AUD total, the NZD total, the resent count and a digest of the amounts.
"""
import sys
from pathlib import Path

import settlement
from digest import digest
from require import require
from stored import cases


def digest_of(amounts):
    """The digest of a list of amounts: of each, a 1 where it is negative, else a 0, and then the amount without its sign."""
    return digest(number for amount in amounts for number in (amount < 0, abs(amount)))


def line(name, file, places):
    """What the program must print for a case."""
    answer = settlement.settle(file, places)
    if isinstance(answer, settlement.Refused):
        return f"{name}: {answer}\n"
    return f"{name}: {answer.positions} {answer.aud} {answer.nzd} {answer.resent} {digest_of(answer.amounts)}\n"


def expected():
    """The text of stdout, and the files by their names. Every check number is met by some file."""
    files = {name: file for name, file, _ in cases()}
    require(len(files) == len(list(cases())), "every name stands once")
    answers = [settlement.settle(file, places) for _, file, places in cases()]
    met = {answer.number for answer in answers if isinstance(answer, settlement.Refused)}
    require(met == {*range(1, 15), 16}, "every check number is met; met are", *sorted(met))
    return "".join(line(*case) for case in cases()), files


def write(directory):
    text, files = expected()
    data = directory / "data"
    data.mkdir(parents=True, exist_ok=True)
    for old in data.iterdir():
        old.unlink()
    for name, file in files.items():
        (data / name).write_bytes(file)
    (directory / "stdout").write_text(text)


def check(directory):
    text, files = expected()
    there = {path.name: path.read_bytes() for path in (directory / "data").iterdir()}
    for name in sorted(files.keys() | there.keys()):
        require(files.get(name) == there.get(name), "the stored file", name)
    require((directory / "stdout").read_text() == text, "the stored output")
    print(f"cases: {len(files)} day files and their answers agree")


COMMANDS = {"write": write, "check": check}

if __name__ == "__main__":
    if len(sys.argv) != 3 or sys.argv[1] not in COMMANDS:
        sys.exit(__doc__)
    COMMANDS[sys.argv[1]](Path(sys.argv[2]))
