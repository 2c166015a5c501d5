#!/usr/bin/env python3
"""Sees that the functions open to callers ask nothing of them, and that each states its answer.

  open_functions.py [FOLDER]

Open are the functions that the `lib.rt` of a crate passes on, those that it has itself, and the methods of the types that it passes on.
None of them has a `requires`, and each has an `ensures`.
"""
import re
import sys
from pathlib import Path

from require import require

ROOT = Path(sys.argv[1]) if len(sys.argv) > 1 else Path(__file__).resolve().parent.parent
PASSED_ON = re.compile(r"^pub use [\w:]+::(?:\{([^}]*)\}|(\w+));", re.M)
OWNER = re.compile(r"impl(?:<[^>]*>)? (?:\w+(?:<[^>]*>)? for )?(\w+)")
FUNCTION = re.compile(r'( *)pub (?:const )?(?:extern "C" )?fn (\w+)')
CLAUSE = re.compile(r" *(requires|ensures)\b")


def passed_on(lib):
    """The names that a `lib.rt` passes on."""
    return {name.strip() for several, one in PASSED_ON.findall(lib.read_text()) for name in (several or one).split(",")}


def functions(path):
    """The public functions of a file: each with the type that it is a method of, if it is one, and the words of its clauses."""
    owner, lines = None, path.read_text().splitlines()
    for i, line in enumerate(lines):
        if line and not line.startswith(" "):
            owner = found[1] if (found := OWNER.match(line)) else None
        if found := FUNCTION.match(line):
            end = next(k for k in range(i, len(lines)) if lines[k].endswith("{") and not CLAUSE.match(lines[k]))
            words = {clause[1] for clause in map(CLAUSE.match, lines[i:end]) if clause}
            yield owner, found[2], words


def open_functions():
    """The functions open to callers, with the words of their clauses."""
    for lib in sorted(ROOT.glob("crates/*/src/lib.rt")):
        names = passed_on(lib)
        for path in sorted(lib.parent.glob("*.rt")):
            for owner, name, words in functions(path):
                if path == lib or (owner or name) in names:
                    yield f"{lib.parent.parent.name}: {owner + '::' if owner else ''}{name}", words


count = 0
for function, words in open_functions():
    count += 1
    require("requires" not in words, f"{function} has no `requires`")
    require("ensures" in words, f"{function} has an `ensures`")
require(count > 0, "there are functions open to callers")
print(f"open functions: {count} ask nothing of their callers, and each states its answer")
