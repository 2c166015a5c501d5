#!/usr/bin/env python3
"""Looks up every name that the pages cite in backquotes, where the page says that it stands.

  citations.py

The forms are those of docs/STATEMENTS.md: `Demands.demand_1`, a law; `pricing: Value.value_by`, a definition; `DayFile::length`,
`checks::find`, functions; paths; edits; and bare names, of the file that is named before, or after by "of", or of the code of
a crate that the cell or the heading names. On a page other than STATEMENTS a bare name may stand in any crate. A word in
backquotes that has none of these forms must be one of WORDS.

It also counts the lines of the files of definitions, which docs/READING.md gives.
"""
import re
from functools import lru_cache
from pathlib import Path

from edits import FOLDER
from require import require

ROOT = Path(__file__).resolve().parent.parent
CRATES = {path.name: path for path in sorted((ROOT / "crates").iterdir()) if path.is_dir()}
STRICT = "docs/STATEMENTS.md"
READING = "docs/READING.md"
PAGES = [STRICT, "docs/ASSUMPTIONS.md", "docs/CHECKS.md", "docs/DAYFILE.md", "docs/DECISIONS.md", READING, "README.md"]
LAWS = {"Promises": "crates/pricing/proofs/Promises.antt", "Demands": "crates/settlement/proofs/Demands.antt"}
ELSEWHERE = ("target/", "out/", "lib/", "bin/", "share/", "/", "-")  # paths of what is built or installed, and of the machine; options
COMMANDS = {"explain", "make", "sheet", "show"}  # of citronreef
# Words that cite nothing of the repository: pieces of notation, names of other programs and languages. Nor do figures.
WORDS = set(
    """ensures|requires|must-fail|lib.rt|a before b|i ≡ 0|result ≡ ..|said result ≡ ..|result.now ≡ ..|a.new ≡ ..|refused 7 at 0
    |result|s.now|s.old|s.new|refused,NUMBER,INDEX,WORDS|950100u|@i|ir|make --anyway|Decimal|std::vector|citronreef_|memset|std|os|rt
    |N passed, 0 failed
    |position 1001 XT/3/27 -40""".replace("\n    ", "").split("|")
)
FOR_CALLERS = [ROOT / "include/citronreef.h", *ROOT.glob("rust/citronreef/*.rs"), *ROOT.glob("python/citronreef/*.py")]

TOKEN = re.compile(r"`([^`]+)`")
ITEM = re.compile(r"\s*(?:\d+\.|-) ")
QUALIFIED = re.compile(r"(?:(\w+): )?([A-Z]\w*)\.([^\s.]+)")
PATH = re.compile(r"(?:\w+: )?(?:[\w./-]*/[\w./-]*|[\w-]+\.(?:antt|rt|md|py|txt|sh|h))")
LAW = re.compile(r"\s*(?:(?:pub|abbrev|unfoldable|axiom)\s+)*(?:(?:record|data)\s+([^\s:({]+)|([^\s:(){}=]+)\s*:(?:\s|$))")
CODE = re.compile(r'\s*(?:pub(?:\(crate\))?\s+)?(?:extern "C"\s+)?(?:fn|struct|enum|const)\s+(\w+)')
COUNTED = re.compile(r"`(?:(\w+): )?([A-Z]\w*)`(?: (\d+))?")
UNCOUNTED = re.compile(r"\s*(?:--.*|use .*|(?:pub )?mod .*)?")


# What files declare


@lru_cache(maxsize=None)
def names_in(path):
    """The names that a file declares; functions and constants of a type also as `TYPE::NAME`."""
    owner, names = None, set()
    for line in path.read_text().splitlines():
        if found := re.match(r"impl (\w+) \{", line):
            owner = found[1]
        elif line == "}":
            owner = None
        elif found := (CODE if path.suffix == ".rt" else LAW).match(line):
            name = next(filter(None, found.groups()))
            names |= {name, f"{owner}::{name}"}
    return names


class Place:
    """Files where a name may stand, of a type or by itself."""

    def __init__(self, *files, owner=None):
        self.files, self.owner = files, owner

    def declares(self, name):
        wanted = f"{self.owner}::{name}" if self.owner else name
        return any(wanted in names_in(path) for path in self.files)

    def has(self, name):
        """It declares the name, or is the file of that name."""
        return self.declares(name) or [path.stem for path in self.files] == [name]


def code_of(crate, owner=None):
    return Place(*sorted((CRATES[crate] / "src").glob("*.rt")), owner=owner)


def specs_named(file, crates):
    """The definitions `file` of the first of some crates that has such a file."""
    found = [CRATES[crate] / "specs" / f"{file}.antt" for crate in crates if crate in CRATES]
    return next((Place(path) for path in found if path.exists()), None)


EVERYWHERE = Place(*(path for root in CRATES.values() for kind in ("antt", "rt") for path in sorted(root.rglob(f"*.{kind}"))))


# Pages as units: a paragraph, an item of a list or a cell of a table


class Unit:
    """A piece of a page: where it stands, its text, the crates that its heading names, and whether it is a column of edits."""

    def __init__(self, page, line, text, crates, edits=False):
        self.page, self.line, self.text, self.crates, self.edits = page, line, text, crates, edits
        self.faults = []

    def require(self, fact, *what):
        if not fact:
            self.faults.append(" ".join([f"{self.page}:{self.line}:", *what]))


def blocks(page):
    """The number of the first line, and the lines, of each block between blank lines; code, which is indented, is left out."""
    block, start = [], 1
    for number, line in enumerate([*(ROOT / page).read_text().splitlines(), ""], 1):
        if line.strip():
            start = start if block else number
            block.append(line)
            continue
        if block and not block[0].startswith("    "):
            yield start, block
        block = []


def cells(page, start, block, crates):
    heads = [cell.strip() for cell in block[0].strip("| ").split(" | ")]
    for number, line in enumerate(block[2:], start + 2):
        for head, cell in zip(heads, line.strip().strip("|").split(" | ")):
            yield Unit(page, number, cell, crates, head == "edit")


def items(page, start, block, crates):
    """A paragraph, or the items of a list."""
    begins = [0] + [k for k, line in enumerate(block) if k and ITEM.match(line)] + [len(block)]
    for begin, end in zip(begins, begins[1:]):
        yield Unit(page, start + begin, " ".join(line.strip() for line in block[begin:end]), crates)


def units(page):
    crates = []
    for start, block in blocks(page):
        named = [word for word in TOKEN.findall(" ".join(block)) if word in CRATES]
        if block[0].startswith("#"):
            crates = named
        elif block[0].startswith("|"):
            yield from cells(page, start, block, crates)
        else:
            yield from items(page, start, block, crates)
            crates = crates + named if block[-1].endswith(":") else crates  # it introduces the table that follows


# The words of a unit


class Reader:
    """Reads the words of a unit from left to right, and knows what was named before."""

    def __init__(self, unit):
        self.unit = unit
        self.words = [(found.start(), found.end(), found[1]) for found in TOKEN.finditer(unit.text)]
        self.crates = list(unit.crates)  # the one named last comes first
        self.place = None  # where the name before stands
        self.strict = unit.page == STRICT

    def name_crate(self, crate):
        self.unit.require(crate in CRATES, "there is a crate", crate)
        self.crates = [c for c in [crate, *self.crates] if c in CRATES]

    def known(self):
        """The crates where a name may stand of which no crate is said."""
        return self.crates if self.strict else [*self.crates, *CRATES]

    def path_of(self, word):
        """The file or folder that a path names: from the root, or in a crate that was named."""
        crate, colon, rest = word.rpartition(": ")
        crates = [crate] if colon else self.known()
        parts = ("", "src") if self.strict or colon else ("", "src", "specs", "proofs")
        roots = [CRATES[c] / part for c in crates if c in CRATES for part in parts]
        return next((root / rest for root in ([] if colon else [ROOT]) + roots if (root / rest).exists()), None)

    def qualified(self, word):
        """The place and the name of `pricing: Value.value_by`, `checks: Faults`, `checks::find`, `DayFile::length` and such."""
        if found := QUALIFIED.fullmatch(word):
            crate, file, name = found.groups()
            if crate:
                self.name_crate(crate)
            law = file in LAWS and not crate
            return Place(ROOT / LAWS[file]) if law else specs_named(file, [crate] if crate else self.known()), name
        if found := re.fullmatch(r"(\w+)(::|: )(\w+)", word):
            first, sign, name = found.groups()
            if sign == "::" and first not in CRATES:
                owned = [code_of(crate, owner=first) for crate in self.crates or CRATES]
                return next((place for place in owned if place.declares(name)), None), name
            self.name_crate(first)
            specs = specs_named(name, [first]) if sign == ": " else None
            return specs or (first in CRATES and code_of(first)), name
        return None

    def place_after(self, k):
        """The file that stands after a list of names, by "of" or in brackets."""
        for (_, end, _), (start, _, word) in zip(self.words[k:], self.words[k + 1 :]):
            between = self.unit.text[end:start]
            if between in (" of ", " in ", " (") and PATH.fullmatch(word):
                path = self.path_of(word)
                return Place(path) if path and path.is_file() else None
            if between not in (", ", " and ", ", and "):
                return None
        return None

    def is_there(self, k, word):
        """Whether a name without a file stands where it should. A file of definitions may be named so too."""
        if after := self.place_after(k):
            return after.declares(word)
        places = [self.place, *map(code_of, self.crates), *([] if self.strict else [EVERYWHERE])]
        return any(place and place.declares(word) for place in places) or specs_named(word, self.known())

    def is_edit(self, k):
        """Edits stand after the word, or in their column."""
        before = re.sub(r"`[^`]+`(, | and |$)", "", self.unit.text[: self.words[k][0]])
        return self.unit.edits or re.search(r"\bedits? $", before)

    def read(self, k, word):
        """Looks one word up."""
        need = self.unit.require
        if word in CRATES:
            self.name_crate(word)
        elif word in LAWS:
            self.place = Place(ROOT / LAWS[word])
        elif word in WORDS or word.startswith(ELSEWHERE) or "/out/" in word or not re.search(r"[^\W\d]", word):
            pass
        elif word in COMMANDS and not self.strict:
            pass
        elif word.startswith("CITRONREEF_"):
            need(any(word in path.read_text() for path in FOR_CALLERS), "the header or a wrapper has", word)
        elif word.startswith("citronreef "):
            need(" ".join(word.split()[:2]) in (ROOT / "docs/COMMAND.md").read_text(), "COMMAND.md has", word)
        elif word.startswith(("bash ", "python3 ", "rt ")):
            need(word.startswith("rt ") or (ROOT / word.split()[1]).is_file(), "there is a script", word)
        elif self.is_edit(k):
            files = [CRATES[crate] / FOLDER / f"{word}.edit" for crate in self.crates or CRATES]
            need(any(path.exists() for path in files), "there is an edit", word)
        elif PATH.fullmatch(word):
            self.read_path(word)
        elif word.startswith("citronreef_"):
            declared = f" {word}(" in (ROOT / "include/citronreef.h").read_text()
            need(declared and code_of("citronreef").declares(word), "there is a function for C", word)
        elif found := self.qualified(word):
            self.place, name = found
            need(self.place and self.place.has(name), "declared where it is said to stand:", word)
        else:
            need(self.is_there(k, word), "declared in a file or a crate that is named here:", word)

    def read_path(self, word):
        """A file is where names after it stand, and names its crate."""
        path = self.path_of(word)
        self.unit.require(path, "there is a file", word)
        parts = path.relative_to(ROOT).parts if path else ()
        if parts[:1] == ("crates",) and len(parts) > 1:
            self.name_crate(parts[1])
        if path and path.suffix in (".antt", ".rt"):
            self.place = Place(path)


def check_shown(page):
    """A function that a page shows with its contract stands so in the code of some crate; lines may be broken otherwise."""
    code = [" ".join(path.read_text().split()) for crate in CRATES for path in code_of(crate).files]
    for found in re.findall(r"^    pub fn .*\n(?: {4}.*\n)*", (ROOT / page).read_text(), re.M):
        shown = " ".join(found.split())
        require(any(shown in text for text in code), page, "shows a function with a contract that it has:", shown)


# The lines of definitions


def lines_of(path):
    """How many lines a file has without imports, comments and blanks."""
    return sum(not UNCOUNTED.fullmatch(line) for line in path.read_text().splitlines())


def check_lines():
    """What does not hold of READING: it names every file of definitions, has its lines after its name, and their sum."""
    faults, total = [], 0
    unnamed = {path for root in CRATES.values() for path in root.glob("specs/*.antt") if path.stem != "Lib"}
    for unit in units(READING):
        crate = None
        for found in COUNTED.finditer(unit.text):
            crate = found[1] or crate
            place = specs_named(found[2], [crate])
            lines = sum(map(lines_of, place.files)) if place else 0
            unnamed -= set(place.files if place else ())
            if found[3]:
                unit.require(lines == int(found[3]), found[0], "is right: the lines are", str(lines))
                total += lines
        faults += unit.faults
    said = f"some {round(total, -1)} lines" in (ROOT / READING).read_text()
    faults += [] if said else [f"{READING}: has the sum of the lines, {total}"]
    return faults + [f"{READING}: names {path.relative_to(ROOT)}" for path in sorted(unnamed)]


def main():
    count, faults = 0, check_lines()
    for page in PAGES:
        check_shown(page)
        for unit in units(page):
            reader = Reader(unit)
            for k, (_, _, word) in enumerate(reader.words):
                reader.read(k, word)
                count += 1
            faults += unit.faults
    require(not faults, *(f"\n  {fault}" for fault in faults))
    print(f"citations: {count} words in backquotes on {len(PAGES)} pages are there, or cite nothing")


if __name__ == "__main__":
    main()
