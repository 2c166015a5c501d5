#!/usr/bin/env python3
"""Compares what rt reports as assumed with axioms.txt, so that one assumption more, or one less, is a failure.

  axioms.py CI REPORT...

CI is what `rt ci` wrote. A REPORT is what `rt lib --list-axioms` wrote of the static library, or `rt check --list-axioms` of a
program, in a file of the crate's name; there is one for each of them. Looked at are the functions of C's that a report marks as
reached, and the words of every verdict. A crate that `rt ci` keeps from an earlier run has no verdict in CI, and has one in a
REPORT. Also held to axioms.txt is docs/ASSUMPTIONS.md, which shows its lines.
"""
import re
import sys
from pathlib import Path

from require import require

ROOT = Path(__file__).resolve().parent.parent
COUNT = re.compile(r"axioms (\S+): (\d+|none) reached of the \d+ declared")
REACHED = re.compile(r"  (\S+)   reached")
VERDICT = re.compile(r"logic=(\S+)(.*)")
OWN_WORDS = ("functions", "axioms", "target", "cpu")  # words of a verdict that say nothing of what is assumed, or are compared otherwise
KEPT = "incremental=trusted"  # the word of a check over kept work, which no verdict of rt ci may have


def lines_of(text):
    """The words after each name of lines `NAME: WORD ..`, without comments. A name may have several lines."""
    named = {}
    for line in text.splitlines():
        if line and not line.startswith("#"):
            name, _, words = line.partition(":")
            named.setdefault(name, []).extend(words.split())
    return named


def verdicts_of(log):
    """The words of each verdict in a log. All of them are proved."""
    for line in log.read_text(errors="replace").splitlines():
        if found := VERDICT.match(line):
            require(found[1] == "proved", "the verdict is proved:", line)
            yield found[2].split()


def rest_of(words):
    """The words of a verdict that are compared with those that are listed."""
    return [word for word in words if word.partition("=")[0] not in OWN_WORDS]


def reached_in(report):
    """The functions that a report marks as reached, and how many it counts."""
    lines = report.read_text(errors="replace").splitlines()
    counts = [COUNT.fullmatch(line) for line in lines if line.startswith("axioms ")]
    require(all(counts), "a line of axioms in", report.name, "has the known form")
    require(counts, report.name, "has a report of axioms")
    return [found[1] for line in lines if (found := REACHED.fullmatch(line))], sum(int(found[2]) for found in counts if found[2] != "none")


def check_report(report, assumed, verdict):
    """Holds the report of a program or of the static library to the names and to the verdict that are listed."""
    name, verdicts = report.name, list(verdicts_of(report))
    require(verdicts, name, "has a verdict")
    for words in verdicts:
        rest = [word for word in rest_of(words) if word != KEPT]
        require(rest == verdict, name, "and the crates below have the verdict", *verdict, "and here", *rest)
    names, count = reached_in(report)
    counted = sum(int(word.partition("=")[2]) for word in verdicts[-1] if word.startswith("axioms="))
    require(len(names) == count == counted, name, "names as many axioms as its verdict counts")
    here = names or ["none"]
    require(sorted(here) == sorted(assumed), name, "assumes", *assumed, "and here", *here)


def check_page(listed):
    """The page shows the line of the verdict, and those of all that assume something."""
    page = (ROOT / "docs/ASSUMPTIONS.md").read_text()
    shown = lines_of("\n".join(re.findall(r"^    ([\w.]+: .+)$", page, re.M)))
    assuming = {name: words for name, words in listed.items() if words != ["none"]}
    require(shown == assuming, "ASSUMPTIONS.md shows the lines of axioms.txt; it shows", shown)


def linked():
    """The crates that link code: the programs, and the static library."""
    programs = {path.parent.parent.name for path in ROOT.glob("crates/*/src/main.rt")}
    lines = [line.split() for line in (ROOT / "crates.txt").read_text().splitlines()]
    return programs | {words[0] for words in lines if words[1:2] == ["staticlib:"]}


def main(ci, *reports):
    listed = lines_of((ROOT / "tests/axioms.txt").read_text())
    check_page(listed)
    verdict = listed.pop("verdict")
    require(set(listed) == linked(), "axioms.txt lists the programs and the static library; they differ in", *sorted(set(listed) ^ linked()))
    require({path.name for path in reports} == set(listed), "there is a report of", *listed)
    for words in verdicts_of(ci):
        require(rest_of(words) == verdict, "every verdict of rt ci is", *verdict, "and here", *rest_of(words))
    for report in reports:
        check_report(report, listed[report.name], verdict)
    print(f"axioms: what is assumed of {len(reports)} programs and libraries is what axioms.txt lists")


if __name__ == "__main__":
    given = [Path(word) for word in sys.argv[1:]]
    if len(given) < 2 or not all(path.is_file() for path in given):
        sys.exit(__doc__)
    main(*given)
