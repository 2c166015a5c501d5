#!/usr/bin/env python3
"""Holds docs/DAYFILE.md to the truth: its bytes, its sheet, its tables, its figures and the definitions that it names.

  dayfile_page.py

The values come from calculator.py and settlement.py. The figures with a dagger are those of the proved table.
"""
import re
import struct
import sys
from fractions import Fraction
from pathlib import Path

import calculator
from calculator import PRICE_LIMIT, PRODUCTS, Bill, Bond, CashRate
from days import contracts, day, file, held_by_many, position
from records import HEADER_SIZE, MAX_CORRECTIONS, MAX_MARKS, MAX_POSITIONS, RECORD_SIZE, lists_of
from require import require
from settlement import INPUT_LIMIT, MAX_LOTS, Refused, make, record_checks, settle, sheet
from theorems import ACCURACY, ladder_figure

ROOT = Path(__file__).resolve().parent.parent
PAGE = (ROOT / "docs" / "DAYFILE.md").read_text()
CASE = (ROOT / "crates" / "cases" / "data" / "case_of_document_01").read_bytes()
LONGEST = HEADER_SIZE + RECORD_SIZE * (MAX_MARKS + MAX_CORRECTIONS + MAX_POSITIONS)
DAGGER = " †"
HEADINGS = PRODUCT, VALUE, FILE, REFUSAL, FIGURES, _, _, _ = [
    "Prices and products",
    "Value of one contract, in cents",
    "The day file",
    "Why a call is turned away",
    "Figures, with those of the proved table marked †",
    "Ways a desk gets this wrong",
    "Where each form goes",
    "Agreement on what is promised",
]


# Parts of the page


def under(heading):
    """The text under a heading, up to the next one of the second level."""
    return PAGE.split(f"\n## {heading}\n")[1].split("\n## ")[0]


def rows(text, *columns):
    """The cells of the table with these columns, a list for each row."""
    head = f"| {' | '.join(columns)} |\n|{'---|' * len(columns)}\n"
    require(text.count(head) == 1, "one table of", *columns)
    lines = text.split(head)[1].split("\n\n")[0].splitlines()
    return [line.strip("| ").split(" | ") for line in lines]


def number(text):
    """A number with separators, as the page writes it."""
    return int(text.replace(",", "").replace("−", "-"))


def figure(answer):
    """An answer of the calculator as the page writes it."""
    return f"{answer:,}" if isinstance(answer, int) else str(answer)


def says(sentence):
    """Whether the page says this, wherever its lines break."""
    require(sentence in " ".join(PAGE.split()), sentence)


def mentions(text, *numbers):
    for n in numbers:
        require(re.search(rf"(?<![\d,]){n:,}(?!,?\d)", text), f"{n:,} is mentioned")


# The file, its sheet and its layout


def check_case():
    """The bytes shown are those of the stored file, each line at its place, with the number that is said; and the sheet."""
    shown = bytearray()
    for at, content, said in re.findall(r"^ +(\d+)  ((?:[0-9a-f]{2} )+) +(\S.*)$", PAGE, re.MULTILINE):
        require(int(at) == len(shown), "the place of the bytes shown at", at)
        part = bytes.fromhex(content)
        last = re.search(r"(?:: |lots )([−\d,]+)(?: \w+)?$", said)
        if last:
            require(struct.unpack("<i", part[-4:])[0] == number(last.group(1)), "what is said of byte", at)
        shown += part
    require(shown == CASE, "the bytes shown are those of the stored file")
    says(f"Its {len(CASE)} bytes in hexadecimal:")
    lines = "".join(f"    {line}\n" for line in sheet(CASE).splitlines())
    require(f"\n\n{lines}\n" in PAGE, "the sheet that is shown")


def check_limits():
    mentions(under(FILE), HEADER_SIZE, RECORD_SIZE, MAX_MARKS, MAX_CORRECTIONS, MAX_POSITIONS, LONGEST)
    mentions(under(REFUSAL), MAX_MARKS, MAX_CORRECTIONS, MAX_POSITIONS, MAX_LOTS, LONGEST)
    mentions(under(FIGURES), INPUT_LIMIT)


# Tables


def terms(product):
    """The kind and the terms of a product as the page writes them."""
    if isinstance(product.terms, Bill):
        return ["bill", f"face {product.terms.face:,}, {product.terms.days} days"]
    if isinstance(product.terms, CashRate):
        return ["cash rate", f"{product.terms.cents:,} cents for each 0.01"]
    return ["bond", f"face {product.terms.face:,}, c = {product.terms.coupon}, n = {product.terms.halves}"]


def check_products():
    table = []
    for code, product in PRODUCTS.items():
        kind, said = terms(product)
        table.append([code.decode(), kind, product.currency, str(product.tick), said, " ".join(map(str, product.months))])
    columns = ("code", "kind", "currency", "tick in units", "terms", "months")
    require(rows(under(PRODUCT), *columns) == table, "the product table")


def check_distances():
    table = []
    for code, product in PRODUCTS.items():
        bond = product.terms
        distance = f"{ladder_figure(bond.coupon, bond.halves) // 2:,}" if isinstance(bond, Bond) else "none"
        table.append([code.decode(), distance, f"{ACCURACY[code]:,}"])
    columns = ("code", "the ladder's distance, units of 10^−8", "accuracy figure, thousandths of a cent")
    require(rows(under(VALUE), *columns) == table, "the distances")


def check_figures():
    """Every figure is the calculator's; those with a dagger are the proved table's, all of them."""
    marked = set()
    questions = {"value_at": calculator.value, "tick_value_at": calculator.tick_value, "bracket_at": calculator.bracket}
    for code, price, *cells in rows(under(FIGURES), "code", "price", "value", "tick value", "bracket"):
        for (question, answer), cell in zip(questions.items(), cells):
            right = figure(answer(code.encode(), number(price)))
            require(cell.removesuffix(DAGGER) == right, question, code, price)
            if cell.endswith(DAGGER):
                marked.add((question, code, number(price), right))
    for k, cell in rows(under(VALUE), "k", "Vk"):
        right = figure(calculator.ladder(940_000, 6)[int(k) - 1])
        require(cell == right + DAGGER, "V", k)
        marked.add(("factor_at", k, 940_000, right))
    require(marked == proved_figures(), "the figures with a dagger are the proved ones")


def proved_figures():
    """The table of crates/pricing/specs/Figures.antt."""
    text = (ROOT / "crates" / "pricing" / "specs" / "Figures.antt").read_text()
    table = text.split("\nfigures =")[1].split("[]")[0]
    found = re.findall(r"\((\w+) (\w+) ([\d_]+) gives (given|refused) ([\d_]+)", table)
    said = {"given": "{:,}", "refused": "refused {}"}
    return {(question, of, int(price), said[kind].format(int(n))) for question, of, price, kind, n in found}


def check_formulas():
    """The numbers in the formulas, at some prices."""
    value = under(VALUE)
    dividend, first, times = re.search(r"value = ([\d,]+) / \(([\d,]+) \+ (\d+) × Y\)", value).groups()
    cents, hundred = re.search(r"value = ([\d,]+) × p / (\d+)", value).groups()
    of_v1, base = re.search(r"V1 +=\s([\d,]+) / \(([\d,]+) \+ Y\)", value).groups()
    for price in (0, 940_000, 950_000, PRICE_LIMIT):
        y = calculator.yield_at(price)
        bill = Fraction(number(dividend), number(first) + number(times) * y)
        require(bill == calculator.exact_value(PRODUCTS[b"IR"].terms, price), "the bill formula")
        cash = Fraction(number(cents) * price, number(hundred))
        require(cash == calculator.exact_value(PRODUCTS[b"IB"].terms, price), "the cash rate formula")
        v1 = calculator.rounded(Fraction(number(of_v1), number(base) + y))
        require(v1 == calculator.ladder(price, 1)[0], "the formula of V1")


def check_worked():
    """The figures inside sentences: a bill, a ladder, a half cent, and the settlement of the case."""
    bill, later = calculator.value(b"IR", 950_000), calculator.value(b"IR", 950_100)
    exact = calculator.exact_value(PRODUCTS[b"IR"].terms, 950_000)
    says(f"the quotient {exact * 100 // 1 / 100:,.2f}.., and the value {bill:,} †.")
    factors, bracket = calculator.ladder(940_000, 6), calculator.bracket(b"YT", 940_000)
    says(f"The factors' sum is {sum(factors):,}.")
    says(f"The bracket is 3 × {sum(factors):,} + 100 × {factors[-1]:,} = {bracket:,} †")
    half = calculator.bracket(b"YT", 999_950)
    says(f"YT at 999,950 has the bracket {half:,}, which is {half / 1_000:,} cents.")
    says(f"The value is {calculator.value(b'YT', 999_950):,}.")
    change, settled = later - bill, settle(CASE, MAX_POSITIONS)
    long, short = settled.amounts
    says(f"The value of one contract was {bill:,} † cents at 950,000 and is {later:,} † at 950,100: a change of {change:,}.")
    says(f"The amounts are 10 × {change:,} = {long:,} and −4 × {change:,} = −{-short:,}.")
    says(f"The total is {settled.aud:,} Australian cents")


# Refusals, answers to files, names


def check_refusals():
    """The numbers 1 to 17 are told one by one, here and in docs/REFUSALS.md, in one order, and of the same records."""
    items = re.findall(r"^(\d+)\. (.*(?:\n +.*)*)", under(REFUSAL), re.MULTILINE)
    refusals = (ROOT / "docs" / "REFUSALS.md").read_text()
    for numbers in ([n for n, _ in items], re.findall(r"^(\d+)\. ", refusals, re.MULTILINE)):
        require(list(map(int, numbers)) == list(range(1, 18)), "the numbers 1 to 17")
    mentions(refusals, LONGEST)
    words = rows(refusals, "number", "words", "the index counts")
    of_records = [n for n, _, _ in record_checks(day())]
    of_file, of_lists = [1, 2, 3, *of_records, 14], [2, 3, *of_records, 17]
    says(f"of a file it is {' '.join(map(str, of_file))}.")
    says(f" are {' '.join(map(str, of_lists))}, in this order.")
    require([int(n) for n, _, _ in words] == [*of_file, 15, 17], "the order of docs/REFUSALS.md")
    counted = {n: records for n, _, records in words}
    for n, text in items:
        index, records = re.search(r"Index: (\w+)(, the later of the two)?\.", " ".join(text.split())), counted[n]
        require(index and index.group(1) == records.split(",")[0], "the section of", n)
        require(bool(index.group(2)) == records.endswith("the second of the two"), "which of two records", n)
        require("Look " in text, "what a person looks at for", n)


def check_answers():
    """The answers to small files: what passes a check is accepted by it, and the others are refused as said."""
    header = struct.pack("<6I", 0, 24, 0, 24, 0, 24)
    files = {
        "23 bytes": header[:23],
        "24 bytes, all counts 0 and all offsets 24": header,
        f"{MAX_MARKS} marks": file(contracts(MAX_MARKS)),
        f"{MAX_MARKS + 1} marks": file(contracts(MAX_MARKS + 1)),
        f"lots {MAX_LOTS:,}": file(positions=[position(MAX_LOTS)]),
        f"lots {MAX_LOTS + 1:,}": file(positions=[position(MAX_LOTS + 1)]),
        "N = 2 and a slice of one place": file(positions=held_by_many(10, 10)),
        "the same, both of one account in one mark": file(positions=[position(), position()]),
    }
    table = rows(under(FIGURES), "file", "answer")
    require([name for name, _ in table] == list(files), "the files that are answered")
    for name, said in table:
        answer = settle(files[name], 1)
        passes = not said.startswith("refused")
        require(passes != isinstance(answer, Refused) and (passes or str(answer).startswith(said)), name)


def check_made():
    """The answers to small lists: a file of so many bytes, which has them, or a refusal."""
    marks = lists_of(file(contracts(MAX_MARKS), [], []))[0]
    lists = {
        "three empty ones": (b"", b"", b""),
        f"those of the {len(CASE)} bytes above": lists_of(CASE),
        f"{MAX_MARKS} marks": (marks, b"", b""),
        f"{MAX_MARKS} marks and 11 bytes": (marks + bytes(11), b"", b""),
        f"{MAX_MARKS + 1} marks and 11 bytes": (marks + bytes(RECORD_SIZE + 11), b"", b""),
        f"{MAX_MARKS} marks, and a position that names none": (marks, b"", position(mark=MAX_MARKS).packed()),
    }
    table = rows(under(FIGURES), "lists", "bytes of the buffer", "answer")
    require({name for name, _, _ in table} == set(lists), "the lists that a file is made of")
    for name, room, said in table:
        answer = make(*lists[name], number(room))
        made = isinstance(answer, bytes)
        require(said.split(", ")[0] == (f"{len(answer):,} bytes" if made else str(answer)), name, room)
        require(not made or lists_of(answer) == lists[name], "the file has", name)


def check_names():
    """Every definition that is named stands in the file that is named, and so does every path."""
    for crate, specs, name in re.findall(r"`(\w+):\s(\w+)\.(\w+)`", PAGE):
        path = ROOT / "crates" / crate / "specs" / f"{specs}.antt"
        require(path.is_file(), path, "is there")
        require(re.search(rf"\bpub (?:data |record )?{name}\b", path.read_text()), name, "stands in", path)
    for path in re.findall(r"`((?:docs|tests|crates|samples)/[\w/.]*)`", PAGE):
        require((ROOT / path).exists(), path, "is there")


def check_form():
    require(re.findall(r"^## (.*)$", PAGE, re.MULTILINE) == HEADINGS, "the headings of the second level")
    require(max(map(len, PAGE.splitlines())) <= 120, "lines have at most 120 columns")


CHECKS = [
    *(check_form, check_names, check_case, check_limits, check_products, check_distances),
    *(check_figures, check_formulas, check_worked, check_refusals, check_answers, check_made),
]

if __name__ == "__main__":
    if len(sys.argv) != 1:
        sys.exit(__doc__)
    for check in CHECKS:
        check()
    print("dayfile_page: docs/DAYFILE.md agrees with the calculator, the stored file and the proved figures")
