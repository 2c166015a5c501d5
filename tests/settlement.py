#!/usr/bin/env python3
"""The settlement of a day file in plain Python, which shares nothing with the program it tests.

It is written from document 01: "The day file", "Why a call is turned away" and the sheet. Check 16 and the making of a file were
asked for afterwards. Records and layout are in records.py, and values come from calculator.py, in exact fractions. Nothing here is
quick: a clash of marks or of corrections is looked for among all earlier records.

  settlement.py < file     prints the sheet of a day file
"""
import struct
import sys
from dataclasses import dataclass

import calculator
from calculator import PRICE_LIMIT, PRODUCTS
from records import HEADER_SIZE, MAX_CORRECTIONS, MAX_MARKS, MAX_POSITIONS, RECORD_SIZE, day_of, header_numbers, sections_of

MAX_LOTS = 1_000_000
MAX_YEAR = 99
INPUT_LIMIT = 65_536  # the sheet program reads no more bytes than these


# Answers


@dataclass(frozen=True)
class Refused:
    number: int
    index: int

    def __str__(self):
        return f"refused {self.number} at {self.index}"


@dataclass(frozen=True)
class Settled:
    """The answer to an accepted file, with its amounts."""

    aud: int
    nzd: int
    resent: int
    amounts: tuple

    @property
    def positions(self):
        return len(self.amounts)


# Checks


def is_too_many(marks, corrections, positions):
    return marks > MAX_MARKS or corrections > MAX_CORRECTIONS or positions > MAX_POSITIONS


def layout_refusal(file):
    """Checks 1, 2 and 3: the first that the file fails, or None."""
    if len(file) < HEADER_SIZE:
        return Refused(1, 0)
    header = struct.unpack_from("<6I", file)
    marks, _, corrections, _, positions, _ = header
    if is_too_many(marks, corrections, positions):
        return Refused(2, 0)
    records = marks + corrections + positions
    if header != header_numbers(marks, corrections, positions) or len(file) != HEADER_SIZE + RECORD_SIZE * records:
        return Refused(3, 0)
    return None


def is_above_limit(price):
    return price > PRICE_LIMIT


def is_off_tick(product, price):
    return price % product.tick != 0


def prices_of(mark):
    return (mark.previous, mark.today)


def agree_in_contract(mark, other):
    return (mark.code, mark.month, mark.year) == (other.code, other.month, other.year)


def clash(correction, other):
    """Two corrections agree in number but differ in mark or price."""
    return correction.number == other.number and correction != other


def after_clash(records, clashes):
    """The test of whether record i clashes with an earlier one."""
    return lambda i: any(clashes(records[i], earlier) for earlier in records[:i])


def repeated_positions(positions):
    """The indices of the positions whose account and mark an earlier one has; their lots may differ."""
    held, repeated = set(), set()
    for i, position in enumerate(positions):
        pair = (position.account, position.mark)
        if pair in held:
            repeated.add(i)
        held.add(pair)
    return repeated


def record_checks(day):
    """Checks 4 to 13 and 16 in their order: number, how many records, and whether record i fails."""
    marks, corrections, positions = day.marks, day.corrections, day.positions
    repeated = repeated_positions(positions)
    return [
        (4, len(marks), lambda i: marks[i].code not in PRODUCTS),
        (5, len(marks), lambda i: marks[i].month not in marks[i].product.months or marks[i].year > MAX_YEAR),
        (6, len(marks), lambda i: any(is_above_limit(price) for price in prices_of(marks[i]))),
        (7, len(marks), lambda i: any(is_off_tick(marks[i].product, price) for price in prices_of(marks[i]))),
        (8, len(marks), after_clash(marks, agree_in_contract)),
        (9, len(corrections), lambda i: corrections[i].mark >= len(marks)),
        (10, len(corrections), lambda i: breaks_6_or_7(corrections[i], marks)),
        (11, len(corrections), after_clash(corrections, clash)),
        (12, len(positions), lambda i: positions[i].mark >= len(marks)),
        (13, len(positions), lambda i: positions[i].lots == 0 or not -MAX_LOTS <= positions[i].lots <= MAX_LOTS),
        (16, len(positions), lambda i: i in repeated),
    ]


def breaks_6_or_7(correction, marks):
    """Whether a correction's price breaks 6 or 7 for its mark."""
    product = marks[correction.mark].product
    return is_above_limit(correction.price) or is_off_tick(product, correction.price)


def record_refusal(day):
    """Checks 4 to 13 and 16, each over the whole file before the next: the first that fails with its first record, or None."""
    for number, count, fails in record_checks(day):
        for i in range(count):
            if fails(i):
                return Refused(number, i)
    return None


# Settlement


def final_price(day, index):
    """The price of the highest-numbered correction that names the mark, and today's price if none names it."""
    naming = [c for c in day.corrections if c.mark == index]
    if not naming:
        return day.marks[index].today
    return max(naming, key=lambda c: c.number).price


def change_in_value(day, index):
    """The value at the final price minus the value at the previous price, in cents."""
    mark = day.marks[index]
    terms = mark.product.terms
    return calculator.value_at(terms, final_price(day, index)) - calculator.value_at(terms, mark.previous)


def net_lots(day, index):
    return sum(p.lots for p in day.positions if p.mark == index)


def total(day, changes, currency):
    """The sum over a currency's marks of net lots times the mark's change in value."""
    return sum(
        net_lots(day, index) * changes[index]
        for index, mark in enumerate(day.marks)
        if mark.product.currency == currency
    )


def resent_count(corrections):
    """How many corrections bear a number that an earlier one in the list bears."""
    numbers = [c.number for c in corrections]
    return sum(number in numbers[:i] for i, number in enumerate(numbers))


def settled(day):
    """The answer to a day whose records pass every check."""
    changes = [change_in_value(day, index) for index in range(len(day.marks))]
    return Settled(
        total(day, changes, "AUD"),
        total(day, changes, "NZD"),
        resent_count(day.corrections),
        tuple(p.lots * changes[p.mark] for p in day.positions),
    )


def settle(file, places):
    """The answer to a file, with an amounts slice of so many places."""
    refused = layout_refusal(file)
    if refused:
        return refused
    day = sections_of(file)
    refused = record_refusal(day)
    if refused:
        return refused
    if places < len(day.positions):
        return Refused(14, 0)
    return settled(day)


# The making of a file


def make(marks, corrections, positions, room):
    """The day file of three lists of record bytes, for a buffer of so many bytes, or why it is refused."""
    lists = (marks, corrections, positions)
    counts = [len(section) // RECORD_SIZE for section in lists]
    if is_too_many(*counts):
        return Refused(2, 0)
    if any(len(section) % RECORD_SIZE for section in lists):
        return Refused(3, 0)
    refused = record_refusal(day_of(*lists))
    if refused:
        return refused
    header = header_numbers(*counts)
    file = bytearray(struct.pack("<6I", *header) + bytes(RECORD_SIZE * sum(counts)))
    for offset, section in zip(header[1::2], lists):
        file[offset : offset + len(section)] = section
    return bytes(file) if len(file) <= room else Refused(17, 0)


# The sheet


def position_line(mark, position, amount):
    """Account, code, month, year, amount in cents, currency."""
    code, currency = mark.code.decode(), mark.product.currency
    return f"{position.account} {code} {mark.month} {mark.year} {amount} {currency}\n"


def sheet(standard_input):
    """What the sheet program prints for its input."""
    file = standard_input[:INPUT_LIMIT]
    answer = settle(file, MAX_POSITIONS)
    if isinstance(answer, Refused):
        return f"{answer}\n"
    day = sections_of(file)
    lines = [position_line(day.marks[p.mark], p, amount) for p, amount in zip(day.positions, answer.amounts)]
    return "".join(lines) + f"total AUD {answer.aud}\ntotal NZD {answer.nzd}\nresent {answer.resent}\n"


if __name__ == "__main__":
    if len(sys.argv) != 1:
        sys.exit(__doc__)
    sys.stdout.write(sheet(sys.stdin.buffer.read()))
