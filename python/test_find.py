#!/usr/bin/env python3
"""Tests of what is found in a day file, against conditions that are written out here and looked for one by one."""
import struct
import unittest

from test_citronreef import answer, citronreef, day_files

from calculator import PRICE_LIMIT, PRODUCTS
from days import contracts, correction, file, mark, position
from random_days import Random, random_day
from records import HEADER_SIZE, MAX_MARKS, RECORD_SIZE, Correction, Day, Mark, Position, file_of
from settlement import MAX_LOTS, MAX_YEAR, after_clash, agree_in_contract, clash, layout_refusal

CHECKS = (*range(1, 14), 16)
DAMAGED = 3_000


def records(whole, kind, before, count):
    """The records of a section that the file has whole, where the counts put them."""
    start = HEADER_SIZE + RECORD_SIZE * before
    part = whole[start : start + RECORD_SIZE * count]
    return [kind.unpacked(part[i : i + RECORD_SIZE]) for i in range(0, len(part) - RECORD_SIZE + 1, RECORD_SIZE)]


def off_tick(mark, price):
    return mark is not None and mark.code in PRODUCTS and price % mark.product.tick != 0


def bad_date(mark):
    return mark.code not in PRODUCTS or mark.month not in mark.product.months or mark.year > MAX_YEAR


def conditions(day):
    """Checks 4 to 13 and 16 by number: how many records, and whether the condition holds at record i, whatever the others say."""
    marks, corrections, positions = day.marks, day.corrections, day.positions
    pairs = [(held.account, held.mark) for held in positions]

    def named(record):
        return marks[record.mark] if record.mark < len(marks) else None

    def breaks_10(i):
        return corrections[i].price > PRICE_LIMIT or off_tick(named(corrections[i]), corrections[i].price)

    def breaks_13(i):
        return positions[i].lots == 0 or abs(positions[i].lots) > MAX_LOTS

    return {
        4: (len(marks), lambda i: marks[i].code not in PRODUCTS),
        5: (len(marks), lambda i: bad_date(marks[i])),
        6: (len(marks), lambda i: max(marks[i].previous, marks[i].today) > PRICE_LIMIT),
        7: (len(marks), lambda i: off_tick(marks[i], marks[i].previous) or off_tick(marks[i], marks[i].today)),
        8: (len(marks), after_clash(marks, agree_in_contract)),
        9: (len(corrections), lambda i: named(corrections[i]) is None),
        10: (len(corrections), breaks_10),
        11: (len(corrections), after_clash(corrections, clash)),
        12: (len(positions), lambda i: named(positions[i]) is None),
        13: (len(positions), breaks_13),
        16: (len(positions), lambda i: pairs[i] in pairs[:i]),
    }


def worked_out(whole):
    """The checks whose conditions hold somewhere, each with the first record where it does."""
    if len(whole) < HEADER_SIZE:
        return {1: 0}
    m, m_at, c, c_at, n, n_at = struct.unpack_from("<6I", whole)
    found = {}
    laid_out = (HEADER_SIZE, HEADER_SIZE + RECORD_SIZE * m, HEADER_SIZE + RECORD_SIZE * (m + c))
    if (m_at, c_at, n_at) != laid_out or len(whole) != HEADER_SIZE + RECORD_SIZE * (m + c + n):
        found[3] = 0
    refused = layout_refusal(whole)
    if refused and refused.number == 2:
        return {2: 0, **found}
    day = Day(records(whole, Mark, 0, m), records(whole, Correction, m, c), records(whole, Position, m + c, n))
    for check, (count, holds) in conditions(day).items():
        found.update({check: i for i in reversed(range(count)) if holds(i)})
    return found


def found(whole):
    """The same by the library."""
    answers = {check: citronreef.find(whole, check) for check in CHECKS}
    return {check: index for check, index in answers.items() if index is not None}


def damaged(random):
    """A small day file with some bytes changed, some records copied, with or without their last number, and perhaps cut off."""
    whole = bytearray(file_of(random_day(random.below(2**32) + 1, 1 + random.below(5), random.below(6), random.below(6))))
    for _ in range(random.below(4)):
        whole[random.below(len(whole))] = random.below(256)
    for _ in range(random.below(3)):
        start, other = (RECORD_SIZE * (2 + random.below(len(whole) // RECORD_SIZE - 2)) for _ in range(2))
        size = RECORD_SIZE - 4 * random.below(2)
        whole[start : start + size] = whole[other : other + size]
    return bytes(whole[: random.below(len(whole) + 1)] if random.below(6) == 0 else whole)


class Finding(unittest.TestCase):
    def test_agrees_with_the_conditions(self):
        random, met = Random(362_436_069), set()
        for k, whole in enumerate([*day_files(), *(damaged(random) for _ in range(DAMAGED))]):
            with self.subTest(file=k):
                self.assertEqual(found(whole), worked_out(whole))
            met |= found(whole).keys()
        self.assertEqual(met, set(CHECKS))

    def test_first_of_the_refusal(self):
        """What a refused file is refused with is found, at its record, and nothing before it."""
        for k, whole in enumerate(day_files()):
            with self.subTest(day=k):
                refused, holding = answer(citronreef.settle, whole), found(whole)
                if isinstance(refused, tuple):
                    self.assertEqual(min(holding.items()), refused)
                else:
                    self.assertEqual(holding, {})

    def test_three_mistakes_in_one_file(self):
        whole = file([mark(), mark(b"BB", today=950_001)], [correction(mark=2)], [position(), position(0, account=12)])
        self.assertEqual(found(whole), {7: 1, 9: 0, 13: 1})

    def test_repeated_position(self):
        """The first that repeats an earlier one, whatever its lots and whether its mark is there."""
        for positions, holding in (
            ([position(), position(account=12)], {}),
            ([position(), position(-4)], {16: 1}),
            ([position(), position(account=12), position(-4), position()], {16: 2}),
            ([position(), position(0)], {13: 1, 16: 1}),
            ([position(), position(mark=7), position(mark=7)], {12: 1, 16: 2}),
        ):
            self.assertEqual(found(file(positions=positions)), holding)

    def test_counts_above_a_limit(self):
        whole = file(contracts(MAX_MARKS + 1), [correction(mark=999)], [position(0)])
        self.assertEqual(found(whole), {2: 0})

    def test_what_is_looked_at(self):
        whole = file([mark()], [], [position(), position(0, account=12)])
        self.assertEqual(found(b"\xff" * (HEADER_SIZE - 1)), {1: 0})
        self.assertEqual(found(whole[:12] + b"\xff\xff" + whole[14:]), {3: 0, 13: 1})
        self.assertEqual(found(whole[:-1]), {3: 0})
        self.assertEqual(found(whole + bytes(RECORD_SIZE)), {3: 0, 13: 1})

    def test_no_check(self):
        whole = file(positions=[position(0), position(0)])
        for check in (-1, 0, 14, 15, 17, 18, 2**32, 2**32 + 1, 2**32 + 16, 2**64):
            self.assertIsNone(citronreef.find(b"", check))
            self.assertIsNone(citronreef.find(whole, check))
        self.assertEqual(citronreef.find(b"", 1), 0)
        for check in (1.0, "1", None, True):
            with self.assertRaises(TypeError):
                citronreef.find(b"", check)


if __name__ == "__main__":
    unittest.main()
