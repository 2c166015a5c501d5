#!/usr/bin/env python3
"""Tests of the Python module, against the calculators of tests/ and the tables of docs/ and include/.

  test_citronreef.py        tests the module beside it, or another one that stands first on PYTHONPATH
"""
import decimal
import doctest
import pickle
import re
import sys
import threading
import unittest
from decimal import Decimal
from pathlib import Path

HERE = Path(__file__).resolve().parent
ROOT = HERE.parent
# The folder of this file comes last, so that an installed module can stand before it.
sys.path[:] = [str(ROOT / "tests"), *(path for path in sys.path if Path(path).resolve() != HERE), str(HERE)]

import calculator
import citronreef
import settlement
from calculator import PRICE_LIMIT
from citronreef import Refusal
from days import DOCUMENT_01_DAY, correction, file, position
from random_days import random_day
from records import MAX_CORRECTIONS, MAX_MARKS, MAX_POSITIONS, file_of, sections_of
from stored import cases

NO_BOND = "the code is of no bond, and only a bond has a bracket"
CODES = ("IR", "BB", "IB", "YT", "XT", "XX", "ZZ", "ir", "\0\0")
PRICES = (
    *(0, 50, 100, 940_000, 950_000, 950_050, 950_100, 950_101),
    *(PRICE_LIMIT - 100, PRICE_LIMIT - 50, PRICE_LIMIT, PRICE_LIMIT + 1, PRICE_LIMIT + 100, 2**32 - 1),
)
SIZES = ((1, 0, 1), (3, 5, 9), (20, 40, 60), (MAX_MARKS, MAX_CORRECTIONS, 300))


def day_files():
    """Stored day files and random ones."""
    yield from (whole for _, whole, _ in cases())
    yield from (file_of(random_day(7 * seed, *sizes)) for seed, sizes in enumerate(SIZES, 1))


def answer(call, *arguments):
    """What a call answers, or the number and the index of its refusal."""
    try:
        return call(*arguments)
    except Refusal as refusal:
        return refusal.number, refusal.index


def expected(worked_out, decimals=None):
    """A calculator's answer in the same form."""
    if isinstance(worked_out, calculator.Refused):
        return worked_out.number, 0
    return worked_out if decimals is None else Decimal(worked_out) / 10**decimals


class Contracts(unittest.TestCase):
    def test_calls_agree_with_the_calculator(self):
        for code in CODES:
            for units in PRICES:
                letters, price = code.encode(), Decimal(units) / 10_000
                with self.subTest(code=code, price=price):
                    self.assertEqual(answer(citronreef.value, code, price), expected(calculator.value(letters, units)))
                    self.assertEqual(answer(citronreef.tick_value, code, price), expected(calculator.tick_value(letters, units)))
                    self.assertEqual(answer(citronreef.bracket, code, price), expected(calculator.bracket(letters, units), 8))

    def test_bracket_has_eight_decimals(self):
        self.assertEqual(str(citronreef.bracket("YT", Decimal("94"))), "100.00000153")
        self.assertEqual(str(citronreef.bracket("YT", Decimal("100"))), "118.00000000")

    def test_words_of_a_bracket(self):
        for code, said in (("IR", NO_BOND), ("BB", NO_BOND), ("IB", NO_BOND), ("ZZ", citronreef.WORDS[3])):
            for price in ("94", "94.001", "200"):
                with self.subTest(code=code, price=price), self.assertRaises(Refusal) as raised:
                    citronreef.bracket(code, Decimal(price))
                refusal = raised.exception
                self.assertEqual((refusal.number, refusal.index, refusal.words), (4, 0, said))
                self.assertEqual(str(refusal), f"refused 4 at 0: {said}")
        for code in ("YT", "XT", "XX"):
            self.assertEqual(answer(citronreef.bracket, code, Decimal("94.001")), (7, 0))

    def test_prices_come_back(self):
        for units in PRICES:
            self.assertEqual(citronreef.units_of(citronreef.price_of(units)), units)
        self.assertEqual(str(citronreef.price_of(950_100)), "95.0100")
        self.assertEqual(citronreef.units_of(Decimal("95.010000")), 950_100)
        self.assertEqual(citronreef.units_of(Decimal("9.501E1")), 950_100)

    def test_precision_of_the_caller_changes_nothing(self):
        with decimal.localcontext(decimal.Context(prec=3)):
            self.assertEqual(citronreef.value("IR", Decimal("95.01")), 98_784_544)
            self.assertEqual(str(citronreef.bracket("YT", Decimal("94.00"))), "100.00000153")
            self.assertEqual(str(citronreef.price_of(950_100)), "95.0100")

    def test_what_is_no_price(self):
        for word in ("95.00001", "-0.01", "429496.7296", "1e30", "1e-999999", "NaN", "sNaN", "Infinity"):
            with self.subTest(price=word), self.assertRaises(ValueError):
                citronreef.value("IR", Decimal(word))
        for word, said in (("NaN", "no number"), ("-sNaN7", "no number"), ("-Infinity", "below 0"), ("Infinity", "too large")):
            with self.subTest(price=word), self.assertRaisesRegex(ValueError, f"^{word} is no price: it is .*{said}"):
                citronreef.units_of(Decimal(word))
        for price in (95, 95.01, "95.01", None, 950_100):
            with self.subTest(price=price), self.assertRaises(TypeError):
                citronreef.value("IR", price)

    def test_what_is_no_code(self):
        for code in ("", "I", "IRX", "ÄÖ"):
            with self.subTest(code=code), self.assertRaises(ValueError):
                citronreef.value(code, Decimal(95))
        with self.assertRaises(TypeError):
            citronreef.value(b"IR", Decimal(95))


class DayFiles(unittest.TestCase):
    def settled(self, whole):
        """The independent settlement's answer, in the form of the module's."""
        worked_out = settlement.settle(whole, MAX_POSITIONS)
        if isinstance(worked_out, settlement.Refused):
            return worked_out.number, worked_out.index
        return citronreef.Settled(worked_out.amounts, worked_out.aud, worked_out.nzd, worked_out.resent)

    def test_settlement_and_sheet(self):
        for k, whole in enumerate(day_files()):
            with self.subTest(day=k):
                self.assertEqual(answer(citronreef.settle, whole), self.settled(whole))
                if len(whole) <= settlement.INPUT_LIMIT:
                    self.assertEqual(citronreef.sheet(whole), settlement.sheet(whole))

    def test_marks(self):
        for whole in day_files():
            refused = self.settled(whole)
            if isinstance(refused, tuple):
                self.assertEqual(answer(citronreef.mark, whole, 0), refused)
                continue
            day = sections_of(whole)
            for index, listed in enumerate(day.marks):
                said = citronreef.mark(whole, index)
                naming = [c.number for c in day.corrections if c.mark == index]
                self.assertEqual(citronreef.units_of(said.previous), listed.previous)
                self.assertEqual(citronreef.units_of(said.final_price), settlement.final_price(day, index))
                self.assertEqual(said.corrected_by, max(naming, default=None))
                self.assertEqual(said.change_cents, settlement.change_in_value(day, index))
            self.assertEqual(answer(citronreef.mark, whole, len(day.marks)), (12, len(day.marks)))

    def test_words_of_a_mark(self):
        for whole, index, said in (
            (file(positions=[position()]), 99, "the file has no such mark"),
            (file(positions=[position(), position(mark=7)]), 1, citronreef.WORDS[11]),
            (file(positions=[position(), position(mark=99)]), 1, citronreef.WORDS[11]),
        ):
            with self.subTest(said=said), self.assertRaises(Refusal) as raised:
                citronreef.mark(whole, 99)
            refusal = raised.exception
            self.assertEqual((refusal.number, refusal.index, refusal.words), (12, index, said))
            self.assertEqual(pickle.loads(pickle.dumps(refusal)).words, said)

    def test_one_account_twice_in_a_mark(self):
        for lots in (10, -4):
            whole = file(positions=[position(), position(account=12), position(lots)])
            with self.subTest(lots=lots), self.assertRaises(Refusal) as raised:
                citronreef.settle(whole)
            self.assertEqual(str(raised.exception), "refused 16 at 2: two positions agree in account and mark")
            self.assertEqual(answer(citronreef.mark, whole, 0), (16, 2))
            self.assertEqual(citronreef.sheet(whole), "refused 16 at 2\n")

    def test_correction_with_number_0_decides(self):
        self.assertEqual(citronreef.mark(file(corrections=[correction(0, price=949_900)]), 0).corrected_by, 0)

    def test_bytes_of_any_kind(self):
        whole = file_of(DOCUMENT_01_DAY)
        answers = [citronreef.settle(kind(whole)) for kind in (bytes, bytearray, memoryview)]
        self.assertEqual(answers, [citronreef.Settled((24_060, -9_624), 14_436, 0, 1)] * 3)

    def test_empty_bytes(self):
        self.assertEqual(answer(citronreef.settle, b""), (1, 0))
        self.assertEqual(answer(citronreef.mark, b"", 3), (1, 0))
        self.assertEqual(citronreef.sheet(b""), "refused 1 at 0\n")

    def test_what_is_no_file(self):
        for call in (citronreef.settle, citronreef.sheet):
            for thing in ("text", 24, None, [1, 2]):
                with self.subTest(call=call, thing=thing), self.assertRaises(TypeError):
                    call(thing)

    def test_what_is_no_index(self):
        whole = file_of(DOCUMENT_01_DAY)
        for index, error in ((-1, ValueError), (2**64, ValueError), (0.0, TypeError), ("0", TypeError), (True, TypeError)):
            with self.subTest(index=index), self.assertRaises(error):
                citronreef.mark(whole, index)
        self.assertEqual(answer(citronreef.mark, whole, 2**64 - 1), (12, 2**64 - 1))

    def test_many_threads(self):
        whole = file_of(random_day(11, MAX_MARKS, MAX_CORRECTIONS, 300))
        answers = []
        threads = [threading.Thread(target=lambda: answers.append(citronreef.settle(whole))) for _ in range(16)]
        for thread in threads:
            thread.start()
        for thread in threads:
            thread.join()
        self.assertEqual(answers, [self.settled(whole)] * 16)


class Tables(unittest.TestCase):
    def test_words(self):
        rows = re.findall(r"^\| (\d+) \| (.*?) \|", (ROOT / "docs" / "REFUSALS.md").read_text(), re.MULTILINE)
        self.assertEqual(sorted((int(number), words) for number, words in rows), list(enumerate(citronreef.WORDS, 1)))

    def test_header(self):
        header = (ROOT / "include" / "citronreef.h").read_text()
        macros = dict(re.findall(r"^#define CITRONREEF_(\w+) (\S+)$", header, re.MULTILINE))
        self.assertEqual(citronreef.VERSION, macros["VERSION"].strip('"'))
        self.assertEqual(citronreef.units_of(citronreef.PRICE_LIMIT), int(macros["PRICE_LIMIT"]))
        for name in ("MAX_MARKS", "MAX_CORRECTIONS", "MAX_POSITIONS", "MAX_LOTS"):
            self.assertEqual(getattr(citronreef, name), int(macros[name]))
        for name in ("FILE_SIZE", "SHEET_SIZE"):
            self.assertEqual(getattr(citronreef.library, name), int(macros[name]))

    def test_refusal(self):
        refusal = Refusal(7, 3)
        self.assertEqual((refusal.number, refusal.index), (7, 3))
        self.assertEqual(str(refusal), "refused 7 at 3: a mark's price is not a multiple of its product's tick")
        self.assertEqual(refusal.words, citronreef.WORDS[6])
        self.assertEqual(Refusal(99).words, "")

    def test_examples_of_the_module(self):
        tried = doctest.testmod(citronreef)
        self.assertEqual((tried.failed, tried.attempted), (0, 9))


if __name__ == "__main__":
    unittest.main()
