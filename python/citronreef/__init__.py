"""Citronreef for Python: values of one ASX 24 rate futures contract, and the settlement, sheet and making of a day file.

Prices are Decimal, as quoted: Decimal("95.01"). Amounts are whole cents. A call that is refused raises Refusal.

    >>> from decimal import Decimal
    >>> value("IR", Decimal("95.01"))
    98784544
    >>> value("IR", Decimal("95.005"))
    Traceback (most recent call last):
    citronreef.answers.Refusal: refused 7 at 0: a mark's price is not a multiple of its product's tick

The answers come from the proved library, libcitronreef.so: the one that CITRONREEF_LIBRARY names; or in the repository that of
target/lib; or that of this package's own install; or where there is none of these, the one that the loader finds.
"""
from __future__ import annotations

import ctypes
from decimal import Decimal
from typing import Optional, Union

from .answers import NO_BOND, NO_SUCH_MARK, NOT_WHOLE, WORDS, MarkPrices, Refusal, Settled
from .library import FILE_SIZE, MAX_POSITIONS, SHEET_SIZE, VERSION, Amounts, File, Sheet, loaded
from .prices import price_of, scaled, units_of

__all__ = [
    "MAX_CORRECTIONS", "MAX_LOTS", "MAX_MARKS", "MAX_POSITIONS", "PRICE_LIMIT", "VERSION", "WORDS",
    "MarkPrices", "Refusal", "Settled",
    "bracket", "find", "make", "mark", "price_of", "settle", "sheet", "tick_value", "units_of", "value",
]

PRICE_LIMIT = Decimal("100.0000")
MAX_MARKS = 256
MAX_CORRECTIONS = 512
MAX_LOTS = 1_000_000

Bytes = Union[bytes, bytearray, memoryview]

_LARGEST_CHECK = 2**32 - 1
_LARGEST_INDEX = 2 ** (8 * ctypes.sizeof(ctypes.c_size_t)) - 1
_library = loaded()


# Arguments


def _letters(code: str) -> bytes:
    if not isinstance(code, str):
        raise TypeError(f"a code is a str, as 'IR', and not {type(code).__name__}")
    if len(code) != 2 or not code.isascii():
        raise ValueError(f"{code!r} is no code: it has two letters")
    return code.encode()


def _bytes(lent: Bytes, what: str = "a day file") -> bytes:
    if not isinstance(lent, (bytes, bytearray, memoryview)):
        raise TypeError(f"{what} is bytes, and not {type(lent).__name__}")
    return bytes(lent)


def _whole(number: int, what: str) -> int:
    if not isinstance(number, int) or isinstance(number, bool):
        raise TypeError(f"{what} is an int, and not {type(number).__name__}")
    return number


# Calls


def _quoted(call: str, code: str, price: Decimal) -> int:
    first, second = _letters(code)
    quote = getattr(_library, "citronreef_" + call)(first, second, units_of(price))
    if quote.refused:
        raise Refusal(quote.refused)
    return int(quote.number)


def value(code: str, price: Decimal) -> int:
    """The value of one contract, in cents."""
    return _quoted("value", code, price)


def tick_value(code: str, price: Decimal) -> int:
    """The value at the price one tick higher, minus the value, in cents."""
    return _quoted("tick_value", code, price)


def _listed(code: str) -> bool:
    """Whether the product table has the code: the value of one that it does not have is refused with 4 at any price."""
    return bool(_library.citronreef_value(*_letters(code), 0).refused != 4)


def bracket(code: str, price: Decimal) -> Decimal:
    """The bracket of a bond, with eight decimals. A code of no bond is refused with 4, also where the product table has it."""
    try:
        return scaled(_quoted("bracket", code, price), 8)
    except Refusal as refusal:
        if refusal.number == 4 and _listed(code):
            raise Refusal(4, words=NO_BOND) from None
        raise


def settle(file: Bytes) -> Settled:
    """Settles a day file: the amount of each position, the totals, and how many corrections are resent."""
    file, amounts = _bytes(file), Amounts()
    outcome = _library.citronreef_settle(file, len(file), amounts, MAX_POSITIONS)
    if outcome.refused:
        raise Refusal(outcome.refused, outcome.index)
    return Settled(tuple(amounts[: outcome.positions]), outcome.aud, outcome.nzd, outcome.resent)


def mark(file: Bytes, index: int) -> MarkPrices:
    """The prices of the mark with this index, from 0, of a file that passes checks 1 to 13 and 16.

    A mark that the file does not have is refused with 12 at the index asked for.
    """
    file, index = _bytes(file), _whole(index, "the index of a mark")
    if not 0 <= index <= _LARGEST_INDEX:
        raise ValueError(f"{index} is no index of a mark")
    said = _library.citronreef_mark(file, len(file), index)
    if said.refused == 12 and find(file, 12) is None:
        raise Refusal(12, said.index, NO_SUCH_MARK)
    if said.refused:
        raise Refusal(said.refused, said.index)
    return MarkPrices(
        price_of(said.previous), price_of(said.final_price), said.number if said.corrected else None, said.change
    )


def find(file: Bytes, check: int) -> Optional[int]:
    """The first record where the condition of a check, 1 to 13 or 16, holds; None where it holds at nothing that is looked at.

    Each condition is looked for by itself, so that one may be found that vanishes once an earlier one is mended. Not all of every
    file is looked at: of one that is shorter than 24 bytes only check 1, and of one with a count above its limit only 1 to 3.
    Otherwise the sections follow one another from byte 24 by the header's counts, whatever its offsets say, as far as the file
    has whole records. A number of no check is answered with None.
    """
    file, check = _bytes(file), _whole(check, "the number of a check")
    if not 0 <= check <= _LARGEST_CHECK:
        return None
    answer = _library.citronreef_find(file, len(file), check)
    return answer.index if answer.found else None


def sheet(file: Bytes) -> str:
    """The sheet of a day file, which is one line such as "refused 7 at 0" where the file is refused."""
    file, amounts, out = _bytes(file), Amounts(), Sheet()
    length = _library.citronreef_sheet(file, len(file), amounts, MAX_POSITIONS, out, SHEET_SIZE)
    return ctypes.string_at(out, length).decode("ascii")


def make(marks: Bytes, corrections: Bytes, positions: Bytes) -> bytes:
    """Makes a day file of three lists, each the bytes of its records, 12 for each.

    The lists of a file that passes checks 1 to 13 and 16 make that file. A list with more records than a file may have is refused
    with 2, then one that is not whole records with 3, and then 4 to 13 and 16 look at the records as at those of a file.

    >>> import struct
    >>> marks = struct.pack("<2sBBII", b"IR", 3, 27, 950_000, 950_100)
    >>> positions = struct.pack("<IIi", 11, 0, 10) + struct.pack("<IIi", 12, 0, -4)
    >>> file = make(marks, b"", positions)
    >>> len(file), settle(file).amounts_cents
    (60, (24060, -9624))
    >>> make(b"", b"", positions)
    Traceback (most recent call last):
    citronreef.answers.Refusal: refused 12 at 0: a position names no mark
    """
    lists = [_bytes(records, "a list of records") for records in (marks, corrections, positions)]
    lent = [argument for records in lists for argument in (records, len(records))]
    out = File()
    made = _library.citronreef_make(*lent, out, FILE_SIZE)
    if made.refused == 3:
        raise Refusal(3, made.index, NOT_WHOLE)
    if made.refused:
        raise Refusal(made.refused, made.index)
    return ctypes.string_at(out, made.length)
