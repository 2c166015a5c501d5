"""The answers of the calls, and the checks in words."""
from __future__ import annotations

from dataclasses import dataclass
from decimal import Decimal
from typing import Optional, Tuple

# What each check refuses, by its number from 1.
WORDS = (
    "the file is shorter than 24 bytes",
    "a count is above its limit",
    "an offset or the file's length differs from the layout",
    "a mark's code is not in the product table",
    "a mark's month is not one of its product's months, or its year is above 99",
    "a mark's price is above 100.0000",
    "a mark's price is not a multiple of its product's tick",
    "two marks agree in code, month and year",
    "a correction names no mark",
    "a correction's price is above 100.0000, or is not a multiple of its mark's tick",
    "two corrections agree in number but differ in mark or price",
    "a position names no mark",
    "a position's lots are 0, below -1,000,000 or above 1,000,000",
    "the amounts slice has fewer places than the file has positions",
    "a tick value is asked for where the price one tick higher is above 100.0000",
    "two positions agree in account and mark",
    "the lent buffer is shorter than the file",
)


# What 3 means for lists that a file is made of, 4 for the bracket of a code that is listed, and 12 for a mark that is asked for.
NOT_WHOLE = "a list is not whole records"
NO_BOND = "the code is of no bond, and only a bond has a bracket"
NO_SUCH_MARK = "the file has no such mark"


class Refusal(Exception):
    """A call that is refused: the number of the check, the index of the record in its section, and the check in words.

    The words are those of WORDS, but where a bracket or a mark is asked for that there is not, and for a list that is not whole
    records.
    """

    def __init__(self, number: int, index: int = 0, words: Optional[str] = None) -> None:
        super().__init__(number, index)
        self.number = number
        self.index = index
        by_number = WORDS[number - 1] if 1 <= number <= len(WORDS) else ""
        self.words = by_number if words is None else words

    def __str__(self) -> str:
        return f"refused {self.number} at {self.index}: {self.words}"


@dataclass(frozen=True)
class Settled:
    """The answer to an accepted day file. Australian and New Zealand cents are never added together."""

    amounts_cents: Tuple[int, ...]
    """One for each position, in file order, in the currency of its contract."""
    aud_cents: int
    nzd_cents: int
    resent: int
    """How many corrections bear a number that an earlier one bears."""


@dataclass(frozen=True)
class MarkPrices:
    """What is said of one mark of a day file."""

    previous: Decimal
    final_price: Decimal
    corrected_by: Optional[int]
    """The number of the correction that decides the final price; None where today's price stands."""
    change_cents: int
    """The change in value of one contract from the previous to the final price."""
