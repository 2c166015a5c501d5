"""Prices as quoted, and as whole numbers of units of 0.0001. The precision that the caller works with changes nothing."""
from __future__ import annotations

from decimal import Context, Decimal

_UNIT = Decimal("0.0001")
_LARGEST = Decimal("429496.7295")  # the largest of 32 bits, in units
_EXACT = Context(prec=20, traps=[])


def units_of(price: Decimal) -> int:
    """The whole number of units of 0.0001 that a price is: Decimal("95.01") is 950100."""
    if not isinstance(price, Decimal):
        raise TypeError(f"a price is a Decimal, as Decimal('95.01'), and not {type(price).__name__}")
    if price.is_nan():
        raise ValueError(f"{price} is no price: it is no number")
    if not 0 <= price <= _LARGEST:
        raise ValueError(f"{price} is no price: it is below 0, or too large for a day file")
    rounded = price.quantize(_UNIT, context=_EXACT)
    if rounded != price:
        raise ValueError(f"{price} is no price: it is not a multiple of 0.0001")
    return int(rounded.scaleb(4, context=_EXACT))


def price_of(units: int) -> Decimal:
    """The price of so many units of 0.0001, with four decimals."""
    return scaled(units, 4)


def scaled(number: int, decimals: int) -> Decimal:
    """So many units of the last of these decimals. A Decimal that is read from text is exact."""
    return Decimal(f"{number}e-{decimals}")
