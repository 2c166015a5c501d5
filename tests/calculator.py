"""A calculator for the value of one contract, in exact fractions, that shares nothing with the program it tests.

It is written from document 01: "Prices and products", "Value of one contract" and "Why a call is turned away". Every
rounding is floor(f + 1/2) of a Fraction.
"""
import math
from dataclasses import dataclass
from fractions import Fraction
from functools import lru_cache

PRICE_LIMIT = 1_000_000
LARGEST_U32 = 4_294_967_295  # the largest price that a call or a record can name
SCALE = 100_000_000  # the ladder's units in 1: eight decimals


# Products


@dataclass(frozen=True)
class Bill:
    """Terms of a bank bill: face in dollars, and days to run."""

    face: int
    days: int


@dataclass(frozen=True)
class CashRate:
    """Terms of a cash rate contract: cents for each 0.01 of the price."""

    cents: int


@dataclass(frozen=True)
class Bond:
    """Terms of a bond: face in dollars, half-yearly coupon on 100 of face, number of half years."""

    face: int
    coupon: int
    halves: int


@dataclass(frozen=True)
class Product:
    """A line of the product table."""

    terms: object
    currency: str
    tick: int
    months: tuple


QUARTERS = (3, 6, 9, 12)
EVERY_MONTH = tuple(range(1, 13))

PRODUCTS = {
    b"IR": Product(Bill(1_000_000, 90), "AUD", 100, QUARTERS),
    b"BB": Product(Bill(1_000_000, 90), "NZD", 100, QUARTERS),
    b"IB": Product(CashRate(2_466), "AUD", 50, EVERY_MONTH),
    b"YT": Product(Bond(100_000, 3, 6), "AUD", 50, QUARTERS),
    b"XT": Product(Bond(100_000, 3, 20), "AUD", 50, QUARTERS),
    b"XX": Product(Bond(50_000, 2, 40), "AUD", 50, QUARTERS),
}


def price_range(first, last, step):
    """The prices from first on, a step apart, up to last."""
    return range(first, last + 1, step)


def prices_on_tick(product):
    """Every multiple of the tick within the limit."""
    return price_range(0, PRICE_LIMIT, product.tick)


# Values


def rounded(fraction):
    """The nearest whole number, a half going up."""
    return math.floor(fraction + Fraction(1, 2))


def yield_at(price):
    """Y, in units of 0.0001 per cent."""
    return 1_000_000 - price


@lru_cache(maxsize=1)
def ladder(price, halves):
    """V1 to Vn, in units of 10^-8."""
    first = rounded(Fraction(200_000_000_000_000, 2_000_000 + yield_at(price)))
    powers = [first]
    while len(powers) < halves:
        powers.append(rounded(Fraction(powers[-1] * first, SCALE)))
    return tuple(powers)


def ladder_bracket(coupon, powers):
    """c times (V1 + .. + Vn) plus 100 times Vn."""
    return coupon * sum(powers) + 100 * powers[-1]


@lru_cache(maxsize=None)
def bracket_at(bond, price):
    """The bracket of a bond's terms at any price within the limit, in units of 10^-8."""
    return ladder_bracket(bond.coupon, ladder(price, bond.halves))


@lru_cache(maxsize=None)
def value_at(terms, price):
    """The value of one contract of these terms in cents, at any price within the limit."""
    if isinstance(terms, Bond):
        return rounded(Fraction(bracket_at(terms, price) * terms.face, SCALE))
    return rounded(exact_value(terms, price))


# Exact values


@lru_cache(maxsize=None)
def exact_bracket(bond, price):
    """c times (v + v^2 + .. + v^n) + 100 times v^n, with v = 2,000,000 / (2,000,000 + Y), as document 01 writes it."""
    v = Fraction(2_000_000, 2_000_000 + yield_at(price))
    powers = [v**k for k in range(1, bond.halves + 1)]
    return bond.coupon * sum(powers) + 100 * powers[-1]


def exact_value(terms, price):
    """The formula of the value in cents, without any rounding."""
    if isinstance(terms, Bill):
        per_cent = Fraction(yield_at(price), 10_000)
        return Fraction(100 * terms.face * 365) / (365 + per_cent * terms.days / 100)
    if isinstance(terms, CashRate):
        return Fraction(terms.cents * price, 100)
    return exact_bracket(terms, price) * terms.face


# Answers of the calls on one contract


@dataclass(frozen=True)
class Refused:
    """The number of the check that refuses a call. A call that is not refused answers a plain number."""

    number: int

    def __str__(self):
        return f"refused {self.number}"


def refusal(code, price):
    """Checks 4, 6 and 7, in that order: the first that the call fails, or None where it passes all."""
    if code not in PRODUCTS:
        return Refused(4)
    if price > PRICE_LIMIT:
        return Refused(6)
    if price % PRODUCTS[code].tick != 0:
        return Refused(7)
    return None


def value(code, price):
    """The value of one contract in cents."""
    refused = refusal(code, price)
    if refused:
        return refused
    return value_at(PRODUCTS[code].terms, price)


def tick_value(code, price):
    """The value at the price one tick higher, minus the value."""
    refused = refusal(code, price)
    if refused:
        return refused
    product = PRODUCTS[code]
    if price + product.tick > PRICE_LIMIT:
        return Refused(15)
    return value_at(product.terms, price + product.tick) - value_at(product.terms, price)


def bracket(code, price):
    """The bracket of a bond. A code that is no bond is refused with 4, whatever the price."""
    if code in PRODUCTS and not isinstance(PRODUCTS[code].terms, Bond):
        return Refused(4)
    refused = refusal(code, price)
    if refused:
        return refused
    return bracket_at(PRODUCTS[code].terms, price)
