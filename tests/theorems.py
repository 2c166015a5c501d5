#!/usr/bin/env python3
"""Checks what document 01 promises of one contract at every price within the limit and on the tick: figures, bounds, accuracy.

  theorems.py
"""
import sys
from fractions import Fraction

from calculator import (
    PRICE_LIMIT,
    PRODUCTS,
    SCALE,
    Bond,
    Refused,
    bracket,
    bracket_at,
    exact_bracket,
    exact_value,
    ladder,
    ladder_bracket,
    price_range,
    prices_on_tick,
    tick_value,
    value,
    value_at,
    yield_at,
)
from require import require

# The accuracy figures: how far a change in value may lie from the exact one, in thousandths of a cent for each lot.
ACCURACY = {b"IR": 1_000, b"BB": 1_000, b"IB": 0, b"YT": 2_208, b"XT": 6_100, b"XX": 6_550}


def whole_bracket(bond, price):
    """The exact bracket times (2,000,000 + Y)^n: each v^k becomes 2,000,000^k times (2,000,000 + Y)^(n-k)."""
    q, n = 2_000_000 + yield_at(price), bond.halves
    powers = [2_000_000**k * q ** (n - k) for k in range(1, n + 1)]
    return bond.coupon * sum(powers) + 100 * powers[-1]


def ladder_figure(coupon, halves):
    """Twice the ladder's distance, in units of 10^-8: c times n^2 + 200 times n - 100."""
    return coupon * halves**2 + 200 * halves - 100


def check_figures():
    """The figures of document 01 that concern one contract, and the two amounts of its sheet."""
    figures = [
        (value(b"IR", 950_000), 98_782_138),
        (value(b"IR", 950_100), 98_784_544),
        (tick_value(b"IR", 950_000), 2_406),
        (value(b"IR", 1_000_000), 100_000_000),
        (tick_value(b"IR", 1_000_000), Refused(15)),
        (value(b"IR", 0), 80_219_780),
        (value(b"IB", 950_000), 23_427_000),
        (tick_value(b"IB", 950_000), 1_233),
        (ladder(940_000, 6), (97_087_379, 94_259_592, 91_514_167, 88_848_706, 86_260_880, 83_748_427)),
        (bracket(b"YT", 940_000), 10_000_000_153),
        (value(b"YT", 940_000), 10_000_000),
        (value(b"YT", 1_000_000), 11_800_000),
        (value(b"XT", 1_000_000), 16_000_000),
        (value(b"XX", 1_000_000), 9_000_000),
        (value(b"IR", 950_050), Refused(7)),
        (value(b"IR", 1_000_001), Refused(6)),
        (10 * (value(b"IR", 950_100) - value(b"IR", 950_000)), 24_060),
        (-4 * (value(b"IR", 950_100) - value(b"IR", 950_000)), -9_624),
        (ladder_figure(3, 6), 2 * 604),
        (ladder_figure(3, 20), 2 * 2_550),
        (ladder_figure(2, 40), 2 * 5_550),
    ]
    for found, stated in figures:
        require(found == stated, "figure", stated, "found", found)
    print(f"figures: {len(figures)} agree")


def check_bill_forms():
    """The bill's quotient in whole numbers equals face times 365 over (365 + yield times 90 / 100)."""
    for code in (b"IR", b"BB"):
        prices = prices_on_tick(PRODUCTS[code])
        for price in prices:
            quotient = Fraction(3_650_000_000_000_000, 36_500_000 + 9 * yield_at(price))
            require(exact_value(PRODUCTS[code].terms, price) == quotient, code, "two forms of the quotient at", price)
        print(f"{code.decode()}: both forms of the quotient agree at {len(prices)} prices")


def check_ladder(code, bond, prices):
    """The exact bracket is the whole number over (2,000,000 + Y)^n, every V is at most 1 and below 2^32, and the ladder is near."""
    farthest, highest = 0, 0
    for price in prices:
        exact = exact_bracket(bond, price)
        whole = exact * (2_000_000 + yield_at(price)) ** bond.halves
        require(whole == whole_bracket(bond, price), code, "whole bracket at", price)
        largest = max(ladder(price, bond.halves))
        require(largest <= SCALE, code, "a V above 1 at", price)
        require(largest < 2**32, code, "a V beyond 32 bits at", price)
        highest = max(highest, largest)
        farthest = max(farthest, abs(bracket_at(bond, price) - SCALE * exact))
    figure = ladder_figure(bond.coupon, bond.halves)
    require(2 * farthest <= figure, code, "ladder distance", float(farthest))
    print(
        f"{code.decode()}: bracket within {float(farthest):.1f} units of the exact one, at most {figure // 2} stated; "
        f"no V above {highest}, which 32 bits hold"
    )


def check_any_bond():
    """The ladder's distance for n from 1 to 60 and c from 0 to 9, at every 20,000 units."""
    for price in price_range(0, PRICE_LIMIT, 20_000):
        powers = ladder(price, 60)
        for halves in range(1, 61):
            q = (2_000_000 + yield_at(price)) ** halves
            for coupon in range(10):
                bond = Bond(100, coupon, halves)
                apart = abs(ladder_bracket(coupon, powers[:halves]) * q - SCALE * whole_bracket(bond, price))
                require(2 * apart <= ladder_figure(coupon, halves) * q, "ladder", coupon, halves, price)
    print("ladder: distance holds for n from 1 to 60 and c from 0 to 9 at 51 prices")


def check_value(code, terms, prices):
    """A higher price never has a lower value; every value lies within half the accuracy figure of the exact one.

    Hence the change in value between two prices lies within the figure of the exact change. The largest is printed.
    """
    accuracy = ACCURACY[code]
    values = [value_at(terms, price) for price in prices]
    require(all(low <= high for low, high in zip(values, values[1:])), code, "a value falls")
    errors = [v - exact_value(terms, price) for v, price in zip(values, prices)]
    farthest = max(map(abs, errors))
    require(2 * 1_000 * farthest <= accuracy, code, "accuracy", float(farthest))
    between = 1_000 * (max(errors) - min(errors))
    require(between <= accuracy, code, "accuracy between two prices", float(between))
    print(
        f"{code.decode()}: {len(values)} prices, values from {values[0]} to {values[-1]} never fall; "
        f"changes within {float(between):.1f} thousandths of a cent of the exact, at most {accuracy} stated"
    )


def theorems():
    """Checks each promise at every price of every product within the limit and on the tick, and says what was compared."""
    check_figures()
    check_bill_forms()
    check_any_bond()
    for code, product in PRODUCTS.items():
        prices = prices_on_tick(product)
        if isinstance(product.terms, Bond):
            check_ladder(code, product.terms, prices)
        check_value(code, product.terms, prices)
    print("every promise about one contract holds at these prices")


if __name__ == "__main__":
    if len(sys.argv) != 1:
        sys.exit(__doc__)
    theorems()
