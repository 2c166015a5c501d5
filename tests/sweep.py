#!/usr/bin/env python3
"""Writes what the program sweep must print: the answers for many codes and prices, as calculator.py works them out.

  sweep.py
"""
import sys

from calculator import LARGEST_U32, PRICE_LIMIT, PRODUCTS, Refused, bracket, price_range, prices_on_tick, tick_value, value
from digest import digest


def answers_at(code, price):
    """The three answers for a code at a price, in the order of a printed line."""
    return [value(code, price), tick_value(code, price), bracket(code, price)]


def numbers_of(answer):
    """What a digest takes of an answer: the number given and a 0, or the number of the refusal and a 1."""
    return (answer.number, 1) if isinstance(answer, Refused) else (answer, 0)


def digest_of(codes, prices):
    """The digest of the answers for all the codes at all the prices."""
    answers = (answer for code in codes for price in prices for answer in answers_at(code, price))
    return digest(number for answer in answers for number in numbers_of(answer))


def print_line(name, code, price):
    """A name of the code, the price and the three answers."""
    print(name, price, *answers_at(code, price))


def print_lines(code, prices):
    """A line for each price."""
    for price in prices:
        print_line(code.decode(), code, price)


def print_digest(code, label, prices):
    """The digest of a code's answers at all the prices."""
    print(code.decode(), label, digest_of([code], prices))


UNLISTED = [
    *[b"ir", b"Ir", b"xX", b"RI", b"TY", b"BI", b"IT", b"ZZ"],
    *[bytes([0, 0]), bytes([73, 0]), b"  ", b" B", bytes([201, 210]), bytes([255, 255])],
]
EVERY_CODE = [bytes([first, second]) for first in range(256) for second in range(256)]
PRICES_OF_ANY_CODE = (950_000, 0, PRICE_LIMIT + 1, 950_025)


def sweep_product(code, product):
    """A listed product: at every multiple of the tick, off the tick, and above the limit."""
    print_lines(code, price_range(0, PRICE_LIMIT, 50_000))
    print_digest(code, "digest", prices_on_tick(product))
    print_lines(code, price_range(950_000, 950_100, 25))
    print_digest(code, "off tick digest", price_range(0, PRICE_LIMIT, 37))
    print_lines(code, price_range(PRICE_LIMIT - 100, PRICE_LIMIT + 100, 25))
    print_lines(code, price_range(PRICE_LIMIT + 1, LARGEST_U32, 2_146_983_647))
    print_lines(code, price_range(4_294_967_200, LARGEST_U32, 25))
    print_digest(code, "just above digest", price_range(PRICE_LIMIT + 1, PRICE_LIMIT + 10_000, 1))
    print_digest(code, "far above digest", price_range(1_048_592, LARGEST_U32, 65_537))


def sweep():
    """Writes what the program must print."""
    for code, product in PRODUCTS.items():
        sweep_product(code, product)
    for code in UNLISTED:
        for price in PRICES_OF_ANY_CODE:
            print_line(f"{code[0]} {code[1]}", code, price)
    for price in PRICES_OF_ANY_CODE:
        print("all codes", price, "digest", digest_of(EVERY_CODE, [price]))


if __name__ == "__main__":
    if len(sys.argv) != 1:
        sys.exit(__doc__)
    sweep()
