"""Days of records with the usual fields, and files of them."""
import struct

from calculator import PRODUCTS
from records import Correction, Day, Mark, Position, file_of
from settlement import MAX_YEAR


def mark(code=b"IR", month=3, year=18, previous=950_000, today=950_200):
    return Mark(code, month, year, previous, today)


def correction(number=7, mark=0, price=950_100):
    return Correction(number, mark, price)


def position(lots=10, mark=0, account=11):
    return Position(account, mark, lots)


def held_by_many(*lots, mark=0, first=11):
    """Positions of these lots in one mark, each of another account, from the first one on."""
    return [position(held, mark, account) for account, held in enumerate(lots, first)]


def day(marks=(mark(),), corrections=(), positions=(position(),)):
    return Day(list(marks), list(corrections), list(positions))


def file(*sections, **named):
    return file_of(day(*sections, **named))


def with_header(whole, **changed):
    """A file whose header numbers are changed where one is named: m, m_at, c, c_at, n, n_at."""
    names = ("m", "m_at", "c", "c_at", "n", "n_at")
    numbers = dict(zip(names, struct.unpack_from("<6I", whole))) | changed
    return struct.pack("<6I", *numbers.values()) + whole[24:]


def contracts(count):
    """Marks of so many different contracts, every product among them."""
    listed = [(code, month, year) for year in range(MAX_YEAR + 1) for code, p in PRODUCTS.items() for month in p.months]
    return [mark(code, month, year) for code, month, year in listed[:count]]


# The case of document 01.
DOCUMENT_01_DAY = day(
    [mark()],
    [correction(7, 0, 950_100), correction(7, 0, 950_100)],
    [position(10, 0, 11), position(-4, 0, 12)],
)
