"""The records of a day file and its layout, written from document 01: "The day file"."""
import struct
from dataclasses import dataclass

from calculator import PRODUCTS

HEADER_SIZE = 24
RECORD_SIZE = 12
MAX_MARKS = 256
MAX_CORRECTIONS = 512
MAX_POSITIONS = 4_096


# Records


@dataclass(frozen=True)
class Mark:
    code: bytes
    month: int
    year: int
    previous: int
    today: int

    def packed(self):
        return struct.pack("<2sBBII", self.code, self.month, self.year, self.previous, self.today)

    @staticmethod
    def unpacked(record):
        return Mark(*struct.unpack("<2sBBII", record))

    @property
    def product(self):
        return PRODUCTS[self.code]


@dataclass(frozen=True)
class Correction:
    number: int
    mark: int
    price: int

    def packed(self):
        return struct.pack("<III", self.number, self.mark, self.price)

    @staticmethod
    def unpacked(record):
        return Correction(*struct.unpack("<III", record))


@dataclass(frozen=True)
class Position:
    account: int
    mark: int
    lots: int

    def packed(self):
        return struct.pack("<IIi", self.account, self.mark, self.lots)

    @staticmethod
    def unpacked(record):
        return Position(*struct.unpack("<IIi", record))


@dataclass(frozen=True)
class Day:
    """The three lists of a day file."""

    marks: list
    corrections: list
    positions: list


# Layout


def header_numbers(marks, corrections, positions):
    """The six header numbers that the layout has for these counts."""
    after_marks = HEADER_SIZE + RECORD_SIZE * marks
    return (marks, HEADER_SIZE, corrections, after_marks, positions, after_marks + RECORD_SIZE * corrections)


def file_of(day, header=None):
    """The bytes of a day file; a header that is given stands in place of the layout's."""
    sections = (day.marks, day.corrections, day.positions)
    numbers = header or header_numbers(*map(len, sections))
    return struct.pack("<6I", *numbers) + b"".join(r.packed() for section in sections for r in section)


def day_of(marks, corrections, positions):
    """The day of three lists, each the bytes of whole records."""

    def records(kind, section):
        return [kind.unpacked(section[i : i + RECORD_SIZE]) for i in range(0, len(section), RECORD_SIZE)]

    return Day(records(Mark, marks), records(Correction, corrections), records(Position, positions))


def lists_of(file):
    """The bytes of the three sections of a file that passes checks 1 to 3."""
    _, marks_at, _, corrections_at, _, positions_at = struct.unpack_from("<6I", file)
    return file[marks_at:corrections_at], file[corrections_at:positions_at], file[positions_at:]


def sections_of(file):
    """The day of a file that passes checks 1 to 3."""
    return day_of(*lists_of(file))
