"""The stored day files: one for each question, under a name that says what is asked.

Every list below gives (name, file) or (name, file, places), where places is the length of the amounts slice.
"""
import struct

from calculator import LARGEST_U32, PRICE_LIMIT, PRODUCTS
from days import DOCUMENT_01_DAY, contracts, correction, day, file, held_by_many, mark, position, with_header
from random_days import random_day
from records import MAX_CORRECTIONS, MAX_MARKS, MAX_POSITIONS, file_of
from settlement import MAX_LOTS, MAX_YEAR

LARGEST_I32 = 2**31 - 1
SMALLEST_I32 = -(2**31)
PLACES = 4_100  # where a case names no other length: more than any file can have positions


# Checks 1 to 3: length, counts, offsets


def wrapping_counts():
    """12 times the count of marks is 8 in 32 bits, and the offsets and the length agree with that."""
    return struct.pack("<6I", 357_913_942, 24, 0, 32, 0, 32) + bytes(8)


LAYOUT = [
    ("empty_file", b""),
    ("one_byte_short_of_a_header", file_of(day([], [], []))[:23]),
    ("short_and_above_limits", b"\xff" * 23),
    ("header_alone", file_of(day([], [], []))),
    ("header_alone_with_no_places", file_of(day([], [], [])), 0),
    ("marks_at_limit", file(contracts(MAX_MARKS))),
    ("marks_above_limit", file(contracts(MAX_MARKS + 1))),
    ("corrections_at_limit", file(corrections=[correction(k) for k in range(MAX_CORRECTIONS)])),
    ("corrections_above_limit", file(corrections=[correction(k) for k in range(MAX_CORRECTIONS + 1)])),
    ("positions_at_limit", file([mark(b"IR", 3, 18, 0, PRICE_LIMIT)], [], held_by_many(*[MAX_LOTS] * MAX_POSITIONS))),
    ("positions_above_limit", file(positions=held_by_many(*[10] * (MAX_POSITIONS + 1)))),
    ("largest_counts", struct.pack("<6I", LARGEST_U32, 24, LARGEST_U32, 12, LARGEST_U32, 0)),
    ("counts_that_would_wrap", wrapping_counts()),
    ("marks_offset_high", with_header(file_of(DOCUMENT_01_DAY), m_at=25)),
    ("corrections_offset_low", with_header(file_of(DOCUMENT_01_DAY), c_at=24)),
    ("positions_offset_largest", with_header(file_of(DOCUMENT_01_DAY), n_at=LARGEST_U32)),
    ("offsets_of_a_gap", with_header(file_of(DOCUMENT_01_DAY), n_at=72) + bytes(12)),
    ("one_byte_short", file_of(DOCUMENT_01_DAY)[:-1]),
    ("one_byte_long", file_of(DOCUMENT_01_DAY) + bytes(1)),
    ("one_position_less_counted", with_header(file_of(DOCUMENT_01_DAY), n=1)),
    ("count_before_offset", with_header(file_of(DOCUMENT_01_DAY), m_at=0, c=MAX_CORRECTIONS + 1)),
]


# Checks 4 to 8: marks

MARKS = [
    ("unlisted_code", file([mark(b"ZZ")])),
    ("lower_case_code", file([mark(), mark(b"ir")])),
    ("month_0", file([mark(month=0)])),
    ("month_13", file([mark(b"IB", month=13)])),
    ("month_of_no_quarter", file([mark(month=3), mark(month=4)])),
    ("month_of_a_cash_rate", file([mark(b"IB", month=4)])),
    ("year_99", file([mark(year=MAX_YEAR)])),
    ("year_100", file([mark(year=MAX_YEAR + 1)])),
    ("price_0_to_limit", file([mark(previous=0, today=PRICE_LIMIT)])),
    ("previous_price_above_limit", file([mark(previous=PRICE_LIMIT + 100)])),
    ("today_price_above_limit", file([mark(), mark(month=6, today=PRICE_LIMIT + 1)])),
    ("largest_price", file([mark(today=LARGEST_U32)])),
    ("off_tick_previous_price", file([mark(previous=950_050)])),
    ("off_tick_today_price", file([mark(), mark(b"XX", today=950_225)])),
    ("tick_of_50", file([mark(b"YT", previous=950_050, today=950_150)])),
    ("repeated_mark", file([mark(month=6), mark(), mark(today=950_300)])),
    ("two_repeated_marks", file([mark(), mark(b"BB"), mark(b"BB"), mark()])),
    ("marks_that_agree_in_two_fields", file([mark(), mark(b"BB"), mark(month=6), mark(year=19)])),
]


# Checks 9 to 11: corrections

TWO_MARKS = [mark(), mark(b"BB", 6, 19, 940_000, 940_100)]

CORRECTIONS = [
    ("correction_names_last_mark", file(TWO_MARKS, [correction(mark=1)], [position(), position(mark=1)])),
    ("correction_names_no_mark", file(TWO_MARKS, [correction(), correction(8, 2)])),
    ("correction_names_largest_mark", file(TWO_MARKS, [correction(mark=LARGEST_U32)])),
    ("correction_above_limit", file(corrections=[correction(), correction(8, price=PRICE_LIMIT + 100)])),
    ("off_tick_correction", file(corrections=[correction(price=950_150)])),
    ("tick_of_the_named_mark", file([mark(), mark(b"XT")], [correction(7, 1, 950_150)], [position(mark=1)])),
    ("off_tick_correction_overridden", file(corrections=[correction(1, price=950_001), correction(2)])),
    ("same_number_other_price", file(corrections=[correction(), correction(price=950_300)])),
    ("same_number_other_mark", file(TWO_MARKS, [correction(), correction(8), correction(mark=1)])),
    ("clash_after_a_copy", file(corrections=[correction(), correction(8), correction(), correction(price=950_300)])),
    ("first_of_two_clashes", file(corrections=[correction(1), correction(2), correction(2, price=0), correction(1, price=0)])),
    ("higher_number_stands_first", file(corrections=[correction(9, price=950_500), correction(3, price=940_000)])),
    ("numbers_are_unsigned", file(corrections=[correction(LARGEST_U32, price=950_500), correction(LARGEST_I32)])),
    ("correction_number_0", file(corrections=[correction(0, price=949_900)])),
    ("no_marks_with_corrections", file([], [correction()])),
]


# Checks 12, 13, 16 and 14: positions and places


def repeated_at(*places, count):
    """So many positions in one mark; those at these places repeat the account of the first, with other lots."""
    positions = held_by_many(*range(1, count + 1))
    for place in places:
        positions[place] = position(-place)
    return positions


POSITIONS = [
    ("no_marks_with_positions", file([], [])),
    ("position_names_no_mark", file(TWO_MARKS, [], [position(), position(mark=2)])),
    ("lots_0", file(positions=held_by_many(10, -3, 0))),
    ("most_lots_long", file(positions=[position(MAX_LOTS)])),
    ("most_lots_short", file(positions=[position(-MAX_LOTS)])),
    ("one_lot_too_many_long", file(positions=[position(MAX_LOTS + 1)])),
    ("one_lot_too_many_short", file(positions=[position(-MAX_LOTS - 1)])),
    ("smallest_i32_lots", file(positions=[position(SMALLEST_I32)])),
    ("two_accounts_in_a_mark", file(positions=[position(), position(account=12)])),
    ("one_account_in_two_marks", file(TWO_MARKS, [], [position(), position(mark=1)])),
    ("account_and_mark_exchanged", file(TWO_MARKS, [], [position(mark=1, account=0), position(mark=0, account=1)])),
    ("accounts_apart_in_the_highest_bit", file(positions=[position(), position(account=11 + 2**31)])),
    ("one_account_twice_in_a_mark", file(positions=[position(10), position(10)])),
    ("one_account_twice_with_other_lots", file(positions=[position(10), position(-4)])),
    ("one_account_three_times_in_a_mark", file(positions=[position(10), position(10), position(10)])),
    ("first_of_two_repeated_positions", file(positions=[position(account=k) for k in (5, 6, 7, 6, 5)])),
    ("repeated_position_far_from_its_first", file(positions=repeated_at(1_500, 1_501, count=2_000))),
    ("last_of_all_positions_repeated", file(positions=repeated_at(MAX_POSITIONS - 1, count=MAX_POSITIONS))),
    ("as_many_places_as_positions", file_of(DOCUMENT_01_DAY), 2),
    ("one_place_too_few", file_of(DOCUMENT_01_DAY), 1),
]


# Two faults: the check that stands first in the order decides

ORDER = [
    ("code_before_month", file([mark(month=1), mark(b"ZZ")])),
    ("year_before_limit", file([mark(today=PRICE_LIMIT + 100), mark(year=MAX_YEAR + 1)])),
    ("limit_before_tick", file([mark(today=950_001), mark(month=6, today=PRICE_LIMIT + 100)])),
    ("limit_before_tick_in_one_price", file([mark(today=PRICE_LIMIT + 1)])),
    ("tick_before_repeated_mark", file([mark(), mark(), mark(month=6, previous=1)])),
    ("repeated_mark_before_correction", file([mark(), mark()], [correction(mark=2)])),
    ("no_mark_before_correction_price", file(corrections=[correction(price=1), correction(8, 1)])),
    ("correction_price_before_clash", file(corrections=[correction(), correction(price=0), correction(8, price=1)])),
    ("clash_before_position_mark", file([mark()], [correction(), correction(price=0)], [position(mark=1)])),
    ("position_mark_before_lots", file(positions=[position(0), position(mark=1)])),
    ("position_mark_before_repeated_position", file(positions=[position(mark=1), position(mark=1)])),
    ("lots_before_repeated_position", file(positions=[position(), position(), position(0, account=12)])),
    ("lots_before_places", file(positions=held_by_many(10, 0)), 0),
    ("repeated_position_before_places", file(positions=[position(), position()]), 1),
    ("offset_before_code", with_header(file([mark(b"ZZ")]), n_at=0)),
]


# Accepted files: the case of document 01, every product, resent corrections, a full file

EVERY_PRODUCT = [mark(code, 12, 30, 945_000 + 600 * k, 951_000 - 700 * k) for k, code in enumerate(PRODUCTS)]
BOTH_WAYS = [p for k in range(len(PRODUCTS)) for p in held_by_many(13 * (k + 1), -7 * (k + 1), mark=k, first=100 * k)]

FIRST_LIST = [correction(4, 0, 950_400), correction(9, 1, 940_900), correction(2, 0, 950_200)]
HELD = [position(25), position(-5, 1), position(-3, 0, 12), position(8, 1, 12)]


def resent(*order):
    """A file whose corrections are those of the first list in this order, by their places in it."""
    return file(TWO_MARKS, [FIRST_LIST[k] for k in order], HELD)


ACCEPTED = [
    ("case_of_document_01", file_of(DOCUMENT_01_DAY)),
    ("marks_alone", file(EVERY_PRODUCT, [], [])),
    ("every_product", file(EVERY_PRODUCT, [], BOTH_WAYS)),
    ("every_product_at_yield_0", file([mark(code, today=PRICE_LIMIT) for code in PRODUCTS], [], BOTH_WAYS)),
    ("equal_prices", file([mark(today=950_000)], [], held_by_many(10, -10))),
    ("corrected_to_previous_price", file(corrections=[correction(price=950_000)])),
    ("first_list", resent(0, 1, 2)),
    ("copies_before", resent(2, 1, 0, 1, 2)),
    ("copies_between", resent(0, 0, 2, 1, 0, 1, 2)),
    ("copies_after", resent(0, 1, 2, 0, 0, 2)),
    ("copies_everywhere", resent(1, 2, 0, 0, 1, 2, 1, 2, 1)),
    ("copies_up_to_the_limit", resent(0, 1, 2, *[k % 3 for k in range(MAX_CORRECTIONS - 3)])),
    ("full_size", file_of(random_day(362_436_069, MAX_MARKS, MAX_CORRECTIONS, MAX_POSITIONS))),
]


def cases():
    """Name, file and places of each case, in the order in which they are printed."""
    for name, file, *places in LAYOUT + MARKS + CORRECTIONS + POSITIONS + ORDER + ACCEPTED:
        yield name, file, places[0] if places else PLACES
