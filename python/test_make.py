#!/usr/bin/env python3
"""Tests of the making of day files against settlement.py: the C function, with lists and buffers of any length, and the module."""
import ctypes
import mmap
import pickle
import unittest

from test_citronreef import Refusal, citronreef, day_files

import settlement
from days import contracts, correction, day, file, held_by_many, mark, position
from random_days import Random, random_day
from records import HEADER_SIZE, MAX_CORRECTIONS, MAX_MARKS, MAX_POSITIONS, RECORD_SIZE, day_of, file_of, lists_of, sections_of

LIMITS = (MAX_MARKS, MAX_CORRECTIONS, MAX_POSITIONS)
SMALL, FULL = 2_500, 16  # random lists
STAYS = b"\xa5"
GUARD = STAYS * 13  # before, between and after what is lent, which so starts at odd bytes
MANY = 8 << 20  # bytes
MAP_NORESERVE = 0x4000  # of Linux; mmap has no name for it

MAKE = ctypes.CDLL(citronreef._library._name).citronreef_make
MAKE.restype, MAKE.argtypes = citronreef._library.citronreef_make.restype, (ctypes.c_void_p, ctypes.c_size_t) * 4


def lists(*sections, **named):
    """The lists of a day with the usual records."""
    return lists_of(file(*sections, **named))


def full_lists():
    return lists_of(file_of(random_day(521_288_629, *LIMITS)))


def file_length(sections):
    return HEADER_SIZE + sum(map(len, sections))


def damaged(random, sections):
    """The lists with some bytes changed, some records copied, with or without their last number, and some bytes lost or added."""
    sections = [bytearray(section) for section in sections]
    for section in sections:
        count = len(section) // RECORD_SIZE
        if count and random.below(4) == 0:
            section[random.below(len(section))] = random.below(256)
        if count and random.below(6) == 0:
            start, other = (RECORD_SIZE * random.below(count) for _ in range(2))
            size = RECORD_SIZE - 4 * random.below(2)
            section[start : start + size] = section[other : other + size]
        if random.below(12) == 0:
            section += bytes(random.below(2 * RECORD_SIZE))
        if random.below(12) == 0:
            del section[max(0, len(section) - random.below(2 * RECORD_SIZE)) :]
    return [bytes(section) for section in sections]


class Making(unittest.TestCase):
    def made(self, sections, room):
        """What the C function answers for a buffer of so many bytes: the file, or the number and the index of its refusal.

        It is the calculator's answer. Of the lists, the buffer and what stands beside them, the file's bytes alone are written.
        """
        before = b"".join([GUARD, *sections, GUARD, STAYS * room, GUARD])
        memory = bytearray(before)
        at = len(GUARD)
        address = ctypes.addressof(ctypes.c_char.from_buffer(memory))
        lent = []
        for section in sections:
            lent += [address + at, len(section)]
            at += len(section)
        at += len(GUARD)
        said = MAKE(*lent, address + at, room)
        worked_out = settlement.make(*sections, room)
        if isinstance(worked_out, settlement.Refused):
            answer, written, numbers = (worked_out.number, worked_out.index), b"", (worked_out.number, worked_out.index, 0)
        else:
            answer, written, numbers = worked_out, worked_out, (0, 0, len(worked_out))
        self.assertEqual((said.refused, said.index, said.length), numbers)
        self.assertTrue(memory == before[:at] + written + before[at + len(written) :], "the file's bytes alone are written")
        return answer

    def comes_back(self, whole):
        """The lists of a file make it, by the C function and by the module, and it is settled."""
        sections = lists_of(whole)
        self.assertEqual(self.made(sections, len(whole)), whole)
        self.assertEqual(citronreef.make(*sections), whole)
        self.assertEqual(len(citronreef.settle(whole).amounts_cents), len(sections[2]) // RECORD_SIZE)

    def test_random_lists(self):
        """Valid lists and damaged ones, small and full, each with room for more than the file, for just the file, and for less."""
        random, met = Random(88_675_123), set()
        for k in range(SMALL + FULL):
            sizes = (1 + random.below(5), random.below(6), random.below(6)) if k < SMALL else LIMITS
            sections = lists_of(file_of(random_day(random.below(2**32) + 1, *sizes)))
            sections = sections if k % 3 == 0 else damaged(random, sections)
            length = file_length(sections)
            for room in (length + 1 + random.below(40), length, random.below(length)):
                with self.subTest(lists=k, room=room):
                    answer = self.made(sections, room)
                    met.add("made" if isinstance(answer, bytes) else answer[0])
                    if isinstance(answer, bytes) and room == length:
                        self.assertEqual(sections_of(answer), day_of(*sections))
                        self.comes_back(answer)
        self.assertEqual(met, {"made", *range(2, 14), 16, 17})

    def test_files_come_back(self):
        """Stored and random files that pass checks 1 to 3: their lists make them, or are refused as they are."""
        count = 0
        for k, whole in enumerate(day_files()):
            if settlement.layout_refusal(whole):
                continue
            with self.subTest(day=k):
                refused = settlement.record_refusal(sections_of(whole))
                if refused:
                    self.assertEqual(self.made(lists_of(whole), len(whole)), (refused.number, refused.index))
                else:
                    self.comes_back(whole)
                    count += 1
        self.assertGreaterEqual(count, 40)

    def test_limits(self):
        """Of full lists, one that is longer by some bytes: its count is rounded down."""
        full, length = full_lists(), citronreef.library.FILE_SIZE
        self.assertEqual(file_length(full), length)
        self.assertEqual(self.made(full, length), file_of(day_of(*full)))
        self.assertEqual(self.made(full, length - 1), (17, 0))
        for k in range(3):
            for more, number in ((1, 3), (RECORD_SIZE - 1, 3), (RECORD_SIZE, 2), (RECORD_SIZE + 1, 2), (MANY, 2), (MANY + 1, 2)):
                longer = [section + bytes(more * (i == k)) for i, section in enumerate(full)]
                with self.subTest(list=k, more=more):
                    self.assertEqual(self.made(longer, length), (number, 0))
                    self.assertEqual(self.made(longer, 0), (number, 0))

    def test_lengths_that_would_wrap(self):
        """Lists of which 32 bits of the length, or of the count, are those of one record. They need addresses and no memory."""
        none, out = (None, 0), ctypes.create_string_buffer(citronreef.library.FILE_SIZE)
        for length in (2**32 + RECORD_SIZE, RECORD_SIZE * (2**32 + 1)):
            try:
                zeros = mmap.mmap(-1, length, flags=mmap.MAP_PRIVATE | mmap.MAP_ANONYMOUS | MAP_NORESERVE)
            except OSError as error:
                self.skipTest(f"a list of {length} bytes: {error}")
            first = ctypes.c_char.from_buffer(zeros)
            long = (ctypes.addressof(first), length)
            for lent in ((*long, *none, *none), (*none, *long, *none), (*none, *none, *long), 3 * long):
                with self.subTest(lent=lent):
                    said = MAKE(*lent, out, len(out))
                    self.assertEqual((said.refused, said.index, said.length), (2, 0, 0))
                    self.assertFalse(any(out.raw))

    def test_order(self):
        """Two faults at once: 2, 3, 4 to 13, 16, 17."""
        two = held_by_many(10, -4)
        for sections, room, answer in (
            ([b"", b"", b""], HEADER_SIZE - 1, (17, 0)),
            ([b"", b"", b""], 0, (17, 0)),
            ([b"", b"", b"\0"], 0, (3, 0)),
            ([b"\0", b"", bytes(RECORD_SIZE * (MAX_POSITIONS + 1))], 0, (2, 0)),
            ([bytes(RECORD_SIZE * MAX_MARKS + 11), bytes(RECORD_SIZE * (MAX_CORRECTIONS + 1)), b""], 99, (2, 0)),
            ([bytes(RECORD_SIZE), bytes(5), b""], 99, (3, 0)),
            ([bytes(RECORD_SIZE), b"", b""], 0, (4, 0)),
            (lists([mark(), mark(b"ZZ")], [correction(mark=9)], two), 99, (4, 1)),
            (lists([mark()], [correction(), correction(8, 1)], two), 0, (9, 1)),
            (lists([mark()], [], [position(), position(), position(0, account=12)]), 0, (13, 2)),
            (lists([mark()], [], [position(), position()]), 0, (16, 1)),
            (lists([mark()], [], two), HEADER_SIZE + 3 * RECORD_SIZE - 1, (17, 0)),
        ):
            with self.subTest(answer=answer):
                self.assertEqual(self.made(sections, room), answer)

    def test_no_records(self):
        header = file_of(day([], [], []))
        self.assertEqual(self.made([b"", b"", b""], HEADER_SIZE), header)
        self.assertEqual(self.made([b"", b"", b""], 100), header)
        self.assertEqual(citronreef.make(b"", b"", b""), header)
        self.assertEqual(citronreef.make(*lists(contracts(MAX_MARKS), [], [])), file(contracts(MAX_MARKS), [], []))


class Module(unittest.TestCase):
    def test_refusals_in_words(self):
        for sections, said in (
            ([bytes(RECORD_SIZE * (MAX_MARKS + 1)), b"\0", b""], "refused 2 at 0: a count is above its limit"),
            ([b"", b"\0", b""], "refused 3 at 0: a list is not whole records"),
            (lists(positions=[position(), position(mark=1)]), "refused 12 at 1: a position names no mark"),
            (lists(positions=[position(), position()]), "refused 16 at 1: two positions agree in account and mark"),
        ):
            with self.subTest(said=said), self.assertRaises(Refusal) as raised:
                citronreef.make(*sections)
            self.assertEqual(str(raised.exception), said)
            self.assertEqual(str(pickle.loads(pickle.dumps(raised.exception))), said)
        self.assertEqual(Refusal(17).words, "the lent buffer is shorter than the file")

    def test_room_for_every_file(self):
        full = full_lists()
        self.assertEqual(citronreef.make(*full), file_of(day_of(*full)))

    def test_bytes_of_any_kind(self):
        whole = file(positions=[position(), position(account=12)])
        for kind in (bytes, bytearray, memoryview):
            self.assertEqual(citronreef.make(*map(kind, lists_of(whole))), whole)

    def test_what_is_no_list(self):
        for thing in ("text", 12, None, [mark()]):
            for place in range(3):
                arguments = [b"", b"", b""]
                arguments[place] = thing
                with self.subTest(thing=thing, place=place), self.assertRaisesRegex(TypeError, "^a list of records is bytes"):
                    citronreef.make(*arguments)


if __name__ == "__main__":
    unittest.main()
