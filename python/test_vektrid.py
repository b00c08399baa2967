#!/usr/bin/env python3
"""Tests of vektrid.py over the real library, with the standard library alone: python3 python/test_vektrid.py

What is expected comes from the requirements: their examples, or their definitions written out again here (columns, cells, singles as fractions).
The tests that need numpy are skipped without it.
"""
import _ctypes
import array
import collections
import ctypes
import doctest
import glob
import inspect
import math
import os
import pickle
import random
import re
import shutil
import struct
import subprocess
import sys
import tempfile
import unittest
import unittest.mock
from fractions import Fraction

HERE = os.path.dirname(os.path.realpath(__file__))
ROOT = os.path.dirname(HERE)
sys.path.insert(0, HERE)
import vektrid  # noqa: E402

try:
    import numpy
except ImportError:
    numpy = None

LAST = 2**32 - 1
SHIFTS = [(0, 0), (0x80000000, 0), (0x12345678, 0x9ABCDEF0), (LAST, LAST)]
NONE, MOST = bytes(32), 31 * b'\xff' + b'\x7f'  # the flips of an axis: no flip bit, and all but the one that is refused
SHIFTED = dict(shift=SHIFTS[2])
FLIPPED = dict(shift=SHIFTS[2], flips=tuple(random.Random(axis).getrandbits(255).to_bytes(32, 'little') for axis in 'xy'))
SCRAMBLES = [dict(shift=shift) for shift in SHIFTS] + [dict(flips=(MOST, NONE)), FLIPPED]


# ---- the definitions of the requirements, once more


def standard_words():
    """X column c is 2^(31-c); Y has a one in row r, column c exactly when the binomial "c over r" is odd."""
    x = [2**(31 - c) for c in range(32)]
    y = [sum(2**(31 - r) for r in range(32) if math.comb(c, r) % 2) for c in range(32)]
    return x + y


def flipped(word, flips):
    """Coordinate bit t from the top, t from 0 to 7, is flipped if flip bit 2^t - 1 + p is set, p being the t leading bits before any flip, read as
    a number. Flip bits are numbered from the lowest bit of byte 0."""
    bits, flip_bits = f'{word:032b}', ''.join(f'{byte:08b}'[::-1] for byte in flips)
    leading = [int(bits[:t] or '0', 2) for t in range(8)]
    turned = [{'0': '1', '1': '0'}[bits[t]] if flip_bits[2**t - 1 + leading[t]] == '1' else bits[t] for t in range(8)]
    return int(''.join(turned) + bits[8:], 2)


def point_of(words, index, shift=(0, 0), flips=(NONE, NONE)):
    """A coordinate is the exclusive or of the columns whose index bit is set; it is flipped; and then that axis's scramble word is added."""
    x = y = 0
    for bit in range(32):
        if index >> bit & 1:
            x, y = x ^ words[bit], y ^ words[32 + bit]
    return flipped(x, flips[0]) ^ shift[0], flipped(y, flips[1]) ^ shift[1]


def cell_of(point, m, a):
    """The column is the top a bits of the first coordinate, the row the top m-a bits of the second."""
    return point[0] >> (32 - a), point[1] >> (32 - (m - a))


def first_bad(words, level):
    """The first shape in which two of the indexes below 2^m share a cell, with the least index above 0 in the cell of index 0; or None."""
    for m in range(1, level + 1):
        points = [point_of(words, index) for index in range(2**m)]
        for a in range(m + 1):
            cells = [cell_of(point, m, a) for point in points]
            if len(set(cells)) < 2**m:
                return m, a, cells.index(cells[0], 1)
    return None


def page_of(visits, number):
    """A page of a sheet: a heading, 48 lines for visits, blank where there are fewer, and its number, in 27 columns."""
    lines = [' rec  vis        x        y'] + ['%4d %4d %8d %8d' % visit for visit in visits]
    return '\n'.join(lines + (49 - len(lines)) * [27 * ' '] + [f'{number:27}', ''])


def pages_of(visits):
    """The pages of a sheet: 48 visits on each, and one page where there are none."""
    return [page_of(visits[start:start + 48], 1 + start // 48) for start in range(0, max(len(visits), 1), 48)]


def read_back(text):
    """The listing that a sheet gives by its columns alone: pages of 50 lines of 28 bytes, without the first and the last line and blank ones."""
    lines = [text[start:start + 28] for start in range(0, len(text), 28)]
    kept = [line for place, line in enumerate(lines) if place % 50 not in (0, 49) and line[:27].strip(' ')]
    fields = [[line[start:end].lstrip(' ') for start, end in ((0, 4), (5, 9), (10, 18), (19, 27))] for line in kept]
    return 'record visit x y\n' + ''.join(' '.join(each) + '\n' for each in fields)


def place_of(edge, extent, size, word):
    """A position on one axis: edge + floor(word * (extent - F + 1) / 2^32), F being the size of the field, of which 0 counts as 1."""
    return edge + math.floor(Fraction(word * (extent - max(size, 1) + 1), 2**32))


def head(first, level, field=(0, 0), reserved=bytes(16)):
    return struct.pack('<IIII', first, level, *field) + reserved


def record(following, left=-500, top=0, width=1000, height=800, x_shift=0, y_shift=0, count=4):
    return struct.pack('<IiiIIIII', following, left, top, width, height, x_shift, y_shift, count)


EXAMPLE = head(1, 2) + record(0)
EXAMPLE_LISTING = 'record visit x y\n1 0 -500 0\n1 1 0 400\n1 2 -250 600\n1 3 250 200\n'
EXAMPLE_SHEET = page_of([(1, 0, -500, 0), (1, 1, 0, 400), (1, 2, -250, 600), (1, 3, 250, 200)], 1)

STANDARD = vektrid.Pair.standard()
SWAPPED = vektrid.Pair(STANDARD.words[32:] + STANDARD.words[:32])  # a net of every level too: only the axes change places
IDENTITIES = vektrid.Pair(2 * STANDARD.words[:32])


# ---- refusals


class RefusalTable(unittest.TestCase):
    """Each line of the refusal table raises its own class, with its number and the values that were given."""

    def refused(self, kind, number, values, call):
        with self.assertRaises(vektrid.Refusal) as caught:
            call()
        refusal = caught.exception
        self.assertIs(type(refusal), kind)
        self.assertEqual(refusal.number, number)
        opening = f'refusal {number}: {kind.words}: '
        self.assertEqual(str(refusal)[:len(opening)], opening)
        for value in values:  # behind the words, which have numbers of their own
            self.assertRegex(str(refusal)[len(opening):], rf'(?<!\d){re.escape(str(value))}(?!\d)')
        self.assertEqual(str(pickle.loads(pickle.dumps(refusal))), str(refusal))
        return refusal

    def test_1_word_count(self):
        self.refused(vektrid.WordCount, 1, [63], lambda: vektrid.Pair(STANDARD.words[:63]))
        self.refused(vektrid.WordCount, 1, [65], lambda: vektrid.Pair(STANDARD.words + (0,)))
        self.refused(vektrid.WordCount, 1, [0], lambda: vektrid.Pair([]))

    def test_2_level(self):
        self.refused(vektrid.Level, 2, [33], lambda: STANDARD.check(33))
        self.refused(vektrid.Level, 2, [0], lambda: STANDARD.check(0))
        self.refused(vektrid.Level, 2, [33], lambda: STANDARD.query(33, 2, 1, 1, 0, 0))
        self.refused(vektrid.Level, 2, [33], lambda: STANDARD.overview(33, 2, 1, [1], [0]))
        self.refused(vektrid.Level, 2, [33], lambda: vektrid.judge(head(1, 33) + record(0)))

    def test_3_not_net(self):
        refusal = self.refused(vektrid.NotNet, 3, ['(2, 1)', 'j = 2'], lambda: IDENTITIES.check(2))
        self.assertEqual((refusal.m, refusal.a, refusal.j), (2, 1, 2))
        for call in (lambda: IDENTITIES.query(32, 2, 1, 1, 0, 0), lambda: IDENTITIES.overview(32, 2, 1, [1], [0]),
                     lambda: IDENTITIES.overview(32, 2, 1, [], [])):
            refusal = self.refused(vektrid.NotNet, 3, ['(2, 1)', 'j = 2'], call)
            self.assertEqual((refusal.m, refusal.a, refusal.j), (2, 1, 2))

    def test_4_size(self):
        self.refused(vektrid.Size, 4, ['m = 3', 'level = 2'], lambda: STANDARD.query(2, 3, 1, 0, 0, 0))
        self.refused(vektrid.Size, 4, ['m = 3', 'level = 2'], lambda: STANDARD.overview(2, 3, 1, [0], [0]))

    def test_5_shape(self):
        self.refused(vektrid.Shape, 5, ['m = 2', 'a = 3'], lambda: STANDARD.query(32, 2, 3, 0, 0, 0))
        self.refused(vektrid.Shape, 5, ['m = 2', 'a = 3'], lambda: STANDARD.overview(32, 2, 3, [0], [0]))

    def test_6_cell(self):
        self.refused(vektrid.Cell, 6, ['(2, 1)', 'column = 2'], lambda: STANDARD.query(32, 2, 1, 2, 0, 0))
        refusal = self.refused(vektrid.Cell, 6, ['(2, 1)', 'row = 2'], lambda: STANDARD.query(32, 2, 1, 0, 2, 0))
        self.assertIsNone(refusal.place)

    def test_6_cell_of_an_overview(self):
        inside = [0, 1, 1, 0, 1]
        for place in range(5):
            outside = inside[:place] + [7] + inside[place + 1:]
            for name, columns, rows in (('column', outside, inside), ('row', inside, outside), ('row', inside, array.array('I', outside))):
                shown = [f'at place {place}', '(2, 1)', '2^1 columns and 2^1 rows', f'{name} = 7']
                refusal = self.refused(vektrid.Cell, 6, shown, lambda: STANDARD.overview(32, 2, 1, columns, rows))
                self.assertEqual(refusal.place, place)
        refusal = self.refused(vektrid.Cell, 6, ['at place 1'], lambda: STANDARD.overview(32, 2, 1, [0, 1, 7], [0, 7, 0]))  # the earlier of the two
        self.assertEqual(refusal.place, 1)

    def test_7_block(self):
        self.refused(vektrid.Block, 7, ['2^4', '2^28', 268435456], lambda: STANDARD.query(32, 4, 2, 0, 0, 268435456))
        self.refused(vektrid.Block, 7, ['2^4', '2^28', 268435456], lambda: STANDARD.overview(32, 4, 2, [0], [0], 268435456))

    def test_8_buffer_lengths(self):
        xs, ys = array.array('I', 4 * [7]), array.array('I', 5 * [7])
        self.refused(vektrid.BufferLengths, 8, [4, 5], lambda: STANDARD.fill(0, (xs, ys)))
        self.assertEqual((list(xs), list(ys)), (4 * [7], 5 * [7]))

    def test_8_buffer_lengths_of_an_overview(self):
        for columns, rows in ((4 * [0], 5 * [0]), (array.array('I', 4 * [0]), array.array('I', 5 * [0])), (range(4), iter(5 * [0]))):
            shown = ['columns has 4 words', 'rows has 5']
            self.refused(vektrid.BufferLengths, 8, shown, lambda: STANDARD.overview(32, 4, 2, columns, rows))
        self.refused(vektrid.BufferLengths, 8, [0, 1], lambda: STANDARD.overview(32, 4, 2, [], [0]))
        self.refused(vektrid.BufferLengths, 8, [1, 0], lambda: STANDARD.overview(32, 4, 2, [0], []))

    def test_9_index_range(self):
        xs, ys = array.array('I', [7, 7]), array.array('I', [7, 7])
        self.refused(vektrid.IndexRange, 9, [LAST, 2], lambda: STANDARD.fill(LAST, (xs, ys)))
        self.assertEqual((list(xs), list(ys)), ([7, 7], [7, 7]))
        self.refused(vektrid.IndexRange, 9, [LAST, 2], lambda: STANDARD.fill(LAST, 2))
        self.refused(vektrid.IndexRange, 9, [LAST, 2], lambda: STANDARD.walk(LAST, 2))
        self.refused(vektrid.IndexRange, 9, [LAST, 2], lambda: STANDARD.walk_singles(LAST, 2))
        self.refused(vektrid.IndexRange, 9, [0, 2**64 - 1], lambda: STANDARD.fill(0, 2**64 - 1))

    def test_10_region(self):
        self.refused(vektrid.RegionLimits, 10, ['width = 0'], lambda: vektrid.Region(0, 0, 0, 800))
        for place, name in enumerate(vektrid.Region._fields):
            outside = [-1000001, 1000001] if place < 2 else [0, 1000001]
            for value in outside:
                values = [0, 0, 1, 1]
                values[place] = value
                self.refused(vektrid.RegionLimits, 10, [f'{name} = {value}'], lambda: vektrid.Region(*values))

    def test_16_field(self):
        region = vektrid.Region(-500, 0, 1000, 800)
        for field in ((1001, 1), (1, 801), (1001, 801), (0, 801), (1001, 0), (LAST, 1), (1, LAST), (LAST, LAST)):
            shown = [f'the field is {field[0]} by {field[1]} micrometres', 'the region 1000 by 800']
            for x, y in ((0, 0), (LAST, LAST)):
                refusal = self.refused(vektrid.Field, 16, shown, lambda: region.position(x, y, field))
                self.assertEqual((refusal.holder, refusal.named), (None, None))
        largest = vektrid.Region(0, 0, 1000000, 1000000)
        self.refused(vektrid.Field, 16, [LAST], lambda: largest.position(0, 0, (LAST, LAST)))  # it does not wrap

    def test_10_to_16_files(self):
        wrong = dict(left=-1000001, top=5, width=6, height=7, count=4097)  # all different, so that the message must name each rightly
        for kind, number, link, values, file in [
                (vektrid.Level, 2, (0, 0), ['level = 33'], head(1, 33) + record(0)),
                (vektrid.RegionLimits, 10, (0, 1), ['record 1', 'width = 0'], head(1, 2) + record(0, width=0)),
                (vektrid.RegionLimits, 10, (3, 2), ['record 2', 'left = -1000001', 'top = 5', 'width = 6', 'height = 7'],
                 head(3, 2) + record(0) + record(9, **wrong) + record(2)),
                (vektrid.FileLength, 11, (0, 0), [40], EXAMPLE[:40]),
                (vektrid.FileLength, 11, (0, 0), [0], b''),
                (vektrid.FileLength, 11, (0, 0), [65568], head(0, 1) + bytes(65536)),
                (vektrid.ReservedBytes, 12, (0, 0), ['byte 16', 'is 1'], head(1, 2, (0, 0), b'\1' + bytes(15)) + record(0)),
                (vektrid.ReservedBytes, 12, (0, 0), ['byte 31', 'is 9'], head(1, 2, (200, 100), bytes(15) + b'\x09') + record(0)),
                (vektrid.MissingRecord, 13, (1, 5), ['record 1', 'record 5', 'file is 1'], head(1, 2) + record(5)),
                (vektrid.MissingRecord, 13, (0, 2), ['record 0', 'record 2', 'file is 1'], head(2, 2) + record(0)),
                (vektrid.MissingRecord, 13, (0, LAST), ['record 0', LAST, 'file is 0'], head(LAST, 2)),
                (vektrid.ChainReturns, 14, (1, 1), ['record 1 names record 1'], head(1, 2) + record(1)),
                (vektrid.ChainReturns, 14, (3, 2), ['record 3 names record 2'], head(1, 2) + record(2) + record(3) + record(2)),
                (vektrid.VisitCount, 15, (0, 1), ['record 1', 4097], head(1, 2) + record(0, count=4097)),
                (vektrid.VisitCount, 15, (2, 1), ['record 1', LAST], head(2, 2) + record(9, count=LAST) + record(1)),
                (vektrid.Field, 16, (0, 1), ['record 1', 'the field is 1001 by 0', 'the region 1000 by 800'], head(1, 2, (1001, 0)) + record(0)),
                (vektrid.Field, 16, (0, 1), ['record 1', 'the field is 1 by 801', 'the region 1000 by 800'], head(1, 2, (1, 801)) + record(0)),
                (vektrid.Field, 16, (0, 1), ['record 1', LAST], head(1, 2, (LAST, LAST)) + record(0)),
                (vektrid.Field, 16, (3, 2), ['record 2', 'the field is 70 by 60', 'the region 69 by 600'],
                 head(3, 2, (70, 60)) + record(0) + record(9, width=69, height=600) + record(2))]:
            with self.subTest(number=number, file=file[:96]):
                for call in (vektrid.judge, vektrid.visits, vektrid.sheet_pages):  # at the call, not at the first visit or page
                    refusal = self.refused(kind, number, values, lambda: call(file))
                    self.assertEqual((refusal.holder, refusal.named), link)
                    copied = pickle.loads(pickle.dumps(refusal))
                    self.assertEqual((copied.holder, copied.named), link)
                for text in (vektrid.listing, vektrid.sheet):
                    self.assertEqual(text(file), f'refused {number}\n')

    # every call that takes flips
    TAKING_FLIPS = [lambda flips: STANDARD.point(5, flips=flips), lambda flips: STANDARD.point_singles(5, flips=flips),
                    lambda flips: vektrid.standard_point(5, flips=flips), lambda flips: STANDARD.fill(5, 3, flips=flips),
                    lambda flips: STANDARD.fill(5, (array.array('I', [7]), array.array('I', [7])), flips=flips),
                    lambda flips: next(STANDARD.walk(5, 3, flips=flips)), lambda flips: next(STANDARD.walk_singles(5, 3, flips=flips)),
                    lambda flips: STANDARD.query(32, 4, 2, 3, 1, 0, flips=flips), lambda flips: STANDARD.overview(32, 4, 2, [3], [1], flips=flips),
                    lambda flips: STANDARD.overview(32, 4, 2, [], [], flips=flips)]

    def test_17_flip_bytes(self):
        bit_255 = bytes(31) + b'\x80'  # which would be refused too, but after the lengths of both axes
        for x, y in [(31, 32), (32, 31), (33, 32), (32, 33), (0, 32), (32, 0), (0, 0), (31, 33), (64, 32), (256, 256)]:
            for call in self.TAKING_FLIPS:
                self.refused(vektrid.FlipBytes, 17, [f'x are {x}', f'y {y}'], lambda: call((bytes(x), bytes(y))))
        for x, y in [(bit_255, NONE[1:]), (NONE[1:], bit_255), (bit_255[1:], NONE), (NONE, bit_255 + b'\x80')]:
            for call in self.TAKING_FLIPS:
                self.refused(vektrid.FlipBytes, 17, [len(x), len(y)], lambda: call((x, y)))

    def test_18_flip_bit(self):
        for x, y in [(128, 0), (0, 128), (128, 128), (255, 127), (127, 200)]:
            for call in self.TAKING_FLIPS:
                self.refused(vektrid.FlipBit, 18, [f'{x} for x', f'{y} for y'], lambda: call((MOST[:31] + bytes([x]), NONE[:31] + bytes([y]))))
        for call in self.TAKING_FLIPS:
            call((MOST, MOST))  # every other flip bit may be set

    def test_no_link_without_a_file(self):
        for kind, number, call in ((vektrid.Level, 2, lambda: STANDARD.check(33)), (vektrid.RegionLimits, 10, lambda: vektrid.Region(0, 0, 0, 1))):
            refusal = self.refused(kind, number, [], call)
            self.assertEqual((refusal.holder, refusal.named), (None, None))

    def test_one_class_for_each_number(self):
        self.assertEqual(sorted(kind.number for kind in vektrid.Refusal.__subclasses__()), list(range(1, 19)))
        self.assertTrue(issubclass(vektrid.Refusal, ValueError))

    def test_message(self):
        for kind, given, message in [
                (vektrid.Shape, dict(m=2, a=3), 'refusal 5: a is above m: a = 3, m = 2'),
                (vektrid.MissingRecord, dict(holder=1, named=5, last=1),
                 'refusal 13: the chain names a record that the file lacks: record 1 names record 5, and the last record of the file is 1'),
                (vektrid.Field, dict(where='record 1: ', field_width=1001, field_height=0, width=1000, height=800),
                 "refusal 16: the reader's field is wider or taller than a region: record 1: the field is 1001 by 0 micrometres (0 counts as 1), "
                 'and the region 1000 by 800'),
                (vektrid.FlipBytes, dict(bytes_x=31, bytes_y=32),
                 'refusal 17: the flips of an axis are not 32 bytes: those of x are 31 and those of y 32'),
                (vektrid.FlipBit, dict(last_x=0, last_y=128),
                 'refusal 18: flip bit 255 of an axis is set: byte 31 is 0 for x and 128 for y; below 128 is needed')]:
            self.assertEqual(str(kind(**given)), message)
        with unittest.mock.patch.object(vektrid.Shape, 'details', ''):  # nothing behind the words where there are no values
            self.assertEqual(str(vektrid.Shape()), 'refusal 5: a is above m')

    def test_number_unknown(self):
        with self.assertRaisesRegex(RuntimeError, '99'):
            vektrid._accept(99)


class RefusalOrder(unittest.TestCase):
    """Where several refusals apply, the first in the call's order is given."""

    BIT_SET, SHORT = (NONE, bytes(31) + b'\x80'), (bytes(31), bytes(31) + b'\x80')  # flips that are refused under 18, and under 17

    def number(self, call, *given, **flips):
        with self.assertRaises(vektrid.Refusal) as caught:
            call(*given, **flips)
        return caught.exception.number

    def test_query(self):
        # from the last test to the first: each line makes one thing more wrong
        for number, given in [(3, (32, 4, 2, 0, 0, 0)), (7, (32, 4, 2, 0, 0, 2**28)), (6, (32, 4, 2, 4, 0, 2**28)), (5, (32, 4, 5, 4, 0, 2**28)),
                              (4, (3, 4, 5, 4, 0, 2**28)), (2, (0, 4, 5, 4, 0, 2**28))]:
            self.assertEqual(self.number(IDENTITIES.query, *given), number)
            for refused, flips in ((18, self.BIT_SET), (17, self.SHORT)):
                self.assertEqual(self.number(IDENTITIES.query, *given, flips=flips), 2 if number == 2 else refused)

    def test_overview(self):
        # from the last test to the first, as above; a cell outside comes before the block only where it is the first
        far, later = [4, 0], [0, 4]
        for number, given in [(3, (32, 4, 2, [0, 0], [0, 0], 0)), (3, (32, 4, 2, later, [0, 0], 0)), (7, (32, 4, 2, later, later, 2**28)),
                              (6, (32, 4, 2, far, [0, 0], 0)), (6, (32, 4, 2, far, [0, 0], 2**28)), (5, (32, 4, 5, far, far, 2**28)),
                              (4, (3, 4, 5, far, far, 2**28)), (2, (0, 4, 5, far, far, 2**28)), (8, (0, 4, 5, far, [4], 2**28)),
                              (3, (32, 4, 2, [], [], 0)), (7, (32, 4, 2, [], [], 2**28)), (5, (32, 4, 5, [], [], 2**28)),
                              (4, (3, 4, 5, [], [], 2**28)), (2, (0, 4, 5, [], [], 2**28))]:
            self.assertEqual(self.number(IDENTITIES.overview, *given), number)
            for refused, flips in ((18, self.BIT_SET), (17, self.SHORT)):
                self.assertEqual(self.number(IDENTITIES.overview, *given, flips=flips), number if number in (2, 8) else refused)
        self.assertEqual(self.number(STANDARD.overview, 32, 4, 2, later, [0, 0]), 6)

    def test_check(self):
        self.assertEqual(self.number(IDENTITIES.check, 33), 2)

    def test_fill(self):
        two, three = array.array('I', 2 * [7]), array.array('I', 3 * [7])
        for number, into, flips in [(9, 2, None), (9, (two, two[:]), None), (8, (two, three), None), (18, (two, three), self.BIT_SET),
                                    (18, (two, two[:]), self.BIT_SET), (18, 2, self.BIT_SET), (18, 2**64 - 1, self.BIT_SET),
                                    (17, (two, three), self.SHORT), (17, (two, two[:]), self.SHORT), (17, 2, self.SHORT)]:
            self.assertEqual(self.number(STANDARD.fill, LAST, into, flips=flips), number)
        self.assertEqual((list(two), list(three)), (2 * [7], 3 * [7]))

    def test_walk(self):
        # the flips are judged by a step and not by the opening, also where the walk has ended; the walk stays as it was
        for number, flips in ((18, self.BIT_SET), (17, self.SHORT)):
            self.assertEqual(self.number(STANDARD.walk, LAST, 2, flips=flips), 9)
            for start, count in ((6, 3), (6, 0), (LAST, 1), (LAST, 0)):
                walk = STANDARD.walk(start, count, flips=flips)
                for step in (walk.step, walk.step_singles, lambda: next(walk)):
                    self.assertEqual(self.number(step), number)
                    self.assertEqual((walk.next, walk.left), (start, count))

    def test_position(self):
        region = vektrid.Region(0, 0, 10, 10)
        for number, place in [(16, region), (10, region._replace(left=1000001)), (10, region._replace(width=0))]:
            self.assertEqual(self.number(place.position, 0, 0, (11, 11)), number)

    def test_file(self):
        wide, used = (1001, 1), b'\1' + bytes(15)
        wrong = dict(width=0, count=4097)
        for number, file in [(15, head(1, 2) + record(9, count=4097)), (16, head(1, 2, wide) + record(9, count=4097)),
                             (10, head(1, 2, wide) + record(9, **wrong)), (13, head(1, 2) + record(9)),
                             (14, head(1, 2) + record(2) + record(1) + record(0, **wrong)), (13, head(9, 2, wide) + record(1, **wrong)),
                             (12, head(9, 2, wide, used)), (2, head(9, 0, wide, used)), (11, head(9, 0, wide, used) + b'x')]:
            self.assertEqual(self.number(vektrid.judge, file), number)


# ---- known points of the requirements, and wrong turns


class KnownPoints(unittest.TestCase):

    def test_points(self):
        for index, x, y in [(0, 0, 0), (1, 0x80000000, 0x80000000), (2, 0x40000000, 0xC0000000), (3, 0xC0000000, 0x40000000),
                            (5, 0xA0000000, 0x20000000)]:
            self.assertEqual(STANDARD.point(index), (x, y))
            self.assertEqual(vektrid.standard_point(index), (x, y))

    def test_queries(self):
        self.assertEqual(STANDARD.query(32, 2, 1, 1, 0, 0), 3)
        self.assertEqual(STANDARD.query(32, 2, 1, 1, 0, 1), 5)
        self.assertEqual(STANDARD.query(32, 2, 1, 1, 0, 0, shift=(0x80000000, 0)), 0)
        for block in (0, 5, LAST):
            self.assertEqual(STANDARD.query(1, 0, 0, 0, 0, block), block)

    def test_overviews(self):
        # block 0 row by row, as the README draws it
        for a, drawn in ((2, [0, 10, 5, 15, 12, 6, 9, 3, 4, 14, 1, 11, 8, 2, 13, 7]), (3, [0, 12, 10, 6, 9, 5, 3, 15, 8, 4, 2, 14, 1, 13, 11, 7])):
            columns, rows = [place % 2**a for place in range(16)], [place >> a for place in range(16)]
            self.assertEqual(STANDARD.overview(4, 4, a, columns, rows), drawn)

    def test_all_zero_pair(self):
        with self.assertRaises(vektrid.NotNet) as caught:
            vektrid.Pair(64 * [0]).check(1)
        self.assertEqual((caught.exception.m, caught.exception.a, caught.exception.j), (1, 0, 1))

    def test_single_bits(self):
        for word, bits in [(1, 0x2F800000), (LAST, 0x3F7FFFFF), (0, 0)]:
            self.assertEqual(struct.pack('<f', vektrid.single(word)), struct.pack('<I', bits))

    def test_accepted_at_the_limit(self):
        self.assertEqual(STANDARD.query(32, 4, 2, 0, 0, 268435455) >> 4, 268435455)
        self.assertEqual(STANDARD.fill(LAST, 1), ([STANDARD.point(LAST).x], [STANDARD.point(LAST).y]))
        self.assertEqual(len(list(vektrid.visits(head(1, 2) + record(0, count=4096)))), 4096)

    def test_standard_pair(self):
        self.assertEqual(list(STANDARD.words), standard_words())
        self.assertEqual(STANDARD.words[32:36], (0x80000000, 0xC0000000, 0xA0000000, 0xF0000000))
        self.assertIsNone(STANDARD.check(32))
        self.assertIsNone(SWAPPED.check(32))


class WrongTurns(unittest.TestCase):
    """Mistakes that lie near at hand, each with a case that shows it."""

    def test_only_square_shapes_checked(self):
        # X without its column 1: the square (2, 1) is sound, and the strips of (2, 2) are not
        words = list(STANDARD.words)
        words[1] = 0
        with self.assertRaises(vektrid.NotNet) as caught:
            vektrid.Pair(words).check(2)
        self.assertEqual((caught.exception.m, caught.exception.a, caught.exception.j), (2, 2, 2))

    def test_base_of_block_added_to_the_plain_answer(self):
        self.assertEqual(STANDARD.query(32, 2, 1, 1, 0, 1), 5)
        self.assertEqual(cell_of(STANDARD.point(7), 2, 1), (1, 1))

    def test_single_rounded_to_nearest(self):
        self.assertLess(vektrid.single(0x7FFFFFFF), 0.5)
        self.assertEqual(struct.unpack('<f', struct.pack('<f', 0x7FFFFFFF / 2**32))[0], 0.5)  # which rounding would have given

    def test_leading_one_of_word_1_dropped(self):
        self.assertEqual(vektrid.single(1), 2.0**-32)

    def test_signed_sum_cut_toward_zero(self):
        self.assertEqual(vektrid.Region(-1, 0, 3, 1).position(0x40000000, 0), (-1, 0))

    def test_field_past_the_right_edge(self):
        # the example of C-12: 600 right of the edge, and not 750; and for the largest word the field ends where the region does
        region = vektrid.Region(-500, 0, 1000, 800)
        self.assertEqual(region.position(0xC0000000, 0, field=(200, 1)), (100, 0))
        self.assertEqual(region.position(LAST, LAST, field=(200, 100)), (-500 + 1000 - 200, 800 - 100))


# ---- points, fills, walks, queries against the definitions


class Points(unittest.TestCase):

    def test_against_the_definition(self):
        chosen = random.Random(1)
        other = vektrid.Pair([chosen.getrandbits(32) for _ in range(64)])
        for index in [0, 1, 0x80000000, LAST] + [chosen.getrandbits(32) for _ in range(200)]:
            for scramble in SCRAMBLES:
                for pair in (STANDARD, other):
                    self.assertEqual(pair.point(index, **scramble), point_of(pair.words, index, **scramble))
                self.assertEqual(vektrid.standard_point(index, **scramble), point_of(STANDARD.words, index, **scramble))

    def test_singles(self):
        for index in (0, 1, 2, 77, LAST):
            for scramble in SCRAMBLES:
                x, y = STANDARD.point(index, **scramble)
                self.assertEqual(STANDARD.point_singles(index, **scramble), (vektrid.single(x), vektrid.single(y)))

    def test_pair_is_a_value(self):
        words = list(STANDARD.words)
        pair = vektrid.Pair(words)
        words[0] = 0
        self.assertEqual(pair.words, STANDARD.words)
        self.assertEqual((pair, hash(pair)), (STANDARD, hash(STANDARD)))
        self.assertNotEqual(pair, vektrid.Pair(words))
        self.assertEqual(pickle.loads(pickle.dumps(pair)), pair)
        self.assertEqual(eval(repr(pair), {'Pair': vektrid.Pair}), pair)


class Fills(unittest.TestCase):

    def test_against_points(self):
        starts = [(start, count) for start in (0, 1, 3, 7, 255, 65535, 2**31 - 1) for count in (0, 1, 2, 3, 5, 31, 64, 129)]
        starts += [(2**32 - back, count) for back in (1, 2, 3, 17, 130) for count in (1, 2, 3, 17, 130) if count <= back]
        for start, count in starts:
            for pair in (STANDARD, IDENTITIES):
                for scramble in (SHIFTED, FLIPPED):
                    xs, ys = pair.fill(start, count, **scramble)
                    self.assertEqual(list(zip(xs, ys)), [point_of(pair.words, start + place, **scramble) for place in range(count)])
                    self.assertEqual((type(xs), len(xs), len(ys)), (list, count, count))

    def test_in_place(self):
        for make in (lambda: array.array('I', 9 * [1]), lambda: (ctypes.c_uint32 * 9)(*9 * [1]), lambda: memoryview(bytearray(36)).cast('I')):
            for scramble in ({}, FLIPPED):
                xs, ys = make(), make()
                given = STANDARD.fill(5, (xs, ys), **scramble)
                self.assertIs(given[0], xs)
                self.assertIs(given[1], ys)
                self.assertEqual([list(xs), list(ys)], list(STANDARD.fill(5, 9, **scramble)))

    def test_array_may_grow_again(self):
        xs, ys = array.array('I', [0]), array.array('I', [0])
        STANDARD.fill(1, [xs, ys])
        xs.append(3)
        self.assertEqual(list(xs), [0x80000000, 3])

    def test_part_of_a_buffer(self):
        words = array.array('I', 12 * [7])
        view = memoryview(words)
        STANDARD.fill(0, (view[1:5], view[5:9]))  # neighbours, and nothing else is written
        self.assertEqual(list(words), [7] + STANDARD.fill(0, 4)[0] + STANDARD.fill(0, 4)[1] + 3 * [7])

    def test_length_0(self):
        xs, ys = array.array('I'), array.array('I')
        STANDARD.fill(LAST, (xs, ys))
        STANDARD.fill(0, (xs, xs))
        STANDARD.fill(0, ((ctypes.c_uint32 * 0)(), ys))
        self.assertEqual((len(xs), len(ys), STANDARD.fill(LAST, 0)), (0, 0, ([], [])))
        with self.assertRaises(vektrid.BufferLengths):
            STANDARD.fill(0, (xs, array.array('I', [7])))

    def test_numpy_asked_for_and_missing(self):
        with unittest.mock.patch.dict(sys.modules, {'numpy': None}):
            self.assertRaises(ImportError, STANDARD.fill, 0, 3, numpy=True)


class LentBuffers(unittest.TestCase):
    """What is no buffer of words never reaches the library, and the other buffer keeps its content."""

    def refused(self, error, message, wrong):
        for place in range(2):
            good = array.array('I', 4 * [7])
            with self.assertRaisesRegex(error, message) as caught:
                STANDARD.fill(0, (wrong, good) if place == 0 else (good, wrong))
            self.assertNotIsInstance(caught.exception, vektrid.Refusal)
            self.assertIn(('xs', 'ys')[place], str(caught.exception))
            self.assertEqual(list(good), 4 * [7])

    def test_no_buffers(self):
        for wrong in ([1, 2, 3, 4], (1, 2, 3, 4), 'four', None, 4):
            self.refused(TypeError, 'is needed', wrong)
        for wrong in ((), (array.array('I'),), 3 * (array.array('I'),), 'four'):
            with self.assertRaisesRegex(TypeError, 'count, or two buffers'):
                STANDARD.fill(0, wrong)

    def test_other_items(self):
        for code in 'bBhHifdqQ':
            self.refused(TypeError, 'not 32-bit unsigned', array.array(code, 4 * [7]))
        for kind in (ctypes.c_int32, ctypes.c_float, ctypes.c_uint64, ctypes.c_uint8, ctypes.c_uint32.__ctype_be__):
            if kind is not ctypes.c_uint32:
                self.refused(TypeError, 'not 32-bit unsigned', (kind * 4)())
        self.refused(TypeError, 'not 32-bit unsigned', ctypes.pointer(ctypes.c_uint32()))
        self.refused(TypeError, 'not 32-bit unsigned', b'sixteen bytes...')

    def test_not_writeable(self):
        held = array.array('I', 4 * [7])
        self.refused(TypeError, 'not writeable', memoryview(held).toreadonly())
        self.refused(TypeError, 'not writeable', memoryview(bytes(16)).cast('I'))
        self.assertEqual(list(held), 4 * [7])

    def test_not_contiguous(self):
        held = array.array('I', 8 * [7])
        self.refused(TypeError, 'contiguous', memoryview(held)[::2])
        self.refused(TypeError, 'contiguous', memoryview(held)[::-1])
        self.refused(TypeError, 'one-dimensional', memoryview(bytearray(16)).cast('I', (2, 2)))
        self.refused(TypeError, 'one-dimensional', ctypes.c_uint32())
        self.refused(TypeError, 'one-dimensional', ((ctypes.c_uint32 * 2) * 2)())
        self.assertEqual(list(held), 8 * [7])

    def test_not_aligned(self):
        held = bytearray(18)
        self.refused(TypeError, 'not aligned', memoryview(held)[1:17].cast('I'))
        self.assertEqual(held, bytes(18))

    def test_overlapping(self):
        words = array.array('I', 8 * [7])
        view = memoryview(words)
        for xs, ys in [(words, words), (view[0:4], view[3:7]), (view[3:7], view[0:4]), (view[0:8], view[2:4]), (view[0:4], view[0:5]), (view, words)]:
            with self.assertRaisesRegex(ValueError, 'overlap') as caught:
                STANDARD.fill(0, (xs, ys))
            self.assertNotIsInstance(caught.exception, vektrid.Refusal)
        self.assertEqual(list(words), 8 * [7])


class Walks(unittest.TestCase):

    def test_to_the_end_and_beyond(self):
        for scramble in (SHIFTED, FLIPPED):
            walk = STANDARD.walk(6, 3, **scramble)
            for taken in range(3):
                self.assertEqual((walk.next, walk.left), (6 + taken, 3 - taken))
                self.assertEqual(walk.step(), (6 + taken,) + STANDARD.point(6 + taken, **scramble))
            for _ in range(3):
                self.assertIsNone(walk.step())
                self.assertIsNone(walk.step_singles())
                self.assertEqual((walk.next, walk.left), (9, 0))
                self.assertRaises(StopIteration, next, walk)

    def test_to_the_last_index(self):
        walk = STANDARD.walk(2**32 - 3, 3)
        self.assertEqual([visit.index for visit in walk], [2**32 - 3, 2**32 - 2, LAST])
        self.assertEqual((walk.next, walk.left), (LAST, 0))
        self.assertIsNone(walk.step())

    def test_the_whole_sequence_may_be_opened(self):
        walk = STANDARD.walk(0, 2**32)
        self.assertEqual((walk.next, walk.left), (0, 2**32))
        self.assertEqual(next(walk), (0, 0, 0))
        self.assertEqual((walk.next, walk.left), (1, LAST))
        for start, count in ((0, 2**32 + 1), (1, 2**32), (LAST, 2**64 - 1)):
            self.assertRaises(vektrid.IndexRange, STANDARD.walk, start, count)

    def test_none_to_visit(self):
        for start in (0, 7, LAST):
            walk = STANDARD.walk(start, 0)
            self.assertEqual((list(walk), walk.next, walk.left), ([], start, 0))

    def test_singles(self):
        for scramble in (SHIFTED, FLIPPED):
            for visit, word_visit in zip(STANDARD.walk_singles(1, 40, **scramble), STANDARD.walk(1, 40, **scramble)):
                self.assertEqual(visit, (word_visit.index, vektrid.single(word_visit.x), vektrid.single(word_visit.y)))
                self.assertIsInstance(visit, vektrid.SinglesVisit)
        self.assertEqual(len(list(STANDARD.walk_singles(1, 40))), 40)

    def test_resumed(self):
        walk = STANDARD.walk(10, 5)
        first = [next(walk), next(walk)]
        again = STANDARD.walk(walk.next, walk.left)
        self.assertEqual(first + list(again), list(STANDARD.walk(10, 5)))
        self.assertEqual(repr(walk), '<Walk next=12 left=3>')


class Queries(unittest.TestCase):

    def test_every_cell_of_every_small_shape(self):
        for pair in (STANDARD, SWAPPED):
            for m in range(6):
                for block in (0, 1, 5, 2**(32 - m) - 1):
                    for scramble in SCRAMBLES:
                        indexes = range(block << m, (block + 1) << m)
                        points = [point_of(pair.words, index, **scramble) for index in indexes]
                        self.every_cell(pair, m, block, scramble, indexes, points)

    def every_cell(self, pair, m, block, scramble, indexes, points):
        for a in range(m + 1):
            there = {cell_of(point, m, a): index for point, index in zip(points, indexes)}
            self.assertEqual(len(there), 2**m)  # one visit in every cell
            for column in range(2**a):
                for row in range(2**(m - a)):
                    self.assertEqual(pair.query(5, m, a, column, row, block, **scramble), there[column, row])

    def test_large_shapes(self):
        chosen = random.Random(2)
        for m in (17, 31, 32):
            for a in (0, 1, m // 2, m):
                column, row, block = chosen.randrange(2**a), chosen.randrange(2**(m - a)), chosen.randrange(2**(32 - m))
                for scramble in (SHIFTED, FLIPPED):
                    index = STANDARD.query(32, m, a, column, row, block, **scramble)
                    self.assertEqual(index >> m, block)
                    self.assertEqual(cell_of(point_of(STANDARD.words, index, **scramble), m, a), (column, row))

    def test_linear_matrix_scramble_passes(self):
        # what docs/SCRAMBLING.md says of them: both matrices times a lower triangular one with ones on its diagonal are as good a pair
        chosen, words = random.Random(17), []
        for columns in (STANDARD.words[:32], STANDARD.words[32:]):
            triangle = [2**(31 - row) | chosen.randrange(2**row) << 32 - row for row in range(32)]
            words += [sum(bin(column & entries).count('1') % 2 << 31 - row for row, entries in enumerate(triangle)) for column in columns]
        self.assertNotEqual(tuple(words), STANDARD.words)
        self.assertIsNone(vektrid.Pair(words).check(32))

    def test_check_against_all_visits(self):
        # the standard pair with a few bits turned over: the first bad shape is found by looking at every visit
        chosen, passed = random.Random(3), 0
        for _ in range(150):
            words = list(STANDARD.words)
            for _ in range(chosen.randrange(1, 4)):
                words[32 * chosen.randrange(2) + chosen.randrange(6)] ^= 2**(31 - chosen.randrange(6))
            bad, pair = first_bad(words, 5), vektrid.Pair(words)
            if bad is None:
                passed += 1
                self.assertIsNone(pair.check(5))
                continue
            with self.assertRaises(vektrid.NotNet) as caught:
                pair.check(5)
            self.assertEqual((caught.exception.m, caught.exception.a, caught.exception.j), bad)
            for scramble in (SHIFTED, FLIPPED):
                with self.assertRaises(vektrid.NotNet) as caught:
                    pair.query(32, *bad[:2], 0, 0, 0, **scramble)
                self.assertEqual((caught.exception.m, caught.exception.a, caught.exception.j), bad)
        self.assertTrue(10 < passed < 140, passed)  # both answers have been seen


class Overviews(unittest.TestCase):

    BUFFERS = [lambda words: array.array('I', words), lambda words: (ctypes.c_uint32 * len(words))(*words),
               lambda words: memoryview(array.array('I', words)), lambda words: memoryview(array.array('I', words).tobytes()).cast('I')]
    LISTS = [list, tuple, iter, lambda words: (word for word in words)]

    def cells(self, m, a):
        """The columns and the rows of all cells of a shape."""
        both = [(column, row) for column in range(2**a) for row in range(2**(m - a))]
        return [column for column, _ in both], [row for _, row in both]

    def test_single_queries(self):
        for pair in (STANDARD, SWAPPED):
            for m in range(6):
                for a in range(m + 1):
                    columns, rows = self.cells(m, a)
                    for block, scramble in ((0, {}), (5, SHIFTED), (2**(32 - m) - 1, SCRAMBLES[3]), (5, FLIPPED)):
                        single = [pair.query(32, m, a, *cell, block, **scramble) for cell in zip(columns, rows)]
                        self.assertEqual(pair.overview(32, m, a, columns, rows, block, **scramble), single)
                        self.assertEqual(pair.overview(m or 1, m, a, columns=columns, rows=rows, block=block, **scramble), single)
                        self.assertEqual(sorted(single), list(range(block << m, (block + 1) << m)))

    def test_large_shapes(self):
        chosen = random.Random(6)
        for m in (17, 31, 32):
            for a in (0, 1, m // 2, m):
                columns, rows = ([chosen.randrange(2**bits) for _ in range(300)] for bits in (a, m - a))
                block = chosen.randrange(2**(32 - m))
                for scramble in (SHIFTED, FLIPPED):
                    indexes = STANDARD.overview(32, m, a, columns, rows, block, **scramble)
                    self.assertEqual({index >> m for index in indexes}, {block})
                    points = [point_of(STANDARD.words, index, **scramble) for index in indexes]
                    self.assertEqual([cell_of(point, m, a) for point in points], list(zip(columns, rows)))

    def test_kinds(self):
        columns, rows = self.cells(4, 2)
        expected = STANDARD.overview(32, 4, 2, columns, rows, 7)
        for make_columns in self.BUFFERS + self.LISTS:
            for make_rows in self.BUFFERS + self.LISTS:
                given = STANDARD.overview(32, 4, 2, make_columns(columns), make_rows(rows), 7)
                self.assertEqual(list(given), expected)
                self.assertIs(type(given), list if make_columns in self.LISTS and make_rows in self.LISTS else array.array)
        self.assertEqual(STANDARD.overview(32, 4, 2, array.array('I', columns), array.array('I', rows), 7), array.array('I', expected))
        self.assertEqual(STANDARD.overview(32, 4, 2, range(4), 4 * (1,)), [STANDARD.query(32, 4, 2, column, 1, 0) for column in range(4)])

    def test_cells_more_than_once(self):
        self.assertEqual(STANDARD.overview(32, 4, 2, [3, 3, 0, 3], [1, 1, 0, 1]), [3, 3, 0, 3])
        diagonal = array.array('I', range(4))
        self.assertEqual(list(STANDARD.overview(32, 4, 2, diagonal, diagonal)), [0, 6, 1, 7])

    def test_no_cells(self):
        for make in self.BUFFERS[:3] + self.LISTS:  # an empty view of bytes cannot be cast
            given = STANDARD.overview(32, 4, 2, make([]), make([]))
            self.assertEqual((list(given), type(given)), ([], list if make in self.LISTS else array.array))

    def test_input_is_not_changed(self):
        columns, rows = array.array('I', [3, 1]), [1, 0]
        given = STANDARD.overview(32, 4, 2, columns, rows)
        self.assertRaises(vektrid.Cell, STANDARD.overview, 32, 4, 2, columns, [1, 4])
        self.assertEqual((list(columns), rows, list(given)), ([3, 1], [1, 0], [3, 10]))
        columns.append(7)  # nothing holds the arrays any longer
        given.append(7)
        self.assertEqual((list(columns), list(given)), ([3, 1, 7], [3, 10, 7]))

    def test_parts_of_a_buffer(self):
        words = memoryview(array.array('I', [3, 1, 0, 0, 2, 3]))  # columns and rows in turn
        self.assertEqual(list(STANDARD.overview(32, 4, 2, words[::2], words[1::2])), [3, 0, STANDARD.query(32, 4, 2, 2, 3, 0)])
        self.assertEqual(list(STANDARD.overview(32, 4, 2, words[::-2], words[-2::-2])), STANDARD.overview(32, 4, 2, [3, 0, 1], [2, 0, 3]))
        held = bytearray(1) + words.tobytes()
        self.assertEqual(STANDARD.overview(32, 4, 2, memoryview(held)[1:].cast('I'), [0] * 6), STANDARD.overview(32, 4, 2, words, [0] * 6))

    def refused(self, error, message, wrong):
        for place in range(2):
            with self.assertRaisesRegex(error, message) as caught:
                STANDARD.overview(32, 4, 2, *((wrong, 4 * [0]) if place == 0 else (4 * [0], wrong)))
            self.assertNotIsInstance(caught.exception, vektrid.Refusal)
            self.assertIn(('columns', 'rows')[place], str(caught.exception))

    def test_no_words(self):
        for code in 'bBhHifdqQ':
            self.refused(TypeError, f'items of type {code}, not 32-bit unsigned', array.array(code, 4 * [0]))
        for kind in (ctypes.c_int32, ctypes.c_uint64, ctypes.c_uint32.__ctype_be__):
            if kind is not ctypes.c_uint32:
                self.refused(TypeError, 'not 32-bit unsigned', (kind * 4)())
        for wrong in (bytes(16), bytearray(16), memoryview(bytes(16))):
            self.refused(TypeError, 'items of type B, not 32-bit unsigned', wrong)
        self.refused(TypeError, 'not one-dimensional', memoryview(bytearray(16)).cast('I', (2, 2)))
        self.refused(TypeError, 'not one-dimensional', ctypes.c_uint32())

    def test_no_list(self):
        for wrong in (None, 4, 4.5, STANDARD):
            self.refused(TypeError, f'is a {type(wrong).__name__}; a list of whole numbers or a buffer .* is needed', wrong)
        self.refused(TypeError, r"\[0\] = 'f' is no whole number", 'four')
        self.refused(TypeError, r'\[2\] = 0.0 is no whole number', [0, 0, 0.0, 0])
        self.refused(ValueError, r'\[3\] = 4294967296 does not fit', (0, 0, 0, 2**32))
        self.refused(ValueError, r'\[1\] = -1 does not fit', range(0, -4, -1))


# ---- flips


class Flips(unittest.TestCase):
    """What is theirs alone; the tests above go by SCRAMBLES, which have flips too."""

    def with_bits(self, *numbers):
        """The flips of an axis with these flip bits set."""
        return sum(2**number for number in numbers).to_bytes(32, 'little')

    def test_leading_bits_before_any_flip(self):
        # flip bit 0 turns the first bit of each, and flip bit 2 the second bit of those whose first bit was one before it was turned
        known = [(0x00000000, 0x80000000), (0x40000000, 0xC0000000), (0x80000000, 0x40000000), (0xC0000000, 0x00000000)]
        for index, (product, expected) in zip((0, 2, 1, 3), known):
            self.assertEqual(STANDARD.point(index).x, product)
            self.assertEqual(STANDARD.point(index, flips=(self.with_bits(0, 2), NONE)).x, expected)

    def test_flips_come_before_the_shift(self):
        self.assertEqual(STANDARD.point(1, (0x80000001, 0x00000010), flips=(self.with_bits(2), self.with_bits(1, 6))), (0x40000001, 0x80000010))

    def test_each_flip_bit_alone(self):
        # of the 256 strips that the first indexes visit, those that begin with p change, in bit t; deeper bits pass
        xs, ys = STANDARD.fill(2**31, 256, SHIFTS[2])
        for t in range(8):
            for p in range(2**t):
                flips = self.with_bits(2**t - 1 + p)
                for words, axis, given in ((xs, 0, (flips, NONE)), (ys, 1, (NONE, flips))):
                    begins = p ^ SHIFTS[2][axis] >> 32 - t  # as the strip is numbered after the shift
                    expected = [word ^ 2**(31 - t) if word >> 32 - t == begins else word for word in words]
                    self.assertEqual(STANDARD.fill(2**31, 256, SHIFTS[2], flips=given)[axis], expected)
                    self.assertEqual(STANDARD.fill(2**31, 256, SHIFTS[2], flips=given)[1 - axis], (xs, ys)[1 - axis])

    def test_without_flips_as_before(self):
        for none in (None, (NONE, NONE), [bytearray(32), memoryview(NONE)]):
            for shift in SHIFTS:
                self.assertEqual(STANDARD.point(77, shift, flips=none), STANDARD.point(77, shift))
                self.assertEqual(STANDARD.point_singles(77, shift, flips=none), STANDARD.point_singles(77, shift))
                self.assertEqual(vektrid.standard_point(77, shift, flips=none), STANDARD.point(77, shift))
                self.assertEqual(STANDARD.fill(77, 9, shift, flips=none), STANDARD.fill(77, 9, shift))
                self.assertEqual(list(STANDARD.walk(77, 9, shift, flips=none)), list(STANDARD.walk(77, 9, shift)))
                self.assertEqual(list(STANDARD.walk_singles(77, 9, shift, flips=none)), list(STANDARD.walk_singles(77, 9, shift)))
                self.assertEqual(STANDARD.query(32, 9, 4, 3, 30, 7, shift, flips=none), STANDARD.query(32, 9, 4, 3, 30, 7, shift))
                self.assertEqual(STANDARD.overview(32, 9, 4, [3], [30], 7, shift, flips=none), STANDARD.overview(32, 9, 4, [3], [30], 7, shift))

    def test_every_cell_around_the_depth(self):
        # each cell of each shape holds one visit of the block, which the overview names, with fewer bits than are flipped and with more
        for seed, (m, block) in enumerate([(3, 2**29 - 1), (7, 0), (8, 5), (9, 2**23 - 1), (10, 77)]):
            scramble = vektrid.random_scramble(seed)
            for pair in (STANDARD, SWAPPED):
                indexes = range(block << m, (block + 1) << m)
                points = [point_of(pair.words, index, **scramble) for index in indexes]
                for a in range(m + 1):
                    there = {cell_of(point, m, a): index for point, index in zip(points, indexes)}
                    self.assertEqual(len(there), 2**m)
                    columns, rows = zip(*there)
                    self.assertEqual(pair.overview(m, m, a, columns, rows, block, **scramble), list(there.values()))
                    column, row = columns[seed], rows[seed]
                    self.assertEqual(pair.query(m, m, a, column, row, block, **scramble), there[column, row])

    def test_relation_to_the_plain_run_needs_no_flips(self):
        # by added bits, column c would have the visit of column c xor u of the plain run, u being the column of the first visit
        flips = self.with_bits(1), NONE  # columns 0 and 1 of four change places, and columns 2 and 3 stay
        overview = STANDARD.overview(32, 2, 2, range(4), 4 * [0], flips=flips)
        self.assertEqual(overview, [2, 0, 1, 3])
        first = STANDARD.point(0, flips=flips).x >> 30
        self.assertNotEqual(overview, STANDARD.overview(32, 2, 2, [column ^ first for column in range(4)], 4 * [0]))

    def test_any_buffers_of_bytes(self):
        x, y = FLIPPED['flips']
        expected = STANDARD.point(77, flips=(x, y))
        kinds = [bytes, bytearray, memoryview, lambda each: array.array('B', each), lambda each: (ctypes.c_uint8 * 32)(*each),
                 lambda each: memoryview(each[::-1])[::-1], lambda each: array.array('b', array.array('B', each).tobytes())]
        for make_x in kinds:
            for make_y in kinds:
                self.assertEqual(STANDARD.point(77, flips=(make_x(x), make_y(y))), expected)
        self.assertEqual(STANDARD.point(77, flips=iter([x, y])), expected)

    def test_len_of_a_subclass_is_not_believed(self):
        class Otherwise(bytes):
            def __len__(self):
                return 32
        self.assertRaises(vektrid.FlipBytes, STANDARD.point, 0, flips=(Otherwise(bytes(31)), NONE))

    def test_no_bytes(self):
        for wrong in (0, 'flips', NONE, 64 * b'a', (), (NONE,), 3 * (NONE,), vektrid.random_scramble):
            for call in RefusalTable.TAKING_FLIPS:
                with self.assertRaisesRegex(TypeError, f'flips is a {type(wrong).__name__}, and not the bytes of two axes'):
                    call(wrong)
        for wrong, said in [(32, 'a int'), (None, 'a NoneType'), (32 * [0], 'a list'), (32 * 'a', 'a str'), (array.array('H', 16 * [0]), 'type H'),
                            (array.array('I', 8 * [0]), 'type I'), ((ctypes.c_bool * 32)(), r'type <?\?')]:
            for axis, flips in (('x', (wrong, NONE)), ('y', (NONE, wrong)), ('x', (wrong, wrong))):
                for call in RefusalTable.TAKING_FLIPS:
                    self.assertRaisesRegex(TypeError, f'flips {axis} (is|has items of) {said}; its content is needed as bytes', call, flips)
        self.assertRaisesRegex(TypeError, 'flips x is a str', STANDARD.point, 0, flips=vektrid.random_scramble(0))  # without its asterisks

    def test_only_by_name(self):
        for call, given in [(STANDARD.point, (0,)), (STANDARD.point_singles, (0,)), (vektrid.standard_point, (0,)), (STANDARD.walk, (0, 1)),
                            (STANDARD.walk_singles, (0, 1)), (STANDARD.query, (32, 2, 1, 1, 0, 0)), (STANDARD.overview, (32, 2, 1, [1], [0], 0))]:
            call(*given, (0, 0), flips=(NONE, NONE))
            self.assertRaises(TypeError, call, *given, (0, 0), (NONE, NONE))
        self.assertRaises(TypeError, STANDARD.fill, 0, 1, (0, 0), False, (NONE, NONE))  # the fourth has long been numpy

    def test_changed_while_walked(self):
        flips = bytearray(MOST), bytearray(MOST)
        walk = STANDARD.walk(5, 3, flips=flips)
        for each in flips:
            each[:] = bytes(40)
        self.assertEqual(list(walk), list(STANDARD.walk(5, 3, flips=(MOST, MOST))))


class RandomScrambles(unittest.TestCase):

    def test_known_scrambles(self):
        # as rust/reference has them; the last would have flip bit 255 of both axes set
        for seed, shift, x, y in [
                (0, (0x7B1DCDAF, 0xE220A839), 'f465b9a16a9e786e4f450980185dc406ec814c72a8b88bf89b74a8516a89391b',
                 'eaa27e740c9fcb53e132451fbe9a822c3cab16c93a1384c5c38ac9419078e53e'),
                (1, (0x89025CC1, 0x910A2DEC), '67ec8e65a18debbe5e5532fbeea293f80bc942ee9086c171b9b501d1d854bb71',
                 '80021590ff0b4dc3a53c36d76cec99e0758527120fbbe785a83d7e35de181749'),
                (2**64 - 1, (0x1B652C20, 0xE4D97177), 'c982f6db67f89fe9e98172b24cf82f38d282a9cb6cb31d6dae6980572e47a034',
                 '33bb38a4bdad1dd3a53f0802f82c4ff164809ea338a45d40840c6e1508a7fe44')]:
            expected = dict(shift=shift, flips=(bytes.fromhex(x), bytes.fromhex(y)))
            self.assertEqual(vektrid.random_scramble(seed), expected)

    def test_published_numbers(self):
        # the first five numbers of SplitMix64 from 1234567, as they are published with other programs of it
        numbers = [6457827717110365317, 3203168211198807973, 9817491932198370423, 4593380528125082431, 16408922859458223821]
        scramble = vektrid.random_scramble(1234567)
        self.assertEqual(scramble['shift'], (numbers[0] % 2**32, numbers[0] // 2**32))
        self.assertEqual(scramble['flips'][0], struct.pack('<4Q', *numbers[1:4], numbers[4] % 2**63))

    def test_accepted_and_handed_on(self):
        for seed in range(100):
            scramble = vektrid.random_scramble(seed)
            self.assertEqual(STANDARD.point(seed, **scramble), point_of(STANDARD.words, seed, **scramble))
            scramble['flips'] = None  # the caller's own: the next one is made anew
            self.assertNotEqual(vektrid.random_scramble(seed), scramble)


# ---- counts that stop anywhere


class Counts(unittest.TestCase):
    """How many of n consecutive visits a cell holds. docs/COUNTS.md has tables of the bounds."""

    def counted(self, n, m, a, start, pair=STANDARD, **scramble):
        """The number of visits of each cell that has any, as a fill gives them."""
        return collections.Counter(cell_of(point, m, a) for point in zip(*pair.fill(start, n, **scramble)))

    def test_formulas(self):
        for m in range(33):
            for n in (*range(1, 70), 2**m, min(2**m + 1, 2**32), 2**32 - 1, 2**32):
                least, most = math.floor(Fraction(n + 1, 2**m)) - 1, math.ceil(Fraction(n - 1, 2**m)) + 1
                self.assertEqual(vektrid.count_bounds(n, m), (max(least, 0), most), (n, m))

    def test_blocks_from_a_start(self):
        for m in range(4):
            blocks = [range(k * 2**m, (k + 1) * 2**m) for k in range(40)]
            for start in range(20):
                for n in range(1, 20):
                    seen = set(range(start, start + n))
                    among, touched = sum(seen.issuperset(block) for block in blocks), sum(not seen.isdisjoint(block) for block in blocks)
                    self.assertEqual(vektrid.count_bounds(n, m, start=start), (among, touched), (n, m, start))

    def test_one_cell_holds_all(self):
        for n in (1, 2, 50, 4096, 2**32):
            self.assertEqual(vektrid.count_bounds(n, 0), (n, n))
            self.assertEqual(vektrid.count_bounds(n, 0, start=2**32 - n), (n, n))

    def test_both_bounds_are_met(self):
        for n, (m, a), bounds, met in [(50, (4, 0), (2, 5), [(1, (0, 0), 2), (463, (0, 12), 5)]),
                                       (64, (4, 2), (3, 5), [(1, (0, 0), 3), (1, (0, 2), 5)]),
                                       (50, (6, 3), (0, 2), [(0, (0, 5), 0), (15, (0, 5), 2)])]:
            self.assertEqual(vektrid.count_bounds(n, m), bounds)
            for start, cell, count in met:
                self.assertEqual(self.counted(n, m, a, start)[cell], count, (n, m, a, start, cell))

    def test_not_every_shape_meets_them(self):
        self.assertEqual(max(max(self.counted(50, 4, 2, start).values()) for start in range(256)), 4)

    def test_no_cell_leaves_them(self):
        for pair, scramble in [(STANDARD, {}), (STANDARD, SHIFTED), (SWAPPED, SCRAMBLES[3]), (STANDARD, FLIPPED)]:
            for start, n in [(0, 50), (1, 64), (463, 50), (1000, 300), (LAST - 98, 99)]:
                for m in range(9):
                    for a in range(m + 1):
                        counted = self.counted(n, m, a, start, pair, **scramble)
                        smallest = min(counted.values()) if len(counted) == 2**m else 0
                        for least, most in (vektrid.count_bounds(n, m), vektrid.count_bounds(n, m, start=start)):
                            self.assertTrue(least <= smallest and max(counted.values()) <= most, (scramble, start, n, m, a))

    def test_arguments(self):
        for name, call, low, high in [('n', lambda value: vektrid.count_bounds(value, 4), 1, 2**32),
                                      ('m', lambda value: vektrid.count_bounds(50, value), 0, 32),
                                      ('start', lambda value: vektrid.count_bounds(1, 4, start=value), 0, LAST)]:
            for value in (low, high):
                self.assertIsInstance(call(value), vektrid.CountBounds)
            for value in (low - 1, high + 1, 10**5000):
                self.assertRaisesRegex(ValueError, f'{name} = .* does not fit: a whole number from {low} to {high} is needed', call, value)
            for value in (True, 1.0, '1', Fraction(1)):
                self.assertRaisesRegex(TypeError, f'{name} = ', call, value)
        self.assertRaises(TypeError, vektrid.count_bounds, None, 4)
        self.assertRaises(TypeError, vektrid.count_bounds, 50, 4, 0)  # the start only by its name

    def test_range_past_the_last_index(self):
        self.assertRaisesRegex(vektrid.IndexRange, r'start = 4294967295, count = 2\b', vektrid.count_bounds, 2, 4, start=LAST)


# ---- unit numbers and positions


class UnitNumbers(unittest.TestCase):

    def words(self):
        chosen = random.Random(4)
        near = [2**power + by for power in range(33) for by in (-2, -1, 0, 1, 2)]
        spread = [chosen.getrandbits(32) >> chosen.randrange(32) for _ in range(2000)]
        return [word for word in near + spread if 0 <= word <= LAST]

    def test_double_is_exact(self):
        for word in self.words():
            self.assertEqual(Fraction(vektrid.double(word)), Fraction(word, 2**32))

    def test_single_is_the_largest_not_above(self):
        for word in self.words():
            bits = struct.unpack('<I', struct.pack('<f', vektrid.single(word)))[0]
            here, above = (Fraction(struct.unpack('<f', struct.pack('<I', each))[0]) for each in (bits, bits + 1))
            self.assertEqual(Fraction(vektrid.single(word)), here)  # the float is that single, and not something between
            self.assertLessEqual(here, Fraction(word, 2**32))
            self.assertLess(Fraction(word, 2**32), above)

    def test_single_falls_short_by_less_than_the_bound_and_keeps_its_strip(self):
        for word in self.words():
            zeros, value = 32 - word.bit_length(), Fraction(vektrid.single(word))
            short = word - value * 2**32
            self.assertTrue(short < 2**(8 - zeros) if zeros < 8 else short == 0, word)
            self.assertEqual(math.floor(value * 2**24), word >> 8)


class Positions(unittest.TestCase):

    def test_floor(self):
        chosen = random.Random(5)
        regions = [(-1000000, 1000000, 1000000, 1), (1000000, -1000000, 1, 1000000), (-1, -3, 3, 7)]
        regions += [[chosen.randint(-10**6, 10**6) for _ in range(2)] + [chosen.randint(1, 10**6) for _ in range(2)] for _ in range(50)]
        for left, top, width, height in regions:
            for x, y in [(0, 0), (LAST, LAST)] + [(chosen.getrandbits(32), chosen.getrandbits(32)) for _ in range(10)]:
                at = vektrid.Region(left, top, width, height).position(x, y)
                self.assertEqual(at, (left + math.floor(Fraction(x * width, 2**32)), top + math.floor(Fraction(y * height, 2**32))))
                for field in [(0, 0), (1, 1), (width, height), (chosen.randint(1, width), chosen.randint(1, height))]:
                    at = vektrid.Region(left, top, width, height).position(x, y, field)
                    self.assertEqual(at, (place_of(left, width, field[0], x), place_of(top, height, field[1], y)))

    def test_whole_field_lies_in_the_region(self):
        region = vektrid.Region(-7, 3, 21, 13)
        for width in range(1, 22):
            for height in range(1, 14):
                first, last = (region.position(word, word, (width, height)) for word in (0, LAST))
                self.assertEqual(first, (-7, 3))
                self.assertEqual((last.x + width, last.y + height), (-7 + 21, 3 + 13))  # the last place is used, and none past it
        self.assertEqual(region.position(LAST, LAST, (21, 13)), (-7, 3))  # one place is left, the edge

    def test_field_is_given_as_any_two_numbers(self):
        region = vektrid.Region(-500, 0, 1000, 800)
        expected = region.position(5, LAST, (200, 100))
        self.assertEqual(expected, (-500, 700))
        self.assertEqual(region.position(5, LAST, field=(200, 100)), expected)
        self.assertEqual(region.position(y=LAST, x=5, field=[200, 100]), expected)
        for none in ((0, 0), (0, 1), (1, 0), (1, 1)):
            self.assertEqual(region.position(LAST, LAST, none), region.position(LAST, LAST))

    def test_position_lies_in_its_column_but_for_the_rounding(self):
        # what docs/EXAMPLE.md says of clicks: left of the column by less than 1, never right of it, and inside where the columns are whole
        left_of_it = 0
        for width, field_width in ((1, 1), (3, 1), (1000, 1), (1001, 1), (1024, 1), (1024, 400), (1423, 400), (400, 400)):
            region, span = vektrid.Region(-500, 0, width, 1), width - field_width + 1
            for a in (0, 1, 3, 6):
                for column in range(2**a):
                    edges = [Fraction(each * span, 2**a) - 500 for each in (column, column + 1)]
                    for word in (column << (32 - a), ((column + 1) << (32 - a)) - 1):  # the first and the last of the column
                        at = region.position(word, 0, (field_width, 1)).x
                        self.assertTrue(edges[0] - 1 < at < edges[1])
                        self.assertTrue(edges[0] <= at or span % 2**a)
                        left_of_it += at < edges[0]
        self.assertGreater(left_of_it, 0)

    def test_click(self):
        # each whole place for the corner of a field: its column and row name a cell, and that cell's visit lies in it
        region, field, m, a, shift = vektrid.Region(-7, 3, 21, 13), (4, 3), 5, 2, SHIFTS[2]
        span_x, span_y = region.width - field[0] + 1, region.height - field[1] + 1
        for x in range(-7, -7 + span_x):
            for y in range(3, 3 + span_y):
                column, row = (x - region.left) * 2**a // span_x, (y - region.top) * 2**(m - a) // span_y
                point = STANDARD.point(STANDARD.query(32, m, a, column, row, 0, shift), shift)
                self.assertTrue(column * span_x <= (x - region.left) * 2**a < (column + 1) * span_x)
                self.assertEqual(cell_of(point, m, a), (column, row))
                at = region.position(*point, field)
                self.assertTrue(column * span_x < (at.x - region.left + 1) * 2**a and (at.x - region.left) * 2**a < (column + 1) * span_x)

    def test_click_where_no_corner_can_stand(self):
        # in the last F - 1 micrometres a field would reach past the edge: the column is one that the shape lacks
        region, m, a = vektrid.Region(-7, 3, 21, 13), 5, 2
        span_x = region.width - 4 + 1
        for x in range(-7 + span_x, 14):
            with self.assertRaises(vektrid.Cell):
                STANDARD.query(32, m, a, (x - region.left) * 2**a // span_x, 0, 0)

    def test_region_is_a_value(self):
        region = vektrid.Region(left=-500, top=0, width=1000, height=800)
        self.assertEqual((region, region.width), ((-500, 0, 1000, 800), 1000))
        with self.assertRaises(vektrid.RegionLimits):
            region._replace(width=0).position(0, 0)  # however a region was made, the library judges it
        with self.assertRaisesRegex(ValueError, 'width = -1'):
            region._replace(width=-1).position(0, 0)


# ---- region files


class RegionFiles(unittest.TestCase):

    TEXTS = [(vektrid.listing, vektrid.listing_pieces), (vektrid.sheet, vektrid.sheet_pieces)]

    def test_example(self):
        self.assertIsNone(vektrid.judge(EXAMPLE))
        self.assertEqual(vektrid.listing(EXAMPLE), EXAMPLE_LISTING)
        self.assertEqual(list(vektrid.visits(EXAMPLE)), [(1, 0, -500, 0), (1, 1, 0, 400), (1, 2, -250, 600), (1, 3, 250, 200)])
        self.assertEqual(next(vektrid.visits(EXAMPLE))._fields, ('record', 'index', 'x', 'y'))

    def test_samples(self):
        samples = sorted(glob.glob(os.path.join(ROOT, 'samples', '*.region')))
        self.assertGreater(len(samples), 5)
        for path in samples:
            with open(path, 'rb') as file, open(path.replace('.region', '.listing'), encoding='ascii') as stored:
                self.assertEqual(vektrid.listing(file.read()), stored.read(), path)

    def longest(self):
        """A file of 65,536 bytes with a chain of three records, numbers of every length, and all else off the chain."""
        chain = {1: record(2047, -1000000, -1000000, 1, 1, LAST, LAST, 300), 2047: record(9, 999999, -7, 1000000, 999999, 0x12345678, 5, 1100),
                 9: record(0, 0, 0, 10, 10, count=0)}
        return head(1, 32) + b''.join(chain.get(number, b'\xff' * 32) for number in range(1, 2048))

    def test_visits_are_the_listing(self):
        for file in (EXAMPLE, head(0, 1), self.longest()):
            lines = vektrid.listing(file).splitlines()
            self.assertEqual(lines[0], 'record visit x y')
            self.assertEqual([' '.join(map(str, visit)) for visit in vektrid.visits(file)], lines[1:])
        self.assertEqual(len(lines), 1 + 300 + 1100)

    def test_visits_are_positions_of_standard_points(self):
        region = vektrid.Region(999999, -7, 1000000, 999999)
        visits = [visit for visit in vektrid.visits(self.longest()) if visit.record == 2047]
        self.assertEqual(len(visits), 1100)
        for visit in visits:
            self.assertEqual(visit[2:], region.position(*vektrid.standard_point(visit.index, (0x12345678, 5))))

    def test_field_of_a_file(self):
        record_1, record_2 = record(2, count=40), record(0, 2000, -75, 640, 480, LAST, 0x12345678, 30)
        for field in ((1, 1), (0, 150), (200, 0), (200, 150), (640, 480)):
            file, expected = head(1, 2, field) + record_1 + record_2, []
            for index in range(40):
                x, y = point_of(STANDARD.words, index)
                expected.append((1, index, place_of(-500, 1000, field[0], x), place_of(0, 800, field[1], y)))
            for index in range(30):
                x, y = point_of(STANDARD.words, index, (LAST, 0x12345678))
                expected.append((2, index, place_of(2000, 640, field[0], x), place_of(-75, 480, field[1], y)))
            self.assertEqual(list(vektrid.visits(file)), expected)
            self.assertEqual(vektrid.listing(file), 'record visit x y\n' + ''.join('%d %d %d %d\n' % visit for visit in expected))
            self.assertEqual(list(vektrid.sheet_pages(file)), pages_of(expected))

    def test_field_of_0_counts_as_1(self):
        for field in ((0, 1), (1, 0), (1, 1)):
            self.assertEqual(vektrid.listing(head(1, 2, field) + record(0)), EXAMPLE_LISTING)
            self.assertEqual(vektrid.sheet(head(1, 2, field) + record(0)), EXAMPLE_SHEET)

    def test_field_as_large_as_the_region(self):
        self.assertEqual({visit[2:] for visit in vektrid.visits(head(1, 2, (1000, 800)) + record(0, count=100))}, {(-500, 0)})

    def test_field_of_a_file_without_records(self):
        for field in ((LAST, LAST), (1000001, 0), (0, 1000001)):
            file = head(0, 1, field)
            self.assertIsNone(vektrid.judge(file))
            self.assertEqual(vektrid.listing(file), 'record visit x y\n')
            self.assertEqual(vektrid.listing(file + record(0)), 'record visit x y\n')  # a record off the chain is not judged

    def test_pieces(self):
        for file in (EXAMPLE, head(0, 1), EXAMPLE[:40], self.longest()):
            for text, in_pieces in self.TEXTS:
                for room in (46, 47, 64, 100, 1000, 65536):
                    pieces = list(in_pieces(file, room))
                    self.assertEqual(b''.join(pieces).decode(), text(file))
                    self.assertTrue(all(0 < len(piece) <= room and piece.endswith(b'\n') for piece in pieces))
        for _, in_pieces in self.TEXTS:
            self.assertRaisesRegex(ValueError, 'room = 45', in_pieces, EXAMPLE, 45)

    def test_any_buffer_of_bytes(self):
        for file in (bytearray(EXAMPLE), memoryview(EXAMPLE), array.array('B', EXAMPLE), memoryview(bytes(2) + EXAMPLE)[2:]):
            self.assertEqual(vektrid.listing(file), EXAMPLE_LISTING)
            self.assertEqual(vektrid.sheet(file), EXAMPLE_SHEET)
        for wrong in ('text', 64, None, [0] * 32, array.array('I', 16 * [0])):
            for call in (vektrid.judge, vektrid.visits, vektrid.listing, vektrid.listing_pieces, vektrid.sheet, vektrid.sheet_pieces,
                         vektrid.sheet_pages):
                self.assertRaisesRegex(TypeError, 'bytes', call, wrong)

    def test_len_of_a_subclass_is_not_believed(self):
        class Otherwise(bytes):
            def __len__(self):
                return 40
        self.assertEqual(vektrid.listing(Otherwise(EXAMPLE)), EXAMPLE_LISTING)
        self.assertEqual(list(vektrid.sheet_pages(Otherwise(EXAMPLE))), [EXAMPLE_SHEET])

    def test_changed_while_listed(self):
        file = bytearray(EXAMPLE)
        visits, pieces, pages = vektrid.visits(file), vektrid.listing_pieces(file, 46), vektrid.sheet_pages(file)
        file[:] = bytes(64)
        self.assertEqual(len(list(visits)), 4)
        self.assertEqual(b''.join(pieces).decode(), EXAMPLE_LISTING)
        self.assertEqual(list(pages), [EXAMPLE_SHEET])

    def test_sheet_of_the_example(self):
        self.assertEqual(EXAMPLE_SHEET.splitlines()[:5], [' rec  vis        x        y', '   1    0     -500        0', '   1    1        0      400',
                                                          '   1    2     -250      600', '   1    3      250      200'])
        self.assertEqual(vektrid.sheet(EXAMPLE), EXAMPLE_SHEET)
        self.assertEqual(list(vektrid.sheet_pages(EXAMPLE)), [EXAMPLE_SHEET])

    def many_visits(self):
        """Files with so many visits that pages are empty, short of one, full, or one too many; the last two have visits of several records."""
        yield from ((count, head(1, 2) + record(0, count=count)) for count in (0, 1, 47, 48, 49, 95, 96, 97, 4096))
        yield 0, head(0, 2)
        yield 49, head(1, 2) + record(2, count=40) + record(3, count=0) + record(0, count=9)
        yield 1400, self.longest()

    def test_sheet_pages(self):
        for count, file in self.many_visits():
            visits, pages = list(vektrid.visits(file)), list(vektrid.sheet_pages(file))
            self.assertEqual(len(visits), count)
            self.assertEqual(pages, pages_of(visits))
            self.assertEqual(''.join(pages), vektrid.sheet(file))
            self.assertEqual(len(pages), max(1, math.ceil(count / 48)))
            self.assertTrue(all([len(line) for line in page.split('\n')] == 50 * [27] + [0] for page in pages))

    def test_sheet_reads_back(self):
        for _, file in self.many_visits():
            self.assertEqual(read_back(vektrid.sheet(file)), vektrid.listing(file))


# ---- numbers that do not fit


class Arguments(unittest.TestCase):
    """No argument is cut or rounded on its way to the library."""

    REGION = vektrid.Region(-500, 0, 1000, 800)
    QUERY = dict(level=32, m=2, a=1, column=1, row=0, block=0)
    WORDS = [('level', STANDARD.check), ('index', STANDARD.point), ('index', STANDARD.point_singles), ('index', vektrid.standard_point),
             ('start', lambda value: STANDARD.fill(value, 1)), ('start', lambda value: STANDARD.walk(value, 1)),
             ('shift x', lambda value: STANDARD.point(0, (value, 0))), ('shift y', lambda value: STANDARD.walk(0, 1, (0, value))),
             ('shift x', lambda value: STANDARD.fill(0, 1, (value, 0))), ('shift y', lambda value: vektrid.standard_point(0, (0, value))),
             ('shift x', lambda value: STANDARD.query(32, 2, 1, 1, 0, 0, (value, 0))), ('word', vektrid.double), ('word', vektrid.single),
             ('words[3]', lambda value: vektrid.Pair(3 * [0] + [value] + 60 * [0])),
             ('x', lambda value: Arguments.REGION.position(value, 0)), ('y', lambda value: Arguments.REGION.position(0, value)),
             ('field width', lambda value: Arguments.REGION.position(0, 0, (value, 1))),
             ('field height', lambda value: Arguments.REGION.position(0, 0, field=(1, value))),
             ('width', lambda value: vektrid.Region(0, 0, value, 1)), ('height', lambda value: vektrid.Region(0, 0, 1, value)),
             ('room', lambda value: vektrid.listing_pieces(EXAMPLE, value)), ('room', lambda value: vektrid.sheet_pieces(EXAMPLE, value))]
    WORDS += [(name, lambda value, name=name: STANDARD.query(**{**Arguments.QUERY, name: value})) for name in QUERY]
    WORDS += [(name, lambda value, name=name: STANDARD.overview(columns=[1], rows=[0], **{**dict(level=32, m=2, a=1, block=0), name: value}))
              for name in ('level', 'm', 'a', 'block')]
    WORDS += [('columns[1]', lambda value: STANDARD.overview(32, 2, 1, [0, value], [0, 0])),
              ('rows[0]', lambda value: STANDARD.overview(32, 2, 1, [0, 0], [value, 0])),
              ('shift y', lambda value: STANDARD.overview(32, 2, 1, [0], [0], shift=(0, value)))]
    EDGES = [('left', lambda value: vektrid.Region(value, 0, 1, 1)), ('top', lambda value: vektrid.Region(0, value, 1, 1))]
    COUNTS = [('count', lambda value: STANDARD.fill(0, value)), ('count', lambda value: STANDARD.walk(0, value)),
              ('count', lambda value: STANDARD.walk_singles(0, value)), ('seed', vektrid.random_scramble)]

    def test_no_whole_number(self):
        for name, call in self.WORDS + self.EDGES + self.COUNTS:
            for value in (True, False, 1.0, 1.5, '1', None, Fraction(1), float('nan')):
                with self.subTest(name=name, value=value), self.assertRaisesRegex(TypeError, re.escape(name)):
                    call(value)

    def test_out_of_range(self):
        for calls, low, high in ((self.WORDS, 0, LAST), (self.EDGES, -2**31, 2**31 - 1), (self.COUNTS, 0, 2**64 - 1)):
            for name, call in calls:
                for value in (low - 1, high + 1, low - 2**32, high + 2**64, 10**5000, -10**5000):
                    with self.subTest(name=name, value=value if abs(value) < 2**70 else 'long'), self.assertRaises(ValueError) as caught:
                        call(value)
                    self.assertNotIsInstance(caught.exception, vektrid.Refusal)
                    self.assertIn(f'{name} = ', str(caught.exception))
                    self.assertIn(str(high), str(caught.exception))

    def test_shift_is_two_words(self):
        for shift in (0, (), (1,), (1, 2, 3), None):
            self.assertRaisesRegex(TypeError, 'shift', STANDARD.point, 0, shift)

    def test_field_is_two_numbers(self):
        for field in (0, 1, (), (1,), (1, 2, 3), None):
            self.assertRaisesRegex(TypeError, 'field', self.REGION.position, 0, 0, field)

    def test_whole_numbers_of_other_types(self):
        class Three:
            def __index__(self):
                return 3
        self.assertEqual(STANDARD.point(Three(), shift=[0, 0]), STANDARD.point(3))
        self.assertEqual(STANDARD.fill(0, Three()), STANDARD.fill(0, 3))
        self.assertEqual(self.REGION.position(LAST, 0, (Three(), Three())), self.REGION.position(LAST, 0, (3, 3)))


# ---- numpy


@unittest.skipIf(numpy is None, 'numpy is not installed: its tests are skipped')
class Numpy(unittest.TestCase):

    def test_in_place(self):
        xs, ys = numpy.full(101, 7, dtype=numpy.uint32), numpy.full(101, 7, dtype=numpy.uint32)
        addresses = xs.ctypes.data, ys.ctypes.data
        given = STANDARD.fill(2**32 - 101, (xs, ys), SHIFTS[2])
        self.assertIs(given[0], xs)
        self.assertEqual((xs.ctypes.data, ys.ctypes.data), addresses)
        self.assertEqual([xs.tolist(), ys.tolist()], list(STANDARD.fill(2**32 - 101, 101, SHIFTS[2])))

    def test_rows_of_one_array(self):
        both = numpy.zeros((2, 8), dtype=numpy.uint32)
        STANDARD.fill(0, both)
        self.assertEqual(both.tolist(), list(STANDARD.fill(0, 8)))
        part = numpy.full(10, 7, dtype=numpy.uint32)
        STANDARD.fill(0, (part[1:4], part[4:7]))
        self.assertEqual(part.tolist(), [7] + STANDARD.fill(0, 3)[0] + STANDARD.fill(0, 3)[1] + [7, 7, 7])

    def test_new_arrays(self):
        xs, ys = STANDARD.fill(3, 50, SHIFTS[2], numpy=True)
        self.assertEqual((xs.dtype, ys.dtype, xs.shape), (numpy.uint32, numpy.uint32, (50,)))
        self.assertEqual([xs.tolist(), ys.tolist()], list(STANDARD.fill(3, 50, SHIFTS[2])))
        self.assertEqual(len(STANDARD.fill(0, 0, numpy=True)[0]), 0)

    def test_refused_arrays(self):
        good, words = numpy.full(4, 7, dtype=numpy.uint32), numpy.full(16, 7, dtype=numpy.uint32)
        frozen = words[:4].copy()
        frozen.flags.writeable = False
        misaligned = numpy.frombuffer(bytearray(17), dtype=numpy.uint8)[1:].view(numpy.uint32)
        wrong = [(kind, 'not 32-bit unsigned') for kind in (words.astype(kind)[:4] for kind in ('i4', 'f4', 'u8', 'i8', 'f8', '>u4', 'u1', 'O'))]
        wrong += [(words[::4], 'contiguous'), (words[:4][::-1], 'contiguous'), (words.reshape(4, 4), 'one-dimensional'), (frozen, 'not writeable'),
                  (misaligned, 'not aligned'), (numpy.zeros(4, 'M8[s]'), 'is needed'), (numpy.uint32(7), 'one-dimensional|writeable')]
        for array_given, message in wrong:
            with self.subTest(message=message), self.assertRaisesRegex(TypeError, message):
                STANDARD.fill(0, (array_given, good))
            with self.subTest(message=message), self.assertRaisesRegex(TypeError, message):
                STANDARD.fill(0, (good, array_given))
        self.assertEqual(good.tolist() + words.tolist(), 20 * [7])

    def test_refusals_leave_arrays(self):
        words = numpy.full(9, 7, dtype=numpy.uint32)
        self.assertRaises(vektrid.BufferLengths, STANDARD.fill, 0, (words[:4], words[4:]))
        self.assertRaises(vektrid.IndexRange, STANDARD.fill, LAST, (words[:4], words[4:8]))
        self.assertRaisesRegex(ValueError, 'overlap', STANDARD.fill, 0, (words[:4], words[3:7]))
        self.assertEqual(words.tolist(), 9 * [7])

    def test_overview(self):
        cells = numpy.array([[3, 1], [0, 0], [2, 3]], dtype=numpy.uint32)
        expected = [STANDARD.query(32, 4, 2, int(column), int(row), 7, SHIFTS[2]) for column, row in cells]
        columns, rows = cells[:, 0].copy(), cells[:, 1].copy()
        asked = [(columns, rows), (cells[:, 0], cells[:, 1]), (columns, rows.tolist()), (columns.tolist(), rows), (array.array('I', columns), rows)]
        for given in asked:
            indexes = STANDARD.overview(32, 4, 2, *given, 7, SHIFTS[2])
            self.assertIsInstance(indexes, numpy.ndarray)
            self.assertEqual((indexes.dtype, indexes.tolist()), (numpy.uint32, expected))
        indexes[0] = 7  # the answers are the caller's
        columns.flags.writeable = False
        self.assertEqual(STANDARD.overview(32, 4, 2, columns, rows, 7, SHIFTS[2]).tolist(), expected)
        self.assertEqual(cells.tolist(), [[3, 1], [0, 0], [2, 3]])
        self.assertEqual(STANDARD.overview(32, 4, 2, columns[:0], columns[:0]).shape, (0,))
        self.assertEqual(STANDARD.overview(32, 4, 2, [numpy.uint32(3)], [numpy.int64(1)]), [3])

    def test_refused_overviews(self):
        words = numpy.zeros(4, dtype=numpy.uint32)
        wrong = [(words.astype(kind), 'not 32-bit unsigned') for kind in ('i4', 'f4', 'u8', 'i8', 'f8', '>u4', 'u1', 'O', '?')]
        wrong += [(each, 'not one-dimensional') for each in (words.reshape(2, 2), numpy.uint32(7))]
        wrong += [(numpy.zeros(4, 'M8[s]'), 'no whole number')]
        for given, message in wrong:
            self.assertRaisesRegex(TypeError, f'columns.*{message}', STANDARD.overview, 32, 4, 2, given, words)
            self.assertRaisesRegex(TypeError, f'rows.*{message}', STANDARD.overview, 32, 4, 2, words, given)
        self.assertRaises(vektrid.BufferLengths, STANDARD.overview, 32, 4, 2, words, words[:3])
        with self.assertRaises(vektrid.Cell) as caught:
            STANDARD.overview(32, 4, 2, words, words + numpy.uint32(4))
        self.assertEqual(caught.exception.place, 0)

    def test_flips(self):
        x, y = (numpy.frombuffer(each, dtype=numpy.uint8) for each in FLIPPED['flips'])
        expected = STANDARD.point(77, **FLIPPED)
        for flips in ((x, y), numpy.stack([x, y]), (x.copy()[::-1].copy()[::-1], bytes(y)), (x.reshape(4, 8), y.view(numpy.int8))):
            self.assertEqual(STANDARD.point(77, FLIPPED['shift'], flips=flips), expected)
        xs, ys = STANDARD.fill(512, 512, numpy=True, **FLIPPED)
        self.assertEqual([xs.tolist(), ys.tolist()], list(STANDARD.fill(512, 512, **FLIPPED)))
        self.assertEqual(STANDARD.overview(32, 9, 4, xs >> 28, ys >> 27, 1, **FLIPPED).tolist(), list(range(512, 1024)))
        for wrong in (x.astype(bool), x.astype('u2'), x.view('u4'), x.astype(object), numpy.zeros(32, 'M8[s]')):
            self.assertRaisesRegex(TypeError, 'flips y .* is needed as bytes', STANDARD.point, 77, flips=(x, wrong))
        self.assertRaises(vektrid.FlipBytes, STANDARD.point, 77, flips=numpy.zeros((2, 256), dtype=numpy.uint8))  # a byte for each flip bit
        self.assertRaises(TypeError, STANDARD.point, 77, flips=numpy.zeros(64, dtype=numpy.uint8))
        words = numpy.full(8, 7, dtype=numpy.uint32)
        self.assertRaises(vektrid.FlipBit, STANDARD.fill, 0, (words[:4], words[4:]), flips=(~(x & 0), y))
        self.assertEqual(words.tolist(), 8 * [7])

    def test_numbers(self):
        self.assertEqual(STANDARD.point(numpy.uint32(5), (numpy.uint64(0), numpy.int8(0))), STANDARD.point(5))
        self.assertEqual(vektrid.Pair(numpy.array(STANDARD.words, dtype=numpy.uint32)), STANDARD)
        self.assertRaises(ValueError, STANDARD.point, numpy.int64(-1))
        self.assertRaises(ValueError, STANDARD.point, numpy.uint64(2**32))
        for value in (numpy.float64(1), numpy.bool_(True)):
            self.assertRaises(TypeError, STANDARD.point, value)


# ---- the library and the header


def header():
    with open(os.path.join(ROOT, 'include', 'vektrid.h'), encoding='utf-8') as file:
        return re.sub(r'/\*.*?\*/', '', file.read(), flags=re.S)


class Interface(unittest.TestCase):

    KINDS = {'uint32_t': ctypes.c_uint32, 'uint64_t': ctypes.c_uint64, 'int32_t': ctypes.c_int32, 'size_t': ctypes.c_size_t, 'float': ctypes.c_float,
             'double': ctypes.c_double, 'void': None, 'uint8_t': ctypes.c_uint8}
    STRUCTURES = {'vektrid_file_walk': vektrid._FileWalk, 'vektrid_cursor': vektrid._Cursor, 'vektrid_sheet_cursor': vektrid._SheetCursor}
    KINDS.update(STRUCTURES)

    def kind(self, declared):
        """The ctypes type of a parameter of the header."""
        name = re.sub(r'\bconst\b', '', declared).split()[0]
        if '*' not in declared:
            return self.KINDS[name]
        return ctypes.c_char_p if declared.startswith('const uint8_t') else ctypes.POINTER(self.KINDS[name])

    def test_each_call_of_the_header(self):
        calls = re.findall(r'^(\w+) (vektrid_\w+)\((.*?)\);', header(), flags=re.S | re.M)
        self.assertEqual({name for _, name, _ in calls}, set(vektrid._CALLS))
        for answer, name, parameters in calls:
            call = getattr(vektrid._library, name)
            self.assertIs(call.restype, self.KINDS[answer])
            declared = [each.strip() for each in parameters.split(',') if each != 'void']
            self.assertEqual(call.argtypes, [self.kind(each) for each in declared], name)

    def test_structures(self):
        sizes = dict((name, int(size)) for size, name in re.findall(r'uint32_t words\[(\d+)\];\s*\} (\w+);', header()))
        self.assertEqual(sizes, {name: ctypes.sizeof(kind) // 4 for name, kind in self.STRUCTURES.items()})

    def test_refusals_of_the_header(self):
        named = {name.replace('_', ''): int(number) for name, number in re.findall(r'VEKTRID_(\w+) = (\d+)', header())}
        del named['ACCEPTED']
        named['REGIONLIMITS'] = named.pop('REGION')  # Region is the rectangle here
        self.assertEqual(named, {kind.__name__.upper(): kind.number for kind in vektrid.Refusal.__subclasses__()})

    def test_documented(self):
        for name in vektrid.__all__:
            value = getattr(vektrid, name)
            if inspect.isclass(value) or inspect.isfunction(value):
                self.assertTrue(inspect.getdoc(value), name)
        for kind in (vektrid.Pair, vektrid.Walk, vektrid.Region):
            for name, value in vars(kind).items():
                if not name.startswith('_'):
                    self.assertTrue(inspect.getdoc(value), name)

    def test_example_of_the_module(self):
        tried = doctest.testmod(vektrid)
        self.assertEqual((tried.failed, tried.attempted > 3), (0, True))

    def test_numpy_is_not_imported(self):
        done = self.python('import sys, vektrid; pair = vektrid.Pair.standard(); pair.fill(0, 3); '
                           'pair.overview(32, 2, 1, [0], [0]); print("numpy" in sys.modules)', HERE)
        self.assertEqual(done.stdout, 'False\n')

    def python(self, program, folder, **environment):
        """Runs a program with the vektrid.py of a folder; VEKTRID_LIBRARY is set only if it is given."""
        kept = {name: value for name, value in os.environ.items() if name != 'VEKTRID_LIBRARY'}
        return subprocess.run([sys.executable, '-B', '-c', program], env={**kept, 'PYTHONPATH': folder, **environment}, cwd=folder,
                              stdout=subprocess.PIPE, stderr=subprocess.PIPE, universal_newlines=True)

    def test_where_the_library_is_looked_for(self):
        program = 'import vektrid; print(vektrid.Pair.standard().point(1).x)'
        with tempfile.TemporaryDirectory() as root:
            folder, target = os.path.join(root, 'python'), os.path.join(root, 'target')
            os.mkdir(folder)
            shutil.copy(vektrid.__file__, folder)
            self.assertIn('tools/archive', self.python(program, folder).stderr)
            self.assertEqual(self.python(program, folder, VEKTRID_LIBRARY=vektrid._library._name).stdout, '2147483648\n')
            beside = os.path.join(folder, 'libvektrid.so')
            shutil.copy(vektrid._library._name, beside)
            self.assertEqual(self.python(program, folder).stdout, '2147483648\n')
            self.assertIn('tools/archive', self.python(program, folder, VEKTRID_LIBRARY=os.path.join(root, 'none.so')).stderr)  # not the one beside
            os.mkdir(target)
            shutil.move(beside, target)
            self.assertEqual(self.python(program, folder).stdout, '2147483648\n')

    def test_numbers(self):
        self.assertEqual(re.findall(r'^#define VEKTRID_ABI (\d+)$', header(), flags=re.M), [str(vektrid.ABI)])
        self.assertEqual(vektrid._library.vektrid_abi(), vektrid.ABI)
        with open(os.path.join(ROOT, 'rust', 'vektrid', 'Cargo.toml'), encoding='utf-8') as file:
            self.assertEqual(re.findall(r'^version = "(.*)"$', file.read(), flags=re.M), [vektrid.__version__])

    @unittest.skipUnless(shutil.which('gcc'), 'gcc is not installed: no library of another interface can be made')
    def test_library_of_another_interface(self):
        others = [(f'#include <stdint.h>\nuint32_t vektrid_abi(void) {{ return {number}; }}', f'has interface {number},')
                  for number in (vektrid.ABI - 1, vektrid.ABI + 1)]
        for code, found in others + [('int other(void) { return 1; }', 'has no interface number')]:
            with tempfile.TemporaryDirectory() as folder:
                path = os.path.join(folder, 'other.so')
                subprocess.run(['gcc', '-shared', '-fPIC', '-x', 'c', '-o', path, '-'], input=code, universal_newlines=True, check=True)
                said = self.python('import vektrid', HERE, VEKTRID_LIBRARY=path).stderr.splitlines()[-1]
            self.assertRegex(said, f'^ImportError: .*{re.escape(path)} {found}.* is for interface {vektrid.ABI}: run tools/archive')

    def test_another_library(self):
        for path in (vektrid.__file__, HERE, _ctypes.__file__):  # no library, a folder, and a library without the calls
            done = self.python('import vektrid', HERE, VEKTRID_LIBRARY=path)
            self.assertIn('ImportError', done.stderr)
            self.assertIn('tools/archive', done.stderr)


if __name__ == '__main__':
    if numpy is None:
        print('numpy is not installed: its tests are skipped', file=sys.stderr)
    unittest.main()
