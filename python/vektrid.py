"""Vektrid, the proved visit planner, in Python: points of a (0,2)-sequence and back, stage positions, region files.

Every answer comes from the proved library, target/libvektrid.so (tools/archive makes it; its C interface is include/vektrid.h), but for those of
count_bounds, which is arithmetic by proved bounds, and of random_scramble, which draws numbers. This file only converts: it keeps from the library
what the proofs assume cannot happen (a number that does not fit, a pointer to nothing, buffers that overlap).

A refused call raises the subclass of Refusal for its line of the refusal table (docs/REFUSALS.md), and lent buffers keep their content. A number
that is no whole number raises TypeError, and one that has no place in the library's 32 or 64 bits raises ValueError; nothing is cut or rounded
to fit.

The words of the literature stand first and the planner's own behind in brackets: generator matrices (pair), nested scrambling to depth 8 (flips),
digital shift (shift), elementary interval (cell), cursor (walk). A word is a whole number from 0 to 2^32 - 1; a coordinate word w stands for
w / 2^32. Only the standard library is needed; numpy is used if asked for.

Each call that gives points or looks for them takes a scramble: `shift`, two words, and `flips`, two times 32 bytes, x first. Without them nothing is
shifted or flipped. docs/SCRAMBLING.md says what flips are, and random_scramble(seed) gives both.

>>> import vektrid
>>> pair = vektrid.Pair.standard()
>>> pair.point(5)
Point(x=2684354560, y=536870912)
>>> pair.query(32, 2, 1, column=1, row=0, block=1)
5
>>> pair.point(5, shift=(0x40000000, 0), flips=(bytes([0x21] + 31 * [0]), bytes(32)))
Point(x=1073741824, y=536870912)
>>> vektrid.Region(-500, 0, 1000, 800).position(0x40000000, 0xC0000000)
Position(x=-250, y=600)
>>> vektrid.Region(-500, 0, 1000, 800).position(0x40000000, 0xC0000000, field=(200, 100))
Position(x=-300, y=525)
>>> pair.check(33)
Traceback (most recent call last):
vektrid.Level: refusal 2: a level is not 1 to 32: level = 33
"""
import array
import collections
import ctypes
import itertools
import operator
import os
import struct
import sys
from typing import NamedTuple

__all__ = ['ABI', 'Refusal', 'WordCount', 'Level', 'NotNet', 'Size', 'Shape', 'Cell', 'Block', 'BufferLengths', 'IndexRange', 'RegionLimits',
           'FileLength', 'ReservedBytes', 'MissingRecord', 'ChainReturns', 'VisitCount', 'Field', 'FlipBytes', 'FlipBit', 'Point', 'Singles',
           'Visit', 'SinglesVisit', 'Position', 'FileVisit', 'CountBounds', 'Pair', 'Walk', 'SinglesWalk', 'Region', 'standard_point',
           'random_scramble', 'count_bounds', 'double', 'single', 'judge', 'visits', 'listing', 'listing_pieces', 'sheet', 'sheet_pieces',
           'sheet_pages', 'LARGEST_LEVEL', 'LAST_INDEX', 'LONGEST_LINE']

__version__ = '1.5.0'  # of the bindings; rust/vektrid has the same
ABI = 5  # the number of the interface that this file is written for: VEKTRID_ABI of the header

LARGEST_LEVEL = 32
LAST_INDEX = 2**32 - 1  # and the largest word
LONGEST_LINE = 46  # bytes of the longest line of a listing: a piece of it, or of a sheet, must have room for it
_PAGE = 1400  # bytes of a page of a sheet: 50 lines of 27 columns and a line feed


# ---- refusals: one class for each line of docs/REFUSALS.md, against which tools/refusals holds the number and the words of each


class Refusal(ValueError):
    """A refused call. `number` and `words` are those of its line in the refusal table (docs/REFUSALS.md).

    The message is `refusal`, the number and the words, and then `details`, which names the values that were given; `given` has them.

    Of a refused file, `holder` is the record that holds the link at which the judgement stopped and `named` the number that this link names; both
    are 0 where the refusal concerns no link (FileLength, Level, ReservedBytes). Of any other refused call both are None.
    """
    number = 0
    words = ''
    details = ''  # a format string over the values of `given`

    holder = property(lambda self: self.given.get('holder'), doc='The record that holds the link at which the judgement of a file stopped, or None.')
    named = property(lambda self: self.given.get('named'), doc='The number that this link names, or None.')

    def __init__(self, **given):
        shown = (f'refusal {self.number}', self.words, self.details.format(**given))
        super().__init__(': '.join(part for part in shown if part))
        self.given = given

    def __reduce__(self):  # the message is made of the values, so they are what is pickled
        return _refusal, (self.number, self.given)


class WordCount(Refusal):
    """1: a pair is not 64 words."""
    number = 1
    words = 'a pair is not 64 words'
    details = '{count} were given; 32 columns of X and then 32 of Y are needed'


class Level(Refusal):
    """2: a level is not 1 to 32."""
    number = 2
    words = 'a level is not 1 to 32'
    details = 'level = {level}'


class NotNet(Refusal):
    """3: not a net.

    (m, a) is the shape whose determinant is even; j is the least index above 0 in the cell of index 0.
    """
    number = 3
    words = 'not a net'
    details = 'in the shape (m, a) = ({m}, {a}) the point of index j = {j} shares the cell of index 0'

    m = property(lambda self: self.given['m'], doc='The shape has 2^m cells.')
    a = property(lambda self: self.given['a'], doc='The shape has 2^a columns.')
    j = property(lambda self: self.given['j'], doc='The least index above 0 and below 2^m that shares the cell of index 0.')


class Size(Refusal):
    """4: m is above the level."""
    number = 4
    words = 'm is above the level'
    details = 'm = {m}, level = {level}'


class Shape(Refusal):
    """5: a is above m."""
    number = 5
    words = 'a is above m'
    details = 'a = {a}, m = {m}'


class Cell(Refusal):
    """6: the column or the row is outside the shape.

    The shape (m, a) has 2^a columns and 2^(m-a) rows of elementary intervals (cells), each counted from 0. Of an overview, `place` says where the
    first cell outside stands.
    """
    number = 6
    words = 'the column or the row is outside the shape'
    details = '{where}column = {column}, row = {row}, and the shape (m, a) = ({m}, {a}) has 2^{a} columns and 2^{rest} rows'

    place = property(lambda self: self.given.get('place'), doc='The place in the columns and rows of an overview, from 0 on; None for a query.')


class Block(Refusal):
    """7: the block lies beyond the last index.

    There are 2^(32-m) blocks of 2^m visits, counted from 0.
    """
    number = 7
    words = 'the block lies beyond the last index'
    details = 'block = {block}, and there are 2^{rest} blocks of 2^{m} visits, from 0 on'


class BufferLengths(Refusal):
    """8: two buffers differ in length."""
    number = 8
    words = 'two buffers differ in length'
    details = '{lengths}'


class IndexRange(Refusal):
    """9: start + count is above 2^32.

    The visits would go past the last index.
    """
    number = 9
    words = 'start + count is above 2^32'
    details = 'start = {start}, count = {count}, and the last index is 4294967295'


class RegionLimits(Refusal):
    """10: an edge or an extent of a region is outside its limits."""
    number = 10
    words = 'an edge or an extent of a region is outside its limits'
    details = ('{where}left = {left}, top = {top}, width = {width}, height = {height}; '
               'edges are -1000000 to 1000000 micrometres, width and height 1 to 1000000')


class FileLength(Refusal):
    """11: a file is empty, over 65,536 bytes, or not whole records of 32 bytes."""
    number = 11
    words = 'a file is empty, over 65,536 bytes, or not whole records of 32 bytes'
    details = 'this one has {size} bytes'


class ReservedBytes(Refusal):
    """12: bytes 16 to 31 of record 0 are not all zero."""
    number = 12
    words = 'bytes 16 to 31 of record 0 are not all zero'
    details = 'byte {place} is {byte}'


class MissingRecord(Refusal):
    """13: the chain names a record that the file lacks."""
    number = 13
    words = 'the chain names a record that the file lacks'
    details = 'record {holder} names record {named}, and the last record of the file is {last}'


class ChainReturns(Refusal):
    """14: the chain returns to a record."""
    number = 14
    words = 'the chain returns to a record'
    details = 'record {holder} names record {named}, which an earlier link named too'


class VisitCount(Refusal):
    """15: a record has more than 4,096 visits."""
    number = 15
    words = 'a record has more than 4,096 visits'
    details = 'record {named} has {count}'


class Field(Refusal):
    """16: the reader's field is wider or taller than a region."""
    number = 16
    words = "the reader's field is wider or taller than a region"
    details = '{where}the field is {field_width} by {field_height} micrometres (0 counts as 1), and the region {width} by {height}'


class FlipBytes(Refusal):
    """17: the flips of an axis are not 32 bytes."""
    number = 17
    words = 'the flips of an axis are not 32 bytes'
    details = 'those of x are {bytes_x} and those of y {bytes_y}'


class FlipBit(Refusal):
    """18: flip bit 255 of an axis is set.

    It belongs to no bit of a coordinate.
    """
    number = 18
    words = 'flip bit 255 of an axis is set'
    details = 'byte 31 is {last_x} for x and {last_y} for y; below 128 is needed'


_REFUSALS = {kind.number: kind for kind in Refusal.__subclasses__()}


def _refusal(number, given):
    """The refusal with a number, and the values that it names."""
    if number not in _REFUSALS:
        raise RuntimeError(f'the library answered {number}, which vektrid.py does not know: they are not of one version')
    return _REFUSALS[number](**given)


def _accept(number, **given):
    """Raises the refusal that a call of the library answered, if it is one."""
    if number:
        raise _refusal(number, given)


# ---- what the calls give


class Point(NamedTuple):
    """The two coordinate words of an index; a word w stands for w / 2^32."""
    x: int
    y: int


class Singles(NamedTuple):
    """Both coordinates as IEEE 754 singles, from 0 up to and without 1: each the largest single not above word / 2^32."""
    x: float
    y: float


class Visit(NamedTuple):
    """An index with its point, as coordinate words."""
    index: int
    x: int
    y: int


class SinglesVisit(NamedTuple):
    """An index with its point, as singles."""
    index: int
    x: float
    y: float


class Position(NamedTuple):
    """A place of the stage in micrometres: the corner of the reader's field."""
    x: int
    y: int


class CountBounds(NamedTuple):
    """The least and the most visits that a cell holds."""
    least: int
    most: int


class FileVisit(NamedTuple):
    """A visit of a region file: the record's number in the file, the index in that record, and the position in micrometres."""
    record: int
    index: int
    x: int
    y: int


# ---- the library


class _FileWalk(ctypes.Structure):
    _fields_ = [('words', ctypes.c_uint32 * 11)]


class _Cursor(ctypes.Structure):
    _fields_ = [('words', ctypes.c_uint32 * 13)]


class _SheetCursor(ctypes.Structure):
    _fields_ = [('words', ctypes.c_uint32 * 14)]


_WORD, _LONG, _SIGNED, _SIZE = ctypes.c_uint32, ctypes.c_uint64, ctypes.c_int32, ctypes.c_size_t
_SINGLE = ctypes.c_float
_FILE = _FLIPS = [ctypes.c_char_p, ctypes.c_size_t]  # a file and the flips of an axis are lent as bytes, which no call writes
_TO_WORD, _TO_LONG, _TO_SIGNED, _TO_SINGLE = (ctypes.POINTER(kind) for kind in (_WORD, _LONG, _SIGNED, _SINGLE))
_SCRAMBLE = [_WORD, _WORD] + 2 * _FLIPS  # the two words of the shift, and the flips of both axes
_PAIR = [_TO_WORD, _SIZE] + _SCRAMBLE  # the words, how many, and the scramble
_BUFFER = [ctypes.POINTER(ctypes.c_uint8), _SIZE]  # where a piece of text is written

# For each call of include/vektrid.h: the type of its answer, and those of its arguments.
_CALLS = {
    'vektrid_abi': (_WORD, []),
    'vektrid_standard_pair': (_WORD, [_TO_WORD, _SIZE]),
    'vektrid_check': (_WORD, [_TO_WORD, _SIZE, _WORD] + 3 * [_TO_WORD]),
    'vektrid_point': (_WORD, _PAIR + [_WORD, _TO_WORD, _TO_WORD]),
    'vektrid_standard_point': (_WORD, _SCRAMBLE + [_WORD, _TO_WORD, _TO_WORD]),
    'vektrid_fill': (_WORD, _PAIR + [_WORD, _TO_WORD, _SIZE, _TO_WORD, _SIZE]),
    'vektrid_walk_open': (_WORD, [_WORD, _LONG, _TO_WORD, _TO_LONG]),
    'vektrid_walk_step': (_WORD, _PAIR + [_TO_WORD, _TO_LONG, _TO_WORD, _TO_WORD, _TO_WORD, _TO_WORD]),
    'vektrid_walk_step_singles': (_WORD, _PAIR + [_TO_WORD, _TO_LONG, _TO_WORD, _TO_WORD, _TO_SINGLE, _TO_SINGLE]),
    'vektrid_query': (_WORD, _PAIR + 6 * [_WORD] + [_TO_WORD, _TO_WORD]),
    'vektrid_overview': (_WORD, _PAIR + 4 * [_WORD] + 3 * [_TO_WORD, _SIZE] + [_TO_WORD]),
    'vektrid_double': (ctypes.c_double, [_WORD]),
    'vektrid_single': (_SINGLE, [_WORD]),
    'vektrid_point_singles': (_WORD, _PAIR + [_WORD, _TO_SINGLE, _TO_SINGLE]),
    'vektrid_position': (_WORD, [_SIGNED, _SIGNED] + 6 * [_WORD] + [_TO_SIGNED, _TO_SIGNED]),
    'vektrid_judge': (_WORD, _FILE),
    'vektrid_judge_link': (_WORD, _FILE + [_TO_WORD, _TO_WORD]),
    'vektrid_file_walk_open': (_WORD, _FILE + [ctypes.POINTER(_FileWalk)]),
    'vektrid_file_walk_step': (None, _FILE + [ctypes.POINTER(_FileWalk)] + 3 * [_TO_WORD] + 2 * [_TO_SIGNED]),
    'vektrid_listing_open': (None, _FILE + [ctypes.POINTER(_Cursor)]),
    'vektrid_listing_piece': (_SIZE, _FILE + [ctypes.POINTER(_Cursor)] + _BUFFER),
    'vektrid_sheet_open': (None, _FILE + [ctypes.POINTER(_SheetCursor)]),
    'vektrid_sheet_piece': (_SIZE, _FILE + [ctypes.POINTER(_SheetCursor)] + _BUFFER),
}


def _library_path():
    """Where the library is: VEKTRID_LIBRARY, which is taken as it stands; else in the repository; else beside this file."""
    named = os.environ.get('VEKTRID_LIBRARY')
    if named:
        return named
    here = os.path.dirname(os.path.realpath(__file__))
    places = [os.path.join(os.path.dirname(here), 'target', 'libvektrid.so'), os.path.join(here, 'libvektrid.so')]
    for path in places:
        if os.path.isfile(path):
            return path
    raise ImportError(f'Vektrid\'s library is neither at {places[0]} nor at {places[1]}: '
                      'run tools/archive in the repository, or set VEKTRID_LIBRARY to where it is')


def _number(library):
    """The number of a library's interface, or None where the library lacks the call that answers it."""
    call = getattr(library, 'vektrid_abi', None)
    if call is None:
        return None
    call.restype, call.argtypes = _CALLS['vektrid_abi']
    return call()


def _compare(path, number):
    """Refuses a library of another interface: its calls may take other arguments, and ctypes cannot tell."""
    if number != ABI:
        found = 'no interface number (it lacks vektrid_abi)' if number is None else f'interface {number}'
        raise ImportError(f'Vektrid\'s library {path} has {found}, and this vektrid.py is for interface {ABI}: '
                          'run tools/archive in the repository that this file is from, which makes the library for it')


def _load():
    """The library, its number compared before each call gets its types."""
    path = _library_path()
    try:
        library = ctypes.CDLL(os.path.abspath(path))
        _compare(path, _number(library))
        for name, (answer, arguments) in _CALLS.items():
            call = getattr(library, name)
            call.restype, call.argtypes = answer, arguments
    except (OSError, AttributeError) as error:  # not there, not a library, or a library without one of the calls
        raise ImportError(f'Vektrid\'s library cannot be used from {path} ({error}): run tools/archive in the repository to make it') from error
    return library


_library = _load()


# ---- what is let through to the library


def _whole(name, value, low=0, high=LAST_INDEX):
    """An argument as an int within its range, as a rule the library's type. ctypes would cut it to fit without a word."""
    if isinstance(value, bool) or type(value).__name__ == 'bool_':  # numpy's, which some versions take for a number
        raise TypeError(f'{name} = {value} is a truth value; a whole number from {low} to {high} is needed')
    try:
        number = operator.index(value)
    except TypeError:
        raise TypeError(f'{name} = {value!r} is no whole number; one from {low} to {high} is needed') from None
    if not low <= number <= high:
        shown = number if number.bit_length() < 256 else f'a number of {number.bit_length()} bits'  # Python does not print the longest
        raise ValueError(f'{name} = {shown} does not fit: a whole number from {low} to {high} is needed')
    return number


def _shift(shift):
    """The two words of a digital shift."""
    try:
        x, y = shift
    except (TypeError, ValueError):
        raise TypeError(f'shift = {shift!r} is not two words, one for each axis') from None
    return _whole('shift x', x), _whole('shift y', y)


def _flips(flips):
    """The flips of both axes, x first: the bytes of each and how many they are."""
    if flips is None:
        return _NO_FLIPS
    try:
        x, y = flips
    except (TypeError, ValueError):
        raise TypeError(f'flips is a {type(flips).__name__}, and not the bytes of two axes, (x, y)') from None
    x, y = _bytes('flips x', x), _bytes('flips y', y)
    return x, len(x), y, len(y)


_NO_FLIPS = 2 * (bytes(32), 32)


def _field(field):
    """The width and the height of the reader's field."""
    try:
        width, height = field
    except (TypeError, ValueError):
        raise TypeError(f'field = {field!r} is not two whole numbers, a width and a height') from None
    return _whole('field width', width), _whole('field height', height)


def _view(values):
    """A view of a buffer, or None for what is no buffer."""
    try:
        return memoryview(values)
    except (TypeError, ValueError):
        return None


def _of_words(name, view):
    """Refuses a view whose items are no words."""
    native = '@=<' if sys.byteorder == 'little' else '@=>!'
    if view.itemsize not in (0, 4) or view.format.lstrip(native) not in ('I', 'L'):  # 0: an empty ctypes array, before Python 3.10
        raise TypeError(f'{name} has items of type {view.format}, not 32-bit unsigned words (uint32, array.array("I"), c_uint32)')


def _lent(name, buffer):
    """A lent buffer: its first word, in place and held there as long as that object lives, and the number of its words."""
    view = _view(buffer)
    if view is None:
        raise TypeError(f'{name} is a {type(buffer).__name__}; a numpy array of uint32, an array.array("I") or a ctypes array '
                        'of c_uint32 is needed')
    _of_words(name, view)
    if view.ndim != 1 or not view.c_contiguous:
        raise TypeError(f'{name} is not one-dimensional and contiguous')
    if view.readonly:
        raise TypeError(f'{name} is not writeable')
    if len(view) == 0:
        return ctypes.c_uint32(), 0  # an empty buffer may have no address
    first = ctypes.c_uint32.from_buffer(view)
    if ctypes.addressof(first) % ctypes.alignment(ctypes.c_uint32):
        raise TypeError(f'{name} is not aligned to whole words')
    return first, len(view)


def _apart(xs, xs_count, ys, ys_count):
    """Refuses buffers that share a word: the proofs speak of buffers apart from each other."""
    x, y = ctypes.addressof(xs), ctypes.addressof(ys)
    if x < y + 4 * ys_count and y < x + 4 * xs_count:
        raise ValueError('xs and ys overlap; two buffers apart from each other are needed')


def _words(name, values):
    """Whole numbers, one by one, as words of our own."""
    checked = [_whole(f'{name}[{place}]', value) for place, value in enumerate(values)]
    return (ctypes.c_uint32 * len(checked))(*checked)


def _read(name, values):
    """Words for the library to read, from a buffer of words or from whole numbers one by one: a copy, which nobody can change meanwhile."""
    view = _view(values)
    if view is None:
        try:
            numbers = iter(values)
        except TypeError:
            raise TypeError(f'{name} is a {type(values).__name__}; a list of whole numbers or a buffer of 32-bit unsigned words is needed') from None
        return _words(name, numbers)
    _of_words(name, view)
    if view.ndim != 1:
        raise TypeError(f'{name} is not one-dimensional')
    return (ctypes.c_uint32 * len(view)).from_buffer_copy(view.tobytes())


def _answers(count, *asked):
    """Words to be written, of the kind that was asked with: a numpy array, an array.array where another buffer was, or else a ctypes array."""
    numpy = sys.modules.get('numpy')  # where nobody has imported it, nobody has an array of it
    if numpy and any(isinstance(each, numpy.ndarray) for each in asked):
        return numpy.zeros(count, dtype=numpy.uint32)
    if any(_view(each) is not None for each in asked):
        return array.array('I', bytes(4 * count))
    return (ctypes.c_uint32 * count)()


def _bytes(name, content):
    """Bytes for the library to read. A buffer that may change is copied, so that an iterator goes on with what it began with."""
    if type(content) is bytes:  # and no subclass, whose len may be anything
        return content
    view = _view(content)
    if view is None:
        raise TypeError(f'{name} is a {type(content).__name__}; its content is needed as bytes')
    if view.itemsize != 1 or '?' in view.format:  # truth values, which numpy keeps in a byte each
        raise TypeError(f'{name} has items of type {view.format}; its content is needed as bytes')
    return view.tobytes()


# ---- generator matrices: points, fills, walks, queries


def _accept_under(number, under, **given):
    """Raises the refusal that a call under a scramble answered, if it is one. `under` ends with what _flips gave, for the message to show."""
    if number:
        flips_x, bytes_x, flips_y, bytes_y = under[-4:]
        if number == FlipBytes.number:
            given = dict(bytes_x=bytes_x, bytes_y=bytes_y)
        if number == FlipBit.number:
            given = dict(last_x=flips_x[31], last_y=flips_y[31])
        raise _refusal(number, given)


def _accept_cells(number, under, j, given):
    """Raises the refusal that a query or an overview answered, if it is one, with the values that were given."""
    if number:
        rest = 32 - given['m'] if number == Block.number else given['m'] - given['a']
        _accept_under(number, under, **{'where': '', 'j': j.value, 'rest': rest, **given})


def _first_outside(columns, rows, m, a):
    """What the message shows of the first cell of an overview that is outside the shape. The library has judged it; this only reads."""
    place = next(place for place, (column, row) in enumerate(zip(columns, rows)) if column >> a or row >> m - a)
    return dict(where=f'at place {place}, ', place=place, column=columns[place], row=rows[place])


class Pair:
    """Two generator matrices (pair), copied from 64 words: the 32 columns of X, then those of Y. Never changes.

    Column c belongs to index bit c, and the top bit of a word is row 0. The product of an index is the exclusive or of the columns whose index
    bit is set. It is flipped by the flips of its axis, and then that axis's word of the digital shift is added, exclusive or. That is the
    coordinate. Points, fills and walks take any matrices, checked or not.

    The flips (Owen's nested scrambling to depth 8) are 32 bytes for each axis, (x, y), in any buffers of bytes; they are copied. Bit t from the top
    of a product, t from 0 to 7, is flipped where flip bit 2^t - 1 + p is set, p being the t bits above it in the product, read as a number; flip
    bit n is bit n % 8 of byte n // 8, both from the lowest. None, the default, flips nothing. Anything but bytes raises TypeError.

    Refused: WordCount.
    """
    __slots__ = ('_words',)

    def __init__(self, words):
        self._words = _words('words', words)
        self.point(0)  # any call refuses another number of words

    @classmethod
    def standard(cls):
        """The standard pair: the identity, and Pascal's triangle modulo 2. It passes every level."""
        words = (ctypes.c_uint32 * 64)()
        _accept(_library.vektrid_standard_pair(words, len(words)), count=len(words))
        return cls(words)

    @property
    def words(self):
        """The 64 words, columns of X first, as a tuple."""
        return tuple(self._words)

    def __eq__(self, other):
        return self.words == other.words if isinstance(other, Pair) else NotImplemented

    def __hash__(self):
        return hash(self.words)

    def __reduce__(self):
        return type(self), (self.words,)

    def __repr__(self):
        return f'Pair([{", ".join(f"0x{word:08X}" for word in self._words)}])'

    def _under(self, shift, flips):
        """The first arguments of most calls: the words, how many they are, and the scramble."""
        return (self._words, len(self._words)) + _shift(shift) + _flips(flips)

    def check(self, level):
        """Passes if every block of 2^m visits, m up to the level, is a net: one visit in every elementary interval (cell) of every shape.

        It is then a net under every scramble. Gives None. Refused: Level; NotNet, with the first bad shape (m, a), m rising and then a rising, and
        its least index j.
        """
        level = _whole('level', level)
        m, a, j = (ctypes.c_uint32() for _ in range(3))
        number = _library.vektrid_check(self._words, len(self._words), level, m, a, j)
        _accept(number, level=level, m=m.value, a=a.value, j=j.value)

    def _point(self, call, kind, index, under):
        x, y = kind(), kind()
        number = call(*under, _whole('index', index), x, y)
        _accept_under(number, under, count=len(self._words))
        return x.value, y.value

    def point(self, index, shift=(0, 0), *, flips=None):
        """The Point of an index under a scramble: two coordinate words. The index is 0 to 2^32 - 1. Refused: FlipBytes, FlipBit."""
        return Point(*self._point(_library.vektrid_point, ctypes.c_uint32, index, self._under(shift, flips)))

    def point_singles(self, index, shift=(0, 0), *, flips=None):
        """The point of an index as Singles: both coordinates as numbers from 0 up to and without 1. Refused: FlipBytes, FlipBit."""
        return Singles(*self._point(_library.vektrid_point_singles, ctypes.c_float, index, self._under(shift, flips)))

    def fill(self, start, into, shift=(0, 0), numpy=False, *, flips=None):
        """The points of the indexes from `start` on, as two buffers of coordinate words. Gives (xs, ys).

        `into` is either two buffers (xs, ys), which are filled in place, every word of them and without a copy; or a count, and then two lists
        are given, or with numpy=True two numpy arrays of uint32. Buffers are numpy arrays of uint32, array.array('I') or ctypes arrays of
        c_uint32, one-dimensional, contiguous and writeable (else TypeError), and must not overlap (else ValueError).

        Refused, in this order: FlipBytes, FlipBit, BufferLengths, IndexRange; the buffers then keep their content.
        """
        start, under = _whole('start', start), self._under(shift, flips)
        if not hasattr(type(into), '__len__'):
            return self._fill_new(start, into, under, numpy)
        try:
            xs, ys = into
        except (TypeError, ValueError):
            raise TypeError('a fill takes a count, or two buffers (xs, ys)') from None
        self._fill(start, _lent('xs', xs), _lent('ys', ys), under)
        return xs, ys

    def _fill(self, start, lent_xs, lent_ys, under):
        """Fills two buffers in place, each given as _lent gives it."""
        _apart(*lent_xs, *lent_ys)
        (xs, xs_count), (ys, ys_count) = lent_xs, lent_ys
        number = _library.vektrid_fill(*under, start, xs, xs_count, ys, ys_count)
        if number:
            lengths = f'xs has {xs_count} words and ys has {ys_count}'
            _accept_under(number, under, lengths=lengths, xs=xs_count, ys=ys_count, start=start, count=xs_count)

    def _fill_new(self, start, count, under, numpy):
        """Two new lists or numpy arrays."""
        # a point and then a walk are refused as the fill would be, before there is memory for it
        self._point(_library.vektrid_point, ctypes.c_uint32, start, under)
        _, count = _open(start, count)
        if numpy:
            import numpy as np
            xs, ys = np.empty(count, dtype=np.uint32), np.empty(count, dtype=np.uint32)
        else:
            xs, ys = (ctypes.c_uint32 * count)(), (ctypes.c_uint32 * count)()
        self._fill(start, _lent('xs', xs), _lent('ys', ys), under)
        return (xs, ys) if numpy else (xs[:], ys[:])

    def walk(self, start, count, shift=(0, 0), *, flips=None):
        """A Walk over `count` visits from index `start` on: an iterator of Visit. Refused: IndexRange; FlipBytes and FlipBit at each step."""
        return Walk(self, start, count, shift, flips)

    def walk_singles(self, start, count, shift=(0, 0), *, flips=None):
        """The same with each point as singles: an iterator of SinglesVisit. Refused: as walk says."""
        return SinglesWalk(self, start, count, shift, flips)

    def query(self, level, m, a, column, row, block, shift=(0, 0), *, flips=None):
        """The one index of a block whose point lies in an elementary interval (cell). Gives an int.

        The shape (m, a) has 2^a columns and 2^(m-a) rows. A point's column is the top a bits of its x, its row the top m-a bits of its y.
        Block k has the indexes from k * 2^m to (k+1) * 2^m - 1. The level only bounds m; the pair need not be checked before.

        Refused, in this order: Level, FlipBytes, FlipBit, Size, Shape, Cell, Block, NotNet (with this shape and its least index j).
        """
        names = ('level', 'm', 'a', 'column', 'row', 'block')
        given = {name: _whole(name, value) for name, value in zip(names, (level, m, a, column, row, block))}
        under, index, j = self._under(shift, flips), ctypes.c_uint32(), ctypes.c_uint32()
        number = _library.vektrid_query(*under, *given.values(), index, j)
        _accept_cells(number, under, j, given)
        return index.value

    def overview(self, level, m, a, columns, rows, block=0, shift=(0, 0), *, flips=None):
        """What query gives for many elementary intervals (cells) of one shape and block, in one call: for the cell (columns[i], rows[i]) at place i.

        Columns and rows are lists, or anything else that gives whole numbers one by one, or one-dimensional buffers of 32-bit unsigned words:
        numpy arrays of uint32, array.array('I'), memoryviews and ctypes arrays of such words. A buffer of other items raises TypeError; the list
        that its `tolist` gives is taken. Both are copied, and never changed. Gives a numpy array of uint32 where one of the two is a numpy array,
        else an array.array('I') where one is a buffer, else a list.

        Refused, in this order: BufferLengths, Level, FlipBytes, FlipBit, Size, Shape, Cell for the first cell, Block, NotNet, Cell for the later
        cells. Without cells all but Cell are judged all the same.

        >>> import vektrid
        >>> vektrid.Pair.standard().overview(32, 2, 1, columns=[0, 1, 0, 1], rows=[0, 0, 1, 1])
        [0, 3, 2, 1]
        """
        given = {name: _whole(name, value) for name, value in (('level', level), ('m', m), ('a', a), ('block', block))}
        column_words, row_words = _read('columns', columns), _read('rows', rows)
        under, answers, j = self._under(shift, flips), _answers(len(column_words), columns, rows), ctypes.c_uint32()
        number = _library.vektrid_overview(*under, *given.values(), column_words, len(column_words), row_words, len(row_words),
                                           *_lent('answers', answers), j)
        if number == Cell.number:
            given.update(_first_outside(column_words, row_words, given['m'], given['a']))
        if number == BufferLengths.number:
            given.update(lengths=f'columns has {len(column_words)} words and rows has {len(row_words)}')
        _accept_cells(number, under, j, given)
        return answers[:] if isinstance(answers, ctypes.Array) else answers


def _open(start, count):
    """A walk before its first step: the index of the next visit, and how many visits are left."""
    start, count = _whole('start', start), _whole('count', count, high=2**64 - 1)
    following, left = ctypes.c_uint32(), ctypes.c_uint64()
    _accept(_library.vektrid_walk_open(start, count, following, left), start=start, count=count)
    return following.value, left.value


class Walk:
    """A cursor over visits (walk), made by Pair.walk: an iterator of Visit, from the start index on.

    `next` is the index of the next visit and `left` how many visits are left. pair.walk(walk.next, walk.left) goes on from there, with the same
    shift and flips.

    A walk is opened without a look at its flips. FlipBytes and FlipBit are raised by each step, also where the walk has ended; it stays as it was.
    """
    __slots__ = ('_given', '_next', '_left')

    def __init__(self, pair, start, count, shift, flips=None):
        self._given = pair._under(shift, flips)
        self._next, self._left = _open(start, count)

    @property
    def next(self):
        """The index of the next visit. After the visit of index 2^32 - 1 it stays there."""
        return self._next

    @property
    def left(self):
        """How many visits are left."""
        return self._left

    def _step(self, call, kind):
        """Moves on; gives the index and both coordinates, or None where the walk has ended."""
        following, left = ctypes.c_uint32(self._next), ctypes.c_uint64(self._left)
        given, index, x, y = ctypes.c_uint32(), ctypes.c_uint32(), kind(), kind()
        _accept_under(call(*self._given, following, left, given, index, x, y), self._given, count=self._given[1])
        self._next, self._left = following.value, left.value
        return (index.value, x.value, y.value) if given.value else None

    def step(self):
        """The next Visit, or None where the walk has ended; it then changes nothing."""
        stepped = self._step(_library.vektrid_walk_step, ctypes.c_uint32)
        return stepped and Visit(*stepped)

    def step_singles(self):
        """The next visit with its point as singles, a SinglesVisit, or None where the walk has ended."""
        stepped = self._step(_library.vektrid_walk_step_singles, ctypes.c_float)
        return stepped and SinglesVisit(*stepped)

    def __iter__(self):
        return self

    def __next__(self):
        visit = self.step()
        if visit is None:
            raise StopIteration
        return visit

    def __repr__(self):
        return f'<{type(self).__name__} next={self._next} left={self._left}>'


class SinglesWalk(Walk):
    """A cursor over visits (walk), made by Pair.walk_singles: an iterator of SinglesVisit."""
    __slots__ = ()

    def __next__(self):
        visit = self.step_singles()
        if visit is None:
            raise StopIteration
        return visit


def standard_point(index, shift=(0, 0), *, flips=None):
    """The Point of an index of the standard pair, by the fast way: what Pair.standard().point gives. Refused: FlipBytes, FlipBit."""
    under, x, y = _shift(shift) + _flips(flips), ctypes.c_uint32(), ctypes.c_uint32()
    _accept_under(_library.vektrid_standard_point(*under, _whole('index', index), x, y), under)
    return Point(x.value, y.value)


# ---- random scrambles


def _splitmix64(state):
    """An iterator over the numbers of SplitMix64, of 64 bits each, whose state begins as given."""
    while True:
        state = (state + 0x9E3779B97F4A7C15) % 2**64
        mixed = (state ^ state >> 30) * 0xBF58476D1CE4E5B9 % 2**64
        mixed = (mixed ^ mixed >> 27) * 0x94D049BB133111EB % 2**64
        yield mixed ^ mixed >> 31


def random_scramble(seed):
    """The scramble of a seed, 0 to 2^64 - 1: a dict with `shift` and `flips`, to be handed on as they are, by two asterisks. Nothing is refused.

    The same seed gives the same scramble, here and in every later version: it is made of the first nine numbers of SplitMix64, whose state
    begins as the seed. Each number is made so, modulo 2^64: 0x9E3779B97F4A7C15 is added to the state, and with z the state,
    z = (z ^ (z >> 30)) * 0xBF58476D1CE4E5B9, z = (z ^ (z >> 27)) * 0x94D049BB133111EB, and the number is z ^ (z >> 31). The low 32 bits of the
    first are the shift of x and its high 32 bits that of y. The second to the fifth are the flips of x, 8 bytes each, the lowest first; the sixth
    to the ninth those of y. Flip bit 255 of each axis is then cleared.

    >>> import vektrid
    >>> scramble = vektrid.random_scramble(7)
    >>> scramble['shift']
    (1496452567, 1674306020)
    >>> vektrid.standard_point(5, **scramble)
    Point(x=3207728599, y=3368804836)
    """
    numbers = list(itertools.islice(_splitmix64(_whole('seed', seed, high=2**64 - 1)), 9))
    flips = bytearray(struct.pack('<8Q', *numbers[1:]))
    for last in (31, 63):
        flips[last] %= 128
    return dict(shift=(numbers[0] % 2**32, numbers[0] >> 32), flips=(bytes(flips[:32]), bytes(flips[32:])))


# ---- counts that stop anywhere


def _ceiling(n, d):
    """n / d rounded up."""
    return -(-n // d)


def count_bounds(n, m, *, start=None):
    """How many of n consecutive visits a cell of a shape (m, a) holds: the least and the most. Gives a CountBounds (least, most).

    They hold for every a, in every cell, under every scramble, for every pair that passes a level of m or more, wherever the visits begin: at least
    floor((n + 1) / 2^m) - 1, or 0 where that is below 0, and at most ceil((n - 1) / 2^m) + 1. Both are proved (docs/COUNTS.md).

    `start`, the index of the first visit, narrows them: at least one for each block of 2^m visits that lies among the n, and at most one for each
    block that they touch.

    n is 1 to 2^32, m 0 to 32, start 0 to 2^32 - 1. Refused: IndexRange, where start + n is above 2^32.

    >>> import vektrid
    >>> vektrid.count_bounds(50, 4)
    CountBounds(least=2, most=5)
    >>> vektrid.count_bounds(50, 4, start=0)
    CountBounds(least=3, most=4)
    """
    n, size = _whole('n', n, 1, LAST_INDEX + 1), 2**_whole('m', m, 0, LARGEST_LEVEL)
    if start is None:
        return CountBounds(max((n + 1) // size - 1, 0), _ceiling(n - 1, size) + 1)
    start = _whole('start', start)
    if start + n > LAST_INDEX + 1:
        raise IndexRange(start=start, count=n)
    return CountBounds(max((start + n) // size - _ceiling(start, size), 0), _ceiling(start + n, size) - start // size)


# ---- unit numbers


def double(word):
    """A coordinate word divided by 2^32, exactly: a float from 0 up to and without 1. Nothing is refused."""
    return _library.vektrid_double(_whole('word', word))


def single(word):
    """The largest IEEE 754 single not above word / 2^32, as a float. It lies in the word's own strip for up to 24 bits. Nothing is refused.
    docs/SINGLES.md lays its bits out, by cases."""
    return _library.vektrid_single(_whole('word', word))


# ---- the stage


class Region(collections.namedtuple('Region', 'left top width height')):
    """A rectangle of the stage in micrometres: its left and top edge, -1,000,000 to 1,000,000, its width and height, 1 to 1,000,000.

    Refused: RegionLimits.
    """
    __slots__ = ()

    def __new__(cls, left, top, width, height):
        region = super().__new__(cls, left, top, width, height)
        region.position(0, 0)  # judges the limits
        return region

    def position(self, x, y, field=(1, 1)):
        """Where the corner of the reader's field stands for a point with coordinate words x and y. Gives a Position, in micrometres.

        `field` is the width and the height of the field in micrometres; 0 counts as 1. With F its width, the corner is at
        left + floor(x * (width - F + 1) / 2^32), and likewise down, so that the whole field lies in the region.

        Refused, in this order: RegionLimits, Field.
        """
        edges = [_whole(name, value, -2**31, 2**31 - 1) for name, value in (('left', self.left), ('top', self.top))]
        extents = [_whole(name, value) for name, value in (('width', self.width), ('height', self.height))]
        field_width, field_height = _field(field)
        at_x, at_y = ctypes.c_int32(), ctypes.c_int32()
        number = _library.vektrid_position(*edges, *extents, field_width, field_height, _whole('x', x), _whole('y', y), at_x, at_y)
        _accept(number, where='', field_width=field_width, field_height=field_height, **self._asdict())
        return Position(at_x.value, at_y.value)


# ---- region files


def _read_for(number, file, named):
    """What the message of a refused file shows of its content. The library has judged it; this only reads."""
    if number == FileLength.number:
        return dict(size=len(file))
    if number == Level.number:
        return dict(level=struct.unpack_from('<I', file, 4)[0])
    if number == ReservedBytes.number:
        place = next(place for place in range(16, 32) if file[place])
        return dict(place=place, byte=file[place])
    if number == MissingRecord.number:
        return dict(last=len(file) // 32 - 1)
    field_width, field_height = struct.unpack_from('<II', file, 8)
    _, left, top, width, height, _, _, count = struct.unpack_from('<IiiIIIII', file, 32 * named)
    return dict(where=f'record {named}: ', left=left, top=top, width=width, height=height, count=count,
                field_width=field_width, field_height=field_height)


def _accept_file(number, file):
    """Raises the refusal that a call answered for a file, if it is one, with the link at which the judgement stopped."""
    if number:
        holder, named = ctypes.c_uint32(), ctypes.c_uint32()
        _library.vektrid_judge_link(file, len(file), holder, named)
        _accept(number, holder=holder.value, named=named.value, **_read_for(number, file, named.value))


def judge(file):
    """Judges a whole region file, given as bytes. Gives None.

    Refused: FileLength, Level, ReservedBytes, then at each link of the chain MissingRecord, ChainReturns, RegionLimits, Field, VisitCount; each
    with `holder` and `named`, the link at which the judgement stopped.
    """
    file = _bytes('file', file)
    _accept_file(_library.vektrid_judge(file, len(file)), file)


def visits(file):
    """An iterator over the visits of a region file, given as bytes: FileVisit (record, index, x, y), positions in micrometres, in listing order.

    Positions are for the field that record 0 of the file holds. The file is judged at once. Refused: as judge says.
    """
    file, walk = _bytes('file', file), _FileWalk()
    _accept_file(_library.vektrid_file_walk_open(file, len(file), walk), file)
    return _visits_from(file, walk)


def _visits_from(file, walk):
    given, record, index = (ctypes.c_uint32() for _ in range(3))
    x, y = ctypes.c_int32(), ctypes.c_int32()
    while True:
        _library.vektrid_file_walk_step(file, len(file), walk, given, record, index, x, y)
        if not given.value:
            return
        yield FileVisit(record.value, index.value, x.value, y.value)


def listing(file):
    """The listing of a region file, given as bytes, as text: what list_visits prints. Positions are in micrometres.

    A refused file is listed too, as the one line `refused`, a space and the number; judge raises the refusal instead.
    """
    return b''.join(listing_pieces(file)).decode('ascii')


def listing_pieces(file, room=65536):
    """The listing as an iterator of pieces, each of whole lines, as bytes, and at most `room` bytes long (46, the longest line, or more)."""
    return _pieces(_library.vektrid_listing_open, _library.vektrid_listing_piece, _Cursor(), file, room)


def sheet(file):
    """The visit sheet of a region file, given as bytes, as text: its listing set in pages, for readers who tick visits off on paper.

    A page has 50 lines of exactly 27 columns: the words rec, vis, x and y; 48 lines for visits, with record, visit, x and y in 4, 4, 8 and 8
    columns; and the number of the page, from 1 on. Everything is right-aligned. Lines that the last page does not need are blanks, and a file
    without visits has one page.

    The sheet of a refused file is its listing, the one line `refused`, a space and the number; sheet_pages raises the refusal instead.
    """
    return b''.join(sheet_pieces(file)).decode('ascii')


def sheet_pieces(file, room=65536):
    """The sheet as an iterator of pieces, each of whole lines, as bytes, and at most `room` bytes long (46, the longest line, or more).

    A piece may end within a page; sheet_pages gives whole ones.
    """
    return _pieces(_library.vektrid_sheet_open, _library.vektrid_sheet_piece, _SheetCursor(), file, room)


def sheet_pages(file):
    """An iterator over the pages of a file's sheet, each a text of 50 lines. The file is judged at once. Refused: as judge says.

    >>> import struct, vektrid
    >>> file = struct.pack('<II24x', 1, 2) + struct.pack('<IiiIIIII', 0, -500, 0, 1000, 800, 0, 0, 4)
    >>> for page in vektrid.sheet_pages(file):
    ...     lines = page.splitlines()
    ...     print('\\n'.join(lines[:5] + ['..'] + lines[49:]))
     rec  vis        x        y
       1    0     -500        0
       1    1        0      400
       1    2     -250      600
       1    3      250      200
    ..
                              1
    """
    file = _bytes('file', file)
    judge(file)
    return _pages_from(sheet_pieces(file))


def _pages_from(pieces):
    """The pages that these pieces make, wherever a piece ends."""
    rest = b''
    for piece in pieces:
        rest += piece
        while len(rest) >= _PAGE:
            yield rest[:_PAGE].decode('ascii')
            rest = rest[_PAGE:]


def _pieces(start, following, cursor, file, room):
    """An iterator over the pieces of a text, by the calls that start it and give the next piece, and a cursor of its kind."""
    file, room = _bytes('file', file), _whole('room', room, low=LONGEST_LINE)
    start(file, len(file), cursor)
    return _pieces_from(following, file, cursor, room)


def _pieces_from(following, file, cursor, room):
    piece = (ctypes.c_uint8 * room)()
    while True:
        written = following(file, len(file), cursor, piece, room)
        if not written:
            return
        yield ctypes.string_at(piece, written)
