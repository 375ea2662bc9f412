"""What a caller gives: values and validity, as addresses that the library reads.

Every kind of values comes down to a buffer of one type without gaps, in this machine's byte order. Arrays that are so already
are lent, all others are copied.
"""
import array
import ctypes
import operator
import sys
from typing import Any, NamedTuple, Optional, Sequence, Tuple

from ._refusals import BadUnit, NotUtf8, OtherType, Unsupported, ValidityLength

try:
    import numpy
except ImportError:     # NumPy is no need
    numpy = None        # type: ignore[assignment]

UNITS = {'ns': 0, 'us': 1, 'ms': 2, 's': 3}
ALL_VALID, BYTES, BITMAP = 0, 1, 2                  # the forms of validity
# The kinds of the buffer protocol's formats. Which size has which format differs from machine to machine, so the size counts.
SIGNED, UNSIGNED = 'bhilqn', 'BHILQN'
CODES = {code: array.array(code).itemsize for code in 'bhilqBHILQ'}
EMPTY = (ctypes.c_uint64 * 1)()                     # the address of buffers without a byte


class Place(NamedTuple):
    """The address and the number of a buffer's items, and what keeps them alive."""

    at: int
    count: int
    keeps: Any


class Given(NamedTuple):
    """A column's values: the name of their kind, and their buffers; with validity that the values told themselves, or None."""

    kind: str
    places: Tuple[Place, ...]
    rows: int
    valid: Any = None
    unit: Optional[str] = None


class Bitmap:
    """Validity as a bit for each row, the lowest of each byte first, as Arrow has it; the first row's bit stands at `offset`."""

    def __init__(self, bits: Any, offset: int = 0) -> None:
        self.bits, self.offset = bits, operator.index(offset)
        if not 0 <= self.offset < 1 << 64:
            raise ValidityLength()


class Binaries:
    """Binaries in Arrow's large layout: `offsets` of 64 bits, one more than there are rows, and the bytes of all rows."""

    kind = 'binary'

    def __init__(self, offsets: Any, data: Any) -> None:
        self.offsets, self.data = offsets, data

    def __len__(self) -> int:
        return len(self.offsets) - 1


class Texts(Binaries):
    """Texts in Arrow's large layout: as `Binaries`, and the bytes of each row are UTF-8."""

    kind = 'text'


def code_of(kind: str) -> str:
    """The code of the module `array` for integers of this kind, as i64."""
    size = int(kind[1:]) // 8
    return next(code for code in ('BHILQ' if kind[0] == 'u' else 'bhilq') if CODES[code] == size)


def place_of(buffer: Any) -> Place:
    """Lends a buffer without gaps."""
    view = memoryview(buffer)
    if view.nbytes == 0:
        return Place(ctypes.addressof(EMPTY), 0, EMPTY)
    count = view.nbytes // view.itemsize
    if numpy is not None and isinstance(buffer, numpy.ndarray):
        return Place(buffer.ctypes.data, count, buffer)
    if isinstance(buffer, array.array):
        return Place(buffer.buffer_info()[0], count, buffer)
    if isinstance(buffer, bytes):
        return Place(ctypes.cast(ctypes.c_char_p(buffer), ctypes.c_void_p).value or 0, count, buffer)
    if view.readonly:
        return place_of(bytes(view.cast('B')) if view.itemsize == 1 else copied(view))
    lent = (ctypes.c_char * view.nbytes).from_buffer(view)
    return Place(ctypes.addressof(lent), count, (lent, buffer))


def copied(view: memoryview) -> 'array.array':
    """A copy of integers without gaps, in this machine's byte order."""
    order, code = format_of(view)
    made = array.array(code_of('%s%d' % ('i' if code in SIGNED else 'u', 8 * view.itemsize)))
    made.frombytes(view.tobytes())
    if order:
        made.byteswap()
    return made


def format_of(view: memoryview) -> Tuple[bool, str]:
    """Whether the bytes of each item stand in the other order, and the code of the format."""
    code = view.format
    if code[:1] in ('@', '=', '<', '>', '!'):
        other = '>!' if sys.byteorder == 'little' else '<'
        return code[0] in other and view.itemsize > 1, code[1:]
    return False, code


def has_gaps(view: memoryview) -> bool:
    return not view.c_contiguous


def one_dimension(view: memoryview) -> None:
    if view.ndim != 1:
        raise Unsupported('an array of %d dimensions is given; a column has one' % view.ndim)


def named(code: str) -> str:
    """What a format's code stands for, in plain words."""
    words = {'e': 'floats', 'f': 'floats', 'd': 'floats', 'g': 'floats', 'c': 'single characters', 'u': 'characters', 'w': 'characters', 'O': 'objects', 'P': 'pointers'}
    return words.get(code[-1:], 'items of the format %r' % code)


def of_buffer(values: Any) -> Given:
    """Integers or truth values behind the buffer protocol."""
    view = memoryview(values)
    one_dimension(view)
    other, code = format_of(view)
    if code == '?':
        return Given('bool', (place_of(view.tobytes() if has_gaps(view) else values),), len(view))
    if code not in SIGNED + UNSIGNED or view.itemsize not in (1, 2, 4, 8):
        raise Unsupported('%s are given; a column has no such values' % named(code))
    kind = '%s%d' % ('i' if code in SIGNED else 'u', 8 * view.itemsize)
    return Given(kind, (place_of(copied(view) if other or has_gaps(view) else values),), len(view))


def of_layout(values: Binaries) -> Given:
    """Texts or binaries in Arrow's layout."""
    starts = of_buffer(values.offsets if is_buffer(values.offsets) else array.array(code_of('i64'), values.offsets))
    if starts.kind not in ('i64', 'u64'):
        raise Unsupported('offsets of the type %s are given; they have 64 bits' % starts.kind)
    data = memoryview(values.data)
    if data.itemsize != 1 or data.ndim != 1:
        raise Unsupported('the bytes of texts and binaries are a buffer of bytes')
    content = place_of(data.tobytes() if has_gaps(data) else values.data)
    return Given(values.kind, (starts.places[0], content), max(starts.rows - 1, 0))


def is_buffer(values: Any) -> bool:
    try:
        memoryview(values)
    except (TypeError, ValueError, BufferError):
        return False
    return True


def of_numpy(values: Any) -> Given:
    """NumPy's arrays, of which some have no buffer that Python reads: times, texts and objects."""
    if values.ndim != 1:
        raise Unsupported('an array of %d dimensions is given; a column has one' % values.ndim)
    kind = values.dtype.kind
    if kind == 'M':
        unit = numpy.datetime_data(values.dtype)
        if unit[0] not in UNITS or unit[1] != 1:
            raise BadUnit('the array is of the type %s; its unit is none of ns, us, ms and s' % values.dtype)
        return of_buffer(values.astype(values.dtype.newbyteorder('=')).view(numpy.int64))._replace(unit=unit[0])
    if kind in 'UT':
        return of_items(values.tolist())
    if kind in 'iu' or kind == 'b':
        return of_buffer(numpy.ascontiguousarray(values, dtype=values.dtype.newbyteorder('=')))
    words = {'f': 'floats', 'c': 'complex numbers', 'O': 'objects', 'm': 'spans of time', 'V': 'records', 'S': 'bytes of one length (a list of bytes keeps zeros at their ends)'}
    raise Unsupported('%s (%s) are given; a column has no such values' % (words.get(kind, 'values'), values.dtype))


def joined(parts: Sequence[bytes]) -> Tuple[Place, Place]:
    """Offsets, and the bytes of all parts."""
    starts = array.array(code_of('u64'), [0])
    end = 0
    for part in parts:
        end += len(part)
        starts.append(end)
    return place_of(starts), place_of(b''.join(parts))


def encoded(text: str) -> bytes:
    try:
        return text.encode('utf-8')
    except UnicodeEncodeError:
        raise NotUtf8('a text has a lone surrogate, which no UTF-8 has') from None


def of_items(items: Sequence[Any]) -> Given:
    """A sequence of Python's own values, None of each null."""
    there = [item is not None for item in items]
    valid = None if all(there) else bytes(there)
    kinds = {type(item) for item in items if item is not None}
    if not kinds:
        return Given('i64', (place_of(array.array(code_of('i64'), [0] * len(items))),), len(items), valid)
    if kinds == {bool}:
        return Given('bool', (place_of(bytes(bool(item) for item in items)),), len(items), valid)
    if kinds == {str}:
        return Given('text', joined([encoded(item or '') for item in items]), len(items), valid)
    if kinds <= {bytes, bytearray}:
        return Given('binary', joined([bytes(item or b'') for item in items]), len(items), valid)
    if bool not in kinds and all(hasattr(kind, '__index__') for kind in kinds):
        return of_whole_numbers([0 if item is None else operator.index(item) for item in items], valid)
    raise Unsupported('%s are given; a column has values of one type, and neither floats nor objects' % ', '.join(sorted(kind.__name__ for kind in kinds)))


def of_whole_numbers(items: Sequence[int], valid: Optional[bytes]) -> Given:
    """Whole numbers as i64, or as u64 where one is above 2^63 - 1."""
    least, most = min(items), max(items)
    kind = 'u64' if most >= 1 << 63 else 'i64'
    if most >= 1 << 64 or least < (0 if kind == 'u64' else -1 << 63):
        raise Unsupported('whole numbers are given that no integer type of 64 bits holds')
    return Given(kind, (place_of(array.array(code_of(kind), items)),), len(items), valid)


def given(values: Any) -> Given:
    """The values that a caller gives."""
    if isinstance(values, Binaries):
        return of_layout(values)
    if numpy is not None and isinstance(values, numpy.ma.MaskedArray):
        return of_numpy(values.data)._replace(valid=~numpy.ma.getmaskarray(values))
    if numpy is not None and isinstance(values, numpy.ndarray):
        return of_numpy(values)
    if isinstance(values, str):
        raise Unsupported('one text is given; a column of texts is a sequence of them')
    if is_buffer(values):
        return of_buffer(values)
    try:
        items = list(values)
    except TypeError:
        raise Unsupported('a value of the type %s is given; a column has a sequence of values' % type(values).__name__) from None
    return of_items(items)


def validity(valid: Any, rows: int) -> Tuple[int, Place, int]:
    """The form of validity, its buffer, and the offset of its first bit."""
    if valid is None:
        return ALL_VALID, place_of(b''), 0
    if isinstance(valid, Bitmap):
        bits = memoryview(valid.bits).cast('B')
        return BITMAP, place_of(bits.tobytes() if bits.readonly and not isinstance(valid.bits, bytes) else valid.bits), valid.offset
    if numpy is not None and isinstance(valid, numpy.ndarray):
        if valid.dtype.kind != 'b' or valid.ndim != 1:
            raise Unsupported('validity of the type %s is given; it is truth values, one a row' % valid.dtype)
        return BYTES, place_of(numpy.ascontiguousarray(valid)), 0
    if not is_buffer(valid):
        return BYTES, place_of(bytes(map(bool, valid))), 0
    view = memoryview(valid)
    if view.itemsize != 1 or view.ndim != 1 or view.format not in ('?', 'B', 'b'):
        raise Unsupported('validity of the format %r is given; it is truth values or bytes, one a row' % view.format)
    return BYTES, place_of(view.tobytes() if has_gaps(view) else valid), 0


def timestamps(found: Given, unit: Optional[str], zone: Optional[str]) -> Tuple[Given, bytes]:
    """The values as timestamps, where a unit tells that they are some, and the zone's name."""
    unit = unit or found.unit
    if unit is None:
        if zone is not None:
            raise BadUnit('a zone is given, and no unit')
        return found, b''
    if unit not in UNITS:
        raise BadUnit()
    if found.unit not in (None, unit):
        raise BadUnit('the array counts %s, and the unit %s is given' % (found.unit, unit))
    if found.kind != 'i64':
        raise OtherType('timestamps are i64, and %s are given' % found.kind)
    return found._replace(kind='timestamp', unit=unit), encoded(zone or '')
