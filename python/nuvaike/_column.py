"""A compressed column, and the calls that make one."""
import array
import ctypes
import os
import tempfile
import threading
from typing import Any, Iterable, List, Optional, Tuple, Union

from . import _given
from ._given import Texts, Binaries, Place, code_of, numpy, place_of
from ._library import INTEGERS, Tree, call
from ._refusals import Closed, OtherType, judge
from ._words import word_array

PathLike = Union[str, 'os.PathLike[str]']
HEADROOM = 4096     # bytes of a file beyond those of its tree and a sixteenth more, at a guess


def _number(name: str, tree: Tree) -> int:
    """A number that a call tells of a tree."""
    told = ctypes.c_uint64()
    judge(call(name)(tree, told))
    return told.value


def _bytes(name: str, tree: Tree, guess: int) -> bytes:
    """Bytes that a call hands out; once more where the guess of their number was too low."""
    count = ctypes.c_uint64()
    place = ctypes.create_string_buffer(max(guess, 1))
    status = call(name)(tree, ctypes.addressof(place), guess, count)
    if status == 12:
        guess = count.value
        place = ctypes.create_string_buffer(max(guess, 1))
        status = call(name)(tree, ctypes.addressof(place), guess, count)
    judge(status)
    return ctypes.string_at(ctypes.addressof(place), count.value)


def _zeros(kind: str, count: int) -> Any:
    """A buffer of zeros: NumPy's array where it is there, else one of the module `array`."""
    if numpy is not None:
        return numpy.zeros(count, dtype=numpy.bool_ if kind == 'bool' else '%s%d' % (kind[0], int(kind[1:]) // 8))
    if kind == 'bool':
        return bytearray(count)
    return array.array(code_of(kind), bytes(count * (int(kind[1:]) // 8)))


class Column:
    """A compressed column. `compress` and `from_bytes` make one.

    It may be used from several threads: calls on one column wait for one another, and those on different ones run at the same
    time. Its memory is the library's and is given back with the column, or by `close`. It is pickled as its file.
    """

    def __init__(self) -> None:
        self._tree, self._lock = Tree(), threading.Lock()
        self._plain_bytes: Optional[int] = None

    @classmethod
    def from_bytes(cls, data: Any) -> 'Column':
        """A column from the bytes of its file. Raises BadFile and NotOneTree."""
        view = memoryview(data)
        place = place_of(data if view.c_contiguous and view.itemsize == 1 else view.tobytes())
        made = cls()
        judge(call('open')(place.at, place.count, made._tree))
        return made

    @classmethod
    def open(cls, path: PathLike) -> 'Column':
        """A column from its file."""
        with open_file(path, 'rb') as file:
            return cls.from_bytes(file.read())

    def close(self) -> None:
        """Gives the memory back now. Later calls raise Closed."""
        with self._lock:
            call('free')(self._tree)

    def __enter__(self) -> 'Column':
        return self

    def __exit__(self, *_: Any) -> None:
        self.close()

    def __del__(self) -> None:
        if getattr(self, '_tree', None) is not None and call is not None:
            call('free')(self._tree)

    def __reduce__(self) -> Any:
        return (from_bytes, (self.to_bytes(),))

    def __len__(self) -> int:
        with self._lock:
            return _number('rows', self._tree)

    def __repr__(self) -> str:
        try:
            return '<nuvaike.Column %s of %d rows, %d bytes>' % (self.dtype, len(self), self.nbytes)
        except Closed:
            return '<nuvaike.Column closed>'

    @property
    def dtype(self) -> str:
        """The type's text: `i64?`, `text`, `timestamp us<UTC>`; a question mark where a row may be null."""
        with self._lock:
            return _bytes('type', self._tree, 64).decode('utf-8')

    @property
    def nbytes(self) -> int:
        """The bytes of the tree."""
        with self._lock:
            return _number('nbytes', self._tree)

    @property
    def plain_nbytes(self) -> int:
        """The bytes of the plain column, as the program counts them. The first call decodes the column."""
        if self._plain_bytes is None:
            plain = self._plain()
            self._plain_bytes = _number('nbytes', plain._tree)
        return self._plain_bytes

    def _plain(self) -> 'Column':
        made = Column()
        with self._lock:
            judge(call('plain')(self._tree, made._tree))
        return made

    def listing(self) -> str:
        """The tree, a line for each node: encoding, type, rows, bytes and the node's own numbers."""
        with self._lock:
            return _bytes('listing', self._tree, 4096).decode('utf-8')

    def to_bytes(self) -> bytes:
        """The bytes of the column's file: those that `vx store` writes for the same column and words."""
        with self._lock:
            size = _number('nbytes', self._tree)
            return _bytes('store', self._tree, size + size // 16 + HEADROOM)

    def save(self, path: PathLike) -> None:
        """Writes the file, whole or not at all."""
        data, path = self.to_bytes(), os.fspath(path)
        handle, part = tempfile.mkstemp(dir=os.path.dirname(path) or '.', prefix=os.path.basename(path) + '.', suffix='.part')
        try:
            with os.fdopen(handle, 'wb') as file:
                file.write(data)
                file.flush()
                os.fsync(file.fileno())
            os.chmod(part, 0o666 & ~_umask())
            os.replace(part, path)
        except BaseException:
            os.unlink(part)
            raise

    def decode(self) -> Tuple[Any, Any]:
        """The values and their mask, which is true where a row isn't null; None in place of a mask where no row may be.

        Beneath a null stands 0, false or nothing. With NumPy the values of integers, truth values and timestamps are arrays,
        and the mask is one; without it they are an array of the module `array` (timestamps too) and lists. Texts and binaries
        are lists of `str` and `bytes`.
        """
        base, nullable = self._base()
        if base in ('text', 'binary'):
            layout, valid = self.decode_layout()
            return _pieces(layout), valid
        kind, decoder = ('i64', 'timestamp') if base.startswith('timestamp ') else (base, base)
        if kind != 'bool' and kind not in INTEGERS:
            raise OtherType('a column of the type %s is decoded by `vx rows` alone' % base)
        values, mask = self._decoded(decoder, kind)
        if base.startswith('timestamp ') and numpy is not None:
            values = values.view('datetime64[%s]' % base[len('timestamp '):].partition('<')[0])
        if kind == 'bool' and numpy is None:
            values = list(map(bool, values))
        return values, _mask(mask, nullable)

    def decode_layout(self) -> Tuple[Binaries, Any]:
        """Texts or binaries in Arrow's large layout, and their mask as in `decode`; nothing becomes a Python object."""
        base, nullable = self._base()
        if base not in ('text', 'binary'):
            raise OtherType('a column of the type %s has neither texts nor binaries' % base)
        plain = self._plain()
        rows, count = len(plain), _number('byte_count', plain._tree)
        offsets, data, mask = _zeros('u64', rows + 1), bytearray(count), _zeros('bool', rows)
        places = [part for buffer in (offsets, data, mask) for part in place_of(buffer)[:2]]
        judge(call('decode_bytes')(plain._tree, *places))
        return (Texts if base == 'text' else Binaries)(offsets, data), _mask(mask, nullable)

    def _base(self) -> Tuple[str, bool]:
        """The type without its mark, and whether a row may be null."""
        text = self.dtype
        return (text[:-1], True) if text.endswith('?') else (text, False)

    def _decoded(self, decoder: str, kind: str) -> Tuple[Any, Any]:
        with self._lock:
            rows = _number('rows', self._tree)
            values, mask = _zeros(kind, rows), _zeros('bool', rows)
            judge(call('decode_' + decoder)(self._tree, *place_of(values)[:2], *place_of(mask)[:2]))
        return values, mask


def _umask() -> int:
    now = os.umask(0)
    os.umask(now)
    return now


def _mask(mask: Any, nullable: bool) -> Any:
    if not nullable:
        return None
    return mask if numpy is not None else list(map(bool, mask))


def _pieces(layout: Binaries) -> List[Any]:
    """The rows of a layout as Python's own values."""
    data, starts = bytes(layout.data), layout.offsets.tolist()
    rows = [data[begin:end] for begin, end in zip(starts, starts[1:])]
    return [row.decode('utf-8') for row in rows] if isinstance(layout, Texts) else rows


open_file = open


def compress(
    values: Any,
    valid: Any = None,
    *,
    unit: Optional[str] = None,
    zone: Optional[str] = None,
    seed: Union[int, Iterable[int]] = (0,),
) -> Column:
    """Compresses a column. It is lossless, and no larger than the plain column.

    `values` are one-dimensional: a NumPy array of integers, truth values, times or texts; anything with a buffer of integers or
    truth values, as `array.array`; `Texts` or `Binaries` in Arrow's layout; or a sequence of `int`, `bool`, `str` or `bytes`, in
    which None is a null. Whole numbers of Python become i64, or u64 where one is above 2^63 - 1.

    `valid` is true where a row isn't null: truth values or bytes, one a row, or a `Bitmap`. None says that no row may be null.
    What stands beneath a null doesn't count.

    `unit`, one of 'ns', 'us', 'ms' and 's', makes timestamps of i64, and `zone` names their zone. NumPy's times tell their unit.

    `seed` places the samples of long columns: a number, which stands for 1,024 words, or the words themselves. Equal columns and
    words become equal trees.

    Raises Unsupported of floats, objects and other values that no column has, and what the library refuses: TooManyRows,
    ValidityLength, BadOffsets, ValueTooLong, NotUtf8, BadUnit, NoWords, NoMemory.
    """
    found = _given.given(values)
    if found.valid is not None:
        if valid is not None:
            raise ValueError('the values have nulls of their own, and a mask is given beside them')
        valid = found.valid
    found, name = _given.timestamps(found, unit, zone)
    form, bits, offset = _given.validity(valid, found.rows)
    words = word_array(seed)
    made = Column()
    more: List[Any] = []
    if found.kind == 'timestamp':
        text = place_of(name)
        more = [_given.UNITS[found.unit or ''], int(zone is not None), *text[:2]]
    places = [part for place in found.places for part in place[:2]]
    judge(call('compress_' + found.kind)(*places, form, *bits[:2], offset, *more, ctypes.addressof(words), len(words), made._tree))
    return made


def from_bytes(data: Any) -> Column:
    """A column from the bytes of its file, which `to_bytes`, `save` and `vx store` write. Raises BadFile and NotOneTree."""
    return Column.from_bytes(data)


def open(path: PathLike) -> Column:     # noqa: A001, the name that files have
    """A column from its file."""
    return Column.open(path)
