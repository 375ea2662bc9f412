"""The large documents of bench/run: their types, sizes and values."""
import random
from typing import Callable, NamedTuple

INPUT_LIMIT = 2 ** 26
MILLION = 1_000_000
ROW_BYTES = 48          # how many bytes a row may be in use beside twice the document
TEXT_ROW_BYTES = 128    # how many bytes a row of texts may be in use beside twice the document
PEER_COMPRESS = 1.8     # how many times the peer's time the phase `compress` may take
PEER_SERIES = 2.5       # and how many times for series: sequences, runs, rare values and slow series
PEER_OTHERS = 1.5       # and how many times for texts, binaries and timestamps


class Kind(NamedTuple):
    """The documents of one name: their type, numbers of rows, a value of a source of random numbers, the bytes that a
    row may be in use, whether the column is one of integers, whether it is flat, and how many times the peer's time
    `compress` may take, None where no scheme takes the column itself."""
    name: str
    type: str
    sizes: tuple
    value: Callable
    row_bytes: int = ROW_BYTES
    integers: bool = True
    flat: bool = True
    peer: float | None = PEER_COMPRESS


def or_null(value):
    """The value, or null with a chance of 10 %."""
    return lambda source: 'null' if source.random() < 0.1 else value(source)


def digits(source):
    return str(int(source.random() * 10 ** 15))


def small(source):
    return str(int(source.random() * 1000))


def whole(source):
    return str(source.getrandbits(64) - 2 ** 63)


def thousand(source):
    """One of 1,000 fixed values of the whole type."""
    return THOUSAND[int(source.random() * 1000)]


THOUSAND = [whole(random.Random('thousand %d' % place)) for place in range(1000)]


class Rising:
    """Integers that ascend from the first by random steps below the given one, anew for each source."""

    def __init__(self, first, step):
        self.source, self.first, self.step, self.last = None, first, step, 0

    def __call__(self, source):
        if source is not self.source:
            self.source, self.last = source, self.first
        self.last += int(source.random() * self.step)
        return str(self.last)


class Placed:
    """A value by its place, from 0 on for each source."""

    def __init__(self, value):
        self.source, self.value, self.place = None, value, 0

    def __call__(self, source):
        if source is not self.source:
            self.source, self.place = source, 0
        self.place += 1
        return str(self.value(self.place - 1))


def quoted(value):
    """The value as a JSON string."""
    return lambda source: '"%s"' % value(source)


def reading(source):
    """A struct of a moment, a truth value, a text and an integer that may be null."""
    return '[%d,%s,"k%d",%s]' % (10 ** 12 + int(source.random() * 1000), 'true' if source.random() < 0.5 else 'false',
                                 int(source.random() * 100), or_null(small)(source))


def ten_keys(source):
    """A list of ten texts."""
    return '[%s]' % ','.join('"k%d"' % int(source.random() * 100) for _ in range(10))


TWO = (MILLION // 10, MILLION)
UNITS = {'s': 1, 'ms': 1000, 'us': 10 ** 6, 'ns': 10 ** 9}        # how many make a second
FORTIES = ['%040x' % random.Random('forty %d' % place).getrandbits(160) for place in range(1000)]


def key(source):
    """One of a hundred short texts."""
    return '"k%d"' % int(source.random() * 100)


def others(name, type, value, row_bytes, peer=PEER_OTHERS):
    """Documents of another type than integers, without nulls and with some."""
    yield Kind(name, type, TWO, value, row_bytes, False, True, peer)
    yield Kind(name + '-nulls', type + '?', TWO, or_null(value), row_bytes, False, True, peer)


def timestamps(unit):
    """Moments in a unit, in order and two seconds apart at most, and at random over thirty years."""
    second = UNITS[unit]
    yield from others('moments' if unit == 'us' else 'sorted-' + unit, 'timestamp ' + unit, Rising(1_700_000_000 * second, 2 * second), ROW_BYTES)
    yield from others('random-' + unit, 'timestamp ' + unit, lambda source: str(int(source.random() * 946_684_800 * second)), ROW_BYTES)


READINGS = '{"struct":[["at","i64"],["on","bool"],["key","text"],["value","i32?"]]}'
KINDS = (Kind('digits', 'i64', (*TWO, 4 * MILLION), digits),
         Kind('digits-nulls', 'i64?', (*TWO, 4 * MILLION), or_null(digits)),
         Kind('full-range', 'i64', (*TWO, 3 * MILLION), whole),
         Kind('thousand', 'i64', TWO, thousand),
         Kind('negative', 'i32', TWO, lambda source: str(-1 - int(source.random() * 1000))),
         Kind('small', 'u32', TWO, small),
         Kind('offset', 'i64', TWO, lambda source: str(10 ** 12 + int(source.random() * 1000))),
         Kind('small-nulls', 'i32?', TWO, or_null(small)),
         Kind('ramp', 'i64', TWO, Placed(lambda place: place), peer=PEER_SERIES),
         Kind('runs', 'u32', TWO, Placed(lambda place: place // 100 % 16), peer=PEER_SERIES),
         Kind('rare', 'i64', TWO, Placed(lambda place: place if place % 1000 == 500 else 999), peer=PEER_SERIES),
         Kind('ascending', 'i64', TWO, Rising(1_700_000_000_000, 1000), peer=PEER_SERIES),
         *others('keys', 'text', key, TEXT_ROW_BYTES),
         *others('texts', 'text', quoted(lambda source: FORTIES[int(source.random() * 1000)]), TEXT_ROW_BYTES),
         *others('unique', 'text', quoted(lambda source: '%012x' % source.getrandbits(48)), TEXT_ROW_BYTES),
         *others('hashes', 'binary', quoted(lambda source: '%016x' % source.getrandbits(64)), TEXT_ROW_BYTES),
         *others('flags', 'bool', lambda source: 'true' if source.random() < 0.5 else 'false', ROW_BYTES, None),
         *(kind for unit in UNITS for kind in timestamps(unit)),
         Kind('readings', READINGS, TWO, reading, 5 * TEXT_ROW_BYTES, False, False, None),
         Kind('lists', '{"list":"text"}', (MILLION // 100, MILLION // 10), ten_keys, 11 * TEXT_ROW_BYTES, False, False, None))


def document(kind, rows):
    """The bytes of a document, fixed by its kind and number of rows."""
    source = random.Random('%s %d' % (kind.name, rows))
    values = ','.join(kind.value(source) for _ in range(rows))
    named = '"%s"' % kind.type if kind.flat else kind.type
    data = ('{"type":%s,"rows":[%s],"words":[0]}' % (named, values)).encode()
    assert len(data) <= INPUT_LIMIT
    return data
