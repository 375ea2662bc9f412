"""Columns of each type there and back, and what is refused."""
import array
import ctypes
import os
import pickle
import random
import tempfile
import threading
import unittest

import nuvaike
from nuvaike import _given

from . import support


def values_of(kind, rows):
    """Rows as the package takes them."""
    if kind in support.RANGES:
        return array.array(_given.code_of(kind), rows)
    if kind == 'bool':
        return memoryview(bytes(rows)).cast('?')
    return rows


def as_bytes(values):
    """The bytes of an array, or of a list of truth values."""
    return bytes(values) if isinstance(values, list) else bytes(memoryview(values).cast('B'))


class EachType(unittest.TestCase):
    def there_and_back(self, kind, rows, valid):
        column = nuvaike.compress(values_of(kind, rows), valid)
        nothing = {'bool': False, 'text': '', 'binary': b''}.get(kind, 0)
        expected = list(rows) if valid is None else [row if there else nothing for row, there in zip(rows, valid)]
        for made in (column, nuvaike.from_bytes(column.to_bytes()), pickle.loads(pickle.dumps(column))):
            back, mask = made.decode()
            self.assertEqual(list(back), expected)
            self.assertEqual(None if mask is None else list(mask), valid)
            self.assertEqual(len(made), len(rows))
            self.assertEqual(made.dtype, kind + ('' if valid is None else '?'))
            self.assertLessEqual(made.nbytes, made.plain_nbytes)

    def test_each_type(self):
        rng = random.Random(1)
        for kind in [*support.RANGES, 'bool', 'text', 'binary']:
            for count in (1, 2, 1_000, 5_000):
                rows = support.rows_of(rng, kind, count)
                for valid in (None, [True] * count, [False] * count, [rng.random() < 0.8 for _ in range(count)]):
                    with self.subTest(kind=kind, count=count):
                        self.there_and_back(kind, rows, valid)

    def test_empty(self):
        for kind in [*support.RANGES, 'bool']:
            self.there_and_back(kind, [], None)
            self.there_and_back(kind, [], [])
        for layout in (nuvaike.Texts, nuvaike.Binaries):
            column = nuvaike.compress(layout(array.array(_given.code_of('i64'), [0]), b''))
            self.assertEqual((len(column), column.decode()), (0, ([], None)))

    def test_limits_of_each_type(self):
        for kind, (low, high) in support.RANGES.items():
            self.there_and_back(kind, [low, high, low, 0], None)

    def test_many_rows(self):
        rng = random.Random(2)
        turns = support.MANY // 10_000
        for kind in [*support.RANGES, 'bool']:
            low, high = support.RANGES.get(kind, (0, 1))
            block = [rng.randint(max(low, -200), min(high, 300)) for _ in range(10_000)]
            rows = array.array(_given.code_of('u8' if kind == 'bool' else kind), block * turns)
            data = memoryview(rows).cast('B').cast('?') if kind == 'bool' else rows
            there = bytes(row % 10 != 0 for row in range(10_000))
            nulled = array.array(rows.typecode, [row * bit for row, bit in zip(block, there)] * turns)
            with self.subTest(kind=kind):
                back, mask = nuvaike.compress(data).decode()
                self.assertIsNone(mask)
                self.assertEqual(as_bytes(back), rows.tobytes())
                back, mask = nuvaike.compress(data, there * turns).decode()
                self.assertEqual(as_bytes(mask), there * turns)
                self.assertEqual(as_bytes(back), nulled.tobytes())

    def test_many_texts(self):
        rng = random.Random(3)
        block = [support.text(rng).encode() for _ in range(1_000)]
        turns = support.MANY // 10_000
        starts, size = array.array(_given.code_of('u64')), sum(map(len, block))
        ends = [0]
        for part in block:
            ends.append(ends[-1] + len(part))
        for turn in range(turns):
            starts.extend(end + turn * size for end in ends[:-1])
        starts.append(turns * size)
        for layout in (nuvaike.Texts, nuvaike.Binaries):
            back, mask = nuvaike.compress(layout(starts, b''.join(block) * turns)).decode_layout()
            self.assertIsNone(mask)
            self.assertEqual(bytes(back.data), b''.join(block) * turns)
            self.assertEqual(as_bytes(back.offsets), starts.tobytes())

    def test_python_values(self):
        for rows, dtype in (([1, None, -3], 'i64?'), ([0, (1 << 64) - 1], 'u64'), ([True, False], 'bool'), (['a', None, ''], 'text?'),
                            ([b'\0', b''], 'binary'), ([None, None], 'i64?'), ((n for n in (5, 6)), 'i64')):
            self.assertEqual(nuvaike.compress(rows).dtype, dtype)

    def test_layout(self):
        column = nuvaike.compress(['ab', None, 'c\u00e9'])
        layout, mask = column.decode_layout()
        self.assertEqual((list(layout.offsets), bytes(layout.data), list(mask)), ([0, 2, 2, 5], b'abc\xc3\xa9', [True, False, True]))
        again = nuvaike.compress(layout, mask)
        self.assertEqual([list(part) for part in again.decode()], [list(part) for part in column.decode()])

    def test_timestamps(self):
        rows = array.array(_given.code_of('i64'), [10**18, 0, -5])
        for unit in ('ns', 'us', 'ms', 's'):
            for zone, text in ((None, ''), ('', '<>'), ('Europe/Berlin', '<Europe/Berlin>')):
                column = nuvaike.compress(rows, [True, False, True], unit=unit, zone=zone)
                self.assertEqual(column.dtype, 'timestamp %s%s?' % (unit, text))
                back, mask = column.decode()
                self.assertEqual(([int(row) for row in memoryview(back.view('i8') if hasattr(back, 'view') else back)], list(mask)), ([10**18, 0, -5], [True, False, True]))


class Buffers(unittest.TestCase):
    def test_gaps(self):
        rows = memoryview(array.array(_given.code_of('i32'), range(1_000)))
        self.assertEqual(list(nuvaike.compress(rows[::3]).decode()[0]), list(range(0, 1_000, 3)))
        self.assertEqual(list(nuvaike.compress(rows[::-1]).decode()[0]), list(range(999, -1, -1)))

    def test_byte_order(self):
        for kind in (ctypes.c_int16, ctypes.c_uint32, ctypes.c_int64):
            other = (kind.__ctype_be__ * 3)(1, 2, 1_000)
            self.assertEqual(list(nuvaike.compress(memoryview(other)).decode()[0]), [1, 2, 1_000])
            self.assertEqual(list(nuvaike.compress(memoryview(other)[::2]).decode()[0]), [1, 1_000])

    def test_read_only_and_ctypes(self):
        self.assertEqual(list(nuvaike.compress(b'\1\2\3').decode()[0]), [1, 2, 3])
        self.assertEqual(list(nuvaike.compress(memoryview(bytearray(b'\1\2\3')).toreadonly()).decode()[0]), [1, 2, 3])
        self.assertEqual(list(nuvaike.compress(memoryview(array.array(_given.code_of('u16'), [7, 8])).toreadonly()).decode()[0]), [7, 8])
        self.assertEqual(list(nuvaike.compress((ctypes.c_int32 * 2)(-1, 5)).decode()[0]), [-1, 5])

    def test_bitmaps(self):
        rng = random.Random(4)
        for offset in range(20):
            for count in (0, 1, 7, 8, 9, 100):
                bits = [rng.random() < 0.5 for _ in range(offset + count + rng.randrange(9))]
                data = bytearray((len(bits) + 7) // 8)
                for place, bit in enumerate(bits):
                    data[place // 8] |= bit << place % 8
                valid = bits[offset:offset + count]
                rows = array.array(_given.code_of('i64'), range(1, count + 1))
                back, mask = nuvaike.compress(rows, nuvaike.Bitmap(data, offset)).decode()
                self.assertEqual((list(mask), list(back)), (valid, [row if there else 0 for row, there in zip(rows, valid)]))

    def test_any_byte_but_0_is_valid(self):
        rows = array.array(_given.code_of('u8'), [1, 2, 3])
        self.assertEqual(list(nuvaike.compress(rows, bytes([2, 0, 255])).decode()[1]), [True, False, True])


class Refusals(unittest.TestCase):
    def refused(self, name, *values, **how):
        with self.assertRaises(nuvaike.Refused) as caught:
            nuvaike.compress(*values, **how)
        self.assertEqual(caught.exception.name, name, str(caught.exception))
        self.assertTrue(str(caught.exception).startswith(name + ': '))

    def test_values(self):
        for values in ([1.5], array.array('d', [1]), array.array('f', [1]), [object()], ['a', 1], [True, 1], 'text', 7, [1 << 64], [-1 << 63, 1 << 63],
                       memoryview(b'abcd').cast('B', (2, 2)), (ctypes.c_double * 2)(), [b'a', 'a'], [[1]], {1: 2}.items()):
            self.refused('Unsupported', values)

    def test_validity(self):
        self.refused('ValidityLength', [1, 2], [True])
        self.refused('ValidityLength', [1, 2], [True] * 3)
        self.refused('ValidityLength', [1] * 9, nuvaike.Bitmap(b'\xff'))
        self.refused('ValidityLength', [1, 2], nuvaike.Bitmap(b'\xff', 7))
        self.refused('ValidityLength', [1, 2], nuvaike.Bitmap(b'\xff', (1 << 64) - 1))
        self.refused('Unsupported', [1, 2], array.array('d', [1, 1]))
        with self.assertRaises(ValueError):
            nuvaike.compress([1, None], [True, True])

    def test_offsets(self):
        code = _given.code_of('i64')
        for starts in ([], [1, 2], [0, 3], [0, 1], [0, 2, 1, 2], [0, -1, 2], [0, 1 << 62, 2]):
            for layout in (nuvaike.Texts, nuvaike.Binaries):
                self.refused('BadOffsets', layout(array.array(code, starts), b'ab'))

    def test_texts(self):
        code = _given.code_of('i64')
        self.refused('NotUtf8', nuvaike.Texts(array.array(code, [0, 1]), b'\xff'))
        self.refused('NotUtf8', nuvaike.Texts(array.array(code, [0, 1, 2]), 'é'.encode()))
        self.refused('NotUtf8', ['\ud800'])
        self.assertEqual(nuvaike.compress(nuvaike.Texts(array.array(code, [0, 1]), b'\xff'), [False]).decode(), ([''], [False]) if _given.numpy is None else nuvaike.compress(['' ], [False]).decode())
        self.assertEqual(nuvaike.compress(nuvaike.Binaries(array.array(code, [0, 1]), b'\xff')).decode()[0], [b'\xff'])

    def test_timestamps(self):
        self.refused('BadUnit', [1], unit='days')
        self.refused('BadUnit', [1], zone='UTC')
        self.refused('OtherType', array.array(_given.code_of('i32'), [1]), unit='s')
        self.refused('NotUtf8', [1], unit='s', zone='\ud800')

    def test_words(self):
        self.refused('NoWords', [1], seed=())
        with self.assertRaises(ValueError):
            nuvaike.compress([1], seed=-1)
        self.assertEqual(nuvaike.words_of(7)[:2], (2442223337, 414063806))

    def test_files(self):
        data = nuvaike.compress([1, 2, 3]).to_bytes()
        for bad in (b'', data[:-1], data + b'\0', b'X' + data[1:], bytes(100)):
            with self.assertRaises(nuvaike.BadFile):
                nuvaike.from_bytes(bad)
        frame = data[9:]
        for count in (0, 2):
            with self.assertRaises(nuvaike.NotOneTree):
                nuvaike.from_bytes(data[:8] + bytes([count]) + frame * count)

    def test_closed(self):
        column = nuvaike.compress([1, 2, 3])
        column.close()
        column.close()
        for read in (len, lambda it: it.decode(), lambda it: it.listing(), lambda it: it.to_bytes(), lambda it: it.plain_nbytes):
            with self.assertRaises(nuvaike.Closed):
                read(column)
        self.assertIn('closed', repr(column))


class Files(unittest.TestCase):
    def test_save_and_open(self):
        with tempfile.TemporaryDirectory() as folder:
            path = os.path.join(folder, 'column.vx')
            nuvaike.compress(['a', 'b', None]).save(path)
            self.assertEqual(os.listdir(folder), ['column.vx'])
            column = nuvaike.open(path)
            self.assertEqual(column.decode()[0], ['a', 'b', ''])
            with self.assertRaises(FileNotFoundError):
                column.save(os.path.join(folder, 'none', 'column.vx'))


class Threads(unittest.TestCase):
    def test_one_column_of_several_threads(self):
        rows = list(range(0, 40_000, 4))
        column, failed = nuvaike.compress(rows), []

        def read():
            for _ in range(20):
                if list(column.decode()[0]) != rows or len(column) != len(rows):
                    failed.append(True)

        threads = [threading.Thread(target=read) for _ in range(4)]
        for thread in threads:
            thread.start()
        for thread in threads:
            thread.join()
        self.assertEqual(failed, [])


def resident():
    with open('/proc/self/statm', encoding='ascii') as file:
        return int(file.read().split()[1]) * os.sysconf('SC_PAGE_SIZE')


class Memory(unittest.TestCase):
    def test_handles_leave_nothing(self):
        rows = array.array(_given.code_of('i64'), range(0, 2_000, 3))

        def turns(count):
            for _ in range(count):
                column = nuvaike.compress(rows)
                column.decode()
                try:
                    nuvaike.compress(rows, [True])
                except nuvaike.ValidityLength:
                    pass

        turns(support.HANDLES // 20)
        before = resident()
        turns(support.HANDLES)
        self.assertLess(resident() - before, 2 << 20)
