"""The package beside the program: the same column and words have the same file, and each reads what the other wrote."""
import array
import json
import os
import unittest

import nuvaike
from nuvaike import _given

from . import support


def bitmap_of(rng, valid):
    """A bitmap of these rows at a random offset, with other bits around it."""
    offset = rng.randrange(20)
    bits = [rng.random() < 0.5 for _ in range(offset)] + list(valid) + [rng.random() < 0.5 for _ in range(rng.randrange(20))]
    data = bytearray((len(bits) + 7) // 8)
    for place, bit in enumerate(bits):
        data[place // 8] |= bit << place % 8
    return nuvaike.Bitmap(bytes(data), offset)


def layout_of(column):
    parts = [row.encode() if isinstance(row, str) else row for row in column.rows]
    starts = array.array(_given.code_of('i64'), [0])
    for part in parts:
        starts.append(starts[-1] + len(part))
    return (nuvaike.Texts if column.kind == 'text' else nuvaike.Binaries)(starts, b''.join(parts))


def given_of(column):
    """The values as the package takes them, in one of the ways that there are."""
    if column.kind in support.RANGES or column.kind == 'timestamp':
        return array.array(_given.code_of('i64' if column.kind == 'timestamp' else column.kind), column.rows)
    if column.kind == 'bool':
        return memoryview(bytes(column.rows)).cast('?')
    if column.count == 0 or column.rng.random() < 0.5:
        return layout_of(column)
    return column.rows


def compressed(column):
    valid = column.valid
    if valid is not None:
        valid = column.rng.choice([list, bytes, lambda bits: bitmap_of(column.rng, bits)])(valid)
    times = {'unit': column.unit, 'zone': column.zone} if column.kind == 'timestamp' else {}
    return nuvaike.compress(given_of(column), valid, seed=column.seed, **times)


@unittest.skipUnless(os.access(support.PROGRAM, os.X_OK), 'no program')
class BesideTheProgram(unittest.TestCase):
    def judge(self, number):
        column = support.Random(number)
        made = compressed(column)
        data = made.to_bytes()
        self.assertEqual(data, support.vx('store', column.document()))
        self.assertEqual(made.listing().encode(), support.vx('show', data))
        back, mask = nuvaike.from_bytes(data).decode()
        self.assertEqual([int(row) for row in (back.view('i8') if hasattr(back, 'view') else back)] if column.kind == 'timestamp' else list(back), column.expected())
        self.assertEqual(None if mask is None else list(mask), column.valid)
        shown = json.loads(support.vx('rows', data))['rows']
        there = [row if is_there else None for row, is_there in zip(column.rows, column.there())]
        self.assertEqual(shown, [row.hex() if isinstance(row, bytes) else row for row in there])

    def test_random_columns(self):
        for number in range(support.COLUMNS):
            with self.subTest(number=number):
                self.judge(number)

    def test_sizes(self):
        for number in range(20):
            column = support.Random(number)
            made = compressed(column)
            last = support.vx('compress', column.document()).decode().splitlines()[-1]
            self.assertEqual(last, 'plain=%d tree=%d' % (made.plain_nbytes, made.nbytes))

    def test_nested_columns_are_opened_and_listed(self):
        data = support.vx('store', b'{"type":{"list":"i64"},"rows":[[1,2],[3]],"words":[0]}')
        column = nuvaike.from_bytes(data)
        self.assertEqual((len(column), column.dtype, column.to_bytes()), (2, '[i64]', data))
        with self.assertRaises(nuvaike.OtherType):
            column.decode()
