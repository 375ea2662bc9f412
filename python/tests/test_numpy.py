"""NumPy's arrays: what is lent, copied and refused, and what comes back. Skipped where there is no NumPy."""
import unittest

import nuvaike

from . import support

try:
    import numpy
except ImportError:
    numpy = None


@unittest.skipIf(numpy is None, 'no NumPy')
class Arrays(unittest.TestCase):
    def there_and_back(self, rows, valid=None, **how):
        column = nuvaike.compress(rows, valid, **how)
        back, mask = column.decode()
        expected = numpy.array(rows) if valid is None else numpy.where(valid, rows, numpy.zeros(1, rows.dtype))
        self.assertEqual(back.dtype, rows.dtype.newbyteorder('='))
        self.assertTrue((back == expected).all())
        self.assertTrue(mask is None if valid is None else (mask == valid).all())
        return column

    def test_each_type(self):
        rng = numpy.random.default_rng(1)
        for kind in support.RANGES:
            dtype = numpy.dtype('%s%d' % (kind[0], int(kind[1:]) // 8))
            info = numpy.iinfo(dtype)
            for count in (0, 1, 5_000):
                rows = rng.integers(info.min, info.max, count, dtype=dtype, endpoint=True)
                self.assertEqual(self.there_and_back(rows).dtype, kind)
                self.assertEqual(self.there_and_back(rows, rng.random(count) < 0.8).dtype, kind + '?')
        self.there_and_back(rng.random(5_000) < 0.5)

    def test_gaps_and_byte_order(self):
        rows = numpy.arange(10_000, dtype='i4')
        for given in (rows[::3], rows[::-1], rows.astype('>i4'), rows.astype('>i4')[::7], rows.reshape(100, 100)[:, 3], rows.astype('i8').view('i4')[::2]):
            self.there_and_back(given)
        valid = numpy.zeros((100, 2), dtype=bool)
        valid[::2] = True
        self.there_and_back(rows[:100], valid[:, 1])
        rows.flags.writeable = False
        self.there_and_back(rows)

    def test_times(self):
        for unit in ('ns', 'us', 'ms', 's'):
            rows = numpy.arange(1_000).astype('datetime64[%s]' % unit)
            self.assertEqual(self.there_and_back(rows).dtype, 'timestamp ' + unit)
            self.assertEqual(self.there_and_back(rows[::2], zone='UTC').dtype, 'timestamp %s<UTC>' % unit)
            self.there_and_back(rows.astype(rows.dtype.newbyteorder('>')))
        never = numpy.array(['NaT', '2020-01-01'], dtype='datetime64[s]')
        self.assertEqual(nuvaike.compress(never).decode()[0].view('i8').tolist(), never.view('i8').tolist())

    def test_masked(self):
        rows = numpy.ma.masked_array(numpy.arange(5), [0, 1, 0, 0, 1])
        back, mask = nuvaike.compress(rows).decode()
        self.assertEqual((back.tolist(), mask.tolist()), ([0, 0, 2, 3, 0], [True, False, True, True, False]))

    def test_texts(self):
        self.assertEqual(nuvaike.compress(numpy.array(['a', '', 'c\u00e9'])).decode(), (['a', '', 'c\u00e9'], None))

    def test_refused(self):
        for rows in (numpy.zeros(3), numpy.zeros(3, 'f4'), numpy.zeros(3, 'c16'), numpy.array([1, 'a'], dtype=object), numpy.zeros((2, 2), 'i4'),
                     numpy.zeros(3, 'm8[s]'), numpy.zeros(3, 'S4'), numpy.zeros(3, 'i4,i4'), numpy.array(5)):
            with self.assertRaises(nuvaike.Unsupported):
                nuvaike.compress(rows)
        for unit in ('D', 'h', '25s'):
            with self.assertRaises(nuvaike.BadUnit):
                nuvaike.compress(numpy.zeros(3, 'M8[%s]' % unit))
        with self.assertRaises(nuvaike.Unsupported):
            nuvaike.compress(numpy.arange(3), numpy.array([1.0, 0, 1]))

    def test_many_rows(self):
        rng = numpy.random.default_rng(2)
        rows = 1_000_000 + rng.integers(0, 500, support.MANY)
        self.there_and_back(rows)
        self.there_and_back(rows, rng.random(support.MANY) < 0.9)
