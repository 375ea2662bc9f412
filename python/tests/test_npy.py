"""NumPy's files without NumPy."""
import array
import os
import struct
import sys
import tempfile
import unittest

import nuvaike
from nuvaike import _given

from . import support


def npy(descr, shape, content, version=1):
    """The bytes of a file as NumPy writes it."""
    header = repr({'descr': descr, 'fortran_order': False, 'shape': shape}).encode() + b', '
    header = header[:-2].ljust(117, b' ') + b'\n'
    size = struct.pack('<H', len(header)) if version == 1 else struct.pack('<I', len(header))
    return b'\x93NUMPY' + bytes([version, 0]) + size + header + content


class Files(unittest.TestCase):
    def setUp(self):
        folder = tempfile.TemporaryDirectory()
        self.addCleanup(folder.cleanup)
        self.folder = folder.name

    def write(self, name, *parts):
        path = os.path.join(self.folder, name)
        with open(path, 'wb') as file:
            file.write(npy(*parts))
        return path

    def test_each_type(self):
        for kind in support.RANGES:
            for order in '<>':
                rows = array.array(_given.code_of(kind), [0, 1, 100])
                content = array.array(rows.typecode, rows)
                if order == ('>' if sys.byteorder == 'little' else '<'):
                    content.byteswap()
                path = self.write('a.npy', '%s%s%d' % (order, kind[0], rows.itemsize), (3,), content.tobytes())
                column = nuvaike.compress_npy(path)
                self.assertEqual((column.dtype, list(column.decode()[0])), (kind, [0, 1, 100]))
        column = nuvaike.compress_npy(self.write('b.npy', '|b1', (2,), b'\1\0', 2))
        self.assertEqual((column.dtype, list(column.decode()[0])), ('bool', [True, False]))
        column = nuvaike.compress_npy(self.write('c.npy', '<M8[ms]', (1,), bytes(8)), zone='UTC')
        self.assertEqual(column.dtype, 'timestamp ms<UTC>')

    def test_refused(self):
        for parts in (('<f8', (1,), bytes(8)), ('<i8', (1, 1), bytes(8)), ('<i8', (2,), bytes(8)), ('|O', (1,), bytes(8)), ([('a', '<i8')], (1,), bytes(8))):
            with self.assertRaises(nuvaike.Unsupported):
                nuvaike.compress_npy(self.write('a.npy', *parts))
        with self.assertRaises(nuvaike.BadUnit):
            nuvaike.compress_npy(self.write('a.npy', '<M8[D]', (1,), bytes(8)))
