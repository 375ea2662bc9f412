"""Columns in memory, compressed losslessly by proved code, and read back.

    >>> import nuvaike
    >>> column = nuvaike.compress([7, 7, None, 9])
    >>> column.dtype, len(column)
    ('i64?', 4)
    >>> column.decode()
    ([7, 7, 0, 9], [True, True, False, True])

NumPy is used where it is there; without it, arrays of the module `array` and lists serve.
"""
from ._column import Column, compress, from_bytes, open
from ._given import Binaries, Bitmap, Texts
from ._npy import compress_npy
from ._refusals import (
    BadFile, BadOffsets, BadUnit, BufferLength, Closed, NoMemory, NotOneTree, NotStorable, NotUtf8, NoWords, OtherType, Refused,
    TooManyRows, Unsupported, ValidityLength, ValueTooLong,
)
from ._words import words_of

__version__ = '0.4.0'
__all__ = [
    'BadFile', 'BadOffsets', 'BadUnit', 'Binaries', 'Bitmap', 'BufferLength', 'Closed', 'Column', 'NoMemory', 'NoWords', 'NotOneTree',
    'NotStorable', 'NotUtf8', 'OtherType', 'Refused', 'Texts', 'TooManyRows', 'Unsupported', 'ValidityLength', 'ValueTooLong',
    'compress', 'compress_npy', 'from_bytes', 'open', 'words_of',
]
