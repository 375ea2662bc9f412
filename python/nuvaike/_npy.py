"""Columns of NumPy's files (`.npy`), read without NumPy."""
import array
import ast
import os
import re
import struct
import sys
from typing import Any, Dict, Optional, Tuple, Union

from ._column import Column, compress, open_file
from ._given import code_of
from ._refusals import BadUnit, Unsupported

MAGIC = b'\x93NUMPY'
KINDS = re.compile(r"([<>|=])([iubM])(\d)(?:\[(\w+)\])?")


def _header(data: bytes, path: Any) -> Tuple[Dict[str, Any], int]:
    """The header of a file, and where its rows begin."""
    if data[:6] != MAGIC or len(data) < 12 or data[6] not in (1, 2, 3):
        raise Unsupported('%s is no .npy file' % os.fspath(path))
    size, begin = (struct.unpack_from('<H', data, 8)[0], 10) if data[6] == 1 else (struct.unpack_from('<I', data, 8)[0], 12)
    try:
        header = ast.literal_eval(data[begin:begin + size].decode('utf-8' if data[6] == 3 else 'latin-1'))
        return {'descr': header['descr'], 'shape': header['shape']}, begin + size
    except (KeyError, SyntaxError, TypeError, ValueError):
        raise Unsupported('%s is no .npy file' % os.fspath(path)) from None


def read_npy(path: Union[str, 'os.PathLike[str]']) -> Tuple[Any, Optional[str]]:
    """The rows of a one-dimensional array of integers, truth values or times, and the unit of times."""
    with open_file(path, 'rb') as file:
        data = file.read()
    header, begin = _header(data, path)
    found = KINDS.fullmatch(header['descr']) if isinstance(header['descr'], str) else None
    if found is None or len(header['shape']) != 1:
        raise Unsupported('%s has items of the type %s in %d dimensions; a column has integers, truth values or times in one'
                          % (os.fspath(path), header['descr'], len(header['shape'])))
    order, kind, size, unit = found.groups()
    content = memoryview(data)[begin:]
    if len(content) != header['shape'][0] * int(size):
        raise Unsupported('%s ends before its last row, or behind it' % os.fspath(path))
    if kind == 'b':
        return content.cast('?'), None
    if kind == 'M' and unit not in ('ns', 'us', 'ms', 's'):
        raise BadUnit('%s counts %s; the unit is none of ns, us, ms and s' % (os.fspath(path), unit))
    rows = array.array(code_of('%s%d' % ('u' if kind == 'u' else 'i', 8 * int(size))))
    rows.frombytes(content)
    if order == ('>' if sys.byteorder == 'little' else '<'):
        rows.byteswap()
    return rows, unit


def compress_npy(path: Union[str, 'os.PathLike[str]'], valid: Any = None, **how: Any) -> Column:
    """Compresses the rows of a `.npy` file; `valid` may be the path of another one, of truth values."""
    rows, unit = read_npy(path)
    if isinstance(valid, (str, os.PathLike)):
        valid, _ = read_npy(valid)
    return compress(rows, valid, unit=how.pop('unit', unit), **how)
