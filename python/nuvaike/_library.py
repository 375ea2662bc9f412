"""The library's calls, by ctypes. Every call takes addresses; nothing here keeps an array alive."""
import ctypes
import os

ADDRESS, COUNT, BYTE, WORD = ctypes.c_void_p, ctypes.c_size_t, ctypes.c_uint8, ctypes.c_uint64


class Tree(ctypes.Structure):
    """A handle of the library's: it begins as zeros, and is neither copied nor read."""

    _fields_ = [('at', ctypes.c_void_p), ('full', ctypes.c_bool)]


def _path() -> str:
    """Beside the package's files, or where NUVAIKE_LIBRARY tells."""
    return os.environ.get('NUVAIKE_LIBRARY') or os.path.join(os.path.dirname(os.path.abspath(__file__)), 'libnuvaike.so')


def _load() -> ctypes.CDLL:
    try:
        library = ctypes.CDLL(_path())
    except OSError as error:
        raise ImportError('nuvaike: no library (%s); python/build makes it' % error) from error
    tree, count = ctypes.POINTER(Tree), ctypes.POINTER(ctypes.c_uint64)
    place = [ADDRESS, COUNT]
    valid, words = [BYTE, *place, WORD], [*place, tree]
    out = [tree, *place, *place]
    takes = {'compress_%s' % kind: [*place, *valid, *words] for kind in (*INTEGERS, 'bool')}
    takes.update({'compress_%s' % kind: [*place, *place, *valid, *words] for kind in ('text', 'binary')})
    takes['compress_timestamp'] = [*place, *valid, BYTE, BYTE, *place, *words]
    takes.update({'decode_%s' % kind: out for kind in (*INTEGERS, 'bool', 'timestamp')})
    takes['decode_bytes'] = [tree, *place, *place, *place]
    takes.update({name: [tree, *place, count] for name in ('type', 'listing', 'store')})
    takes.update({name: [tree, count] for name in ('rows', 'nbytes', 'byte_count')})
    takes.update(plain=[tree, tree], open=[*place, tree])
    for name, types in takes.items():
        call = getattr(library, 'nuvaike_' + name)
        call.restype, call.argtypes = ctypes.c_uint8, types
    library.nuvaike_free.restype, library.nuvaike_free.argtypes = None, [tree]
    return library


INTEGERS = ('u8', 'u16', 'u32', 'u64', 'i8', 'i16', 'i32', 'i64')
LIBRARY = _load()


def call(name: str):
    """A call by its name, without the library's own in front."""
    return getattr(LIBRARY, 'nuvaike_' + name)
