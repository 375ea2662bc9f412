"""Sample words, which place the samples of long columns: a caller's own, or those that a seed stands for."""
import ctypes
import operator
from typing import Iterable, Tuple, Union

MANY = 1_024            # the words that a seed stands for
WORD = (1 << 64) - 1
FACTOR = 6_364_136_223_846_793_005      # of the generator's steps
SPREAD = 11_634_580_027_462_260_723     # of the steps that spread a seed over the generator's state


def _output(state: int) -> int:
    """The 32 bits that a state gives: PCG XSH RR 64/32."""
    bits = (state >> 18 ^ state) >> 27 & 0xFFFF_FFFF
    turn = state >> 59
    return (bits >> turn | bits << (-turn & 31)) & 0xFFFF_FFFF


def words_of(seed: int) -> Tuple[int, ...]:
    """The 1,024 sample words that a seed from 0 to 2^64 - 1 stands for, as in a document of the program.

    >>> words_of(7)[:2]
    (2442223337, 414063806)
    """
    state = operator.index(seed)
    if not 0 <= state <= WORD:
        raise ValueError('a seed lies from 0 to 2^64 - 1')
    parts = []
    for _ in range(4):
        state = state * FACTOR + SPREAD & WORD
        parts.append(_output(state))
    state, step = parts[0] | parts[1] << 32, (parts[2] | parts[3] << 32) | 1
    state = (state + step) * FACTOR + step & WORD
    words = []
    for _ in range(MANY):
        words.append(_output(state))
        state = state * FACTOR + step & WORD
    return tuple(words)


def word_array(seed: Union[int, Iterable[int]]) -> 'ctypes.Array[ctypes.c_uint64]':
    """The words of a seed, or the words themselves, as an array of C's. The seed's words are kept, since making them takes time."""
    try:
        number = operator.index(seed)   # type: ignore[arg-type]
    except TypeError:
        words = tuple(map(operator.index, seed))    # type: ignore[arg-type]
        if not all(0 <= word <= WORD for word in words):
            raise ValueError('a sample word lies from 0 to 2^64 - 1') from None
        return (ctypes.c_uint64 * len(words))(*words)
    if number not in _KEPT:
        if len(_KEPT) >= 64:
            _KEPT.clear()
        _KEPT[number] = (ctypes.c_uint64 * MANY)(*words_of(number))
    return _KEPT[number]


_KEPT: dict = {}
