"""Small documents whose columns are large, or whose types are: a null row of a list of one size stands for as many defaults
as its type says. Time and memory may follow the plain column, and never a number that is merely written down.

README.md has the limits and what is measured.
"""
import json
from typing import NamedTuple

MEGABYTE = 2 ** 20
FREE_BYTES = 64 * MEGABYTE      # how many bytes any run may have in use
COLUMNS = 3             # and how many times the plain column, in which a truth value counts a byte
FREE_SECONDS = 0.1      # how long any run may take
BYTE_SECONDS = 20e-9    # and how much longer for each byte of the plain column


class Hostile(NamedTuple):
    """A document: its name, type and rows, and the bytes of its plain column, in which a truth value counts one."""
    name: str
    type: object
    rows: list
    plain: int

    def data(self):
        return json.dumps({'type': self.type, 'rows': self.rows, 'words': [0]}, separators=(',', ':')).encode()

    def allowed(self):
        """The bytes that a run may have in use."""
        return FREE_BYTES + COLUMNS * self.plain

    def seconds(self):
        """The time that a run may take."""
        return FREE_SECONDS + BYTE_SECONDS * self.plain


def fixed(items, size, nullable=False):
    return {'fixed': items, 'size': size, 'nullable': nullable}


def struct(fields, nullable=False):
    return {'struct': [['f%d' % place, field] for place, field in enumerate(fields)], 'nullable': nullable}


def deep(items, depth, around):
    """The type within that many others."""
    for _ in range(depth):
        items = around(items)
    return items


def listed(items):
    return {'list': items, 'nullable': True}


def all_defaults(name, items, size, item_bytes):
    """One null list of one size: as many defaults of its items, of so many bytes each."""
    return Hostile(name, fixed(items, size, True), [None], 1 + size * item_bytes)


KINDS = (all_defaults('bytes', 'u8', 64 * MEGABYTE, 1),
         all_defaults('texts', 'text', MEGABYTE, 16),
         all_defaults('timestamps', 'timestamp us', 4 * MEGABYTE, 8),
         all_defaults('nulls', 'null', 64 * MEGABYTE, 0),
         all_defaults('no-fields', struct([]), 64 * MEGABYTE, 0),
         all_defaults('null-fields', struct(['null'] * 40), MEGABYTE, 0),
         all_defaults('lists-of-one', deep('u8', 45, lambda items: fixed(items, 1)), MEGABYTE, 1),
         all_defaults('null-lists', fixed('bool?', 1024, True), MEGABYTE // 16, 1 + 2 * 1024),
         Hostile('null-structs', struct(['u8'] * 40, True), [None] * (MEGABYTE // 16), 41 * (MEGABYTE // 16)),
         Hostile('every-second', fixed('u8', 64, True), [None, [7] * 64] * (MEGABYTE // 128), 65 * (MEGABYTE // 64)),
         Hostile('many-fields', struct(['u8'] * 20_000, True), [None], 1 + 20_000),
         Hostile('deep-lists', deep('u8', 60, listed), [None] * 1000, 8 * 1001 + 1000 + 8 * 59),
         Hostile('long-name', deep({'struct': [['n' * 100_000, 'u8']]}, 60, listed), [None], 8 * 61 + 1))
