#!/usr/bin/env python3
"""Writes the document clock_changes.json: each moment at which the clocks of a time zone are changed.

    examples/clock_changes.py [FOLDER] > examples/clock_changes.json
    examples/clock_changes.py --names [FOLDER] > examples/clock_names.json

With --names it writes for each of these moments, in the same order, the letters of the time that begins there, as CEST.
FOLDER is /usr/share/zoneinfo unless it is given: the compiled time zone database, as Debian's package tzdata has it,
with its list of names in tzdata.zi. The column has the names in alphabetical order, and of each the moments in their
order, as seconds since 1970 began. A moment that the database lists and at which the time of day stays, as where only
the name of the time changes, is left out. Python 3 alone is needed.
"""
import os
import struct
import sys

HEAD = struct.Struct('>4sc15x6I')       # of a block: what it is, a version, and how many there are of each item
KIND = struct.Struct('>iBB')            # of local time: seconds from universal time, a byte that doesn't count, and
                                        # where its letters begin


def head_of(data, start):
    """Of the block that begins at a place: how many moments, kinds of local time and letters, and how many bytes behind."""
    magic, _, utc, standard, leaps, moments, kinds, letters = HEAD.unpack_from(data, start)
    if magic != b'TZif':
        sys.exit('clock_changes.py: no compiled time zone')
    return moments, kinds, letters, leaps, utc + standard


def changes_of(path):
    """The moments at which a zone's clocks are changed, each with the letters of the time that begins, by the second block
    of its file, which has 64-bit moments."""
    with open(path, 'rb') as file:
        data = file.read()
    moments, kinds, letters, leaps, rest = head_of(data, 0)
    start = HEAD.size + moments * 5 + kinds * KIND.size + letters + leaps * 8 + rest
    count, kinds, *_ = head_of(data, start)
    start += HEAD.size
    moments = struct.unpack_from('>%dq' % count, data, start)
    numbers = data[start + 8 * count:start + 9 * count]
    times = [KIND.unpack_from(data, start + 9 * count + KIND.size * kind) for kind in range(kinds)]
    letters = data[start + 9 * count + KIND.size * kinds:]
    before = [times[0]] + [times[number] for number in numbers]
    return [(moment, letters[times[number][2]:].split(b'\0')[0].decode())
            for moment, number, old in zip(moments, numbers, before) if times[number][0] != old[0]]


def names_of(folder):
    """The names of all zones: those that have rules of their own, and those that stand for another."""
    with open(os.path.join(folder, 'tzdata.zi'), encoding='utf-8') as file:
        lines = [line.split() for line in file]
    return sorted([words[1] for words in lines if words[:1] == ['Z']] + [words[2] for words in lines if words[:1] == ['L']])


def main():
    words = sys.argv[1:]
    named = words[:1] == ['--names']
    folder = words[named] if len(words) > named else '/usr/share/zoneinfo'
    changes = [change for name in names_of(folder) for change in changes_of(os.path.join(folder, name))]
    if named:
        print('{"type":"text","rows":[%s],"words":[0]}' % ','.join('"%s"' % letters for _, letters in changes))
    else:
        print('{"type":"i64","rows":[%s],"words":[0]}' % ','.join(str(moment) for moment, _ in changes))


if __name__ == '__main__':
    main()
