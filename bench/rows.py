"""Times row functions: the proved ones on plain columns, beside loops over the same columns in Rust (rows.rs), and on encoded
columns, beside the same function of the decoded column with the decoding in its time; and `query` of documents, beside
`compress`, and of long lists of commands.

README.md has the limits and what is measured.
"""
import json
import os
import statistics
import subprocess
import sys
from typing import NamedTuple

import kernels
from documents import KINDS, MILLION, document

NULLS = ('full', 'nulls')
TEXT = 'text'
DECODED = '-decoded'        # behind the name of a column: the same function of the decoded column, with the decoding
LOOP = 1.2                  # how many times the loop's time a function of plain integers may take
TEXT_LOOP = 1.5             # and one of plain texts
COMMANDS = 11               # how many times as long ten times as many commands may take


class Size(NamedTuple):
    """The number of rows, the rounds, and the timed runs of each function in a round."""
    rows: int
    rounds: int
    repeats: int


SIZES = (Size(MILLION, 5, 4), Size(10 * MILLION, 5, 2))
JUDGED = 10 * MILLION       # the size at which the loops' times and the decoding are limits


class Asked(NamedTuple):
    """A function of a column."""
    name: str
    column: str
    nulls: str

    def __str__(self):
        return '%s of %s%s' % (self.name, self.column, '' if self.nulls == 'full' else ' with nulls')


# ---------------------------------------------------------------------------------------------
# functions

def run(table, body, command, nulls, size):
    """Runs a program on columns of a size, and keeps what it tells. What is told of a decoded column is kept as another body
    of the function of the encoded one, so the two have one digest."""
    words = command + [nulls, str(size.rows), str(size.repeats)]
    done = subprocess.run(words, stdout=subprocess.PIPE, env={**os.environ, **kernels.KEEP_MEMORY}, text=True)
    if done.returncode != 0:
        sys.exit('bench/run: %s ended with status %d' % (' '.join(words), done.returncode))
    for line in done.stdout.splitlines():
        name, column, rows, micros, digest = line.split()
        asked = Asked(name, column.removesuffix(DECODED), nulls)
        told = 'decoded' if column.endswith(DECODED) else body
        table.setdefault((asked, int(rows)), kernels.Times()).keep(told, int(micros), digest)


def measure(proved, peer):
    """The times of each function and number of rows. The programs run in turn."""
    commands = {'proved': [proved]}
    if peer is not None:
        commands['loop'] = [peer]
    table = {}
    for size in SIZES:
        for _ in range(size.rounds):
            for nulls in NULLS:
                for body, command in commands.items():
                    run(table, body, command, nulls, size)
    return table


def over(times, body):
    """The proved body's time over another's, or None. Times are whole microseconds, so the other one counts at least one."""
    return times.micros('proved') / max(times.micros(body), 1) if body in times.told else None


def figure_of(times, body):
    return '%d' % times.micros(body) if body in times.told else '-'


def lines_of(table):
    """Two lines of heads, and a line for each function."""
    heads = [['', '', ''], ['function', 'column', '']]
    for size in SIZES:
        heads[0] += ['%d rows' % size.rows, '', '', '', '']
        heads[1] += ['us', 'loop us', 'ratio', 'decoded us', 'ratio']
    lines = []
    for asked in [asked for asked, rows in table if rows == JUDGED]:
        line = [*asked]
        for size in SIZES:
            times = table[asked, size.rows]
            line.append(figure_of(times, 'proved'))
            for body in ('loop', 'decoded'):
                line += [figure_of(times, body), kernels.figure(over(times, body))]
        lines.append(line)
    return heads, lines


def faults_of(table):
    """The limits that do not hold."""
    return [fault for asked, rows in table if rows == JUDGED for fault in faults_at(table, asked)]


def faults_at(table, asked):
    found = []
    if any(len(table[asked, size.rows].digests) > 1 for size in SIZES):
        found.append('answers differ')
    times, limit = table[asked, JUDGED], TEXT_LOOP if asked.column == TEXT else LOOP
    ratio = over(times, 'loop')
    if ratio is not None and ratio > limit:
        found.append('%.2f times the time of the loop' % ratio)
    ratio = over(times, 'decoded')
    if ratio is not None and ratio >= 1:
        found.append('%.2f times the time with decoding' % ratio)
    return ['%s, %d rows: %s' % (asked, JUDGED, fault) for fault in found]


# ---------------------------------------------------------------------------------------------
# queries

class Asking(NamedTuple):
    """Ten commands, and the documents that they are asked of."""
    kinds: tuple
    commands: tuple


PART = (MILLION // 10, MILLION - MILLION // 10)     # the slice that all but a fifth of a document's rows stay of

ASKINGS = (
    Asking(('digits', 'small', 'small-nulls'),
           (['is_constant'], ['null_count'], ['min_max'], ['sum'], ['row', MILLION // 2], ['slice', *PART], ['compare', '<', 500],
            ['between', 250, 750, False, True], ['sum'], ['row', 0])),
    Asking(('keys', 'unique-nulls'),
           (['is_constant'], ['null_count'], ['min_max'], ['row', MILLION // 2], ['slice', *PART], ['compare', '<', 'k5'],
            ['between', 'k2', 'k7', False, True], ['like', '%9%'], ['null_count'], ['row', 0])))
LISTED = 'small'                            # the document of the long lists of commands
LISTED_ROWS = MILLION // 10
LISTS = (0, 1_000, 10_000)                  # and how long these are


def listed(count):
    """So many commands, `row` and `slice` in turn. Each slice drops the last row, so each touches about as many rows."""
    return [['row', place] if place % 2 == 0 else ['slice', 0, LISTED_ROWS - 1 - place // 2] for place in range(count)]


def with_commands(data, commands):
    """A document with commands."""
    return data[:-1] + b',"commands":' + json.dumps(list(commands), separators=(',', ':')).encode() + b'}'


class Queried:
    """The seconds of whole runs on one document under each name."""

    def __init__(self, name, rows):
        self.name, self.rows, self.told = name, rows, {}

    def keep(self, name, seconds):
        self.told.setdefault(name, []).append(seconds)

    def get(self, name):
        return statistics.median(self.told[name])


def query_round(row, args, bench, word, name, path):
    """One run of the program. `bench` has `timed` of bench/run."""
    seconds, status, out, errors = bench.timed([args.program, word], path)
    if status != 0:
        sys.exit('bench/run: %s of %s ended with status %d: %s' % (word, row.name, status, (out + errors)[:200].decode('utf-8', 'replace')))
    row.keep(name, seconds)


def measure_queries(args, bench, directory):
    """A row for each document with ten commands, under `compress` and `query`, and one for the long lists, under their
    lengths."""
    table, path = [], os.path.join(directory, 'document.json')
    kinds = {kind.name: kind for kind in KINDS}
    for asking in ASKINGS:
        for name in asking.kinds:
            row = Queried(name, MILLION)
            with open(path, 'wb') as file:
                file.write(with_commands(document(kinds[name], MILLION), asking.commands))
            for _ in range(args.repeats):
                for word in ('compress', 'query'):
                    query_round(row, args, bench, word, word, path)
            table.append(row)
    lists, data = Queried(LISTED, LISTED_ROWS), document(kinds[LISTED], LISTED_ROWS)
    for _ in range(args.repeats):
        for count in LISTS:
            with open(path, 'wb') as file:
                file.write(with_commands(data, listed(count)))
            query_round(lists, args, bench, 'query', count, path)
    return table, lists


QUERY_HEAD = ('document', 'rows', 'compress', 'query', 'ratio')


def query_lines_of(table):
    """A line for each document, in milliseconds."""
    return [QUERY_HEAD], [(row.name, '%d' % row.rows, '%.1f' % (1000 * row.get('compress')), '%.1f' % (1000 * row.get('query')),
                           '%.2f' % (row.get('query') / row.get('compress'))) for row in table]


def growth_of(lists):
    """How many times as long ten times as many commands take, without the time that the document takes with none."""
    none, few, many = (lists.get(count) for count in LISTS)
    return (many - none) / max(few - none, 1e-6)


LIST_HEAD = ('document', 'rows', *('%d commands' % count for count in LISTS), 'growth')


def list_lines_of(lists):
    return [LIST_HEAD], [(lists.name, '%d' % lists.rows, *('%.1f' % (1000 * lists.get(count)) for count in LISTS), '%.2fx' % growth_of(lists))]


def query_faults_of(lists):
    """The limit that does not hold."""
    growth = growth_of(lists)
    return ['%d commands take %.2f times the time of %d' % (LISTS[2], growth, LISTS[1])] if growth > COMMANDS else []
