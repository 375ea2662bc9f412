"""Times the decoding of each node: the proved one, beside a plain loop and one by blocks in Rust (decode.rs), which decode the
same form; and nested columns beside what they hold.

README.md has the limits and what is measured.
"""
import os
import subprocess
import sys
from typing import NamedTuple

import kernels

MILLION = 1_000_000
NULLS = ('full', 'nulls')

PLAIN = 1.02            # how many times the plain loop's time a node may take
UNROLLED = 1.4          # and the time of the loop by blocks
GROWTH = 1.15           # how many times the plain loop's growth from the smallest to the largest size

# What is judged beside another figure of the same run, and how many times its time it may take.
BESIDE = {'struct': ('fields', 1.5), 'list': ('elements', 1.5), 'compress': ('compress-plain', 2.0)}

ROW_BYTES = {'bool': 1}     # the bytes of a plain row, where it isn't a 64-bit integer or a text of eight bytes


class Size(NamedTuple):
    """The number of rows, the rounds, and the timed runs of each node in a round."""
    rows: int
    rounds: int
    repeats: int


SIZES = (Size(MILLION // 10, 10, 10), Size(MILLION, 10, 4), Size(10 * MILLION, 3, 2))
JUDGED = MILLION        # the size at which the loops' times are limits
ROUNDS = max(size.rounds for size in SIZES)


class Node(NamedTuple):
    name: str
    nulls: str

    def __str__(self):
        return self.name if self.nulls == 'full' else '%s with nulls' % self.name


# ---------------------------------------------------------------------------------------------
# measuring

def run(table, body, command, nulls, size):
    """Runs a program on columns of a size, and keeps what it tells."""
    words = command + [nulls, str(size.rows), str(size.repeats)]
    done = subprocess.run(words, stdout=subprocess.PIPE, env={**os.environ, **kernels.KEEP_MEMORY}, text=True)
    if done.returncode != 0:
        sys.exit('bench/run: %s ended with status %d' % (' '.join(words), done.returncode))
    for line in done.stdout.splitlines():
        name, rows, micros, digest = line.split()
        table.setdefault((Node(name, nulls), int(rows)), kernels.Times()).keep(body, int(micros), digest)


def measure(proved, peer):
    """The times of each node and number of rows. The programs run in turn, and the rounds of a size lie far apart."""
    commands = {'proved': [proved, 'decode']}
    if peer is not None:
        commands.update((body, [peer, body]) for body in ('plain', 'unrolled'))
    table = {}
    for number in range(ROUNDS):
        for size in SIZES:
            if number * size.rounds % ROUNDS < size.rounds:
                for nulls in NULLS:
                    for body, command in commands.items():
                        run(table, body, command, nulls, size)
    return table


# ---------------------------------------------------------------------------------------------
# telling

def nodes_of(table):
    return [node for node, rows in table if rows == JUDGED]


def gigabytes(node, rows, micros):
    """Gigabytes of plain bytes a second; a truth value of validity counts a byte."""
    if node.name in BESIDE or any(node.name == other for other, _ in BESIDE.values()):
        return None
    return rows * (ROW_BYTES.get(node.name, 8) + (node.nulls == 'nulls')) / micros / 1000


def beside(table, node, rows):
    """The time of a nested column over that of what it is judged beside; None of another node."""
    if node.name not in BESIDE:
        return None
    other = node._replace(name=BESIDE[node.name][0])
    return table[node, rows].micros('proved') / table[other, rows].micros('proved')


def grows(table, node):
    """The growth from the smallest to the largest size over that of the plain loop; or None."""
    least, most = (table[node, size.rows] for size in (SIZES[0], SIZES[-1]))
    if 'plain' not in least.told:
        return None
    return most.ratio('plain') / least.ratio('plain')


def lines_of(table):
    """Two lines of heads, and a line for each node."""
    heads = [['', ''], ['node', '']]
    for size in SIZES:
        heads[0] += ['%d rows' % size.rows, '', '', '', '']
        heads[1] += ['us', 'GB/s', 'plain', 'unrolled', 'beside']
    heads[0], heads[1] = heads[0] + [''], heads[1] + ['grows']
    lines = []
    for node in nodes_of(table):
        line = [node.name, node.nulls]
        for size in SIZES:
            times = table[node, size.rows]
            micros = times.micros('proved')
            line += ['%d' % micros, kernels.figure(gigabytes(node, size.rows, micros))]
            line += [kernels.figure(times.ratio(body)) for body in ('plain', 'unrolled')]
            line += [kernels.figure(beside(table, node, size.rows))]
        lines.append(line + [kernels.figure(grows(table, node))])
    return heads, lines


def faults_of(table):
    """The limits that do not hold."""
    return [fault for node in nodes_of(table) for fault in faults_at(table, node)]


def faults_at(table, node):
    found = []
    if any(len(table[node, size.rows].digests) > 1 for size in SIZES):
        found.append('other rows than those of the Rust loops')
    for body, limit in (('plain', PLAIN), ('unrolled', UNROLLED)):
        ratio = table[node, JUDGED].ratio(body)
        if ratio is not None and ratio > limit:
            found.append('%.2f times the time of the %s loop' % (ratio, body))
    ratio = beside(table, node, JUDGED)
    if ratio is not None and ratio > BESIDE[node.name][1]:
        found.append('%.2f times the time of %s' % (ratio, BESIDE[node.name][0]))
    grown = grows(table, node)
    if grown is not None and grown > GROWTH:
        found.append('%.2f times the growth of the plain loop' % grown)
    return ['decoding %s, %d rows: %s' % (node, JUDGED, fault) for fault in found]
