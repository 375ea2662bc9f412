"""Times files: `write_file` and `read_file` beside a copy of the same bytes in Rust (files.rs), and beside the peer on texts;
and `store` and `rows` of the large documents beside `compress`.

README.md has the limits and what is measured.
"""
import os
import statistics
import subprocess
import sys
from typing import NamedTuple

import kernels
from documents import KINDS, MILLION, document

COPY = 0.4              # how many times the bytes a second of a copy packed integers are written and read at least
PEER = 2.0              # how many times the peer's time writing and reading texts may take
ROUNDS = 5              # how often each program runs
REPEATS = 3             # the timed runs of a call in each round
CALLS = ('write', 'read')


class Tree(NamedTuple):
    name: str
    rows: int


TREES = (Tree('packed', 10 * MILLION), Tree('plain', 10 * MILLION), Tree('pieces', MILLION), Tree('texts', MILLION))
BESIDE_COPY = ('packed',)                       # the trees that are judged beside a copy
BESIDE_PEER = ('unique', 'unique-nulls')        # the documents that are judged beside the peer: each text stands in their file


# ---------------------------------------------------------------------------------------------
# trees

class Calls:
    """What the programs told of one tree: microseconds of each call and of a copy, and the bytes of the file with its digest."""

    def __init__(self):
        self.told, self.files = {}, set()

    def micros(self, call):
        return statistics.median(self.told[call]) if call in self.told else None

    def speed(self, call):
        """Gigabytes a second, or None."""
        micros = self.micros(call)
        return None if micros is None else self.size() / max(micros, 1) / 1000

    def size(self):
        return max(size for size, _ in self.files)

    def share(self, call):
        """The bytes a second over those of a copy, or None."""
        return self.speed(call) / self.speed('copy') if 'copy' in self.told else None


def measure(proved, peer):
    """What is told of each tree. The programs run in turn."""
    table = {tree: Calls() for tree in TREES}
    commands = [[proved, 'files']] + [[peer]] * (peer is not None)
    for _ in range(ROUNDS):
        for tree, calls in table.items():
            for command in commands:
                words = [*command, tree.name, str(tree.rows), str(REPEATS)]
                done = subprocess.run(words, stdout=subprocess.PIPE, env={**os.environ, **kernels.KEEP_MEMORY}, text=True)
                if done.returncode != 0:
                    sys.exit('bench/run: %s ended with status %d' % (' '.join(words), done.returncode))
                for line in done.stdout.splitlines():
                    call, _, _, micros, size, digest = line.split()
                    calls.told.setdefault(call, []).append(int(micros))
                    calls.files.add((int(size), digest))
    return table


HEAD = ('tree', 'rows', 'bytes', 'write us', 'GB/s', 'of copy', 'read us', 'GB/s', 'of copy', 'copy us', 'GB/s')


def lines_of(table):
    lines = []
    for tree, calls in table.items():
        line = [tree.name, '%d' % tree.rows, '%d' % calls.size()]
        for call in CALLS:
            line += ['%d' % calls.micros(call), kernels.figure(calls.speed(call)), kernels.figure(calls.share(call))]
        lines.append(line + ['-' if calls.micros('copy') is None else '%d' % calls.micros('copy'), kernels.figure(calls.speed('copy'))])
    return [HEAD], lines


def faults_of(table):
    """The limits that do not hold."""
    found = []
    for tree, calls in table.items():
        if len(calls.files) > 1:
            found.append('the file of %s: other bytes than those of Rust' % tree.name)
        for call in CALLS if tree.name in BESIDE_COPY else ():
            share = calls.share(call)
            if share is not None and share < COPY:
                found.append('the file of %s: %s at %.2f times the bytes a second of a copy' % (tree.name, call, share))
    return found


# ---------------------------------------------------------------------------------------------
# documents

class Stored:
    """What was measured on a document and its file: the seconds of whole runs under `compress`, `store` and `rows`, and of
    the two calls, `write` and `read`, and `peer write` and `peer read` of the peer."""

    def __init__(self, kind, rows, size):
        self.kind, self.rows, self.size, self.file_size = kind, rows, size, 0
        self.told, self.faults = {}, set()

    def keep(self, name, seconds):
        if seconds is not None:
            self.told.setdefault(name, []).append(seconds)

    def get(self, name):
        return statistics.median(self.told[name]) if name in self.told else None

    def over(self, one, other):
        return self.get(one) / self.get(other) if self.get(one) is not None and self.get(other) else None


def measure_round(row, args, bench, data, path, file_path):
    """Each program once, one after the other, on a document or its file. `bench` has `timed` and `phases_of` of bench/run."""
    for word, source in (('compress', path), ('store', path), ('rows', file_path)):
        seconds, status, out, errors = bench.timed([args.program, word], source)
        if status != 0:
            sys.exit('bench/run: %s of %s ended with status %d: %s' % (word, row.kind.name, status, (out + errors)[:200].decode('utf-8', 'replace')))
        row.keep(word, seconds)
        if word == 'store':
            row.file_size = len(out)
            with open(file_path, 'wb') as file:
                file.write(out)
        elif word == 'rows' and out != data + b'\n':
            row.faults.add('does not come back as it was')
    if args.phases:
        _, status, out, _ = bench.timed([args.phases, 'store'], path, kernels.KEEP_MEMORY)
        told = bench.phases_of(out) if status == 0 else {}
        for call in CALLS:
            row.keep(call, told[call] / 1000 if call in told else None)
    if args.peer and row.kind.type in ('text', 'text?'):
        measure_peer(row, args, bench, path, file_path)


def measure_peer(row, args, bench, path, file_path):
    """The peer's times of both calls. It tells that of writing under `print`, and that of reading under `compress`."""
    _, status, out, errors = bench.timed([*args.peer, '--time', 'store'], path)
    if status == 0:
        row.keep('peer write', bench.phases_of(errors).get('print'))
        with open(file_path, 'rb') as file:
            if file.read() != out:
                row.faults.add('another file than the peer\'s')
    _, status, _, errors = bench.timed([*args.peer, '--time', 'show'], file_path)
    if status == 0:
        row.keep('peer read', bench.phases_of(errors).get('compress'))


def measure_documents(args, bench, directory):
    """A row for each document, at its largest size of at most a million rows."""
    table, path, file_path = [], os.path.join(directory, 'document.json'), os.path.join(directory, 'file')
    for kind in KINDS:
        rows = max(size for size in kind.sizes if size <= MILLION)
        data = document(kind, rows)
        with open(path, 'wb') as file:
            file.write(data)
        row = Stored(kind, rows, len(data))
        for _ in range(args.repeats):
            measure_round(row, args, bench, data, path, file_path)
        table.append(row)
    return table


DOCUMENT_HEAD = ('document', 'rows', 'bytes', 'file bytes', 'compress', 'store', 'ratio', 'rows', 'ratio', 'write', 'peer', 'ratio', 'read', 'peer', 'ratio')


def document_lines_of(table):
    """A line for each document, in milliseconds."""
    lines = []
    for row in table:
        line = [row.kind.name, '%d' % row.rows, '%d' % row.size, '%d' % row.file_size]
        for name, other in (('compress', None), ('store', 'compress'), ('rows', 'compress')):
            line += ['%.1f' % (1000 * row.get(name))] + [kernels.figure(row.over(name, other))] * (other is not None)
        for call in CALLS:
            line += [kernels.figure(seconds and 1000 * seconds) for seconds in (row.get(call), row.get('peer ' + call))]
            line += [kernels.figure(row.over(call, 'peer ' + call))]
        lines.append(line)
    return [DOCUMENT_HEAD], lines


def document_faults_of(table):
    """The limits that do not hold of the documents."""
    found = ['%s: %s' % (row.kind.name, fault) for row in table for fault in sorted(row.faults)]
    for row in table:
        for call in CALLS if row.kind.name in BESIDE_PEER else ():
            ratio = row.over(call, 'peer ' + call)
            if ratio is not None and ratio > PEER:
                found.append('the file of %s: %s takes %.2f times the peer\'s time' % (row.kind.name, call, ratio))
    return found


def not_judged(args, peer, table):
    """The limits that could not be judged, each with the reason."""
    found = [] if peer else ['files beside a copy: rustc is not here']
    if any(row.over(call, 'peer ' + call) is None for row in table if row.kind.name in BESIDE_PEER for call in CALLS):
        found.append('files of texts beside the peer: %s' % ('it told no times' if args.peer else 'PEER names none'))
    return found
