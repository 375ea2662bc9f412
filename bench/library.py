"""Times the package for Python on long columns, beside the time that its calls of the library take of it, beside a program in C on
the same columns (library.c), and beside lz4 and zstd on the same bytes.

README.md has the limits and what is measured.
"""
import os
import re
import shutil
import statistics
import subprocess
import sys
import time
from typing import Callable, NamedTuple

import kernels

try:
    import numpy
except ImportError:
    numpy = None

HERE = os.path.dirname(os.path.abspath(__file__))
ROWS = 10_000_000
ROUNDS = 5
REPEATS = 2             # each call of the program for C: the first one pays the first touch of its pages
ADDED = 1.05            # how many times the time of the library's own calls the package may take
CALLS = ('compress', 'store', 'open', 'decode')
JUDGED = ('compress', 'decode')
CODECS = {'lz4': ('lz4', '-b1'), 'zstd -1': ('zstd', '-b1', '-e1'), 'zstd -3': ('zstd', '-b3', '-e3')}
TOLD = re.compile(r'-> *(\d+) *\([^)]*\) *, *([\d.]+) MB/s *, *([\d.]+) MB/s')


class Kind(NamedTuple):
    """A column: its type, and its values out of a source of random numbers; the last one has nulls, too."""
    name: str
    type: str
    values: Callable
    nulls: bool = False


def thousand(source, rows):
    return source.integers(-2 ** 63, 2 ** 63, 1000, dtype='i8')[source.integers(0, 1000, rows)]


KINDS = (
    Kind('offset', 'i64', lambda source, rows: 10 ** 12 + source.integers(0, 1000, rows)),
    Kind('ascending', 'i64', lambda source, rows: numpy.cumsum(source.integers(0, 1000, rows))),
    Kind('thousand', 'i64', thousand),
    Kind('runs', 'u32', lambda source, rows: numpy.arange(rows) // 100 % 16),
    Kind('full-range', 'i64', lambda source, rows: source.integers(-2 ** 63, 2 ** 63, rows, dtype='i8')),
    Kind('small-nulls', 'i32', lambda source, rows: source.integers(0, 1000, rows), nulls=True),
)


def column_of(kind):
    """The values of a column, and its mask or None."""
    source = numpy.random.default_rng(7)
    values = kind.values(source, ROWS).astype(kind.type[0] + str(int(kind.type[1:]) // 8))
    if not kind.nulls:
        return values, None
    valid = source.random(ROWS) >= 0.1
    return numpy.where(valid, values, values.dtype.type(0)), valid


# ---------------------------------------------------------------------------------------------
# measuring

class Calls:
    """What was told of one column: the microseconds of each call in each round, by the package, by the library's calls within it,
    and by the program in C, and the bytes."""

    def __init__(self, plain):
        self.plain, self.told, self.bytes = plain, {}, {}

    def keep(self, body, call, micros, size):
        self.told.setdefault((body, call), []).append(micros)
        self.bytes[call] = size

    def micros(self, body, call):
        return min(self.told[body, call])

    def added(self, call):
        """The package's time over that of the library's calls within it, the median of the rounds."""
        pairs = zip(self.told['package', call], self.told['within', call])
        return statistics.median(whole / max(within, 1) for whole, within in pairs)

    def ratio(self, call):
        """The package's time over that of the program in C."""
        return self.micros('package', call) / max(self.micros('c', call), 1)

    def speed(self, body, call):
        """Megabytes of the plain values a second."""
        return self.plain / max(self.micros(body, call), 1)


def package_of(folder):
    """The package that python/build made, or None."""
    if not os.path.exists(os.path.join(folder, 'nuvaike', 'libnuvaike.so')):
        return None
    sys.path.insert(0, folder)
    import nuvaike
    return nuvaike


def built(folder, directory):
    """The program of library.c over the shared object of a folder, or None where there is no C compiler."""
    compiler = shutil.which('cc')
    if compiler is None:
        return None
    program, library = os.path.join(directory, 'library'), os.path.join(folder, 'c')
    subprocess.run([compiler, '-std=gnu99', '-O2', '-I' + library, os.path.join(HERE, 'library.c'),
                    os.path.join(library, 'libnuvaike.so'), '-Wl,-rpath,' + library, '-o', program], check=True)
    return program


class Within:
    """The calls of the library, with the nanoseconds of the process that they have taken."""

    def __init__(self, call):
        self.call, self.nanos = call, 0

    def __call__(self, name):
        body = self.call(name)

        def timed_body(*words):
            begin = time.process_time_ns()
            status = body(*words)
            self.nanos += time.process_time_ns() - begin
            return status

        return timed_body


def run_package(nuvaike, values, valid, calls):
    """Each call of the package once."""
    within = Within(nuvaike._column.call)
    nuvaike._column.call = within

    def timed(call, body, size_of):
        within.nanos, begin = 0, time.process_time_ns()
        answer = body()
        micros, inside = (time.process_time_ns() - begin) // 1000, within.nanos // 1000
        calls.keep('package', call, micros, size_of(answer))
        calls.keep('within', call, inside, size_of(answer))
        return answer

    try:
        column = timed('compress', lambda: nuvaike.compress(values, valid), lambda column: column.nbytes)
        data = timed('store', column.to_bytes, len)
        timed('open', lambda: nuvaike.from_bytes(data), len)
        back, mask = timed('decode', column.decode, lambda answer: answer[0].nbytes)
    finally:
        nuvaike._column.call = within.call
    same = mask is None if valid is None else numpy.array_equal(mask, valid)
    if not same or not numpy.array_equal(back, values):
        sys.exit('bench/run: the package gives other rows back')


def run_c(program, kind, paths, calls):
    """Each call for C, in a process of its own."""
    words = [program, kind.type, str(ROWS), str(REPEATS), *paths]
    done = subprocess.run(words, stdout=subprocess.PIPE, text=True)
    if done.returncode != 0:
        sys.exit('bench/run: %s ended with status %d' % (' '.join(words), done.returncode))
    for line in done.stdout.splitlines():
        call, micros, size = line.split()
        calls.keep('c', call, int(micros), int(size))


def run_codecs(path):
    """Of each codec that is here: the bytes, and megabytes a second in and out."""
    found = {}
    for name, command in CODECS.items():
        if shutil.which(command[0]) is None:
            continue
        done = subprocess.run([*command, '-i1', path], stdout=subprocess.PIPE, stderr=subprocess.STDOUT)
        told = TOLD.findall(done.stdout.decode('utf-8', 'replace'))
        if done.returncode == 0 and told:
            size, into, out = told[-1]
            found[name] = int(size), float(into), float(out)
    return found


def measure(nuvaike, program, directory):
    """What is told of each column, and of its bytes by each codec. The package and the program run in turn."""
    table = {}
    for kind in KINDS:
        values, valid = column_of(kind)
        paths = [os.path.join(directory, 'values')] + [os.path.join(directory, 'valid')] * kind.nulls
        values.tofile(paths[0])
        if valid is not None:
            valid.tofile(paths[1])
        calls = Calls(values.nbytes)
        for _ in range(ROUNDS):
            run_package(nuvaike, values, valid, calls)
            run_c(program, kind, paths, calls)
        table[kind] = calls, run_codecs(paths[0])
    return table


# ---------------------------------------------------------------------------------------------
# telling

HEAD = ('column', 'type', 'MB', 'tree MB', *(cell for name in ('in', 'out', 'to_bytes', 'from_bytes') for cell in (name, 'added', 'of C')))
CODEC_HEAD = ('column', 'MB', *(cell for name in CODECS for cell in (name + ' MB', 'in', 'out')))


def lines_of(table):
    lines = []
    for kind, (calls, _) in table.items():
        line = [kind.name, kind.type + '?' * kind.nulls, '%.1f' % (calls.plain / 1e6), '%.1f' % (calls.bytes['compress'] / 1e6)]
        for call in ('compress', 'decode', 'store', 'open'):
            line += ['%.0f' % calls.speed('package', call), '%.3f' % calls.added(call), '%.2f' % calls.ratio(call)]
        lines.append(line)
    return [HEAD], lines


def codec_lines_of(table):
    lines = []
    for kind, (calls, codecs) in table.items():
        line = [kind.name, '%.1f' % (calls.plain / 1e6)]
        for name in CODECS:
            size, into, out = codecs.get(name, (None, None, None))
            line += [kernels.figure(size and size / 1e6), kernels.figure(into), kernels.figure(out)]
        lines.append(line)
    return [CODEC_HEAD], lines


def faults_of(table):
    """The limits that do not hold."""
    return ['%s of %s takes %.3f times the time of the library\'s calls in it' % (call, kind.name, calls.added(call))
            for kind, (calls, _) in table.items() for call in JUDGED if calls.added(call) > ADDED]
