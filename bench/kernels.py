"""Times the kernels: the proved ones, beside the plain and the unrolled ones of kernels.rs and blocks.rs, and those of blocks
beside those with one width or one reference for all rows.

README.md has the limits and what is measured.
"""
import os
import platform
import shutil
import statistics
import subprocess
import sys
from typing import NamedTuple

HERE = os.path.dirname(os.path.abspath(__file__))
MILLION = 1_000_000
BITS = {'u8': 8, 'u32': 32, 'u64': 64}
WIDTHS = (1, 4, 7, 12, 20, 31, 63)      # each in the types that have more bits
KERNELS = ('histogram', 'widths', 'pack', 'pack_v2', 'unpack', 'canonical', 'canonical_v2')
SERIES = ('runs', 'block_runs', 'sequence', 'delta', 'undelta')     # on values of one width alone
FRAMES = ('frame', 'frame_v2')          # at that width too: their time doesn't depend on it
SERIES_WIDTH = 7
PARTS = 'parts'                         # on timestamps alone
TIMES = ('i64', 51)                     # timestamps of 51 bits: 2^51 microseconds are 71 years
PEERS = ('kernels', 'blocks')           # the Rust programs; the last one alone knows timestamps

JUDGED = MILLION        # the size at which other loops' times are limits
PLAIN = 1.02            # how many times the plain loop's time a kernel may take
UNROLLED = 1.4          # and the unrolled loop's
UNROLLED_WIDTH = 32     # the widest rows of that limit
PARTS_JUDGED = 10 * MILLION     # the size of that limit for the sums of parts: columns that no cache holds, as timestamps are
BLOCK_WIDTHS = 1.5      # how many times the time of one histogram the widths of blocks may take: each block also judges up to 65 widths
V1 = 1.1                # how many times the time with one width or reference the same with one for each block may take: it looks up one in 1,024 rows
GROWTH = 1.15           # how many times the plain loop's growth a kernel's may be, in the same minutes: both wait for the same memory
UNCACHED = 10 * MILLION     # the size from which growth is judged: smaller ones lie in the processor's caches

# The kernels that are judged beside another one on the same rows in the same rounds, and how many times its time they may take.
BESIDE = {'widths': ('histogram', BLOCK_WIDTHS), 'pack_v2': ('pack', V1), 'canonical_v2': ('canonical', V1), 'frame_v2': ('frame', V1)}

# The instructions that rt builds for.
PROCESSOR = ('-C', 'target-cpu=x86-64-v2') if platform.machine() == 'x86_64' else ()

# Memory that is given back stays with the program, so that the pages of a later answer are already there.
KEEP_MEMORY = {'MALLOC_MMAP_MAX_': '0', 'MALLOC_TRIM_THRESHOLD_': str(2 ** 62)}


class Size(NamedTuple):
    """The number of rows, the rounds, the timed runs of a kernel in each round, and the bodies that run."""
    rows: int
    rounds: int
    repeats: int
    bodies: tuple


SIZES = (Size(MILLION, 20, 4, ('proved', 'plain', 'unrolled')),
         Size(10 * MILLION, 3, 2, ('proved', 'plain', 'unrolled')),
         Size(40 * MILLION, 3, 2, ('proved', 'plain')))
ROUNDS = max(size.rounds for size in SIZES)


class Kernel(NamedTuple):
    name: str
    type: str
    width: int

    def __str__(self):
        return '%s %s at %d' % self


CASES = [(type_, width) for type_ in BITS for width in WIDTHS if width < BITS[type_]] + [TIMES]


# ---------------------------------------------------------------------------------------------
# measuring

def built(name, directory):
    """The program of a Rust file beside this one, or None where there is no rustc."""
    compiler = shutil.which('rustc')
    if compiler is None:
        return None
    program, source = os.path.join(directory, name), os.path.join(HERE, name + '.rs')
    subprocess.run([compiler, '--edition', '2024', '-O', *PROCESSOR, '-o', program, source], check=True)
    return program


class Times:
    """The times of each body of a kernel, in microseconds, and the digests of what they answered.

    Each run tells the least of its repeats; what counts is the median of the runs.
    """

    def __init__(self):
        self.told, self.digests = {}, set()

    def keep(self, body, micros, digest):
        self.told.setdefault(body, []).append(micros)
        self.digests.add(digest)

    def micros(self, body):
        return statistics.median(self.told[body])

    def ratio(self, other):
        """The proved body's time over another's."""
        return self.micros('proved') / self.micros(other) if other in self.told else None


def run(table, body, command, case, size):
    """Runs a program on rows of a type and width, and keeps what it tells."""
    words = [case[0], str(case[1]), str(size.rows), str(size.repeats)]
    done = subprocess.run(command + words, stdout=subprocess.PIPE, env={**os.environ, **KEEP_MEMORY}, text=True)
    if done.returncode != 0:
        sys.exit('bench/run: %s ended with status %d' % (' '.join(command + words), done.returncode))
    for line in done.stdout.splitlines():
        name, type_, width, rows, micros, digest = line.split()
        times = table.setdefault((Kernel(name, type_, int(width)), int(rows)), Times())
        times.keep(body, int(micros), digest)


def go_round(table, commands, jobs):
    """All rounds over these types, widths and sizes. The programs run in turn; the rounds of a size lie far apart."""
    for number in range(ROUNDS):
        for case, size in jobs:
            if number * size.rounds % ROUNDS < size.rounds:
                for body in size.bodies:
                    for command in commands.get(body, ())[-1 if case == TIMES else 0:]:
                        run(table, body, command, case, size)


def missed(table):
    """The types, widths and sizes of the limits that do not hold; of growth both sizes."""
    for case in CASES:
        faulty = [place for place in range(len(SIZES)) if any(faults_at(table, kernel, place) for kernel in kernels_of([case]))]
        for place in sorted({*faulty, *(place - 1 for place in faulty if place > 0)}):
            yield case, SIZES[place]


def measure(proved, peers):
    """The times of each kernel and number of rows. What misses a limit is measured once more, before it is judged."""
    commands = {'proved': [proved]}
    if None not in peers:
        commands.update((body, [[peer, body] for peer in peers]) for body in ('plain', 'unrolled'))
    table = {}
    go_round(table, commands, [(case, size) for case in CASES for size in SIZES])
    go_round(table, commands, list(missed(table)))
    return table


# ---------------------------------------------------------------------------------------------
# telling

def kernels_of(cases):
    return [Kernel(name, *case) for name in (*KERNELS, *SERIES, *FRAMES, PARTS) for case in cases if is_told(name, *case)]


def is_told(name, type_, width):
    """Whether the programs tell a kernel on rows of this type and width; integers of 8 bits are no long sequence."""
    if name == PARTS or (type_, width) == TIMES:
        return name == PARTS and (type_, width) == TIMES
    return name in KERNELS or width == SERIES_WIDTH and not (name == 'sequence' and type_ == 'u8')


def beside(table, kernel, rows):
    """The time of a kernel of blocks over that of the kernel that it is judged beside; None of another kernel."""
    if kernel.name not in BESIDE:
        return None
    other = kernel._replace(name=BESIDE[kernel.name][0])
    return table[kernel, rows].micros('proved') / table[other, rows].micros('proved')


def growth(table, kernel, place, body='proved'):
    """How many times the time ten times the rows take, by this size and the next smaller one; None where the body didn't run."""
    now, before = table[kernel, SIZES[place].rows], table[kernel, SIZES[place - 1].rows]
    if body not in now.told or body not in before.told:
        return None
    return 10 * now.micros(body) / before.micros(body) * SIZES[place - 1].rows / SIZES[place].rows


def grows(table, kernel, place):
    """The growth over that of the plain loop, where both are beyond the caches; or None."""
    plain = growth(table, kernel, place, 'plain') if SIZES[place].rows > UNCACHED else None
    return plain and growth(table, kernel, place) / plain


def figure(x):
    return '-' if x is None else '%.2f' % x


def lines_of(table):
    """Two lines of heads, and a line for each kernel."""
    heads = [['', '', ''], ['kernel', 'type', 'width']]
    for place, size in enumerate(SIZES):
        columns = ['us', *size.bodies[1:], 'v1'] + ['x10'] * (place > 0) + ['grows'] * (size.rows > UNCACHED)
        heads[0] += ['%d rows' % size.rows] + [''] * (len(columns) - 1)
        heads[1] += columns
    lines = []
    for kernel in kernels_of(CASES):
        line = [kernel.name, kernel.type, '%d' % kernel.width]
        for place, size in enumerate(SIZES):
            times = table[kernel, size.rows]
            line += ['%d' % times.micros('proved'), *(figure(times.ratio(body)) for body in size.bodies[1:])]
            line += [figure(beside(table, kernel, size.rows))]
            line += [figure(growth(table, kernel, place))] if place > 0 else []
            line += [figure(grows(table, kernel, place))] if size.rows > UNCACHED else []
        lines.append(line)
    return heads, lines


def faults_of(table):
    """The limits that do not hold."""
    return [fault for kernel in kernels_of(CASES) for place in range(len(SIZES)) for fault in faults_at(table, kernel, place)]


def loops_of(kernel, rows):
    """How many times the time of the Rust loops a kernel may take at this number of rows, by the loop. `canonical` of frames
    and of parts fills a block of sums before it writes it, which no loop does."""
    if kernel.name == PARTS:
        return {'unrolled': UNROLLED} if rows == PARTS_JUDGED else {}
    if rows != JUDGED or kernel.name in FRAMES:
        return {}
    return {'plain': PLAIN, 'unrolled': UNROLLED} if kernel.width <= UNROLLED_WIDTH else {'plain': PLAIN}


def faults_at(table, kernel, place):
    """The limits that do not hold of a kernel at one number of rows."""
    rows = SIZES[place].rows
    times, found = table[kernel, rows], []
    if len(times.digests) > 1:
        found.append('other bytes than those of the Rust loops')
    for body, limit in loops_of(kernel, rows).items():
        ratio = times.ratio(body)
        if ratio is not None and ratio > limit:
            found.append('%.2f times the time of the %s loop' % (ratio, body))
    ratio = beside(table, kernel, rows) if rows == JUDGED else None
    if ratio is not None and ratio > BESIDE[kernel.name][1]:
        found.append('%.2f times the time of %s' % (ratio, BESIDE[kernel.name][0]))
    grown = grows(table, kernel, place)
    if grown is not None and grown > GROWTH:
        found.append('%.2f times the growth of the plain loop' % grown)
    return ['%s, %d rows: %s' % (kernel, rows, fault) for fault in found]
