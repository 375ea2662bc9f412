"""Random columns, the documents that spell them, and the program that the package is held against."""
import json
import os
import random
import subprocess

TOP = os.path.dirname(os.path.dirname(os.path.dirname(os.path.abspath(__file__))))
PROGRAM = os.environ.get('NUVAIKE_PROGRAM', os.path.join(TOP, 'crates', 'vx', 'out', 'vx'))
MANY = int(os.environ.get('NUVAIKE_MANY', 10_000_000))       # the rows of a long column
COLUMNS = int(os.environ.get('NUVAIKE_COLUMNS', 1_000))      # the random columns
HANDLES = int(os.environ.get('NUVAIKE_HANDLES', 100_000))    # the handles that are made and freed
RANGES = {'u8': (0, 255), 'u16': (0, 65_535), 'u32': (0, (1 << 32) - 1), 'u64': (0, (1 << 64) - 1), 'i8': (-128, 127),
          'i16': (-32_768, 32_767), 'i32': (-(1 << 31), (1 << 31) - 1), 'i64': (-(1 << 63), (1 << 63) - 1)}
KINDS = [*RANGES, 'bool', 'text', 'binary', 'timestamp']
ZONES = [None, '', 'UTC', 'Europe/Berlin', 'no<zone>?']


def vx(form, data):
    """What the program answers to bytes; it must be done."""
    ran = subprocess.run([PROGRAM, form], input=data, capture_output=True, check=False)
    if ran.returncode != 0:
        raise AssertionError('vx %s: status %d, %r' % (form, ran.returncode, ran.stdout[:200]))
    return ran.stdout


def shape(rng, low, high, count):
    """Whole numbers of a shape that some scheme takes: narrow, rising, in runs, few, nearly constant, or of the whole type."""
    kind = rng.randrange(6)
    base = rng.randint(low, high)
    room = min(high - base, rng.choice([1, 100, 10_000]))
    if kind == 0:
        return [base + rng.randint(0, room) for _ in range(count)]
    if kind == 1:
        step = max(0, min(room // max(count, 1), 50))
        return [base + row * step for row in range(count)]
    if kind == 2:
        rows = []
        while len(rows) < count:
            rows += [rng.randint(low, high)] * rng.randint(1, 40)
        return rows[:count]
    if kind == 3:
        few = [rng.randint(low, high) for _ in range(rng.randint(1, 20))]
        return [rng.choice(few) for _ in range(count)]
    if kind == 4:
        return [base if rng.random() < 0.98 else rng.randint(low, high) for _ in range(count)]
    return [rng.randint(low, high) for _ in range(count)]


def text(rng):
    return ''.join(rng.choice('abcdefgh \u00e9\u4e16\U0001f600"\\\n') for _ in range(rng.choice([0, 1, 5, 12, 13, 40])))


def rows_of(rng, kind, count):
    """Rows of a kind, as Python's own values."""
    if kind in RANGES:
        return shape(rng, *RANGES[kind], count)
    if kind == 'timestamp':
        return shape(rng, *rng.choice([RANGES['i64'], (0, 2_000_000_000), (10**18, 10**18 + 10**12)]), count)
    if kind == 'bool':
        share = rng.choice([0, 0.02, 0.5, 1])
        return [rng.random() < share for _ in range(count)]
    few = [text(rng) for _ in range(rng.choice([1, 10, 1_000]))]
    rows = [rng.choice(few) for _ in range(count)]
    return rows if kind == 'text' else [bytes(rng.randrange(256) for _ in range(3)) + row.encode() for row in rows]


class Random:
    """A random column: its kind, its rows, which of them are there (None: nullable by nothing), and its words."""

    def __init__(self, seed):
        rng = self.rng = random.Random(seed)
        self.kind = rng.choice(KINDS)
        self.count = rng.choice([0, 1, 2, 63, 64, 65, 500, 1_023, 1_025, 3_000])
        self.rows = rows_of(rng, self.kind, self.count)
        share = rng.choice([None, 0, 0.05, 0.5, 0.97, 1])
        self.valid = None if share is None else [rng.random() >= share for _ in range(self.count)]
        self.seed = rng.choice([(0,), (rng.getrandbits(64), rng.getrandbits(20)), rng.getrandbits(64)])
        self.unit, self.zone = rng.choice(['ns', 'us', 'ms', 's']), rng.choice(ZONES)

    def there(self):
        return [True] * self.count if self.valid is None else self.valid

    def document(self):
        """The document of the column, as the program reads it."""
        if self.kind == 'timestamp':
            kind = {'timestamp': self.unit, 'nullable': self.valid is not None}
            if self.zone is not None:
                kind['zone'] = self.zone
        else:
            kind = self.kind + ('' if self.valid is None else '?')
        shown = [row.hex() if isinstance(row, bytes) else row for row in self.rows]
        rows = [row if there else None for row, there in zip(shown, self.there())]
        words = {'seed': self.seed} if isinstance(self.seed, int) else {'words': list(self.seed)}
        return json.dumps({'type': kind, 'rows': rows, **words}).encode()

    def expected(self):
        """The rows as decoding gives them: the default beneath nulls."""
        nothing = {'bool': False, 'text': '', 'binary': b''}.get(self.kind, 0)
        return [row if there else nothing for row, there in zip(self.rows, self.there())]
