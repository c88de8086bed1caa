"""Random cases: words, files, an input. The case of a seed and a number is the same each time, where the examples are."""

import math
import os
import random
from pathlib import Path

import elf
import programs

TOP = Path(__file__).resolve().parent.parent.parent
LIMIT = 33_554_432
TOOLS = ('icount', 'icount', 'bcount', 'mix', 'blocks', 'calls', 'cache', 'cache:1:4', 'cache:2:16', 'cache:4096:4096')
INPUTS = {
    'capitals': b'Every instruction\ncounts once.\n',
    'words': b'The cat and the dog; the end.\nNo line end after THIS\n' * 300,
    'json': b'{"a": [1, 2, {"b": null}], "c": "text", "d": -1.5e3}' + b' ' * 5000,
    'library': b'first\nlast without end',
}
# Of this example the steps depend on the clock.
CLOCKED = ('library',)


class Case:
    """The words behind `run` and a choice of the way, or all words where `ways` is false; the files that lie in the folder by
    name, with the size to which they are grown; the input, and where the standard output goes."""

    def __init__(self, kind, words, files=None, given=b'', ways=True):
        self.kind = kind
        self.words = words
        self.files = files or {}
        self.given = given
        self.ways = ways
        self.grown = {}
        self.out_name = None
        # which request for memory is refused, if any, and whether each later one is, too
        self.refused = None
        # of a live run
        self.workers = 1
        self.clocked = False
        self.limit, self.frames, self.listed = 8, 4096, 0

    def schedule(self, rng, most_budget):
        """Puts random options before the words."""
        chosen = {'--budget': int(10 ** rng.uniform(0, math.log10(most_budget))), '--tool': rng.choice(TOOLS)}
        for name, chance, values in OPTIONS:
            if rng.random() < chance:
                chosen[name] = rng.choice(values)
        if chosen.get('--records', 1024) < 100:
            # a cut behind nearly each call costs much time
            chosen['--budget'] = min(chosen['--budget'], 200_000)
        self.limit, self.frames = chosen.get('--limit', 8), chosen.get('--frames', 4096)
        self.listed = chosen['--budget'] if chosen['--tool'] == 'calls' else 0
        words = [[f'{name}={value}'] if rng.random() < 0.2 else [name, str(value)] for name, value in chosen.items()]
        if rng.random() < 0.5:
            words.append(['--slices'])
        rng.shuffle(words)
        self.words = [word for pair in words for word in pair] + self.words
        return self


OPTIONS = (
    ('--limit', 0.5, (1, 1, 2, 3, 4, 8, 16, 32)),
    ('--poll', 0.6, (1, 1, 2, 7, 16, 64, 1000, 1_048_576)),
    ('--msec', 0.7, (1, 1, 1, 2, 5, 60_000)),
    ('--records', 0.7, (1, 1, 2, 3, 10, 30, 1024, 65_536)),
    ('--frames', 0.5, (64, 64, 65, 100, 512, 4096)),
)


def example_files():
    """The example programs that stand in the repository, and those of guest/ where they were compiled; by name."""
    files = dict(elf.small_files())
    places = list(TOP.glob('crates/*/data/*.elf'))
    places += [place for place in (TOP / 'guest' / 'out').glob('*') if place.is_file() and '.' not in place.name]
    for place in sorted(places):
        files[place.name] = place.read_bytes()
    return files


EXAMPLES = example_files()
COMPILED = [name for name in EXAMPLES if name not in elf.SMALL]


def damage(rng, data):
    """The file with an edit."""
    data = bytearray(data)
    kind = rng.randrange(7)
    if kind == 0:
        for _ in range(rng.randrange(1, 4)):
            data[rng.randrange(min(len(data), rng.choice((64, 256, len(data)))))] ^= 1 << rng.randrange(8)
    elif kind == 1:
        del data[rng.choice((rng.randrange(len(data)), rng.randrange(min(len(data), 300)))):]
    elif kind == 2:
        data += rng.randbytes(rng.choice((1, 3, 40, 5000)))
    elif kind == 3:
        at, size = rng.randrange(len(data)), rng.randrange(1, 100)
        data[at:at + size] = rng.choice((bytes, rng.randbytes))(size)
    else:
        edit_field(rng, data)
    return bytes(data)


def edit_field(rng, data):
    """Gives a field of a header another value, mostly one at which something changes."""
    if len(data) < 52:
        return
    table, sections = int.from_bytes(data[28:32], 'little'), int.from_bytes(data[32:36], 'little')
    places = [(0, elf.FILE_FIELDS), (table + 32 * rng.randrange(max(1, data[44])), elf.SEGMENT_FIELDS)]
    if sections:
        places.append((sections + 40 * rng.randrange(max(1, data[48])), elf.SECTION_FIELDS))
    start, fields = rng.choice(places)
    at, size = rng.choice(fields)
    at += start
    old = int.from_bytes(data[at:at + size], 'little')
    value = rng.choice((0, 1, 2, 3, 6, 7, 8, 32, 33, 243, 0xfff, 0x1000, 0x10000, 0x3ffff000, 0x40000000, 0x80000000, 0xffffffff,
                        len(data), len(data) - 1, len(data) + 1, old + 1, old - 1, old + 4, old ^ 0x1000, rng.getrandbits(32)))
    data[at:at + size] = (value % (1 << 8 * size)).to_bytes(size, 'little')


def damaged(rng):
    """A file with up to four edits, which is run or shown."""
    name = rng.choice(list(EXAMPLES))
    data = EXAMPLES[name]
    for _ in range(rng.choice((1, 1, 1, 2, 4))):
        data = damage(rng, data) if data else data
    if rng.random() < 0.1:
        return Case('damaged', ['view', 'f'], {'f': data}, ways=False)
    return Case('damaged', ['f'], {'f': data}, INPUTS.get(name, b'some input\n')).schedule(rng, 100_000)


WORDS = ('run', 'view', 'demo', 'f', 'f', 'f', '--by', 'serial', 'windows', '--tool', 'icount', 'cache:3:4', 'cache:0:0', 'cache:8:8:8', 'CACHE',
         '--budget', '0', '1', '1000', '1099511627776', '1099511627777', '18446744073709551616', '-1', '+1', '01', '1.0', '1e3', ' 1', '',
         '--limit', '32', '33', '--poll', '1048577', '--msec', '60001', '--records', '65537', '--frames', '63', '--workers', '4',
         '--slices', '--slices=1', '--slices=', '--', '-', '---', '-h', '--help', '-V', '--version', '--limit=2', '--limit=', '--bud', '=', '--=',
         '--tool=mix', '--by=serial', 'é', '\U0001f600', '\n', 'a' * 300, b'\xff\xfe', b'--tool=\xc3', '4294967295', '4294967296', '７')


def words(rng):
    """Random words. Where the first is run, the rest is tried in each way."""
    some = [rng.choice(WORDS) for _ in range(rng.randrange(0, 9))]
    files = {'f': EXAMPLES[rng.choice(('exit', 'count-to-six', 'hello.elf', 'read-twice'))]}
    if rng.random() < 0.7:
        if rng.random() < 0.5:
            some.append('f')
        return Case('words', some, files)
    if some and some[0] in ('demo', 'run') and rng.random() < 0.5:
        some = [some[0], str(rng.getrandbits(32))]
    return Case('words', some, files, ways=False)


def program(rng):
    """A random program under a random schedule."""
    make = rng.choice((programs.random_program,) * 5 + (programs.stormy_program,) * 4 + (programs.random_words,))
    given = rng.randbytes(rng.choice((0, 1, 10, 3000, 3000, 200_000)))
    arguments = [rng.choice(('', 'x', '-a', 'long' * 200)) for _ in range(rng.choice((0, 0, 1, 5)))]
    return Case('program', ['f'] + arguments, {'f': make(rng)}, given).schedule(rng, rng.choice((10_000, 100_000, 1_000_000, 10_000_000)))


def schedule(rng):
    """An example under a random schedule."""
    name = rng.choice(list(EXAMPLES) + COMPILED * 3)
    given = INPUTS.get(name, rng.randbytes(rng.choice((0, 7, 1000))))
    case = Case('schedule', ['f', 'one', 'two words', ''][:rng.randrange(1, 5)], {'f': EXAMPLES[name]}, given)
    case.clocked = name in CLOCKED
    # a budget may end between two looks at the clock
    return case.schedule(rng, 10_000_000 if not case.clocked else 1_000_000_000)


def outside(rng):
    """Files, inputs and outputs that cannot be read or written, and sizes at the limits."""
    kind = rng.randrange(8)
    good = EXAMPLES[rng.choice(('hello.elf', 'exit', 'read-twice'))]
    case = Case('outside', ['f'], {'f': good}, b'ab')
    if kind == 0:
        case.words = [rng.choice(('.', '..', 'nowhere', 'f/f', '/dev/null', '', 'n' * rng.choice((255, 256, 5000)), b'\xff'))]
    elif kind in (1, 2):
        case.out_name = '/dev/full'
        case.files['f'] = programs.stormy_program(rng) if kind == 2 else good
    elif kind == 3:
        case.given = None
    elif kind == 4 and rng.random() < 0.2:
        case.grown['f'] = LIMIT + rng.choice((-1, 0, 1, 2, LIMIT))
    elif kind == 5:
        case.words += ['x' * (65_536 - 4 + rng.randrange(-3, 4))]
    elif kind == 6:
        case.words += ['y' * rng.randrange(3)] * rng.choice((100, 16_383, 21_845, 32_767, 32_768, 40_000))
    else:
        case.given = None if rng.random() < 0.5 else b''
        case.files['f'] = programs.stormy_program(rng)
    return case.schedule(rng, 10_000)


def memory(rng):
    """A random program or an example to which memory is refused, once or from then on."""
    case = rng.choice((program, program, schedule))(rng)
    case.kind = 'memory'
    case.refused = int(10 ** rng.uniform(0, 4)), rng.random() < 0.5
    return case


KINDS = (damaged,) * 5 + (words,) * 3 + (program,) * 7 + (schedule,) * 3 + (outside,) * 2 + (memory,) * 2


def case_of(seed, number):
    """The case with this number of a seed."""
    rng = random.Random(f'{seed} {number}')
    case = rng.choice(KINDS)(rng)
    case.workers = rng.choice((1, 1, 2, 3, 4, 8, 16))
    return case


def place(case, folder):
    """Puts the files of a case into a folder, in place of those that were there."""
    for old in os.listdir(folder):
        os.remove(os.path.join(folder, old))
    for name, data in case.files.items():
        path = os.path.join(folder, name)
        with open(path, 'wb') as file:
            file.write(data)
        if name in case.grown:
            os.truncate(path, case.grown[name])
