"""Random programs of instructions and calls, as files. The same random numbers give the same file.

A program keeps to these registers: x8 points into 64 KiB of data, x9 walks over pages, x18 counts the turns of loops, x20 to x23 are
numbers that it needs, x24 is the address of an atomic, x26 the page of the clock, which it stores to by calls alone; the others are worked with. A wild program keeps to none."""

import elf

DATA, DATA_SIZE = 0x100000, 0x10000
CLOCK, CLOCK_SIZE = 0x200000, 0x1000
TEMPS = (5, 6, 7, 10, 11, 12, 13, 14, 15, 28, 29, 30, 31)
NUMBERS = (0, 1, 2, 7, 8, 63, 64, 255, 4095, 4096, 4097, 65535, 65536, 70000, 0x7fffffff, 0x80000000, 0xffffffff, 0xfffff000,
           0x1000, elf.TEXT, DATA, DATA + 4094, DATA + DATA_SIZE - 2, DATA + DATA_SIZE, 0x40000000, 0x40001000, 0x7fdff000,
           0x7fe00000, 0x7feff000, 0x7fffeff0, 0x7ffff000)


class Program:
    """The words of a program, while they are made."""

    def __init__(self, rng, wild):
        self.rng = rng
        self.wild = wild
        self.words = []
        self.functions = []

    def add(self, *words):
        self.words.extend(words)

    def register(self):
        return self.rng.randrange(32) if self.wild else self.rng.choice(TEMPS)

    def number(self):
        """A number, mostly one at which something changes."""
        kind = self.rng.randrange(4)
        if kind == 0:
            return self.rng.getrandbits(32)
        if kind == 1:
            return self.rng.randrange(256)
        return (self.rng.choice(NUMBERS) + self.rng.choice((0, 0, 0, -1, 1, 2, 4))) & 0xffffffff

    def arithmetic(self):
        rng = self.rng
        rd, left, right = self.register(), self.register(), self.register()
        kind = rng.randrange(6)
        if kind == 0:
            self.add(elf.u_type(rng.getrandbits(32), rd, rng.choice((0x37, 0x17))))
        elif kind == 1:
            self.add(elf.i_type(rng.randrange(4096), left, rng.choice((0, 2, 3, 4, 6, 7)), rd))
        elif kind == 2:
            shift = rng.choice(((1, 0), (5, 0), (5, 0x400)))
            self.add(elf.i_type(rng.randrange(32) | shift[1], left, shift[0], rd))
        elif kind == 3:
            self.add(elf.r_type(1, right, left, rng.randrange(8), rd))
        else:
            funct3 = rng.randrange(8)
            self.add(elf.r_type(0x20 if funct3 in (0, 5) and rng.random() < 0.5 else 0, right, left, funct3, rd))

    def some_arithmetic(self):
        for _ in range(self.rng.randrange(1, 12)):
            self.arithmetic()

    def memory(self):
        """Loads and stores in the data or on the stack, at any byte."""
        rng = self.rng
        for _ in range(rng.randrange(1, 8)):
            base = rng.choice((8, 8, 8, 9, 2))
            offset = rng.randrange(2048) if base == 8 else rng.randrange(-64, 64)
            if rng.random() < 0.5:
                self.add(elf.i_type(offset, base, rng.choice((0, 1, 2, 4, 5)), self.register(), 0x03))
            else:
                self.add(elf.s_type(offset, self.register(), base, rng.randrange(3)))

    def atomics(self):
        """Atomics at a word of the data, with other things between them, calls among these."""
        rng = self.rng
        self.add(*elf.load_value(24, DATA + 4 * rng.randrange(DATA_SIZE // 4) + rng.choice((0,) * 100 + (2,))))
        for _ in range(rng.randrange(1, 8)):
            if rng.random() < 0.3:
                rng.choice((self.some_arithmetic, self.memory, self.call))()
            code = rng.choice((elf.LR, elf.SC) * 4 + elf.CHANGES)
            self.add(elf.atomic(code, self.register(), 24, self.register(), rng.randrange(4)))

    def across_pages(self):
        """Stores that lie across two pages, or begin each page, going up from the start of the data."""
        rng = self.rng
        self.add(*elf.load_value(9, DATA + 4096 * rng.randrange(1, 4)))
        self.add(*elf.load_value(18, rng.randrange(1, 12)))
        self.add(elf.s_type(rng.choice((-2, -1, -3, 0, 4)), self.register(), 9, 2))
        self.add(elf.r_type(0, 20, 9, 0, 9), elf.i_type(-1, 18, 0, 18), elf.b_type(-12, 0, 18, 1))

    def call(self):
        """A call with mostly sensible arguments."""
        rng = self.rng
        number, arguments = rng.choice(CALLS)(self)
        for register, value in zip(range(10, 16), arguments):
            if value is not None:
                self.add(*elf.load_value(register, value))
        self.add(*elf.load_value(17, number))
        self.add(elf.ECALL)

    def loop(self):
        """A short body that is turned a number of times; sometimes for ever."""
        rng = self.rng
        if rng.random() < 0.5:
            self.add(*elf.load_value(18, rng.choice((1, 2, 3, 10, 100, 1000, 20000))))
        head = len(self.words)
        if rng.random() < 0.3:
            self.call()
        for _ in range(rng.randrange(1, 4)):
            rng.choice((self.some_arithmetic, self.memory, self.touch, self.atomics))()
        down = 0 if rng.random() < 0.02 else -1
        self.add(elf.i_type(down, 18, 0, 18), elf.b_type(4 * (head - len(self.words) - 1), 0, 18, 1))

    def touch(self):
        """Walks x9 on by a page, within the data, and stores there."""
        self.add(elf.r_type(0, 20, 9, 0, 9), elf.r_type(0, 21, 9, 7, 9), elf.r_type(0, 22, 9, 6, 9))
        self.add(elf.s_type(self.rng.randrange(0, 64), self.register(), 9, 2))

    def branch(self):
        """A branch over some instructions."""
        skipped = Program(self.rng, self.wild)
        skipped.some_arithmetic()
        offset = 4 * (len(skipped.words) + 1)
        self.add(elf.b_type(offset, self.register(), self.register(), self.rng.choice((0, 1, 4, 5, 6, 7))))
        self.add(*skipped.words)

    def function(self):
        """A call of a function that stands right here, behind a jump over it: by jal or by a register."""
        body = Program(self.rng, self.wild)
        body.some_arithmetic()
        size = 4 * (len(body.words) + 2)
        link = self.rng.choice((1, 1, 1, 5))
        self.add(elf.j_type(size, 0), *body.words, elf.i_type(0, link, 0, 0, 0x67))
        back = -4 * (len(body.words) + 1)
        if self.rng.random() < 0.5:
            self.add(elf.j_type(back, link))
        else:
            self.add(elf.u_type(0, 28, 0x17), elf.i_type(back - 4, 28, 0, link, 0x67))

    def fault(self):
        """Something that ends a run, mostly behind a branch that may go round it."""
        rng = self.rng
        if rng.random() < 0.8:
            self.add(elf.b_type(12, self.register(), self.register(), rng.choice((0, 1, 4, 5, 6, 7))))
        pair = rng.choice((
            (elf.EBREAK, 0), (0, 0), (rng.getrandbits(32), 0x13), (elf.j_type(2, 1), 0x13),
            (elf.u_type(elf.TEXT, 28), elf.s_type(0, 5, 28, 2)), (0x13, elf.i_type(0, 0, 2, 5, 0x03)),
            (elf.u_type(DATA, 28), elf.i_type(0, 28, 0, 1, 0x67)), (0x13, 0x6f)))
        self.add(*pair)


def write_call(program):
    rng = program.rng
    if rng.random() < 0.2:
        return 64, (rng.randrange(4), program.number(), rng.choice((0, 1, 9, program.number())))
    return 64, (rng.choice((1, 1, 1, 2)), DATA + rng.randrange(4096), rng.randrange(200))


def writev_call(program):
    return 66, (program.rng.choice((1, 2, 1, 7)), DATA + 4 * program.rng.randrange(64), program.rng.choice((0, 1, 2, 1024, 1025)))


def read_call(program):
    rng = program.rng
    if rng.random() < 0.2:
        return 63, (rng.randrange(3), program.number(), program.number())
    return 63, (0, DATA + rng.randrange(8192), rng.choice((0, 1, 2, 5, 100, 4096, 5000, 70000)))


def readv_call(program):
    return 65, (program.rng.choice((0, 0, 0, 1)), DATA + 4 * program.rng.randrange(64), program.rng.choice((0, 1, 2, 9, 1025)))


def brk_call(program):
    rng = program.rng
    return 214, (rng.choice((0, CLOCK + CLOCK_SIZE + rng.randrange(0x40000), 0x40000000, program.number())),)


def map_call(program):
    rng = program.rng
    return 222, (0, rng.choice((1, 4096, 8192, 100000, 0x400000, program.number())), rng.choice((3, 3, 3, 1, 2, 0, 7, program.number())),
                 rng.choice((0x22, 0x22, 0x22, 0x32, 0x21, program.number())), 0xffffffff, 0)


def unmap_call(program):
    rng = program.rng
    return 215, (0x40000000 + 4096 * rng.randrange(8) + rng.choice((0, 0, 0, 4)), rng.choice((4096, 8192, 1, 0, program.number())))


def clock_call(program):
    """Stores to a page that is never read; a wild program could read it, so it does not ask."""
    if program.wild:
        return 178, ()
    return 403, (program.rng.choice((0, 1, 1, 2, 99)), CLOCK + program.rng.randrange(CLOCK_SIZE - 16))


def small_call(program):
    return program.rng.choice((29, 96, 172, 178)), (program.rng.randrange(5),)


def any_call(program):
    """Also calls that have no row."""
    return program.rng.choice((29, 63, 64, 65, 66, 96, 172, 178, 214, 215, 222, 1, 56, 57, 62, 278, program.number())), \
        tuple(program.number() for _ in range(6))


CALLS = (write_call,) * 4 + (read_call,) * 3 + (map_call,) * 3 + (small_call,) * 3 + (clock_call,) * 2 + \
    (writev_call, readv_call, brk_call, unmap_call) + (any_call,)


def prologue(program):
    """The registers, and some data: pieces for readv and writev, and numbers."""
    program.add(*elf.load_value(8, DATA), *elf.load_value(9, DATA), *elf.load_value(20, 4096))
    program.add(*elf.load_value(21, 0xffff), *elf.load_value(22, DATA), *elf.load_value(18, program.rng.randrange(1, 50)))
    for register in TEMPS[:6]:
        program.add(*elf.load_value(register, program.number()))


def epilogue(program):
    """Shows some of the data and of the registers, and exits."""
    for place, register in enumerate(TEMPS):
        program.add(elf.s_type(4 * place, register, 8, 2))
    for value, register in ((64, 17), (1, 10), (DATA, 11), (program.rng.choice((64, 256, 4096)), 12)):
        program.add(*elf.load_value(register, value))
    program.add(elf.ECALL, *elf.load_value(17, program.rng.choice((93, 94))), elf.i_type(0, 8, 4, 10, 0x03), elf.ECALL)


def pieces(rng):
    """Data to begin with: small pieces for readv and writev, and anything."""
    data = b''
    for _ in range(64):
        at = rng.choice((DATA + rng.randrange(DATA_SIZE), DATA + 8192, rng.getrandbits(32)))
        size = rng.choice((0, 1, 3, 16, 300, 5000, rng.getrandbits(32)))
        data += at.to_bytes(4, 'little') + size.to_bytes(4, 'little')
    return data + rng.randbytes(rng.choice((0, 100, 3000)))


def segments_of(rng):
    return ((DATA, DATA_SIZE, elf.READ | elf.WRITE, pieces(rng)), (CLOCK, CLOCK_SIZE, elf.READ | elf.WRITE, b''))


def random_program(rng):
    """A file with a program that mostly runs for a while."""
    program = Program(rng, wild=rng.random() < 0.15)
    prologue(program)
    parts = (program.some_arithmetic,) * 4 + (program.memory,) * 5 + (program.atomics,) * 4 + (program.call,) * 6 + (program.loop,) * 5 + \
        (program.across_pages,) * 2 + (program.branch,) * 3 + (program.function,) * 3 + (program.touch,)
    for _ in range(rng.randrange(1, 40)):
        rng.choice(parts)()
        if rng.random() < 0.02:
            program.fault()
    epilogue(program)
    return elf.elf_file(program.words, segments_of(rng))


def random_words(rng):
    """A file with random words: some are instructions."""
    words = []
    for _ in range(rng.randrange(1, 60)):
        word = rng.getrandbits(32)
        if rng.random() < 0.8:
            word = word & ~0x7f | rng.choice((0x33, 0x13, 0x03, 0x23, 0x63, 0x6f, 0x67, 0x37, 0x17, 0x0f, 0x2f, 0x73))
        if word & 0x7f == 0x2f and rng.random() < 0.8:
            word = word & ~0xf8007000 | 0x2000 | rng.choice((elf.LR, elf.SC) + elf.CHANGES) << 27
        elif rng.random() < 0.3:
            word &= ~0xfe000000 | rng.choice((0, 0x2000000, 0x40000000))
        words.append(word & 0xffffffff)
    return elf.elf_file(words, segments_of(rng)[:1])


def stormy_program(rng):
    """A file with a loop of calls, stores and maps that turns often: many cuts by each rule."""
    program = Program(rng, wild=False)
    prologue(program)
    program.add(*elf.load_value(19, rng.choice((5, 50, 500, 3000))))
    head = len(program.words)
    for _ in range(rng.randrange(1, 4)):
        rng.choice((program.call, program.touch, program.across_pages, program.memory, program.atomics, program.some_arithmetic))()
    program.add(elf.i_type(-1, 19, 0, 19))
    program.add(elf.b_type(8, 0, 19, 0), elf.j_type(4 * (head - len(program.words) - 1), 0))
    epilogue(program)
    return elf.elf_file(program.words, segments_of(rng))
