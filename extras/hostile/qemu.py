"""Compares programs of random instructions with qemu-riscv32: what they compute, and how they end.

What qemu does otherwise is left out: a call or a store between lr.w and sc.w, and an sc.w that may not store and has nothing reserved."""

import os
import random
import shutil
import tempfile

import elf
import running

# x8 is the middle of a page of data, x24 the address of an atomic; all others are worked with.
DATA, BASE, PLACE = 0x100000, 8, 24
OTHERS = [register for register in range(32) if register != BASE]
NUMBERS = (0, 1, 2, 31, 32, 0x7f, 0x80, 0xff, 0x7fff, 0x8000, 0xffff, 0x7fffffff, 0x80000000, 0x80000001, 0xfffffffe, 0xffffffff)
REGISTER_KINDS = [(0, three) for three in range(8)] + [(0x20, 0), (0x20, 5)] + [(1, three) for three in range(8)]


def number(rng):
    return rng.choice(NUMBERS) if rng.random() < 0.5 else rng.getrandbits(32)


def arithmetic(rng):
    """One word that computes."""
    rd, left, right = rng.choice(OTHERS), rng.randrange(32), rng.randrange(32)
    kind = rng.randrange(4)
    if kind == 0:
        return elf.u_type(rng.getrandbits(32), rd, rng.choice((0x37, 0x17)))
    if kind == 1:
        three = rng.choice((0, 2, 3, 4, 6, 7))
        return elf.i_type(rng.randrange(4096), left, three, rd)
    if kind == 2:
        three, upper = rng.choice(((1, 0), (5, 0), (5, 0x400)))
        return elf.i_type(rng.randrange(32) | upper, left, three, rd)
    seven, three = rng.choice(REGISTER_KINDS)
    return elf.r_type(seven, right, left, three, rd)


def load(rng):
    return elf.i_type(rng.randrange(-2048, 2044), BASE, rng.choice((0, 1, 2, 4, 5)), rng.choice(OTHERS), 0x03)


def store(rng):
    return elf.s_type(rng.randrange(-2048, 2044), rng.randrange(32), BASE, rng.randrange(3))


def place(address):
    return elf.load_value(PLACE, address)


def word_of_data(rng):
    return DATA + 4 * rng.choice((0, 1, 2, 1023, rng.randrange(1024)))


def atomic(rng, code):
    return elf.atomic(code, rng.randrange(32), PLACE, rng.choice(OTHERS), rng.randrange(4))


def pair(rng):
    """lr.w and then sc.w, mostly at the same address, with words between that store nothing."""
    first = word_of_data(rng)
    words = [*place(first), atomic(rng, elf.LR)]
    for _ in range(rng.randrange(4)):
        words.append(rng.choice((arithmetic, load))(rng))
    if rng.random() < 0.2:
        words += [*place(word_of_data(rng)), atomic(rng, elf.LR)]
    words += [*place(rng.choice((first, first, first, word_of_data(rng)))), atomic(rng, elf.SC)]
    if rng.random() < 0.3:
        words += [*place(first), atomic(rng, elf.SC)]
    return words


def branch(rng):
    """A branch, or a jump, over one word, and the word."""
    over = elf.j_type(8, rng.choice(OTHERS)) if rng.random() < 0.2 else \
        elf.b_type(8, rng.randrange(32), rng.randrange(32), rng.choice((0, 1, 4, 5, 6, 7)))
    return [over, arithmetic(rng)]


def part(rng):
    """Some words, whatever stood before them."""
    kind = rng.randrange(10)
    if kind < 3:
        return [arithmetic(rng)]
    if kind < 5:
        return [rng.choice((load, store))(rng)]
    if kind == 5:
        return branch(rng)
    if kind == 6:
        return pair(rng)
    if kind == 7:
        return [rng.getrandbits(32) & ~0x707f | 0x0f]
    return [*place(word_of_data(rng)), atomic(rng, rng.choice(elf.CHANGES))]


def end(rng):
    """The exit, or a fault."""
    change = rng.choice(elf.CHANGES)
    return rng.choice((
        [*elf.load_value(17, 93), *elf.load_value(10, rng.randrange(256)), elf.ECALL],
        [elf.EBREAK],
        [*place(word_of_data(rng) + rng.randrange(1, 4)), atomic(rng, rng.choice((change, elf.LR)))],
        [*place(0x40), atomic(rng, rng.choice((change, elf.LR)))],
        [*place(elf.TEXT), atomic(rng, change)],
        [*place(elf.TEXT), atomic(rng, elf.LR) & ~0xf80 | 6 << 7, atomic(rng, elf.SC) & ~0xf80 | 5 << 7],
        [*place(DATA), elf.atomic(rng.choice((5, 6, 7, 9, 17, 31)), 0, PLACE, 5)],
        [*place(DATA), elf.atomic(elf.LR, 0, PLACE, 5) | rng.randrange(1, 32) << 20],
        [*place(DATA), elf.atomic(change, 6, PLACE, 5) ^ rng.choice((1, 3, 4, 5)) << 12]))


def program(rng):
    """A file that computes, writes its data and its registers, and ends."""
    words = []
    for register in range(1, 32):
        words += elf.load_value(register, DATA + 2048 if register == BASE else number(rng))
    for _ in range(rng.randrange(1, 150)):
        words += part(rng)
    words += [elf.s_type(4 * register, register, BASE, 2) for register in range(32)]
    for register, value in ((17, 64), (10, 1), (11, DATA), (12, 4096)):
        words += elf.load_value(register, value)
    words += [elf.ECALL, *end(rng)]
    return elf.elf_file(words, ((DATA, 4096, elf.READ | elf.WRITE, rng.randbytes(4096)),))


def ended(done):
    """The status as a shell shows it."""
    return 128 - done.status if done.status is not None and done.status < 0 else done.status


def main(asked):
    """Tries so many programs, and prints which end otherwise and the numbers. The status."""
    qemu = shutil.which('qemu-riscv32')
    if qemu is None:
        print('hostile.sh: there is no qemu-riscv32; install it by: apt-get install qemu-user')
        return 1
    passed = failed = 0
    with tempfile.TemporaryDirectory() as folder:
        for case in range(asked.first, asked.first + asked.count):
            file = program(random.Random(f'qemu {case}'))
            with open(os.path.join(folder, 'f'), 'wb') as out:
                out.write(file)
            os.chmod(os.path.join(folder, 'f'), 0o755)
            right = running.run([qemu, './f'], folder, running.Limits(asked.seconds), b'')
            done = running.run([asked.superpin, 'run', '--by', 'serial', './f'], folder, asked, b'')
            if (ended(right), right.out) == (done.status, done.out):
                passed += 1
            else:
                failed += 1
                kept = os.path.join(asked.keep, f'qemu-{case}')
                shutil.copy(os.path.join(folder, 'f'), kept)
                print(f'program {case}: status {done.status}, and under qemu {ended(right)}; kept as {kept}', flush=True)
    print(f'{passed} passed, {failed} failed')
    return 1 if failed else 0
