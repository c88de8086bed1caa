"""ELF files of 32 bits for RISC-V, made by hand, and the instructions that stand in them."""

import struct

READ, WRITE, RUN = 4, 2, 1
PAGE = 4096
TEXT = 0x10000
HEADER = '<HHIIIIIHHHHHH'
# the names and places of the fields of a file header and of a program header, with their sizes
FILE_FIELDS = ((4, 1), (5, 1), (16, 2), (18, 2), (20, 4), (24, 4), (28, 4), (32, 4), (36, 4), (40, 2), (42, 2), (44, 2), (46, 2), (48, 2), (50, 2))
SEGMENT_FIELDS = tuple((4 * k, 4) for k in range(8))
SECTION_FIELDS = tuple((4 * k, 4) for k in range(10))


def elf_file(words, segments=(), entry=None):
    """A file whose first segment is the file itself at TEXT, to be read and run, with the words of code behind the headers.
    The other segments are (address, memory size, flags, bytes); the bytes of each begin at a page of the file."""
    count = 1 + len(segments)
    start = 52 + 32 * count
    size = start + 4 * len(words)
    entry = TEXT + start if entry is None else entry
    ident = b'\x7fELF\x01\x01\x01' + bytes(9)
    head = ident + struct.pack(HEADER, 2, 243, 1, entry, 52, 0, 0, 52, 32, count, 40, 0, 0)
    table = struct.pack('<8I', 1, 0, TEXT, TEXT, size, size, READ | RUN, PAGE)
    tail = b''
    for address, memory, flags, data in segments:
        offset = (size + len(tail) + PAGE - 1) // PAGE * PAGE if data else 0
        table += struct.pack('<8I', 1, offset, address, address, len(data), memory, flags, PAGE)
        if data:
            tail += bytes(offset - size - len(tail)) + data
    return head + table + b''.join(struct.pack('<I', word & 0xffffffff) for word in words) + tail


def entry_of(segments):
    """The address of the first word of a file with so many segments beside its first."""
    return TEXT + 52 + 32 * (1 + segments)


def r_type(funct7, rs2, rs1, funct3, rd, opcode=0x33):
    return funct7 << 25 | rs2 << 20 | rs1 << 15 | funct3 << 12 | rd << 7 | opcode


# the codes of atomics; the others than the first two change a word by themselves
LR, SC = 2, 3
CHANGES = (1, 0, 4, 12, 8, 16, 20, 24, 28)


def atomic(code, rs2, rs1, rd, order=0):
    """An atomic; its order is the bits aq and rl. lr.w has no rs2."""
    return r_type(code << 2 | order, 0 if code == LR else rs2, rs1, 2, rd, 0x2f)


def i_type(imm, rs1, funct3, rd, opcode=0x13):
    return (imm & 0xfff) << 20 | rs1 << 15 | funct3 << 12 | rd << 7 | opcode


def s_type(imm, rs2, rs1, funct3):
    return (imm >> 5 & 0x7f) << 25 | rs2 << 20 | rs1 << 15 | funct3 << 12 | (imm & 0x1f) << 7 | 0x23


def b_type(imm, rs2, rs1, funct3):
    upper = (imm >> 12 & 1) << 6 | imm >> 5 & 0x3f
    lower = (imm >> 1 & 0xf) << 1 | imm >> 11 & 1
    return upper << 25 | rs2 << 20 | rs1 << 15 | funct3 << 12 | lower << 7 | 0x63


def u_type(imm, rd, opcode=0x37):
    return imm & 0xfffff000 | rd << 7 | opcode


def j_type(imm, rd):
    bits = (imm >> 20 & 1) << 19 | (imm >> 1 & 0x3ff) << 9 | (imm >> 11 & 1) << 8 | imm >> 12 & 0xff
    return bits << 12 | rd << 7 | 0x6f


def load_value(rd, value):
    """lui and addi, which put a value into a register; always two words."""
    value &= 0xffffffff
    return [u_type(value + 0x800, rd), i_type(value, rd, 0, rd)]


ECALL, EBREAK, FENCE = 0x73, 0x100073, 0x0ff0000f
EXIT_7 = [0x05d00893, 0x00700513, ECALL]
DATA = (0x20000, 0x2000, READ | WRITE, b'')

# Small programs written by hand: code, and whether it has two pages of zeros at 0x20000.
SMALL = {
    'exit': (EXIT_7, False),
    'odd-jump': ([0x000102b7, 0x061280e7, 0] + EXIT_7, False),
    'misaligned': ([0x000102b7, 0x002280e7], False),
    'past-data': ([0x000222b7, 0xffe2a303], True),
    'count-to-six': ([0x00020337, 0x00600393, 0x00032283, 0x00128293, 0x00532023, 0x407282b3, 0x00028663, 0x00000293, 0xfe9ff06f] + EXIT_7, True),
    'load-a-line': ([0x00020337, 0x00032283, 0x00432283] + EXIT_7, True),
    'reserve-and-store': ([0x00020337, 0x100322af, 0x185323af, 0x00039463, 0x00100293] + EXIT_7, True),
    'reserve-and-call': ([0x00020337, 0x100322af, 0x0ac00893, ECALL, 0x185323af, 0x00039463, 0x00100293] + EXIT_7, True),
    'call-deep': ([0x014000ef, 0x030000ef] + EXIT_7 + [0x00008413, 0x00c000ef, 0x00040093, 0x00008067, 0x00008493, 0x00c000ef, 0x00048093, 0x00008067, 0x00008067], False),
    'read-twice': ([0x000205b7, 0x03f00893, 0x00000513, 0x00100613, ECALL, 0x00000513, ECALL] + EXIT_7, True),
    'write-pages': ([0x000645b7, 0x00300613, 0x02200693, 0x0de00893, ECALL, 0x00001337, 0x06400393, 0x00652023, 0x00650533, 0xfff38393, 0xfe039ae3] + EXIT_7, False),
    'across-pages': ([0x000645b7, 0x00300613, 0x02200693, 0x0de00893, ECALL, 0x00001337, 0x06300393, 0x00650533, 0xfe652f23, 0x00650533, 0xfff38393, 0xfe039ae3] + EXIT_7, False),
    'turn-for-ever': ([0x0000006f], False),
}


def small_files():
    """The files of the small programs by name."""
    return {name: elf_file(code, (DATA,) if data else ()) for name, (code, data) in SMALL.items()}
