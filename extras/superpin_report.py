"""What the extras share: the reports of superpin, the routines and lines of a program, and how an error is said."""

import bisect
import os
import re
import sys
from collections import namedtuple

End = namedtuple("End", "kind value address")       # "exit" and the status, or "signal", its number and the pc
Block = namedtuple("Block", "head length count routine")
Call = namedtuple("Call", "depth source target routine")
Routine = namedtuple("Routine", "start end name")
Place = namedtuple("Place", "file line")

PATTERNS = {
    "block": re.compile(r"block 0x([0-9a-f]{8}) (\d+) (\d+) (\S+)"),
    "call": re.compile(r"call (\d+) 0x([0-9a-f]{8}) 0x([0-9a-f]{8}) (\S+)"),
    "cache": re.compile(r"cache (\d+) (\d+) accesses (\d+) hits (\d+) misses (\d+)"),
    "icount": re.compile(r"icount (\d+)"),
}
END = re.compile(r"end (?:exit (\d+)|signal (\d+) at 0x([0-9a-f]{8}))")


def fail(text):
    """Ends the program with status 1: says why."""
    sys.exit(f"{os.path.basename(sys.argv[0])}: {text}")


def read_report(path, kind):
    """Gives the matches of the report's lines of this kind, and its end.

    What the program wrote to its standard error may stand before the report, so it is read from its last line up. Where that
    was no whole line, the first line of the report stands behind it.
    """
    try:
        with open(path, errors="replace") as file:
            lines = file.read().split("\n")
    except OSError as error:
        fail(f"{path}: {error.strerror}")
    while lines and (not lines[-1] or lines[-1].startswith("slice ")):
        lines.pop()
    end = END.fullmatch(lines.pop()) if lines else None
    if end is None:
        fail(f"{path}: it does not end with the line of a report, `end exit` or `end signal`")
    found = []
    while lines:
        line = lines.pop()
        match = PATTERNS[kind].fullmatch(line)
        if match is None:
            found += [it for it in [re.search(PATTERNS[kind].pattern + "$", line)] if it]
            break
        found.append(match)
    if not found:
        fail(f"{path}: there is no line `{kind}` before its end; make it by the tool that writes them")
    return found[::-1], End("exit", int(end[1]), None) if end[1] else End("signal", int(end[2]), int(end[3], 16))


def read_blocks(path):
    """Gives the blocks of a report of the tool `blocks`, and its end."""
    found, end = read_report(path, "block")
    return [Block(int(it[1], 16), int(it[2]), int(it[3]), it[4]) for it in found], end


def read_calls(path):
    """Gives the calls of a report of the tool `calls`, in their order."""
    found, _ = read_report(path, "call")
    return [Call(int(it[1]), int(it[2], 16), int(it[3], 16), it[4]) for it in found]


def counts_of(blocks, end):
    """Gives how often the instruction at each address ran, for those that did.

    A block is counted when it begins. Only the last one can have been left before its end, by a load or a store that was denied:
    then the instructions behind that one did not run this last time. All blocks that hold an address end at the same one.
    """
    counts = {}
    last = None
    for block in blocks:
        stop = block.head + 4 * block.length
        for address in range(block.head, stop, 4):
            counts[address] = counts.get(address, 0) + block.count
        if end.kind == "signal" and block.head <= end.address < stop:
            last = stop
    if last is not None:
        for address in range(end.address + 4, last, 4):
            counts[address] -= 1
    return {address: count for address, count in sorted(counts.items()) if count}


def printed(name):
    """Gives a routine's name as a report prints it."""
    return "".join(chr(it) if 0x21 <= it <= 0x7E else "?" for it in name.encode("utf-8", "surrogateescape"))


class Program:
    """The routines and the lines of a program, from its ELF file."""

    def __init__(self, path):
        try:
            from elftools.common.exceptions import ELFError
            from elftools.elf.elffile import ELFFile
        except ImportError:
            fail("there is no pyelftools; install it by: apt-get install python3-pyelftools")
        self.path = path
        try:
            with open(path, "rb") as file:
                elf = ELFFile(file)
                self.segments = [
                    (it["p_vaddr"], it["p_vaddr"] + it["p_memsz"])
                    for it in elf.iter_segments()
                    if it["p_type"] == "PT_LOAD" and it["p_flags"] & 1
                ]
                self.routines = self.routines_of(elf)
                self.rows = self.rows_of(elf)
        except OSError as error:
            fail(f"{path}: {error.strerror}")
        except ELFError as error:
            fail(f"{path}: it is no ELF file that can be read: {error}")
        self.starts = [it.start for it in self.routines]
        self.row_starts = [it[0] for it in self.rows]

    def segment_end(self, address):
        """Gives the end of the executable segment that holds the address, or None."""
        return next((end for start, end in self.segments if start <= address < end), None)

    def routines_of(self, elf):
        """Gives the functions of the first symbol table in order of address, of several at one address the first."""
        table = next((it for it in elf.iter_sections() if it["sh_type"] == "SHT_SYMTAB"), None)
        named = {}
        for symbol in table.iter_symbols() if table else []:
            if symbol["st_info"]["type"] == "STT_FUNC" and symbol["st_shndx"] != "SHN_UNDEF":
                named.setdefault(symbol["st_value"], symbol.name)
        starts = sorted(it for it in named if self.segment_end(it) is not None)
        ends = [min(after, self.segment_end(it)) for it, after in zip(starts, [*starts[1:], 1 << 32])]
        return [Routine(start, end, printed(named[start])) for start, end in zip(starts, ends)]

    def rows_of(self, elf):
        """Gives the rows of all line tables, by address: where each begins, and its place or None where a table ends."""
        rows = {}
        if not elf.has_dwarf_info():
            return []
        dwarf = elf.get_dwarf_info()
        for unit in dwarf.iter_CUs():
            table = dwarf.line_program_for_CU(unit)
            if table is None:
                continue
            files = files_of(unit, table)
            for entry in table.get_entries():
                state = entry.state
                if state is None or self.segment_end(state.address) is None:
                    continue
                if not state.end_sequence:
                    rows[state.address] = Place(files.get(state.file, "???"), state.line)
                else:
                    rows.setdefault(state.address, None)
        return sorted(rows.items())

    def routine_at(self, address):
        """Gives the routine that holds the address, or None."""
        found = bisect.bisect_right(self.starts, address) - 1
        return self.routines[found] if found >= 0 and address < self.routines[found].end else None

    def name_at(self, address):
        """Gives the name of the routine that holds the address, as a report prints it."""
        routine = self.routine_at(address)
        return routine.name if routine else "-"

    def place_at(self, address):
        """Gives the file and line that the address comes from, or None."""
        found = bisect.bisect_right(self.row_starts, address) - 1
        return self.rows[found][1] if found >= 0 else None

    def check(self, addresses, report):
        """Ends the program where an address of a report, given with its routine's name, is not so in this program."""
        for address, name in addresses:
            if self.segment_end(address) is None or self.name_at(address) != name:
                fail(f"{report} is not of {self.path}: at 0x{address:08x} it has {name}, and the program {self.name_at(address)}")


def files_of(unit, table):
    """Gives the names of the files of a line table by their number."""
    header = table.header
    home = unit.get_top_DIE().attributes.get("DW_AT_comp_dir")
    home = home.value.decode(errors="replace") if home else ""
    folders = [it.decode(errors="replace") for it in header["include_directory"]]
    if header["version"] < 5:
        folders = [home, *folders]
    first = 0 if header["version"] >= 5 else 1
    files = {}
    for number, entry in enumerate(header["file_entry"], first):
        folder = folders[entry["dir_index"]] if entry["dir_index"] < len(folders) else ""
        files[number] = os.path.normpath(os.path.join(home, folder, entry["name"].decode(errors="replace")))
    return files
