"""Where the instructions of a guest stand: in which function, and on which line of a source. Of an ELF file symbols and line tables say it; of an
assembler source the listing of scripts/list-asm."""
import bisect
import os
import struct
import subprocess
from typing import NamedTuple

from guest_image import TOP, Image, text_of
from source_lines import Lines, Place, has_line_table, read_lines

FUNCTION, OBJECT, NO_TYPE = 2, 1, 0    # kinds of symbols
SYMBOLS, EXECUTABLE, LOADED = 2, 4, 1    # a section's type, its flag, and the type of a section with content
JAL, RA = 0x6F, 1


class Function(NamedTuple):
    start: int
    end: int
    name: str


class Places:
    """The functions of a guest by address, the addresses of its instructions, and lines. `prefixes` are pairs of a beginning of paths and of what
    is written for it; of several that fit the last one counts."""

    def __init__(self, name, prefixes=()):
        self.image, self.prefixes, self.lines = Image(name), prefixes, Lines([])
        with open(name, "rb") as it:
            content = it.read()
        self.objects = []
        if content.startswith(b"\x7fELF"):
            pieces, starts = code_of_elf(content)
            self.objects = sorted((value, value + size, text) for text, value, size, kind in symbols_of_elf(content) if kind == OBJECT)
            if has_line_table(name):
                self.lines = read_lines(name)
            self.listed = {}
        else:
            pieces, starts = [(start, start + len(code)) for start, code in self.image.code], {}
            self.listed = {} if content.startswith(b".words\n") else listed_lines(name)
        if self.listed:
            starts = self.called_labels()
        self.instructions = [at for start, end in pieces for at in range(start, end, 4) if self.is_instruction(at)]
        self.functions = functions_of(pieces, starts)
        self.starts = [it.start for it in self.functions]

    def is_instruction(self, address):
        """Whether a word of code is one: in a source what stands on a line of an instruction, and else what can be one."""
        if self.listed:
            return address in self.listed
        return text_of(self.image.word(address) or 0, address) != "no instruction"

    def called_labels(self):
        """The functions of a source: its beginning, and what is called."""
        starts = {min(self.listed): self.image.symbols.get(min(self.listed), "_start")}
        for address in self.listed:
            word = self.image.word(address)
            if word & 127 == JAL and word >> 7 & 31 == RA:
                to = address + jal_offset(word)
                starts[to] = self.image.symbols.get(to, f"0x{to:08X}")
        return starts

    def function(self, address):
        """The function of an instruction, or None."""
        at = bisect.bisect_right(self.starts, address) - 1
        return self.functions[at] if at >= 0 and address < self.functions[at].end else None

    def line(self, address):
        """The place of an instruction in a source, or None."""
        return self.listed.get(address) or self.mapped(self.lines.place(address))

    def opening(self, function):
        """Where a function is written, or None."""
        return self.listed.get(function.start) or self.mapped(self.lines.opening(function.start))

    def mapped(self, place):
        for old, new in reversed(self.prefixes) if place else ():
            if place.path.startswith(old):
                return Place(new + place.path[len(old):], place.line)
        return place

    def object(self, address):
        """A byte of data by the variable of the program that it is of: `sum`, `table + 8`; or nothing."""
        at = bisect.bisect_right(self.objects, (address + 1,)) - 1
        start, end, name = self.objects[at] if at >= 0 else (0, 0, "")
        return (name + (f" + {address - start}" if address > start else "")) if address < end else ""

    def told(self, address):
        """An instruction by its function and line: `enter, account.c:36`; without a line by the offset: `enter + 72`."""
        function, line = self.function(address), self.line(address)
        name = function.name if function else ""
        if line:
            return f"{name}, {os.path.basename(line.path)}:{line.line}" if name else f"{os.path.basename(line.path)}:{line.line}"
        return f"{name} + {address - function.start}" if name else f"0x{address:08X}"


def jal_offset(word):
    offset = (word >> 31) << 20 | (word >> 12 & 255) << 12 | (word >> 20 & 1) << 11 | (word >> 21 & 1023) << 1
    return offset - (1 << 21) if word >> 31 else offset


def listed_lines(name):
    """The place of each instruction of an assembler source."""
    listed = subprocess.run([f"{TOP}/scripts/list-asm", name], stdout=subprocess.PIPE, text=True, check=True).stdout
    found = {}
    for number, line in enumerate(listed.splitlines(), 1):
        words, text = line[10:29].split() if line.startswith("0x") else [], line[30:]
        if words and ".word" not in text.partition("#")[0].split():
            found.update({int(line[:10], 16) + 4 * at: Place(os.path.abspath(name), number) for at in range(len(words))})
    return found


def sections_of(content):
    sections, = struct.unpack_from("<I", content, 32)
    count, = struct.unpack_from("<H", content, 48)
    return [struct.unpack_from("<10I", content, sections + 40 * it) for it in range(count)] if sections else []


def symbols_of_elf(content):
    """The name, value, size and kind of each symbol."""
    rows = sections_of(content)
    return [it for row in rows if row[1] == SYMBOLS for it in symbols_of(content, row, rows[row[6]])]


def code_of_elf(content):
    """The pieces of code of an ELF file, and its functions: their names by where they begin. Assembler code has symbols of no type; those of a
    compiler's labels are left out."""
    rows = sections_of(content)
    pieces = sorted((row[3], row[3] + row[5]) for row in rows if row[1] == LOADED and row[2] & EXECUTABLE and row[5])
    if not pieces:
        headers, = struct.unpack_from("<I", content, 28)
        count, = struct.unpack_from("<H", content, 44)
        segments = [struct.unpack_from("<8I", content, headers + 32 * it) for it in range(count)]
        pieces = sorted((it[2], it[2] + it[4]) for it in segments if it[0] == 1 and it[6] & 1)
    starts: dict[int, str] = {}
    inside: list[tuple[int, int]] = []
    for kind in (FUNCTION, NO_TYPE):
        for name, value, size, its_kind in symbols_of_elf(content):
            is_code = any(start <= value < end for start, end in pieces)
            if its_kind != kind or not is_code or name.startswith((".L", "$")) or any(start < value < end for start, end in inside):
                continue
            starts.setdefault(value, name)
            inside += [(value, value + size)] if kind == FUNCTION else []
    return pieces, starts


def symbols_of(content, row, names):
    strings = content[names[4]:names[4] + names[5]]
    for at in range(row[4], row[4] + row[5], 16):
        name, value, size, info, _, section = struct.unpack_from("<IIIBBH", content, at)
        text = strings[name:strings.find(b"\0", name)].decode("utf-8", "replace")
        if text and 0 < section < 0xFF00:
            yield text, value, size, info % 16


def functions_of(pieces, starts):
    """Each function up to the next one, or to the end of its piece of code. What is before the first one has no name."""
    functions, order = [], sorted(starts)
    for start, end in pieces:
        bounds = [it for it in order if start <= it < end]
        functions += [Function(at, after, starts[at]) for at, after in zip(bounds, [*bounds[1:], end])]
    return functions
