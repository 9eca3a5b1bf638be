"""The source lines of an ELF file's instructions, by its line tables in DWARF 2 to 5. pyelftools reads them; where this Python has no pyelftools, they are
read off what readelf of binutils prints."""
import bisect
import itertools
import os
import re
import shutil
import subprocess
from dataclasses import dataclass, field
from typing import NamedTuple

try:
    from elftools.elf.elffile import ELFFile
except ImportError:
    ELFFile = None

READELF = ("readelf", "riscv64-unknown-elf-readelf")
# What readelf calls the statements of a line table that are known here.
STATEMENT = re.compile(r"Special opcode|Copy|Advance (PC|Line)|Set (File Name|column|is_stmt|basic block|prologue_end|epilogue_begin|ISA)|"
                       r"Extended opcode [124]:")


class Fault(Exception):
    """Why there are no lines."""


class Place(NamedTuple):
    """A line of a source. The path is empty, or the line 0, where it is not known."""
    path: str
    line: int


class Row(NamedTuple):
    """What a line table says of the instructions from an address to that of the next row."""
    address: int
    file: int
    line: int
    is_end: bool    # of a piece of code


@dataclass
class Table:
    """A line table: its version, folders by number, files by number with the numbers of their folders, and its rows, up to each one that ends a piece
    of code. Before DWARF 5 folder 0 stands in no table: it is that of the compilation, as in DWARF 5."""
    version: int
    folders: dict = field(default_factory=dict)
    files: dict = field(default_factory=dict)
    sequences: list = field(default_factory=list)

    def path(self, number, compilation):
        """The path of a file, or an empty one where there is none of this number."""
        name, folder = self.files.get(number, (None, 0))
        if name is None or folder and folder not in self.folders:
            return ""
        path = os.path.join(self.folders.get(0) or compilation, self.folders[folder] if folder else "", name)
        return re.sub(r"/(?:\.?/)+", "/", path)    # without steps that stay in their folder


class Range(NamedTuple):
    """Where a piece of code begins and ends, its place, and the place of the first row at its beginning. For the first piece of a function that is where
    the function is written, also if its first instruction is of inlined code."""
    start: int
    end: int
    place: Place
    opening: Place


class Lines:
    """Which instructions are of which line."""

    def __init__(self, tables):
        """Of tables, each with the folder of its compilation."""
        self.ranges = sorted(it for table, compilation in tables for it in ranges_of(table, compilation))

    def range_of(self, address):
        at = bisect.bisect(self.ranges, (address + 1,)) - 1
        return self.ranges[at] if at >= 0 and address < self.ranges[at].end else None

    def place(self, address):
        """The place of an instruction, or None where it is not known."""
        found = self.range_of(address)
        return found.place if found and is_known(found.place) else None

    def opening(self, address):
        """The place of the function that begins at an address, or None where it is not known."""
        found = self.range_of(address)
        return found.opening if found and is_known(found.opening) else None


def is_known(place):
    return bool(place.path and place.line)


def ranges_of(table, compilation):
    """The pieces of code of a table. The last row at an address is of the code up to the next address."""
    paths = {number: table.path(number, compilation) for number in table.files}
    for sequence in table.sequences:
        if sequence[0].address == 0:    # what the linker left out
            continue
        for start, of_start in itertools.groupby(itertools.pairwise(sequence), lambda pair: pair[0].address):
            pairs = list(of_start)
            first, (last, after) = pairs[0][0], pairs[-1]
            if start < after.address:
                place, opening = (Place(paths.get(row.file, ""), row.line) for row in (last, first))
                yield Range(start, after.address, place, opening)


def has_line_table(image):
    """Whether a file may have a line table: it is an ELF file, and has the name of such a section."""
    try:
        with open(image, "rb") as file:
            content = file.read()
    except OSError:
        return False    # the program that runs it tells why
    return content.startswith(b"\x7fELF") and b"debug_line" in content


def read_lines(image):
    """The lines of an image, by the first reader that can read its tables."""
    readelf = next((it for it in READELF if shutil.which(it)), None)
    readers = ([tables_by_elftools] if ELFFile else []) + ([lambda it: tables_by_readelf(it, readelf)] if readelf else [])
    if not readers:
        raise Fault("to read source lines, it needs pyelftools (Debian: python3-pyelftools) or readelf (Debian: binutils)")
    for reader in readers:
        try:
            return Lines(reader(image))
        except Exception as why:    # of a broken file pyelftools may raise anything, and of what is newer than it
            fault = why if isinstance(why, Fault) else f"{type(why).__name__}: {why}"
    raise Fault(f"{image}: cannot read its line tables: {fault}")


def split_rows(rows):
    sequences, sequence = [], []
    for row in rows:
        sequence.append(row)
        if row.is_end:
            sequences.append(sequence)
            sequence = []
    return sequences


# ---- by pyelftools

def tables_by_elftools(image):
    with open(image, "rb") as file:
        dwarf, seen = ELFFile(file).get_dwarf_info(relocate_dwarf_sections=False), set()
        for unit in dwarf.iter_CUs():
            attributes = unit.get_top_DIE().attributes
            if "DW_AT_stmt_list" in attributes and attributes["DW_AT_stmt_list"].value not in seen:
                seen.add(attributes["DW_AT_stmt_list"].value)    # several units may have one table
                folder = attributes.get("DW_AT_comp_dir")
                yield table_of_program(dwarf.line_program_for_CU(unit)), os.fsdecode(folder.value) if folder else ""


def table_of_program(program):
    header = program.header
    least = 0 if header["version"] >= 5 else 1    # the first number of folders and files
    table = Table(header["version"])
    table.folders = {number: os.fsdecode(it) for number, it in enumerate(header["include_directory"], least)}
    states = [entry.state for entry in program.get_entries() if entry.state is not None]    # entries may define files
    table.files = {number: (os.fsdecode(it.name), it.dir_index or 0) for number, it in enumerate(header["file_entry"], least)}
    table.sequences = split_rows(Row(it.address, it.file, it.line, it.end_sequence) for it in states)
    return table


# ---- by readelf

def tables_by_readelf(image, readelf):
    folders = dict(folders_of_units(readelf_says(readelf, image, "--debug-dump=info", "--dwarf-depth=1")))
    tables = re.split(r"^  Offset: +", readelf_says(readelf, image, "--debug-dump=rawline"), flags=re.MULTILINE)
    for text in tables[1:]:
        yield table_of_text(text), folders.get(int(text.split()[0], 0), "")


def readelf_says(readelf, image, *options):
    done = subprocess.run([readelf, "--wide", *options, "--", image], env={**os.environ, "LC_ALL": "C"}, capture_output=True, text=True,
                          errors="surrogateescape", check=False)
    if done.returncode or done.stderr:
        raise Fault(done.stderr.strip() or f"readelf ended with status {done.returncode}")
    return done.stdout


def folders_of_units(text):
    """The places of line tables, each with the folder of its compilation."""
    for unit in re.split(r"^ <0><", text, flags=re.MULTILINE)[1:]:
        table = re.search(r"DW_AT_stmt_list *: (?:\(\w+\) )?(\w+)", unit)
        folder = re.search(r"DW_AT_comp_dir *: (?:.*offset: \w+\): |\(string\) )?(.*)", unit)
        if table:
            yield int(table[1], 0), folder[1].rstrip() if folder else ""


def parts_in(pattern, text):
    """What the groups of a pattern find in a text, which has it in any case."""
    found = re.search(pattern, text)
    if not found:
        raise Fault(f"readelf printed a line of another kind: {text[:80]}")
    return found.groups()


def table_of_text(text):
    """A table as readelf prints it: its version, folders, files and statements, in this order."""
    head, _, statements = text.partition(" Line Number Statements:\n")
    head, _, files = head.partition(" The File Name Table")
    head, _, folders = head.partition(" The Directory Table")
    table = Table(int(*parts_in(r"DWARF Version: +(\d+)", head)))
    if table.version >= 5:
        entry = r"\A  (\d+)\t(?:(?:\(\w+\)\t)?(\d+)\t)?.*?(?:offset: \w+\): |\(string\)\s)(.*)\Z"
    else:
        entry = r"\A  (\d+)\t(?:(\d+)\t\d+\t\d+\t)?(.*)\Z"
    for line in entry_lines(folders):
        number, _, name = parts_in(entry, line)
        table.folders[int(number)] = name
    for line in entry_lines(files):
        number, folder, name = parts_in(entry, line)
        table.files[int(number)] = name, int(folder)
    table.sequences = split_rows(read_statements(statements))
    return table


def entry_lines(text):
    return [line for line in text.splitlines() if re.match(r"  \d", line)]


def read_statements(text):
    """The rows of a table, by its statements."""
    address, file, line = 0, 1, 1
    for statement in re.findall(r"^  \[0x\w+\] +(.*)", text, flags=re.MULTILINE):
        if not STATEMENT.match(statement):
            raise Fault(f"readelf prints a statement that is not known here: {statement}")
        if found := re.search(r"(?:PC|Address)\b.* to 0x([0-9a-f]+)", statement):
            address = int(found[1], 16)
        if found := re.search(r"Line by -?\d+ to (\d+)", statement):
            line = int(found[1])
        if found := re.match(r"Set File Name to entry (\d+)", statement):
            file = int(found[1])
        is_end = statement.startswith("Extended opcode 1:")
        if is_end or statement.startswith(("Special opcode", "Copy")):
            yield Row(address, file, line, is_end)
        if is_end:
            address, file, line = 0, 1, 1
