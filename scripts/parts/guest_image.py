"""The image of a guest as the debuggers beside this file look at it: its symbols, its code, and instructions as text. An assembler source
is assembled first, and a list of words is read; both have no symbols but what scripts/list-asm shows of a source."""
import os
import struct
import subprocess
import tempfile

from first_build import build_first

TOP = os.path.dirname(os.path.dirname(os.path.dirname(os.path.realpath(__file__))))
ABI = ("zero ra sp gp tp t0 t1 t2 s0 s1 a0 a1 a2 a3 a4 a5 a6 a7 s2 s3 s4 s5 s6 s7 s8 s9 s10 s11 t3 t4 t5 t6").split()
ECALL = 0x73
TEXT_START = 0x10000
NO_NAMES = ("$", ".L")    # marks of code and data, and the labels that a compiler made for itself


class Image:
    """Code by address, and symbols. `lines` has a line of a source for an address where the image is one."""

    def __init__(self, name):
        self.name, self.code, self.symbols, self.lines = name, [], {}, {}
        with open(name, "rb") as it:
            content = it.read()
        build_first()    # what is called from here on keeps its standard error
        if content[:4] == b"\x7fELF":
            try:
                self.read_elf(content)
            except (struct.error, IndexError):
                raise ValueError(f"{name}: its headers or its symbols are past its end") from None
        elif content.startswith(b".words\n"):
            words = [int(it, 16) for it in content.split()[1:]]
            self.code = [(TEXT_START, b"".join(struct.pack("<I", it) for it in words))]
        else:
            self.read_source()

    def read_source(self):
        with tempfile.TemporaryDirectory() as work:
            elf = f"{work}/image.elf"
            done = subprocess.run([f"{TOP}/paged", "asm", self.name, elf], stdout=subprocess.DEVNULL, stderr=subprocess.PIPE, text=True)
            if done.returncode:
                raise ValueError(done.stderr.strip())
            with open(elf, "rb") as it:
                self.read_elf(it.read())
        listed = subprocess.run([f"{TOP}/scripts/list-asm", self.name], stdout=subprocess.PIPE, text=True).stdout
        labels, in_text = [], True
        for line in listed.splitlines():
            text = line[30:].strip()    # behind the address and the words
            if text.startswith((".text", ".data")):
                in_text = text.startswith(".text")
            label, colon, _ = text.partition(":")
            if in_text and colon and label.isascii() and not set(label) & set(" \t#\"("):
                labels.append(label)
            if line.startswith("0x"):
                address = int(line[:10], 16)
                self.lines[address] = text
                for label in labels[:1]:
                    self.symbols.setdefault(address, label)
                labels = []

    def read_elf(self, content):
        """Segments that may be executed, and the symbols that name code or places in it."""
        headers, sections = struct.unpack_from("<II", content, 28)
        count, = struct.unpack_from("<H", content, 44)
        for at in range(headers, headers + 32 * count, 32):
            kind, offset, address, _, size, _, flags, _ = struct.unpack_from("<8I", content, at)
            if kind == 1 and flags & 1:
                self.code.append((address, content[offset:offset + size]))
        count, = struct.unpack_from("<H", content, 48)
        rows = [struct.unpack_from("<10I", content, sections + 40 * it) for it in range(count)] if sections else []
        global_labels: dict[int, str] = {}
        functions: dict[int, str] = {}
        for row in rows:
            if row[1] != 2:
                continue
            names = rows[row[6]]
            strings = content[names[4]:names[4] + names[5]]
            for at in range(row[4], row[4] + row[5], 16):
                name, value, _, info, _, section = struct.unpack_from("<IIIBBH", content, at)
                text = strings[name:].partition(b"\0")[0].decode("ascii", "replace")
                if info % 16 in (0, 1, 2) and 0 < section < 0xFF00 and text and not text.startswith(NO_NAMES):
                    table = functions if info % 16 == 2 else global_labels if info // 16 == 1 else self.symbols
                    table.setdefault(value, text)
        self.symbols |= global_labels | functions
        self.order = sorted(self.symbols)

    def word(self, address):
        """The word of code at an address, or None."""
        for start, content in self.code:
            if start <= address <= start + len(content) - 4:
                return struct.unpack_from("<I", content, address - start)[0]
        return None

    def address(self, text):
        """The address that a symbol or a number says, or None."""
        for address, name in self.symbols.items():
            if name == text:
                return address
        try:
            return int(text, 0) if text[:1].isdigit() else None
        except ValueError:
            return None

    def nearest(self, address):
        """The nearest symbol at or below an address in code, and its address."""
        best = max((it for it in self.symbols if it <= address), default=None)
        return (self.symbols[best], best) if best is not None and self.word(address) is not None else (None, None)

    def place(self, address):
        """An address by its symbol: `push + 8`."""
        name, start = self.nearest(address)
        if name is None:
            return f"0x{address:08X}"
        return f"0x{address:08X} {name}" + (f" + {address - start}" if address > start else "")

    def ecalls(self):
        """The addresses of the code's calls of the machine."""
        return [start + at for start, content in self.code for at in range(-start % 4, len(content) - 3, 4)
                if struct.unpack_from("<I", content, at)[0] == ECALL]

    def text(self, address):
        """The instruction at an address as text."""
        word = self.word(address)
        if word is None:
            return "no instruction"
        if self.lines.get(address):
            return self.lines[address]
        return text_of(word, address, self)


def signed(value, bits):
    return value - (1 << bits) if value >> (bits - 1) else value


def text_of(word, pc, image=None):
    """A word of RV32IMA as text, with the registers' ABI names and absolute targets."""
    op, rd, kind, rs1, rs2, top = word & 127, ABI[word >> 7 & 31], word >> 12 & 7, ABI[word >> 15 & 31], ABI[word >> 20 & 31], word >> 25
    immediate = signed(word >> 20, 12)

    def target(offset):
        to = pc + offset & 0xFFFFFFFF
        name = image.nearest(to)[0] if image else None
        return f"0x{to:08x}" + (f" <{image.place(to).partition(' ')[2]}>" if name else "")

    if op == 0x37 or op == 0x17:
        return f"{'lui' if op == 0x37 else 'auipc'} {rd}, 0x{word >> 12:x}"
    if op == 0x6F:
        offset = signed((word >> 31) << 20 | (word >> 12 & 255) << 12 | (word >> 20 & 1) << 11 | (word >> 21 & 1023) << 1, 21)
        return f"jal {rd}, {target(offset)}" if rd != "zero" else f"j {target(offset)}"
    if op == 0x67 and kind == 0:
        return "ret" if word == 0x8067 else f"jalr {rd}, {immediate}({rs1})"
    if op == 0x63 and kind not in (2, 3):
        offset = signed((word >> 31) << 12 | (word >> 7 & 1) << 11 | (word >> 25 & 63) << 5 | (word >> 8 & 15) << 1, 13)
        return f"{['beq', 'bne', '', '', 'blt', 'bge', 'bltu', 'bgeu'][kind]} {rs1}, {rs2}, {target(offset)}"
    if op == 0x03 and kind in (0, 1, 2, 4, 5):
        return f"{['lb', 'lh', 'lw', '', 'lbu', 'lhu'][kind]} {rd}, {immediate}({rs1})"
    if op == 0x23 and kind < 3:
        return f"{['sb', 'sh', 'sw'][kind]} {rs2}, {signed(top << 5 | word >> 7 & 31, 12)}({rs1})"
    if op == 0x13:
        if kind == 1 or kind == 5:
            return f"{'slli' if kind == 1 else 'srai' if top == 32 else 'srli'} {rd}, {rs1}, {word >> 20 & 31}"
        if kind == 0 and rs1 == "zero":
            return "nop" if rd == "zero" else f"li {rd}, {immediate}"
        if kind == 0 and immediate == 0:
            return f"mv {rd}, {rs1}"
        return f"{['addi', '', 'slti', 'sltiu', 'xori', '', 'ori', 'andi'][kind]} {rd}, {rs1}, {immediate}"
    if op == 0x33 and top in (0, 1, 32):
        names = {0: ["add", "sll", "slt", "sltu", "xor", "srl", "or", "and"], 32: ["sub", "", "", "", "", "sra", "", ""],
                 1: ["mul", "mulh", "mulhsu", "mulhu", "div", "divu", "rem", "remu"]}[top]
        return f"{names[kind]} {rd}, {rs1}, {rs2}" if names[kind] else "no instruction"
    if op == 0x0F and kind == 0:
        return "fence"
    if op == 0x2F and kind == 2:
        atomics = {0: "amoadd", 1: "amoswap", 2: "lr", 3: "sc", 4: "amoxor", 8: "amoor", 12: "amoand", 16: "amomin", 20: "amomax", 24: "amominu",
                   28: "amomaxu"}
        name = atomics.get(word >> 27, "")
        order = ["", ".rl", ".aq", ".aqrl"][word >> 25 & 3]
        if name == "lr":
            return f"lr.w{order} {rd}, ({rs1})"
        return f"{name}.w{order} {rd}, {rs2}, ({rs1})" if name else "no instruction"
    return {0x73: "ecall", 0x100073: "ebreak"}.get(word, "no instruction")
