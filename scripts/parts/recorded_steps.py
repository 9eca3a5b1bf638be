"""The steps of a recorded run that touch memory or order it, as `guest debug --replay` shows them: it does one step after another, and prints the
registers after each. What a step touched follows from its instruction and the registers before it."""
import subprocess
import tempfile
from typing import NamedTuple

from first_build import program
from guest_turns import BY_TURNS

LOAD, STORE, AMO, LR, SC, FENCE, SPAWN = "load", "store", "amo", "lr", "sc", "fence", "spawn"
READ_CALL, WRITE_CALL, SPAWN_CALL = 63, 64, 1024
SWAP, ECALL, NO_MEMORY = 1, 0x73, 0xFFFFFFF2    # -14: the address of a call was no good
FIRST, OTHERS = 14, 14 + 9 * 14    # where the line of x1 begins behind that of the pc, and that of x10
REGISTERS = OTHERS + 22 * 15    # characters of all lines
REPLY = len("ran\n") + REGISTERS
LINES = 20000    # of lines that are sent, before the next ones are


class Fault(Exception):
    """Why the steps are not known."""


class Step(NamedTuple):
    """A step: its number from 1 on, its hart and pc, and what it did. `value` is that of a fence's upper twelve bits, of aq and rl for an atomic
    (2 and 1), of the started hart for a spawn. An SC that stored nothing is none. `old` is what an atomic or an LR found, and `new` what was stored,
    where it is asked for and is known: of an atomic without a result what it stored is known only for a swap."""
    number: int
    hart: int
    pc: int
    kind: str
    address: int
    size: int
    value: int
    old: int | None = None
    new: int | None = None


class Access(NamedTuple):
    """What an instruction does, before the registers are known."""
    kind: str
    base: int
    offset: int
    size: int
    value: int
    result: int    # the register that says whether an SC stored
    source: int = 0    # the register whose value is stored
    operation: int = 0    # which one an atomic does


def access_of(word):
    """What a word does to memory or its order, or None."""
    op, kind, base, rd = word & 127, word >> 12 & 7, word >> 15 & 31, word >> 7 & 31
    upper = (word >> 20) - (word >> 31 << 12)
    if op == 0x03:
        return Access(LOAD, base, upper, 1 << (kind & 3), 0, 0)
    if op == 0x23:
        return Access(STORE, base, (upper & ~31) | rd, 1 << kind, 0, 0, word >> 20 & 31)
    if op == 0x2F:
        name = {2: LR, 3: SC}.get(word >> 27, AMO)
        return Access(name, base, 0, 4, word >> 25 & 3, rd, word >> 20 & 31, word >> 27)
    if op == 0x0F and kind == 0:
        return Access(FENCE, 0, 0, 0, word >> 20, 0)
    if word == ECALL:
        return Access("call", 0, 0, 0, 0, 0)
    return None


def register(lines, number):
    """The value of a register in the lines of all."""
    if number == 0:
        return 0
    at = FIRST + 14 * (number - 1) + 5 if number < 10 else OTHERS + 15 * (number - 10) + 6
    return int(lines[at:at + 8], 16)


def first_registers(pc, sp, given):
    """The lines of a hart that was just started."""
    values = {2: sp, 10: given}
    return f"pc 0x{pc:08X}\n" + "".join(f"x{it} 0x{values.get(it, 0):08X}\n" for it in range(1, 32))


def values_of(access, before, after):
    """What an access found, and what it stored, as far as is known."""
    if access.kind == LOAD:
        return None, None
    old = register(after, access.result) if access.kind in (AMO, LR) and access.result else None
    source = register(before, access.source)
    if access.kind == STORE:
        return None, source & (1 << 8 * access.size) - 1
    if access.kind == SC:
        return None, source
    return old, None if access.kind == LR else stored_by_atomic(access.operation, old, source)


def stored_by_atomic(operation, old, source):
    """What an atomic stores over what it found. Of a number with a sign the order is that of the number with its upper bit turned round."""
    if operation == SWAP:
        return source
    if old is None:
        return None

    def signed(it):
        return it ^ 1 << 31

    return {0: old + source & 0xFFFFFFFF, 4: old ^ source, 8: old | source, 12: old & source, 16: min(old, source, key=signed),
            20: max(old, source, key=signed), 24: min(old, source), 28: max(old, source)}[operation]


def turns_of(record, count):
    """The hart of each of the first steps."""
    turns = record.turns
    for place, hart in enumerate(turns.harts):
        if hart == BY_TURNS:
            raise Fault(f"{record.name}: a turn has no hart")
        for _ in range(turns.firsts[place], min(turns.last(place), count)):
            yield hart


def steps(image, word_at, record, given, has_values=False):
    """The steps of a record's run. The last one is left out, which ended the program or was the last that the record has: it touched nothing, or
    nothing that another step follows. `word_at` is the word of code at an address. With `has_values` they have what was found and stored."""
    count = record.turns.end - 1
    with tempfile.TemporaryFile("w+") as lines:
        lines.write("regs 0\n")
        for hart in turns_of(record, count):
            lines.write(f"step {hart}\nregs {hart}\n")
        lines.seek(0)
        words = [program("guest"), "debug", "--replay", record.name, *(["--input", given] if given else []), image]
        with subprocess.Popen(words, stdin=lines, stdout=subprocess.PIPE, stderr=subprocess.PIPE, text=True) as run:
            try:
                yield from read_steps(run.stdout, word_at, record, count, has_values)
            finally:
                run.kill()


def read_steps(replies, word_at, record, count, has_values):
    before, accesses, started = {0: replies.read(REGISTERS)}, {}, 0
    for number, hart in enumerate(turns_of(record, count), 1):
        reply = replies.read(REPLY)
        if len(reply) < REPLY or not reply.startswith("ran\npc 0x") or len(before[hart]) < REGISTERS:
            raise Fault(f"{record.name}: `guest debug` shows no step {number}")
        lines, before[hart] = before[hart], reply[4:]
        pc = int(lines[5:13], 16)
        if pc not in accesses:
            accesses[pc] = access_of(word_at(pc) or 0)
        access = accesses[pc]
        if access is None:
            continue
        kind, base, offset, size, value, result, *_ = access
        if kind == "call":
            step = step_of_call(number, hart, pc, lines, before[hart])
            if step and step.kind == SPAWN:
                started += 1
                before[started] = first_registers(*(register(lines, it) for it in (10, 11, 12)))
            if step:
                yield step
        elif kind != SC or register(before[hart], result) == 0 and result:
            values = values_of(access, lines, before[hart]) if has_values else ()
            yield Step(number, hart, pc, kind, register(lines, base) + offset & 0xFFFFFFFF, size, value, *values)


def step_of_call(number, hart, pc, before, after):
    """What a call did: a read stores bytes, a write loads them, and a spawn starts a hart."""
    call, result = register(before, 17), register(after, 10)
    if call in (READ_CALL, WRITE_CALL) and 0 < result < NO_MEMORY:
        return Step(number, hart, pc, STORE if call == READ_CALL else LOAD, register(before, 11), result, 0)
    if call == SPAWN_CALL and 0 < result < 8:
        return Step(number, hart, pc, SPAWN, 0, 0, result)
    return None
