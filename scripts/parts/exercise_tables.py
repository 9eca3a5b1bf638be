"""Exercises on page tables: an address through them, and what they take."""
from __future__ import annotations

import random
from fractions import Fraction

from answers import Amount, Amounts, Named, Walked
from exercise_base import Part, Variant, exercise, unlike

ROOT = 0x200000
V, R, W, X, U, A, D = 1, 2, 4, 8, 16, 64, 128


# 2. Translation

def pointer(table: int) -> int:
    return ((ROOT + table) << 10) | V


def leaf(draw: random.Random, ppn: int, rights: int) -> int:
    return (ppn << 10) | rights | U | V | draw.choice((0, A, A | D if rights & W else A))


def allowed(draw: random.Random, word: int) -> str:
    """An access, mostly one that a leaf allows."""
    may = [access for access, right in (("fetch", X), ("load", R), ("store", W)) if word & right]
    return draw.choice(may) if may and draw.random() < 0.7 else draw.choice(("fetch", "load", "store"))


def walk(tables: dict[int, dict[int, int]], address: int, access: str) -> tuple[list[list[int]], str]:
    """The manual's steps: the words that are read, and the physical address or the fault."""
    table, read = 0, []
    for level, index in ((1, address >> 22), (0, address >> 12 & 1023)):
        word = tables[table].get(index, 0)
        read.append([table, index, word])
        if not word & V:
            return read, "page fault, invalid"
        if word & (R | W) == W:
            return read, "page fault, reserved"
        if not word & (R | X):
            table = (word >> 10) - ROOT
            if word & (U | A | D) or level == 0 or table not in tables:
                return read, "page fault, pointer"
            continue
        if not word & U:
            return read, "page fault, user"
        if not word & {"fetch": X, "load": R, "store": W}[access]:
            return read, "page fault, right"
        ppn = word >> 10
        if level == 1 and ppn & 1023:
            return read, "page fault, misaligned"
        return read, f"0x{(ppn << 12) + (address & (0x3FFFFF if level else 0xFFF)):08X}"
    return read, "page fault, pointer"


REASONS = {
    "invalid": "V is clear",
    "reserved": "W without R",
    "pointer": "a pointer with U, A or D set, or in the last level",
    "user": "a leaf without U",
    "right": "a leaf without the right for this access",
    "misaligned": "a leaf of level 1 whose PPN[0] is not 0",
}


@exercise(2, "an address through two levels of page tables")
def translation(draw: random.Random) -> Variant:
    roots = draw.sample(range(1, 1000), 4)
    rights = [R | X, R | W, R, R | W | X]
    tables: dict[int, dict[int, int]] = {0: {}, 1: {}, 2: {}}
    tables[0][roots[0]], tables[0][roots[1]] = pointer(1), pointer(2)
    tables[0][roots[2]] = leaf(draw, draw.randrange(1, 1000) * 1024 + draw.choice((0, 0, 1)), draw.choice(rights))
    if draw.random() < 0.5:
        tables[0][roots[3]] = pointer(draw.choice((1, 2))) | draw.choice((U, A, D))
    for table in (1, 2):
        for index in draw.sample(range(1024), 3):
            tables[table][index] = leaf(draw, draw.randrange(4, 4000), draw.choice(rights))
        tables[table][draw.randrange(1024)] = draw.choice(((draw.randrange(4, 4000) << 10) | U | V | W,
                                                           (draw.randrange(4, 4000) << 10) | R | W | V))
    places = [(roots[table - 1] << 22 | index << 12, word) for table in (1, 2) for index, word in sorted(tables[table].items())]
    good = [place for place in places if place[1] & U and place[1] & (R | W) != W]
    bad = [place for place in places if place not in good]
    chosen = draw.sample(good, 3) + [draw.choice(bad), (roots[2] << 22 | draw.randrange(1024) << 12, tables[0][roots[2]]),
                                     (draw.choice((roots[0], roots[3])) << 22 | draw.randrange(1024) << 12, 0)]
    draw.shuffle(chosen)
    asked = [(allowed(draw, word), place | draw.randrange(0, 4096, 4)) for place, word in chosen]
    question = ["Page tables, by their words that are not 0 (table k is physical page 0x200000 + k, table 0 is the root):", ""]
    question += [f"  table {table}, word {index}: 0x{word:08X}" for table in tables for index, word in sorted(tables[table].items())]
    question += ["", "Split each address into VPN[1], VPN[0] and offset, and walk it in user mode. To which physical address does it lead? "
                 "Or is it a page",
                 "fault, and for which of these reasons?", "", *(f"  {word}: {what}" for word, what in REASONS.items()), ""]
    question += [f"  {letter}. {access} at 0x{address:08X}" for letter, (access, address) in zip("abcdef", asked)]
    answers, results, parts = [], [], []
    for letter, (access, address) in zip("abcdef", asked):
        read, result = walk(tables, address, access)
        words = ", ".join(f"word {index} of table {table} is 0x{word:08X}" for table, index, word in read)
        why = f"VPN[1] 0x{address >> 22:X}, VPN[0] 0x{address >> 12 & 1023:X}, offset 0x{address & 4095:03X}: {words}"
        results.append(result)
        answers.append(f"{letter}. {result}: {why}")
        parts.append(Part(letter, walked(address, access, read, result), why + reason_of(result)))
    faults = {result for result in results if result.startswith("page")}
    shows = len(faults) > 1 and sum(result.startswith("0x") for result in results) > 1
    return Variant({"tables": tables, "asked": asked}, question, answers, results, parts, shows)


def walked(address: int, access: str, read: list[list[int]], result: str) -> Walked:
    """What is right of an address, and the numbers that may stand in an answer since they lead to it."""
    physical = int(result, 16) if result.startswith("0x") else None
    facts = {address, address >> 22, address >> 12 & 1023, address >> 12, address & 4095, *(number for step in read for number in step)}
    facts |= {word >> 10 for _, _, word in read} | {ROOT + table for table, _, _ in read} | {physical >> 12 if physical else 0}
    form = "a physical address, as 0x00123ABC, or one of the words for a page fault"
    return Walked(physical, "" if physical is not None else result.partition(", ")[2], access, frozenset(facts - {physical}), result, form)


def reason_of(result: str) -> str:
    word = result.partition(", ")[2]
    return f" ({REASONS[word]})" if word else ""


# 20. What two levels of page tables take

@exercise(20, "what two levels of page tables take")
def table_sizes(draw: random.Random) -> Variant:
    page_bits, entry = draw.choice(((12, 4), (12, 8), (13, 8), (14, 4), (14, 8)))
    low_bits = page_bits - (2 if entry == 4 else 3)
    bits = page_bits + low_bits + draw.randrange(6, low_bits + 1)
    high_bits = bits - page_bits - low_bits
    regions = []
    place = draw.randrange(1, 4) << low_bits
    for _ in range(draw.randrange(2, 4)):
        length = draw.randrange(1, 3 << low_bits)
        place += draw.randrange(0, 1 << low_bits)
        if place + length < 1 << (bits - page_bits):
            regions.append([place, length])
        place += length + draw.randrange(1, 3 << low_bits)
    address = (draw.randrange(1 << high_bits) << low_bits | draw.randrange(1 << low_bits)) << page_bits | draw.randrange(1 << page_bits)
    tables = {number for start, length in regions for number in range(start >> low_bits, (start + length - 1 >> low_bits) + 1)}
    split = [address >> page_bits + low_bits, address >> page_bits & (1 << low_bits) - 1, address & (1 << page_bits) - 1]
    two, flat = (1 << high_bits) * entry + len(tables) * (1 << page_bits), (1 << bits - page_bits) * entry
    used = " and ".join(f"{length} pages from page 0x{start:X} on" for start, length in regions)
    question = [f"Addresses have {bits} bits, pages {1 << page_bits} bytes, and entries of page tables {entry} bytes. "
                "Tables of the last level are a page each; the root has the",
                "rest of the bits.", "", "a. How many entries has a table of the last level?",
                "b. How many bits of an address choose the root's entry?",
                f"c. Split 0x{address:X} into its three numbers: the root's index, the table's index and the offset.",
                f"d. A process has {used}. How many tables of the last level does it need?",
                "e. How many bytes are they with the root?", "f. How many bytes would one table of all pages be?"]
    parts = [Part("a", Amount(Fraction(1 << low_bits), shown=str(1 << low_bits), is_binary=True, form=a_number("number", 1 << low_bits)),
                  f"{1 << page_bits} / {entry}"),
             Part("b", Amount(Fraction(high_bits), "bits", shown=f"{high_bits} bits",
                              form=f"a number of bits, as {unlike(high_bits, 3, 5)}"),
                  f"{bits} - {low_bits} - {page_bits}"),
             Part("c", three_numbers(split), f"the upper {high_bits} bits, {low_bits} bits and {page_bits} bits"),
             Part("d", Amount(Fraction(len(tables)), shown=str(len(tables)), form=a_number("number", len(tables))),
                  f"the root's entries {', '.join(f'0x{number:X}' for number in sorted(tables))} are in use"),
             Part("e", bytes_of(two), f"{1 << high_bits} * {entry} + {len(tables)} * {1 << page_bits}"),
             Part("f", bytes_of(flat), f"2^{bits - page_bits} * {entry}")]
    answers = [f"{part.name}. {part.right}: {part.why}" for part in parts]
    return Variant({"bits": bits, "page_bits": page_bits, "entry": entry, "regions": regions, "address": address}, question, answers,
                   [1 << low_bits, high_bits, split, len(tables), two, flat], parts, len(regions) > 1)


def a_number(of: str, right: int) -> str:
    return f"a {of}, as {unlike(right, 12, 34)}"


def bytes_of(count: int) -> Amount:
    return Amount(Fraction(count), "size", shown=f"{count} bytes", form=f"a size, as {unlike(count, 12, 34)} bytes or 3.5 KiB",
                  is_binary=True)


def three_numbers(split: list[int]) -> Amounts:
    """The three numbers of an address, by their names or in their order."""
    patterns = (r"(?:the )?(?:root|outer|first|vpn ?\[? ?1 ?\]?|directory|page directory|p1)(?:'s)?(?: table)?(?: index)?",
                r"(?:the )?(?:table|inner|second|vpn ?\[? ?0 ?\]?|page table|p2)(?:'s)?(?: index)?", r"(?:the )?offset|\bd\b(?= ?[:=])")
    named = [Named(name, pattern, Fraction(value)) for name, pattern, value in zip(("root", "table", "offset"), patterns, split)]
    return Amounts(named, " ".join(f"0x{part:X}" for part in split), "three numbers in their order, as 0x1 0x23 0x456, or by their names",
                   base=16)


# 21. A flat page table

@exercise(21, "a flat page table")
def flat_table(draw: random.Random) -> Variant:
    offset_bits, page_bits = draw.choice(((10, 4), (12, 4), (8, 5), (10, 5)))
    pages, frames = 1 << page_bits, 4 << page_bits
    valid = {page: frame for page, frame in zip(draw.sample(range(pages), draw.randrange(pages // 3, pages // 2 + 1)),
                                                draw.sample(range(frames), pages))}
    entries = [0x80000000 | valid[page] if page in valid else 0 for page in range(pages)]
    absent = [page for page in range(pages) if page not in valid]
    asked = [draw.choice(sorted(valid)) for _ in range(3)] + [draw.choice(absent)]
    draw.shuffle(asked)
    addresses = [page << offset_bits | draw.randrange(1 << offset_bits) for page in asked]
    entry, base = 4, draw.randrange(1, 40) << 8
    place = draw.choice(sorted(valid))
    question = [f"Addresses have {offset_bits + page_bits} bits, pages {1 << offset_bits} bytes. A process has a flat (linear) page "
                f"table: an entry of {entry} bytes for each",
                "page, the entry of page 0 first. The highest of its 32 bits is the valid bit, and the others are the frame's number:", "",
                *(f"  page {page:2}: 0x{word:08X}" for page, word in enumerate(entries)), "",
                "To which physical address does each of these lead, or is it `invalid`?", "",
                *(f"  {letter}. 0x{address:04X}" for letter, address in zip("abcd", addresses)), "",
                f"e. The table begins at physical address 0x{base:X}. At which address is the entry of page {place}?",
                f"f. How many bytes is the table? g. How many bytes would it be with pages of {(1 << offset_bits) * 2} bytes?"]
    parts, results = [], []
    for letter, page, address in zip("abcd", asked, addresses):
        offset = address & (1 << offset_bits) - 1
        physical = valid[page] << offset_bits | offset if page in valid else None
        shown = "invalid" if physical is None else f"0x{physical:04X}"
        facts = frozenset({address, page, offset, entries[page], valid.get(page, 0)} - {physical})
        why = f"page {page} (0x{page:X}), offset 0x{offset:X}: its entry is 0x{entries[page]:08X}"
        parts.append(Part(letter, Walked(physical, "" if physical is not None else "invalid", "load", facts, shown,
                                         "a physical address, as 0x12ABC, or `invalid`"), why))
        results.append(shown)
    where, size = base + entry * place, entry * pages
    parts += [Part("e", Amount(Fraction(where), shown=f"0x{where:X}", form="an address, as 0x123", base=16),
                   f"0x{base:X} + {place} * {entry}"),
              Part("f", bytes_of(size), f"{pages} pages, {entry} bytes each"),
              Part("g", bytes_of(size // 2), f"{pages // 2} pages, {entry} bytes each")]
    answers = [f"{part.name}. {part.right}: {part.why}" for part in parts]
    shows = base + entry * place != place and len(set(asked)) == 4
    return Variant({"offset_bits": offset_bits, "entries": entries, "addresses": addresses, "base": base, "place": place}, question,
                   answers, [*results, where, size, size // 2], parts, shows)
