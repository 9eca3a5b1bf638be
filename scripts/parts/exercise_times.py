"""Exercises on what translations and page faults cost."""
from __future__ import annotations

import random
from collections.abc import Iterable
from fractions import Fraction

from answers import Amount, Amounts, Fact, Named, OneIn
from exercise_base import STACK, TEXT, Part, Rules, Variant, exercise, unlike

LEAVES = {"fifo": "the oldest goes first, used or not", "lru": "the one whose last use is longest ago goes first"}


# 3. What a translation cache reaches

def loop_source(pages: int, rounds: int) -> list[str]:
    return f"""        lui  s0, 0x7FFC0        # the first of the stack's pages
        lui  s1, 1
        li   s2, {rounds}
again:  mv   t1, s0
        li   t0, {pages}
next:   lw   t2, 0(t1)
        add  t1, t1, s1
        addi t0, t0, -1
        bnez t0, next
        addi s2, s2, -1
        bnez s2, again
        li   a0, 0
        li   a7, 94
        ecall""".split("\n")


def loop_pages(pages: int, rounds: int) -> list[int]:
    """The pages that the instructions of that program use, one after another."""
    uses = [TEXT] * 3
    for _ in range(rounds):
        uses += [TEXT] * 2
        for page in range(pages):
            uses += [TEXT, STACK + page] + [TEXT] * 3
        uses += [TEXT] * 2
    return uses + [TEXT] * 3


def cache_misses(uses: Iterable[int], entries: int, rule: str = "fifo") -> int:
    cached: list[int] = []
    misses = 0
    for page in uses:
        if page not in cached:
            misses += 1
            cached = cached[-(entries - 1):] + [page] if entries > 1 else [page]
        elif rule == "lru":
            cached.remove(page)
            cached.append(page)
    return misses


def size_in_kib(count: int, form: str) -> Amount:
    return Amount(Fraction(count * 1024), "size", Fraction(1024), shown=f"{count} KiB", form=form, is_binary=True)


def time_in_ns(time: Fraction, form: str) -> Amount:
    return Amount(time, "time", places=2, shown=f"{float(time):.2f} ns", form=form)


@exercise(3, "what a translation cache reaches", tlb=("fifo", "lru"))
def reach(draw: random.Random, rules: Rules) -> Variant:
    pages, rounds = draw.choice((8, 12, 14, 15, 16, 17, 20, 24)), draw.randrange(2, 6)
    look, memory = draw.choice((1, 2, 5)), draw.choice((50, 80, 100))
    uses = loop_pages(pages, rounds)
    misses = cache_misses(uses, 16, rules["tlb"])
    time = look + memory + Fraction(2 * memory * misses, len(uses))
    question = [f"A hart's cache has 16 translations of pages of 4096 bytes; {LEAVES[rules['tlb']]}. It is empty at first, "
                "and all pages are",
                "in frames. The program lies on one page of its own:", "", *("  " + line for line in loop_source(pages, rounds)), "",
                "Each instruction is an access to its own page, and a load one more to its data's. An access misses if the cache has no",
                "translation of its page.", "",
                "a. How many KiB do the cache's translations reach?",
                "b. How many accesses to pages does the run make, and how many of them miss in the cache?",
                f"c. A look into the cache takes {look} ns, an access to memory {memory} ns, and a walk reads two words of memory. "
                "What is the effective",
                "access time, with two places?"]
    steps = f"{look} + {memory} + {misses}/{len(uses)} * 2 * {memory} = {float(time):.2f} ns"
    answers = ["a. 16 * 4 KiB = 64 KiB", f"b. {len(uses)} accesses (one fetch an instruction, and {pages * rounds} loads), {misses} misses",
               f"c. {steps}"]
    parts = [Part("a", size_in_kib(64, "a size, as 12 KiB"), "16 translations of 4 KiB each"),
             Part("b", accesses_and_misses(len(uses), misses), why_missed(pages, rules["tlb"])),
             Part("c", time_in_ns(time, "a time with two places, as 12.34 ns"), steps)]
    return Variant({"pages": pages, "rounds": rounds, "look": look, "memory": memory, "source": loop_source(pages, rounds)}, question,
                   answers,
                   [64, len(uses), misses, f"{float(time):.2f}"], parts)


def why_missed(pages: int, rule: str) -> str:
    if pages < 16:
        return f"a cache of 16 holds all {pages + 1} pages of the loop, so that each misses once"
    if rule == "lru":
        return f"the text stays, and {pages} pages take turns on 15 places: each page has left when it comes round again"
    return f"{pages + 1} pages take turns on 16 places, and the oldest goes first: a page is gone when it comes round again"


def accesses_and_misses(accesses: int, misses: int) -> Amounts:
    numbers = [Named("accesses", r"(?:page )?access(?:es)?(?: to pages)?(?: of which)?|(?:in )?total", Fraction(accesses)),
               Named("misses", r"(?:tlb |cache )?miss(?:es|ed)?", Fraction(misses))]
    return Amounts(numbers, f"{accesses} accesses, {misses} misses", "two numbers, as 12 accesses, 3 misses", is_pair=True)


# 15. The effective access time

@exercise(15, "the effective access time with page faults", fault=("more", "whole"))
def access_time(draw: random.Random, rules: Rules) -> Variant:
    memory, fault = draw.choice((100, 150, 200)), draw.choice((2, 5, 8, 10)) * 1000000
    one_in = draw.choice((1000, 10000, 100000, 1000000))
    slower = draw.choice((5, 10, 20))
    more = fault if rules["fault"] == "more" else fault - memory
    time = memory + Fraction(more, one_in)
    least = -(-more * 100 // (memory * slower))
    takes = "a page fault {} ms more" if rules["fault"] == "more" else "one with a page fault {} ms in all"
    question = [f"An access to memory takes {memory} ns, and {takes.format(fault // 1000000)}.", "",
                f"a. One access in {one_in} is a page fault. What is the effective access time, with two places?",
                "b. How many times slower is that than with no page faults? (two places)",
                f"c. One access in how many may be a page fault, so that memory is slower by {slower} % at most?"]
    shown, ratio = f"{float(time):.2f}", f"{float(time / memory):.2f}"
    steps, most = f"{memory} + {more} / {one_in} = {shown} ns", f"{more} / n is at most {memory * slower / 100:.2f}"
    answers = [f"a. {steps}", f"b. {ratio} times", f"c. one in {least} at least: {most}"]
    parts = [Part("a", time_in_ns(time, "a time with two places, as 12.34 ns"), steps),
             Part("b", Amount(time / memory, "ratio", places=2, shown=ratio,
                              form=f"a number with two places, as {unlike(ratio, '1.25', '1.75')}"), f"{shown} / {memory}"),
             Part("c", OneIn(Fraction(least), shown=str(least), form="a number, as 1 in 123", bound=Fraction(memory * slower, 100 * more)),
                  f"{most}: one in {least} at least")]
    return Variant({"memory": memory, "fault": fault, "one_in": one_in, "slower": slower}, question, answers, [shown, ratio, least], parts)


# 19. How far a TLB reaches

@exercise(19, "how far a TLB reaches", tlb=("fifo", "lru"))
def tlb_reach(draw: random.Random, rules: Rules) -> Variant:
    entries, size = draw.choice((16, 32, 64, 128)), draw.choice((4, 16, 64))
    count = entries * draw.choice((1, 2, 4)) // draw.choice((1, 2)) + draw.choice((0, 0, 1))
    passes, large = draw.choice((2, 3, 5)), draw.choice((8, 16))
    array = count * size
    accesses = array * 256 * passes
    misses = count if count <= entries else count * passes
    large_pages = -(-array // (size * large))
    large_misses = large_pages if large_pages <= entries else large_pages * passes
    leaves = "the oldest goes first" if rules["tlb"] == "fifo" else LEAVES["lru"]
    question = [f"A TLB has {entries} entries for pages of {size} KiB; {leaves}. "
                f"A program goes {passes} times over an array of {array} KiB, word by word",
                "(4 bytes), from its start to its end. Count the array's accesses and no others; the array begins with a page. The TLB is "
                "empty at",
                "first, and an access misses if the TLB has no entry for its page.", "",
                "a. How many KiB does the TLB reach?", "b. How many pages has the array?", "c. How many accesses miss in the TLB?",
                "d. What percentage of the accesses hits, with three places?",
                f"e. How many accesses miss with pages of {size * large} KiB, and as many entries?"]
    hits = 100 - Fraction(100 * misses, accesses)
    shown = f"{float(hits):.3f}"
    why = (f"{count} pages have room in {entries} entries: each misses once" if count <= entries
           else f"{count} pages on {entries} entries, and {leaves}: each misses in each of the {passes} passes")
    parts = [Part("a", size_in_kib(entries * size, f"a size, as {unlike(entries * size, 12, 34)} KiB"), f"{entries} * {size}"),
             Part("b", Amount(Fraction(count), shown=str(count), form=f"a number, as {unlike(count, 12, 15)}"), f"{array} / {size}"),
             Part("c", missed(misses, accesses, count * passes), why),
             Part("d", Amount(hits / 100, "share", Fraction(1, 100), 3, f"{shown} %", "a percentage with three places, as 12.345 %"),
                  f"{misses} of {accesses} accesses miss"),
             Part("e", missed(large_misses, accesses, 0), f"the array has {large_pages} of these pages, and {entries} fit")]
    answers = [f"a. {entries * size} KiB", f"b. {count}", f"c. {misses}: {why}", f"d. {shown} %", f"e. {large_misses}"]
    return Variant({"entries": entries, "size": size, "array": array, "passes": passes, "large": large}, question, answers,
                   [entries * size, count, misses, shown, large_misses], parts)


def missed(misses: int, accesses: int, more: int) -> Amount:
    """A number of misses, next to which the hits and all accesses may be named."""
    facts = (Fact(Fraction(accesses - misses), ("hit",)), Fact(Fraction(accesses), ("access",), True), Fact(Fraction(more), ("turn",)))
    return Amount(Fraction(misses), shown=str(misses), form=f"a number, as {unlike(misses, 12, 15)}", nouns=("miss", "tlb"), facts=facts)


# 22. An array and a TLB

@exercise(22, "an array and a TLB")
def array_walk(draw: random.Random) -> Variant:
    page, item = draw.choice((16, 32, 64)), draw.choice((4, 8))
    count, begin = draw.randrange(8, 21), draw.randrange(20, 200) * item
    again = draw.choice((2, 3))
    pages = [(begin + item * k) // page for k in range(count)]
    misses = len(set(pages))
    question = [f"A program reads an array of {count} numbers of {item} bytes each, one after another. The array begins at address "
                f"{begin}, and pages have {page} bytes.",
                "The TLB is empty at first, and has room for all pages of the array. Only the array's accesses count.", "",
                "a. On which page is the first number?", "b. On how many pages are the numbers?", "c. How many accesses miss in the TLB?",
                "d. Which percentage of the accesses hits, with one place?",
                f"e. The program reads the array {again} times. Which percentage of all its accesses hits, with one place?",
                f"f. How many accesses of the first reading would miss with pages of {2 * page} bytes?"]
    first, all_hits = Fraction(count - misses, count), Fraction(again * count - misses, again * count)
    large = len({(begin + item * k) // (2 * page) for k in range(count)})
    parts = [Part("a", Amount(Fraction(pages[0]), shown=str(pages[0]), form="a number, as 123"), f"{begin} / {page}, rounded down"),
             Part("b", Amount(Fraction(misses), shown=str(misses), form=f"a number, as {unlike(misses, 12, 15)}"),
                  f"the pages {pages[0]} to {pages[-1]}"),
             Part("c", missed(misses, count, 0), "the first number on each page misses, and the others hit"),
             Part("d", percentage(first), f"{count - misses} of {count} accesses hit"),
             Part("e", percentage(all_hits), f"{again * count - misses} of {again * count} accesses hit: only the first reading misses"),
             Part("f", missed(large, count, 0), f"the numbers are on {large} of these pages")]
    answers = [f"{part.name}. {part.right}: {part.why}" for part in parts]
    results = [pages[0], misses, misses, f"{float(100 * first):.1f}", f"{float(100 * all_hits):.1f}", large]
    return Variant({"page": page, "item": item, "count": count, "begin": begin, "again": again}, question, answers, results, parts,
                   misses > 2 and begin % page != 0)


def percentage(share: Fraction) -> Amount:
    return Amount(share, "share", Fraction(1, 100), 1, f"{float(100 * share):.1f} %", "a percentage with one place, as 12.3 %")
