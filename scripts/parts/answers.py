"""What is right as the answer to a part of an exercise, and whether what a person wrote says that: by rules, for each kind of answer.

A text is read without what stands in brackets or follows a colon, `because` and the like, which is a reason. Words that mean nothing for
the part are filling; a negation, another unit, or a number that is not explained makes an answer wrong.
"""
from __future__ import annotations

import re
from collections.abc import Callable, Iterator
from dataclasses import dataclass, field
from fractions import Fraction

from answer_numbers import UNITS, WORDS, Manner, Number, numbers_of, plain_text, with_points, without_groups

REASONS = ("because since as so for each every all which where when due by from with given assuming that namely meaning already the it "
           "they this there thus therefore while but not rather instead").split()
REFUSING = set("not no never without neither nor except unless over under above below fewer less more greater smaller between than half "
               "double "
               "hundred hundreds dozen billion wrong false".split())
COUNTED = re.compile(r"(page|entr|frame|word|access|miss|hit|fault|table|process|instruction|reference)")
TURNED = set("not never neither nor except unless wrong false".split())    # also where the question has them
BOUND = re.compile(r"\b(?:more|less|fewer|greater|smaller|higher|lower|over|under|above|below|no|not)\s+(?:than\s+)?(?=[\d.])")
READINGS = 64    # of a text, at most
LEAD = re.compile(r"^\W*(?:(?:the |my )?(?:answer|solution|result)(?: is)?\s*[:=]\s*|(?:so|thus|therefore|i think|i get|i guess|"
                  r"probably|(?:i am |i'm )?not sure(?:,? but)?|unsure)\b[,:.]?\s*(?:that\s)?)+", re.I)


def folded(text: str) -> str:
    """A text in small letters, where a negation is one word."""
    text = re.sub(r"\bcan ?not\b|\bcan't\b", "can not", re.sub(r"n't\b", " not", text.lower()))
    return re.sub(r"\b(do|does|did|is|are|wo)nt\b", r"\1 not", text)


def cut(pattern: str, text: str) -> list[str]:
    """What stands before each place where a reason may begin, and the whole."""
    return [text[:at.start()] for at in re.finditer(pattern, text)] + [text]


def readings(text: str) -> Iterator[str]:
    """The ways to read what is said to a part, the shortest first."""
    reason = r":|;|\bbecause\b|\bi\.e\.|\s-\s(?=[A-Za-z])|[.!]\s+(?=[A-Z])|,\s*(?=(?:" + "|".join(REASONS) + r")\b)"
    lines = [line for line in text.split("\n") if line.strip()]
    results = [line for line in lines[1:] if re.match(r"\W*(answer|result|so|thus|therefore|total)\b|\s*[=→]", line, re.I)]
    seen: set[str] = set()
    for chosen in (lines[0] if lines else "", " ".join(lines), *results[-1:]):
        for bare in (re.sub(r"\[[^][]*\]|\([^()]*\)", " ", chosen), chosen):
            for told in cut(reason, bare):
                if told not in seen and len(seen) < READINGS:
                    seen.add(told)
                    yield told


class Answer:
    """What is right as the answer to a part."""
    shown: str = ""    # what is right, in words
    form: str = ""    # what an answer is, with an example that is none
    question: frozenset[str] = frozenset()    # the words of the question, which are filling

    def accepts(self, said: str, has_comma: bool = False) -> bool:
        text = LEAD.sub("", plain_text(said))
        return any(self.fits(with_points(reading) if has_comma and self.has_one_number() else reading) for reading in readings(text))

    def has_one_number(self) -> bool:
        return False

    def fits(self, reading: str) -> bool:
        raise NotImplementedError

    def note(self, said: str, has_comma: bool = False) -> str:
        """How a wrong answer was read, where that is not plain."""
        return ""

    def refuses(self, reading: str) -> bool:
        """Whether a word turns the answer around."""
        text = folded(reading)
        words = set(re.findall(r"[a-z]+", text))
        return bool((REFUSING - self.question | TURNED) & words) or BOUND.search(text) is not None


# Numbers

@dataclass(frozen=True)
class Fact:
    """Another number that may stand in an answer, next to one of these nouns, or as the total after `of`."""
    value: Fraction
    nouns: tuple[str, ...]
    is_total: bool = False


def nearest(number: Number, nouns: tuple[str, ...], is_before: bool) -> str | None:
    """The noun that a number counts: the first after it, or before it where nouns stand first."""
    for words in ((number.before, number.after) if is_before else (number.after, number.before)):
        for word in words[:6]:
            if word in (",", ";"):
                break
            found = next((noun for noun in nouns if word.startswith(noun)), None)
            if found:
                return found
    return None


def stand_before(reading: str, nouns: tuple[str, ...]) -> bool:
    """Whether nouns stand before their numbers."""
    text = folded(reading)
    places = [at.start() for at in re.finditer(r"\b(?:" + "|".join(nouns) + ")", text)] if nouns else []
    numbers = [at.start() for at in re.finditer(r"(?<!\w)\.?\d", text)]
    return bool(places and numbers and places[0] < numbers[0] and places[-1] < numbers[-1])


UNIT_KINDS = {"time": {"", "time"}, "size": {"", "size"}, "bits": {"", "bits"}, "share": {"", "share"}, "ratio": {"", "ratio", "share"},
              "": {"", "ratio"}}


@dataclass
class Amount(Answer):
    """One number."""
    value: Fraction
    unit: str = ""    # the kind of its unit
    factor: Fraction = Fraction(1)    # what one of it is: 1024 where KiB are asked
    places: int | None = None    # how many are asked; none where the number is exact
    shown: str = ""
    form: str = ""
    nouns: tuple[str, ...] = ()    # what it counts, where a number of something else would be wrong
    facts: tuple[Fact, ...] = ()
    is_binary: bool = False
    base: int = 10
    question: frozenset[str] = field(default=frozenset(), repr=False)

    def has_one_number(self) -> bool:
        return True

    def manner(self, base: int) -> Manner:
        return Manner(self.unit, self.factor, self.is_binary, base)

    def fits(self, reading: str) -> bool:
        if self.refuses(reading):
            return False
        reading = without_groups(self.prepared(reading))
        reading = re.sub(r"[,;.]?\s*\b(?:so|thus|hence|therefore)\b,?(?=.*\d)", " → ", reading)
        before, _, result = reading.rpartition("→")    # what comes of it
        reading = result if before and re.search(r"\d", result) else reading
        return self.is_share(reading) or any(self.fits_in(reading, base) for base in dict.fromkeys((10, self.base)))

    def is_share(self, reading: str) -> bool:
        """Whether it says so many of all, as 9/14."""
        at = re.fullmatch(r"[a-z\s]*?:?\s*(\d+)\s*/\s*(\d+)[a-z\s.]*", reading, re.I)
        if at is None or self.places is not None or Fraction(at[1]) != self.value:
            return False
        return any(fact.is_total and fact.value == Fraction(at[2]) for fact in self.facts)

    def prepared(self, reading: str) -> str:
        if self.unit == "share":    # 99,994 % has a decimal comma, since there are no more than 100
            return re.sub(r"(?<![\w.,])(\d{1,2}),(\d{3})(?![\d,])", r"\1.\2", reading)
        return reading

    def fits_in(self, reading: str, base: int) -> bool:
        sides = [numbers_of(side, self.manner(base)) for side in re.split("[=→]", reading)]
        sides = [[number for number in side if not self.is_fact(number, reading)] for side in sides]
        sides = [side for side in sides if side]
        if not sides:
            return self.fits_words(reading)
        plain = [number for side in sides for number in side if number.is_plain]
        if not plain:
            return self.is_right(sides[-1][-1], reading) and len(sides[-1]) == 1
        if all(self.is_right(number, reading) for number in plain):
            return True
        last, before = sides[-1], sides[:-1]
        others = [side for side in before if len(side) == 1 and side[0].is_plain and side[0].kind in UNIT_KINDS[self.unit]]
        is_result = len(before) > len(others) and not others
        return is_result and len(last) == 1 and self.is_right(last[0], reading)

    def fits_words(self, reading: str) -> bool:
        """A number in words."""
        words = re.findall(r"[a-z]+", folded(reading))
        found = [WORDS[word] for word in words if word in WORDS]
        units = {UNITS[word][0] for word in words if word in UNITS}
        return len(found) == 1 and units <= UNIT_KINDS[self.unit] and self.unit in ("", "bits") and self.value == found[0]

    def all_nouns(self) -> tuple[str, ...]:
        return self.nouns + tuple(noun for fact in self.facts for noun in fact.nouns)

    def is_fact(self, number: Number, reading: str) -> bool:
        if number.kind and number.kind not in UNIT_KINDS[self.unit] and number.before[:1] in (("of",), ("per",), ("with",),
                                                                                              ("for",)):    # 17 pages of 4 KiB
            return True
        if number.kind or not number.is_plain:
            return False
        noun = nearest(number, self.all_nouns(), stand_before(reading, self.all_nouns()))
        for fact in self.facts:
            follows_of = "of" in number.before[:2]
            if number.value == fact.value and (noun in fact.nouns and noun not in self.nouns or fact.is_total and follows_of):
                return True
        return False

    def counts_other(self, number: Number, reading: str) -> bool:
        """Whether the number counts something else than what is asked."""
        noun = nearest(number, self.all_nouns(), stand_before(reading, self.all_nouns())) if self.nouns else None
        if noun and noun not in self.nouns and any(noun in fact.nouns and not fact.is_total for fact in self.facts):
            return True
        return self.unit in ("time", "size", "bits",
                             "share") and not number.kind and bool(number.after) and bool(COUNTED.match(number.after[0]))

    def is_right(self, number: Number, reading: str) -> bool:
        if number.kind not in UNIT_KINDS[self.unit] or self.counts_other(number, reading):
            return False
        scale = self.factor if number.kind in ("", "ratio") else Fraction(1)
        if self.is_near(number.value * scale, number.place * scale, number.is_plain):
            return True
        if self.unit == "size" and not number.kind and number.value == self.value:    # in bytes, where KiB are asked
            return True
        if self.unit == "share" and not number.kind and 0 < number.value < 1:    # a part of 1 in place of a percentage
            return self.is_near(number.value, number.place, number.is_plain)
        is_more = number.kind == "share" and self.unit == "ratio" and re.search(r"\b(slower|longer|more)\b", reading)
        return bool(is_more) and self.is_near(number.value + 1, number.place, number.is_plain)

    def is_near(self, value: Fraction, place: Fraction, is_plain: bool) -> bool:
        """Whether a number is exact, or has the places that are asked or more, and each of them is right. What was computed with a rounded
        number is right to two places more than are asked."""
        if value == self.value or self.places is None:
            return value == self.value
        asked = self.factor / 10 ** self.places
        off, most = value - self.value, max(place, asked / 100) / 2
        if abs(off) == most and place:    # a tie is rounded up, or to the even digit
            return place <= asked and bool(off > 0 or (value / place).numerator % 2 == 0)
        return bool((not is_plain or place <= asked) and abs(off) < most)

    def note(self, said: str, has_comma: bool = False) -> str:
        text = plain_text(said).split("\n")[0]
        text = with_points(text) if has_comma else text
        plain = without_groups(text)
        if plain == text and not re.search(r"\d[.,]\d{3}(?!\d)", said):
            return ""
        found = re.findall(r"(?<![\w.])\d+(?:\.\d+)?", plain)
        shown = found[0].rstrip("0").rstrip(".") if found and "." in found[0] else "".join(found)
        return f" (read as {shown})" if len(found) == 1 else ""


@dataclass
class OneIn(Amount):
    """One of so many."""
    bound: Fraction = Fraction(0)    # the part that is not rounded

    def prepared(self, reading: str) -> str:
        noun = r"(?:\s*(?:page\s*)?(?:access\w*|faults?|miss\w*))?"
        between = r"\s*(?:in|of|out of|per|to|every|for|:|/)\s*(?:at least|every|each|about|n\s*=)?\s*(?:1\s*(?:in|/)\s*)?(?=[\d.(])"
        one = r"\b(?:1|one|a|a single)" + noun + between
        return re.sub(one, " ", reading, flags=re.I)

    def fits(self, reading: str) -> bool:
        told = re.search(r"\b(?:one|1)\s+(?:page\s+)?(?:access|fault|miss)\w*\s+(?:in|of|out of)\s+(?:every\s+|each\s+)?(0x[0-9a-f]+|[\d, "
                         r"]*\d)", reading, re.I)
        return super().fits(told[1] if told and not self.refuses(reading) else reading) or self.fits_share(reading)

    def fits_share(self, reading: str) -> bool:
        """The part itself, in place of its reciprocal."""
        if self.refuses(reading):
            return False
        found = numbers_of(without_groups(re.split("[=→]", reading)[-1]), Manner("share"))
        return len(found) == 1 and found[0].kind in ("", "share") and found[0].value in (1 / self.value, self.bound)


@dataclass
class Named:
    """One of several numbers that are asked in one part: how what it is called looks, and its value."""
    name: str
    pattern: str
    value: Fraction


@dataclass
class Amounts(Answer):
    """Several numbers, in their order or by their names."""
    numbers: list[Named]
    shown: str = ""
    form: str = ""
    base: int = 10
    is_pair: bool = False    # the second of the first: 107 of 526
    question: frozenset[str] = field(default=frozenset(), repr=False)

    def fits(self, reading: str) -> bool:
        if self.refuses(reading):
            return False
        grouped = re.sub(r"(?<![\w,.])\d{1,3}(?:,\d{3})+(?![\w,])", lambda at: at[0].replace(",", ""), reading)
        texts = dict.fromkeys((grouped, reading.replace(",", " , ")))
        return any(self.fits_in(text, base) for text in texts for base in dict.fromkeys((10, self.base, 2 if self.base == 16 else 10)))

    def fits_in(self, text: str, base: int) -> bool:
        bare = re.findall(r"[0-9a-fA-F]+", text)
        if base == 16 and re.fullmatch(r"[0-9a-fA-F\s,;/|.]+", text) and any(at.isdecimal() or len(at) > 1 for at in bare):    # d 93 df5
            return [int(at, 16) for at in bare] == [named.value for named in self.numbers]
        total = re.split(r"=\s*(?=[\d]+\s*$)", text)[0] if "+" in text else text    # 5 + 3 + 4 = 12
        marked = total
        for k, named in enumerate(self.numbers):
            marked = re.sub(named.pattern, f" @{'abcdefgh'[k]} ", marked, flags=re.I)
        manner = Manner(base=base, is_binary=True, signs="" if self.is_pair else "*")
        found = numbers_of(re.sub(r"@[a-h]", lambda at: " name" + at[0][1] + " ", marked), manner)
        if any(number.kind for number in found):
            return False
        return self.is_named(found, marked) or self.is_ordered(found, marked) or self.is_pair and self.is_share(text)

    def marks(self, marked: str) -> list[str]:
        return re.findall(r"@([a-h])", marked)

    def is_ordered(self, found: list[Number], marked: str) -> bool:
        names = self.marks(marked)
        if self.is_pair and re.search(r"\d\s*(?:/|(?:out )?of\b)\s*\d", marked):
            return False
        in_order = not names or names == list("abcdefgh"[:len(self.numbers)])
        return in_order and [number.value for number in found] == [named.value for named in self.numbers] and \
            (not names or len(self.numbers) == len(found) and self.names_each(found))

    @staticmethod
    def names_each(found: list[Number]) -> bool:
        """Whether a name stands at each number, and not all at the first."""
        return all(any(re.fullmatch(r"name[a-h]", word) for word in (*number.before, *number.after)) for number in found)

    def is_named(self, found: list[Number], marked: str) -> bool:
        names = self.marks(marked)
        if len(names) != len(self.numbers) or len(set(names)) != len(names) or len(found) != len(names):
            return False
        first_name, first_number = marked.find("@"), re.search(r"(?<![\w@])\d|(?<![\w@])0x", marked)
        side = "before" if first_number is None or first_name < first_number.start() else "after"
        told = {}
        for number in found:
            words = getattr(number, side)
            name = next((word[4] for word in words if re.fullmatch(r"name[a-h]", word)), None)
            if name is None:
                return False
            told[name] = number.value
        return told == {"abcdefgh"[k]: named.value for k, named in enumerate(self.numbers)}

    def is_share(self, text: str) -> bool:
        """The second of the first, as 107 of 526."""
        at = re.fullmatch(r"\D*?(\d+)\s*(?:[a-z- ]*?(?:out )?of(?: the)?|/)\s*(\d+)\D*", folded(text).replace(",", ""))
        return at is not None and [int(at[2]), int(at[1])] == [named.value for named in self.numbers] and not re.search(r"\bhit", text)


# Names

@dataclass
class Names(Answer):
    """Some of several names, in any order."""
    right: list[str]
    shown: str = ""
    form: str = ""
    others: Callable[[str], bool] | None = None    # other words for it
    noun: str = r"(?:process|proc|p|page|frames?)"
    question: frozenset[str] = field(default=frozenset(), repr=False)

    def fits(self, reading: str) -> bool:
        if self.others is not None and self.others(reading):
            return True
        if not self.right or self.refuses(reading):
            return False
        text = re.sub(r"\b(?:frame|f|slot)\s*#?\d+\s*[:=]", " ", reading, flags=re.I)
        return any(self.is_all(names) for names in self.lists(text))

    def lists(self, text: str) -> Iterator[list[str]]:
        """The names of a text; a range is all that lie in it, and names of one digit may stand together."""
        bare = re.sub(rf"\b{self.noun}\s*_?(?=\d)", " ", text, flags=re.I)
        names = [str(int(at, 0 if "x" in at.lower() else 10)) for at in re.findall(r"(?<![A-Za-z])(?:0[xX][0-9a-fA-F]+|\d+)", bare)]
        yield names
        if not names:
            yield [str(WORDS[word]) for word in re.findall(r"[a-z]+", text.lower()) if word in WORDS]
        span = re.fullmatch(r"\D*(\d+)\s*(?:-|to|through|\.\.+)\s*(\d+)\D*", text)
        if span and len(span[1]) < 4 and len(span[2]) < 4:
            yield [str(number) for number in range(int(span[1]), int(span[2]) + 1)]
        if len(names) == 1 and len(names[0]) == len(self.right) and all(len(name) == 1 for name in self.right):
            yield list(names[0])

    def is_all(self, names: list[str]) -> bool:
        return sorted(names) == sorted(self.right)


# Words

FITS = r"\b(?:fits?|fitting|enough|sufficient|suffices?|(?:has|have|is) (?:plenty|room|space)|plenty|thrash-?free)\b"
THRASHES = r"\b(?:thrash(?:es|ing|ed)?|too (?:few|small|little|many|large|big|much)|exceeds?|insufficient|overcommit\w*)\b"


def thrash_signs(reading: str) -> set[bool]:
    """What a text says of three processes: that they fit (True), that the machine thrashes (False), or both."""
    words = folded(reading)
    words = re.sub(r"\bno\b(?!\s+(?:thrash|room|space|fit|enough|sufficient))", " ", words)
    signs, last = set(), 0
    for at in re.finditer(f"(?P<fits>{FITS})|(?P<thrashes>{THRASHES})", words):
        before, last = re.findall(r"[a-z]+|[,;]", words[last:at.start()])[-5:], at.end()
        while {",", ";"} & set(before):
            before.pop(0)
        is_negated = bool({"not", "no", "never", "without", "neither", "nor", "avoids", "insufficient"} & set(before))
        signs.add((at.lastgroup == "fits") != is_negated)
    return signs


@dataclass
class Verdict(Answer):
    """Whether they fit, or the machine thrashes."""
    fits_all: bool
    shown: str = ""
    form: str = ""
    question: frozenset[str] = field(default=frozenset(), repr=False)

    def accepts(self, said: str, has_comma: bool = False) -> bool:
        told = list(readings(LEAD.sub("", plain_text(said))))
        signs = next((signs for signs in map(thrash_signs, told) if signs), None)    # of the first reading that says anything
        return any(map(self.fits, told)) if signs is None else signs == {self.fits_all}

    def fits(self, reading: str) -> bool:
        at = re.match(r"\W*(yes|no|true|false)\b\W*$", reading.lower())
        return at is not None and (at[1] in ("yes", "true")) == self.fits_all


NOBODY = re.compile(r"\W*(?:none|no[- ]?one|nobody|nothing|no (?:one |single )?process\w*|neither|n[./]?a|no(?=\W*$)|zero processes|not "
                    r"(?:applicable|needed|necessary|required)|-|/|"
                    r"(?:does|do|is|are) not (?:apply|needed|necessary|required)|no need|not thrash\w*|(?:it|the machine|they) (?:does|"
                    r"do) not(?: have to)? thrash)\b|^\W*-+\W*$")


def stops_no_one(fits_all: bool) -> Callable[[str], bool]:
    def says(reading: str) -> bool:
        text = folded(reading).strip()
        if re.search(r"\d", re.sub(r"\b(?:all|the)? ?(?:3|0) processes\b", "", text)):
            return False
        signs = thrash_signs(text)
        if signs and (signs != {fits_all} if fits_all else True in signs):
            return False
        if not fits_all and re.match(r"\W*n/?a\b|.*\bnot (?:needed|necessary|required|applicable)|.*no need", text):
            return False
        if not fits_all and re.search(r"\bimpossible\b|\bnot possible\b", text):
            return True
        return bool(NOBODY.match(text)) or bool(signs) and fits_all
    return says


ANYONE = re.compile(r"\W*(?:all|any|each|every|whichever|either)\b(?!.*\b(?:but|except|not)\b)")


def stops_any(reading: str) -> bool:
    text = folded(reading).strip()
    return bool(ANYONE.match(text)) and not re.search(r"\d", re.sub(r"\b3\b", "", text))


# Translations

SPOKEN = (
    ("reserved", r"reserved|w(?:rite|ritable)? (?:but |and )?(?:without|not|no|and not) (?:r\b|read\w*)|w ?= ?1,? ?(?:and )?r ?= ?0|w "
                 r"(?:is )?set,? (?:and |but )?r (?:is )?(?:clear|not set|0)|"
                 r"r ?= ?0,? ?(?:and )?w ?= ?1|writable (?:but|and) not readable|not r but w|w and not r"),
    ("pointer", r"(?:bad |invalid |wrong )?pointer(?: with| has)?(?: u,? a or d(?: set)?|,? or in the last level)?|non-?leaf|no leaf in "
                r"the last level|pointer in (?:the )?last level"),
    ("misaligned", r"mis-?aligned|un-?aligned|not aligned|misalignment|ppn ?\[? ?0 ?\]? (?:is |of .* )?not (?:0|zero)|ppn ?\[?0\]? ?(?:!=|"
                   r"<>) ?0"),
    ("store", r"not writ(?:e?able)|no(?:t)? write(?: permission| right| access)?|write[- ]protected|read[- ]only|(?:no|without|missing) "
              r"w\b(?: right| bit| permission)?|"
              r"w(?: bit)? (?:is )?(?:clear|0|not set|missing)|w ?= ?0|write (?:permission|right) (?:is )?missing|without (?:the )?write "
              r"(?:permission|right)|store not (?:allowed|permitted)|"
              r"may not be (?:written|stored)(?: to)?|can not be written"),
    ("load", r"not readable|no(?:t)? read(?: permission| right| access)?|(?:no|without|missing) r\b(?: right| bit| permission)?|r(?: "
             r"bit)? (?:is )?(?:clear|0|not set|missing)|r ?= ?0|"
             r"read (?:permission|right) (?:is )?missing|execute[- ]only|without (?:the )?read (?:permission|right)|load not (?:allowed|"
             r"permitted)|may not be (?:read|loaded)"),
    ("fetch", r"not execut(?:e?able)|non-?executable|no(?:t)? exec(?:ute)?(?:ution)?(?: permission| right| access)?|\bnx\b|(?:no|without|"
              r"missing) x\b(?: right| bit| permission)?|"
              r"x(?: bit)? (?:is )?(?:clear|0|not set|missing)|x ?= ?0|execute (?:permission|right) (?:is )?missing|without (?:the "
              r")?execute (?:permission|right)|fetch not (?:allowed|permitted)|"
              r"may not be (?:executed|fetched)"),
    ("user", r"user(?: page| bit| mode| access)?(?: is)?(?: not set| clear| missing)?|not a user page|(?:leaf )?(?:without|no|missing) "
             r"u\b|u(?: bit)? (?:is )?(?:clear|0|not set|missing)|u ?= ?0|"
             r"supervisor(?: page| only)?|kernel page|not user\w*"),
    ("invalid", r"invalid|not valid|v(?: bit)? (?:is )?(?:clear|0|not set|cleared)|v ?= ?0|valid(?: bit)? (?:is )?(?:clear|0|not set|"
                r"missing)|not present|not mapped|unmapped|no entry|(?:no|without) v\b"),
    ("right", r"(?:no |without (?:the |a )?|missing |the |wrong |lacks (?:the )?)?(?:rights?|permissions?|privileges?)(?: (?:is |are "
              r")?(?:missing|violation|denied|fault|error))?|protection(?: fault| violation)?|"
              r"not (?:allowed|permitted)|access (?:violation|denied)|forbidden"),
)
SPOKEN_WORD = re.compile("|".join(rf"(?P<{name}>\b(?:{pattern}))" for name, pattern in SPOKEN))


@dataclass
class Walked(Answer):
    """A physical address, or why a walk is a page fault."""
    address: int | None
    reason: str    # of a fault
    access: str
    facts: frozenset[int]
    shown: str = ""
    form: str = ""
    question: frozenset[str] = field(default=frozenset(), repr=False)

    def fits(self, reading: str) -> bool:
        text = folded(reading)
        reasons = self.reasons(text)
        is_fault = bool(reasons) or re.search(r"\bfaults?\b", text) is not None
        bare = re.sub(r"[vp]pn ?\[? ?[01](?![\dx]) ?\]?|(?:level|table|word|entry) \d+|\b[vrwxuad] ?= ?[01]\b", " ", text)
        if self.address is None:
            return reasons == {self.reason} and not self.strange(bare)
        return not is_fault and not re.search(r"\bnot?\b|(?<![\w)])-\s?(?:0x)?[0-9a-f]*\d", text) and self.is_address(bare)

    def reasons(self, text: str) -> set[str]:
        """The reasons that a text names. A right that this access needs is the missing one; another is none of those."""
        found = {str(at.lastgroup) for at in SPOKEN_WORD.finditer(text)}
        if self.access in found:
            found = found - {self.access} | {"right"}
        return found

    def strange(self, text: str) -> bool:
        """Whether another number stands there than those of the walk."""
        return not any(all(number.value in self.facts or number.value < 1024 for number in numbers_of(text, Manner(base=base, signs="")))
                       for base in (10, 16))

    def is_address(self, text: str) -> bool:
        joined = re.sub(r"\b((?:0x)?[0-9a-f]{4})[ _]([0-9a-f]{4})\b", r"\1\2", text)
        for told in dict.fromkeys((text, joined, without_groups(text))):
            for base in (10, 16):
                values = [number.value for number in numbers_of(told.upper().replace("0X", "0x") if base == 16 else told,
                                                                Manner(base=base, signs=""))]
                if self.address in values and all(value == self.address or value in self.facts for value in values):
                    return True
        return False


# Replies of a machine

REPLIES = (
    ("not yet", r"not[- ]?yet|wait(?:s|ing)?|too early|still (?:in use|used|cached|needed)"),
    ("absent", r"absent|page[- ]?fault(?:s|ed)?|faults?|faulted|missing|not (?:present|resident|in (?:memory|(?:a )?frame|ram)|there|"
               r"mapped|loaded)"),
    ("refused", r"refuse[sd]?|rejected|denied|error|illegal|not (?:allowed|possible)|fails|failed"),
    ("mapped", r"mapped|maps|paged[- ]?in|brought in|comes in|came in|loaded"),
    ("noticed", r"noticed?|notices|taken notice|takes notice"),
    ("freed", r"freed?|frees|released?|collected"),
    ("dirty", r"dirty|modified|must be saved"),
    ("ran", r"ran|runs?|executed?|executes|success(?:ful(?:ly)?)?|succeed(?:s|ed)|completed?|completes|proceeds|continues|works"),
)
REPLY_WORD = re.compile("|".join(rf"(?P<r{k}>\b(?:{pattern})\b)" for k, (_, pattern) in enumerate(REPLIES)))
PROCESS = re.compile(r"\b(?:process|p|hart|core)\s*[0-7]\b(?!\s*/)|\bevent\s*\d+|\b0\s*/\s*(?=[\dx])")


def pages_in(text: str) -> list[int] | None:
    """The numbers of a reply: in decimal, or in hexadecimal with 0x or a letter."""
    found = []
    for at in re.findall(r"0x[0-9a-f]+|\b(?=[0-9a-f]*\d)[0-9a-f]+\b", PROCESS.sub(" ", text)):
        found.append(int(at, 10 if at.isdecimal() else 16))
    return found


@dataclass
class Replied(Answer):
    """The reply of a machine to an event."""
    reply: str
    only_page: int | None = None    # where there is no other one
    is_only_refusal: bool = True    # of this event here, so that its number may be left out
    event_page: int | None = None
    shown: str = ""
    form: str = ""
    question: frozenset[str] = field(default=frozenset(), repr=False)

    def fits(self, reading: str) -> bool:
        text = folded(reading)
        kind, _, number = self.reply.partition(" ") if self.reply != "not yet" else (self.reply, "", "")
        found = {REPLIES[int(str(at.lastgroup)[1:])][0] for at in REPLY_WORD.finditer(text)}
        if not found and re.match(r"\W*(?:ok|okay|done)\W*$", text):
            return kind in ("ran", "noticed")
        if found != {kind} or re.search(r"\b(?:not?|never|without)\b", REPLY_WORD.sub(" ", text)):
            return False
        pages = pages_in(REPLY_WORD.sub(" ", text))
        if pages is None:
            return False
        if kind == "absent":
            return pages == [int(number)] or not pages and int(number) == self.only_page
        if kind == "refused":
            return pages == [int(number)] or not pages and self.is_only_refusal
        return not pages or pages == [self.event_page]


BITS = (("victim", r"victim|leaves?|evict(?:ed|s)?|goes|chosen|removed"), ("one", r"one|1|yes|set|used|accessed"),
        ("zero", r"zero|0|no|not (?:set|used|accessed)|unused|clear(?:ed)?"))


@dataclass
class Asked(Answer):
    """Of which page a question is, and what it is answered."""
    page: int
    word: str    # one, zero or victim
    shown: str = ""
    form: str = ""
    question: frozenset[str] = field(default=frozenset(), repr=False)

    def fits(self, reading: str) -> bool:
        text = folded(reading)
        text = re.sub(r"\b(?:process|p)\s*0\b", " ", re.sub(r"\b(?:0x)?0\s*/\s*(?=[\dx])", "", text))
        names = [str(self.page), hex(self.page)[2:]] + [f"0x{self.page:x}"]
        names = [name for name in names if name != "10"]
        pages = re.findall(r"0x[0-9a-f]+|\b(?=[0-9a-f]*\d)[0-9a-f]{2,}\b", text)
        if not pages or any(page not in names for page in pages):
            return False
        rest = re.sub(r"0x[0-9a-f]+|\b(?=[0-9a-f]*\d)[0-9a-f]{2,}\b", " ", text)
        found = []
        for word, pattern in reversed(BITS):
            found += [word] * len(re.findall(rf"\b(?:{pattern})\b", rest))
            rest = re.sub(rf"\b(?:{pattern})\b", " ", rest)
        if re.search(r"\bnot?\b|\d", rest):
            return False
        return set(found) == {self.word} or self.word == "victim" and set(found) == {"victim", "zero"}
