"""How a right answer may be written, and wrong ones that look like it, by rules and from what is right: nothing here reads an answer."""
import itertools
import random
from dataclasses import dataclass, field
from fractions import Fraction

UNITS: dict[str, dict[str, Fraction]] = {"time": {"ns": Fraction(1), "nanoseconds": Fraction(1), "us": Fraction(1000), "microseconds": Fraction(1000),
                  "ms": Fraction(10 ** 6), "s": Fraction(10 ** 9)},
         "size": {"bytes": Fraction(1), "B": Fraction(1), "KiB": Fraction(1024), "KB": Fraction(1024), "K": Fraction(1024),
                  "MiB": Fraction(1048576), "MB": Fraction(1048576)},
         "bits": {"bits": Fraction(1), "bit": Fraction(1)}, "share": {"%": Fraction(1, 100), "percent": Fraction(1, 100)},
         "ratio": {"times": Fraction(1), "x": Fraction(1), "%": Fraction(1, 100)}, "": {}}
FOREIGN = {"time": ["KiB", "%", "bits", "pages", "cycles"], "size": ["ns", "%", "bits", "pages", "entries", "Kbit"],
           "bits": ["bytes", "KiB", "%", "ns", "pages"],
           "share": ["ns", "KiB", "times", "pages"], "ratio": ["ns", "KiB", "bits"], "": ["KiB", "ns", "%", "bits", "ms", "bytes"]}
NUMBERS = "zero one two three four five six seven eight nine ten eleven " \
    "twelve thirteen fourteen fifteen sixteen seventeen eighteen nineteen twenty".split()


def fixed(value, places):
    """A fraction with so many places, rounded half to even of its exact value."""
    scaled = round(value * 10 ** places)
    sign, digits = ("-" if scaled < 0 else ""), f"{abs(scaled):0{places + 1}d}"
    return sign + (digits[:-places] + "." + digits[-places:] if places else digits)


def grouped(text, mark):
    """Digits in groups of three before the point."""
    whole, _, rest = text.partition(".")
    groups: list[str] = []
    while len(whole) > 3:
        groups.insert(0, whole[-3:])
        whole = whole[:-3]
    return mark.join([whole, *groups]) + (f".{rest}" if rest else "")


def is_short(value, places=6):
    """Whether a fraction is exact with a few places."""
    return (value * 10 ** places).denominator == 1


@dataclass
class Amount:
    """One number, in the unit that is asked."""
    value: Fraction
    unit: str = ""
    asked: str = ""    # the name of the unit that is asked
    places: int | None = None
    words: list = field(default_factory=list)    # of the question, with a place for the answer
    others: list = field(default_factory=list)    # numbers by another convention

    def texts(self):
        """The number itself in several ways, with enough places."""
        if self.places is None and self.value.denominator == 1:
            whole = str(int(self.value))
            yield from (whole, f"{whole}.0", grouped(whole, ","), grouped(whole, " "), grouped(whole, "'"), f"{whole}.", f"+{whole}")
            if int(self.value) > 9:
                yield from (hex(int(self.value)), f"0X{int(self.value):X}",
                            f"{int(self.value):X}h" if f"{int(self.value):X}"[0].isdecimal() else hex(int(self.value)))
            power = int(self.value).bit_length() - 1
            if 1 << power == self.value and power > 1:
                yield from (f"2^{power}", f"2**{power}", f"2^{{{power}}}",
                            f"2{str(power).translate(str.maketrans('0123456789', '⁰¹²³⁴⁵⁶⁷⁸⁹'))}")
            if self.value >= 10000:
                yield f"{int(self.value):e}".replace("e+0", "e") if is_short(self.value / 10 ** (len(whole) - 1)) else whole
            if not self.unit and self.value <= 20:
                yield from (NUMBERS[int(self.value)], NUMBERS[int(self.value)].capitalize())
            return
        places = self.places or 0
        yield from (fixed(self.value, places + more) for more in (0, 1, 2, 4))
        yield fixed(self.value, places + 2)
        yield grouped(fixed(self.value, places), ",")
        if self.value.denominator < 10 ** 6 and self.value.denominator > 1:
            yield from (f"{self.value.numerator}/{self.value.denominator}", f"{self.value.numerator} / {self.value.denominator}",
                        f"\\frac{{{self.value.numerator}}}{{{self.value.denominator}}}")

    def with_commas(self):
        """The number by the convention of other countries."""
        if self.places is None:
            whole = str(int(self.value))
            yield from (whole, grouped(whole, " "), *([grouped(whole, ".")] if self.value >= 10 ** 6 else []))
        else:
            for more in (0, 1, 2, 4):
                if self.places + more == 3 and self.unit != "share":    # 1,234 may be a thousand and more
                    continue
                text = fixed(self.value, self.places + more).replace(".", ",")
                yield from (text, f"{text} {self.asked}", f"about {text}", f"{text}: as computed")

    def in_units(self):
        """The number with the names of units."""
        for text in dict.fromkeys(self.texts()):
            yield text
            if self.asked:
                yield f"{text} {self.asked}"
                yield f"{text}{self.asked}" if text[-1].isdecimal() and not text.startswith("0") and "^" not in text else text
        factor = UNITS[self.unit].get(self.asked, Fraction(1))
        for name, other in UNITS[self.unit].items():
            value = self.value * factor / other if self.asked else self.value / other
            if self.places is not None:
                places = self.places + len(str(int(other / factor))) - 1 if other >= factor else self.places
                text = fixed(value, places + (2 if other < factor else 0))
                if other < factor or abs(Fraction(text) * other / factor - self.value) <= Fraction(1, 2 * 10 ** self.places):
                    yield f"{text} {name}"
            elif is_short(value):
                text = fixed(value, 6).rstrip("0").rstrip(".")
                if "." not in text or len(text.partition(".")[2]) < 6:
                    yield from (f"{text} {name}", f"{text}{name}")
        if self.unit == "time":
            digits = len(str(int(self.value))) - 1 + (self.places or 0)
            yield from (f"{float(self.value) * 1e-9:.{digits}e} s", f"{float(self.value) * 1e-9:.{digits}e}".replace("e", " * 10^") + " s",
                        f"{float(self.value) * 1e-9:.{digits + 1}E}s")

    def spellings(self):
        plain = list(dict.fromkeys(self.in_units()))
        frames = ["{}", "{}.", "= {}", "≈ {}", "about {}", "approx. {}", "It is {}.", "The answer is {}", "{}: as computed",
                  "{} (by the formula)", "{} because 3 > 2",
                  "{}, since that is so", "**{}**", "answer: {}", "x = {}", "{} ", "`{}`", "so {}", "I get {}", "therefore {}", *self.words]
        yield from plain
        for place, frame in enumerate(frames[1:]):
            yield frame.format(plain[place % min(3, len(plain))])

    def mutants(self, rest):
        """Other numbers, units and conventions. A tie may be rounded both ways."""
        tie = self.value * 10 ** (self.places or 0)
        both = {fixed(Fraction(whole, 10 ** (self.places or 0)), self.places or 0)
                for whole in (tie.numerator // tie.denominator, -(-tie.numerator // tie.denominator))}
        for text in self.all_mutants(rest):
            if tie.denominator != 2 or not any(text.startswith(whole) for whole in both):
                yield text

    def all_mutants(self, rest):
        places = self.places or 0
        text = fixed(self.value, places)
        unit = f" {self.asked}" if self.asked else ""
        for at, digit in enumerate(text):
            if digit.isdecimal():
                for other in "0123456789":
                    if other != digit and not (at == 0 and other == "0" and len(text) > 1):
                        yield f"{text[:at]}{other}{text[at + 1:]}{unit}"
        step = Fraction(1, 10 ** places)
        for count in (1, -1, 2, -2, 10):
            yield f"{fixed(self.value + count * step, places)}{unit}"
        for name, factor in UNITS[self.unit].items():
            if factor != UNITS[self.unit].get(self.asked, Fraction(1)):
                yield f"{text} {name}"
        yield from (f"{text} {name}" for name in FOREIGN[self.unit])
        yield from (f"-{text}{unit}", f"not {text}{unit}", f"{text}{unit} or {fixed(self.value + 7, places)}{unit}",
                    f"{text}, {fixed(self.value + 1, places)}",
                    f"more than {text}{unit}", f"{text}e3{unit}", f"{text}0{unit}" if not places else f"{text[:-1]}{unit}"
                    if not is_short(self.value, places - 1) else f"1{text}{unit}")
        if not places and int(self.value) > 9:
            yield f"0x{text}{unit}"
        if places:
            cut = fixed(self.value, 0)
            if not is_short(self.value, 0):
                yield f"{cut}{unit}"
        yield from (f"{fixed(other, places)}{unit}" for other in self.others if fixed(other, places) != text)
        yield from rest

    def is_it(self, other):
        return isinstance(other, Amount) and fixed(self.value, self.places or 0) == fixed(other.value, other.places or 0)


@dataclass
class OneIn(Amount):
    def with_commas(self):
        yield from (f"one in {text}" for text in super().with_commas())

    def spellings(self):
        whole = str(int(self.value))
        for text in (whole, grouped(whole, ","), grouped(whole, " "), hex(int(self.value))):
            yield from (f"one in {text}", f"1 in {text}", text, f"1 out of {text}", f"one access in {text}", f"1/{text}", f"1:{text}",
                        f"one of every {text} accesses",
                        f"one in at least {text}", f"n = {text}", f"{text}: as computed", f"1 per {text}")

    def mutants(self, rest):
        whole = str(int(self.value))
        yield from (f"2 in {whole}", f"2/{whole}", f"{whole} in 1", f"1/{int(self.value) + 1}", f"1 in {int(self.value) * 10}",
                    f"1:{int(self.value) - 1}")
        yield from super().mutants(rest)


@dataclass
class Several:
    """Several numbers with their names."""
    values: list
    names: list    # of each number the words for it, the first without the number's place
    is_pair: bool = False
    is_hex: bool = False

    def spellings(self):
        texts = [str(value) for value in self.values]
        for mark in (" ", ", ", "; ", " and ", ","):
            yield mark.join(texts)
        hexes = [f"0x{value:X}" for value in self.values]
        yield " ".join(hexes)
        yield ", ".join(text.lower() for text in hexes)
        if self.is_hex:
            bare = [f"{value:X}" for value in self.values]
            yield from (" ".join(bare), ", ".join(bare), " ".join(bare).lower(), " / ".join(hexes))
        for shown in (texts, hexes):
            for names in zip(*self.names):
                pairs = list(zip(names, shown))
                for chosen in (pairs, pairs[::-1], pairs[1:] + pairs[:1]):
                    yield ", ".join(f"{name}: {text}" for name, text in chosen)
                    yield ", ".join(f"{name} = {text}" for name, text in chosen)
                    yield "; ".join(f"{name} {text}" for name, text in chosen)
                    if self.is_pair:
                        yield ", ".join(f"{text} {name}" for name, text in chosen)
                        yield " and ".join(f"{text} {name}" for name, text in chosen)
        if self.is_pair:
            yield from (f"{texts[1]} {self.names[1][0]} of {texts[0]}", f"{texts[1]} of {texts[0]}", f"{texts[1]}/{texts[0]}",
                        f"{texts[1]} out of {texts[0]} {self.names[0][0]}",
                        f"{texts[0]} {self.names[0][0]}, of which {texts[1]} miss")
        elif not self.is_hex:
            yield from ("/".join(texts), "-".join(texts), " + ".join(texts) + f" = {sum(self.values)}", " + ".join(texts))

    def mutants(self, rest):
        texts = [str(value) for value in self.values]
        names = [name[0] for name in self.names]
        for order in itertools.permutations(self.values):
            if list(order) != self.values:
                shown = list(map(str, order))
                yield from (", ".join(shown), ", ".join(f"{name}: {text}" for name, text in zip(names, shown)),
                            " ".join(f"0x{value:X}" for value in order))
        for place, value in enumerate(self.values):
            for other in (value + 1, value - 1, value + 10, value * 2 + 1, value + 2, value + 3):
                changed = [*self.values[:place], other, *self.values[place + 1:]]
                yield from (", ".join(map(str, changed)), ", ".join(f"{name}: {text}" for name, text in zip(names, changed)),
                            " ".join(f"0x{max(text, 0):X}" for text in changed))
        yield from (", ".join(texts[1:]), ", ".join([*texts, "7"]), texts[0], "not " + ", ".join(texts),
                    ", ".join(f"{text} KiB" for text in texts))
        if self.is_hex and any(value > 9 for value in self.values):
            yield " ".join(f"0x{value}" for value in self.values)
        if self.is_pair:
            yield from (f"{texts[0]} misses of {texts[1]}", f"{texts[1]} hits of {texts[0]}", f"{texts[0]}/{texts[1]}",
                        f"{texts[0]} of {texts[1]}")
        yield from rest

    def is_it(self, other):
        return isinstance(other, Several) and other.values == self.values


@dataclass
class Set:
    """Names in any order."""
    right: list
    every: list
    noun: str = ""
    all_words: list = field(default_factory=list)
    none_words: list = field(default_factory=list)
    wrong_words: list = field(default_factory=list)

    def spellings(self):
        yield from self.none_words
        if not self.right:
            yield from (frame.format(word) for word in self.none_words
                        for frame in ("{}.", "{}: as said", "{} (see b)", "answer: {}", "**{}**"))
            return
        orders = [self.right, self.right[::-1], self.right[1:] + self.right[:1]]
        for order in orders:
            for mark in (", ", " ", " and ", ",", "; ", " / ", " & "):
                yield mark.join(order)
            yield from ("{" + ", ".join(order) + "}", "[" + ", ".join(order) + "]", "(" + ", ".join(order) + ")", ", ".join(order) + ".",
                        ", ".join(order) + ": as said")
            if self.noun:
                yield from (", ".join(f"{self.noun} {name}" for name in order), f"{self.noun}s " + " and ".join(order),
                            f"only {' and '.join(order)}")
        yield from self.all_words

    def mutants(self, rest):
        yield from self.wrong_words
        others = [name for name in self.every if name not in self.right]
        for place in range(len(self.right)):
            yield ", ".join(self.right[:place] + self.right[place + 1:]) or "?"
            for other in others:
                yield ", ".join(self.right[:place] + [other] + self.right[place + 1:])
        for other in others:
            yield ", ".join([*self.right, other])
            yield " and ".join([other, *self.right])
            yield other
        for name in self.right:
            yield ", ".join([*self.right, name])
        if self.right:
            yield from ("not " + ", ".join(self.right), "", "?", ", ".join([*self.right, "99"]))
        yield from rest

    def is_it(self, other):
        return isinstance(other, Set) and other.right == self.right


@dataclass
class Said:
    """One of several things that are said in words."""
    right: list
    wrong: list

    def spellings(self):
        yield from self.right
        frames = ["{}.", "{} ", "**{}**", "answer: {}", "{}: as said", "{} (see above)", "so {}", "It is {}", "= {}"]
        for frame in frames:
            for text in self.right[:4]:
                yield frame.format(text)

    def mutants(self, rest):
        yield from self.wrong
        yield from (f"{text}." for text in self.wrong)
        yield from rest

    def is_it(self, other):
        return isinstance(other, Said) and bool(set(other.right) & set(self.right))


LABELS = ("{letter}. {text}\n", "{letter}) {text}\n", "({letter}) {text}\n", "{upper}. {text}\n", "{letter}: {text}\n",
          "{number}. {text}\n", "{letter}. {text}\n\n", "- {letter}. {text}\n",
          "**{letter}.** {text}\n", "{exercise}{letter}. {text}\n", "{exercise} {letter}) {text}\n", "Part {letter}: {text}\n",
          "{letter}.\n{text}\n", "| {letter} | {text} |\n", "{letter}\t{text}\n",
          "{letter}] {text}\n", "{letter}. {text}\r\n", "  {letter}.  {text}\n", "{letter} - {text}\n", "{letter}.{text}\n",
          "Answer {letter}: {text}\n", "{letter}/ {text}\n", "{letter}.) {text}\n", "> {letter}. {text}\n")
HEADS = ("", "Name: Ada Lovelace\n", "Exercise {exercise}\n\n", "Name: Ada\nExercise {exercise}:\n", "\ufeff", "# Exercise {exercise}\n",
         "Student: Ada\nMatriculation no.: 12345\n\n", "Answers\n\n")
ONE_LINE = ("{letter}. {text}, ", "{letter}) {text} ", "({letter}) {text}; ", "{letter}: {text} | ")


def whole(exercise, texts, style):
    """Answers to all parts, with their letters written in one of several ways."""
    head = HEADS[style % len(HEADS)].format(exercise=exercise)
    is_line = style % 9 == 4
    label = ONE_LINE[style // 9 % len(ONE_LINE)] if is_line else LABELS[style % len(LABELS)]
    told = "".join(label.format(letter=letter, upper=letter.upper(), number=number, exercise=exercise, text=text)
                   for number, (letter, text) in enumerate(zip("abcdefgh", texts), 1))
    return head + told.rstrip(",;| " if is_line else "")


def chosen(texts, count, seed):
    """So many different texts: all of them where they are fewer, else a part that a seed draws."""
    texts = list(dict.fromkeys(texts))
    return texts if len(texts) <= count else random.Random(seed).sample(texts, count)
