"""What a written answer says to each part of an exercise, and how much of it is right.

Parts are found by their letters, by their events or their numbers, wherever these stand, and else line by line.
"""
from __future__ import annotations

import re
from collections.abc import Sequence
from dataclasses import dataclass

from answer_numbers import plain_text, says_comma
from answers import Amount, Asked, Replied
from exercise_base import Part

MOST_LETTERS = 1200    # of an answer to a part
BULLET = r"[-*•>|\s]*"
BEFORE = r"(?:(?:and|part|answer|question|solution|to|for)\s+)*"
HEADING = re.compile(r"\W*(?:answers?|solutions?)\W*", re.I)
EXERCISE = re.compile(r"\W*(?:exercise|ex|aufgabe|task|question|problem)\b\.?\s*#?(\d+)(?![\d])\s*(?:[:.)-]|(?=[a-z]\b))*\s*(.*)",
                      re.I | re.S)
NAMES = re.compile(r"\W*(?:(?:my |full |first |last |family |student(?:'s)? )?name|students?|student (?:id|no|nr|number)|matr\w*\W*(?:no|"
                   r"nr|number)?|id|date|course|class|group|"
                   r"seed|lecturer|teacher|semester|team|submitted by|author)\W*\s*[:=].*|\W*sheet of .*", re.I)
LETTERS = re.compile(BULLET + r"\(?([A-Za-z])\s*[.):]*\s*(?:to|-)\s*\(?([A-Za-z])\s*[.):]+\s*(.*)", re.S)
NUMERAL = re.compile(BULLET + r"\(?(\d{1,2})[.):]+\s+(\S.*)", re.S)
ROMAN = re.compile(BULLET + r"\(?(viii|vii|vi|iv|v|iii|ii|i)[.):]+\s*(.*)", re.S | re.I)
EVENT = re.compile(BULLET + r"(?:event\s*)?(?:\(?(\d{1,3})[.):]*\s+)?((?:step|pagein|notice|collect)\s+\d+\s+(?:0x[0-9a-fA-F]+|\d+)|"
                            r"sweep)\b"
                            r"(?:\s*\(event \d+\))?\s*(?:[.:)=|>]|->|→)*\s*(.*)", re.S | re.I)
EVENT_NUMBER = re.compile(BULLET + r"(?:event\s*#?)?\(?(\d{1,3})(?:[.):=|]+|\s+(?=[A-Za-z]))\s*(\S.*)", re.S | re.I)


@dataclass
class Mark:
    """What was said to a part, and whether it is right."""
    number: int
    part: Part
    said: str
    is_right: bool
    note: str = ""    # how a wrong answer was read

    def in_words(self) -> str:
        said = self.said.split("\n")[0]
        what = f"`{said}`{self.note} is wrong" if said else "nothing is said"
        return f"answer {self.number}, {self.part.name}: {what}, right is `{self.part.right}`: {self.part.why}"


class Labels:
    """The letters of the parts of an exercise, as they may stand before answers."""

    def __init__(self, parts: Sequence[Part], exercise: int | None):
        self.names = [part.name for part in parts if re.fullmatch("[a-z]", part.name)]
        letters = "".join(self.names) or "\0"
        number = rf"(?:{exercise}\s*[.:)-]?\s*)?" if exercise else ""
        number_inside = rf"(?:{exercise}[.)]?)?" if exercise else ""
        letter = f"([{letters}{letters.upper()}])"
        self.first = re.compile(rf"{BULLET}{BEFORE}{number}[(\[]*{letter}(?:\s*[.):=\]/|,]+|\s+-+\s|\t|\s+(?=[\d.=+-])|\s*$)\s*(.*)",
                                re.S | re.I)
        self.inner = re.compile(rf"(?:(?<=[\s,;|])){BEFORE}{number_inside}[(\[]?{letter}\s*([.):=\]|]+)(?=\s|[-.\d]|$)", re.I)

    def place(self, letter: str) -> int:
        return self.names.index(letter.lower())

    def span(self, line: str) -> list[str]:
        """The letters that a line as `c. to g.` begins with."""
        at = LETTERS.fullmatch(line)
        ends = (at[1].lower(), at[2].lower()) if at else ("", "")
        if ends[0] not in self.names or ends[1] not in self.names:
            return []
        return self.names[self.place(ends[0]):self.place(ends[1]) + 1]

    def split(self, line: str, taken: set[str]) -> list[str]:
        """A line, cut before each letter of a part that stands in it and begins no other line."""
        has_equals = re.match(rf"{BULLET}[A-Za-z]\s*=", line) is not None
        cuts, seen = [0], set(taken)
        begins = self.first.match(line)
        if begins:
            seen.add(begins[1].lower())
        seen |= set(self.span(line))
        for at in self.inner.finditer(line):
            letter = at[1].lower()
            is_inside = line.count("(", 0, at.start()) > line.count(")", 0, at.start())
            if at.start() == 0 or letter in seen or is_inside or "=" in at[2] and not has_equals:
                continue
            seen.add(letter)
            cuts.append(at.start())
        return [line[begin:end].strip().rstrip(",;|").strip() for begin, end in zip(cuts, [*cuts[1:], len(line)])]


def without_question(line: str, question: Sequence[str]) -> str:
    """A line without what the sheet says in it, of which the letter stays; \0 where nothing is left."""
    for asked in question:
        event = EVENT.fullmatch(asked)
        if event and (not event[3] or line != asked):    # the label of an answer
            continue
        if line.startswith(asked):
            letter = re.match(r"[a-z]\. ", asked)
            rest = line[len(asked):].strip()
            return f"{letter[0]}{rest}" if letter else rest or "\0"
    return line


def without_table(line: str) -> str | None:
    """A row of a table with `:` between its cells; nothing of its title and its ruler."""
    if len(line) < 3 or line[0] != "|" or line[-1] != "|":
        return line
    cells = [cell.strip() for cell in line[1:-1].split("|")]
    is_title = all(re.fullmatch(r":?-*:?|part|no\.?|event|letter|question|your answer|answers?|reply|reason|why|how", cell, re.I)
                   for cell in cells)
    return None if is_title else ": ".join(cell for cell in cells if cell)


def lines_of(text: str, name: str, question: Sequence[str]) -> list[str]:
    """The lines of an answer, without headings and the sheet's own lines, and without the lines that say whose it is."""
    lines = [line.strip() for line in plain_text(text.removeprefix("\ufeff").replace("\f", "\n")).split("\n")]
    lines = [line for line in map(without_table, lines) if line is not None]
    asked = sorted((line for line in map(str.strip, map(plain_text, question)) if len(line) > 12), key=len, reverse=True)
    lines = [without_question(line, asked) for line in lines]
    starts = [number for number, line in enumerate(lines, 1) if re.fullmatch(r"\W*answers\W*", line, re.I)]
    kept = []
    for line in lines[starts[-1] if starts else 0:]:
        heading = EXERCISE.fullmatch(line)
        if heading:
            line = heading[2] if re.match(r"[(\[]?[A-Za-z]\s*[.):=]|[\d.]", heading[2]) else "\0"
        is_name = NAMES.fullmatch(line) or HEADING.fullmatch(line) or name and line.casefold() == name.casefold()
        is_note = line.startswith("#") and not re.match(r"#+\s*[(\[]?[A-Za-z][.):]", line)
        if line != "\0" and not (line and is_name) and not is_note:
            kept.append(line.lstrip("#").strip() if line.startswith("#") else line)
    return trimmed(without_bullets(kept))


def trimmed(lines: list[str]) -> list[str]:
    while lines and not lines[0]:
        lines.pop(0)
    while lines and not lines[-1]:
        lines.pop()
    return lines


def without_bullets(lines: list[str]) -> list[str]:
    """The lines of a list: a mark that begins all of them is no minus."""
    filled = [line for line in lines if line]
    if len(filled) > 1 and all(re.match(r"[-*•]\s", line) for line in filled):
        return [line[1:].strip() for line in lines]
    return lines


def pieces_of(parts: Sequence[Part], text: str, exercise: int | None, name: str, question: Sequence[str]) -> list[str | None]:
    """The lines of an answer, and what stands in one up to each `;` and each letter: None is an empty line."""
    labels = Labels(parts, exercise)
    lines = lines_of(text, name, question)
    taken = {at[1].lower() for at in map(labels.first.fullmatch, lines) if at} if labels.names else set()
    pieces: list[str | None] = []
    for line in lines:
        if not line:
            pieces.append(None)
            continue
        for piece in line.removesuffix(";").split(";"):
            pieces += labels.split(piece.strip(), taken) if labels.names else [piece.strip()]
    return pieces


def spread(pieces: list[str], labels: Labels) -> list[str]:
    """The same pieces, where `c. to g.` before several answers becomes a label of each."""
    out: list[str] = []
    waiting: list[str] = []
    for piece in pieces:
        found, letters = LETTERS.fullmatch(piece), labels.span(piece)
        if found and len(letters) > 1:
            waiting = letters
            fresh = next((values for values in (re.split(r",\s+", found[3]), found[3].split(","), found[3].split())
                          if len(values) == len(waiting)), [found[3]])
        else:
            waiting = [] if labels.names and labels.first.fullmatch(piece) else waiting
            fresh = [piece] if waiting and piece else []
            out += [] if fresh else [piece]
        out += [f"{waiting.pop(0)}. {value.strip()}" for value in fresh if waiting]
    return out


Place = tuple[int, str]


def letter_places(parts: Sequence[Part], pieces: list[str], labels: Labels) -> list[Place | None]:
    """Of each piece the place of the part that its letter names, and what follows; None where it has no such letter."""
    if not labels.names:
        return [None] * len(pieces)
    places = {part.name: place for place, part in enumerate(parts)}
    found = [labels.first.fullmatch(piece) for piece in pieces]
    return [(places[at[1].lower()], at[2]) if at else None for at in found]


def numeral_places(parts: Sequence[Part], pieces: list[str]) -> list[Place | None]:
    """The same by numbers from 1 on, which have to rise."""
    found = [NUMERAL.fullmatch(piece) for piece in pieces]
    numbers = [int(at[1]) for at in found if at]
    is_list = numbers[:1] == [1] and numbers == sorted(set(numbers)) and numbers[-1] <= len(parts)
    return [(int(at[1]) - 1, at[2]) if at and is_list else None for at in found]


def roman_places(parts: Sequence[Part], pieces: list[str]) -> list[Place | None]:
    """The same by i, ii, iii and so on."""
    order = ["i", "ii", "iii", "iv", "v", "vi", "vii", "viii"]
    found = [ROMAN.fullmatch(piece) for piece in pieces]
    numbers = [order.index(at[1].lower()) for at in found if at]
    is_list = len(numbers) > 1 and numbers == list(range(len(numbers))) and len(numbers) <= len(parts)
    return [(order.index(at[1].lower()), at[2]) if at and is_list else None for at in found]


def event_name(part: Part) -> str:
    return part.name.split(" (")[0]


def event_places(parts: Sequence[Part], pieces: list[str]) -> list[Place | None]:
    """The same by events: each is the next part of its event; of an event of which nothing is asked the place is -1."""
    events = [event_name(part) for part in parts]
    numbers = [part.event for part in parts]
    found: list[Place | None] = []
    place = 0
    for piece in pieces:
        at = EVENT.fullmatch(piece)
        event = re.sub(r"0x[0-9a-f]+", lambda page: str(int(page[0], 16)), " ".join(at[2].lower().split())) if at else None
        if at and at[1] and int(at[1]) in numbers and events[numbers.index(int(at[1]))] == event:
            place = numbers.index(int(at[1])) + 1
            found.append((place - 1, at[3]))
        elif at and at[1]:
            found.append((-1, ""))
        elif at and event in events[place:]:
            place = events.index(event, place) + 1
            found.append((place - 1, at[3]))
        else:
            found.append((-1, "") if at else None)
    return found


def event_number_places(parts: Sequence[Part], pieces: list[str]) -> list[Place | None]:
    """The same by the numbers of events alone, which have to rise."""
    numbers = [part.event for part in parts]
    found = [EVENT_NUMBER.fullmatch(piece) for piece in pieces]
    if any(isinstance(part.answer, Asked) for part in parts):    # `16: one` is of page 16
        found = [at if at and re.search(r"\d\d|[0-9a-f]{4}", at[2], re.I) else None for at in found]
    told = [int(at[1]) for at in found if at]
    is_list = bool(told) and told == sorted(set(told)) and set(told) <= set(numbers) and len(told) * 2 > len([piece for piece in pieces
                                                                                                              if piece])
    return [(numbers.index(int(at[1])), at[2]) if at and is_list else None for at in found]


def by_labels(parts: Sequence[Part], pieces: list[str], places: list[Place | None]) -> list[str]:
    """What is said to each part, where each piece with no label goes on with the one before it."""
    said: dict[int, list[str]] = {}
    last = -1
    first = next(number for number, at in enumerate(places) if at)
    begun = places[first]
    if begun is not None and begun[0] == first:    # as many pieces with no label stand before as parts
        said = {place: [piece] for place, piece in enumerate(pieces[:first])}
    for piece, at in zip(pieces, places):
        if at:
            last = at[0]
            said[last] = [at[1]] if at[1] or last not in said else said[last]
        elif piece:
            said.setdefault(last, []).append(piece)
    return ["\n".join(filter(None, said.get(place, []))).strip() for place in range(len(parts))]


def split_answer(parts: Sequence[Part], text: str, exercise: int | None = None, name: str = "", question: Sequence[str] = ()) -> list[str]:
    """What an answer says to each part: by the labels that begin its lines, or line by line."""
    labels = Labels(parts, exercise)
    pieces = pieces_of(parts, text, exercise, name, question)
    labelled = spread([piece or "" for piece in pieces], labels)
    is_events = parts[0].event is not None
    if len(labelled) == 1 < len(parts) and NUMERAL.fullmatch(labelled[0]) and len(in_one_line(parts, labelled[0])) == len(parts):
        return in_one_line(parts, labelled[0])
    finders = ((event_places, event_number_places, numeral_places) if is_events else
               (lambda parts, pieces: letter_places(parts, pieces, labels), numeral_places, roman_places))
    for find in finders:
        places = find(parts, labelled)
        if any(places):
            return by_labels(parts, labelled, places)
    return by_order(parts, pieces)


def by_order(parts: Sequence[Part], pieces: list[str | None]) -> list[str]:
    """What is said piece by piece. An empty line is a part with no answer, unless there are more lines than parts."""
    said = [piece for piece in pieces if piece is not None]
    if len(pieces) <= len(parts):
        said = [piece or "" for piece in pieces]
    if len(said) == 1 < len(parts):
        said = in_one_line(parts, said[0])
    said += [""] * (len(parts) - len(said))
    return [re.sub(rf"^{re.escape(part.name)}\s+", "", piece) for part, piece in zip(parts, said)]


def in_one_line(parts: Sequence[Part], line: str) -> list[str]:
    """As many answers as parts that stand in one line, with numbers, commas, tabs or blanks between them."""
    numbered = re.split(r"(?:^|(?<=\s))\(?\d{1,2}[.)]\s+", line)[1:]
    if len(numbered) == len(parts) and re.findall(r"(?:^|(?<=\s))\(?(\d{1,2})[.)]\s+", line) == [str(k) for k in range(1, len(parts) + 1)]:
        return [piece.strip().rstrip(",;").strip() for piece in numbered]
    for pattern in (r"\t+", r"\s*\|\s*", r",\s+", r",", r"\s+"):
        pieces = re.split(pattern, line.strip().rstrip(",|").strip())
        if len(pieces) == len(parts) and (pattern != r"," or all(isinstance(part.answer, (Amount, Asked, Replied)) for part in parts)):
            return pieces
    return [line]


def grade(parts: Sequence[Part], text: str, exercise: int | None = None, name: str = "", question: Sequence[str] = ()) -> list[Mark]:
    """For each part what was said, and whether it is right."""
    told = split_answer(parts, text, exercise, name, question)
    has_comma = says_comma("\n".join(said for part, said in zip(parts, told) if part.answer.has_one_number()))
    marks = []
    for number, (part, said) in enumerate(zip(parts, told), 1):
        is_right = bool(said) and part.answer.accepts(said[:MOST_LETTERS], has_comma)
        marks.append(Mark(number, part, said, is_right, "" if is_right else part.answer.note(said, has_comma)))
    return marks


def count_right(marks: Sequence[Mark]) -> int:
    return sum(mark.is_right for mark in marks)


def wrong_lines(marks: Sequence[Mark], most: int | None = None) -> list[str]:
    """The wrong answers in words, so many at most."""
    return [mark.in_words() for mark in marks if not mark.is_right][:most]
