"""Exercises on paper: a sheet as text and as a page to print, and a form to fill in."""
from __future__ import annotations

import html
import os
from collections.abc import Iterable, Sequence

from exercise_base import EXERCISES, Part, Variant

HAND_IN = ("Answer with a line for each part, which begins with its letter or its event. What follows a colon, or stands in brackets, is "
           "a reason and is not read.",)
PAGE = """<!DOCTYPE html>
<html lang="en">
<head>
<meta charset="utf-8">
<title>{title}</title>
<style>
body {{ margin: 1.5rem auto; max-width: 48rem; padding: 0 1rem; color: #1b1b1b; background: #fff; font: 1rem/1.4 system-ui, sans-serif; }}
h1 {{ font-size: 1.2rem; border-bottom: 1px solid #8a8a8a; }}
h2 {{ font-size: 1.05rem; margin: 1.5rem 0 .5rem; }}
pre {{ font: .8rem/1.35 ui-monospace, "DejaVu Sans Mono", monospace; white-space: pre-wrap; }}
table {{ border-collapse: collapse; width: 100%; }}
td, th {{ border: 1px solid #8a8a8a; padding: .3rem .5rem; text-align: left; vertical-align: top; }}
td.answer {{ width: 50%; height: 1.6rem; }}
td.form {{ color: #595959; font-size: .85rem; }}
section + section {{ break-before: page; }}
@page {{ margin: 2cm; }}
</style>
</head>
<body>
<h1>{title}</h1>
{sections}
</body>
</html>
"""


def label_of(part: Part) -> str:
    return f"{part.event}  {part.name.split(' (')[0]}" if part.event is not None else f"{part.name}."


def groups(parts: Sequence[Part]) -> list[tuple[Part, Part]]:
    """The first and the last of parts whose answers have the same form."""
    found: list[tuple[Part, Part]] = []
    for part in parts:
        if found and found[-1][1].form == part.form:
            found[-1] = (found[-1][0], part)
        else:
            found.append((part, part))
    return found


def forms(parts: Sequence[Part]) -> list[str]:
    """What an answer to each part is, with examples that are none."""
    told = []
    for first, last in groups(parts):
        if first.event is not None:
            return [f"Each answer is {first.form}."]
        told.append(f"{first.name}." if first is last else f"{first.name}. to {last.name}.")
        told[-1] += f" {first.form}"
    return ["Form of the answers: " + "; ".join(told) + "."]


def variant_text(number: int, heading: str, made: Variant, shows_answers: bool, is_sheet: bool = False) -> list[str]:
    """A variant as it is printed: with its answers, or with how they are given."""
    lines = [f"Exercise {number}: {EXERCISES[number].title} ({heading})", "", *made.question, ""]
    if shows_answers:
        return [*lines, "Answers", "", *("  " + line for line in made.answers)]
    lines += forms(made.parts)
    return lines + (list(HAND_IN) if is_sheet else ["", *([made.help] if made.help else []), "-c prints the answers after it."])


def printed_lines(made: Variant) -> list[str]:
    """The lines of a sheet that are no answers, where someone writes between them."""
    return [*made.question, *forms(made.parts), *HAND_IN]


def form_text(name: str, made: Iterable[tuple[int, Variant]]) -> str:
    """A form to fill in: a line for each part. Lines that begin with # are not read."""
    lines = [f"Name: {name}"]
    for number, variant in made:
        lines += ["", f"Exercise {number}"]
        for first, last in groups(variant.parts):
            lines.append(f"# {first.form}")
            inside = variant.parts[variant.parts.index(first):variant.parts.index(last) + 1]
            lines += [label_of(part) + (": " if part.event is not None else " ") for part in inside]
    return "\n".join(lines) + "\n"


def page_text(name: str, made: Iterable[tuple[int, Variant]], shows_answers: bool) -> str:
    """A page to print, with room for the answers."""
    sections = []
    for number, variant in made:
        rows = "\n".join(f'<tr><td>{html.escape(label_of(part))}</td><td '
                         f'class="answer">{html.escape(part.right) if shows_answers else ""}</td>'
                         f'<td class="form">{html.escape(part.form)}</td></tr>' for part in variant.parts)
        sections.append(f"<section>\n<h2>Exercise {number}: "
                        f"{html.escape(EXERCISES[number].title)}</h2>\n<pre>{html.escape(chr(10).join(variant.question))}</pre>\n"
                        f"<table>\n<tr><th>Part</th><th>Answer</th><th>Its form</th></tr>\n{rows}\n</table>\n</section>")
    return PAGE.format(title=html.escape(name), sections="\n".join(sections))


def write_sheet(folder: str, name: str, made: Sequence[tuple[int, Variant]], shows_answers: bool) -> None:
    """The files of a name: a text, a page to print, and a form."""
    text = "\n\n".join("\n".join(variant_text(number, f"sheet of {name}", variant, shows_answers, True)) for number, variant in made) + "\n"
    files = {".txt": text, ".html": page_text(name, made, shows_answers)}
    if not shows_answers:
        files[".form.txt"] = form_text(name, made)
    for ending, content in files.items():
        with open(os.path.join(folder, name + ending), "w", encoding="utf-8") as it:
            it.write(content)
