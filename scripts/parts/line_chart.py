"""A picture of a few lines over a number, as SVG."""
from __future__ import annotations

import html
import math
from collections.abc import Sequence

WIDTH, HEIGHT, LEFT, RIGHT, TOP_SPACE, BOTTOM = 640, 400, 70, 20, 46, 56
STYLES = (("#0b4f8a", ""), ("#a3460b", "7 4"), ("#3d6b21", "2 3"), ("#6a2c83", "10 3 2 3"))
Line = tuple[str, Sequence[tuple[float, float]]]    # its name and its points


def ticks(most: float) -> list[float]:
    """Round numbers from 0 to the first that is not below the most."""
    step = 10.0 ** math.floor(math.log10(max(most, 1e-9)))
    step = next(step * factor for factor in (0.1, 0.2, 0.5, 1, 2) if most / (step * factor) <= 8)
    return [step * k for k in range(math.ceil(most / step - 1e-9) + 1)]


def number(value: float) -> str:
    return f"{value:,.4f}".rstrip("0").rstrip(".")


def chart(title: str, across: str, upward: str, lines: Sequence[Line]) -> str:
    """The picture. Each line has a colour and a pattern of its own, so that it is told apart in grey too."""
    right = ticks(max(x for _, points in lines for x, _ in points))
    high = ticks(max(max(y for _, points in lines for _, y in points), 1e-6))

    def at(x: float, y: float) -> tuple[float, float]:
        return (LEFT + (WIDTH - LEFT - RIGHT) * x / right[-1], HEIGHT - BOTTOM - (HEIGHT - TOP_SPACE - BOTTOM) * y / high[-1])
    text = 'font-family="system-ui, sans-serif" font-size="12" fill="#1b1b1b"'
    out = [f'<svg xmlns="http://www.w3.org/2000/svg" width="{WIDTH}" height="{HEIGHT}" viewBox="0 0 {WIDTH} {HEIGHT}" role="img" '
           f'aria-label="{html.escape(title)}">',
           f'<rect width="{WIDTH}" height="{HEIGHT}" fill="#ffffff"/>',
           f'<text x="{LEFT}" y="18" font-weight="bold" {text}>{html.escape(title)}</text>']
    for y in high:
        down = at(0, y)[1]
        out.append(f'<path d="M{LEFT} {down:.1f}H{WIDTH - RIGHT}" stroke="#d0d0d0"/>')
        out.append(f'<text x="{LEFT - 6}" y="{down + 4:.1f}" text-anchor="end" {text}>{number(y)}</text>')
    for x in right:
        out.append(f'<text x="{at(x, 0)[0]:.1f}" y="{HEIGHT - BOTTOM + 18}" text-anchor="middle" {text}>{number(x)}</text>')
    out.append(f'<path d="M{LEFT} {HEIGHT - BOTTOM}H{WIDTH - RIGHT}" stroke="#1b1b1b"/>')
    out.append(f'<text x="{(LEFT + WIDTH - RIGHT) / 2:.0f}" y="{HEIGHT - 14}" text-anchor="middle" {text}>{html.escape(across)}</text>')
    out.append(f'<text transform="translate(16 {(HEIGHT - BOTTOM + TOP_SPACE) / 2:.0f}) rotate(-90)" text-anchor="middle" '
               f'{text}>{html.escape(upward)}</text>')
    for place, (name, points) in enumerate(lines):
        colour, dashes = STYLES[place % len(STYLES)]
        places = [at(x, y) for x, y in points]
        path = "L".join(f"{x:.1f} {y:.1f}" for x, y in places)
        out.append(f'<path d="M{path}" fill="none" stroke="{colour}" stroke-width="2" stroke-dasharray="{dashes}"/>')
        if len(points) <= 40:
            out += [f'<circle cx="{x:.1f}" cy="{y:.1f}" r="3" fill="{colour}"/>' for x, y in places]
        if len(lines) > 1:
            begin = LEFT + place * (WIDTH - LEFT - RIGHT) // len(lines)
            out.append(f'<path d="M{begin} 34h24" stroke="{colour}" stroke-width="2" stroke-dasharray="{dashes}"/><text x="{begin + 30}" '
                       f'y="38" {text}>{html.escape(name)}</text>')
    return "\n".join([*out, "</svg>"]) + "\n"
