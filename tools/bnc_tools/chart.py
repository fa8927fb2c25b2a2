"""A picture of the better points that a search found, over the nodes that it had settled."""
from fractions import Fraction
from html import escape
from typing import Optional

from .exact import Number, decimal, told
from .journal import Search

WIDTH, HEIGHT = 760, 260
LEFT, RIGHT, TOP, BOTTOM = 76, 16, 14, 40
MOST_POINTS = 800


def ticks(low: Fraction, high: Fraction, count: int) -> list[Fraction]:
    """Round numbers from `low` to `high`, about so many."""
    width = (high - low) / count
    power = Fraction(1)
    while power > width:
        power /= 10
    while power * 10 <= width:
        power *= 10
    step = next(power * factor for factor in (1, 2, 5, 10) if power * factor >= width)
    first = -(-low // step) * step
    return [first + step * at for at in range(int((high - first) // step) + 1)]


class Scale:
    """Where the numbers of an axis stand in the picture."""

    def __init__(self, low: Number, high: Number, start: float, end: float):
        self.low, self.high, self.start, self.end = Fraction(low), Fraction(high), start, end
        if self.low == self.high:
            self.low, self.high = self.low - 1, self.high + 1

    def at(self, value: Number) -> str:
        share = float((Fraction(value) - self.low) / (self.high - self.low))
        return f"{self.start + (self.end - self.start) * share:.1f}"


def thinned(points: list) -> list:
    """Some of the points, where there are too many: the first, the last, and those between at equal steps."""
    step = -(-len(points) // MOST_POINTS)
    return points if step <= 1 else points[:-1:step] + points[-1:]


def stairs(points: list[tuple[int, Number]], last: int, across: Scale, up: Scale) -> str:
    """The path of a value that stays until the next one comes."""
    path = f"M{across.at(points[0][0])} {up.at(points[0][1])}"
    for at, value in points[1:]:
        path += f"H{across.at(at)}V{up.at(value)}"
    return path + f"H{across.at(last)}"


def axes(across: Scale, up: Scale, last: int) -> list[str]:
    """Lines and numbers of the two axes."""
    made = []
    for value in ticks(up.low, up.high, 5):
        y = up.at(value)
        made.append(f'<line class="grid" x1="{LEFT}" x2="{WIDTH - RIGHT}" y1="{y}" y2="{y}"/>'
                    f'<text x="{LEFT - 8}" y="{y}" dy=".35em" text-anchor="end">{escape(decimal(value, 6))}</text>')
    for value in ticks(Fraction(0), Fraction(max(last, 1)), 6):
        if value.denominator == 1:
            made.append(f'<text x="{across.at(value)}" y="{HEIGHT - BOTTOM + 18}" text-anchor="middle">{value.numerator:,}</text>')
    made.append(f'<text x="{(LEFT + WIDTH - RIGHT) / 2}" y="{HEIGHT - 4}" text-anchor="middle">nodes settled</text>')
    made.append(f'<line class="axis" x1="{LEFT}" x2="{WIDTH - RIGHT}" y1="{HEIGHT - BOTTOM}" y2="{HEIGHT - BOTTOM}"/>')
    return made


def picture(search: Search) -> Optional[str]:
    """The picture as SVG; none where no point was found."""
    if not search.incumbents:
        return None
    found = [(point.ended, point.value) for point in search.incumbents]
    bounds = thinned(search.bounds)
    values = [value for _, value in found + bounds]
    across = Scale(0, max(search.ended, 1), LEFT, WIDTH - RIGHT)
    room = Fraction(max(values) - min(values)) / 20
    up = Scale(min(values) - room, max(values) + room, HEIGHT - BOTTOM, TOP)
    made = axes(across, up, search.ended)
    if bounds:
        made.append(f'<path class="bound" d="{stairs(bounds, search.ended, across, up)}"/>')
    made.append(f'<path class="best" d="{stairs(found, search.ended, across, up)}"/>')
    for point in search.incumbents[-MOST_POINTS:]:
        made.append(f'<circle class="best" cx="{across.at(point.ended)}" cy="{up.at(point.value)}" r="4"><title>node {point.node}: '
                    f'{escape(told(point.value))}, after {point.ended:,} nodes</title></circle>')
    label = f"The objective of the best point, from {told(found[0][1])} to {told(found[-1][1])}, over {search.ended:,} settled nodes"
    return (f'<svg class="chart" viewBox="0 0 {WIDTH} {HEIGHT}" role="img" aria-label="{escape(label)}">' + "".join(made) + "</svg>")
