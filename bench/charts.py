"""Charts as SVG: bars and lines with axes, units and a legend, on a white sheet."""

import sys
from math import floor, log10
from pathlib import Path

sys.path.insert(0, str(Path(__file__).resolve().parent.parent / "tools"))
from picture import FAINT, INK, Picture

COLORS = ["#d55e00", "#0072b2", "#009e73", "#cc79a7", "#e69f00"]
WIDTH, LEFT, RIGHT, TOP = 780, 200, 90, 66
BAR, BETWEEN = 15, 12
HIGH, FOOT = 250, 50


def shown(number):
    """A number with three digits, or all of a larger one."""
    if isinstance(number, int) or number >= 100:
        return f"{number:,.0f}"
    return f"{number:.{1 if number >= 10 else 2 if number >= 1 else 3}f}"


def ticks(most, parts):
    """Round numbers from 0 up to one that is at least `most`, some `parts` steps."""
    rough = most / parts or 1
    size = 10 ** floor(log10(rough))
    step = next(factor * size for factor in (1, 2, 2.5, 5, 10) if factor * size >= rough)
    count = -(-most // step) or 1
    return [step * number for number in range(int(count) + 1)]


def plain(number):
    return f"{number:,.0f}" if number == int(number) else f"{number:g}"


def head(picture, title, names):
    picture.text(16, 24, title, 15)
    x = 16
    for name, color in zip(names, COLORS):
        picture.box(x, 36, 11, 11, color, color)
        picture.text(x + 16, 46, name, 12)
        x += 32 + 7 * len(name)


def at(number):
    return round(number, 1)


def bars(title, unit, groups, names):
    """For each group of a title and numbers a bar for each of these names; its number stands behind it. A bar without a number is left out."""
    rows = [sum(number is not None for number in numbers) for _, numbers in groups]
    bottom = TOP + sum(BAR * count + BETWEEN for count in rows)
    picture = Picture(WIDTH, bottom + FOOT)
    head(picture, title, names)
    marks = ticks(max(number for _, numbers in groups for number in numbers if number is not None), 6)
    scale = (WIDTH - LEFT - RIGHT) / marks[-1]
    for mark in marks:
        picture.line(at(LEFT + scale * mark), TOP, at(LEFT + scale * mark), bottom, FAINT)
        picture.text(at(LEFT + scale * mark), bottom + 16, plain(mark), 11, "middle")
    picture.text(at((LEFT + WIDTH - RIGHT) / 2), bottom + 36, unit, 12, "middle")
    y = TOP
    for (name, numbers), count in zip(groups, rows):
        picture.text(LEFT - 8, at(y + BAR * count / 2 + 4), name, 12, "end")
        for number, color in zip(numbers, COLORS):
            if number is None:
                continue
            picture.box(LEFT, y, at(scale * number), BAR - 2, color, color)
            picture.text(at(LEFT + scale * number + 5), y + BAR - 4, shown(number), 11)
            y += BAR
        y += BETWEEN
    picture.line(LEFT, TOP, LEFT, bottom, INK)
    return picture.svg()


def lines(title, names, panels):
    """Beside each other panels of a unit below, one at the side, the places of the points, their numbers by name, and whether places are by ratio."""
    width = (WIDTH - 20) // len(panels)
    picture = Picture(WIDTH, TOP + HIGH + FOOT)
    head(picture, title, names)
    for number, panel in enumerate(panels):
        draw_panel(picture, 10 + width * number, width, *panel)
    return picture.svg()


def draw_panel(picture, x, width, below, side, places, series, by_ratio):
    left, right, bottom = x + 62, x + width - 34, TOP + HIGH
    marks = ticks(max(number for numbers in series for number in numbers), 5)
    scale = (HIGH - 14) / marks[-1]
    picture.text(x + 6, TOP, side, 12)
    for mark in marks:
        y = at(bottom - scale * mark)
        picture.line(left, y, right, y, FAINT)
        picture.text(left - 6, at(y + 4), plain(mark), 11, "end")
    position = positions(places, left, right, by_ratio)
    for place, across in zip(places, position):
        picture.line(across, bottom, across, bottom + 4, INK)
        picture.text(across, bottom + 17, f"{place:,}", 11, "middle")
    picture.text(at((left + right) / 2), bottom + 38, below, 12, "middle")
    picture.line(left, bottom, right, bottom, INK)
    for numbers, color in zip(series, COLORS):
        points = [(across, at(bottom - scale * number)) for across, number in zip(position, numbers)]
        for (from_x, from_y), (to_x, to_y) in zip(points, points[1:]):
            picture.line(from_x, from_y, to_x, to_y, color, 2)
        for point_x, point_y in points:
            picture.box(at(point_x - 3), at(point_y - 3), 6, 6, color, color)


def positions(places, left, right, by_ratio):
    """Where places lie on an axis: by their ratio, or from 0 on by their size."""
    if by_ratio:
        low, high = log10(places[0]), log10(places[-1])
        return [at(left + (right - left) * (log10(place) - low) / (high - low)) for place in places]
    return [at(left + (right - left) * place / places[-1]) for place in places]
