"""Drawings as SVG: the shapes that they are made of, and that of an image."""

from html import escape

from image import MOST_PAIRS, Records, Refused

INK, PAPER, FAINT = "#222", "#fff", "#ddd"
SUPER, INNER, KEYS, UNNAMED, SPARE, FREE, BROKEN = "#444", "#e69138", "#3d85c6", "#bbb", "#f3f3f3", "#b4a7d6", "#cc0000"
PRESENT, VOTED, DECIDED = "#6aa84f", "#f1c232", "#cc0000"
SIDE, COLUMNS, LEFT = 9, 64, 120


class Picture:
    """Shapes on a sheet of this size."""

    def __init__(self, width, height):
        self.width, self.height, self.shapes = width, height, []

    def box(self, x, y, width, height, fill=PAPER, line=INK):
        self.shapes.append(f'<rect x="{x}" y="{y}" width="{width}" height="{height}" fill="{fill}" stroke="{line}"/>')

    def text(self, x, y, text, size=12, anchor="start", fill=INK):
        self.shapes.append(f'<text x="{x}" y="{y}" font-size="{size}" text-anchor="{anchor}" fill="{fill}">{escape(text)}</text>')

    def line(self, x, y, to_x, to_y, color=INK, width=1, dashes=""):
        dashed = f' stroke-dasharray="{dashes}"' if dashes else ""
        self.shapes.append(f'<line x1="{x}" y1="{y}" x2="{to_x}" y2="{to_y}" stroke="{color}" stroke-width="{width}"{dashed}/>')

    def arrow(self, x, y, to_x, to_y, color=INK):
        self.shapes.append(f'<line x1="{x}" y1="{y}" x2="{to_x}" y2="{to_y}" stroke="{color}" marker-end="url(#head)"/>')

    def svg(self):
        size = f'width="{self.width}" height="{self.height}" viewBox="0 0 {self.width} {self.height}"'
        head = '<defs><marker id="head" markerWidth="8" markerHeight="8" refX="7" refY="4" orient="auto"><path d="M0,0 L8,4 L0,8 z"/></marker></defs>'
        sheet = f'<rect width="{self.width}" height="{self.height}" fill="{PAPER}"/>'
        return "\n".join([f'<svg xmlns="http://www.w3.org/2000/svg" {size} font-family="sans-serif">', head, sheet, *self.shapes, "</svg>\n"])


def shade(color, part):
    """The colour, fainter the less of the part there is."""
    parts = [int(color[at : at + 2], 16) for at in (1, 3, 5)]
    return "#" + "".join(f"{round(255 - (255 - one) * (0.15 + 0.85 * part)):02x}" for one in parts)


def page_colors(array):
    """The colour of each page, and what is to be said of the records."""
    count = array.shape.all_pages
    try:
        records = Records(array)
    except Refused as refused:
        word, _, page = str(refused).partition(" ")
        return [BROKEN if str(number) == page else UNNAMED for number in range(count)], f"{word} {page}"
    colors = [SUPER] + [UNNAMED if page < records.super.next_page else SPARE for page in range(1, count)]
    for page, kind in records.pages.items():
        fill = len(records.page(page).pairs) / MOST_PAIRS if kind in ("leaf", "inner") else 1
        colors[page] = {"super": SUPER, "free": FREE, "leaf": shade(KEYS, fill), "inner": shade(INNER, fill)}[kind]
    present = {}
    for _, slot in (pair for pairs in records.pairs for pair in pairs):
        present[records.page_of_slot(slot)] = present.get(records.page_of_slot(slot), 0) + records.is_present(slot)
    for page, slots in present.items():
        colors[page] = shade(PRESENT, slots / 8)
    return colors, f"{sum(present.values()):,} records"


def row_color(array, row):
    return DECIDED if row in array.parts else VOTED if row.is_voted else SPARE


def runs(colors):
    """Where equal colours begin, and how many there are."""
    start = 0
    for place in range(1, len(colors) + 1):
        if place == len(colors) or colors[place] != colors[start]:
            yield start, place - start, colors[start]
            start = place


def squares(picture, y, colors):
    """A grid of squares, a row of them behind another; equal ones in a row are one box with marks between."""
    for first in range(0, len(colors), COLUMNS):
        for start, count, color in runs(colors[first : first + COLUMNS]):
            picture.box(LEFT + SIDE * start, y, SIDE * count, SIDE, color, FAINT)
        y += SIDE
    return y


def legend(picture, y):
    kinds = [("super page", SUPER), ("inner page", INNER), ("page with keys", KEYS), ("record page", PRESENT), ("free", FREE), ("allocated", UNNAMED), ("not allocated", SPARE), ("row voted", VOTED), ("row decided, damaged", DECIDED)]
    for place, (name, color) in enumerate(kinds):
        x, line = 10 + 150 * (place % 5), y + 18 * (place // 5)
        picture.box(x, line, SIDE, SIDE, color, FAINT)
        picture.text(x + 14, line + 9, name, 11)


def drawing(array):
    """The array: for each logger its rows and its pages, each page coloured by what it holds; the fuller, the darker."""
    shape = array.shape
    colors, told = page_colors(array)
    lines = -(-shape.pages // COLUMNS)
    band = SIDE * lines + 4 * SIDE
    picture = Picture(LEFT + SIDE * COLUMNS + 20, 40 + band * shape.loggers + 60)
    picture.text(10, 22, f"{shape.media_len:,} bytes: a header, and {shape.loggers} loggers of {shape.numbers} rows and {shape.pages} pages. {told}, {array.deferred} deferred commits.")
    for logger in range(shape.loggers):
        y = 40 + band * logger
        picture.text(10, y + 8, f"logger {logger}: rows", 10)
        squares(picture, y, [row_color(array, array.rows[number, logger]) for number in range(shape.numbers)])
        picture.text(10, y + 2 * SIDE + 8, "pages", 10)
        squares(picture, y + 2 * SIDE, [colors[page] for page in range(logger, shape.all_pages, shape.loggers)])
    legend(picture, 40 + band * shape.loggers + 5)
    return picture.svg()
