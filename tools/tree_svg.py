"""Lays out the boxes of a tree and writes the picture as an SVG, for `tools/picture`.

It knows boxes, but no grammar. Leaves are drawn from left to right, each box is centered above its children, and all boxes of a
level have their upper sides at one height. A subtree has a strip of its own, so that neither boxes nor edges overlap. Each step
is linear, and nothing here recurses over a tree. All lengths are whole pixels, so that a tree always has the same picture, byte
for byte.
"""
import html
import unicodedata
from dataclasses import dataclass
from itertools import accumulate

# the height of letters; the width of a letter, enough for any monospace font; the height of a line; and the distance from its
# upper side to the base line of letters
LETTERS, LETTER, LINE, FOOT = 13, 8, 18, 13
# the space between the side of a box and its content, between its columns, between adjacent boxes, and between levels
PADDING, BETWEEN, BESIDE, BELOW = 6, 12, 16, 40
# the space around the picture, and the size of a colour in the legend
MARGIN, PATCH = 12, 12


@dataclass
class Box:
    """The box of a node or a token: its symbol or class, and its production or text; for each attribute a colour and the cells
    of a row, the same number in all rows; and the text of its tooltip. Then the number of its parent's box (None for the root)
    and its level, from 1."""

    name: str
    says: str
    rows: list
    tooltip: str
    is_token: bool
    parent: object
    level: int


@dataclass
class Place:
    """The place of a box: its size and the offsets of its columns; the extent of its subtree to the left and to the right of its
    middle; and its middle and its upper side. The middle is relative to that of its parent until the whole tree is placed."""

    width: int
    height: int
    columns: list
    left: int = 0
    right: int = 0
    middle: int = 0
    top: int = 0


# Sizes and places


def width_of(text):
    """Returns the width of a text. Wide letters are twice as wide as others."""
    return LETTER * sum(2 if unicodedata.east_asian_width(it) in "WF" else 1 for it in text)


def place_of(box):
    """Returns the place of a box with its size. Each column is as wide as its widest cell."""
    cells = zip(*(cells for _, cells in box.rows))
    columns = list(accumulate((BETWEEN + max(map(width_of, column)) for column in cells), initial=0))
    inner = max(width_of(box.name), width_of(box.says), columns.pop() - BETWEEN)
    return Place(inner + 2 * PADDING, LINE * (2 + len(box.rows)) + 2 * PADDING, columns)


def put_above(place, children):
    """Puts the places of children side by side, and that of their parent in the middle between the first and the last one."""
    end, middle = -BESIDE, 0
    for child in children:
        child.middle = end + BESIDE + child.left
        end = child.middle + child.right
    if children:
        middle = (children[0].middle + children[-1].middle) // 2
    for child in children:
        child.middle -= middle
    place.left, place.right = max(middle, place.width // 2), max(end - middle, place.width // 2)


def places_of(boxes, top):
    """Returns the places of boxes, whose upper end is at `top`. The boxes are in the order of the sentence, each before its
    children."""
    places = [place_of(box) for box in boxes]
    children = [[] for _ in boxes]
    highest = [0] * max(box.level for box in boxes)
    for box, place in zip(boxes, places):
        highest[box.level - 1] = max(highest[box.level - 1], place.height)
        if box.parent is not None:
            children[box.parent].append(place)
    for place, below in zip(reversed(places), reversed(children)):
        put_above(place, below)
    tops = list(accumulate((height + BELOW for height in highest), initial=top))
    for box, place in zip(boxes, places):
        place.middle += MARGIN + place.left if box.parent is None else places[box.parent].middle
        place.top = tops[box.level - 1]
    return places


# The picture


def title_of(text):
    """Returns the title of the whole picture, or of a box. Browsers show that of a box as its tooltip."""
    return f"<title>{html.escape(text, quote=False)}</title>"


def text_at(x, y, text, more=""):
    """Returns a text that begins at x, or has its middle there, in the line whose upper side is at y."""
    return f'<text x="{x}" y="{y + FOOT}"{more}>{html.escape(text, quote=False)}</text>'


def box_lines(box, place):
    """Yields the lines of a box with its texts and its tooltip. The box of a node is rounded, that of a token is not."""
    kind = 'class="token"' if box.is_token else 'class="node" rx="8"'
    x, y = place.middle - place.width // 2, place.top
    yield f"<g>{title_of(box.tooltip)}"
    yield f'<rect {kind} x="{x}" y="{y}" width="{place.width}" height="{place.height}" fill="#ffffff" stroke="#606060"/>'
    yield text_at(place.middle, y + PADDING, box.name, ' text-anchor="middle" font-weight="bold"')
    yield text_at(place.middle, y + PADDING + LINE, box.says, ' text-anchor="middle"')
    for count, (hue, cells) in enumerate(box.rows, 2):
        line = y + PADDING + count * LINE
        yield f'<rect x="{x + PADDING // 2}" y="{line}" width="{place.width - PADDING}" height="{LINE}" fill="{hue}"/>'
        yield from (text_at(x + PADDING + at, line, text) for at, text in zip(place.columns, cells))
    yield "</g>"


def edge_line(above, below):
    """Returns an edge, from the middle of the lower side of a box to that of the upper side of one below."""
    return f'<line x1="{above.middle}" y1="{above.top + above.height}" x2="{below.middle}" y2="{below.top}"/>'


def legend_lines(legend):
    """Yields a line for each colour, below the title."""
    for count, (hue, text) in enumerate(legend, 1):
        y = MARGIN + count * LINE
        patch = f'x="{MARGIN}" y="{y + (LINE - PATCH) // 2}" width="{PATCH}" height="{PATCH}"'
        yield f'<rect class="colour" {patch} fill="{hue}" stroke="#606060"/>'
        yield text_at(MARGIN + PATCH + LETTER, y, text)


def drawing(boxes, legend, title):
    """Returns the picture of a tree with a title and a legend of its colours. The boxes are in the order of the sentence."""
    places = places_of(boxes, MARGIN + LINE * (1 + len(legend)) + MARGIN)
    heads = [width_of(title), *(PATCH + LETTER + width_of(text) for _, text in legend)]
    width = 2 * MARGIN + max(places[0].left + places[0].right, *heads)
    height = MARGIN + max(place.top + place.height for place in places)
    edges = (edge_line(places[box.parent], place) for box, place in zip(boxes, places) if box.parent is not None)
    lines = [
        f'<svg xmlns="http://www.w3.org/2000/svg" width="{width}" height="{height}" viewBox="0 0 {width} {height}">',
        title_of(title),
        '<rect width="100%" height="100%" fill="#ffffff"/>',
        f'<g font-family="monospace" font-size="{LETTERS}" xml:space="preserve">',
        text_at(MARGIN, MARGIN, title, ' font-weight="bold"'),
        *legend_lines(legend),
        '<g stroke="#606060">',
        *edges,
        "</g>",
        '<g class="tree">',
        *(line for box, place in zip(boxes, places) for line in box_lines(box, place)),
        "</g>",
        "</g>",
        "</svg>",
    ]
    return "".join(f"{line}\n" for line in lines)
