"""Draws what the `section` lines of a report show, as one picture in SVG: a drawing for each height, all of one frame and one
scale. Coordinates are rounded here, to the hundredth of a pixel, and nowhere before."""
from __future__ import annotations

import html
from collections import defaultdict
from fractions import Fraction
from math import ceil, log
from typing import Iterable, Iterator, NamedTuple

from . import Fault, colours, fitting, told
from .lots import Seen, Slice
from .points import Box, Point, box_of, box_round, ratio

# All lengths of the page are hundredths of a pixel.
PIXEL = 100
WIDTH, LEAST, MOST = 1000, 200, 20000
GAP, MARGIN, HEAD, FOOT, ROW, COLUMN = (pixels * PIXEL for pixels in (16, 8, 26, 34, 17, 190))
# A drawing that stands beside another one has this width at least, and is at most so much taller than wide.
NARROWEST, TALLEST = 400 * PIXEL, 4
# The sizes in which a name is tried, and a number for a name that fits in none.
NAMES, NUMBERS = (13 * PIXEL, 9 * PIXEL), (11 * PIXEL, 7 * PIXEL)
# So many names the legend has at most that have a number, and so many that have none.
MOST_NUMBERED, MOST_OTHER = 400, 24


class Area(NamedTuple):
    """What a region has at a height: how it is called, its colour, and its rings on the page, the largest piece first."""

    label: str
    colour: str
    pieces: list[list[list[tuple[int, int]]]]


class Frame(NamedTuple):
    """What every drawing shows: the west and north ends of it in units, its width and height on the page, and how long a unit is
    there."""

    west: Fraction
    north: Fraction
    width: int
    height: int
    scale: Fraction

    def place(self, point: Point) -> tuple[int, int]:
        """Returns the place of a point of the plan, from the upper left corner, rounded to the nearest."""
        x, y = ratio(point[0], point[2]), ratio(point[1], point[2])
        return told.nearest((x - self.west) * self.scale), told.nearest((self.north - y) * self.scale)


def label_of(each: Slice) -> str:
    """Returns the lot or the name, or else the number of the line."""
    return each.label if " " not in each.label else f"line {each.number}"


def boxes_of(shown: list[Slice]) -> list[Box]:
    return [box_round(map(box_of, each.rings)) for each in shown]


def coloured(shown: list[Slice]) -> dict[str, str]:
    """Returns a colour for each label of what is `shown`, the same in all drawings, so that what touches has different ones."""
    places = {label: place for place, label in enumerate(dict.fromkeys(map(label_of, shown)))}
    levels, pairs = defaultdict(list), {}
    for each, box in zip(shown, boxes_of(shown)):
        levels[each.height].append((places[label_of(each)], box))
    for level in levels.values():
        for one, other in colours.touching([box for _, box in level]):
            one, other = sorted((level[one][0], level[other][0]))
            if one != other:
                pairs[one, other] = 1
    chosen = colours.chosen(len(places), pairs)
    return {label: colours.PALETTE[chosen[place]] for label, place in places.items()}


def columns_of(count: int, width: int, tallness: Fraction) -> int:
    """Returns in how many columns `count` drawings stand on a page of this `width`: so many that it is about three
    quarters as tall. A drawing is `tallness` times as tall as wide."""
    def far(columns: int) -> float:
        tall = ceil(count / columns) * ((width / columns - GAP) * tallness + HEAD + GAP)
        return abs(log(tall / (0.75 * width)))

    return min(range(1, max(1, min(count, width // NARROWEST)) + 1), key=far)


def frame_of(shown: list[Slice], count: int, width: int) -> tuple[Frame, int]:
    """Returns the frame of `count` drawings on a page of this `width`, and in how many columns they stand."""
    (west, south), (east, north) = box_round(boxes_of(shown))
    across, up = Fraction(east - west), Fraction(north - south)
    columns = columns_of(count, width, min(up / across, Fraction(TALLEST)))
    wide = (width - GAP) // columns - GAP
    within = wide - 2 * MARGIN
    scale = min(within / across, within * TALLEST / up)
    beside = (wide / scale - across) / 2
    return Frame(west - beside, north + MARGIN / scale, wide, ceil(up * scale) + 2 * MARGIN, scale), columns


# ---- names

class Names:
    """The words of one drawing, each in its area, and none over another one."""

    def __init__(self, areas: list[Area]):
        self.areas = areas
        self.taken: list[fitting.Area] = []
        self.found: list[tuple[str, int, float, float]] = []

    def put(self, word: str, area: Area, sizes: Iterable[int]) -> bool:
        """Puts a `word` into an `area`, in the first of the `sizes` for which there is room, and answers whether there is."""
        for size in sizes:
            for piece in area.pieces:
                box = fitting.room(piece, fitting.LETTER * size * len(word), size, self.taken)
                if box:
                    self.taken.append(box)
                    self.found.append((word, size, (box[0] + box[2]) / 2, box[1] + 0.82 * size))
                    return True
        return False


class Legend(NamedTuple):
    """The labels for which some drawing has no room: those for which a number stands there, in order, and others."""

    numbered: list[str]
    others: list[str]

    @property
    def entries(self) -> list[tuple[str, str]]:
        """Returns the text and the label of each line that has a colour."""
        found = [(f"{number}: {label}", label) for number, label in enumerate(self.numbered, 1)]
        return found + [(label, label) for label in self.others if len(self.others) <= MOST_OTHER]

    @property
    def end(self) -> str:
        """Returns what stands under the lines, or nothing."""
        return f"{len(self.others)} more, for whose names a wider picture has room" if len(self.others) > MOST_OTHER else ""


def named(drawings: list[list[Area]]) -> tuple[list[Names], Legend]:
    """Returns the words in all `drawings`, and what the legend has: where there is no room for a name a number stands in its place."""
    placed, lacking, legend = [Names(areas) for areas in drawings], defaultdict(list), Legend([], [])
    for names in placed:
        for area in names.areas:
            if not names.put(area.label, area, NAMES):
                lacking[area.label].append((names, area))
    for label, places in lacking.items():
        number = str(len(legend.numbered) + 1)
        has_room = len(legend.numbered) < MOST_NUMBERED and any([names.put(number, area, NUMBERS) for names, area in places])
        (legend.numbered if has_room else legend.others).append(label)
    return placed, legend


# ---- the page

def text(x: float, y: float, size: int, word: str, more: str = "") -> str:
    return f'<text x="{round(x)}" y="{round(y)}" font-size="{size}"{more}>{html.escape(word)}</text>\n'


def path_of(area: Area) -> str:
    """Returns the path of an area, which says its label where the hand is."""
    steps = "".join("M" + " ".join(f"{x} {y}" for x, y in ring) + "Z" for piece in area.pieces for ring in piece)
    return f'<path fill="{area.colour}" d="{steps}"><title>{html.escape(area.label)}</title></path>\n'


def drawing(left: int, top: int, frame: Frame, head: str, names: Names) -> Iterator[str]:
    """Yields one drawing at a place of the page, under its `head`."""
    yield f'<g transform="translate({left} {top})">\n' + text(0, 17 * PIXEL, 15 * PIXEL, head)
    yield f'<g transform="translate(0 {HEAD})">\n<rect width="{frame.width}" height="{frame.height}" fill="#f6f8fa"/>\n'
    yield '<g stroke="#22303c" stroke-width="90" stroke-linejoin="round" fill-rule="evenodd" fill-opacity="0.85">\n'
    yield from map(path_of, names.areas)
    yield '</g>\n<g text-anchor="middle">\n'
    yield from (text(x, y, size, word) for word, size, x, y in names.found)
    yield "</g>\n</g>\n</g>\n"


def round_length(most: Fraction) -> int:
    """Returns the greatest of 1, 2, 5, 10, 20, .. units that is not above `most`, or 1."""
    found = 1
    for place in range(1, 40):
        length = (1, 2, 5)[place % 3] * 10 ** (place // 3)
        found = length if length <= most else found
    return found


def furniture(frame: Frame, width: int, top: int, version: int) -> str:
    """Returns the bar of the scale and the needle, at the right of a page under `top`."""
    length = round_length(frame.width / frame.scale / 4)
    right, long = width - GAP - 30 * PIXEL, round(length * frame.scale)
    needle, y = width - GAP - 8 * PIXEL, top + 20 * PIXEL
    return (f'<path d="M{right - long} {y - 500}v500h{long}v-500" fill="none" stroke="#22303c" stroke-width="120"/>\n'
            + text(right - long / 2, y - 700, 12 * PIXEL, told.length(length, version).replace(".000 ", " "), ' text-anchor="middle"')
            + f'<path d="M{needle} {y - 1800}l500 1500l-500-400l-500 400Z" fill="#22303c"/>\n'
            + text(needle, y + 800, 11 * PIXEL, "N", ' text-anchor="middle"'))


def legend_lines(legend: Legend, found: dict[str, str], top: int, columns: int) -> Iterator[str]:
    """Yields the legend, in so many `columns` under `top`."""
    rows = ceil(len(legend.entries) / columns)
    for place, (said, label) in enumerate(legend.entries):
        x, y = GAP + place // rows * COLUMN, top + place % rows * ROW
        yield f'<rect x="{x}" y="{y}" width="1200" height="1200" fill="{found[label]}" stroke="#22303c" stroke-width="50"/>\n'
        yield text(x + 20 * PIXEL, y + 11 * PIXEL, 12 * PIXEL, said)
    if legend.end:
        yield text(GAP, top + rows * ROW + 11 * PIXEL, 12 * PIXEL, legend.end)


def areas_of(shown: list[Slice], frame: Frame, found: dict[str, str]) -> dict[int, list[Area]]:
    """Returns what is shown at each height, from the lowest to the highest; of a region that two lines show at one height the last."""
    levels: dict[int, dict[str, Area]] = {height: {} for height in sorted({each.height for each in shown})}
    for each in shown:
        pieces = [[[frame.place(point) for point in ring] for ring in (outer, *holes)] for outer, holes in reversed(each.outlines)]
        levels[each.height][label_of(each)] = Area(label_of(each), found[label_of(each)], pieces)
    return {height: list(areas.values()) for height, areas in levels.items()}


def drawn(seen: Seen) -> list[Slice]:
    """Returns the slices that are drawn: those that have something, and where there are such those that reach no side of the domain."""
    there = [each for each in seen.slices if each.rings]
    if not there:
        raise Fault("the report has no line `section` that shows something", 1, "add a line to the script, as `section lot X 1.500`, which cuts the lot X at 1.5 m")
    return [each for each in there if each.is_bounded] or there


def picture(seen: Seen, width: int = WIDTH) -> str:
    """Returns the picture of what was read, so many pixels wide."""
    shown, wide = drawn(seen), width * PIXEL
    found, count = coloured(shown), len({each.height for each in shown})
    frame, columns = frame_of(shown, count, wide)
    levels = areas_of(shown, frame, found)
    placed, legend = named(list(levels.values()))
    step, in_row = frame.height + HEAD + GAP, max(1, (wide - 2 * GAP) // COLUMN)
    bottom = ceil(count / columns) * step + GAP
    lines = ceil(len(legend.entries) / in_row) + bool(legend.end)
    tall = ceil((bottom + FOOT + (lines * ROW + GAP if lines else 0)) / PIXEL)
    parts = [f'<svg xmlns="http://www.w3.org/2000/svg" width="{width}" height="{tall}" viewBox="0 0 {wide} {tall * PIXEL}" '
             'font-family="sans-serif" fill="#17222c">\n<rect width="100%" height="100%" fill="white"/>\n']
    for place, (height, names) in enumerate(zip(levels, placed)):
        at = GAP + place % columns * (frame.width + GAP), GAP + place // columns * step
        parts += drawing(*at, frame, f"height {told.length(height, seen.version)}", names)
    parts.append(furniture(frame, wide, bottom, seen.version))
    parts += legend_lines(legend, found, bottom + FOOT, in_row)
    return "".join(parts) + "</svg>\n"


def summary(seen: Seen) -> str:
    """Returns what was drawn, and what was not."""
    shown, empty = drawn(seen), sum(not each.rings for each in seen.slices)
    far = len(seen.slices) - len(shown) - empty
    heights = len({each.height for each in shown})
    said = f"drew {len(shown)} section{'s' * (len(shown) != 1)} at {heights} height{'s' * (heights != 1)}"
    said += f"; {empty} {'have' if empty > 1 else 'has'} nothing at that height" if empty else ""
    return said + (f"; {far} without an end {'are' if far > 1 else 'is'} left out" if far else "")
