"""Writes one page that shows bodies in a browser. It holds all that it needs, and asks no network."""
from __future__ import annotations

import base64
import gzip
import html
import json
from pathlib import Path
from typing import Any, Iterable, Sequence, Union

from . import colours, outline, told
from .lots import Body, Seen
from .place import Place
from .points import Number, Point, Ring, box_round, ratio

# Lots whose lowest heights are less than this apart, in units, are of one storey.
STOREY = 2000
PAGE = Path(__file__).parent / "page"
SCRIPTS = ("scene.js", "eye.js", "paint.js", "names.js", "panel.js", "hand.js")


def short(units: Number) -> str:
    """Returns metres to the millimetre, with two decimals if the third is 0."""
    text = told.metres(told.nearest(units))
    return text[:-1] if text.endswith("0") and len(text.split(".")[1]) == 3 else text


def storeys_of(lows: list[Number], step: int) -> tuple[list[int], list[str]]:
    """Returns the storey of each lowest height, from 0, and how each storey is called. One goes up to less than `step` above its lowest."""
    place: dict[Number, int] = {}
    ends: list[list[Number]] = []
    for low in sorted(set(lows)):
        if not ends or low - ends[-1][0] >= step:
            ends.append([low, low])
        ends[-1][1] = low
        place[low] = len(ends) - 1
    return [place[low] for low in lows], [f"{short(a)} m" if a == b else f"{short(a)} to {short(b)} m" for a, b in ends]


def colours_of(bodies: list[Body]) -> list[int]:
    """Returns a colour for each body: bodies next to each other have different colours, and then bodies above each other."""
    boxes = [body.box for body in bodies]

    def weight(one: int, other: int) -> int:
        return 1000 if boxes[one][0][2] < boxes[other][1][2] and boxes[other][0][2] < boxes[one][1][2] else 1

    return colours.chosen(len(bodies), {pair: weight(*pair) for pair in colours.touching(boxes)})


def coordinate(value: Number) -> Union[int, float]:
    """Returns a coordinate of the page, in units: an integer if it is one, otherwise rounded to the thousandth."""
    return value if isinstance(value, int) else round(float(value), 3)


class Mesh:
    """Corners, triangles and edges of a body, from a centre in whole units."""

    def __init__(self, body: Body, centre: list[int]):
        self.centre = centre
        self.places: dict[Point, int] = {}
        self.points: list[Union[int, float]] = []
        self.triangles: list[int] = []
        edges = set()
        for facet in body.facets:
            for piece in facet.pieces:
                first, *others = map(self.place, piece)
                for second, third in zip(others, others[1:]):
                    self.triangles += (first, second, third)
            for ring in facet.rings:
                corners = list(map(self.place, ring))
                edges |= {(min(p, q), max(p, q)) for p, q in zip(corners, corners[1:] + corners[:1])}
        self.edges = [end for edge in sorted(edges) for end in edge]

    def place(self, point: Point) -> int:
        """Returns the number of a corner."""
        if point not in self.places:
            self.places[point] = len(self.places)
            self.points += (coordinate(ratio(point[axis], point[3]) - self.centre[axis]) for axis in range(3))
        return self.places[point]


def middle_of(body: Body, centre: list[int]) -> list[int]:
    """Returns where to write the name of a body: the middle of its largest piece that is seen from above."""
    def size(piece: Ring) -> Number:
        return outline.area([(x, y, w) for x, y, _, w in piece])

    piece = max((piece for facet in body.facets if facet.half[2] < 0 for piece in facet.pieces), key=size)
    return [round(sum(point[axis] / point[3] for point in piece) / len(piece) - centre[axis]) for axis in range(3)]


def entry(body: Body, layer: int, storey: int, colour: int, place: Place, centre: list[int]) -> dict[str, Any]:
    """Returns what the page knows of a body. Numbers that it shows are texts, so that no browser rounds them."""
    mesh, (low, high) = Mesh(body, centre), body.box
    found = {
        "name": body.label, "layer": layer, "storey": storey, "colour": colour, "line": body.born, "origins": body.origins,
        "parts": len(body.cells), "is_lot": body.is_lot,
        "box": [told.metres(end) for end in (*low, *high)], "size": [told.metres(b - a) for a, b in zip(low, high)],
        "volume": told.cubic_metres(body.volume), "area": told.square_metres(body.area),
        "points": mesh.points, "triangles": mesh.triangles, "edges": mesh.edges, "middle": middle_of(body, centre),
    }
    if body.ended is not None:
        found["ended"] = body.ended
    if place.is_given:
        found["map"] = [told.exact(place.metres(number, axis)) for end in (low, high) for axis, number in enumerate(end[:2])]
    return found


def several(count: int, what: str) -> str:
    return f"{count:,} {what}{'s' * (count != 1)}"


def about(seen: Seen, bodies: list[Body]) -> str:
    """Returns one line on what the page shows, and what it omits."""
    lots, far = sum(body.is_lot for body in bodies), len(seen.bodies) - len(bodies)
    ended = sum(body.ended is not None for body in bodies)
    told_ = [several(lots, "lot") + (f", {ended:,} of which ended" if ended else "")] if lots else []
    told_ += [several(len(bodies) - lots, "region")] if len(bodies) > lots else []
    told_ += [f"{far} without an end, not drawn"] if far else []
    told_ += [several(seen.refused, "refused line")] if seen.refused else []
    told_ += [f"report {seen.check}"] if seen.check else []
    return ", ".join(told_) + "."


def layers_of(bodies: Iterable[Body]) -> list[str]:
    """Returns the layers in the order of their lots, and then those of regions that are no lots, those without a name last."""
    return list(dict.fromkeys(body.layer for body in sorted(bodies, key=lambda body: (not body.is_lot, body.layer == "other regions"))))


def assembled(title: str, data: dict[str, Any]) -> str:
    """Returns the page with its styles, scripts and data."""
    packed = base64.b64encode(gzip.compress(json.dumps(data, separators=(",", ":")).encode(), 9, mtime=0)).decode()
    style, *scripts = ((PAGE / name).read_text(encoding="utf-8") for name in ("page.css", *SCRIPTS))
    page = (PAGE / "page.html").read_text(encoding="utf-8")
    for mark, text in (("__STYLE__", style), ("__SCRIPT__", "".join(scripts)), ("__DATA__", packed), ("__TITLE__", html.escape(title))):
        page = page.replace(mark, text)
    return page


def page(seen: Seen, title: str, step: int = STOREY, moments: Sequence[tuple[int, str]] = ()) -> str:
    """Returns the page of what was read, under a `title`; lots whose lowest heights are less than `step` apart are of
    one storey. With `moments`, lines each with a day or "", it has a slider, and shows the lots that were live after
    a line."""
    bodies = [body for body in seen.bodies if body.is_bounded]
    if not bodies:
        raise seen.without("no lot and no region with an end")
    low, high = box_round(body.box for body in bodies)
    centre = [(a + b) // 2 for a, b in zip(low, high)]
    layers = layers_of(bodies)
    storeys, names = storeys_of([body.box[0][2] for body in bodies], step)
    return assembled(title, {
        "about": about(seen, bodies), "moments": moments, "layers": layers, "storeys": names, "palette": colours.PALETTE,
        # Where there are lots, other regions are hidden at first; where there are none, those without a name.
        "hidden": [at > 0 and layer.endswith(" regions") for at, layer in enumerate(layers)],
        "centre": [float(number) / 1000 for number in centre],
        "lots": [entry(body, layers.index(body.layer), storey, colour, seen.place, centre)
                 for body, storey, colour in zip(bodies, storeys, colours_of(bodies))],
    })
