"""Solids of a model that tests are made of: corners in millimetres, faces as lists of corners seen from outside, counterclockwise."""
import json

# A house 10 m by 8 m with eaves at 6 m and a ridge at 9 m: 10*8*6 + 10*8*3/2 = 600 cubic metres.
GABLE = [(0, 0, 0), (10000, 0, 0), (10000, 8000, 0), (0, 8000, 0), (0, 0, 6000), (10000, 0, 6000), (10000, 8000, 6000), (0, 8000, 6000),
         (0, 4000, 9000), (10000, 4000, 9000)]
GABLE_FACES = ["3 2 1 0", "0 1 5 4", "2 3 7 6", "0 4 8 7 3", "1 2 6 9 5", "4 5 9 8", "8 9 6 7"]
# An L-shaped house with a valley: 12*8*6 + 12*8*3/2 for the house, 6*7*6 + 7*6*2.25/2 for the wing, and what of the roof of the wing
# lies over that of the house, a pyramid of 6*2.25/2*3/3: 1026 cubic metres.
WING = {"A": (0, -7000, 0), "B": (6000, -7000, 0), "C": (6000, 0, 0), "D": (12000, 0, 0), "E": (12000, 8000, 0), "F": (0, 8000, 0),
        "a": (0, -7000, 6000), "b": (6000, -7000, 6000), "c": (6000, 0, 6000), "d": (12000, 0, 6000), "e": (12000, 8000, 6000), "f": (0, 8000, 6000),
        "G": (0, 0, 6000), "R": (0, 4000, 9000), "S": (12000, 4000, 9000), "V": (3000, -7000, 8250), "W": (3000, 3000, 8250)}
WING_FACES = ["F E D C B A", "A B b V a", "B C c b", "C D d c", "D E e S d", "E F f e", "F A a G R f", "a V W G", "V b c W", "G W c d S R", "R S e f"]


def faces_of(corners, faces):
    """Faces as lists of rings of corners; a face of several rings has / between them."""
    keys = (lambda word: int(word)) if isinstance(corners, list) else str
    return [[[corners[keys(word)] for word in ring.split()] for ring in face.split("/")] for face in faces]


def box(low, high):
    (x, y, z), (a, b, c) = low, high
    corners = [(x, y, z), (a, y, z), (a, b, z), (x, b, z), (x, y, c), (a, y, c), (a, b, c), (x, b, c)]
    return faces_of(corners, ["3 2 1 0", "4 5 6 7", "0 1 5 4", "1 2 6 5", "2 3 7 6", "3 0 4 7"])


def turned(shell):
    return [[ring[::-1] for ring in face] for face in shell]


def upright(rings, low, high):
    """A solid over a plan: its outer ring counterclockwise, its holes clockwise."""
    shell = [[[(x, y, low) for x, y in ring[::-1]] for ring in rings], [[(x, y, high) for x, y in ring] for ring in rings]]
    return shell + [[[(*p, low), (*q, low), (*q, high), (*p, high)]] for ring in rings for p, q in zip(ring, ring[1:] + ring[:1])]


class Writer:
    """A CityJSON model, object by object."""

    def __init__(self, scale="0.001", translate=(0, 0, 0), version="2.0", grid=None):
        self.places, self.objects, self.scale, self.translate, self.version, self.grid = {}, {}, scale, translate, version, grid

    def indexed(self, solid):
        return [[[[self.places.setdefault(tuple(corner), len(self.places)) for corner in ring] for ring in face] for face in shell] for shell in solid]

    def add(self, key, *solids, form="Solid", lod="2.2", type="Building", parents=None, children=None, **attributes):
        """Solids are lists of shells. Of the forms that hold several solids all are one geometry."""
        boundaries = [self.indexed(solid) for solid in solids]
        geometry = [{"type": form, "lod": lod, "boundaries": boundaries[0] if form == "Solid" else boundaries}] if solids else []
        made = self.objects.setdefault(key, {"type": type, "attributes": attributes, "geometry": []})
        made["geometry"] += geometry
        made.update({name: value for name, value in (("parents", parents), ("children", children)) if value})
        return self

    def text(self):
        made = {"type": "CityJSON", "version": self.version, "transform": {"scale": "SCALE", "translate": list(self.translate)},
                "CityObjects": self.objects, "vertices": [list(place) for place in self.places]}
        if self.grid:
            made["metadata"] = {"referenceSystem": self.grid}
        return json.dumps(made).replace('"SCALE"', f"[{self.scale}, {self.scale}, {self.scale}]").encode()


def model(*solids, **given):
    return Writer(**given).add("a", *solids).text()
