"""Solids as a city model or a building model has them, before they have a place in a register."""
from __future__ import annotations

import re
from dataclasses import dataclass, field
from fractions import Fraction
from typing import Any, Iterator, Optional, Sequence

from .plan import Feature
from .rings import Unfit

# A point in metres on the map; a ring without its first point again; the rings of a face, the outer one first; the faces of a
# surface; the surfaces of a solid, the outer one first.
Point = tuple[Fraction, Fraction, Fraction]
Ring = list[Point]
Face = list[Ring]
Shell = list[Face]
Solid = list[Shell]


class Exact(float):
    """A decimal of a file: a float for those who print it, and the exact number of its text."""

    text: str

    def __new__(cls, text: str) -> Exact:
        made = super().__new__(cls, text)
        made.text = text
        return made


def exact(number: Any) -> Fraction:
    """Returns the exact number that a file has.

    # Errors
    `Unfit` if it is none.
    """
    if isinstance(number, bool) or not isinstance(number, (int, Exact)):
        raise Unfit("a coordinate is no number", ascii(number)[:60])
    text = number.text if isinstance(number, Exact) else str(number)
    # A great exponent would make a number that fills the memory: of 1e-999999999 Python makes the float 0.
    is_small = not number and re.match(r"[-+0.]*[1-9]", text)
    if is_small or abs(number) > 10**12 or 0 < abs(number) < 1e-30 or len(text) > 400:
        raise Unfit("a number is not from 1e-30 to 1e12", text[:60])
    return Fraction(text) if number else Fraction(0)


@dataclass
class Thing(Feature):
    """A feature of a model: its `key`, the `layer` of its lot or None, its solids, and the planes that the file states for its faces,
    each as four whole numbers of millimetres on the map."""

    key: str = ""
    layer: Optional[str] = None
    solids: list[Solid] = field(default_factory=list)
    planes: list[tuple[int, ...]] = field(default_factory=list)

    @property
    def said(self) -> str:
        return f"feature {self.number}, {self.id or self.key}"

    @property
    def points(self) -> Iterator[Point]:
        return (point for solid in self.solids for shell in solid for face in shell for ring in face for point in ring)


@dataclass
class Model:
    """What was read: the features, the grid that the file names or nothing, the local origin if the file was made with one, how fine
    its coordinates are in metres, and what is to be said of it."""

    things: list[Thing]
    grid: str = ""
    origin: Optional[tuple[Fraction, Fraction]] = None
    step: Fraction = Fraction(1, 1000)
    said: list[str] = field(default_factory=list)


@dataclass
class Choice:
    """Which features are read: the property with the id and that with the layer, the level of detail or None for the finest, and the
    kinds of features or none for all."""

    id: str = "id"
    layer: str = "layer"
    lod: Optional[str] = None
    kind: Sequence[str] = ()
