"""Twelve colours, given so that what touches mostly has different ones."""
from __future__ import annotations

from typing import Iterator

from .points import Box

PALETTE = ["#7fb2d8", "#f2b66d", "#93c98b", "#e59a96", "#b7a3d6", "#d9cf7a", "#86cfc7", "#d7a98c", "#c3d98f", "#dda3c6", "#9fb4c7", "#c9bfae"]


def touching(boxes: list[Box]) -> Iterator[tuple[int, int]]:
    """Yields the places in `boxes` of each two that touch or overlap."""
    active: list[int] = []
    for at in sorted(range(len(boxes)), key=lambda at: boxes[at][0]):
        low, high = boxes[at]
        active = [other for other in active if boxes[other][1][0] >= low[0]]
        for other in active:
            least, most = boxes[other]
            if all(a <= d and c <= b for a, b, c, d in zip(low, high, least, most)):
                yield other, at
        active.append(at)


def chosen(count: int, pairs: dict[tuple[int, int], int]) -> list[int]:
    """Returns the places in `PALETTE` for `count` things. `pairs` has, for each two things, how much their colours
    should differ."""
    near: list[list[tuple[int, int]]] = [[] for _ in range(count)]
    for (one, other), weight in pairs.items():
        near[one].append((other, weight))
        near[other].append((one, weight))
    found: list[int] = []
    used = [0] * len(PALETTE)
    for at in range(count):
        cost = [0] * len(PALETTE)
        for other, weight in near[at]:
            if other < at:
                cost[found[other]] += weight
        found.append(min(range(len(PALETTE)), key=lambda colour: (cost[colour], used[colour], colour)))
        used[found[at]] += 1
    return found
