"""An expression of the language as a tree."""
from __future__ import annotations

from dataclasses import dataclass
from typing import Iterator, Sequence

from .command import NODES

# How many words a leaf has, the first included, if that is not 1; a prism has as many as it says.
LEAVES = {"half": 5, "box": 7, "name": 2, "lot": 2}
# A longer text is shortened.
LONGEST = 60


@dataclass(frozen=True)
class Node:
    """A node: the words of the whole expression, where its own begin and end there, and its operands."""

    words: Sequence[str]
    begin: int
    end: int
    operands: tuple[Node, ...] = ()

    @property
    def word(self) -> str:
        return self.words[self.begin]

    @property
    def text(self) -> str:
        return " ".join(self.words[self.begin:self.end])

    @property
    def short(self) -> str:
        text = self.text
        return text if len(text) <= LONGEST else f"{text[:LONGEST - 3]}..."

    @property
    def spine(self) -> list[Node]:
        """Returns the operands that one word joins, in order: a, b, c and d of `or or or a b c d`, and of `minus minus minus a b c d`."""
        found: list[Node] = []
        left = list(reversed(self.operands))
        while left:
            each = left.pop()
            if each.word == self.word and (each.word in ("and", "or") or each.word == "minus" and not found):
                left += reversed(each.operands)
            else:
                found.append(each)
        return found


def leaves(words: Sequence[str]) -> Iterator[tuple[int, int]]:
    """Yields where each node begins in the `words` of an expression, and where its own words end."""
    at = 0
    while at < len(words):
        word = words[at]
        count = 4 + 2 * int(words[at + 3]) if word == "prism" else LEAVES.get(word, 1)
        yield at, at + count
        at += count


def tree(expression: str) -> Node:
    """Returns the tree of an `expression` without faults."""
    words = expression.split(" ")
    made: list[Node] = []
    for begin, end in reversed(list(leaves(words))):
        operands = tuple(made.pop() for _ in range(NODES[words[begin]]))
        made.append(Node(words, begin, operands[-1].end if operands else end, operands))
    return made[0]
