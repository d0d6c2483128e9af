"""Reads a STEP file (ISO 10303-21) as far as IFC needs it: its instances by their numbers. Numbers are exact.

The values of an instance are read when it is asked for: a text, a whole number or a `model.Exact`, an `Enumeration`, a
`Reference`, a list, a `Typed` value, or None for `$` and `*`.
"""
from __future__ import annotations

import re
from functools import lru_cache
from typing import Any, Iterator, NamedTuple, Union

from . import Fault
from .model import Exact

MOST_DIGITS = 400
TEXT = r"'(?:[^']|'')*'"
# A text with a quote in it is read as two of these: patterns that can read it in two ways take forever where nothing follows.
QUOTED = r"'[^']*'"
INSTANCE = re.compile(rf"#([0-9]+)\s*=\s*([A-Za-z0-9_]+)\s*\(((?:[^';]|{QUOTED})*)\)\s*;")
COMMENT = re.compile(rf"({QUOTED})|/\*.*?\*/", re.S)
TOKEN = re.compile(rf"\s*(?:({TEXT})|#([0-9]+)|\.([A-Za-z0-9_]+)\.|([+-]?[0-9]+(?:\.[0-9]*)?(?:[eE][+-]?[0-9]+)?)"
                   r"|([A-Za-z][A-Za-z0-9_]*)\s*\(|([(),$*])|(\"[0-9A-F]*\"))")
WIDE = re.compile(r"\\X2\\((?:[0-9A-F]{4})+)\\X0\\|\\X\\([0-9A-F]{2})|\\S\\(.)")


class Reference(NamedTuple):
    number: int


class Enumeration(NamedTuple):
    word: str


class Typed(NamedTuple):
    """A value with the name of its type."""

    name: str
    values: list[Any]


class Instance(NamedTuple):
    """An instance: its number, the name of its type in capital letters, and the text of its values."""

    number: int
    name: str
    text: str


def text_of(quoted: str) -> str:
    """Returns the text of a string, without its quotes and with the letters that it encodes."""
    def letter(found: re.Match[str]) -> str:
        if found[1]:
            return bytes.fromhex(found[1]).decode("utf-16-be", "replace")
        return chr(int(found[2], 16)) if found[2] else chr(ord(found[3]) + 128)

    return WIDE.sub(letter, quoted[1:-1].replace("''", "'"))


def number_of(word: str) -> Union[int, Exact]:
    if len(word) > MOST_DIGITS:
        raise ValueError(f"a number has more than {MOST_DIGITS} digits")
    return Exact(word) if "." in word or "e" in word.lower() else int(word)


def values_of(text: str) -> list[Any]:
    """Returns the values between the brackets of an instance.

    # Errors
    `ValueError` if they do not read.
    """
    stack: list[list[Any]] = [[]]
    names: list[str] = []
    at, end = 0, len(text.rstrip())
    while at < end:
        found = TOKEN.match(text, at)
        if not found:
            raise ValueError(f"{text[at:at + 30]!a} does not read")
        at = found.end()
        quoted, reference, word, number, name, sign, _ = found.groups()
        if name is not None or sign == "(":
            stack.append([])
            names.append(name or "")
        elif sign == ")":
            values, kind = stack.pop(), names.pop()
            stack[-1].append(Typed(kind.upper(), values) if kind else values)
        elif sign != ",":
            stack[-1].append(text_of(quoted) if quoted else Reference(int(reference)) if reference else Enumeration(word.upper()) if word
                             else number_of(number) if number else None)
    if len(stack) != 1:
        raise ValueError("a bracket is not closed")
    return stack[0]


class File:
    """The instances of a file."""

    def __init__(self, text: bytes):
        whole = text.decode("latin-1")
        whole = COMMENT.sub(lambda found: found[1] or " ", whole) if "/*" in whole else whole
        self.instances = {int(found[1]): Instance(int(found[1]), found[2].upper(), found[3]) for found in INSTANCE.finditer(whole)}
        self.values = lru_cache(maxsize=None)(self.read)

    def read(self, number: int) -> list[Any]:
        """Returns the values of an instance.

        # Errors
        `Fault` if they do not read.
        """
        try:
            return values_of(self.instances[number].text)
        except (ValueError, IndexError) as error:
            raise Fault(f"the model does not read as STEP: instance #{number}: {error}", 3, "export it again")

    def of(self, *names: str) -> Iterator[Instance]:
        """Yields the instances of some types, in the order of the file."""
        return (each for each in self.instances.values() if each.name in names)
