"""A script with its version, its front up to a line, its live lots, and lines after it to which the store's answers are read."""
from __future__ import annotations

import io
import itertools
import re
from dataclasses import dataclass
from functools import cached_property
from typing import Iterable, Iterator, Optional

from . import Fault, report, store

MARK = re.compile(rb"rp 2\r?(?:\n|$)")
WORD = re.compile(report.NAME)


def fresh(word: str, names: set[str]) -> str:
    """Returns `word`, or the first of `word`-2, `word`-3 .. that is not in `names`, and adds the result to `names`."""
    found = next(name for name in itertools.chain([word], (f"{word}-{number}" for number in itertools.count(2))) if name not in names)
    names.add(found)
    return found


@dataclass(frozen=True)
class Script:
    """A script, whose last line ends with a line feed. Its lines have the numbers that a report gives: the mark of version 2 has 0."""

    text: bytes

    @cached_property
    def version(self) -> int:
        return 2 if MARK.match(self.text) else 1

    @property
    def is_marked(self) -> bool:
        return self.version == 2

    @cached_property
    def lines(self) -> list[bytes]:
        """Returns the lines without the mark: the line `number` is `lines[number - 1]`."""
        return self.text.split(b"\n")[self.is_marked:-1]

    @cached_property
    def words(self) -> set[str]:
        """Returns all words that could be names or ids, to which new ones may be added."""
        return {word.decode() for word in WORD.findall(self.text)}

    def front(self, line: int) -> Script:
        """Returns the script up to and with a `line`.

        # Errors
        `Fault` if the script has no such line.
        """
        if line > len(self.lines):
            raise Fault(f"the script has {len(self.lines)} lines, and no line {line}: give --asof a number up to {len(self.lines)}. Nothing was written.", 2)
        return Script(b"\n".join([*self.text.split(b"\n")[: line + self.is_marked], b""]))

    def then(self, lines: Iterable[str]) -> bytes:
        """Returns the script with `lines` after it."""
        return self.text + "".join(f"{line}\n" for line in lines).encode()

    def tail(self, told: bytes) -> bytes:
        """Returns, of the report `told` of this script with lines after it, the report of these lines."""
        first = f"> {len(self.lines) + 1} ".encode()
        begin = 0 if told.startswith(first) else told.find(b"\n" + first) + 1 or len(told)
        return b"> 0 rp 2\n" * self.is_marked + told[begin:]

    def answers(self, lines: Iterable[str], program: str) -> Iterator[report.Answer]:
        """Yields what the store `program` answers to `lines` after the script, without proof lines."""
        return report.read(io.BytesIO(self.tail(store.run(program, self.then(lines), "run", "brief"))))

    def live(self, program: str) -> list[report.Lot]:
        """Returns the live lots of all layers, in the order in which they came."""
        [answer] = self.answers(["list"], program)
        return [lot for lot in answer.verdict if lot.ended is None]


def front(text: bytes, line: Optional[int]) -> bytes:
    """Returns a script up to and including a `line`, or all of a `text` without a line number."""
    return text if line is None else needed_script(text, "--asof").front(line).text


def script_of(text: bytes) -> Script:
    """Returns the script that a `text` is, its last line ended."""
    return Script(text if text.endswith(b"\n") or not text else text + b"\n")


def needed_script(text: bytes, what: str) -> Script:
    """Returns the script that a `text` is, for a word or an option `what` that adds lines to it.

    # Errors
    `Fault` if the text is a report.
    """
    if store.is_report(text):
        raise Fault(f"{what} needs a script, and this is a report: name the script that was run. Nothing was written.", 2)
    return script_of(text)
