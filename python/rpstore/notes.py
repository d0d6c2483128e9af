"""The notes of a script: lines that begin with #, which the store does not answer."""
from typing import Collection

# How the note begins that has the attributes of a plan's feature, after the line of its lot.
ATTRIBUTES = b"# {"
# How the note of a deed begins, in a register as docs/register.md keeps one.
DAY = b"# day "


def is_note(line: bytes) -> bool:
    """Returns whether a line is a note that a person or `plan` wrote on the lines after it, and not one with attributes."""
    return line.startswith(b"#") and not line.startswith(ATTRIBUTES)


def is_head(line: bytes) -> bool:
    """Returns whether a line may be one of the head of a script, which ends before the first deed and the first command."""
    return is_note(line) and not line.startswith(DAY) or not line.strip()


def notes_on(lines: list[bytes], places: Collection[int]) -> set[int]:
    """Returns the places of the notes on the lines at some `places`: of each the nearest notes above it, however many lines of its
    deed are between, the nearest notes above it that have a day, and the attributes after it."""
    found: set[int] = set()
    nearest: list[int] = []
    dated: list[int] = []
    for place, line in enumerate(lines):
        if is_note(line):
            # Notes that follow each other are one list, also as the notes with the day.
            nearest = nearest if nearest[-1:] == [place - 1] else []
            nearest.append(place)
            dated = nearest if line.startswith(DAY) else dated
        elif place in places:
            found.update(nearest, dated)
        elif line.startswith(ATTRIBUTES) and place - 1 in places:
            found.add(place)
    return found
