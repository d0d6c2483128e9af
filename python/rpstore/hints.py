"""What the writer of a line may have meant by the word that does not fit."""
import difflib
import re
from decimal import Decimal
from typing import Callable, Iterable, Optional

from .command import A_COMMAND, AN_EXPRESSION, COMMANDS, CORNERS, EQUALS, NAME, NODES, THE_END, Refusal, spelled

NUMBER = re.compile(r"[+-]?(?:[0-9]{1,18}\.?[0-9]{0,9}|\.[0-9]{1,9})")
BRACKETS = re.compile(r"[()\[\]{}]")
OTHER_NOTES = ("//", "--", ";", "%", "/*", "'")
# What tells of a word to which kind of thing it is known: `name` or `lot`, or None.
Known = Callable[[str], Optional[str]]


def of_bytes(fault: Refusal) -> str:
    """Returns what is in a word that an editor does not show."""
    word = fault.word or ""
    if word == "":
        place = "at the beginning" if not fault.place else "at the end" if fault.place == len(fault.words) - 1 else "too many"
        return f"there is a space {place}: words have exactly one space between them"
    if word.startswith("\ufeff"):
        return "a byte order mark stands before it: save the file as UTF-8 without one"
    if "\0" in word:
        return "the file is in UTF-16: save it as UTF-8"
    if "\t" in word:
        return "a tab is no space: words have exactly one space between them"
    if re.search(r"[\u00a0\u2000-\u200b\u202f\u3000]", word):
        return "a space of another kind stands in it: words have exactly one plain space between them"
    if "\r" in word:
        return "a carriage return stands in it: a line ends with LF, or with CR LF"
    return ""


def nearest(word: str, words: Iterable[str]) -> str:
    """Returns the word of the language that was meant, by its small letters or by most of its letters."""
    words = [*words]
    found = [word.lower()] if word.lower() in words else difflib.get_close_matches(word.lower(), words, 1)
    return f"`{found[0]}` may be meant" if found else ""


def meant(word: str, known: Iterable[str]) -> str:
    """Returns a question that names the nearest of the `known` words, to stand after a `word` that is none, or nothing."""
    found = difflib.get_close_matches(word, [*known], 1)
    return f"; did you mean {found[0]!a}?" if found else ""


def of_command(fault: Refusal) -> str:
    word = fault.word or ""
    if word == "rp":
        return "the mark `rp 2` stands alone in the first line, and nowhere else"
    if word.startswith(OTHER_NOTES):
        return "a note begins with #"
    if word in NODES:
        return "that begins an expression, before which a command stands, as `register ID`, `let X =` or `show`"
    return nearest(word, COMMANDS) or f"one of {', '.join(COMMANDS)}"


def of_count(fault: Refusal) -> str:
    """Returns a hint if a number follows the last corner of a prism."""
    before = fault.words[: fault.place]
    if "prism" in before and NUMBER.fullmatch(fault.word or ""):
        count = before[::-1].index("prism") - 3
        if count > 0 and before[-count - 1] == str(count // 2):
            return f"the prism before it has {count // 2} corners by its count"
    return ""


def of_expression(fault: Refusal, known: Known) -> str:
    word = fault.word or ""
    if BRACKETS.search(word):
        return "no brackets are needed: a word stands before what it joins"
    kind = known(word)
    if kind:
        return f"{word} is a {kind}: `{kind} {word}`"
    return of_count(fault) or nearest(word, NODES) or f"one of {', '.join(NODES)}; a name wants `name` before it, and the id of a lot `lot`"


def of_end(fault: Refusal) -> str:
    word = fault.word or ""
    if word in ("and", "or", "minus"):
        return f"`{word}` stands before the two expressions that it joins"
    if word in NODES:
        return "two expressions want `and`, `or` or `minus` before them"
    if word.startswith("#"):
        return "a note is a line of its own"
    if BRACKETS.search(word):
        return "no brackets are needed"
    return of_count(fault)


def of_label(fault: Refusal) -> str:
    """Returns what a name or an id has that none may have."""
    word = fault.word or ""
    if "=" in word:
        return "`=` is a word of its own"
    if BRACKETS.search(word):
        return "no brackets are needed"
    odd = "".join(dict.fromkeys(re.sub("[A-Za-z0-9_.-]", "", word)))
    if odd:
        return f"{odd} is none of the letters a to z and A to Z, the digits, _, . and -" + ("; `_` may stand for /" if odd == "/" else "")
    if not word[0].isalpha():
        return f"a letter begins it, as in n{word}" if word[0].isdigit() else "a letter begins it"
    return f"it has {len(word)} bytes, and may have 32"


def of_corner(fault: Refusal) -> str:
    """Returns a hint if a corner is missing: how many corners the count says."""
    number, count = re.findall("[0-9]+", fault.due.what)
    return f"the count says {count} corners, and {int(number) - 1} are there"


def of_number(fault: Refusal, version: int) -> str:
    word, due = fault.word or "", fault.due
    if "," in word:
        return "numbers have a space between them, and no comma" if word.endswith(",") else "a decimal has a point, and no comma"
    if not NUMBER.fullmatch(word):
        return of_corner(fault) if " of corner " in due.what else "a number may be missing before it" if NAME.fullmatch(word) else ""
    value = Decimal(word)
    if due.is_decimal(version):
        return f"it has three digits behind the point: {spelled(int(value * 1000))}" if value * 1000 % 1 == 0 else "it ends at the millimetre"
    if due.is_coordinate and "." in word and value * 1000 % 1 == 0:
        return f"a decimal wants a script that begins with the line `rp 2`; here it is {int(value * 1000)} units"
    return f"it is {int(value)}" if value % 1 == 0 else "it is a whole number"


def of_range(fault: Refusal) -> str:
    word, due = fault.word or "", fault.due
    if due is CORNERS:
        return "docs/plans.md tells how a ring of more corners is cut" if word[0] != "-" and len(word) > 2 else ""
    return "of map coordinates the local origin is to be taken away" if due.is_coordinate and "point" not in due.what else ""


def hint(fault: Refusal, version: int, known: Known) -> str:
    """Returns a hint to the first fault of a line of a version, or nothing."""
    word, due = fault.word, fault.due
    if fault.cause == "range":
        return of_range(fault)
    if fault.cause == "nodes":
        return "a part of it that has a name by `let` counts as one"
    if fault.cause == "zero":
        return ""
    if word is None:
        return of_corner(fault) if " of corner " in due.what else ""
    found = of_bytes(fault)
    if found:
        return found
    if due is A_COMMAND:
        return of_command(fault)
    if due is AN_EXPRESSION:
        return of_expression(fault, known)
    if due is THE_END:
        return of_end(fault)
    if due is EQUALS:
        return "`=` stands between a name and what it names" if "=" not in word else "`=` is a word of its own"
    return of_number(fault, version) if due.most is not None else of_label(fault)
