"""A book, the SQLite file in which `rpstore-book` keeps a script: its script, the last line that was added on a date, and the days of its acts."""
from __future__ import annotations

import os
import re
import shutil
import sqlite3
import subprocess
from contextlib import closing
from tempfile import TemporaryDirectory

from . import Fault

MAGIC = b"SQLite format 3\0"
DATE = re.compile(r"[0-9]{4}-[0-9]{2}-[0-9]{2}")


def is_book(text: bytes) -> bool:
    """Returns whether a `text` is an SQLite database, as a book is."""
    return text.startswith(MAGIC)


def program(store: str) -> str:
    """Returns the command that keeps books: as RPSTORE_BOOK names it, or the command next to the `store`."""
    return os.environ.get("RPSTORE_BOOK") or f"{store}-book"


def asked(path: str, store: str, *words: str) -> bytes:
    """Returns what `rpstore-book` writes for `words` of the book at `path`.

    # Errors
    `Fault` if it cannot be run, or ends with a status other than 0; its own words are told.
    """
    command = program(store)
    try:
        done = subprocess.run([command, path, *words], stdin=subprocess.DEVNULL, capture_output=True)
    except OSError as error:
        raise Fault(f"{path} is a book, and {command}, which reads books, cannot be run: {error.strerror}", 5, "name it by RPSTORE_BOOK")
    if done.returncode:
        said = done.stderr.decode(errors="replace").strip().splitlines() or [f"status {done.returncode}"]
        raise Fault(f"the book {path} was not read, and nothing was written: {said[-1]}", 3)
    return done.stdout


def script(path: str, store: str) -> bytes:
    """Returns the script of the book at `path`."""
    return asked(path, store, "script")


def last_line(path: str, date: str, store: str) -> int:
    """Returns the number of the last line that was added to the book at `path` on a `date` or before, 0 if none was."""
    return int(asked(path, store, "line", date))


def days(path: str) -> list[tuple[int, str]]:
    """Returns for each act of the book at `path` the line before its first one, and the day on which it was added, in UTC. A copy of the book
    and its log is read, since SQLite leaves files next to what it reads.

    # Errors
    `Fault` if the book cannot be copied or read, as one that another process writes.
    """
    try:
        with TemporaryDirectory() as room:
            for each in filter(os.path.exists, (path, f"{path}-wal")):
                shutil.copyfile(each, os.path.join(room, f"book{each[len(path):]}"))
            with closing(sqlite3.connect(os.path.join(room, "book"))) as database:
                return [(first - 1, added[:10]) for first, added in database.execute("SELECT first, added FROM entry ORDER BY number")]
    except (OSError, sqlite3.Error) as error:
        raise Fault(f"the days of the book {path} were not read: {error}", 3, "copy the book and its log (FILE-wal), and name the copy")
