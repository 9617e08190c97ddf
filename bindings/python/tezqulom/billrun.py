"""The bill run: one filter about many records."""

import contextlib
import json
import os
import sqlite3
import sys
import time
import urllib.parse
from typing import Any, Callable, Dict, Iterator, List, NamedTuple, TextIO, Tuple, Union

from .engine import Answer, Octets, Refused, counted
from .inputs import NO_INPUT, USAGE, WRITE_ERROR, Inputs, Stop, no_file, recognised
from .values import printable

Record = Union[bytes, Stop, None, int, float]
_STEP = 500
_PAUSE = 0.2


class Tally(NamedTuple):
    """How many records had each answer."""

    true: int
    false: int
    undefined: int
    refused: int
    unread: int

    def __str__(self) -> str:
        return "%s: %d TRUE, %d FALSE, %d UNDEFINED, %d refused%s" % (
            counted(sum(self), "record"), self.true, self.false, self.undefined, self.refused, ", %d not read" % self.unread if self.unread else "")

    def status(self) -> int:
        """The exit status: what needs attention first."""
        return NO_INPUT if self.unread else 3 if self.refused else 2 if self.undefined else 0


def from_files(inputs: Inputs, paths: List[str]) -> Iterator[Tuple[str, Record]]:
    """The records of files, by their paths."""
    for path in paths:
        try:
            yield path, inputs.octets(path).octets
        except Stop as stop:
            if stop.status == USAGE:
                raise
            yield path, stop


def from_sqlite(path: str, query: str) -> Iterator[Tuple[Any, Record]]:
    """The ids and records that a query gives. The database is only read."""
    try:
        with open(path, "rb"):
            pass
    except OSError as error:
        no_file(path, error)
    database = sqlite3.connect("file:%s?mode=ro" % urllib.parse.quote(os.path.abspath(path)), uri=True)
    database.text_factory = bytes
    try:
        yield from _rows(database, path, query)
    except sqlite3.Error as error:
        raise Stop(NO_INPUT, "%s: %s" % (path, error)) from None
    finally:
        database.close()


def _rows(database: sqlite3.Connection, path: str, query: str) -> Iterator[Tuple[Any, Record]]:
    """A query's rows of two columns."""
    try:
        cursor = database.execute(query)
    except (sqlite3.OperationalError, sqlite3.ProgrammingError, sqlite3.Warning) as error:
        raise Stop(USAGE, "%s: %s" % (path, error)) from None
    if cursor.description is None or len(cursor.description) != 2:
        raise Stop(USAGE, "%s: the query is to give two columns, the id and the record" % path)
    return iter(cursor)


def shown(identity: Any) -> str:
    """An id in one line."""
    if isinstance(identity, bytes):
        identity = identity.decode("utf-8", "backslashreplace")
    return printable(str(identity)) if isinstance(identity, str) else str(identity)


class Lines:
    """A file of lines; a write error names it."""

    def __init__(self, path: str) -> None:
        self.path = path
        with self.named_errors():
            self.file = open(path, "w", encoding="utf-8", errors="backslashreplace")

    @contextlib.contextmanager
    def named_errors(self) -> Iterator[None]:
        try:
            yield
        except OSError as error:
            raise Stop(WRITE_ERROR, "%s: %s" % (self.path, (error.strerror or str(error)).lower())) from None

    def write(self, text: str) -> object:
        """Write a line."""
        with self.named_errors():
            return self.file.write(text)

    def __enter__(self) -> "Lines":
        return self

    def __exit__(self, *_: object) -> None:
        with self.named_errors():
            self.file.close()


Output = Union[Lines, TextIO]


class Run:
    """Asks the records one after another, and writes where each one belongs."""

    def __init__(self, ask: Callable[[Octets], Answer], out: Output, undefined: Output, refused: Output, as_json: bool) -> None:
        self.ask, self.as_json = ask, as_json
        self.files: Dict[str, Output] = {"TRUE": out, "UNDEFINED": undefined, "REFUSED": refused, "UNREAD": refused}
        self.counts = dict.fromkeys(("TRUE", "FALSE", "UNDEFINED", "REFUSED", "UNREAD"), 0)

    def one(self, identity: Any, record: Record) -> None:
        """One record. Whatever is wrong with it, it is refused and never FALSE."""
        answer, detail = self.answered(record)
        self.counts[answer] += 1
        if answer != "FALSE":
            self.write(self.files[answer], shown(identity), answer, detail)

    def answered(self, record: Record) -> Tuple[str, Any]:
        """The answer about a record: a truth with its tests, or why there is none."""
        if isinstance(record, Stop):
            return "UNREAD", str(record)
        if not isinstance(record, bytes):
            return "REFUSED", "no octets: %s" % ("NULL" if record is None else type(record).__name__)
        try:
            truth, tests = self.ask(recognised(record))
        except Refused as refused:
            return "REFUSED", str(refused)
        except ValueError as error:
            return "REFUSED", str(error)
        return truth.name, tests

    def write(self, file: Output, identity: str, answer: str, detail: Any) -> None:
        """A line about a record."""
        if self.as_json:
            key = "tests" if isinstance(detail, int) else "why"
            file.write(json.dumps({"id": identity, "answer": answer, key: detail}) + "\n")
        else:
            file.write("%s\t%s\n" % (identity, detail) if isinstance(detail, str) else identity + "\n")

    def all(self, records: Iterator[Tuple[Any, Record]]) -> Tally:
        """All records; on a terminal with their number so far."""
        terminal, shown_at = sys.stderr is not None and sys.stderr.isatty(), time.monotonic()
        for number, (identity, record) in enumerate(records):
            self.one(identity, record)
            if terminal and number % _STEP == 0 and time.monotonic() - shown_at > _PAUSE:
                shown_at = time.monotonic()
                sys.stderr.write("\r%d records" % number)
        if terminal:
            sys.stderr.write("\r\x1b[K")
        return Tally(*self.counts.values())
