"""Errors."""
from __future__ import annotations

import ctypes as c
import enum
from typing import Any

from ._causes import Cause
from ._library import LIB
from ._records import Fault


class ErrorKind(enum.Enum):
    """What kind of error a PeError is.

    MALFORMED: the bytes violate the format. `cause` says how.
    BAD_MAGIC: the magic of the optional header is neither PE32 nor PE32+.
    TOO_SHORT: the file is too short for the entries that it counts.
    BAD_OFFSET: an offset is at or past the end of the file.
    TOO_BIG: fewer bytes follow an offset than were needed.
    NOT_UTF8: the bytes at an offset are not UTF-8.
    STEPS: the budget is used up.
    KIND: the call is for images, and this is an object or a Terse Executable.
    PLACE: the file has no place for a changed header or section.
    UNKNOWN: this version has no name for the kind.
    """

    MALFORMED = 1
    BAD_MAGIC = 2
    TOO_SHORT = 3
    BAD_OFFSET = 4
    TOO_BIG = 5
    NOT_UTF8 = 6
    STEPS = 7
    KIND = 8
    PLACE = 9
    UNKNOWN = 10


class Table(enum.Enum):
    """A part of a file that an error is about.

    HEADER: the header, with the section table and the section names.
    RICH_HEADER: the Rich header.
    IMPORTS: the imports and the libraries.
    EXPORTS: the exports, with names and without.
    RELOCATIONS: the base relocations.
    SYMBOLS: the symbols, or the relocations of an object.
    """

    HEADER = "header"
    RICH_HEADER = "Rich header"
    IMPORTS = "imports"
    EXPORTS = "exports"
    RELOCATIONS = "relocations"
    SYMBOLS = "symbols"


class PeError(ValueError):
    """A file, a table or a part of one can't be read. `str(error)` is the table, a colon, and what
    is wrong; `error.args[0]` is what is wrong alone. Errors of the same kind, cause and numbers are
    equal.

    kind: what kind of error it is.
    cause: how the file is malformed; None for other kinds.
    numbers: the two numbers of the error, such as an offset and a size; 0 for each that the kind
        lacks.
    table: the part of the file that could not be read; None if a look-up raises the error.
    """

    kind: ErrorKind
    cause: Cause | None
    numbers: tuple[int, int]
    table: Table | None

    def __init__(self, text: str, kind: ErrorKind, cause: Cause | None = None, numbers: tuple[int, int] = (0, 0),
                 table: Table | None = None) -> None:
        super().__init__(text)
        self.kind, self.cause, self.numbers, self.table = kind, cause, numbers, table

    def __str__(self) -> str:
        return "%s: %s" % (self.table.value, self.args[0]) if self.table else str(self.args[0])

    def __eq__(self, other: object) -> bool:
        if not isinstance(other, PeError):
            return NotImplemented
        return (self.kind, self.cause, self.numbers) == (other.kind, other.cause, other.numbers)

    def __hash__(self) -> int:
        return hash((self.kind, self.cause, self.numbers))

    def __reduce__(self) -> tuple[Any, ...]:
        return type(self), (self.args[0], self.kind, self.cause, self.numbers, self.table), self.__dict__


class OutOfSteps(PeError):
    """The budget is used up, and the call is not done. What comes next in the file is unknown."""


# The kind for each status of the library, and for each cause of a failed read.
_KINDS = {1: ErrorKind.MALFORMED, 2: ErrorKind.BAD_MAGIC, 3: ErrorKind.TOO_SHORT, 7: ErrorKind.STEPS, 8: ErrorKind.KIND}
_READS = {1: ErrorKind.BAD_OFFSET, 2: ErrorKind.TOO_BIG, 3: ErrorKind.NOT_UTF8}


def text_of(fault: Fault) -> str:
    """The text of a fault."""
    text = c.create_string_buffer(256)
    LIB.goblin_pe_fault_string(c.byref(fault), text)
    return text.value.decode()


def error_of(fault: Fault, table: Table | None) -> PeError | None:
    """The error that a fault says; None if it is none."""
    if not fault.status:
        return None
    kind = _READS.get(fault.cause) if fault.status == 4 else _KINDS.get(fault.status)
    cause = Cause(fault.cause) if kind is ErrorKind.MALFORMED and fault.cause in list(Cause) else None
    raised = OutOfSteps if kind is ErrorKind.STEPS else PeError
    return raised(text_of(fault), kind or ErrorKind.UNKNOWN, cause, (fault.first, fault.second), table)


def test(fault: Fault, table: Table | None) -> None:
    """Raises the error of a call, if it has failed."""
    if fault.status:
        raise error_of(fault, table) or ValueError  # (no name holds the error: it would keep its frames, and so the file)


def steps_error(table: Table) -> OutOfSteps:
    """The error of a walk whose budget is used up."""
    return OutOfSteps(text_of(Fault(7)), ErrorKind.STEPS, None, (0, 0), table)


def no_place(why: str) -> PeError:
    """The error of a change that the file has no place for."""
    return PeError("the file has no place: " + why, ErrorKind.PLACE)
