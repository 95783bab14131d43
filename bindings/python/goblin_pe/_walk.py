"""Walks over tables."""
from __future__ import annotations

import ctypes as c
from typing import TYPE_CHECKING, Any, Callable, Generic, Iterator, NamedTuple, TypeVar

from . import _records
from ._errors import Table, steps_error, test
from ._options import Budget, lent

if TYPE_CHECKING:
    from ._image import Image

_Row = TypeVar("_Row", covariant=True)

# How many rows are read at once: at first, and later. How many steps a walk has if a caller names no budget.
_FIRST, _ROOM, _STEPS = 32, 256, 1_000_000


class Texts:
    """The texts of an image for a batch of rows. A slice that several rows have becomes one object."""

    def __init__(self, image: Image) -> None:
        self.image = image
        self._found: dict[tuple[int, int], bytes] = {}

    def __call__(self, it: Any) -> bytes:
        place = it.bytes, it.length
        if place not in self._found:
            self._found[place] = c.string_at(*place)
        return self._found[place]


class Kind(NamedTuple):
    """A kind of walk: the call, its record and cursor, the table that its errors name, and what makes a row of a record. If the call
    does not count steps, each row is a step."""

    call: Any
    record: Any
    cursor: Any
    table: Table
    row: Callable[[Any, Texts], Any]
    counts_steps: bool = False


class Walk(Generic[_Row]):
    """An iterator over the rows of a table. It reads the file as it goes on, and keeps no row. If a
    row can't be read, it gives the rows before, raises PeError, and ends. After OutOfSteps it is not
    over: it goes on as soon as its budget has more steps. Images, sections and libraries make walks.

    skipped: how many entries permissive mode skipped in what the walk has read so far, where strict
        mode has an error; a table that is skipped as a whole counts one.
    unmapped: how many entries led nowhere in what it has read so far; neither mode gives a row.
    """

    skipped: int
    unmapped: int

    def __init__(self, image: Image, kind: Kind, cursor: Any = None, budget: Budget | None = None) -> None:
        budget = Budget(_STEPS) if budget is None else budget
        if not isinstance(budget, Budget):
            raise TypeError("a Budget is wanted, not %r" % (budget,))
        self._image, self._kind, self._budget = image, kind, budget
        self._cursor = kind.cursor() if cursor is None else cursor
        self._rows: Iterator[Any] = iter(())
        self._room, self._is_over = _FIRST, False
        self.skipped = self.unmapped = 0

    def __iter__(self) -> Walk[_Row]:
        return self

    def __next__(self) -> _Row:
        for row in self._rows:
            return row  # type: ignore[no-any-return]
        while not self._is_over:
            self._rows = iter(self._batch())
            for row in self._rows:
                return row  # type: ignore[no-any-return]
        raise StopIteration

    def _batch(self) -> list[Any]:
        # the next rows
        kind, cursor = self._kind, self._kind.cursor.from_buffer_copy(self._cursor)  # (another thread may go on with the walk meanwhile)
        with lent(self._budget) as steps, self._image._held() as image:
            room = self._room if kind.counts_steps or steps is None else min(self._room, steps.value)
            if not room:
                raise steps_error(kind.table)
            records, batch = (kind.record * room)(), _records.Batch()
            fault = kind.call(image, c.byref(cursor), records, room, *([steps] if kind.counts_steps else []), c.byref(batch))
            if fault.status:
                self._is_over = fault.status != 7  # (with more steps it goes on)
                test(fault, kind.table)
            row, text = kind.row, Texts(self._image)
            rows = [row(it, text) for it in records[: batch.count]]
            if steps is not None and not kind.counts_steps:
                steps.value -= batch.count
        self._cursor, self._room, self._is_over = cursor, _ROOM, batch.is_done
        self.skipped, self.unmapped = self.skipped + batch.skipped, self.unmapped + batch.unmapped
        return rows
