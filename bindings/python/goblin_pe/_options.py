"""How a file is read, and how much work may be done for it."""
from __future__ import annotations

import contextlib
import ctypes as c
import dataclasses
import operator
import threading
from collections.abc import Iterator
from typing import Any

from . import _records
from ._number import Number


class Mapping(Number):
    """How addresses are mapped to file offsets, and where the raw data of a section begins. The first
    three agree inside sections whose raw pointer is a multiple of 512, as the specification asks
    for.

    AS_LOADED: as Windows maps. The raw pointer is rounded down to a multiple of 512 if the file
        alignment is at least 512. The headers are mapped at address 0.
    BY_FILE_ALIGNMENT: nearly as pefile maps. The raw pointer is rounded as by AS_LOADED. The headers
        are not mapped.
    AS_STORED: as goblin maps. The raw pointer is used as stored. The headers are not mapped. A
        section may reach up to 511 bytes too far if its raw pointer is not a multiple of 512.
    IDENTITY: an address is a file offset. This is for a dump of an image in memory.
    """

    AS_LOADED = 0
    BY_FILE_ALIGNMENT = 1
    AS_STORED = 2
    IDENTITY = 3


@dataclasses.dataclass(frozen=True)
class Options:
    """How a file is read. dataclasses.replace makes changed options. ValueError is raised if
    `longest_name` is not from 1 to 2**32 - 1 or None, and TypeError if it is no int.

    permissive: whether damaged parts are skipped. If not, they are refused.
    mapping: how addresses are mapped to file offsets.
    longest_name: how many bytes of a name are read at most; None is no limit. A longer name is cut
        between two characters, and its row says so. Different names can be cut to the same bytes, so
        don't compare or hash a name that is cut.
    """

    permissive: bool = False
    mapping: Mapping = Mapping.AS_LOADED
    longest_name: int | None = 4096

    def __init__(self, *, permissive: bool = False, mapping: Mapping = Mapping.AS_LOADED, longest_name: int | None = 4096) -> None:
        if isinstance(longest_name, bool):
            raise TypeError("longest_name has to be a number of bytes, not %r" % longest_name)
        if longest_name is not None and not 0 < operator.index(longest_name) < 1 << 32:
            raise ValueError("longest_name has to be from 1 to 2**32 - 1, not %r" % (longest_name,))
        for name, value in ("permissive", bool(permissive)), ("mapping", Mapping(mapping)), ("longest_name", longest_name):
            object.__setattr__(self, name, value)

    def _record(self) -> _records.Options:
        longest = (1 << 64) - 1 if self.longest_name is None else self.longest_name
        return _records.Options(mapping=self.mapping, is_permissive=self.permissive, longest_name=longest)


class Budget:
    """How many steps calls may still take. A step is one look at an entry of an import or export
    table, or at 64 entries of an address table of imports, or one row of another walk. A call that
    needs more steps raises OutOfSteps. A call without a budget has 1,000,000 steps, Pe ten million;
    Budget() has no limit. With names of 4,096 bytes, 100,000 steps take at most a quarter of a
    second if these are ASCII, 3 seconds if not.

    Walks read their rows in batches. So the budget may already have paid for rows that you do not
    have yet. Threads can share a budget; their calls then wait for one another.

    left: how many steps are left; None if there is no limit. If you set it after OutOfSteps, the walk
        can go on. ValueError is raised if it is not from 0 to 2**64 - 1, and TypeError if it is no int.
    """

    def __init__(self, steps: int | None = None) -> None:
        self._turn = threading.RLock()
        self.left = steps

    @property
    def left(self) -> int | None:
        return self._left

    @left.setter
    def left(self, steps: int | None) -> None:
        if steps is not None and not 0 <= operator.index(steps) < 1 << 64:
            raise ValueError("a budget has from 0 to 2**64 - 1 steps, not %r" % (steps,))
        self._left = None if steps is None else operator.index(steps)

    def __reduce__(self) -> tuple[Any, ...]:
        return type(self), (self.left,)

    def __repr__(self) -> str:
        return "Budget(%s)" % ("" if self.left is None else self.left)


@contextlib.contextmanager
def lent(budget: Budget) -> Iterator[Any]:
    """The steps of a budget, for a call that counts them down; None if there is no limit."""
    if budget.left is None:
        yield None
    else:
        with budget._turn:
            steps = c.c_size_t(budget.left)
            yield steps
            budget.left = steps.value
