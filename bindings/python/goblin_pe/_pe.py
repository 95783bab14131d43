"""Images with all their rows, and values for JSON."""
from __future__ import annotations

import enum
import json
import os
import types
from collections.abc import Iterable, Mapping
from typing import Any, Union

from ._errors import OutOfSteps, PeError
from ._image import Image
from ._library import Data
from ._names import printable
from ._options import Budget, Options
from ._rows import Export, ExportAddress, ExportDirectory, Import, RelocationBlock, RichEntry, Section

_Path = Union[str, "os.PathLike[str]"]
# How many steps the tables of an image may take, if a caller names no budget.
_STEPS = 10_000_000


def jsonable(value: Any) -> Any:
    """The same value for `json.dumps`. A row, a header or an error becomes a dictionary of its
    fields, and a number with a name that name. Bytes become a text as by `printable`, so different
    names stay different."""
    if isinstance(value, (bytes, memoryview)):
        return printable(bytes(value))
    if isinstance(value, enum.Enum):
        return value.name
    if isinstance(value, PeError):
        return {"text": value.args[0], "kind": value.kind.name, "cause": jsonable(value.cause), "table": jsonable(value.table)}
    if isinstance(value, Mapping):
        return {name: jsonable(it) for name, it in value.items()}
    if hasattr(value, "_fields"):
        return {name: jsonable(it) for name, it in zip(value._fields, value)}
    return [jsonable(it) for it in value] if isinstance(value, (tuple, list)) else value


class Pe:
    """An image and the rows of all its tables, as tuples: what the walks of an Image give. It reads
    everything at once. A budget limits how many rows that are, and `longest_name` how long their
    names are. Without a budget it has ten million steps. The tuples stay when the file is closed.

    image: the image itself, with the headers and the look-ups.
    sections, rich_entries, imports, exports, export_addresses, relocation_blocks: the rows.
    export_directory: the export directory, or None.
    errors: why tuples end early. Each error has its `table`. In permissive mode, these are all errors
        at which a walk ended. In strict mode, they are only bytes that are no entry of the Rich
        header, and bytes that are no block of base relocations; other errors are raised.
    skipped, unmapped: the numbers of each Walk, by the name of its tuple.
    """

    image: Image
    sections: tuple[Section, ...]
    rich_entries: tuple[RichEntry, ...]
    imports: tuple[Import, ...]
    export_directory: ExportDirectory | None
    exports: tuple[Export, ...]
    export_addresses: tuple[ExportAddress, ...]
    relocation_blocks: tuple[RelocationBlock, ...]
    errors: tuple[PeError, ...]
    skipped: dict[str, int]
    unmapped: dict[str, int]

    def __init__(self, data: Data, options: Options = Options(), budget: Budget | None = None) -> None:
        """Reads an image and all its tables. PeError is raised as by Image, and in strict mode for the
        first table that is refused. OutOfSteps is raised in both modes; to keep the rows before it,
        walk over an Image."""
        self._list(Image(data, options), budget)

    @classmethod
    def open(cls, path: _Path, options: Options = Options(), budget: Budget | None = None) -> Pe:
        """Reads a whole file, and all tables of the image. OSError is raised if the file can't be
        read."""
        return cls.of(Image.open(path, options), budget)

    @classmethod
    def of(cls, image: Image, budget: Budget | None = None) -> Pe:
        """Reads all tables of an image, such as one of Image.partial."""
        pe = cls.__new__(cls)
        pe._list(image, budget)
        return pe

    def _list(self, image: Image, budget: Budget | None) -> None:
        errors: list[PeError] = []

        def listed(rows: Iterable[Any], ends_early: bool = False) -> tuple[Any, ...]:
            # all rows, up to an error that does not refuse the table
            found: list[Any] = []
            try:
                found.extend(rows)
            except OutOfSteps:
                raise
            except PeError as error:
                if not (ends_early or image.options.permissive):
                    raise
                errors.append(error.with_traceback(None))
            return tuple(found)

        budget = Budget(_STEPS) if budget is None else budget
        if image._sections is None:
            image._sections = tuple(image.section_headers(budget))
        self.image, self.sections = image, image.sections
        walks = {it: getattr(image, it)(budget) for it in ("rich_entries", "imports", "exports", "export_addresses", "relocation_blocks")}
        self.rich_entries = listed(walks["rich_entries"], True)
        self.imports = listed(walks["imports"])
        self.export_directory = next(iter(listed(image.export_directory() for _ in range(1))), None)
        self.exports = listed(walks["exports"])
        self.export_addresses = listed(walks["export_addresses"])
        if not image.options.permissive:
            image._test_blocks()
        self.relocation_blocks = listed(walks["relocation_blocks"], True)
        self.errors = tuple(errors)
        self.skipped, self.unmapped = ({name: getattr(it, number) for name, it in walks.items()} for number in ("skipped", "unmapped"))

    @property
    def name(self) -> bytes | None:
        """The name of the image as a DLL, from its export directory; None if it has none."""
        return self.export_directory.name if self.export_directory else None

    @property
    def libraries(self) -> tuple[bytes, ...]:
        """The names of the DLLs that it imports from, sorted, without repetition."""
        return tuple(sorted({it.dll for it in self.imports}))

    def to_json(self) -> str:
        """All headers and rows as JSON. `jsonable` says how each value is written."""
        image = self.image
        headers = ("dos_header", "coff_header", "optional_header", "rich_header", "directories")
        lists = ("sections", "rich_entries", "imports", "export_directory", "exports", "export_addresses", "relocation_blocks", "errors",
                 "skipped", "unmapped")
        values = {**{it: getattr(image, it) for it in headers}, **{it: getattr(self, it) for it in lists}}
        return json.dumps(jsonable(values))

    def __enter__(self) -> Pe:
        return self

    def __exit__(
        self,
        kind: type[BaseException] | None,
        error: BaseException | None,
        trace: types.TracebackType | None,
    ) -> None:
        self.image.close()
