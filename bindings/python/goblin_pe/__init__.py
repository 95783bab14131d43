"""Reads PE images, COFF objects and Terse Executables that you can't trust.

This program lists the imports of an untrusted image. It limits its work, its memory and the length
of each name, and it says what it could not read:

    from goblin_pe import Budget, Image, Options, PeError, printable

    budget = Budget(1_000_000)
    try:
        with Image.open("some.dll", Options(permissive=True, longest_name=512)) as image:
            imports = image.imports(budget)
            for it in imports:
                print(printable(it.dll), printable(it.name) if it.name else "#%d" % it.ordinal)
            for export in image.exports(budget):
                print("exports", printable(export.name or b""))
            print("begins with", image.memory_at(image.entry, 16).data.hex())
            if imports.skipped:
                print("skipped:", imports.skipped)
    except PeError as error:
        print("not read to its end:", error)

An Image is the header of a file. It reads a table when you walk over it, and keeps no row. A Pe is
an Image with a tuple of rows for each table. `python -m goblin_pe FILE..` lists files.

Rows are named tuples, and stay when the file is closed. Names are bytes, because they need not be
UTF-8. `printable` makes a text of a name that can't harm a terminal. A field or argument `rva` is
an address relative to the image base, and an `offset` is a place in the file. From the address 2**32
on nothing is mapped, and in objects and Terse Executables nothing at all. Sizes are in bytes.

A small file can list very much: 256 KiB can list 850 million imports. So calls whose work depends
on the tables have an argument `budget`, a Budget of steps, and raise OutOfSteps when it is used up.
A call without one has 1,000,000 steps; Budget() has no limit. Several calls can share one budget,
which then limits their sum. At most 4,096 bytes of a name are read, or as many as
Options(longest_name=..) says, and a row says whether a name of it is cut.

Strict mode, the default, refuses a damaged table. Permissive mode skips the damaged parts, and each
Walk counts what it has skipped. By default addresses are mapped as Windows maps them. Mapping
has the rules of goblin and pefile, too.

An argument `data` is bytes, a memoryview, an mmap or another buffer. If the buffer can be written,
its bytes are copied.
"""

from . import constants
from ._causes import Cause
from ._errors import ErrorKind, OutOfSteps, PeError, Table
from ._headers import (
    CoffHeader, DataDirectory, DirectoryType, DosHeader, OptionalHeader, StandardFields, TeHeader, WindowsFields)
from ._image import Image, Kind
from ._imphash import ordinal_name
from ._library import Data
from ._names import names_of, printable, relocation_name
from ._options import Budget, Mapping, Options
from ._pe import Pe, jsonable
from ._rows import (
    Auxiliary, AuxiliaryKind, BaseRelocation, CoffRelocation, Export, ExportAddress, ExportDirectory, Forwarder, Import,
    Library, Memory, Region, RelocationBlock, RichEntry, RichHeader, Section, Symbol)
from ._walk import Walk

__all__ = [
    "Auxiliary", "AuxiliaryKind", "BaseRelocation", "Budget", "Cause", "CoffHeader",
    "CoffRelocation", "Data", "DataDirectory", "DirectoryType", "DosHeader",
    "ErrorKind", "Export", "ExportAddress", "ExportDirectory", "Forwarder", "Image", "Import",
    "Kind", "Library", "Mapping", "Memory", "OptionalHeader", "Options", "OutOfSteps", "Pe",
    "PeError", "Region", "RelocationBlock", "RichEntry", "RichHeader", "Section",
    "StandardFields", "Symbol", "Table", "TeHeader", "Walk", "WindowsFields",
    "constants", "jsonable", "names_of", "ordinal_name", "printable", "relocation_name",
]
__version__ = "0.5.0"

# (help() then names this package, and shows types as they are written)
for _it in list(globals().values()):
    if getattr(_it, "__module__", "").startswith("goblin_pe._"):
        _it.__module__ = "goblin_pe"
    if hasattr(_it, "_fields"):
        _it.__annotations__.update({name: getattr(it, "__forward_arg__", it) for name, it in _it.__annotations__.items()})
del _it
