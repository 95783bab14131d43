"""The library for C, Rust and Python, its package for Python, and its walks at the level of C."""
import ctypes as c
import functools
import importlib.util
import os
import pathlib
import sys

from tests.programs import TOP, run, shared_folder

BINDINGS = TOP / "bindings"


@functools.cache
def built_library():
    """Builds the library over the proved crates. Returns its folder, the status and the messages."""
    status, _, errors = run([BINDINGS / "build", shared_folder() / "bindings"])
    return shared_folder() / "bindings", status, errors


def library():
    """The folder with the library. GOBLIN_PE_LIB names it; otherwise it is built over the proved crates."""
    if "GOBLIN_PE_LIB" in os.environ:
        return pathlib.Path(os.environ["GOBLIN_PE_LIB"]).resolve()
    made, status, errors = built_library()
    if status:
        raise AssertionError(f"bindings/build: {errors.decode()}")
    return made


@functools.cache
def package():
    """The package for Python."""
    os.environ["GOBLIN_PE_SO"] = str(library() / "libgoblin_pe.so")
    place = BINDINGS / "python/goblin_pe"
    spec = importlib.util.spec_from_file_location("goblin_pe_of_bindings", place / "__init__.py", submodule_search_locations=[str(place)])
    module = importlib.util.module_from_spec(spec)
    sys.modules[spec.name] = module
    spec.loader.exec_module(module)
    return module


def records():
    """The records of C."""
    package()
    return sys.modules["goblin_pe_of_bindings._records"]


def calls():
    """The calls of C."""
    package()
    return sys.modules["goblin_pe_of_bindings._library"].LIB


def value(it):
    """What is in a record, with the bytes that a slice leads to."""
    if isinstance(it, c.Array):
        return tuple(map(value, it))
    if not isinstance(it, c.Structure):
        return it
    if type(it).__name__ == "Slice":
        return c.string_at(it.bytes, it.length)
    return tuple(value(getattr(it, name)) for name, _ in it._fields_)


# The walks over an image, by the word in the names of their calls: the record of a row, and the record of the cursor.
WALKS = {"sections": ("Section", "SectionCursor"), "rich_entries": ("RichEntry", "RichCursor"), "imports": ("Import", "ImportCursor"),
         "libraries": ("Library", "ImportCursor"), "exports": ("Export", "ExportCursor"),
         "export_addresses": ("ExportAddress", "ExportAddressCursor"),
         "relocation_blocks": ("RelocationBlock", "RelocationBlockCursor"), "symbols": ("Symbol", "SymbolCursor")}
COUNTED = ("imports", "libraries", "exports")
# The walks over a table of a row, from the cursor that the row holds.
OF_ROWS = {"base_relocations": ("BaseRelocation", "BaseRelocationCursor"), "coff_relocations": ("CoffRelocation", "CoffRelocationCursor")}


class Walk:
    """A walk over a table of an image, by calls of C."""

    def __init__(self, image, word, cursor=None):
        row, kind = {**WALKS, **OF_ROWS}[word]
        self.image, self.row, self.word = image, getattr(records(), row), word
        self.cursor = cursor or getattr(records(), kind)()
        self.batch, self.rows = records().Batch(), []
        self.counts = 0, 0

    def call(self, room, steps=None):
        """Makes one call and returns its fault. `steps` is passed by reference. The rows that the call gives are kept, and the sums of
        what it skips and what is unmapped."""
        rows = (self.row * max(room, 1))()
        counted = [steps and c.byref(steps)] if self.word in COUNTED else []
        fault = getattr(calls(), f"goblin_pe_next_{self.word}")(
            c.byref(self.image), c.byref(self.cursor), rows, room, *counted, c.byref(self.batch))
        self.rows += map(value, rows[: self.batch.count])
        self.counts = self.counts[0] + self.batch.skipped, self.counts[1] + self.batch.unmapped
        return fault

    def walk(self, room, most=1 << 20):
        """All rows, and why they end: the status and the cause."""
        for _ in range(most):
            fault = self.call(room)
            if self.batch.is_done:
                return self.rows, (fault.status, fault.cause)
        raise AssertionError(f"{self.word} have no end")


def options(permissive=False, longest=0, mapping=0):
    return records().Options(mapping=mapping, longest_name=longest, is_permissive=permissive)


def image_of(data, how=None, call="read_image"):
    """The image that a call reads from bytes, and the fault. The image keeps the bytes."""
    image = records().Image()
    also = {"read_image": [None], "read_with_faults": [records().HeaderFaults()], "read_te": [records().TeHeader()]}.get(call, [])
    buffer = c.create_string_buffer(bytes(data), len(data) or 1)
    image.kept = buffer
    fault = getattr(calls(), f"goblin_pe_{call.replace('with_faults', 'image')}")(
        buffer, len(data), c.byref(how or options()), c.byref(image), *(it and c.byref(it) for it in also))
    return image, fault


def error_of(error):
    """An error in the form of the tables: the names of its kind and cause, and its two numbers. None stays None."""
    return error and (error.kind.name, error.cause and error.cause.name, *error.numbers)


def refusal(call, *arguments):
    """The error that a call of the package raises, or None."""
    try:
        call(*arguments)
    except package().PeError as error:
        return error_of(error)
    return None


def test(fault):
    """Raises the error of a call of C."""
    sys.modules["goblin_pe_of_bindings._errors"].test(fault, None)
