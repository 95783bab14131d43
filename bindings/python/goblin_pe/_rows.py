"""The rows of tables, as named tuples, which stay when the file is closed."""
from __future__ import annotations

import ctypes as c
import hashlib
import operator
import struct
from typing import TYPE_CHECKING, Any, Callable, Iterator, NamedTuple, TypeVar

from . import _records
from ._errors import PeError, Table, error_of, test
from ._library import LIB
from ._number import Number
from ._walk import Kind, Texts, Walk
from .constants import IMAGE_SCN_LNK_NRELOC_OVFL, SIZEOF_SECTION_TABLE

if TYPE_CHECKING:
    from ._image import Image
    from ._options import Budget


def in_range(number: int) -> int:
    """The number, if it fits 64 bits. If not, OverflowError is raised."""
    if not 0 <= number < 1 << 64:
        raise OverflowError("a number from 0 to 2**64 - 1 is wanted, not %d" % number)
    return number


_Row = TypeVar("_Row", bound=type)


def _sorted_with_none(row: _Row) -> _Row:
    # A row whose fields may be None can be sorted: None comes first. Errors are sorted by their text.
    def key(it: Any) -> Any:
        return tuple((field is not None, str(field) if isinstance(field, PeError) else field) for field in it)

    for compare in operator.lt, operator.le, operator.gt, operator.ge:
        setattr(row, "__%s__" % compare.__name__, lambda one, other, compare=compare: (
            compare(key(one), key(other)) if isinstance(other, tuple) else NotImplemented))
    return row


class Region(Number):
    """Where a byte of an image in memory comes from.

    UNMAPPED: from nowhere, because the loader maps nothing there.
    HEADERS: from the headers.
    RAW_DATA: from the raw data of a section.
    ZEROS: it is one of the zeros after the raw data of a section.
    """

    UNMAPPED = 0
    HEADERS = 1
    RAW_DATA = 2
    ZEROS = 3


class Memory(NamedTuple):
    """Bytes that a loader puts into memory: first `data`, then `zeros` zeros. You asked for `missing`
    more, and nobody knows these. `section` is the index of the section, or None outside of all.
    `region` says where the first byte comes from. `bytes(memory)` is the data and the zeros."""

    data: memoryview
    zeros: int
    missing: int
    section: int | None
    region: Region

    def whole(self) -> memoryview | None:
        """`data` if it is all that you asked for; None if zeros follow, or if bytes are missing."""
        return None if self.zeros or self.missing else self.data

    def __bytes__(self) -> bytes:
        return bytes(self.data) + bytes(self.zeros)


class Section(NamedTuple):
    """A section header. If the stored name is a slash and a number, the name comes from the string
    table. Else it is the stored bytes before the first NUL. `is_name_cut` says whether `longest_name`
    cuts it. In a Terse Executable, the address and the pointers are already moved to where they are
    in the file."""

    name: bytes
    stored_name: bytes
    index: int  # type: ignore[assignment]
    virtual_size: int
    virtual_address: int
    size_of_raw_data: int
    pointer_to_raw_data: int
    pointer_to_relocations: int
    pointer_to_linenumbers: int
    number_of_relocations: int
    number_of_linenumbers: int
    characteristics: int
    is_name_cut: bool

    def data(self, image: Image) -> Memory:
        """The contents of the section: its raw data, and the zeros up to the virtual size."""
        return image._memory(LIB.goblin_pe_section_data, c.byref(_section_record(self)))

    def relocations(self, image: Image, budget: Budget | None = None) -> Walk[CoffRelocation]:
        """The relocations of a section of an object, also if there are more than 65,535."""
        return Walk(image, COFF_RELOCATIONS, _section_record(self).relocations, budget)

    def to_bytes(self) -> bytes:
        """The 40 bytes of the section header, with the stored name."""
        out, written = c.create_string_buffer(SIZEOF_SECTION_TABLE), c.c_size_t()
        test(LIB.goblin_pe_write_section(c.byref(_section_record(self)), out, len(out), c.byref(written)), None)
        return out.raw


class RichHeader(NamedTuple):
    """The Rich header, which names the tools that made the image. `stored` has its bytes from the
    marker DanS to the marker Rich, encrypted with the key."""

    stored: bytes
    key: int
    start_offset: int
    end_offset: int
    padding_size: int

    def hash(self) -> str:
        """The MD5 that analysts compare, in hexadecimal, as pefile's get_rich_header_hash."""
        size = len(self.stored)
        keys = self.key.to_bytes(4, "little") * (size // 4 + 1)
        cleared = int.from_bytes(self.stored, "little") ^ int.from_bytes(keys[:size], "little")
        return hashlib.md5(cleared.to_bytes(size, "little"), usedforsecurity=False).hexdigest()


class RichEntry(NamedTuple):
    """A tool, and how many object files of the image it made."""

    build: int
    product: int
    use_count: int


@_sorted_with_none
class Import(NamedTuple):
    """An import. An import by name has a `name` and a `hint`; an import by ordinal has an `ordinal`.
    The other fields are None. The loader puts the address of the function at `iat_rva`, which may
    pass 2**32. `library` is the index of the import descriptor, and `thunk_index` that of the entry in
    its lookup table. In permissive mode, and in a walk over one library, `dll` is empty if it
    can't be read. `is_name_cut` and `is_library_cut` say whether `longest_name` cuts the name or that
    of the DLL."""

    dll: bytes
    name: bytes | None
    hint: int | None
    ordinal: int | None
    iat_rva: int
    hint_name_rva: int
    library: int
    thunk_index: int
    is_name_cut: bool
    is_library_cut: bool


@_sorted_with_none
class Library(NamedTuple):
    """An import descriptor: a DLL that the image imports from. Several descriptors may have the same
    DLL. `is_skipped` says that permissive mode skips it, because it has no address table. If the
    name can't be read, it is None, and `name_error` says why. `is_name_cut` says whether `longest_name`
    cuts it."""

    name: bytes | None
    name_error: PeError | None
    index: int  # type: ignore[assignment]
    offset: int
    import_lookup_table_rva: int
    time_date_stamp: int
    forwarder_chain: int
    name_rva: int
    import_address_table_rva: int
    is_skipped: bool
    is_name_cut: bool
    cursor: tuple[int, ...]

    def imports(self, image: Image, budget: Budget | None = None) -> Walk[Import]:
        """The imports of this library alone. `cursor` is where they begin; only the library knows
        what its numbers mean."""
        cursor, fields = _records.ImportCursor(*self.cursor), len(_records.ImportCursor._fields_)
        if not fields - 1 <= len(self.cursor) <= fields:
            raise TypeError("the cursor of a library is wanted, not %r" % (self.cursor,))
        return Walk(image, IMPORTS, cursor, budget)


@_sorted_with_none
class Forwarder(NamedTuple):
    """The export of another DLL to which an export leads, by `name` or by `ordinal`; the other one is
    None. The `dll` has no ending, as in the file. `is_cut` says whether `longest_name` cuts the text of
    both: the `name` may then be empty, or a part of an ordinal."""

    dll: bytes
    name: bytes | None
    ordinal: int | None
    is_cut: bool


@_sorted_with_none
class Export(NamedTuple):
    """An export that has a name pointer. `name` is None if it can't be read, `offset` if the address
    has no file offset, and `forwarder` if the export is in this image. `hint` is the index of the
    name pointer. `is_name_cut` says whether `longest_name` cuts the name."""

    name: bytes | None
    ordinal: int
    hint: int
    rva: int
    name_rva: int
    offset: int | None
    forwarder: Forwarder | None
    is_name_cut: bool


class ExportAddress(NamedTuple):
    """An entry of the export address table, whether or not it has a name. The rva is 0 if the ordinal
    is unused. For a forwarder, Image.forwarder_at(rva) says where it leads."""

    ordinal: int
    rva: int
    is_forwarder: bool


class ExportDirectory(NamedTuple):
    """The export directory: the name of the image as a DLL, the fields as stored, and whether
    `longest_name` cuts the name."""

    name: bytes | None
    export_flags: int
    time_date_stamp: int
    major_version: int
    minor_version: int
    name_rva: int
    ordinal_base: int
    address_table_entries: int
    number_of_name_pointers: int
    export_address_table_rva: int
    name_pointer_rva: int
    ordinal_table_rva: int
    is_name_cut: bool


class BaseRelocation(NamedTuple):
    """An address that the loader changes if it puts the image elsewhere than at its base. `typ` is an
    IMAGE_REL_BASED_*: `names_of(typ, "base_relocation")` has its name. The address may pass 2**32."""

    rva: int
    typ: int


class RelocationBlock(NamedTuple):
    """The base relocations of one page. `entries` has two bytes for each."""

    rva: int
    size: int
    entries: bytes

    def relocations(self) -> Iterator[BaseRelocation]:
        """The base relocations of the block."""
        for (word,) in struct.iter_unpack("<H", self.entries[: len(self.entries) & ~1]):
            yield BaseRelocation(self.rva + (word & 0xFFF), word >> 12)


class AuxiliaryKind(Number):
    """Which auxiliary records a symbol has."""

    FUNCTION_DEFINITION = 1
    BEGIN_AND_END_FUNCTION = 2
    WEAK_EXTERNAL = 3
    FILE = 4
    SECTION_DEFINITION = 5


class Auxiliary(NamedTuple):
    """What the auxiliary records of a symbol say. Each kind fills these fields, and leaves all others
    at 0 or None:

    FUNCTION_DEFINITION: tag_index, total_size, pointer_to_line_number, pointer_to_next_function.
    BEGIN_AND_END_FUNCTION: line_number, pointer_to_next_function.
    WEAK_EXTERNAL: tag_index, the index of the symbol that replaces it, and characteristics.
    FILE: file, the name of a source file, and is_file_cut; if the file is None, it is in the string
        table at string_offset.
    SECTION_DEFINITION: length, number_of_relocations, number_of_line_numbers, checksum, number and
        selection.
    """

    kind: AuxiliaryKind
    tag_index: int
    total_size: int
    pointer_to_line_number: int
    pointer_to_next_function: int
    line_number: int
    characteristics: int
    file: bytes | None
    string_offset: int
    length: int
    number_of_relocations: int
    number_of_line_numbers: int
    checksum: int
    number: int
    selection: int
    is_file_cut: bool


@_sorted_with_none
class Symbol(NamedTuple):
    """A symbol of an image or an object. The name is None if it can't be read. `is_name_cut` says
    whether `longest_name` cuts it. `index` counts auxiliary records, too: relocations name symbols by
    it."""

    index: int  # type: ignore[assignment]
    name: bytes | None
    stored_name: bytes
    value: int
    section_number: int
    typ: int
    storage_class: int
    number_of_aux_symbols: int
    aux_bytes: bytes
    is_name_cut: bool

    def auxiliary(self, image: Image) -> Auxiliary | None:
        """What the auxiliary records say; None if there are none, or if their kind is unknown."""
        auxiliary, found = c.create_string_buffer(self.aux_bytes, len(self.aux_bytes) or 1), _records.Auxiliary()
        stored = _records.SymbolRecord(
            (c.c_uint8 * 8)(*self.stored_name), self.value, self.section_number, self.typ, self.storage_class, self.number_of_aux_symbols)
        record = _records.Symbol(auxiliary=_records.Slice(c.addressof(auxiliary), len(self.aux_bytes)), record=stored)
        with image._held() as held:
            kind = LIB.goblin_pe_read_auxiliary(held, c.byref(record), c.byref(found))
        return _auxiliary(AuxiliaryKind(kind), found) if kind else None


class CoffRelocation(NamedTuple):
    """A relocation of an object. Image.symbol_at(symbol_table_index) reads the symbol, and
    relocation_name(machine, typ) names the type."""

    virtual_address: int
    symbol_table_index: int
    typ: int


# ---- the rows of records ----


def text(it: Any) -> bytes:
    """The bytes of a slice."""
    return c.string_at(it.bytes, it.length)


def _section_record(it: Section) -> _records.Section:
    record = _records.Section(
        index=it.index, virtual_size=it.virtual_size, virtual_address=it.virtual_address, size_of_raw_data=it.size_of_raw_data,
        pointer_to_raw_data=it.pointer_to_raw_data, pointer_to_relocations=it.pointer_to_relocations,
        pointer_to_linenumbers=it.pointer_to_linenumbers, number_of_relocations=it.number_of_relocations,
        number_of_linenumbers=it.number_of_linenumbers, characteristics=it.characteristics, is_name_cut=it.is_name_cut)
    record.stored_name[:] = it.stored_name
    if tuple(getattr(record, name) for name in it._fields[2:]) != it[2:]:
        raise OverflowError("a number does not fit its field: %r" % (it,))
    begin, is_full = record.relocations, it.number_of_relocations == 0xFFFF
    begin.offset, begin.count = it.pointer_to_relocations, it.number_of_relocations
    begin.index = begin.is_extended = is_full and bool(it.characteristics & IMAGE_SCN_LNK_NRELOC_OVFL)  # (the first is then their number)
    return record


def _section(it: Any, text: Texts) -> Section:
    return Section(
        text(it.name), bytes(it.stored_name), it.index, it.virtual_size, it.virtual_address, it.size_of_raw_data, it.pointer_to_raw_data,
        it.pointer_to_relocations, it.pointer_to_linenumbers, it.number_of_relocations, it.number_of_linenumbers, it.characteristics,
        it.is_name_cut)


def _rich_entry(it: Any, text: Texts) -> RichEntry:
    return RichEntry(it.build, it.product, it.use_count)


def _import(it: Any, text: Texts) -> Import:
    is_by_name, number = it.is_by_name, it.hint_or_ordinal
    return Import(
        text(it.dll), text(it.name) if is_by_name else None, number if is_by_name else None, None if is_by_name else number,
        it.iat_rva, it.hint_name_rva, it.library_index, it.thunk_index, it.is_name_cut, it.is_library_cut)


def _library(it: Any, text: Texts) -> Library:
    error, record, cursor = error_of(it.name_fault, Table.IMPORTS), it.record, it.imports
    return Library(
        None if error else text(it.name), error, it.index, it.offset, record.import_lookup_table_rva, record.time_date_stamp,
        record.forwarder_chain, record.name_rva, record.import_address_table_rva, it.is_skipped, it.is_name_cut,
        tuple(int(getattr(cursor, name)) for name, _ in cursor._fields_ if name != "reserved"))


def forwarder(it: Any, text: Callable[[Any], bytes] = text) -> Forwarder | None:
    """The forwarder of a record; None if it is none."""
    if not it.kind:
        return None
    return Forwarder(text(it.dll), text(it.name) if it.kind == 1 else None, it.ordinal if it.kind == 2 else None, it.is_cut)


def _export(it: Any, text: Texts) -> Export:
    return Export(
        text(it.name) if it.has_name else None, it.ordinal, it.hint, it.rva, it.name_rva,
        it.offset if it.has_offset else None, forwarder(it.forwarder, text), it.is_name_cut)


def _export_address(it: Any, text: Texts) -> ExportAddress:
    return ExportAddress(it.ordinal, it.rva, it.is_forwarder)


def export_directory(it: Any) -> ExportDirectory | None:
    """The export directory of a record; None if there is none."""
    if not it.is_present:
        return None
    fields = (getattr(it.record, name) for name in ExportDirectory._fields[1:-1])
    return ExportDirectory(text(it.name) if it.has_name else None, *fields, it.is_name_cut)


def _block(it: Any, text: Texts) -> RelocationBlock:
    return RelocationBlock(it.rva, it.size, bytes(text.image.data[it.relocations.offset: it.relocations.end]))


def _symbol(it: Any, text: Texts) -> Symbol:
    record = it.record
    return Symbol(
        it.index, text(it.name) if it.has_name else None, bytes(record.name), record.value, record.section_number, record.typ,
        record.storage_class, record.number_of_aux_symbols, text(it.auxiliary), it.is_name_cut)


def _auxiliary(kind: AuxiliaryKind, it: Any) -> Auxiliary:
    is_named = kind == AuxiliaryKind.FILE and not it.string_offset
    return Auxiliary(
        kind, it.tag_index, it.total_size, it.pointer_to_line_number, it.pointer_to_next_function, it.line_number, it.characteristics,
        text(it.file) if is_named else None, it.string_offset, it.length, it.number_of_relocations, it.number_of_line_numbers,
        it.checksum, it.number, it.selection, it.is_file_cut)


def _coff_relocation(it: Any, text: Texts) -> CoffRelocation:
    return CoffRelocation(it.virtual_address, it.symbol_table_index, it.typ)


# The kind of the walk over each table.
SECTIONS = Kind(LIB.goblin_pe_next_sections, _records.Section, _records.SectionCursor, Table.HEADER, _section)
RICH_ENTRIES = Kind(LIB.goblin_pe_next_rich_entries, _records.RichEntry, _records.RichCursor, Table.RICH_HEADER, _rich_entry)
IMPORTS = Kind(LIB.goblin_pe_next_imports, _records.Import, _records.ImportCursor, Table.IMPORTS, _import, counts_steps=True)
LIBRARIES = Kind(LIB.goblin_pe_next_libraries, _records.Library, _records.ImportCursor, Table.IMPORTS, _library, counts_steps=True)
EXPORTS = Kind(LIB.goblin_pe_next_exports, _records.Export, _records.ExportCursor, Table.EXPORTS, _export, counts_steps=True)
EXPORT_ADDRESSES = Kind(
    LIB.goblin_pe_next_export_addresses, _records.ExportAddress, _records.ExportAddressCursor, Table.EXPORTS, _export_address)
BLOCKS = Kind(
    LIB.goblin_pe_next_relocation_blocks, _records.RelocationBlock, _records.RelocationBlockCursor, Table.RELOCATIONS, _block)
SYMBOLS = Kind(LIB.goblin_pe_next_symbols, _records.Symbol, _records.SymbolCursor, Table.SYMBOLS, _symbol)
COFF_RELOCATIONS = Kind(
    LIB.goblin_pe_next_coff_relocations, _records.CoffRelocation, _records.CoffRelocationCursor, Table.SYMBOLS, _coff_relocation)
