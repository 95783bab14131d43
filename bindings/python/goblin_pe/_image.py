"""Images."""
from __future__ import annotations

import contextlib
import ctypes as c
import hashlib
import os
import types
from collections.abc import Iterable, Iterator, Mapping as _Mapping
from typing import Any, Union

from . import _records
from ._errors import PeError, Table, error_of, test
from ._headers import CoffHeader, DataDirectory, DirectoryType, DosHeader, OptionalHeader, TeHeader, read
from ._imphash import line as imphash_line
from ._library import LIB, Data, held, kept
from ._number import Number
from ._options import Budget, Options
from ._patch import STUB as _STUB, Headers, patched, written as _written
from ._rows import (
    BLOCKS, EXPORT_ADDRESSES, EXPORTS, IMPORTS, LIBRARIES, RICH_ENTRIES, SECTIONS, SYMBOLS, BaseRelocation, Export, ExportAddress,
    ExportDirectory, Forwarder, Import, Library, Memory, Region, RelocationBlock, RichEntry, RichHeader, Section, Symbol,
    export_directory, forwarder, in_range, text)
from ._walk import Kind as WalkKind, Walk
from .constants import IMAGE_FILE_DLL, IMAGE_FILE_EXECUTABLE_IMAGE, IMAGE_SUBSYSTEM_NATIVE, MAGIC_64

_Path = Union[str, "os.PathLike[str]"]


class Kind(Number):
    """What a file is, by its first bytes. Image reads images, Image.object objects, and Image.te Terse
    Executables. No call reads archives, import objects and big objects."""

    UNKNOWN = 0
    IMAGE = 1
    OBJECT = 2
    TE = 3
    ARCHIVE = 4
    IMPORT_OBJECT = 5
    BIG_OBJECT = 6

    @classmethod
    def of(cls, data: Data) -> Kind:
        """The kind of a file. It does not say whether the file can be read."""
        with held(data) as (address, length):
            return cls(LIB.goblin_pe_kind_of(address, length))


class Image:
    """A PE image, a COFF object or a Terse Executable: its header, and the bytes of the file.

    Properties say what is in the header. Methods read the tables; they may raise PeError. If the file
    decides how much work that is, they have an argument `budget`. The image keeps the bytes until
    close(), or until the end of a `with`. After that, methods, `data`, `dos_stub` and `rich_header`
    raise ValueError, and so does `sections` if you did not ask for it before. The other properties
    stay, and so do all rows. An image can be pickled, with its bytes."""

    def __init__(self, data: Data, options: Options = Options()) -> None:
        """Reads the header and the section table of an image. PeError is raised if they can't be
        read. Image.partial reads such a file."""
        self._read(kept(data), options, LIB.goblin_pe_read_image, None)

    @classmethod
    def open(cls, path: _Path, options: Options = Options()) -> Image:
        """Reads a whole file, and its header. OSError is raised if the file can't be read."""
        with open(path, "rb") as file:
            return cls(file.read(), options)

    @classmethod
    def partial(cls, data: Data, options: Options = Options()) -> Image:
        """Reads the header as far as possible, whatever the file holds. What can't be read is zeros,
        and `header_faults` says why. All walks and look-ups work on what is there. It reads every
        file as an image: there is no partial read of an object or a Terse Executable."""
        faults = _records.HeaderFaults()
        image = cls._made(data, options, LIB.goblin_pe_read_image, faults)
        tables = {"rich_header": Table.RICH_HEADER}
        errors = {name: error_of(getattr(faults, name), tables.get(name, Table.HEADER)) for name, _ in faults._fields_}
        image._faults = types.MappingProxyType({name: error for name, error in errors.items() if error})
        return image

    @classmethod
    def object(cls, data: Data, options: Options = Options()) -> Image:
        """Reads a COFF object, which has sections, symbols and relocations. Ask Kind.of first,
        because any machine is accepted. PeError is raised if the header or the section table is cut;
        such an object can't be read in part."""
        return cls._made(data, options, LIB.goblin_pe_read_object)

    @classmethod
    def te(cls, data: Data, options: Options = Options()) -> Image:
        """Reads a Terse Executable, which has a `te_header` and sections. PeError is raised if one of
        them is cut, if the stripped size is below 40, or if strict mode would refuse a section name.
        The mode changes none of these, and such a file can't be read in part."""
        header = _records.TeHeader()
        image = cls._made(data, options, LIB.goblin_pe_read_te, header)
        image._te_header = read(TeHeader, header)
        return image

    def with_options(self, options: Options) -> Image:
        """The same image with other options. The header is not read again."""
        image = type(self).__new__(type(self))
        image.__dict__.update(self.__dict__)
        image._record = _records.Image.from_buffer_copy(self._record)
        image._record.options, image._options = _tested(options)._record(), options
        image._sections = None
        return image

    def close(self) -> None:
        """Releases the bytes. Rows stay, and what was read of the header."""
        self._data = None

    def __enter__(self) -> Image:
        return self

    def __exit__(
        self,
        kind: type[BaseException] | None,
        error: BaseException | None,
        trace: types.TracebackType | None,
    ) -> None:
        self.close()

    def __reduce__(self) -> tuple[Any, ...]:
        state = {**self.__dict__, "_data": bytes(self.data), "_record": bytes(self._record), "_faults": dict(self._faults), "_sections": None}
        return _restored, (type(self), state, _records.INTERFACE)

    def __repr__(self) -> str:
        return "<%s of %d sections>" % (self.kind.name.lower(), self._record.section_count)

    # How the library is called.

    _data: Any
    _options: Options
    _record: Any
    _te_header: TeHeader | None = None
    _faults: _Mapping[str, PeError] = types.MappingProxyType({})
    _refusal: PeError | None = None
    _sections: tuple[Section, ...] | None = None

    @classmethod
    def _made(cls, data: Data, options: Options, call: Any, *also: Any) -> Image:
        # an image that another call than the usual one fills
        image = cls.__new__(cls)
        image._read(kept(data), options, call, *also)
        return image

    def _read(self, data: Any, options: Options, call: Any, *also: Any) -> None:
        self._data = data
        self._options, self._record = _tested(options), _records.Image()
        with held(data) as (address, length):
            fault = call(address, length, c.byref(options._record()), c.byref(self._record), *(it and c.byref(it) for it in also))
        if call is LIB.goblin_pe_read_image and also[0]:
            self._refusal = error_of(fault, Table.HEADER)
        else:
            test(fault, Table.HEADER)

    @contextlib.contextmanager
    def _held(self) -> Iterator[Any]:
        # the record for a call, with the bytes where they are now
        data = self._data
        if data is None:
            raise ValueError("the image is closed")
        with held(data) as (address, length):
            self._record.bytes.bytes, self._record.bytes.length = address, length
            yield c.byref(self._record)

    def _memory(self, call: Any, *arguments: Any) -> Memory:
        # the memory that a call gives, as views of the bytes
        memory = _records.Memory()
        with self._held() as image:
            call(image, *arguments, c.byref(memory))
            begin = (memory.bytes.bytes or 0) - self._record.bytes.bytes if memory.bytes.length else 0
        section = memory.section_index if memory.section_index < self._record.section_count else None
        data = self.data[begin: begin + memory.bytes.length]
        return Memory(data, memory.zeros, memory.missing, section, Region(memory.region))

    def _looked_up(self, call: Any, kind: Any, *arguments: Any) -> Any:
        # what a look-up sets, and whether it says that there is one
        found = kind()
        with self._held() as image:
            return found if call(image, *arguments, c.byref(found)) else None

    def _first(self, kind: WalkKind, cursor: Any) -> Any:
        # the row at a cursor; None if there is none
        return next(iter(Walk(self, kind, cursor, Budget(1))), None)

    # Headers.
    @property
    def data(self) -> memoryview:
        """The bytes of the file."""
        if self._data is None:
            raise ValueError("the image is closed")
        return memoryview(self._data).cast("B")

    @property
    def options(self) -> Options:
        """How the image is read."""
        return self._options

    @property
    def kind(self) -> Kind:
        """Whether it is an image, an object or a Terse Executable."""
        return Kind(self._record.kind)

    @property
    def header_faults(self) -> _Mapping[str, PeError]:
        """The parts of the header that `partial` could not read, each with its error. A part is one
        of dos_header, dos_stub, rich_header, coff_header, standard_fields, windows_fields,
        directories, section_table and section_names."""
        return self._faults

    @property
    def refusal(self) -> PeError | None:
        """Why Image(data) refuses a file that `partial` has read; None if it does not refuse it."""
        return self._refusal

    @property
    def is_64(self) -> bool:
        """Whether the optional header is one for 64 bits."""
        optional = self.optional_header
        return optional is not None and optional.standard_fields.magic == MAGIC_64

    @property
    def is_lib(self) -> bool:
        """Whether the COFF header has the flag of a dynamic-link library."""
        return bool(self._record.coff_header.characteristics & IMAGE_FILE_DLL)

    is_dll = is_lib

    @property
    def is_driver(self) -> bool:
        """Whether the COFF header has the flag of an executable image, and the subsystem is NATIVE.
        A few programs of Windows have that subsystem, too. pefile's is_driver looks at the names of
        libraries and sections instead, so its answer can differ."""
        native = self._record.optional_header.windows_fields.subsystem == IMAGE_SUBSYSTEM_NATIVE
        return native and bool(self._record.coff_header.characteristics & IMAGE_FILE_EXECUTABLE_IMAGE)

    @property
    def is_exe(self) -> bool:
        """Whether the COFF header has the flag of an executable image, and it is neither a
        dynamic-link library nor a driver."""
        characteristics: int = self._record.coff_header.characteristics
        return bool(characteristics & IMAGE_FILE_EXECUTABLE_IMAGE) and not (self.is_lib or self.is_driver)

    @property
    def entry(self) -> int:
        """The rva of the entry point; 0 if there is no optional header, as in a Terse Executable."""
        entry: int = self._record.optional_header.standard_fields.address_of_entry_point
        return entry

    @property
    def image_base(self) -> int:
        """The preferred address in memory; 0 if there is no optional header, as in a Terse Executable."""
        base: int = self._record.optional_header.windows_fields.image_base
        return base

    @property
    def dos_header(self) -> DosHeader:
        """The DOS header; zeros in an object and a Terse Executable."""
        header: DosHeader = read(DosHeader, self._record.dos_header)
        return header

    @property
    def dos_stub(self) -> bytes:
        """The bytes between the DOS header and the PE signature."""
        size = self._record.dos_stub_size
        if self._record.is_dos_stub_replaced:
            return _written(self._record)[_STUB: _STUB + size]
        return bytes(self.data[_STUB: _STUB + size])

    @property
    def rich_header(self) -> RichHeader | None:
        """The Rich header; None if there is none."""
        it = self._record.rich_header
        if not it.is_present:
            return None
        return RichHeader(bytes(self.data[it.start_offset: it.end_offset]), it.key, it.start_offset, it.end_offset, it.padding_size)

    @property
    def coff_header(self) -> CoffHeader:
        """The COFF header."""
        header: CoffHeader = read(CoffHeader, self._record.coff_header)
        return header

    @property
    def optional_header(self) -> OptionalHeader | None:
        """The optional header, or None if the file has none. Then it has no data directories, and no
        address has a file offset, except by Mapping.IDENTITY."""
        if not self._record.has_optional_header:
            return None
        header: OptionalHeader = read(OptionalHeader, self._record.optional_header)
        return header

    @property
    def directories(self) -> tuple[DataDirectory, ...]:
        """The sixteen data directories, in the order of DirectoryType. Those that the file lacks are
        zeros."""
        return tuple(read(DataDirectory, it) for it in self._record.directories)

    @property
    def te_header(self) -> TeHeader | None:
        """The header of a Terse Executable; None in another file."""
        return self._te_header

    @property
    def sections(self) -> tuple[Section, ...]:
        """The section headers. They are read at the first use, and kept. A small file can have 65,535 of
        them with long names: `longest_name` and section_headers(budget) limit that."""
        if self._sections is None:
            self._sections = tuple(self.section_headers())
        return self._sections

    # Walks.
    def section_headers(self, budget: Budget | None = None) -> Walk[Section]:
        """The section headers, one after the other. None is kept."""
        return Walk(self, SECTIONS, None, budget)

    def rich_entries(self, budget: Budget | None = None) -> Walk[RichEntry]:
        """The entries of the Rich header."""
        return Walk(self, RICH_ENTRIES, None, budget)

    def imports(self, budget: Budget | None = None) -> Walk[Import]:
        """The imports, in the order of the import directory."""
        return Walk(self, IMPORTS, None, budget)

    def libraries(self, budget: Budget | None = None) -> Walk[Library]:
        """The DLLs that the image imports from: a row for each import descriptor, also for one that is
        skipped. A step is one look at a descriptor, or at 64 entries of an address table."""
        return Walk(self, LIBRARIES, None, budget)

    def exports(self, budget: Budget | None = None) -> Walk[Export]:
        """The exports that have a name pointer, in the order of the name pointers."""
        return Walk(self, EXPORTS, None, budget)

    def export_addresses(self, budget: Budget | None = None) -> Walk[ExportAddress]:
        """The entries of the export address table: all ordinals, also those without a name. Each row
        looks the sections up. With 65,535 of them it takes 0.2 milliseconds, and is one step all the
        same: give such an image a small budget."""
        return Walk(self, EXPORT_ADDRESSES, None, budget)

    def relocation_blocks(self, budget: Budget | None = None) -> Walk[RelocationBlock]:
        """The blocks of base relocations. In both modes, PeError is raised for bytes that are no
        block."""
        return Walk(self, BLOCKS, None, budget)

    def symbols(self, budget: Budget | None = None) -> Walk[Symbol]:
        """The symbols of an image or an object."""
        return Walk(self, SYMBOLS, None, budget)

    def _test_blocks(self) -> None:
        # raises why strict mode refuses the base relocations as a whole
        with self._held() as image:
            test(BLOCKS.call(image, c.byref(BLOCKS.cursor()), None, 0, c.byref(_records.Batch())), BLOCKS.table)

    # Look-ups.
    def section_by_name(self, name: bytes | str) -> Section | None:
        """The first section of this name; None if there is none, or if the name is cut."""
        wanted = _bytes_of(name)
        return next((it for it in self.sections if it.name == wanted and not it.is_name_cut), None)

    def section_by_number(self, number: int) -> Section | None:
        """The section of a number that a symbol has: the first section has the number 1. None if
        there is no such section."""
        if -0x8000 <= number < -2:  # (symbols have numbers of 16 bits with a sign)
            number += 0x10000
        return self.sections[number - 1] if 0 < number <= len(self.sections) else None

    def export_directory(self) -> ExportDirectory | None:
        """The export directory; None if there is none. PeError is raised for a damaged one in strict
        mode."""
        found = _records.ExportDirectory()
        with self._held() as image:
            test(LIB.goblin_pe_read_export_directory(image, c.byref(found)), Table.EXPORTS)
            return export_directory(found)

    def find_export(self, name: bytes | str, budget: Budget | None = None) -> Export | None:
        """The first export of this name that `exports` gives; None if there is none, or if the name is
        cut."""
        wanted = _bytes_of(name)
        return next((it for it in self.exports(budget) if it.name == wanted and not it.is_name_cut), None)

    def find_export_by_ordinal(self, ordinal: int) -> ExportAddress | None:
        """The export of this ordinal, whether or not it has a name; None if there is none."""
        directory = self.export_directory()
        if directory is None or ordinal < directory.ordinal_base:
            return None
        cursor = _records.ExportAddressCursor(in_range(ordinal - directory.ordinal_base))
        found: ExportAddress | None = self._first(EXPORT_ADDRESSES, cursor)
        return found if found and found.rva else None

    def symbol_at(self, index: int) -> Symbol | None:
        """The symbol at this index of the symbol table, such as that of a relocation; None if there
        is none."""
        found: Symbol | None = self._first(SYMBOLS, _records.SymbolCursor(in_range(index)))
        return found

    def string_at(self, offset: int) -> bytes | None:
        """The text at an offset of the string table; None if there is none."""
        found = _records.Slice()
        with self._held() as image:
            is_there = LIB.goblin_pe_string_at(image, in_range(offset), c.byref(found))
            return text(found) if is_there else None

    def find_offset(self, rva: int) -> int | None:
        """The file offset of an address, by the mapping of the options. It may lie past the end of the
        file. None if the address has none."""
        found = self._looked_up(LIB.goblin_pe_find_offset, c.c_size_t, in_range(rva))
        return None if found is None else int(found.value)

    def find_rva(self, offset: int) -> int | None:
        """An address that find_offset maps to this file offset: that in the first section whose data
        holds the offset, or else in the headers. None if there is none, or if an earlier section
        hides it; later sections are not tried. It looks at each section at most twice: 65,520
        sections take two milliseconds."""
        found = self._looked_up(LIB.goblin_pe_find_rva, c.c_size_t, in_range(offset))
        return None if found is None else int(found.value)

    def memory_at(self, rva: int, size: int) -> Memory:
        """What a loader puts at an address: at most `size` bytes, up to the end of the section's
        last page. If the loader maps nothing there, all bytes are missing."""
        return self._memory(LIB.goblin_pe_memory_at, in_range(rva), in_range(size))

    def text_at(self, rva: int) -> bytes | None:
        """The text from an address up to a NUL, or to the end of what memory_at gives there. None if
        nothing is known of the address."""
        size = 256
        while True:
            memory = self.memory_at(rva, size)
            found, end, _ = bytes(memory.data).partition(b"\0")
            if end or len(found) < size:
                return found if found or end or memory.zeros else None
            size *= 16

    def forwarder_at(self, rva: int) -> Forwarder:
        """The forwarder that is written at an address. PeError is raised if there is none."""
        found = _records.Forwarder()
        with self._held() as image:
            test(LIB.goblin_pe_forwarder_at(image, in_range(rva), c.byref(found)), None)
            return forwarder(found) or Forwarder(b"", None, None, False)

    # Facts about the whole file.
    def imphash(self, budget: Budget | None = None) -> str | None:
        """The hash of the imports that analysts compare, in hexadecimal, as pefile's get_imphash. It
        is "" if no import counts. It is None if the name of a DLL or of an import is cut, because the
        hash of a name that is cut would be another hash."""
        digest, separator = hashlib.md5(usedforsecurity=False), b""
        for it in self.imports(budget):
            if it.is_name_cut or it.is_library_cut:
                return None
            line = imphash_line(it.dll, it.name, it.ordinal)
            if line:
                digest.update(separator + line)
                separator = b","
        return digest.hexdigest() if separator else ""

    def overlay(self) -> memoryview:
        """The bytes after the raw data of all sections; empty if there are none. They begin at file
        offset `len(image.data) - len(image.overlay())`. A section with the raw pointer 0 has no raw
        data. If the end of the file cuts a section, there is no overlay. Certificates of a signed
        file belong to the overlay."""
        ends = [it.pointer_to_raw_data + it.size_of_raw_data for it in self.sections if it.pointer_to_raw_data and it.size_of_raw_data]
        return self.data[max(ends, default=len(self.data)):]

    def checksum(self) -> int | None:
        """The checksum that belongs in `check_sum` of the optional header; None if there is no
        optional header."""
        found = self._looked_up(LIB.goblin_pe_checksum, c.c_uint32)
        return None if found is None else int(found.value)

    def patched(
        self,
        *,
        dos_header: DosHeader | None = None,
        coff_header: CoffHeader | None = None,
        optional_header: OptionalHeader | None = None,
        directories: Iterable[DataDirectory] | None = None,
        sections: Iterable[Section] = (),
        checksum: bool = False,
    ) -> bytes:
        """The bytes of the file with these headers. `sections` replace the headers of as many sections
        from the first on. What you do not give stays as it is. With `checksum=True` the checksum is
        computed again. PeError is raised if the file has no place for them."""
        return patched(self, Headers(
            dos_header or self.dos_header, coff_header or self.coff_header, optional_header or self.optional_header,
            self.directories if directories is None else tuple(directories)), tuple(sections), checksum)


def _tested(options: Options) -> Options:
    if not isinstance(options, Options):
        raise TypeError("Options are wanted, not %r" % (options,))
    return options


def _bytes_of(name: bytes | str) -> bytes:
    return name.encode() if isinstance(name, str) else bytes(memoryview(name))


def _restored(cls: type[Image], state: dict[str, Any], interface: int) -> Image:
    # an image that was pickled
    if interface != _records.INTERFACE:
        raise ValueError("the image was pickled by a package with another interface")
    image = cls.__new__(cls)
    image.__dict__.update(state)
    image._record = _records.Image.from_buffer_copy(state["_record"])
    image._faults = types.MappingProxyType(state["_faults"])
    return image

