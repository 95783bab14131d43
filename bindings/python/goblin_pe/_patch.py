"""Files with changed headers and sections."""
from __future__ import annotations

import ctypes as c
from typing import TYPE_CHECKING, NamedTuple

from . import _records
from ._errors import no_place, test
from ._headers import CoffHeader, DataDirectory, DosHeader, OptionalHeader, record_of
from ._library import LIB
from .constants import NUM_DATA_DIRECTORIES, SIZEOF_COFF_HEADER, SIZEOF_DATA_DIRECTORY, SIZEOF_PE_MAGIC, SIZEOF_SECTION_TABLE

if TYPE_CHECKING:
    from ._image import Image
    from ._rows import Section

# The offset of the DOS stub, and the distance of the checksum from the PE signature.
STUB = 0x40
_CHECK_SUM = SIZEOF_PE_MAGIC + SIZEOF_COFF_HEADER + 64


class Headers(NamedTuple):
    """The headers of an image."""

    dos_header: DosHeader
    coff_header: CoffHeader
    optional_header: OptionalHeader | None
    directories: tuple[DataDirectory, ...]


def written(record: _records.Image) -> bytes:
    """The bytes of the header in a record."""
    size = c.c_size_t()
    test(LIB.goblin_pe_write_header(c.byref(record), None, 0, c.byref(size)), None)
    out = c.create_string_buffer(size.value)
    test(LIB.goblin_pe_write_header(c.byref(record), out, len(out), c.byref(size)), None)
    return out.raw


def _header(stub: bytes, headers: Headers) -> bytes:
    # the bytes of these headers. The library copies the stub from the bytes of an image.
    front = c.create_string_buffer(bytes(STUB) + stub, STUB + len(stub))
    record = _records.Image(kind=1, dos_stub_size=len(stub))
    record.bytes = _records.Slice(c.addressof(front), len(front))
    record.dos_header, record.coff_header = record_of(headers.dos_header), record_of(headers.coff_header)
    record.has_optional_header = headers.optional_header is not None
    if headers.optional_header is not None:
        record.optional_header = record_of(headers.optional_header)
    if len(headers.directories) != NUM_DATA_DIRECTORIES:
        raise ValueError("sixteen data directories are wanted")
    for index, it in enumerate(headers.directories):
        record.directories[index] = record_of(it)
    return written(record)


def _counted(headers: Headers) -> int:
    optional = headers.optional_header
    return min(optional.windows_fields.number_of_rva_and_sizes, NUM_DATA_DIRECTORIES) if optional else 0


def _test_header(image: Image, present: Headers, given: Headers) -> None:
    # the headers must lie at the same offsets as those of the file
    signature, stub = present.dos_header.pe_pointer, image._record.dos_stub_size
    places = max(_counted(present), _counted(given))
    for is_wrong, why in (
            (image._record.is_dos_stub_replaced, "permissive mode replaced the DOS stub"),
            (STUB + stub != signature or given.dos_header.pe_pointer != signature, "the PE signature would move"),
            (present.coff_header.size_of_optional_header != given.coff_header.size_of_optional_header,
             "the optional header would have another size"),
            ((present.optional_header is None) != (given.optional_header is None), "an optional header can't be added or left out"),
            (any(map(any, given.directories[places:])), "a data directory lies past those that the header counts")):
        if is_wrong:
            raise no_place(why)


def _test_room(image: Image, count: int) -> None:
    # new section headers replace zeros, and lie before the data of all sections
    table = image._record.section_table
    present, end = table + SIZEOF_SECTION_TABLE * len(image.sections), table + SIZEOF_SECTION_TABLE * count
    more = image.data[present:end]
    is_before = all(end <= it.pointer_to_raw_data for it in image.sections if it.size_of_raw_data and it.pointer_to_raw_data)
    if present < end and (len(more) < end - present or any(more) or not is_before):
        raise no_place("there is no room for %d sections" % count)


def _test_directories(present: Headers, given: Headers, end: int, table: int) -> None:
    # directories that the header counts must lie in it, except those that the file has already
    old, new = present.optional_header, given.optional_header
    if old and new:
        same = (old.standard_fields.magic, old.windows_fields.number_of_rva_and_sizes) == (
            new.standard_fields.magic, new.windows_fields.number_of_rva_and_sizes)
        if not same and (end > table or new.windows_fields.number_of_rva_and_sizes > NUM_DATA_DIRECTORIES):
            raise no_place("the optional header has no room for %d data directories" % new.windows_fields.number_of_rva_and_sizes)


def _put(file: bytearray, offset: int, data: bytes) -> None:
    if offset + len(data) > len(file):
        raise no_place("the file is too short")
    file[offset: offset + len(data)] = data


def patched(image: Image, given: Headers, sections: tuple[Section, ...], checksum: bool) -> bytes:
    """The file of an image with these headers, and with these headers of its first sections."""
    present = Headers(image.dos_header, image.coff_header, image.optional_header, image.directories)
    _test_header(image, present, given)
    table, file = image._record.section_table, bytearray(image.data)
    counted = given.coff_header.number_of_sections
    _test_room(image, max(len(sections), counted if counted != present.coff_header.number_of_sections else 0))
    for index, it in enumerate(sections):
        _put(file, table + SIZEOF_SECTION_TABLE * index, it.to_bytes())
    header = _header(image.dos_stub, given)
    if given.optional_header:
        end = [len(header) - SIZEOF_DATA_DIRECTORY * (NUM_DATA_DIRECTORIES - _counted(it)) for it in (present, given)]
        _test_directories(present, given, end[1], table)
        header = header[: max(end)]
    if header[table:] != file[table: len(header)]:
        raise no_place("the optional header would overlap the section table")
    _put(file, 0, header[:table])
    if checksum:
        found = image._made(bytes(file), image.options, LIB.goblin_pe_read_image, None).checksum()
        if found is None:
            raise no_place("there is no optional header")
        _put(file, given.dos_header.pe_pointer + _CHECK_SUM, found.to_bytes(4, "little"))
    return bytes(file)
