"""The headers of a file, as named tuples of what is stored. `_replace` makes a changed copy."""
from __future__ import annotations

import ctypes
from typing import Any, NamedTuple

from . import _records
from ._number import Number


class DosHeader(NamedTuple):
    """The DOS header: the first 64 bytes of an image."""

    signature: int
    bytes_on_last_page: int
    pages_in_file: int
    relocations: int
    size_of_header_in_paragraphs: int
    minimum_extra_paragraphs_needed: int
    maximum_extra_paragraphs_needed: int
    initial_relative_ss: int
    initial_sp: int
    checksum: int
    initial_ip: int
    initial_relative_cs: int
    file_address_of_relocation_table: int
    overlay_number: int
    reserved: tuple[int, int, int, int]
    oem_id: int
    oem_info: int
    reserved2: tuple[int, int, int, int, int, int, int, int, int, int]
    pe_pointer: int


class CoffHeader(NamedTuple):
    """The COFF file header. `names_of(header.machine, "machine")` returns the name of the machine."""

    machine: int
    number_of_sections: int
    time_date_stamp: int
    pointer_to_symbol_table: int
    number_of_symbol_table: int
    size_of_optional_header: int
    characteristics: int


class StandardFields(NamedTuple):
    """The standard fields of an optional header."""

    magic: int
    major_linker_version: int
    minor_linker_version: int
    size_of_code: int
    size_of_initialized_data: int
    size_of_uninitialized_data: int
    address_of_entry_point: int
    base_of_code: int
    base_of_data: int


class WindowsFields(NamedTuple):
    """The fields for Windows of an optional header."""

    image_base: int
    section_alignment: int
    file_alignment: int
    major_operating_system_version: int
    minor_operating_system_version: int
    major_image_version: int
    minor_image_version: int
    major_subsystem_version: int
    minor_subsystem_version: int
    win32_version_value: int
    size_of_image: int
    size_of_headers: int
    check_sum: int
    subsystem: int
    dll_characteristics: int
    size_of_stack_reserve: int
    size_of_stack_commit: int
    size_of_heap_reserve: int
    size_of_heap_commit: int
    loader_flags: int
    number_of_rva_and_sizes: int


class OptionalHeader(NamedTuple):
    """The optional header, PE32 or PE32+."""

    standard_fields: StandardFields
    windows_fields: WindowsFields


class DataDirectory(NamedTuple):
    """A data directory: the address and the size of a table. Both are 0 if the image has no such
    table. For CERTIFICATE_TABLE, the address is a file offset."""

    virtual_address: int
    size: int


class DirectoryType(Number):
    """The index of each data directory in Image.directories."""

    EXPORT_TABLE = 0
    IMPORT_TABLE = 1
    RESOURCE_TABLE = 2
    EXCEPTION_TABLE = 3
    CERTIFICATE_TABLE = 4
    BASE_RELOCATION_TABLE = 5
    DEBUG_TABLE = 6
    ARCHITECTURE = 7
    GLOBAL_PTR = 8
    TLS_TABLE = 9
    LOAD_CONFIG_TABLE = 10
    BOUND_IMPORT_TABLE = 11
    IMPORT_ADDRESS_TABLE = 12
    DELAY_IMPORT_DESCRIPTOR = 13
    CLR_RUNTIME_HEADER = 14


class TeHeader(NamedTuple):
    """The header of a Terse Executable. The entry point, the base of the code and the address of the
    base relocations are already moved to where they are in the file."""

    signature: int
    machine: int
    number_of_sections: int
    subsystem: int
    stripped_size: int
    entry_point: int
    base_of_code: int
    image_base: int
    reloc_dir: DataDirectory
    debug_dir: DataDirectory


def read(kind: Any, record: Any) -> Any:
    """The header of a record."""
    return kind(*(_value(getattr(record, name)) for name in kind._fields))


def _value(value: Any) -> Any:
    if isinstance(value, ctypes.Array):
        return tuple(map(_value, value))
    return read(globals()[type(value).__name__], value) if isinstance(value, ctypes.Structure) else value


def record_of(header: Any) -> Any:
    """The record of a header. OverflowError is raised if a number does not fit its field."""
    record = getattr(_records, type(header).__name__)()
    for name, value in zip(header._fields, header):
        if isinstance(value, tuple) and hasattr(value, "_fields"):
            setattr(record, name, record_of(value))
        elif isinstance(value, tuple):
            getattr(record, name)[:] = value
        else:
            setattr(record, name, value)
    if read(type(header), record) != header:
        raise OverflowError("a number does not fit its field: %r" % (header,))
    return record
