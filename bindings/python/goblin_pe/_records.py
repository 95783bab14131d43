"""The records and the calls of the library, as goblin_pe.h declares them. bindings/generate.py makes this file of what the proved crates declare."""
import ctypes as c
from typing import Any, Dict, List, Tuple

# The number of this interface.
INTERFACE = 0x431ad519


class Slice(c.Structure):
    _fields_ = [
        ("bytes", c.c_void_p),
        ("length", c.c_size_t),
    ]


class Options(c.Structure):
    _fields_ = [
        ("mapping", c.c_uint32),
        ("is_permissive", c.c_bool),
        ("reserved", c.c_uint8 * 3),
        ("longest_name", c.c_size_t),
    ]


class DosHeader(c.Structure):
    _fields_ = [
        ("signature", c.c_uint16),
        ("bytes_on_last_page", c.c_uint16),
        ("pages_in_file", c.c_uint16),
        ("relocations", c.c_uint16),
        ("size_of_header_in_paragraphs", c.c_uint16),
        ("minimum_extra_paragraphs_needed", c.c_uint16),
        ("maximum_extra_paragraphs_needed", c.c_uint16),
        ("initial_relative_ss", c.c_uint16),
        ("initial_sp", c.c_uint16),
        ("checksum", c.c_uint16),
        ("initial_ip", c.c_uint16),
        ("initial_relative_cs", c.c_uint16),
        ("file_address_of_relocation_table", c.c_uint16),
        ("overlay_number", c.c_uint16),
        ("reserved", c.c_uint16 * 4),
        ("oem_id", c.c_uint16),
        ("oem_info", c.c_uint16),
        ("reserved2", c.c_uint16 * 10),
        ("pe_pointer", c.c_uint32),
    ]


class CoffHeader(c.Structure):
    _fields_ = [
        ("machine", c.c_uint16),
        ("number_of_sections", c.c_uint16),
        ("time_date_stamp", c.c_uint32),
        ("pointer_to_symbol_table", c.c_uint32),
        ("number_of_symbol_table", c.c_uint32),
        ("size_of_optional_header", c.c_uint16),
        ("characteristics", c.c_uint16),
    ]


class StandardFields(c.Structure):
    _fields_ = [
        ("magic", c.c_uint16),
        ("major_linker_version", c.c_uint8),
        ("minor_linker_version", c.c_uint8),
        ("size_of_code", c.c_uint64),
        ("size_of_initialized_data", c.c_uint64),
        ("size_of_uninitialized_data", c.c_uint64),
        ("address_of_entry_point", c.c_uint32),
        ("base_of_code", c.c_uint64),
        ("base_of_data", c.c_uint32),
    ]


class WindowsFields(c.Structure):
    _fields_ = [
        ("image_base", c.c_uint64),
        ("section_alignment", c.c_uint32),
        ("file_alignment", c.c_uint32),
        ("major_operating_system_version", c.c_uint16),
        ("minor_operating_system_version", c.c_uint16),
        ("major_image_version", c.c_uint16),
        ("minor_image_version", c.c_uint16),
        ("major_subsystem_version", c.c_uint16),
        ("minor_subsystem_version", c.c_uint16),
        ("win32_version_value", c.c_uint32),
        ("size_of_image", c.c_uint32),
        ("size_of_headers", c.c_uint32),
        ("check_sum", c.c_uint32),
        ("subsystem", c.c_uint16),
        ("dll_characteristics", c.c_uint16),
        ("size_of_stack_reserve", c.c_uint64),
        ("size_of_stack_commit", c.c_uint64),
        ("size_of_heap_reserve", c.c_uint64),
        ("size_of_heap_commit", c.c_uint64),
        ("loader_flags", c.c_uint32),
        ("number_of_rva_and_sizes", c.c_uint32),
    ]


class OptionalHeader(c.Structure):
    _fields_ = [
        ("standard_fields", StandardFields),
        ("windows_fields", WindowsFields),
    ]


class DataDirectory(c.Structure):
    _fields_ = [
        ("virtual_address", c.c_uint32),
        ("size", c.c_uint32),
    ]


class RichHeader(c.Structure):
    _fields_ = [
        ("key", c.c_uint32),
        ("start_offset", c.c_uint32),
        ("end_offset", c.c_uint32),
        ("padding_size", c.c_uint32),
        ("is_present", c.c_bool),
        ("reserved", c.c_uint8 * 3),
    ]


class Image(c.Structure):
    _fields_ = [
        ("bytes", Slice),
        ("options", Options),
        ("section_table", c.c_size_t),
        ("section_count", c.c_size_t),
        ("dos_header", DosHeader),
        ("coff_header", CoffHeader),
        ("has_optional_header", c.c_bool),
        ("is_dos_stub_replaced", c.c_bool),
        ("moved_by", c.c_uint16),
        ("optional_header", OptionalHeader),
        ("directories", DataDirectory * 16),
        ("dos_stub_size", c.c_size_t),
        ("rich_header", RichHeader),
        ("kind", c.c_uint32),
    ]


class ExportCursor(c.Structure):
    _fields_ = [
        ("index", c.c_size_t),
    ]


class Forwarder(c.Structure):
    _fields_ = [
        ("dll", Slice),
        ("name", Slice),
        ("ordinal", c.c_size_t),
        ("kind", c.c_uint32),
        ("is_cut", c.c_bool),
        ("reserved", c.c_uint8 * 3),
    ]


class Export(c.Structure):
    _fields_ = [
        ("name", Slice),
        ("forwarder", Forwarder),
        ("ordinal", c.c_size_t),
        ("hint", c.c_size_t),
        ("rva", c.c_size_t),
        ("name_rva", c.c_size_t),
        ("offset", c.c_size_t),
        ("has_name", c.c_bool),
        ("is_name_cut", c.c_bool),
        ("has_offset", c.c_bool),
        ("reserved", c.c_uint8 * 5),
    ]


class Batch(c.Structure):
    _fields_ = [
        ("count", c.c_size_t),
        ("skipped", c.c_size_t),
        ("unmapped", c.c_size_t),
        ("is_done", c.c_bool),
        ("reserved", c.c_uint8 * 7),
    ]


class Fault(c.Structure):
    _fields_ = [
        ("status", c.c_uint32),
        ("cause", c.c_uint32),
        ("first", c.c_uint64),
        ("second", c.c_uint64),
    ]


class ExportDirectoryTable(c.Structure):
    _fields_ = [
        ("export_flags", c.c_uint32),
        ("time_date_stamp", c.c_uint32),
        ("major_version", c.c_uint16),
        ("minor_version", c.c_uint16),
        ("name_rva", c.c_uint32),
        ("ordinal_base", c.c_uint32),
        ("address_table_entries", c.c_uint32),
        ("number_of_name_pointers", c.c_uint32),
        ("export_address_table_rva", c.c_uint32),
        ("name_pointer_rva", c.c_uint32),
        ("ordinal_table_rva", c.c_uint32),
    ]


class ExportDirectory(c.Structure):
    _fields_ = [
        ("name", Slice),
        ("record", ExportDirectoryTable),
        ("has_name", c.c_bool),
        ("is_name_cut", c.c_bool),
        ("is_present", c.c_bool),
        ("reserved", c.c_uint8 * 5),
    ]


class ExportAddressCursor(c.Structure):
    _fields_ = [
        ("index", c.c_size_t),
    ]


class ExportAddress(c.Structure):
    _fields_ = [
        ("ordinal", c.c_size_t),
        ("rva", c.c_size_t),
        ("offset", c.c_size_t),
        ("is_forwarder", c.c_bool),
        ("has_offset", c.c_bool),
        ("reserved", c.c_uint8 * 6),
    ]


class ImportCursor(c.Structure):
    _fields_ = [
        ("first_record", c.c_size_t),
        ("next_record", c.c_size_t),
        ("library", c.c_size_t),
        ("table_offset", c.c_size_t),
        ("place", c.c_size_t),
        ("tested", c.c_size_t),
        ("name_rva", c.c_uint32),
        ("rva", c.c_uint32),
        ("address_table", c.c_uint32),
        ("is_begun", c.c_bool),
        ("has_next", c.c_bool),
        ("has_place", c.c_bool),
        ("has_address_table", c.c_bool),
        ("has_tested", c.c_bool),
        ("reserved", c.c_uint8 * 7),
    ]


class Import(c.Structure):
    _fields_ = [
        ("name", Slice),
        ("dll", Slice),
        ("iat_rva", c.c_size_t),
        ("hint_name_rva", c.c_size_t),
        ("library_index", c.c_size_t),
        ("thunk_index", c.c_size_t),
        ("hint_or_ordinal", c.c_uint16),
        ("is_by_name", c.c_bool),
        ("has_name", c.c_bool),
        ("is_name_cut", c.c_bool),
        ("is_library_cut", c.c_bool),
        ("reserved", c.c_uint8 * 2),
    ]


class ImportDirectoryEntry(c.Structure):
    _fields_ = [
        ("import_lookup_table_rva", c.c_uint32),
        ("time_date_stamp", c.c_uint32),
        ("forwarder_chain", c.c_uint32),
        ("name_rva", c.c_uint32),
        ("import_address_table_rva", c.c_uint32),
    ]


class Library(c.Structure):
    _fields_ = [
        ("name", Slice),
        ("name_fault", Fault),
        ("index", c.c_size_t),
        ("offset", c.c_size_t),
        ("imports", ImportCursor),
        ("record", ImportDirectoryEntry),
        ("is_skipped", c.c_bool),
        ("is_name_cut", c.c_bool),
        ("reserved", c.c_uint8 * 2),
    ]


class Memory(c.Structure):
    _fields_ = [
        ("bytes", Slice),
        ("zeros", c.c_size_t),
        ("missing", c.c_size_t),
        ("section_index", c.c_size_t),
        ("region", c.c_uint32),
        ("reserved", c.c_uint32),
    ]


class CoffRelocationCursor(c.Structure):
    _fields_ = [
        ("index", c.c_size_t),
        ("offset", c.c_uint32),
        ("count", c.c_uint16),
        ("is_extended", c.c_bool),
        ("reserved", c.c_uint8),
    ]


class Section(c.Structure):
    _fields_ = [
        ("name", Slice),
        ("index", c.c_size_t),
        ("relocations", CoffRelocationCursor),
        ("stored_name", c.c_uint8 * 8),
        ("virtual_size", c.c_uint32),
        ("virtual_address", c.c_uint32),
        ("size_of_raw_data", c.c_uint32),
        ("pointer_to_raw_data", c.c_uint32),
        ("pointer_to_relocations", c.c_uint32),
        ("pointer_to_linenumbers", c.c_uint32),
        ("number_of_relocations", c.c_uint16),
        ("number_of_linenumbers", c.c_uint16),
        ("characteristics", c.c_uint32),
        ("has_long_name", c.c_bool),
        ("is_name_cut", c.c_bool),
        ("reserved", c.c_uint8 * 6),
    ]


class HeaderFaults(c.Structure):
    _fields_ = [
        ("dos_header", Fault),
        ("dos_stub", Fault),
        ("rich_header", Fault),
        ("coff_header", Fault),
        ("standard_fields", Fault),
        ("windows_fields", Fault),
        ("directories", Fault),
        ("section_table", Fault),
        ("section_names", Fault),
    ]


class TeHeader(c.Structure):
    _fields_ = [
        ("signature", c.c_uint16),
        ("machine", c.c_uint16),
        ("number_of_sections", c.c_uint8),
        ("subsystem", c.c_uint8),
        ("stripped_size", c.c_uint16),
        ("entry_point", c.c_uint32),
        ("base_of_code", c.c_uint32),
        ("image_base", c.c_uint64),
        ("reloc_dir", DataDirectory),
        ("debug_dir", DataDirectory),
    ]


class RelocationBlockCursor(c.Structure):
    _fields_ = [
        ("offset", c.c_size_t),
    ]


class BaseRelocationCursor(c.Structure):
    _fields_ = [
        ("offset", c.c_size_t),
        ("end", c.c_size_t),
        ("page_rva", c.c_size_t),
    ]


class RelocationBlock(c.Structure):
    _fields_ = [
        ("rva", c.c_size_t),
        ("size", c.c_uint32),
        ("reserved", c.c_uint32),
        ("relocations", BaseRelocationCursor),
    ]


class SectionCursor(c.Structure):
    _fields_ = [
        ("index", c.c_size_t),
    ]


class RichCursor(c.Structure):
    _fields_ = [
        ("index", c.c_size_t),
    ]


class RichEntry(c.Structure):
    _fields_ = [
        ("build", c.c_uint16),
        ("product", c.c_uint16),
        ("use_count", c.c_uint32),
    ]


class SymbolCursor(c.Structure):
    _fields_ = [
        ("index", c.c_size_t),
    ]


class SymbolRecord(c.Structure):
    _fields_ = [
        ("name", c.c_uint8 * 8),
        ("value", c.c_uint32),
        ("section_number", c.c_int16),
        ("typ", c.c_uint16),
        ("storage_class", c.c_uint8),
        ("number_of_aux_symbols", c.c_uint8),
    ]


class Symbol(c.Structure):
    _fields_ = [
        ("name", Slice),
        ("auxiliary", Slice),
        ("index", c.c_size_t),
        ("record", SymbolRecord),
        ("has_name", c.c_bool),
        ("is_name_cut", c.c_bool),
        ("reserved", c.c_uint8 * 2),
    ]


class CoffRelocation(c.Structure):
    _fields_ = [
        ("virtual_address", c.c_uint32),
        ("symbol_table_index", c.c_uint32),
        ("typ", c.c_uint16),
    ]


class BaseRelocation(c.Structure):
    _fields_ = [
        ("rva", c.c_size_t),
        ("typ", c.c_uint32),
        ("reserved", c.c_uint32),
    ]


class Auxiliary(c.Structure):
    _fields_ = [
        ("tag_index", c.c_uint32),
        ("total_size", c.c_uint32),
        ("pointer_to_line_number", c.c_uint32),
        ("pointer_to_next_function", c.c_uint32),
        ("line_number", c.c_uint16),
        ("number", c.c_uint16),
        ("length", c.c_uint32),
        ("checksum", c.c_uint32),
        ("number_of_relocations", c.c_uint16),
        ("number_of_line_numbers", c.c_uint16),
        ("selection", c.c_uint8),
        ("is_file_cut", c.c_bool),
        ("reserved", c.c_uint8 * 2),
        ("characteristics", c.c_uint32),
        ("file", Slice),
        ("string_offset", c.c_uint32),
        ("reserved2", c.c_uint32),
    ]


# The calls: what each returns and takes.
CALLS: Dict[str, Tuple[Any, List[Any]]] = {
    "goblin_pe_fault_string": (c.c_char_p, [c.POINTER(Fault), c.c_char_p]),
    "goblin_pe_checksum": (c.c_bool, [c.POINTER(Image), c.POINTER(c.c_uint32)]),
    "goblin_pe_next_exports": (Fault, [c.POINTER(Image), c.POINTER(ExportCursor), c.c_void_p, c.c_size_t, c.POINTER(c.c_size_t), c.POINTER(Batch)]),
    "goblin_pe_read_export_directory": (Fault, [c.POINTER(Image), c.POINTER(ExportDirectory)]),
    "goblin_pe_next_export_addresses": (Fault, [c.POINTER(Image), c.POINTER(ExportAddressCursor), c.c_void_p, c.c_size_t, c.POINTER(Batch)]),
    "goblin_pe_forwarder_at": (Fault, [c.POINTER(Image), c.c_size_t, c.POINTER(Forwarder)]),
    "goblin_pe_next_imports": (Fault, [c.POINTER(Image), c.POINTER(ImportCursor), c.c_void_p, c.c_size_t, c.POINTER(c.c_size_t), c.POINTER(Batch)]),
    "goblin_pe_next_libraries": (Fault, [c.POINTER(Image), c.POINTER(ImportCursor), c.c_void_p, c.c_size_t, c.POINTER(c.c_size_t), c.POINTER(Batch)]),
    "goblin_pe_find_offset": (c.c_bool, [c.POINTER(Image), c.c_size_t, c.POINTER(c.c_size_t)]),
    "goblin_pe_find_rva": (c.c_bool, [c.POINTER(Image), c.c_size_t, c.POINTER(c.c_size_t)]),
    "goblin_pe_memory_at": (c.c_bool, [c.POINTER(Image), c.c_size_t, c.c_size_t, c.POINTER(Memory)]),
    "goblin_pe_section_data": (c.c_bool, [c.POINTER(Image), c.POINTER(Section), c.POINTER(Memory)]),
    "goblin_pe_kind_of": (c.c_uint32, [c.c_void_p, c.c_size_t]),
    "goblin_pe_read_image": (Fault, [c.c_void_p, c.c_size_t, c.POINTER(Options), c.POINTER(Image), c.POINTER(HeaderFaults)]),
    "goblin_pe_read_object": (Fault, [c.c_void_p, c.c_size_t, c.POINTER(Options), c.POINTER(Image)]),
    "goblin_pe_read_te": (Fault, [c.c_void_p, c.c_size_t, c.POINTER(Options), c.POINTER(Image), c.POINTER(TeHeader)]),
    "goblin_pe_next_relocation_blocks": (Fault, [c.POINTER(Image), c.POINTER(RelocationBlockCursor), c.c_void_p, c.c_size_t, c.POINTER(Batch)]),
    "goblin_pe_next_sections": (Fault, [c.POINTER(Image), c.POINTER(SectionCursor), c.c_void_p, c.c_size_t, c.POINTER(Batch)]),
    "goblin_pe_next_rich_entries": (Fault, [c.POINTER(Image), c.POINTER(RichCursor), c.c_void_p, c.c_size_t, c.POINTER(Batch)]),
    "goblin_pe_next_symbols": (Fault, [c.POINTER(Image), c.POINTER(SymbolCursor), c.c_void_p, c.c_size_t, c.POINTER(Batch)]),
    "goblin_pe_next_coff_relocations": (Fault, [c.POINTER(Image), c.POINTER(CoffRelocationCursor), c.c_void_p, c.c_size_t, c.POINTER(Batch)]),
    "goblin_pe_next_base_relocations": (Fault, [c.POINTER(Image), c.POINTER(BaseRelocationCursor), c.c_void_p, c.c_size_t, c.POINTER(Batch)]),
    "goblin_pe_string_at": (c.c_bool, [c.POINTER(Image), c.c_size_t, c.POINTER(Slice)]),
    "goblin_pe_read_auxiliary": (c.c_uint32, [c.POINTER(Image), c.POINTER(Symbol), c.POINTER(Auxiliary)]),
    "goblin_pe_write_header": (Fault, [c.POINTER(Image), c.c_void_p, c.c_size_t, c.POINTER(c.c_size_t)]),
    "goblin_pe_write_section": (Fault, [c.POINTER(Section), c.c_void_p, c.c_size_t, c.POINTER(c.c_size_t)]),
}
