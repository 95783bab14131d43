//! The records and the calls of the library, as `goblin_pe.h` declares them.
//! bindings/generate.py makes this file of what the proved crates declare.
#![allow(dead_code, missing_docs, unreachable_pub, clippy::missing_safety_doc)]

use std::marker::PhantomData;
use std::mem::offset_of;

use crate::headers::{
    CoffHeader, DataDirectory, DosHeader, OptionalHeader, StandardFields, TeHeader, WindowsFields,
};

/// The number of this interface.
pub const INTERFACE: u32 = 0x431a_d519;

// Programs link only with a library of this interface, as no other one has this call.
#[used]
static NEEDS_INTERFACE: extern "C" fn() -> u32 = goblin_pe_interface_431ad519;

/// Bytes of the file.
#[repr(C)]
#[derive(Clone, Copy)]
pub struct Slice<'a> {
    bytes: *const u8,
    length: usize,
    of: PhantomData<&'a [u8]>,
}

// SAFETY: it is a `&[u8]`.
unsafe impl Send for Slice<'_> {}
// SAFETY: it is a `&[u8]`.
unsafe impl Sync for Slice<'_> {}

impl<'a> Slice<'a> {
    pub const fn of(bytes: &'a [u8]) -> Slice<'a> {
        Slice {
            bytes: bytes.as_ptr(),
            length: bytes.len(),
            of: PhantomData,
        }
    }

    pub const fn get(self) -> &'a [u8] {
        // SAFETY: it was made of a slice, or the library filled it in, which stores slices of bytes that live for `'a`.
        unsafe { std::slice::from_raw_parts(self.bytes, self.length) }
    }
}

impl Default for Slice<'_> {
    fn default() -> Self {
        Slice::of(&[])
    }
}

#[repr(C)]
#[derive(Clone, Copy, Default, Debug, PartialEq, Eq, Hash)]
pub struct Options {
    pub mapping: u32,
    pub is_permissive: bool,
    pub reserved: [u8; 3],
    pub longest_name: usize,
}

#[repr(C)]
#[derive(Clone, Copy, Default, Debug, PartialEq, Eq, Hash)]
pub struct RichHeader {
    pub key: u32,
    pub start_offset: u32,
    pub end_offset: u32,
    pub padding_size: u32,
    pub is_present: bool,
    pub reserved: [u8; 3],
}

#[repr(C)]
#[derive(Clone, Copy, Default)]
pub struct Image<'a> {
    pub bytes: Slice<'a>,
    pub options: Options,
    pub section_table: usize,
    pub section_count: usize,
    pub dos_header: DosHeader,
    pub coff_header: CoffHeader,
    pub has_optional_header: bool,
    pub is_dos_stub_replaced: bool,
    pub moved_by: u16,
    pub optional_header: OptionalHeader,
    pub directories: [DataDirectory; 16],
    pub dos_stub_size: usize,
    pub rich_header: RichHeader,
    pub kind: u32,
}

#[repr(C)]
#[derive(Clone, Copy, Default, Debug, PartialEq, Eq, Hash)]
pub struct ExportCursor {
    pub index: usize,
}

#[repr(C)]
#[derive(Clone, Copy, Default)]
pub struct Forwarder<'a> {
    pub dll: Slice<'a>,
    pub name: Slice<'a>,
    pub ordinal: usize,
    pub kind: u32,
    pub is_cut: bool,
    pub reserved: [u8; 3],
}

#[repr(C)]
#[derive(Clone, Copy, Default)]
pub struct Export<'a> {
    pub name: Slice<'a>,
    pub forwarder: Forwarder<'a>,
    pub ordinal: usize,
    pub hint: usize,
    pub rva: usize,
    pub name_rva: usize,
    pub offset: usize,
    pub has_name: bool,
    pub is_name_cut: bool,
    pub has_offset: bool,
    pub reserved: [u8; 5],
}

#[repr(C)]
#[derive(Clone, Copy, Default, Debug, PartialEq, Eq, Hash)]
pub struct Batch {
    pub count: usize,
    pub skipped: usize,
    pub unmapped: usize,
    pub is_done: bool,
    pub reserved: [u8; 7],
}

#[repr(C)]
#[derive(Clone, Copy, Default, Debug, PartialEq, Eq, Hash)]
pub struct Fault {
    pub status: u32,
    pub cause: u32,
    pub first: u64,
    pub second: u64,
}

#[repr(C)]
#[derive(Clone, Copy, Default, Debug, PartialEq, Eq, Hash)]
pub struct ExportDirectoryTable {
    pub export_flags: u32,
    pub time_date_stamp: u32,
    pub major_version: u16,
    pub minor_version: u16,
    pub name_rva: u32,
    pub ordinal_base: u32,
    pub address_table_entries: u32,
    pub number_of_name_pointers: u32,
    pub export_address_table_rva: u32,
    pub name_pointer_rva: u32,
    pub ordinal_table_rva: u32,
}

#[repr(C)]
#[derive(Clone, Copy, Default)]
pub struct ExportDirectory<'a> {
    pub name: Slice<'a>,
    pub record: ExportDirectoryTable,
    pub has_name: bool,
    pub is_name_cut: bool,
    pub is_present: bool,
    pub reserved: [u8; 5],
}

#[repr(C)]
#[derive(Clone, Copy, Default, Debug, PartialEq, Eq, Hash)]
pub struct ExportAddressCursor {
    pub index: usize,
}

#[repr(C)]
#[derive(Clone, Copy, Default, Debug, PartialEq, Eq, Hash)]
pub struct ExportAddress {
    pub ordinal: usize,
    pub rva: usize,
    pub offset: usize,
    pub is_forwarder: bool,
    pub has_offset: bool,
    pub reserved: [u8; 6],
}

#[repr(C)]
#[derive(Clone, Copy, Default, Debug, PartialEq, Eq, Hash)]
pub struct ImportCursor {
    pub first_record: usize,
    pub next_record: usize,
    pub library: usize,
    pub table_offset: usize,
    pub place: usize,
    pub tested: usize,
    pub name_rva: u32,
    pub rva: u32,
    pub address_table: u32,
    pub is_begun: bool,
    pub has_next: bool,
    pub has_place: bool,
    pub has_address_table: bool,
    pub has_tested: bool,
    pub reserved: [u8; 7],
}

#[repr(C)]
#[derive(Clone, Copy, Default)]
pub struct Import<'a> {
    pub name: Slice<'a>,
    pub dll: Slice<'a>,
    pub iat_rva: usize,
    pub hint_name_rva: usize,
    pub library_index: usize,
    pub thunk_index: usize,
    pub hint_or_ordinal: u16,
    pub is_by_name: bool,
    pub has_name: bool,
    pub is_name_cut: bool,
    pub is_library_cut: bool,
    pub reserved: [u8; 2],
}

#[repr(C)]
#[derive(Clone, Copy, Default, Debug, PartialEq, Eq, Hash)]
pub struct ImportDirectoryEntry {
    pub import_lookup_table_rva: u32,
    pub time_date_stamp: u32,
    pub forwarder_chain: u32,
    pub name_rva: u32,
    pub import_address_table_rva: u32,
}

#[repr(C)]
#[derive(Clone, Copy, Default)]
pub struct Library<'a> {
    pub name: Slice<'a>,
    pub name_fault: Fault,
    pub index: usize,
    pub offset: usize,
    pub imports: ImportCursor,
    pub record: ImportDirectoryEntry,
    pub is_skipped: bool,
    pub is_name_cut: bool,
    pub reserved: [u8; 2],
}

#[repr(C)]
#[derive(Clone, Copy, Default)]
pub struct Memory<'a> {
    pub bytes: Slice<'a>,
    pub zeros: usize,
    pub missing: usize,
    pub section_index: usize,
    pub region: u32,
    pub reserved: u32,
}

#[repr(C)]
#[derive(Clone, Copy, Default, Debug, PartialEq, Eq, Hash)]
pub struct CoffRelocationCursor {
    pub index: usize,
    pub offset: u32,
    pub count: u16,
    pub is_extended: bool,
    pub reserved: u8,
}

#[repr(C)]
#[derive(Clone, Copy, Default)]
pub struct Section<'a> {
    pub name: Slice<'a>,
    pub index: usize,
    pub relocations: CoffRelocationCursor,
    pub stored_name: [u8; 8],
    pub virtual_size: u32,
    pub virtual_address: u32,
    pub size_of_raw_data: u32,
    pub pointer_to_raw_data: u32,
    pub pointer_to_relocations: u32,
    pub pointer_to_linenumbers: u32,
    pub number_of_relocations: u16,
    pub number_of_linenumbers: u16,
    pub characteristics: u32,
    pub has_long_name: bool,
    pub is_name_cut: bool,
    pub reserved: [u8; 6],
}

#[repr(C)]
#[derive(Clone, Copy, Default, Debug, PartialEq, Eq, Hash)]
pub struct HeaderFaults {
    pub dos_header: Fault,
    pub dos_stub: Fault,
    pub rich_header: Fault,
    pub coff_header: Fault,
    pub standard_fields: Fault,
    pub windows_fields: Fault,
    pub directories: Fault,
    pub section_table: Fault,
    pub section_names: Fault,
}

#[repr(C)]
#[derive(Clone, Copy, Default, Debug, PartialEq, Eq, Hash)]
pub struct RelocationBlockCursor {
    pub offset: usize,
}

#[repr(C)]
#[derive(Clone, Copy, Default, Debug, PartialEq, Eq, Hash)]
pub struct BaseRelocationCursor {
    pub offset: usize,
    pub end: usize,
    pub page_rva: usize,
}

#[repr(C)]
#[derive(Clone, Copy, Default, Debug, PartialEq, Eq, Hash)]
pub struct RelocationBlock {
    pub rva: usize,
    pub size: u32,
    pub reserved: u32,
    pub relocations: BaseRelocationCursor,
}

#[repr(C)]
#[derive(Clone, Copy, Default, Debug, PartialEq, Eq, Hash)]
pub struct SectionCursor {
    pub index: usize,
}

#[repr(C)]
#[derive(Clone, Copy, Default, Debug, PartialEq, Eq, Hash)]
pub struct RichCursor {
    pub index: usize,
}

#[repr(C)]
#[derive(Clone, Copy, Default, Debug, PartialEq, Eq, Hash)]
pub struct RichEntry {
    pub build: u16,
    pub product: u16,
    pub use_count: u32,
}

#[repr(C)]
#[derive(Clone, Copy, Default, Debug, PartialEq, Eq, Hash)]
pub struct SymbolCursor {
    pub index: usize,
}

#[repr(C)]
#[derive(Clone, Copy, Default, Debug, PartialEq, Eq, Hash)]
pub struct SymbolRecord {
    pub name: [u8; 8],
    pub value: u32,
    pub section_number: i16,
    pub typ: u16,
    pub storage_class: u8,
    pub number_of_aux_symbols: u8,
}

#[repr(C)]
#[derive(Clone, Copy, Default)]
pub struct Symbol<'a> {
    pub name: Slice<'a>,
    pub auxiliary: Slice<'a>,
    pub index: usize,
    pub record: SymbolRecord,
    pub has_name: bool,
    pub is_name_cut: bool,
    pub reserved: [u8; 2],
}

#[repr(C)]
#[derive(Clone, Copy, Default, Debug, PartialEq, Eq, Hash)]
pub struct CoffRelocation {
    pub virtual_address: u32,
    pub symbol_table_index: u32,
    pub typ: u16,
}

#[repr(C)]
#[derive(Clone, Copy, Default, Debug, PartialEq, Eq, Hash)]
pub struct BaseRelocation {
    pub rva: usize,
    pub typ: u32,
    pub reserved: u32,
}

#[repr(C)]
#[derive(Clone, Copy, Default)]
pub struct Auxiliary<'a> {
    pub tag_index: u32,
    pub total_size: u32,
    pub pointer_to_line_number: u32,
    pub pointer_to_next_function: u32,
    pub line_number: u16,
    pub number: u16,
    pub length: u32,
    pub checksum: u32,
    pub number_of_relocations: u16,
    pub number_of_line_numbers: u16,
    pub selection: u8,
    pub is_file_cut: bool,
    pub reserved: [u8; 2],
    pub characteristics: u32,
    pub file: Slice<'a>,
    pub string_offset: u32,
    pub reserved2: u32,
}

// How the records lie in memory.
const _: () = {
    assert!(size_of::<Slice>() == 16 && align_of::<Slice>() == 8);
    assert!(offset_of!(Slice, bytes) == 0);
    assert!(offset_of!(Slice, length) == 8);
    assert!(size_of::<Options>() == 16 && align_of::<Options>() == 8);
    assert!(offset_of!(Options, mapping) == 0);
    assert!(offset_of!(Options, is_permissive) == 4);
    assert!(offset_of!(Options, reserved) == 5);
    assert!(offset_of!(Options, longest_name) == 8);
    assert!(size_of::<DosHeader>() == 64 && align_of::<DosHeader>() == 4);
    assert!(offset_of!(DosHeader, signature) == 0);
    assert!(offset_of!(DosHeader, bytes_on_last_page) == 2);
    assert!(offset_of!(DosHeader, pages_in_file) == 4);
    assert!(offset_of!(DosHeader, relocations) == 6);
    assert!(offset_of!(DosHeader, size_of_header_in_paragraphs) == 8);
    assert!(offset_of!(DosHeader, minimum_extra_paragraphs_needed) == 10);
    assert!(offset_of!(DosHeader, maximum_extra_paragraphs_needed) == 12);
    assert!(offset_of!(DosHeader, initial_relative_ss) == 14);
    assert!(offset_of!(DosHeader, initial_sp) == 16);
    assert!(offset_of!(DosHeader, checksum) == 18);
    assert!(offset_of!(DosHeader, initial_ip) == 20);
    assert!(offset_of!(DosHeader, initial_relative_cs) == 22);
    assert!(offset_of!(DosHeader, file_address_of_relocation_table) == 24);
    assert!(offset_of!(DosHeader, overlay_number) == 26);
    assert!(offset_of!(DosHeader, reserved) == 28);
    assert!(offset_of!(DosHeader, oem_id) == 36);
    assert!(offset_of!(DosHeader, oem_info) == 38);
    assert!(offset_of!(DosHeader, reserved2) == 40);
    assert!(offset_of!(DosHeader, pe_pointer) == 60);
    assert!(size_of::<CoffHeader>() == 20 && align_of::<CoffHeader>() == 4);
    assert!(offset_of!(CoffHeader, machine) == 0);
    assert!(offset_of!(CoffHeader, number_of_sections) == 2);
    assert!(offset_of!(CoffHeader, time_date_stamp) == 4);
    assert!(offset_of!(CoffHeader, pointer_to_symbol_table) == 8);
    assert!(offset_of!(CoffHeader, number_of_symbol_table) == 12);
    assert!(offset_of!(CoffHeader, size_of_optional_header) == 16);
    assert!(offset_of!(CoffHeader, characteristics) == 18);
    assert!(size_of::<StandardFields>() == 56 && align_of::<StandardFields>() == 8);
    assert!(offset_of!(StandardFields, magic) == 0);
    assert!(offset_of!(StandardFields, major_linker_version) == 2);
    assert!(offset_of!(StandardFields, minor_linker_version) == 3);
    assert!(offset_of!(StandardFields, size_of_code) == 8);
    assert!(offset_of!(StandardFields, size_of_initialized_data) == 16);
    assert!(offset_of!(StandardFields, size_of_uninitialized_data) == 24);
    assert!(offset_of!(StandardFields, address_of_entry_point) == 32);
    assert!(offset_of!(StandardFields, base_of_code) == 40);
    assert!(offset_of!(StandardFields, base_of_data) == 48);
    assert!(size_of::<WindowsFields>() == 88 && align_of::<WindowsFields>() == 8);
    assert!(offset_of!(WindowsFields, image_base) == 0);
    assert!(offset_of!(WindowsFields, section_alignment) == 8);
    assert!(offset_of!(WindowsFields, file_alignment) == 12);
    assert!(offset_of!(WindowsFields, major_operating_system_version) == 16);
    assert!(offset_of!(WindowsFields, minor_operating_system_version) == 18);
    assert!(offset_of!(WindowsFields, major_image_version) == 20);
    assert!(offset_of!(WindowsFields, minor_image_version) == 22);
    assert!(offset_of!(WindowsFields, major_subsystem_version) == 24);
    assert!(offset_of!(WindowsFields, minor_subsystem_version) == 26);
    assert!(offset_of!(WindowsFields, win32_version_value) == 28);
    assert!(offset_of!(WindowsFields, size_of_image) == 32);
    assert!(offset_of!(WindowsFields, size_of_headers) == 36);
    assert!(offset_of!(WindowsFields, check_sum) == 40);
    assert!(offset_of!(WindowsFields, subsystem) == 44);
    assert!(offset_of!(WindowsFields, dll_characteristics) == 46);
    assert!(offset_of!(WindowsFields, size_of_stack_reserve) == 48);
    assert!(offset_of!(WindowsFields, size_of_stack_commit) == 56);
    assert!(offset_of!(WindowsFields, size_of_heap_reserve) == 64);
    assert!(offset_of!(WindowsFields, size_of_heap_commit) == 72);
    assert!(offset_of!(WindowsFields, loader_flags) == 80);
    assert!(offset_of!(WindowsFields, number_of_rva_and_sizes) == 84);
    assert!(size_of::<OptionalHeader>() == 144 && align_of::<OptionalHeader>() == 8);
    assert!(offset_of!(OptionalHeader, standard_fields) == 0);
    assert!(offset_of!(OptionalHeader, windows_fields) == 56);
    assert!(size_of::<DataDirectory>() == 8 && align_of::<DataDirectory>() == 4);
    assert!(offset_of!(DataDirectory, virtual_address) == 0);
    assert!(offset_of!(DataDirectory, size) == 4);
    assert!(size_of::<RichHeader>() == 20 && align_of::<RichHeader>() == 4);
    assert!(offset_of!(RichHeader, key) == 0);
    assert!(offset_of!(RichHeader, start_offset) == 4);
    assert!(offset_of!(RichHeader, end_offset) == 8);
    assert!(offset_of!(RichHeader, padding_size) == 12);
    assert!(offset_of!(RichHeader, is_present) == 16);
    assert!(offset_of!(RichHeader, reserved) == 17);
    assert!(size_of::<Image>() == 440 && align_of::<Image>() == 8);
    assert!(offset_of!(Image, bytes) == 0);
    assert!(offset_of!(Image, options) == 16);
    assert!(offset_of!(Image, section_table) == 32);
    assert!(offset_of!(Image, section_count) == 40);
    assert!(offset_of!(Image, dos_header) == 48);
    assert!(offset_of!(Image, coff_header) == 112);
    assert!(offset_of!(Image, has_optional_header) == 132);
    assert!(offset_of!(Image, is_dos_stub_replaced) == 133);
    assert!(offset_of!(Image, moved_by) == 134);
    assert!(offset_of!(Image, optional_header) == 136);
    assert!(offset_of!(Image, directories) == 280);
    assert!(offset_of!(Image, dos_stub_size) == 408);
    assert!(offset_of!(Image, rich_header) == 416);
    assert!(offset_of!(Image, kind) == 436);
    assert!(size_of::<ExportCursor>() == 8 && align_of::<ExportCursor>() == 8);
    assert!(offset_of!(ExportCursor, index) == 0);
    assert!(size_of::<Forwarder>() == 48 && align_of::<Forwarder>() == 8);
    assert!(offset_of!(Forwarder, dll) == 0);
    assert!(offset_of!(Forwarder, name) == 16);
    assert!(offset_of!(Forwarder, ordinal) == 32);
    assert!(offset_of!(Forwarder, kind) == 40);
    assert!(offset_of!(Forwarder, is_cut) == 44);
    assert!(offset_of!(Forwarder, reserved) == 45);
    assert!(size_of::<Export>() == 112 && align_of::<Export>() == 8);
    assert!(offset_of!(Export, name) == 0);
    assert!(offset_of!(Export, forwarder) == 16);
    assert!(offset_of!(Export, ordinal) == 64);
    assert!(offset_of!(Export, hint) == 72);
    assert!(offset_of!(Export, rva) == 80);
    assert!(offset_of!(Export, name_rva) == 88);
    assert!(offset_of!(Export, offset) == 96);
    assert!(offset_of!(Export, has_name) == 104);
    assert!(offset_of!(Export, is_name_cut) == 105);
    assert!(offset_of!(Export, has_offset) == 106);
    assert!(offset_of!(Export, reserved) == 107);
    assert!(size_of::<Batch>() == 32 && align_of::<Batch>() == 8);
    assert!(offset_of!(Batch, count) == 0);
    assert!(offset_of!(Batch, skipped) == 8);
    assert!(offset_of!(Batch, unmapped) == 16);
    assert!(offset_of!(Batch, is_done) == 24);
    assert!(offset_of!(Batch, reserved) == 25);
    assert!(size_of::<Fault>() == 24 && align_of::<Fault>() == 8);
    assert!(offset_of!(Fault, status) == 0);
    assert!(offset_of!(Fault, cause) == 4);
    assert!(offset_of!(Fault, first) == 8);
    assert!(offset_of!(Fault, second) == 16);
    assert!(size_of::<ExportDirectoryTable>() == 40 && align_of::<ExportDirectoryTable>() == 4);
    assert!(offset_of!(ExportDirectoryTable, export_flags) == 0);
    assert!(offset_of!(ExportDirectoryTable, time_date_stamp) == 4);
    assert!(offset_of!(ExportDirectoryTable, major_version) == 8);
    assert!(offset_of!(ExportDirectoryTable, minor_version) == 10);
    assert!(offset_of!(ExportDirectoryTable, name_rva) == 12);
    assert!(offset_of!(ExportDirectoryTable, ordinal_base) == 16);
    assert!(offset_of!(ExportDirectoryTable, address_table_entries) == 20);
    assert!(offset_of!(ExportDirectoryTable, number_of_name_pointers) == 24);
    assert!(offset_of!(ExportDirectoryTable, export_address_table_rva) == 28);
    assert!(offset_of!(ExportDirectoryTable, name_pointer_rva) == 32);
    assert!(offset_of!(ExportDirectoryTable, ordinal_table_rva) == 36);
    assert!(size_of::<ExportDirectory>() == 64 && align_of::<ExportDirectory>() == 8);
    assert!(offset_of!(ExportDirectory, name) == 0);
    assert!(offset_of!(ExportDirectory, record) == 16);
    assert!(offset_of!(ExportDirectory, has_name) == 56);
    assert!(offset_of!(ExportDirectory, is_name_cut) == 57);
    assert!(offset_of!(ExportDirectory, is_present) == 58);
    assert!(offset_of!(ExportDirectory, reserved) == 59);
    assert!(size_of::<ExportAddressCursor>() == 8 && align_of::<ExportAddressCursor>() == 8);
    assert!(offset_of!(ExportAddressCursor, index) == 0);
    assert!(size_of::<ExportAddress>() == 32 && align_of::<ExportAddress>() == 8);
    assert!(offset_of!(ExportAddress, ordinal) == 0);
    assert!(offset_of!(ExportAddress, rva) == 8);
    assert!(offset_of!(ExportAddress, offset) == 16);
    assert!(offset_of!(ExportAddress, is_forwarder) == 24);
    assert!(offset_of!(ExportAddress, has_offset) == 25);
    assert!(offset_of!(ExportAddress, reserved) == 26);
    assert!(size_of::<ImportCursor>() == 72 && align_of::<ImportCursor>() == 8);
    assert!(offset_of!(ImportCursor, first_record) == 0);
    assert!(offset_of!(ImportCursor, next_record) == 8);
    assert!(offset_of!(ImportCursor, library) == 16);
    assert!(offset_of!(ImportCursor, table_offset) == 24);
    assert!(offset_of!(ImportCursor, place) == 32);
    assert!(offset_of!(ImportCursor, tested) == 40);
    assert!(offset_of!(ImportCursor, name_rva) == 48);
    assert!(offset_of!(ImportCursor, rva) == 52);
    assert!(offset_of!(ImportCursor, address_table) == 56);
    assert!(offset_of!(ImportCursor, is_begun) == 60);
    assert!(offset_of!(ImportCursor, has_next) == 61);
    assert!(offset_of!(ImportCursor, has_place) == 62);
    assert!(offset_of!(ImportCursor, has_address_table) == 63);
    assert!(offset_of!(ImportCursor, has_tested) == 64);
    assert!(offset_of!(ImportCursor, reserved) == 65);
    assert!(size_of::<Import>() == 72 && align_of::<Import>() == 8);
    assert!(offset_of!(Import, name) == 0);
    assert!(offset_of!(Import, dll) == 16);
    assert!(offset_of!(Import, iat_rva) == 32);
    assert!(offset_of!(Import, hint_name_rva) == 40);
    assert!(offset_of!(Import, library_index) == 48);
    assert!(offset_of!(Import, thunk_index) == 56);
    assert!(offset_of!(Import, hint_or_ordinal) == 64);
    assert!(offset_of!(Import, is_by_name) == 66);
    assert!(offset_of!(Import, has_name) == 67);
    assert!(offset_of!(Import, is_name_cut) == 68);
    assert!(offset_of!(Import, is_library_cut) == 69);
    assert!(offset_of!(Import, reserved) == 70);
    assert!(size_of::<ImportDirectoryEntry>() == 20 && align_of::<ImportDirectoryEntry>() == 4);
    assert!(offset_of!(ImportDirectoryEntry, import_lookup_table_rva) == 0);
    assert!(offset_of!(ImportDirectoryEntry, time_date_stamp) == 4);
    assert!(offset_of!(ImportDirectoryEntry, forwarder_chain) == 8);
    assert!(offset_of!(ImportDirectoryEntry, name_rva) == 12);
    assert!(offset_of!(ImportDirectoryEntry, import_address_table_rva) == 16);
    assert!(size_of::<Library>() == 152 && align_of::<Library>() == 8);
    assert!(offset_of!(Library, name) == 0);
    assert!(offset_of!(Library, name_fault) == 16);
    assert!(offset_of!(Library, index) == 40);
    assert!(offset_of!(Library, offset) == 48);
    assert!(offset_of!(Library, imports) == 56);
    assert!(offset_of!(Library, record) == 128);
    assert!(offset_of!(Library, is_skipped) == 148);
    assert!(offset_of!(Library, is_name_cut) == 149);
    assert!(offset_of!(Library, reserved) == 150);
    assert!(size_of::<Memory>() == 48 && align_of::<Memory>() == 8);
    assert!(offset_of!(Memory, bytes) == 0);
    assert!(offset_of!(Memory, zeros) == 16);
    assert!(offset_of!(Memory, missing) == 24);
    assert!(offset_of!(Memory, section_index) == 32);
    assert!(offset_of!(Memory, region) == 40);
    assert!(offset_of!(Memory, reserved) == 44);
    assert!(size_of::<CoffRelocationCursor>() == 16 && align_of::<CoffRelocationCursor>() == 8);
    assert!(offset_of!(CoffRelocationCursor, index) == 0);
    assert!(offset_of!(CoffRelocationCursor, offset) == 8);
    assert!(offset_of!(CoffRelocationCursor, count) == 12);
    assert!(offset_of!(CoffRelocationCursor, is_extended) == 14);
    assert!(offset_of!(CoffRelocationCursor, reserved) == 15);
    assert!(size_of::<Section>() == 88 && align_of::<Section>() == 8);
    assert!(offset_of!(Section, name) == 0);
    assert!(offset_of!(Section, index) == 16);
    assert!(offset_of!(Section, relocations) == 24);
    assert!(offset_of!(Section, stored_name) == 40);
    assert!(offset_of!(Section, virtual_size) == 48);
    assert!(offset_of!(Section, virtual_address) == 52);
    assert!(offset_of!(Section, size_of_raw_data) == 56);
    assert!(offset_of!(Section, pointer_to_raw_data) == 60);
    assert!(offset_of!(Section, pointer_to_relocations) == 64);
    assert!(offset_of!(Section, pointer_to_linenumbers) == 68);
    assert!(offset_of!(Section, number_of_relocations) == 72);
    assert!(offset_of!(Section, number_of_linenumbers) == 74);
    assert!(offset_of!(Section, characteristics) == 76);
    assert!(offset_of!(Section, has_long_name) == 80);
    assert!(offset_of!(Section, is_name_cut) == 81);
    assert!(offset_of!(Section, reserved) == 82);
    assert!(size_of::<HeaderFaults>() == 216 && align_of::<HeaderFaults>() == 8);
    assert!(offset_of!(HeaderFaults, dos_header) == 0);
    assert!(offset_of!(HeaderFaults, dos_stub) == 24);
    assert!(offset_of!(HeaderFaults, rich_header) == 48);
    assert!(offset_of!(HeaderFaults, coff_header) == 72);
    assert!(offset_of!(HeaderFaults, standard_fields) == 96);
    assert!(offset_of!(HeaderFaults, windows_fields) == 120);
    assert!(offset_of!(HeaderFaults, directories) == 144);
    assert!(offset_of!(HeaderFaults, section_table) == 168);
    assert!(offset_of!(HeaderFaults, section_names) == 192);
    assert!(size_of::<TeHeader>() == 40 && align_of::<TeHeader>() == 8);
    assert!(offset_of!(TeHeader, signature) == 0);
    assert!(offset_of!(TeHeader, machine) == 2);
    assert!(offset_of!(TeHeader, number_of_sections) == 4);
    assert!(offset_of!(TeHeader, subsystem) == 5);
    assert!(offset_of!(TeHeader, stripped_size) == 6);
    assert!(offset_of!(TeHeader, entry_point) == 8);
    assert!(offset_of!(TeHeader, base_of_code) == 12);
    assert!(offset_of!(TeHeader, image_base) == 16);
    assert!(offset_of!(TeHeader, reloc_dir) == 24);
    assert!(offset_of!(TeHeader, debug_dir) == 32);
    assert!(size_of::<RelocationBlockCursor>() == 8 && align_of::<RelocationBlockCursor>() == 8);
    assert!(offset_of!(RelocationBlockCursor, offset) == 0);
    assert!(size_of::<BaseRelocationCursor>() == 24 && align_of::<BaseRelocationCursor>() == 8);
    assert!(offset_of!(BaseRelocationCursor, offset) == 0);
    assert!(offset_of!(BaseRelocationCursor, end) == 8);
    assert!(offset_of!(BaseRelocationCursor, page_rva) == 16);
    assert!(size_of::<RelocationBlock>() == 40 && align_of::<RelocationBlock>() == 8);
    assert!(offset_of!(RelocationBlock, rva) == 0);
    assert!(offset_of!(RelocationBlock, size) == 8);
    assert!(offset_of!(RelocationBlock, reserved) == 12);
    assert!(offset_of!(RelocationBlock, relocations) == 16);
    assert!(size_of::<SectionCursor>() == 8 && align_of::<SectionCursor>() == 8);
    assert!(offset_of!(SectionCursor, index) == 0);
    assert!(size_of::<RichCursor>() == 8 && align_of::<RichCursor>() == 8);
    assert!(offset_of!(RichCursor, index) == 0);
    assert!(size_of::<RichEntry>() == 8 && align_of::<RichEntry>() == 4);
    assert!(offset_of!(RichEntry, build) == 0);
    assert!(offset_of!(RichEntry, product) == 2);
    assert!(offset_of!(RichEntry, use_count) == 4);
    assert!(size_of::<SymbolCursor>() == 8 && align_of::<SymbolCursor>() == 8);
    assert!(offset_of!(SymbolCursor, index) == 0);
    assert!(size_of::<SymbolRecord>() == 20 && align_of::<SymbolRecord>() == 4);
    assert!(offset_of!(SymbolRecord, name) == 0);
    assert!(offset_of!(SymbolRecord, value) == 8);
    assert!(offset_of!(SymbolRecord, section_number) == 12);
    assert!(offset_of!(SymbolRecord, typ) == 14);
    assert!(offset_of!(SymbolRecord, storage_class) == 16);
    assert!(offset_of!(SymbolRecord, number_of_aux_symbols) == 17);
    assert!(size_of::<Symbol>() == 64 && align_of::<Symbol>() == 8);
    assert!(offset_of!(Symbol, name) == 0);
    assert!(offset_of!(Symbol, auxiliary) == 16);
    assert!(offset_of!(Symbol, index) == 32);
    assert!(offset_of!(Symbol, record) == 40);
    assert!(offset_of!(Symbol, has_name) == 60);
    assert!(offset_of!(Symbol, is_name_cut) == 61);
    assert!(offset_of!(Symbol, reserved) == 62);
    assert!(size_of::<CoffRelocation>() == 12 && align_of::<CoffRelocation>() == 4);
    assert!(offset_of!(CoffRelocation, virtual_address) == 0);
    assert!(offset_of!(CoffRelocation, symbol_table_index) == 4);
    assert!(offset_of!(CoffRelocation, typ) == 8);
    assert!(size_of::<BaseRelocation>() == 16 && align_of::<BaseRelocation>() == 8);
    assert!(offset_of!(BaseRelocation, rva) == 0);
    assert!(offset_of!(BaseRelocation, typ) == 8);
    assert!(offset_of!(BaseRelocation, reserved) == 12);
    assert!(size_of::<Auxiliary>() == 64 && align_of::<Auxiliary>() == 8);
    assert!(offset_of!(Auxiliary, tag_index) == 0);
    assert!(offset_of!(Auxiliary, total_size) == 4);
    assert!(offset_of!(Auxiliary, pointer_to_line_number) == 8);
    assert!(offset_of!(Auxiliary, pointer_to_next_function) == 12);
    assert!(offset_of!(Auxiliary, line_number) == 16);
    assert!(offset_of!(Auxiliary, number) == 18);
    assert!(offset_of!(Auxiliary, length) == 20);
    assert!(offset_of!(Auxiliary, checksum) == 24);
    assert!(offset_of!(Auxiliary, number_of_relocations) == 28);
    assert!(offset_of!(Auxiliary, number_of_line_numbers) == 30);
    assert!(offset_of!(Auxiliary, selection) == 32);
    assert!(offset_of!(Auxiliary, is_file_cut) == 33);
    assert!(offset_of!(Auxiliary, reserved) == 34);
    assert!(offset_of!(Auxiliary, characteristics) == 36);
    assert!(offset_of!(Auxiliary, file) == 40);
    assert!(offset_of!(Auxiliary, string_offset) == 56);
    assert!(offset_of!(Auxiliary, reserved2) == 60);
};

#[rustfmt::skip]
unsafe extern "C" {
    pub safe fn goblin_pe_interface() -> u32;
    safe fn goblin_pe_interface_431ad519() -> u32;
    pub safe fn goblin_pe_fault_string(fault: &Fault, text: &mut [u8; 256]) -> *const u8;
    pub safe fn goblin_pe_checksum<'a>(image: &Image<'a>, sum: &mut u32) -> bool;
    pub fn goblin_pe_next_exports<'a>(image: &Image<'a>, cursor: &mut ExportCursor, exports: *mut Export<'a>, room: usize, steps: &mut usize, batch: &mut Batch) -> Fault;
    pub safe fn goblin_pe_read_export_directory<'a>(image: &Image<'a>, directory: &mut ExportDirectory<'a>) -> Fault;
    pub fn goblin_pe_next_export_addresses<'a>(image: &Image<'a>, cursor: &mut ExportAddressCursor, addresses: *mut ExportAddress, room: usize, batch: &mut Batch) -> Fault;
    pub safe fn goblin_pe_forwarder_at<'a>(image: &Image<'a>, rva: usize, forwarder: &mut Forwarder<'a>) -> Fault;
    pub fn goblin_pe_next_imports<'a>(image: &Image<'a>, cursor: &mut ImportCursor, imports: *mut Import<'a>, room: usize, steps: &mut usize, batch: &mut Batch) -> Fault;
    pub fn goblin_pe_next_libraries<'a>(image: &Image<'a>, cursor: &mut ImportCursor, libraries: *mut Library<'a>, room: usize, steps: &mut usize, batch: &mut Batch) -> Fault;
    pub safe fn goblin_pe_find_offset<'a>(image: &Image<'a>, rva: usize, offset: &mut usize) -> bool;
    pub safe fn goblin_pe_find_rva<'a>(image: &Image<'a>, offset: usize, rva: &mut usize) -> bool;
    pub safe fn goblin_pe_memory_at<'a>(image: &Image<'a>, rva: usize, size: usize, memory: &mut Memory<'a>) -> bool;
    pub safe fn goblin_pe_section_data<'a>(image: &Image<'a>, section: &Section<'a>, memory: &mut Memory<'a>) -> bool;
    pub fn goblin_pe_kind_of(bytes: *const u8, length: usize) -> u32;
    pub fn goblin_pe_read_image<'a>(bytes: *const u8, length: usize, options: &Options, image: &mut Image<'a>, faults: Option<&mut HeaderFaults>) -> Fault;
    pub fn goblin_pe_read_object<'a>(bytes: *const u8, length: usize, options: &Options, image: &mut Image<'a>) -> Fault;
    pub fn goblin_pe_read_te<'a>(bytes: *const u8, length: usize, options: &Options, image: &mut Image<'a>, header: &mut TeHeader) -> Fault;
    pub fn goblin_pe_next_relocation_blocks<'a>(image: &Image<'a>, cursor: &mut RelocationBlockCursor, blocks: *mut RelocationBlock, room: usize, batch: &mut Batch) -> Fault;
    pub fn goblin_pe_next_sections<'a>(image: &Image<'a>, cursor: &mut SectionCursor, sections: *mut Section<'a>, room: usize, batch: &mut Batch) -> Fault;
    pub fn goblin_pe_next_rich_entries<'a>(image: &Image<'a>, cursor: &mut RichCursor, entries: *mut RichEntry, room: usize, batch: &mut Batch) -> Fault;
    pub fn goblin_pe_next_symbols<'a>(image: &Image<'a>, cursor: &mut SymbolCursor, symbols: *mut Symbol<'a>, room: usize, batch: &mut Batch) -> Fault;
    pub fn goblin_pe_next_coff_relocations<'a>(image: &Image<'a>, cursor: &mut CoffRelocationCursor, relocations: *mut CoffRelocation, room: usize, batch: &mut Batch) -> Fault;
    pub fn goblin_pe_next_base_relocations<'a>(image: &Image<'a>, cursor: &mut BaseRelocationCursor, relocations: *mut BaseRelocation, room: usize, batch: &mut Batch) -> Fault;
    pub safe fn goblin_pe_string_at<'a>(image: &Image<'a>, offset: usize, text: &mut Slice<'a>) -> bool;
    pub safe fn goblin_pe_read_auxiliary<'a>(image: &Image<'a>, symbol: &Symbol<'a>, auxiliary: &mut Auxiliary<'a>) -> u32;
    pub fn goblin_pe_write_header<'a>(image: &Image<'a>, out: *mut u8, room: usize, written: &mut usize) -> Fault;
    pub fn goblin_pe_write_section<'a>(section: &Section<'a>, out: *mut u8, room: usize, written: &mut usize) -> Fault;
}
