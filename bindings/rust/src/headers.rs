//! The headers, as stored. Their fields have goblin's names.

use std::sync::OnceLock;

use crate::error::Error;
use crate::ffi;
use crate::memory::room;

/// The header of an image, which you can change and write. [`Image::header`](crate::Image::header)
/// makes it, and [`Image::patched`](crate::Image::patched) puts it into the file.
#[derive(Clone, Copy, Debug, PartialEq, Eq, Hash)]
#[non_exhaustive]
pub struct Header<'a> {
    /// The DOS header.
    pub dos_header: DosHeader,
    /// The bytes between the DOS header and the PE signature. In permissive mode an unreadable stub
    /// is replaced with a built-in one, which does not lie in the file.
    pub dos_stub: &'a [u8],
    /// The COFF header.
    pub coff_header: CoffHeader,
    /// The optional header, or `None` if the file has none.
    pub optional_header: Option<OptionalHeader>,
    /// The data directories, by [`DirectoryType`]; zeros where the file has fewer.
    pub directories: [DataDirectory; 16],
}

impl Header<'_> {
    /// The bytes of the header: the DOS header and stub, the PE signature, the COFF header and an
    /// optional header with sixteen directories.
    ///
    /// If strict mode read the header, these bytes are those of the file, up to the last of its
    /// directories.
    ///
    /// # Errors
    /// [`Cause::FieldTooWide`](crate::Cause::FieldTooWide), if a field does not fit an optional
    /// header for 32 bits; [`ErrorKind::BadMagic`](crate::ErrorKind::BadMagic); and
    /// [`ErrorKind::Memory`](crate::ErrorKind::Memory).
    pub fn to_vec(&self) -> Result<Vec<u8>, Error> {
        // (the library reads the stub from the bytes of an image)
        let mut front = room(STUB + self.dos_stub.len())?;
        front.resize(STUB, 0);
        front.extend_from_slice(self.dos_stub);
        let image = ffi::Image {
            bytes: ffi::Slice::of(&front),
            kind: 1,
            dos_header: self.dos_header,
            coff_header: self.coff_header,
            has_optional_header: self.optional_header.is_some(),
            optional_header: self.optional_header.unwrap_or_default(),
            directories: self.directories,
            dos_stub_size: self.dos_stub.len(),
            ..ffi::Image::default()
        };
        written(&image)
    }
}

/// Where the DOS stub begins.
pub(crate) const STUB: usize = 0x40;

/// The stub that permissive mode puts in place of an unreadable one.
pub(crate) fn default_stub(image: &ffi::Image) -> &'static [u8] {
    static WRITTEN: OnceLock<[u8; 256]> = OnceLock::new();
    let written = WRITTEN.get_or_init(|| {
        let replaced = ffi::Image {
            kind: 1,
            dos_stub_size: image.dos_stub_size,
            is_dos_stub_replaced: true,
            ..ffi::Image::default()
        };
        let (mut bytes, mut size) = ([0; 256], 0);
        // SAFETY: the array has this length.
        let fault =
            unsafe { ffi::goblin_pe_write_header(&replaced, bytes.as_mut_ptr(), 256, &mut size) };
        debug_assert_eq!(fault.status, 0);
        bytes
    });
    written.get(STUB..STUB + image.dos_stub_size).unwrap_or_default()
}

/// The bytes of the header that an image says.
pub(crate) fn written(image: &ffi::Image) -> Result<Vec<u8>, Error> {
    let (mut size, mut bytes) = (0, Vec::new());
    loop {
        // SAFETY: the vector has this length.
        let fault = unsafe {
            ffi::goblin_pe_write_header(image, bytes.as_mut_ptr(), bytes.len(), &mut size)
        };
        Error::test(fault, None)?;
        if !bytes.is_empty() {
            return Ok(bytes);
        }
        bytes = room(size)?;
        bytes.resize(size, 0);
    }
}

/// The DOS header: the first 64 bytes of an image.
#[repr(C)]
#[derive(Clone, Copy, Debug, Default, PartialEq, Eq, PartialOrd, Ord, Hash)]
pub struct DosHeader {
    /// `MZ`, 0x5A4D.
    pub signature: u16,
    /// How many bytes of the last page are used.
    pub bytes_on_last_page: u16,
    /// How many pages of 512 bytes the program has.
    pub pages_in_file: u16,
    /// How many relocations the program has.
    pub relocations: u16,
    /// The size of the header, in paragraphs of 16 bytes.
    pub size_of_header_in_paragraphs: u16,
    /// The least memory that the program needs, in paragraphs.
    pub minimum_extra_paragraphs_needed: u16,
    /// The most memory that the program asks for, in paragraphs.
    pub maximum_extra_paragraphs_needed: u16,
    /// The stack segment at the start.
    pub initial_relative_ss: u16,
    /// The stack pointer at the start.
    pub initial_sp: u16,
    /// The checksum.
    pub checksum: u16,
    /// The instruction pointer at the start.
    pub initial_ip: u16,
    /// The code segment at the start.
    pub initial_relative_cs: u16,
    /// The file offset of the relocations.
    pub file_address_of_relocation_table: u16,
    /// The number of the overlay.
    pub overlay_number: u16,
    /// Reserved.
    pub reserved: [u16; 4],
    /// The identifier of the maker.
    pub oem_id: u16,
    /// The information of the maker.
    pub oem_info: u16,
    /// Reserved.
    pub reserved2: [u16; 10],
    /// The file offset of the PE signature.
    pub pe_pointer: u32,
}

/// The COFF file header: 20 bytes after the PE signature, or at the front of an object.
#[repr(C)]
#[derive(Clone, Copy, Debug, Default, PartialEq, Eq, PartialOrd, Ord, Hash)]
pub struct CoffHeader {
    /// The machine, a `COFF_MACHINE_*`; [`names::machine`](crate::names::machine) has its name.
    pub machine: u16,
    /// How many sections there are.
    pub number_of_sections: u16,
    /// Seconds since 1970, or what the linker put here.
    pub time_date_stamp: u32,
    /// The file offset of the symbol table; 0 if there is none.
    pub pointer_to_symbol_table: u32,
    /// How many records the symbol table has, auxiliary ones too.
    pub number_of_symbol_table: u32,
    /// The size of the optional header; 0 in an object.
    pub size_of_optional_header: u16,
    /// Flags, `IMAGE_FILE_*`.
    pub characteristics: u16,
}

/// The optional header, PE32 or PE32+.
#[repr(C)]
#[derive(Clone, Copy, Debug, Default, PartialEq, Eq, PartialOrd, Ord, Hash)]
pub struct OptionalHeader {
    /// The standard fields.
    pub standard_fields: StandardFields,
    /// The fields for Windows.
    pub windows_fields: WindowsFields,
}

/// The standard fields of an optional header. Those of PE32 are widened.
#[repr(C)]
#[derive(Clone, Copy, Debug, Default, PartialEq, Eq, PartialOrd, Ord, Hash)]
pub struct StandardFields {
    /// `MAGIC_32` or `MAGIC_64`: the width of the header.
    pub magic: u16,
    /// The major version of the linker.
    pub major_linker_version: u8,
    /// The minor version of the linker.
    pub minor_linker_version: u8,
    /// The size of all code sections.
    pub size_of_code: u64,
    /// The size of all initialized data.
    pub size_of_initialized_data: u64,
    /// The size of all uninitialized data.
    pub size_of_uninitialized_data: u64,
    /// The RVA of the entry point; 0 if there is none.
    pub address_of_entry_point: u32,
    /// The RVA of the code.
    pub base_of_code: u64,
    /// The RVA of the data; 0 in PE32+.
    pub base_of_data: u32,
}

/// The fields for Windows of an optional header. Those of PE32 are widened.
#[repr(C)]
#[derive(Clone, Copy, Debug, Default, PartialEq, Eq, PartialOrd, Ord, Hash)]
pub struct WindowsFields {
    /// The preferred address of the image in memory.
    pub image_base: u64,
    /// The alignment of sections in memory.
    pub section_alignment: u32,
    /// The alignment of raw data in the file.
    pub file_alignment: u32,
    /// The major version of the operating system that is needed.
    pub major_operating_system_version: u16,
    /// The minor version of the operating system that is needed.
    pub minor_operating_system_version: u16,
    /// The major version of the image.
    pub major_image_version: u16,
    /// The minor version of the image.
    pub minor_image_version: u16,
    /// The major version of the subsystem that is needed.
    pub major_subsystem_version: u16,
    /// The minor version of the subsystem that is needed.
    pub minor_subsystem_version: u16,
    /// Reserved.
    pub win32_version_value: u32,
    /// The size of the image in memory.
    pub size_of_image: u32,
    /// The size of the headers: the loader maps this much of the file at the image base.
    pub size_of_headers: u32,
    /// The checksum, as stored.
    pub check_sum: u32,
    /// The subsystem, an `IMAGE_SUBSYSTEM_*`.
    pub subsystem: u16,
    /// Flags, `IMAGE_DLLCHARACTERISTICS_*`.
    pub dll_characteristics: u16,
    /// How much of the stack is reserved.
    pub size_of_stack_reserve: u64,
    /// How much of the stack is committed.
    pub size_of_stack_commit: u64,
    /// How much of the heap is reserved.
    pub size_of_heap_reserve: u64,
    /// How much of the heap is committed.
    pub size_of_heap_commit: u64,
    /// Reserved.
    pub loader_flags: u32,
    /// How many data directories the file has.
    pub number_of_rva_and_sizes: u32,
}

/// A data directory: where a table is. Both are 0 if the image has no such table.
#[repr(C)]
#[derive(Clone, Copy, Debug, Default, PartialEq, Eq, PartialOrd, Ord, Hash)]
pub struct DataDirectory {
    /// The RVA of the table; of the certificate table a file offset.
    pub virtual_address: u32,
    /// The size of the table.
    pub size: u32,
}

/// The kinds of data directories. The number of each is its index in
/// [`Header::directories`].
#[derive(Clone, Copy, Debug, PartialEq, Eq, PartialOrd, Ord, Hash)]
#[non_exhaustive]
pub enum DirectoryType {
    /// The exports.
    ExportTable = 0,
    /// The imports.
    ImportTable = 1,
    /// The resources.
    ResourceTable = 2,
    /// How exceptions are handled.
    ExceptionTable = 3,
    /// The attribute certificates. The address is a file offset.
    CertificateTable = 4,
    /// The base relocations.
    BaseRelocationTable = 5,
    /// The debug data.
    DebugTable = 6,
    /// Reserved.
    Architecture = 7,
    /// The address of the value for the global pointer register.
    GlobalPtr = 8,
    /// The thread local storage. Its callbacks run before the entry point.
    TlsTable = 9,
    /// The load configuration.
    LoadConfigTable = 10,
    /// The bound imports.
    BoundImportTable = 11,
    /// The import address table.
    ImportAddressTable = 12,
    /// The delayed imports.
    DelayImportDescriptor = 13,
    /// The header of managed code.
    ClrRuntimeHeader = 14,
}

/// The header of a Terse Executable. The entry point, the base of the code and the address of the
/// base relocations are moved to where they are in this file.
#[repr(C)]
#[derive(Clone, Copy, Debug, Default, PartialEq, Eq, PartialOrd, Ord, Hash)]
pub struct TeHeader {
    /// `VZ`. It is not tested.
    pub signature: u16,
    /// The machine, a `COFF_MACHINE_*`.
    pub machine: u16,
    /// How many sections there are.
    pub number_of_sections: u8,
    /// The subsystem, an `IMAGE_SUBSYSTEM_*`.
    pub subsystem: u8,
    /// How many bytes were cut off the front of the PE file.
    pub stripped_size: u16,
    /// The RVA of the entry point.
    pub entry_point: u32,
    /// The RVA of the code.
    pub base_of_code: u32,
    /// The preferred address of the image in memory.
    pub image_base: u64,
    /// The base relocations.
    pub reloc_dir: DataDirectory,
    /// The debug data.
    pub debug_dir: DataDirectory,
}
