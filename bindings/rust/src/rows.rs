//! The rows of tables. They borrow the bytes of the file, and not the image.

use std::fmt;

use crate::constants::IMAGE_SCN_LNK_NRELOC_OVFL;
use crate::error::Error;
use crate::ffi;
use crate::image::{Image, Memory, Table};
use crate::options::Budget;
use crate::text::Text;
use crate::walk::{Listed, Rows, Walk, Walked};

// What a table is walked by: the row, its record, its cursor, its table, its call, and how the row is
// made of the record.
macro_rules! walked {
    ($($row:ty, $record:ty, $cursor:ty, $table:ident, $next:ident($($steps:ident)?), $of:expr;)*) => {$(
        impl<'a> Walked<'a> for $row {
            type Record = $record;
            type Cursor = $cursor;
            const TABLE: Table = Table::$table;
            $(const COUNTS_STEPS: bool = stringify!($steps).len() > 0;)?

            unsafe fn next(
                image: &ffi::Image<'a>,
                cursor: &mut $cursor,
                rows: *mut $record,
                room: usize,
                _steps: &mut usize,
                batch: &mut ffi::Batch,
            ) -> ffi::Fault {
                // SAFETY: the caller has room for this many rows.
                unsafe { ffi::$next(image, cursor, rows, room, $(walked!(@ $steps _steps),)? batch) }
            }

            fn of(record: &$record, image: &Image<'a>) -> Self {
                let of: fn(&$record, &Image<'a>) -> $row = $of;
                of(record, image)
            }
        }
    )*};
    (@ $counted:ident $steps:ident) => { $steps };
}

walked! {
    Section<'a>, ffi::Section<'a>, ffi::SectionCursor, Header, goblin_pe_next_sections(),
        |it, _| Section::of(it);
    RichEntry, ffi::RichEntry, ffi::RichCursor, RichHeader, goblin_pe_next_rich_entries(),
        |it, _| RichEntry { build: it.build, product: it.product, use_count: it.use_count };
    Import<'a>, ffi::Import<'a>, ffi::ImportCursor, Imports, goblin_pe_next_imports(counted),
        |it, _| Import::of(it);
    Library<'a>, ffi::Library<'a>, ffi::ImportCursor, Imports, goblin_pe_next_libraries(counted),
        |it, _| Library::of(it);
    Export<'a>, ffi::Export<'a>, ffi::ExportCursor, Exports, goblin_pe_next_exports(counted),
        |it, _| Export::of(it);
    ExportAddress, ffi::ExportAddress, ffi::ExportAddressCursor, Exports,
        goblin_pe_next_export_addresses(), |it, _| ExportAddress::of(it);
    RelocationBlock<'a>, ffi::RelocationBlock, ffi::RelocationBlockCursor, Relocations,
        goblin_pe_next_relocation_blocks(), RelocationBlock::of;
    Symbol<'a>, ffi::Symbol<'a>, ffi::SymbolCursor, Symbols, goblin_pe_next_symbols(),
        |it, _| Symbol::of(it);
    CoffRelocation, ffi::CoffRelocation, ffi::CoffRelocationCursor, Symbols,
        goblin_pe_next_coff_relocations(), |it, _| CoffRelocation {
            virtual_address: it.virtual_address,
            symbol_table_index: it.symbol_table_index,
            typ: it.typ,
        };
}

// An RVA or an index that the file stores in 32 bits, so it fits.
#[allow(clippy::cast_possible_truncation)]
const fn stored(number: usize) -> u32 {
    number as u32
}

/// A section header. The numbers are as stored; in a TE file the address and the pointers are moved
/// to where they are in this file.
///
/// ```no_run
/// use goblin_pe::Image;
///
/// # let bytes = [];
/// let image = Image::parse(&bytes)?;
/// for section in image.sections() {
///     let data = section.data(&image);
///     println!("{:<8} {} bytes and {} zeros", section.name, data.bytes.len(), data.zeros);
/// }
/// # Ok::<(), goblin_pe::Error>(())
/// ```
#[derive(Clone, Copy, Debug, PartialEq, Eq, PartialOrd, Ord, Hash)]
#[non_exhaustive]
pub struct Section<'a> {
    /// The name: from the string table if the stored name is a slash and a number, else the stored
    /// bytes before the first NUL. It need not be UTF-8.
    pub name: Text<'a>,
    /// The eight bytes of the name in the section header.
    pub stored_name: [u8; 8],
    /// The index in the section table. The `section_number` of a symbol is one more.
    pub index: usize,
    /// The size in memory.
    pub virtual_size: u32,
    /// The RVA.
    pub virtual_address: u32,
    /// The size of the raw data in the file.
    pub size_of_raw_data: u32,
    /// The file offset of the raw data.
    pub pointer_to_raw_data: u32,
    /// The file offset of the relocations of an object.
    pub pointer_to_relocations: u32,
    /// The file offset of the line numbers.
    pub pointer_to_linenumbers: u32,
    /// How many relocations there are; 65,535 also if there are more.
    pub number_of_relocations: u16,
    /// How many line numbers there are.
    pub number_of_linenumbers: u16,
    /// Flags, `IMAGE_SCN_*`.
    pub characteristics: u32,
    /// Whether the name is cut.
    pub is_name_cut: bool,
}

impl<'a> Section<'a> {
    /// The contents of the section: its raw data, and the zeros that a loader adds up to the virtual
    /// size. Raw data that is longer than the virtual size is given whole. Uninitialized data without
    /// a raw pointer has no bytes, and is zeros.
    ///
    /// The raw data begins where the mapping of the image says.
    #[must_use]
    pub fn data(&self, image: &Image<'a>) -> Memory<'a> {
        let mut memory = ffi::Memory::default();
        ffi::goblin_pe_section_data(&image.record, &self.record(), &mut memory);
        Memory::of(&memory, image)
    }

    /// A walk over the relocations of a section of an object. If there are more than 65,535, the first
    /// record is only their number, and the walk leaves it out.
    #[inline]
    pub fn relocations<'b>(
        &self,
        image: &Image<'a>,
        budget: &'b Budget,
    ) -> Walk<'a, 'b, CoffRelocation> {
        let cursor = self.record().relocations;
        let mut walk = Walk::at(image, cursor, budget);
        // (most sections have none, and need no call)
        walk.is_over = cursor.count == 0;
        walk
    }

    /// The 40 bytes of the section header, with the stored name.
    #[must_use]
    pub fn to_bytes(&self) -> [u8; 40] {
        let (mut bytes, mut written) = ([0; 40], 0);
        // SAFETY: the array has this length.
        let fault = unsafe {
            ffi::goblin_pe_write_section(&self.record(), bytes.as_mut_ptr(), 40, &mut written)
        };
        debug_assert_eq!((fault.status, written), (0, 40));
        bytes
    }

    fn of(it: &ffi::Section<'a>) -> Section<'a> {
        Section {
            name: Text(it.name.get()),
            stored_name: it.stored_name,
            index: it.index,
            virtual_size: it.virtual_size,
            virtual_address: it.virtual_address,
            size_of_raw_data: it.size_of_raw_data,
            pointer_to_raw_data: it.pointer_to_raw_data,
            pointer_to_relocations: it.pointer_to_relocations,
            pointer_to_linenumbers: it.pointer_to_linenumbers,
            number_of_relocations: it.number_of_relocations,
            number_of_linenumbers: it.number_of_linenumbers,
            characteristics: it.characteristics,
            is_name_cut: it.is_name_cut,
        }
    }

    // The record of the library.
    fn record(&self) -> ffi::Section<'a> {
        let is_extended = self.characteristics & IMAGE_SCN_LNK_NRELOC_OVFL != 0
            && self.number_of_relocations == u16::MAX;
        ffi::Section {
            name: ffi::Slice::of(self.name.0),
            index: self.index,
            relocations: ffi::CoffRelocationCursor {
                index: is_extended.into(),
                offset: self.pointer_to_relocations,
                count: self.number_of_relocations,
                is_extended,
                ..ffi::CoffRelocationCursor::default()
            },
            stored_name: self.stored_name,
            virtual_size: self.virtual_size,
            virtual_address: self.virtual_address,
            size_of_raw_data: self.size_of_raw_data,
            pointer_to_raw_data: self.pointer_to_raw_data,
            pointer_to_relocations: self.pointer_to_relocations,
            pointer_to_linenumbers: self.pointer_to_linenumbers,
            number_of_relocations: self.number_of_relocations,
            number_of_linenumbers: self.number_of_linenumbers,
            characteristics: self.characteristics,
            is_name_cut: self.is_name_cut,
            ..ffi::Section::default()
        }
    }
}

impl<'a> Listed<'a> for Section<'a> {
    // The image, the records that were read last, the index of the first one, and how many they are.
    type Table = (Image<'a>, [ffi::Section<'a>; 8], usize, usize);

    fn at((image, records, first, count): &mut Self::Table, index: usize) -> Section<'a> {
        if index.wrapping_sub(*first) >= *count {
            let (rows, room) = (records.as_mut_ptr(), records.len());
            *first = if index < *first { index.saturating_sub(room - 1) } else { index };
            let mut cursor = ffi::SectionCursor { index: *first };
            let mut batch = ffi::Batch::default();
            // SAFETY: there is room for this many rows.
            let fault = unsafe {
                ffi::goblin_pe_next_sections(&image.record, &mut cursor, rows, room, &mut batch)
            };
            debug_assert_eq!((fault.status, batch.count), (0, cursor.index - *first));
            *count = batch.count;
        }
        Section::of(&records[index - *first])
    }
}

/// The Rich header, which says by which tools the image was made. [`Image::rich_entries`] walks over
/// its entries.
#[derive(Clone, Copy, Debug, PartialEq, Eq, PartialOrd, Ord, Hash)]
#[non_exhaustive]
pub struct RichHeader<'a> {
    /// The bytes from the marker `DanS` up to the marker `Rich`, as stored. Each word is combined with
    /// the key by exclusive or.
    pub stored: &'a [u8],
    /// The key.
    pub key: u32,
    /// The file offset of the marker `DanS`.
    pub start_offset: u32,
    /// The file offset of the marker `Rich`.
    pub end_offset: u32,
    /// How many bytes lie between `DanS` and the entries.
    pub padding_size: u32,
}

impl RichHeader<'_> {
    /// The stored bytes without the key. Their MD5 is the Rich hash that analysts compare, as pefile's
    /// `get_rich_header_hash` makes it.
    #[must_use]
    pub fn cleared(&self) -> Vec<u8> {
        let key = self.key.to_le_bytes();
        let words = self.stored.chunks(4);
        words.flat_map(|word| word.iter().zip(key).map(|(byte, key)| byte ^ key)).collect()
    }
}

/// An entry of the Rich header: a tool, and how many files it made.
#[derive(Clone, Copy, Debug, PartialEq, Eq, PartialOrd, Ord, Hash)]
#[non_exhaustive]
pub struct RichEntry {
    /// The build of the tool.
    pub build: u16,
    /// The number of the tool.
    pub product: u16,
    /// How many files it made.
    pub use_count: u32,
}

/// An import.
#[derive(Clone, Copy, Debug, PartialEq, Eq, PartialOrd, Ord, Hash)]
#[non_exhaustive]
pub struct Import<'a> {
    /// The name of the DLL; empty if it can't be read, in permissive mode or in a walk over one library.
    pub dll: Text<'a>,
    /// What is imported: a name or an ordinal.
    pub name: Imported<'a>,
    /// The RVA of its thunk in the import address table, where the loader puts the address. It may
    /// pass 2^32, from where on nothing is mapped.
    pub iat_rva: usize,
    /// The RVA of its hint and name; 0 if it is imported by ordinal.
    pub hint_name_rva: u32,
    /// The index of the DLL's entry in the import directory. Skipped entries count.
    pub library: usize,
    /// The index of its entry in the lookup table. Skipped entries count.
    pub thunk_index: usize,
    /// Whether the name is cut.
    pub is_name_cut: bool,
    /// Whether the name of the DLL is cut.
    pub is_library_cut: bool,
}

impl<'a> Import<'a> {
    fn of(it: &ffi::Import<'a>) -> Import<'a> {
        let (name, number) = (Text(it.name.get()), it.hint_or_ordinal);
        Import {
            dll: Text(it.dll.get()),
            name: if it.is_by_name {
                Imported::Name { name, hint: number }
            } else {
                Imported::Ordinal(number)
            },
            iat_rva: it.iat_rva,
            hint_name_rva: stored(it.hint_name_rva),
            library: it.library_index,
            thunk_index: it.thunk_index,
            is_name_cut: it.is_name_cut,
            is_library_cut: it.is_library_cut,
        }
    }

    /// The name; `None` if it is imported by ordinal.
    #[must_use]
    pub const fn by_name(&self) -> Option<Text<'a>> {
        match self.name {
            Imported::Name { name, .. } => Some(name),
            Imported::Ordinal(_) => None,
        }
    }
}

/// What is imported. `{}` prints the name, or `#` and the ordinal.
#[derive(Clone, Copy, Debug, PartialEq, Eq, PartialOrd, Ord, Hash)]
pub enum Imported<'a> {
    /// A name.
    Name {
        /// The name; empty if permissive mode could not read it.
        name: Text<'a>,
        /// Where the loader looks first among the names of the DLL.
        hint: u16,
    },
    /// An ordinal.
    Ordinal(u16),
}

impl fmt::Display for Imported<'_> {
    fn fmt(&self, f: &mut fmt::Formatter<'_>) -> fmt::Result {
        match self {
            Imported::Name { name, .. } => name.fmt(f),
            Imported::Ordinal(ordinal) => f.pad(&format!("#{ordinal}")),
        }
    }
}

/// A DLL that the image imports from: an entry of the import directory. A DLL may have several.
#[derive(Clone, Copy, Debug, PartialEq, Eq, Hash)]
#[non_exhaustive]
pub struct Library<'a> {
    /// The name, or why it can't be read.
    pub name: Result<Text<'a>, Error>,
    /// The index of the entry in the import directory.
    pub index: usize,
    /// The file offset of the entry.
    pub offset: usize,
    /// The RVA of the lookup table.
    pub import_lookup_table_rva: u32,
    /// 0 unless the imports are bound.
    pub time_date_stamp: u32,
    /// The index of the first import that the DLL forwards, if the imports are bound.
    pub forwarder_chain: u32,
    /// The RVA of the name.
    pub name_rva: u32,
    /// The RVA of the import address table.
    pub import_address_table_rva: u32,
    /// Whether permissive mode skips it, because it has no address table. Strict mode refuses the
    /// imports then.
    pub is_skipped: bool,
    /// Whether the name is cut.
    pub is_name_cut: bool,
    imports: ffi::ImportCursor,
}

impl<'a> Library<'a> {
    /// A walk over the imports of this library alone.
    ///
    /// ```no_run
    /// use goblin_pe::{Budget, Image, Options};
    ///
    /// # let bytes = [];
    /// let image = Image::read(&bytes, Options::permissive())?;
    /// let budget = Budget::default();
    /// for library in image.libraries(&budget).take(50) {
    ///     let library = library?;
    ///     println!("{}:", library.name.unwrap_or_default());
    ///     for import in library.imports(&image, &budget) {
    ///         println!("    {}", import?.name);
    ///     }
    /// }
    /// # Ok::<(), goblin_pe::Error>(())
    /// ```
    pub fn imports<'b>(&self, image: &Image<'a>, budget: &'b Budget) -> Walk<'a, 'b, Import<'a>> {
        Walk::at(image, self.imports, budget)
    }

    fn of(it: &ffi::Library<'a>) -> Library<'a> {
        let record = &it.record;
        Library {
            name: Error::test(it.name_fault, Some(Table::Imports)).map(|()| Text(it.name.get())),
            index: it.index,
            offset: it.offset,
            import_lookup_table_rva: record.import_lookup_table_rva,
            time_date_stamp: record.time_date_stamp,
            forwarder_chain: record.forwarder_chain,
            name_rva: record.name_rva,
            import_address_table_rva: record.import_address_table_rva,
            is_skipped: it.is_skipped,
            is_name_cut: it.is_name_cut,
            imports: it.imports,
        }
    }
}

/// An export that has a name pointer. An export without one has an [`ExportAddress`] alone.
#[derive(Clone, Copy, Debug, PartialEq, Eq, PartialOrd, Ord, Hash)]
#[non_exhaustive]
pub struct Export<'a> {
    /// The name; `None` if it can't be read.
    pub name: Option<Text<'a>>,
    /// The ordinal.
    pub ordinal: usize,
    /// The index of its name pointer, which imports give as a hint.
    pub hint: usize,
    /// The RVA; of a forwarder, that of its text.
    pub rva: u32,
    /// The RVA of its name.
    pub name_rva: u32,
    /// The file offset of `rva`, if it has one.
    pub offset: Option<usize>,
    /// Where it is forwarded to; `None` if it is not forwarded.
    pub forwarder: Option<Forwarder<'a>>,
    /// Whether the name is cut.
    pub is_name_cut: bool,
}

impl<'a> Export<'a> {
    fn of(it: &ffi::Export<'a>) -> Export<'a> {
        Export {
            name: it.has_name.then(|| Text(it.name.get())),
            ordinal: it.ordinal,
            hint: it.hint,
            rva: stored(it.rva),
            name_rva: stored(it.name_rva),
            offset: it.has_offset.then_some(it.offset),
            forwarder: Forwarder::of(&it.forwarder),
            is_name_cut: it.is_name_cut,
        }
    }
}

/// Where an export is forwarded to: another export, of another DLL. `{}` prints it as stored:
/// `NTDLL.RtlAllocateHeap`, or `NTDLL.#12`.
#[derive(Clone, Copy, Debug, PartialEq, Eq, PartialOrd, Ord, Hash)]
pub enum Forwarder<'a> {
    /// A name.
    Name {
        /// The DLL, without its extension.
        dll: Text<'a>,
        /// The name of the export there.
        name: Text<'a>,
        /// Whether the text is cut: the library, a dot and the name. The name may then be empty, or a
        /// part of an ordinal.
        is_cut: bool,
    },
    /// An ordinal.
    Ordinal {
        /// The DLL, without its extension.
        dll: Text<'a>,
        /// The ordinal of the export there.
        ordinal: usize,
    },
}

impl<'a> Forwarder<'a> {
    /// The DLL, without its extension.
    #[must_use]
    pub const fn dll(&self) -> Text<'a> {
        match *self {
            Forwarder::Name { dll, .. } | Forwarder::Ordinal { dll, .. } => dll,
        }
    }

    pub(crate) fn of(it: &ffi::Forwarder<'a>) -> Option<Forwarder<'a>> {
        let (dll, name, ordinal) = (Text(it.dll.get()), Text(it.name.get()), it.ordinal);
        match it.kind {
            1 => Some(Forwarder::Name { dll, name, is_cut: it.is_cut }),
            2 => Some(Forwarder::Ordinal { dll, ordinal }),
            _ => None,
        }
    }
}

impl fmt::Display for Forwarder<'_> {
    fn fmt(&self, f: &mut fmt::Formatter<'_>) -> fmt::Result {
        f.pad(&match self {
            Forwarder::Name { dll, name, .. } => format!("{dll}.{name}"),
            Forwarder::Ordinal { dll, ordinal } => format!("{dll}.#{ordinal}"),
        })
    }
}

/// The export directory: the image's own name, and the table as stored.
#[derive(Clone, Copy, Debug, PartialEq, Eq, PartialOrd, Ord, Hash)]
#[non_exhaustive]
pub struct ExportDirectory<'a> {
    /// The image's own name as a DLL; `None` if it can't be read.
    pub name: Option<Text<'a>>,
    /// Reserved.
    pub export_flags: u32,
    /// When the exports were made.
    pub time_date_stamp: u32,
    /// The major version, which the user of the linker chose.
    pub major_version: u16,
    /// The minor version, which the user of the linker chose.
    pub minor_version: u16,
    /// The RVA of the image's own name.
    pub name_rva: u32,
    /// The ordinal of the first entry of the address table.
    pub ordinal_base: u32,
    /// How many entries the address table has.
    pub address_table_entries: u32,
    /// How many name pointers there are.
    pub number_of_name_pointers: u32,
    /// The RVA of the address table.
    pub export_address_table_rva: u32,
    /// The RVA of the name pointers.
    pub name_pointer_rva: u32,
    /// The RVA of the ordinals of the name pointers.
    pub ordinal_table_rva: u32,
    /// Whether the name is cut.
    pub is_name_cut: bool,
}

impl<'a> ExportDirectory<'a> {
    pub(crate) fn of(it: &ffi::ExportDirectory<'a>) -> Option<ExportDirectory<'a>> {
        let record = &it.record;
        it.is_present.then(|| ExportDirectory {
            name: it.has_name.then(|| Text(it.name.get())),
            export_flags: record.export_flags,
            time_date_stamp: record.time_date_stamp,
            major_version: record.major_version,
            minor_version: record.minor_version,
            name_rva: record.name_rva,
            ordinal_base: record.ordinal_base,
            address_table_entries: record.address_table_entries,
            number_of_name_pointers: record.number_of_name_pointers,
            export_address_table_rva: record.export_address_table_rva,
            name_pointer_rva: record.name_pointer_rva,
            ordinal_table_rva: record.ordinal_table_rva,
            is_name_cut: it.is_name_cut,
        })
    }
}

/// An entry of the export address table, with or without a name.
#[derive(Clone, Copy, Debug, PartialEq, Eq, PartialOrd, Ord, Hash)]
#[non_exhaustive]
pub struct ExportAddress {
    /// The ordinal.
    pub ordinal: usize,
    /// The RVA; of a forwarder, that of its text; 0 if the ordinal is unused.
    pub rva: u32,
    /// Whether it is forwarded. [`Image::forwarder_at`] reads where it leads.
    pub is_forwarder: bool,
}

impl ExportAddress {
    pub(crate) fn of(it: &ffi::ExportAddress) -> ExportAddress {
        ExportAddress {
            ordinal: it.ordinal,
            rva: stored(it.rva),
            is_forwarder: it.is_forwarder,
        }
    }
}

/// A block of base relocations, which are those of one page.
#[derive(Clone, Copy, Debug, PartialEq, Eq, PartialOrd, Ord, Hash)]
#[non_exhaustive]
pub struct RelocationBlock<'a> {
    /// The RVA of the page.
    pub rva: u32,
    /// The size of the block, with the 8 bytes of its header.
    pub size: u32,
    entries: &'a [u8],
}

impl<'a> RelocationBlock<'a> {
    /// The base relocations of the block. If a byte is left at the end, it is ignored.
    pub fn relocations(&self) -> Rows<'a, BaseRelocation> {
        Rows::of((self.rva, self.entries), self.entries.len() / 2)
    }

    fn of(it: &ffi::RelocationBlock, image: &Image<'a>) -> RelocationBlock<'a> {
        let at = &it.relocations;
        RelocationBlock {
            rva: stored(it.rva),
            size: it.size,
            entries: image.bytes().get(at.offset..at.end).unwrap_or_default(),
        }
    }
}

impl<'a> Listed<'a> for BaseRelocation {
    type Table = (u32, &'a [u8]);

    fn at(&mut (page, entries): &mut (u32, &'a [u8]), index: usize) -> BaseRelocation {
        let word = u16::from_le_bytes([entries[2 * index], entries[2 * index + 1]]);
        BaseRelocation {
            rva: page as usize + usize::from(word & 0xFFF),
            typ: (word >> 12) as u8,
        }
    }
}

/// A base relocation: what a loader changes if it loads the image elsewhere.
#[derive(Clone, Copy, Debug, PartialEq, Eq, PartialOrd, Ord, Hash)]
#[non_exhaustive]
pub struct BaseRelocation {
    /// The RVA of what is relocated. It may pass 2^32, from where on nothing is mapped.
    pub rva: usize,
    /// The type, an `IMAGE_REL_BASED_*`; `IMAGE_REL_BASED_ABSOLUTE` is padding.
    pub typ: u8,
}

/// A symbol of an image or an object.
#[derive(Clone, Copy, Debug, PartialEq, Eq, PartialOrd, Ord, Hash)]
#[non_exhaustive]
pub struct Symbol<'a> {
    /// The index of its record in the symbol table, where auxiliary records count.
    pub index: u32,
    /// The name; `None` if it can't be read or is not UTF-8.
    pub name: Option<Text<'a>>,
    /// The eight bytes of the name in the record.
    pub stored_name: [u8; 8],
    /// The value: mostly an offset in the section.
    pub value: u32,
    /// The number of the section, from 1; or 0 undefined, -1 absolute, -2 for a debugger.
    pub section_number: i16,
    /// The type: `IMAGE_SYM_TYPE_*` and `IMAGE_SYM_DTYPE_*`.
    pub typ: u16,
    /// The storage class, an `IMAGE_SYM_CLASS_*`.
    pub storage_class: u8,
    /// How many auxiliary records follow it.
    pub number_of_aux_symbols: u8,
    /// The bytes of its auxiliary records, 18 each.
    pub aux_bytes: &'a [u8],
    /// Whether the name is cut.
    pub is_name_cut: bool,
}

impl<'a> Symbol<'a> {
    /// What the auxiliary records say. `None` if the symbol has none, or if its class and type have no
    /// kind of auxiliary record.
    ///
    /// ```no_run
    /// use goblin_pe::{Auxiliary, Budget, Image, Options};
    ///
    /// # let bytes = [];
    /// let object = Image::read_object(&bytes, Options::default())?;
    /// for symbol in object.symbols(&Budget::default()) {
    ///     match symbol?.auxiliary(&object) {
    ///         Some(Auxiliary::File { name, .. }) => println!("made of {name}"),
    ///         Some(Auxiliary::FileAt(offset)) => println!("made of {:?}", object.string_at(offset)),
    ///         _ => {}
    ///     }
    /// }
    /// # Ok::<(), goblin_pe::Error>(())
    /// ```
    #[must_use]
    pub fn auxiliary(&self, image: &Image<'a>) -> Option<Auxiliary<'a>> {
        let mut it = ffi::Auxiliary::default();
        let kind = ffi::goblin_pe_read_auxiliary(&image.record, &self.record(), &mut it);
        Auxiliary::of(kind, &it)
    }

    fn of(it: &ffi::Symbol<'a>) -> Symbol<'a> {
        let record = &it.record;
        Symbol {
            index: stored(it.index),
            name: it.has_name.then(|| Text(it.name.get())),
            stored_name: record.name,
            value: record.value,
            section_number: record.section_number,
            typ: record.typ,
            storage_class: record.storage_class,
            number_of_aux_symbols: record.number_of_aux_symbols,
            aux_bytes: it.auxiliary.get(),
            is_name_cut: it.is_name_cut,
        }
    }

    // The record of the library.
    fn record(&self) -> ffi::Symbol<'a> {
        ffi::Symbol {
            name: ffi::Slice::of(self.name.unwrap_or_default().0),
            auxiliary: ffi::Slice::of(self.aux_bytes),
            index: self.index as usize,
            record: ffi::SymbolRecord {
                name: self.stored_name,
                value: self.value,
                section_number: self.section_number,
                typ: self.typ,
                storage_class: self.storage_class,
                number_of_aux_symbols: self.number_of_aux_symbols,
            },
            has_name: self.name.is_some(),
            is_name_cut: self.is_name_cut,
            reserved: [0; 2],
        }
    }
}

/// The auxiliary records of a symbol.
#[derive(Clone, Copy, Debug, PartialEq, Eq, Hash)]
#[non_exhaustive]
pub enum Auxiliary<'a> {
    /// The symbol defines a function.
    #[non_exhaustive]
    FunctionDefinition {
        /// The index of the symbol `.bf` of the function.
        tag_index: u32,
        /// The size of the code.
        total_size: u32,
        /// The file offset of the line numbers; 0 if there are none.
        pointer_to_line_number: u32,
        /// The index of the next function; 0 for the last.
        pointer_to_next_function: u32,
    },
    /// The symbol is `.bf` or `.ef`, at the beginning or the end of a function.
    #[non_exhaustive]
    BeginAndEndFunction {
        /// The line number in the source file.
        line_number: u16,
        /// The index of the next `.bf`; 0 for the last.
        pointer_to_next_function: u32,
    },
    /// The symbol is a weak external one.
    #[non_exhaustive]
    WeakExternal {
        /// The index of the symbol that is used if no other is found.
        tag_index: u32,
        /// How the symbol is searched for, an `IMAGE_WEAK_EXTERN_SEARCH_*`.
        characteristics: u32,
    },
    /// The name of a source file.
    #[non_exhaustive]
    File {
        /// The name.
        name: Text<'a>,
        /// Whether the name is cut.
        is_name_cut: bool,
    },
    /// The name of a source file is in the string table, at this offset:
    /// [`Image::string_at`] reads it.
    FileAt(u32),
    /// The symbol is the name of a section.
    #[non_exhaustive]
    SectionDefinition {
        /// The size of the section.
        length: u32,
        /// How many relocations the section has.
        number_of_relocations: u16,
        /// How many line numbers the section has.
        number_of_line_numbers: u16,
        /// The checksum of the contents.
        checksum: u32,
        /// The number of the section that this one goes with, from 1.
        number: u16,
        /// How the linker selects one of several, an `IMAGE_COMDAT_SELECT_*`.
        selection: u8,
    },
}

impl<'a> Auxiliary<'a> {
    // The auxiliary records of this kind.
    fn of(kind: u32, it: &ffi::Auxiliary<'a>) -> Option<Auxiliary<'a>> {
        Some(match kind {
            1 => Auxiliary::FunctionDefinition {
                tag_index: it.tag_index,
                total_size: it.total_size,
                pointer_to_line_number: it.pointer_to_line_number,
                pointer_to_next_function: it.pointer_to_next_function,
            },
            2 => Auxiliary::BeginAndEndFunction {
                line_number: it.line_number,
                pointer_to_next_function: it.pointer_to_next_function,
            },
            3 => Auxiliary::WeakExternal {
                tag_index: it.tag_index,
                characteristics: it.characteristics,
            },
            4 if it.string_offset != 0 => Auxiliary::FileAt(it.string_offset),
            4 => Auxiliary::File {
                name: Text(it.file.get()),
                is_name_cut: it.is_file_cut,
            },
            5 => Auxiliary::SectionDefinition {
                length: it.length,
                number_of_relocations: it.number_of_relocations,
                number_of_line_numbers: it.number_of_line_numbers,
                checksum: it.checksum,
                number: it.number,
                selection: it.selection,
            },
            _ => return None,
        })
    }
}

/// A relocation of an object, as stored.
#[derive(Clone, Copy, Debug, PartialEq, Eq, PartialOrd, Ord, Hash)]
#[non_exhaustive]
pub struct CoffRelocation {
    /// Where the relocation is applied: an offset in the section, or an address.
    pub virtual_address: u32,
    /// The index of the symbol: [`Image::symbol_at`] reads it.
    pub symbol_table_index: u32,
    /// The type, an `IMAGE_REL_*` of the machine; [`names::relocation`](crate::names::relocation)
    /// has its name.
    pub typ: u16,
}
