//! The image.

use std::fmt;
use std::ptr::NonNull;

use crate::constants::{
    IMAGE_FILE_DLL, IMAGE_FILE_EXECUTABLE_IMAGE, IMAGE_SUBSYSTEM_NATIVE, MAGIC_64,
};
use crate::error::Error;
use crate::ffi;
use crate::headers::{
    CoffHeader, DataDirectory, DirectoryType, DosHeader, Header, OptionalHeader, STUB, TeHeader,
    default_stub,
};
use crate::imphash;
use crate::memory::room;
use crate::options::{Budget, Options};
use crate::patch;
use crate::rows::{
    Export, ExportAddress, ExportDirectory, Forwarder, Import, Library, RelocationBlock, RichEntry,
    RichHeader, Section, Symbol,
};
use crate::text::Text;
use crate::walk::{Rows, Walk, Walked};

/// A PE image, a COFF object or a Terse Executable.
///
/// It is a header that was read, and the bytes of the file. It has half a kilobyte, needs no other
/// memory, and is cheap to copy. Its tables are read when you walk over them.
///
/// ```no_run
/// use goblin_pe::{Image, Options};
///
/// let bytes = std::fs::read("some.dll")?;
/// let image = Image::read(&bytes, Options::permissive())?;
/// for section in image.sections() {
///     println!("{:<8} {:#10x} {:#x}", section.name, section.virtual_address, section.virtual_size);
/// }
/// # Ok::<(), std::io::Error>(())
/// ```
///
/// It can't outlive the bytes:
///
/// ```compile_fail
/// # use goblin_pe::Image;
/// let bytes = std::fs::read("some.dll")?;
/// let image = Image::parse(&bytes)?;
/// drop(bytes);
/// println!("{image:?}");
/// # Ok::<(), std::io::Error>(())
/// ```
#[derive(Clone, Copy)]
pub struct Image<'a> {
    pub(crate) record: ffi::Image<'a>,
}

// Fills a record by a call.
fn filled<T: Default>(
    table: Option<Table>,
    call: impl FnOnce(&mut T) -> ffi::Fault,
) -> Result<T, Error> {
    let mut record = T::default();
    Error::test(call(&mut record), table)?;
    Ok(record)
}

/// # Reading
impl<'a> Image<'a> {
    // The image whose record a call fills.
    fn filled(call: impl FnOnce(&mut ffi::Image<'a>) -> ffi::Fault) -> Result<Image<'a>, Error> {
        let record = ffi::Image::default();
        let mut image = Image { record };
        Error::test(call(&mut image.record), Some(Table::Header))?;
        Ok(image)
    }

    /// Reads the header and the section table of an image. The other tables are not looked at.
    ///
    /// # Errors
    /// The header, the section table or a section name is damaged. Permissive mode refuses less, but
    /// it also refuses: a header or a section table that is cut off, an optional header of an unknown
    /// magic, more than sixteen data directories, a section name of a slash and no number, and a
    /// marker `Rich` with no marker `DanS` before it or with a broken word between them.
    /// [`read_partial`](Self::read_partial) reads such a file, and says which part of the header is
    /// damaged.
    pub fn read(bytes: &'a [u8], options: Options) -> Result<Image<'a>, Error> {
        let (of, length) = (bytes.as_ptr(), bytes.len());
        // SAFETY: the slice has this length.
        Image::filled(|it| unsafe {
            ffi::goblin_pe_read_image(of, length, &options.record(), it, None)
        })
    }

    /// Reads an image by the default options: strictly.
    ///
    /// # Errors
    /// As [`Image::read`].
    pub fn parse(bytes: &'a [u8]) -> Result<Image<'a>, Error> {
        Image::read(bytes, Options::default())
    }

    /// Reads the header of an image as far as it goes, whatever the file holds. What can't be read
    /// is zeros, and the faults say why. All walks and look-ups work on such an image.
    ///
    /// ```no_run
    /// use goblin_pe::{Image, Options};
    ///
    /// let bytes = std::fs::read("damaged.exe")?;
    /// let (image, faults) = Image::read_partial(&bytes, Options::permissive());
    /// for (part, error) in faults.errors() {
    ///     println!("{part}: {error}");
    /// }
    /// println!("{} sections are there", image.sections().len());
    /// # Ok::<(), std::io::Error>(())
    /// ```
    #[must_use]
    pub fn read_partial(bytes: &'a [u8], options: Options) -> (Image<'a>, HeaderFaults) {
        let (of, length) = (bytes.as_ptr(), bytes.len());
        let (mut record, mut faults) = (ffi::Image::default(), ffi::HeaderFaults::default());
        // SAFETY: the slice has this length.
        let refusal = unsafe {
            let (options, faults) = (options.record(), Some(&mut faults));
            ffi::goblin_pe_read_image(of, length, &options, &mut record, faults)
        };
        (Image { record }, HeaderFaults::of(refusal, &faults))
    }

    /// Reads the header of a COFF object. It has sections, symbols and relocations, and no
    /// directories and addresses. The machine is not tested: ask [`Kind::of`] first.
    ///
    /// # Errors
    /// The file is too short for its section headers, or a section name is bad, as the mode says.
    pub fn read_object(bytes: &'a [u8], options: Options) -> Result<Image<'a>, Error> {
        let (of, length) = (bytes.as_ptr(), bytes.len());
        // SAFETY: the slice has this length.
        Image::filled(|it| unsafe {
            ffi::goblin_pe_read_object(of, length, &options.record(), it)
        })
    }

    /// Reads the header of a Terse Executable. It has sections, and no directories and addresses.
    /// The addresses and pointers of sections are moved to where they are in this file.
    ///
    /// # Errors
    /// The file is too short for the header or its section headers, the stripped size is below that
    /// of the header, or strict mode would refuse a section name. The mode changes none of these.
    pub fn read_te(bytes: &'a [u8], options: Options) -> Result<(Image<'a>, TeHeader), Error> {
        let (of, length) = (bytes.as_ptr(), bytes.len());
        let mut header = TeHeader::default();
        // SAFETY: the slice has this length.
        let image = Image::filled(|it| unsafe {
            ffi::goblin_pe_read_te(of, length, &options.record(), it, &mut header)
        })?;
        Ok((image, header))
    }

    /// The same image with other options: in the other mode, with another mapping or with another
    /// limit for names. The header itself is not read again.
    ///
    /// ```no_run
    /// use goblin_pe::{Budget, Image, Mapping};
    ///
    /// # let bytes = [];
    /// let image = Image::parse(&bytes)?;
    /// let as_goblin = image.with_options(image.options().with_mapping(Mapping::AsStored));
    /// let budget = Budget::default();
    /// if image.imports(&budget).ne(as_goblin.imports(&budget)) {
    ///     println!("goblin sees other imports than Windows");
    /// }
    /// # Ok::<(), goblin_pe::Error>(())
    /// ```
    #[must_use]
    pub const fn with_options(mut self, options: Options) -> Image<'a> {
        self.record.options = options.record();
        self
    }
}

/// # Headers
impl<'a> Image<'a> {
    /// The bytes of the file.
    #[must_use]
    pub const fn bytes(&self) -> &'a [u8] {
        self.record.bytes.get()
    }

    /// How the image is read.
    #[must_use]
    pub const fn options(&self) -> Options {
        Options::of(&self.record.options)
    }

    /// What it is: an image, an object or a Terse Executable.
    #[must_use]
    pub const fn kind(&self) -> Kind {
        Kind::numbered(self.record.kind)
    }

    /// Whether the optional header is one for 64 bits.
    #[must_use]
    pub fn is_64(&self) -> bool {
        let optional = self.optional_header();
        optional.is_some_and(|it| it.standard_fields.magic == MAGIC_64)
    }

    /// Whether the COFF header has the flag of a dynamic-link library.
    #[must_use]
    pub fn is_dll(&self) -> bool {
        self.record.coff_header.characteristics & IMAGE_FILE_DLL != 0
    }

    /// As [`is_dll`](Self::is_dll), under goblin's name.
    #[must_use]
    pub fn is_lib(&self) -> bool {
        self.is_dll()
    }

    /// Whether the COFF header has the flag of an executable image, and the subsystem is the native one.
    /// A few programs of Windows have that subsystem, too. The imports are not looked at.
    #[must_use]
    pub fn is_driver(&self) -> bool {
        let native = self.record.optional_header.windows_fields.subsystem == IMAGE_SUBSYSTEM_NATIVE;
        native && self.is_executable()
    }

    // Whether the COFF header has the flag of an executable image.
    fn is_executable(&self) -> bool {
        self.record.coff_header.characteristics & IMAGE_FILE_EXECUTABLE_IMAGE != 0
    }

    /// Whether the COFF header has the flag of an executable image, and it is no DLL and no driver.
    #[must_use]
    pub fn is_exe(&self) -> bool {
        self.is_executable() && !self.is_dll() && !self.is_driver()
    }

    /// The RVA of the entry point of an optional header; 0 if there is none.
    #[must_use]
    pub fn entry(&self) -> u32 {
        let fields = &self.record.optional_header.standard_fields;
        fields.address_of_entry_point
    }

    /// The preferred address of the image in memory; 0 if it has no optional header.
    #[must_use]
    pub fn image_base(&self) -> u64 {
        self.record.optional_header.windows_fields.image_base
    }

    /// The DOS header; zeros in an object and a Terse Executable.
    #[must_use]
    pub const fn dos_header(&self) -> &DosHeader {
        &self.record.dos_header
    }

    /// The Rich header; `None` if there is none.
    #[must_use]
    pub fn rich_header(&self) -> Option<RichHeader<'a>> {
        let it = &self.record.rich_header;
        let stored = it.start_offset as usize..it.end_offset as usize;
        it.is_present.then(|| RichHeader {
            stored: self.bytes().get(stored).unwrap_or_default(),
            key: it.key,
            start_offset: it.start_offset,
            end_offset: it.end_offset,
            padding_size: it.padding_size,
        })
    }

    /// The COFF header.
    #[must_use]
    pub const fn coff_header(&self) -> &CoffHeader {
        &self.record.coff_header
    }

    /// The optional header. If it is `None`, there are no directories, and no address has an offset,
    /// except by [`Mapping::Identity`](crate::Mapping::Identity).
    #[must_use]
    pub const fn optional_header(&self) -> Option<&OptionalHeader> {
        if self.record.has_optional_header {
            Some(&self.record.optional_header)
        } else {
            None
        }
    }

    /// A data directory; `None` if it is zeros.
    #[must_use]
    pub fn directory(&self, which: DirectoryType) -> Option<DataDirectory> {
        let it = self.record.directories[which as usize];
        (it != DataDirectory::default()).then_some(it)
    }

    /// The whole header, with the DOS stub and all data directories. You can change it, and put it
    /// into the file: see [`patched`](Self::patched).
    #[must_use]
    pub fn header(&self) -> Header<'a> {
        let it = &self.record;
        let stub = self.bytes().get(STUB..STUB.saturating_add(it.dos_stub_size));
        Header {
            dos_header: it.dos_header,
            dos_stub: match stub {
                Some(stub) if !it.is_dos_stub_replaced => stub,
                _ if it.is_dos_stub_replaced => default_stub(it),
                _ => &[],
            },
            coff_header: it.coff_header,
            optional_header: self.optional_header().copied(),
            directories: it.directories,
        }
    }
}

/// # Walks
impl<'a> Image<'a> {
    /// The section headers, in order.
    pub fn sections(&self) -> Rows<'a, Section<'a>> {
        Rows::of((*self, Default::default(), 0, 0), self.record.section_count)
    }

    /// A walk over the entries of the Rich header.
    pub fn rich_entries<'b>(&self, budget: &'b Budget) -> Walk<'a, 'b, RichEntry> {
        Walk::of(self, budget)
    }

    /// A walk over the imports, in the order of the import directory.
    ///
    /// It skips libraries without an address table, imports whose hint can't be read, and tables that
    /// the file cuts short. Each counts once. Imports whose name has no offset are unmapped.
    pub fn imports<'b>(&self, budget: &'b Budget) -> Walk<'a, 'b, Import<'a>> {
        Walk::of(self, budget)
    }

    /// A walk over the libraries: one for each entry of the import directory, also the skipped ones.
    ///
    /// A step of a budget is one look at an entry of the import directory, or at 64 entries of an
    /// address table. Libraries may share one long address table, which is read for each of them.
    pub fn libraries<'b>(&self, budget: &'b Budget) -> Walk<'a, 'b, Library<'a>> {
        Walk::of(self, budget)
    }

    /// A walk over the exports that have a name pointer, in the order of the name pointers.
    ///
    /// Name pointers without an ordinal, with an ordinal past the address table, or with a forwarder
    /// that can't be read are unmapped.
    pub fn exports<'b>(&self, budget: &'b Budget) -> Walk<'a, 'b, Export<'a>> {
        Walk::of(self, budget)
    }

    /// A walk over the export address table: all ordinals, also those without a name.
    ///
    /// Each row looks the sections up. With 65,535 of them it takes 0.2 milliseconds, and is one step
    /// all the same: give such an image a small budget.
    pub fn export_addresses<'b>(&self, budget: &'b Budget) -> Walk<'a, 'b, ExportAddress> {
        Walk::of(self, budget)
    }

    /// A walk over the blocks of base relocations. If bytes are no block, the walk gives the blocks
    /// before them, and then an error, in both modes.
    pub fn relocation_blocks<'b>(&self, budget: &'b Budget) -> Walk<'a, 'b, RelocationBlock<'a>> {
        Walk::of(self, budget)
    }

    /// A walk over the symbols of an image or an object.
    pub fn symbols<'b>(&self, budget: &'b Budget) -> Walk<'a, 'b, Symbol<'a>> {
        Walk::of(self, budget)
    }

    // Tests that a table is not refused as a whole.
    pub(crate) fn test<T: Walked<'a>>(&self) -> Result<(), Error> {
        let (mut cursor, mut steps) = (T::Cursor::default(), usize::MAX);
        let (rows, mut batch) = (NonNull::dangling().as_ptr(), ffi::Batch::default());
        // SAFETY: there is room for no row.
        let fault = unsafe { T::next(&self.record, &mut cursor, rows, 0, &mut steps, &mut batch) };
        Error::test(fault, Some(T::TABLE))
    }
}

/// # Look-ups
impl<'a> Image<'a> {
    /// The first section of this name. `None` if there is none, or if this name is cut.
    #[must_use]
    pub fn section_by_name(&self, name: impl AsRef<[u8]>) -> Option<Section<'a>> {
        self.sections().find(|it| it.name == *name.as_ref() && !it.is_name_cut)
    }

    /// The section of this number, from 1, as the `section_number` of a symbol has it. `None` for
    /// the numbers 0, -1 and -2 of symbols without a section, and if there is no such section.
    #[must_use]
    pub fn section_by_number(&self, number: i16) -> Option<Section<'a>> {
        // (of 16 bits without a sign: 40,000 is stored as -25,536)
        let is_one = !(-2..=0).contains(&number);
        let index = usize::from(u16::from_ne_bytes(number.to_ne_bytes()));
        let found = self.first(ffi::SectionCursor { index: index.checked_sub(1)? });
        found.ok()?.filter(|_| is_one)
    }

    /// The export directory; `None` if the image has none, or permissive mode skips a damaged one.
    ///
    /// # Errors
    /// In strict mode the export directory is damaged.
    pub fn export_directory(&self) -> Result<Option<ExportDirectory<'a>>, Error> {
        let read = |it: &mut _| ffi::goblin_pe_read_export_directory(&self.record, it);
        let it = filled(Some(Table::Exports), read)?;
        Ok(ExportDirectory::of(&it))
    }

    /// The first export of this name, as the walk gives it; `None` if there is none, or if the name is
    /// longer than the limit of the options.
    ///
    /// # Errors
    /// As a walk over the exports, and [`ErrorKind::Steps`](crate::ErrorKind::Steps).
    ///
    /// ```no_run
    /// use goblin_pe::{Budget, Image};
    ///
    /// # let bytes = [];
    /// let image = Image::parse(&bytes)?;
    /// let is_server = image.find_export("DllGetClassObject", &Budget::default())?.is_some();
    /// # Ok::<(), goblin_pe::Error>(())
    /// ```
    pub fn find_export(
        &self,
        name: impl AsRef<[u8]>,
        budget: &Budget,
    ) -> Result<Option<Export<'a>>, Error> {
        let name = Some(Text(name.as_ref()));
        let is_named = |it: &Export| it.name == name && !it.is_name_cut;
        self.exports(budget).find(|row| row.as_ref().map_or(true, is_named)).transpose()
    }

    /// The export of this ordinal, also one without a name; `None` if there is none, or the ordinal
    /// is unused.
    ///
    /// # Errors
    /// As [`export_directory`](Self::export_directory).
    pub fn find_export_by_ordinal(&self, ordinal: usize) -> Result<Option<ExportAddress>, Error> {
        let Some(directory) = self.export_directory()? else {
            return Ok(None);
        };
        let Some(index) = ordinal.checked_sub(directory.ordinal_base as usize) else {
            return Ok(None);
        };
        let found = self.first::<ExportAddress>(ffi::ExportAddressCursor { index })?;
        Ok(found.filter(|it| it.rva != 0))
    }

    // The row at a cursor.
    fn first<T: Walked<'a>>(&self, mut cursor: T::Cursor) -> Result<Option<T>, Error>
    where
        T::Record: Default,
    {
        let mut batch = ffi::Batch::default();
        // SAFETY: there is room for one row.
        let row = filled(Some(T::TABLE), |row| unsafe {
            T::next(&self.record, &mut cursor, row, 1, &mut { usize::MAX }, &mut batch)
        })?;
        Ok((batch.count == 1).then(|| T::of(&row, self)))
    }

    /// The symbol whose record has this index, as relocations name it; `None` if the symbol table
    /// ends before.
    ///
    /// # Errors
    /// The file is too short for the symbol table or the string table.
    pub fn symbol_at(&self, index: u32) -> Result<Option<Symbol<'a>>, Error> {
        let index = index as usize;
        self.first(ffi::SymbolCursor { index })
    }

    /// The text at an offset of the string table; `None` if there is none, or it is not UTF-8. The
    /// offset counts from the length field of the table.
    #[must_use]
    pub fn string_at(&self, offset: u32) -> Option<Text<'a>> {
        let mut text = ffi::Slice::default();
        let is_there = ffi::goblin_pe_string_at(&self.record, offset as usize, &mut text);
        is_there.then(|| Text(text.get()))
    }

    /// The file offset of an RVA, as the mapping of the options says. The offset may lie past the end
    /// of the file. `None` in an object or a Terse Executable. If sections map RVAs, also `None` if no
    /// section and no mapped header is there, if zeros after raw data are there, or if the file
    /// alignment is no power of two.
    #[must_use]
    pub fn find_offset(&self, rva: u32) -> Option<usize> {
        let mut offset = 0;
        let is_there = ffi::goblin_pe_find_offset(&self.record, rva as usize, &mut offset);
        is_there.then_some(offset)
    }

    /// An RVA that [`find_offset`](Self::find_offset) maps to this file offset: that in the first
    /// section whose data holds the offset, or else in the headers. `None` if there is none, or if
    /// an earlier section hides it; later sections are not tried.
    #[must_use]
    pub fn find_rva(&self, offset: usize) -> Option<u32> {
        let mut rva = 0;
        let is_there = ffi::goblin_pe_find_rva(&self.record, offset, &mut rva);
        u32::try_from(rva).ok().filter(|_| is_there)
    }

    /// What a loader puts at an RVA: the section and region, and the first `size` bytes as far as
    /// they are known.
    ///
    /// ```no_run
    /// use goblin_pe::{DirectoryType, Image};
    ///
    /// # let bytes = [];
    /// let image = Image::parse(&bytes)?;
    /// if let Some(debug) = image.directory(DirectoryType::DebugTable) {
    ///     // (28 bytes, or none if the image has fewer)
    ///     let first = image.memory_at(debug.virtual_address, 28).whole();
    ///     println!("{first:x?}");
    /// }
    /// # Ok::<(), goblin_pe::Error>(())
    /// ```
    #[must_use]
    pub fn memory_at(&self, rva: u32, size: usize) -> Memory<'a> {
        let mut memory = ffi::Memory::default();
        ffi::goblin_pe_memory_at(&self.record, rva as usize, size, &mut memory);
        Memory::of(&memory, self)
    }

    /// The text at an RVA, up to a NUL or to the end of what [`memory_at`](Self::memory_at) gives
    /// there. `None` if nothing is known of the RVA.
    #[must_use]
    pub fn text_at(&self, rva: u32) -> Option<Text<'a>> {
        let memory = self.memory_at(rva, usize::MAX);
        let is_known = memory.zeros != 0 || !memory.bytes.is_empty();
        let text = memory.bytes.split(|it| *it == 0).next()?;
        is_known.then_some(Text(text))
    }

    /// The forwarder whose text is at an RVA, as an [`ExportAddress`] has it.
    ///
    /// # Errors
    /// The address has no offset, the offset lies past the end, or the text is no forwarder.
    pub fn forwarder_at(&self, rva: u32) -> Result<Forwarder<'a>, Error> {
        let read = |it: &mut _| ffi::goblin_pe_forwarder_at(&self.record, rva as usize, it);
        let it = filled(None, read)?;
        let (dll, ordinal) = (Text::default(), 0); // (it always has a kind)
        Ok(Forwarder::of(&it).unwrap_or(Forwarder::Ordinal { dll, ordinal }))
    }
}

/// # Facts about the whole file
impl<'a> Image<'a> {
    /// The text whose MD5 is the imphash that analysts compare, as pefile's `get_imphash` hashes it.
    /// `None` if there are no imports, or if a name is cut: then the hash would differ.
    ///
    /// # Errors
    /// As a walk over the imports, and [`ErrorKind::Steps`](crate::ErrorKind::Steps).
    pub fn imphash_text(&self, budget: &Budget) -> Result<Option<String>, Error> {
        imphash::text(self.imports(budget))
    }

    /// The overlay: the bytes after the data of all sections; empty if there are none. Its file offset
    /// is `bytes().len() - overlay().len()`.
    ///
    /// A section with the raw pointer 0 has no data. If the end of the file cuts a section, there is
    /// no overlay.
    #[must_use]
    pub fn overlay(&self) -> &'a [u8] {
        let with_data = |it: &Section| it.pointer_to_raw_data > 0 && it.size_of_raw_data > 0;
        let end = |it: Section| it.pointer_to_raw_data as usize + it.size_of_raw_data as usize;
        let end = self.sections().filter(with_data).map(end).max();
        end.and_then(|end| self.bytes().get(end..)).unwrap_or_default()
    }

    /// Computes the checksum of the file, for `check_sum` of the optional header; `None` if there is
    /// no optional header. Windows tests it in drivers. [`update_checksum`] stores it.
    #[must_use]
    pub fn checksum(&self) -> Option<u32> {
        let mut sum = 0;
        let is_there = ffi::goblin_pe_checksum(&self.record, &mut sum);
        is_there.then_some(sum)
    }

    /// A copy of the file with this header, and with these section headers in place of the first ones.
    ///
    /// # Errors
    /// [`ErrorKind::Place`](crate::ErrorKind::Place), if the file has no place for them: the PE
    /// signature, the section table and the data stay where they are. And as [`Header::to_vec`].
    ///
    /// ```no_run
    /// use goblin_pe::{Image, update_checksum};
    ///
    /// # let bytes = [];
    /// let image = Image::parse(&bytes)?;
    /// let mut header = image.header();
    /// header.coff_header.time_date_stamp = 0;
    /// let mut changed = image.patched(&header, &[])?;
    /// update_checksum(&mut changed)?;
    /// # Ok::<(), goblin_pe::Error>(())
    /// ```
    pub fn patched(&self, header: &Header, sections: &[Section]) -> Result<Vec<u8>, Error> {
        patch::patched(self, header, sections)
    }
}

impl fmt::Debug for Image<'_> {
    fn fmt(&self, f: &mut fmt::Formatter<'_>) -> fmt::Result {
        f.debug_struct("Image")
            .field("kind", &self.kind())
            .field("machine", &self.record.coff_header.machine)
            .field("sections", &self.record.section_count)
            .finish_non_exhaustive()
    }
}

impl<'a> TryFrom<&'a [u8]> for Image<'a> {
    type Error = Error;

    /// As [`Image::parse`].
    fn try_from(bytes: &'a [u8]) -> Result<Image<'a>, Error> {
        Image::parse(bytes)
    }
}

/// Computes the checksum of an image and stores it in the optional header. Returns it.
///
/// # Errors
/// As [`Image::read`] in permissive mode; [`ErrorKind::Place`](crate::ErrorKind::Place), if there is
/// no optional header.
pub fn update_checksum(file: &mut [u8]) -> Result<u32, Error> {
    let image = Image::read(file, Options::permissive())?;
    let sum = image.checksum().ok_or(Error::place())?;
    let field = image.dos_header().pe_pointer as usize + CHECK_SUM;
    let place = file.get_mut(field..).and_then(<[u8]>::first_chunk_mut);
    *place.ok_or(Error::place())? = sum.to_le_bytes();
    Ok(sum)
}

// Where the checksum is, from the PE signature on.
const CHECK_SUM: usize = 4 + 20 + 64;

/// What a file is, by its first bytes. This crate does not read archives, import objects and big
/// objects.
///
/// ```no_run
/// use goblin_pe::{Image, Kind, Options};
///
/// let bytes = std::fs::read("some.file")?;
/// let image = match Kind::of(&bytes) {
///     Kind::Object => Image::read_object(&bytes, Options::permissive())?,
///     Kind::Te => Image::read_te(&bytes, Options::permissive())?.0,
///     _ => Image::read(&bytes, Options::permissive())?,
/// };
/// println!("{image:?}");
/// # Ok::<(), std::io::Error>(())
/// ```
#[derive(Clone, Copy, Debug, PartialEq, Eq, PartialOrd, Ord, Hash)]
#[non_exhaustive]
pub enum Kind {
    /// None of the others.
    Unknown = 0,
    /// A PE image.
    Image = 1,
    /// A COFF object.
    Object = 2,
    /// A Terse Executable.
    Te = 3,
    /// A static library or an import library.
    Archive = 4,
    /// A member of an import library that says what a name is imported by.
    ImportObject = 5,
    /// A COFF object with more than 65,279 sections.
    BigObject = 6,
}

impl Kind {
    /// What a file is. Whether it can be read is another question.
    #[must_use]
    pub fn of(bytes: &[u8]) -> Kind {
        // SAFETY: the slice has this length.
        Kind::numbered(unsafe { ffi::goblin_pe_kind_of(bytes.as_ptr(), bytes.len()) })
    }

    const fn numbered(number: u32) -> Kind {
        match number {
            1 => Kind::Image,
            2 => Kind::Object,
            3 => Kind::Te,
            4 => Kind::Archive,
            5 => Kind::ImportObject,
            6 => Kind::BigObject,
            _ => Kind::Unknown,
        }
    }
}

/// A part of a file that an error is about. `{}` prints its name, such as `imports`.
#[derive(Clone, Copy, Debug, PartialEq, Eq, PartialOrd, Ord, Hash)]
#[non_exhaustive]
pub enum Table {
    /// The header, with the section table and the section names.
    Header,
    /// The Rich header.
    RichHeader,
    /// The imports and the libraries.
    Imports,
    /// The exports, with names and without.
    Exports,
    /// The base relocations.
    Relocations,
    /// The symbols, or the relocations of an object.
    Symbols,
}

impl fmt::Display for Table {
    fn fmt(&self, f: &mut fmt::Formatter<'_>) -> fmt::Result {
        f.pad(match self {
            Table::Header => "header",
            Table::RichHeader => "Rich header",
            Table::Imports => "imports",
            Table::Exports => "exports",
            Table::Relocations => "relocations",
            Table::Symbols => "symbols",
        })
    }
}

/// Where memory of an image comes from.
#[derive(Clone, Copy, Debug, Default, PartialEq, Eq, PartialOrd, Ord, Hash)]
#[non_exhaustive]
pub enum Region {
    /// The loader maps nothing there.
    #[default]
    Unmapped = 0,
    /// The headers.
    Headers = 1,
    /// The raw data of a section.
    RawData = 2,
    /// The zeros that follow the raw data of a section.
    Zeros = 3,
}

/// Bytes that a loader puts into memory: `bytes`, then `zeros` zeros. You asked for `missing` more,
/// which are unknown: they lie past the section's memory, or the file ends before them.
#[derive(Clone, Copy, Debug, Default, PartialEq, Eq, PartialOrd, Ord, Hash)]
#[non_exhaustive]
pub struct Memory<'a> {
    /// The bytes of the file.
    pub bytes: &'a [u8],
    /// How many zeros follow them.
    pub zeros: usize,
    /// How many bytes are unknown.
    pub missing: usize,
    /// The index of the section; `None` outside of sections.
    pub section: Option<usize>,
    /// What is at the first byte.
    pub region: Region,
}

impl<'a> Memory<'a> {
    pub(crate) fn of(it: &ffi::Memory<'a>, image: &Image) -> Memory<'a> {
        let is_in_one = it.section_index < image.record.section_count;
        Memory {
            bytes: it.bytes.get(),
            zeros: it.zeros,
            missing: it.missing,
            section: is_in_one.then_some(it.section_index),
            region: match it.region {
                1 => Region::Headers,
                2 => Region::RawData,
                3 => Region::Zeros,
                _ => Region::Unmapped,
            },
        }
    }

    /// The bytes, if they are all that you asked for: no zeros follow, and nothing is missing.
    #[must_use]
    pub const fn whole(&self) -> Option<&'a [u8]> {
        if self.zeros == 0 && self.missing == 0 {
            Some(self.bytes)
        } else {
            None
        }
    }

    /// The bytes and the zeros, as memory has them.
    ///
    /// # Errors
    /// [`ErrorKind::Memory`](crate::ErrorKind::Memory): a file can ask for four gigabytes of zeros.
    pub fn to_vec(&self) -> Result<Vec<u8>, Error> {
        let size = self.bytes.len().saturating_add(self.zeros);
        let mut bytes = room(size)?;
        bytes.extend_from_slice(self.bytes);
        bytes.resize(size, 0);
        Ok(bytes)
    }
}

/// Which parts of a header [`Image::read_partial`] could not read, and why. A part that is there, or
/// that the file does not have, is `None`. If another part that can't be read says where a part is,
/// both have the same error.
#[derive(Clone, Copy, Debug, Default, PartialEq, Eq, Hash)]
#[non_exhaustive]
pub struct HeaderFaults {
    /// Why [`Image::read`] refuses the file; `None` if it reads it.
    pub refusal: Option<Error>,
    /// The DOS header and the PE signature.
    pub dos_header: Option<Error>,
    /// The DOS stub.
    pub dos_stub: Option<Error>,
    /// The Rich header.
    pub rich_header: Option<Error>,
    /// The COFF header.
    pub coff_header: Option<Error>,
    /// The standard fields of the optional header.
    pub standard_fields: Option<Error>,
    /// The Windows fields of the optional header.
    pub windows_fields: Option<Error>,
    /// The data directories. If there are more than sixteen, the image has the first sixteen.
    pub directories: Option<Error>,
    /// The section table. The image has the section headers that are complete.
    pub section_table: Option<Error>,
    /// The section names. A section whose name is bad has its eight bytes.
    pub section_names: Option<Error>,
}

impl HeaderFaults {
    /// The parts that can't be read, as pairs (name of the field, why), without `refusal`.
    pub fn errors(&self) -> impl Iterator<Item = (&'static str, Error)> + use<> {
        let parts = [
            ("dos_header", self.dos_header),
            ("dos_stub", self.dos_stub),
            ("rich_header", self.rich_header),
            ("coff_header", self.coff_header),
            ("standard_fields", self.standard_fields),
            ("windows_fields", self.windows_fields),
            ("directories", self.directories),
            ("section_table", self.section_table),
            ("section_names", self.section_names),
        ];
        parts.into_iter().filter_map(|(name, why)| Some((name, why?)))
    }

    fn of(refusal: ffi::Fault, it: &ffi::HeaderFaults) -> HeaderFaults {
        let part = |fault| Error::some(fault, None);
        HeaderFaults {
            refusal: Error::some(refusal, Some(Table::Header)),
            dos_header: part(it.dos_header),
            dos_stub: part(it.dos_stub),
            rich_header: part(it.rich_header),
            coff_header: part(it.coff_header),
            standard_fields: part(it.standard_fields),
            windows_fields: part(it.windows_fields),
            directories: part(it.directories),
            section_table: part(it.section_table),
            section_names: part(it.section_names),
        }
    }
}
