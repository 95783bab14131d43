//! Files with changed headers and sections.

use crate::constants::{NUM_DATA_DIRECTORIES, SIZEOF_DATA_DIRECTORY, SIZEOF_SECTION_TABLE};
use crate::error::Error;
use crate::headers::{DataDirectory, Header, OptionalHeader, STUB};
use crate::image::Image;
use crate::memory::room;
use crate::rows::Section;

/// The file of an image with this header, and with these section headers in place of the first ones.
///
/// - The optional header and the directories may overlap the section table only if both have the same
///   bytes.
/// - Another `number_of_rva_and_sizes` has to count directories that end in the optional header.
/// - More sections than the file has need zeros in their place, before the data of all sections.
/// - Permissive mode must not have replaced the DOS stub, and the PE signature has to stay where it is.
/// - The size of the optional header has to stay, because another one would move the section table.
pub fn patched(image: &Image, header: &Header, sections: &[Section]) -> Result<Vec<u8>, Error> {
    let present = image.header();
    test_header(image, &present, header)?;
    let bytes = image.bytes();
    let mut file = room(bytes.len())?;
    file.extend_from_slice(bytes);
    let table = image.record.section_table;
    let [own, counted] = [&present, header].map(|it| it.coff_header.number_of_sections);
    let counted = if counted == own { 0 } else { counted };
    test_room(image, table, sections.len().max(counted.into()))?;
    for (index, section) in sections.iter().enumerate() {
        put(&mut file, table + SIZEOF_SECTION_TABLE * index, &section.to_bytes())?;
    }
    let written = written(&present, header, table)?;
    let (front, rest) = written.split_at(table.min(written.len()));
    if !rest.is_empty() && file.get(table..written.len()) != Some(rest) {
        return Err(Error::place());
    }
    put(&mut file, 0, front)?;
    Ok(file)
}

// Tests that there is room for this number of section headers. If the file has fewer, zeros have to
// lie in their place, before the data of all sections.
fn test_room(image: &Image, table: usize, count: usize) -> Result<(), Error> {
    let present = table + SIZEOF_SECTION_TABLE * image.sections().len();
    let end = table.saturating_add(count.saturating_mul(SIZEOF_SECTION_TABLE));
    let has_data = |it: &Section| it.size_of_raw_data > 0 && it.pointer_to_raw_data > 0;
    let mut with_data = image.sections().filter(has_data);
    let is_before_data = with_data.all(|it| end <= it.pointer_to_raw_data as usize);
    let more = image.bytes().get(present..end);
    let are_zeros = more.is_some_and(|it| it.iter().all(|&byte| byte == 0));
    test(end <= present || is_before_data && are_zeros)
}

// Tests that a header lies where the file's own does.
fn test_header(image: &Image, present: &Header, header: &Header) -> Result<(), Error> {
    let signature = present.dos_header.pe_pointer;
    let is_in_place = |it: &Header| {
        it.dos_header.pe_pointer == signature && STUB + it.dos_stub.len() == signature as usize
    };
    let sizes = [present, header].map(|it| it.coff_header.size_of_optional_header);
    let are_optional = [present, header].map(|it| it.optional_header.is_some());
    let places = directories(present).max(directories(header));
    let mut past = header.directories[places..].iter();
    test(!image.record.is_dos_stub_replaced)?;
    test(is_in_place(present) && is_in_place(header))?;
    test(sizes[0] == sizes[1] && are_optional[0] == are_optional[1])?;
    test(past.all(|it| *it == DataDirectory::default()))
}

// How many data directories a header counts, of those that a file may have.
fn directories(header: &Header) -> usize {
    let count = header.optional_header.map_or(0, counted);
    (count as usize).min(NUM_DATA_DIRECTORIES)
}

const fn counted(header: OptionalHeader) -> u32 {
    header.windows_fields.number_of_rva_and_sizes
}

// The bytes of a header, up to the last directory that the file has, or is given.
fn written(present: &Header, header: &Header, table: usize) -> Result<Vec<u8>, Error> {
    let mut written = header.to_vec()?;
    let size = written.len();
    if let (Some(old), Some(new)) = (present.optional_header, header.optional_header) {
        let end = |count| size - SIZEOF_DATA_DIRECTORY * (NUM_DATA_DIRECTORIES - count);
        test_directories(old, new, end(directories(header)) <= table)?;
        written.truncate(end(directories(present).max(directories(header))));
    }
    Ok(written)
}

// Tests that the directories that an optional header counts lie in it; those of the file's own may pass it.
fn test_directories(own: OptionalHeader, given: OptionalHeader, lie_in: bool) -> Result<(), Error> {
    let [own, given] = [own, given].map(|it| (it.standard_fields.magic, counted(it)));
    test(given == own || lie_in && given.1 as usize <= NUM_DATA_DIRECTORIES)
}

// Puts bytes at an offset of the file.
fn put(file: &mut [u8], offset: usize, bytes: &[u8]) -> Result<(), Error> {
    let place = file.get_mut(offset..).and_then(|it| it.get_mut(..bytes.len()));
    place.ok_or(Error::place())?.copy_from_slice(bytes);
    Ok(())
}

// There is a place if this holds.
fn test(holds: bool) -> Result<(), Error> {
    if holds { Ok(()) } else { Err(Error::place()) }
}
