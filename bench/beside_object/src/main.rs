//! Reads files in memory with this library and with the crate object, in turn, for `tools/benchmark`:
//! beside_object ROUNDS FILE.. The files are images or objects.
//!
//! object's own lists lack the imports by ordinal and the exports that are forwarded. So its rows are put into lists
//! here. Without lists, its rows are compared with the walks over this library's image.
#[path = "../../beside_goblin/src/measure.rs"]
mod measure;

use goblin_pe::{Budget, Image, Kind, Options, Pe};
use object::pe::{IMAGE_NT_OPTIONAL_HDR64_MAGIC, ImageNtHeaders32, ImageNtHeaders64};
use object::read::coff::CoffFile;
use object::read::pe::{ExportTarget, ImageNtHeaders, Import, PeFile, optional_header_magic};
use object::{LittleEndian, Object, ObjectSection, ObjectSymbol};
use std::error::Error;
use std::hint::black_box;

// How many sections, imports, exports and blocks of base relocations are in this library's lists.
fn our_lists(bytes: &[u8]) -> Option<[usize; 4]> {
    let pe = Pe::parse(bytes).ok()?;
    for section in &pe.sections {
        black_box(section.name);
    }
    for import in &pe.imports {
        black_box((import.name, import.dll));
    }
    for export in &pe.exports {
        black_box((export.name, export.forwarder));
    }
    let (imports, exports) = (pe.imports.len(), pe.exports.len());
    Some([pe.sections.len(), imports, exports, pe.relocation_blocks.len()])
}

// How many imports, exports and blocks of base relocations this library's walks give.
fn our_walks(bytes: &[u8]) -> Option<[usize; 3]> {
    let image = Image::parse(bytes).ok()?;
    let (mut counts, budget) = ([0; 3], Budget::unlimited());
    for import in image.imports(&budget) {
        black_box(import.ok()?);
        counts[0] += 1;
    }
    for export in image.exports(&budget) {
        black_box(export.ok()?);
        counts[1] += 1;
    }
    for block in image.relocation_blocks(&budget) {
        black_box(block.ok()?);
        counts[2] += 1;
    }
    Some(counts)
}

// Reads each import, with its library, with object.
fn imports_of<'a, H: ImageNtHeaders>(
    file: &PeFile<'a, H>,
    mut with: impl FnMut((&'a [u8], Import<'a>)),
) -> object::Result<()> {
    let Some(table) = file.import_table()? else {
        return Ok(());
    };
    let mut libraries = table.descriptors()?;
    while let Some(library) = libraries.next()? {
        let name = table.name(library.name.get(LittleEndian))?;
        let tables = [library.original_first_thunk, library.first_thunk];
        let [lookups, addresses] = tables.map(|it| it.get(LittleEndian));
        let slots = if lookups == 0 { addresses } else { lookups };
        let mut thunks = table.thunks(slots)?;
        while let Some(thunk) = thunks.next::<H>()? {
            with((name, table.import::<H>(thunk)?));
        }
    }
    Ok(())
}

// Reads each export that has a name with object.
fn exports_of<'a, H: ImageNtHeaders>(
    file: &PeFile<'a, H>,
    mut with: impl FnMut((&'a [u8], ExportTarget<'a>)),
) -> object::Result<()> {
    let Some(table) = file.export_table()? else {
        return Ok(());
    };
    for (name, index) in table.name_iter() {
        let target = table.target_by_index(index.into())?;
        with((table.name_from_pointer(name)?, target));
    }
    Ok(())
}

// Reads the address and the size of each block of base relocations with object.
fn blocks_of<H: ImageNtHeaders>(
    file: &PeFile<'_, H>,
    bytes: &[u8],
    mut with: impl FnMut((u32, u32)),
) -> object::Result<()> {
    let directories = file.data_directories();
    let Some(mut blocks) = directories.relocation_blocks(bytes, &file.section_table())? else {
        return Ok(());
    };
    while let Some(block) = blocks.next()? {
        with((block.virtual_address(), block.size()));
    }
    Ok(())
}

// The counts of `our_lists` with object, which makes a list of each.
fn lists<H: ImageNtHeaders>(bytes: &[u8]) -> object::Result<[usize; 4]> {
    let file = PeFile::<H>::parse(bytes)?;
    let (mut imports, mut exports, mut blocks) = (Vec::new(), Vec::new(), Vec::new());
    for section in file.sections() {
        black_box(section.name_bytes()?);
    }
    imports_of(&file, |it| imports.push(it))?;
    exports_of(&file, |it| exports.push(it))?;
    blocks_of(&file, bytes, |it| blocks.push(it))?;
    black_box((&imports, &exports, &blocks));
    let sections = file.section_table().len();
    Ok([sections, imports.len(), exports.len(), blocks.len()])
}

// The counts of `our_walks` with object, without lists.
fn walks<H: ImageNtHeaders>(bytes: &[u8]) -> object::Result<[usize; 3]> {
    let file = PeFile::<H>::parse(bytes)?;
    let mut counts = [0; 3];
    imports_of(&file, |it| {
        black_box(it);
        counts[0] += 1;
    })?;
    exports_of(&file, |it| {
        black_box(it);
        counts[1] += 1;
    })?;
    blocks_of(&file, bytes, |it| {
        black_box(it);
        counts[2] += 1;
    })?;
    Ok(counts)
}

fn is_wide(bytes: &[u8]) -> Option<bool> {
    Some(optional_header_magic(bytes).ok()? == IMAGE_NT_OPTIONAL_HDR64_MAGIC)
}

fn object_lists(bytes: &[u8]) -> Option<[usize; 4]> {
    if is_wide(bytes)? {
        lists::<ImageNtHeaders64>(bytes).ok()
    } else {
        lists::<ImageNtHeaders32>(bytes).ok()
    }
}

fn object_walks(bytes: &[u8]) -> Option<[usize; 3]> {
    if is_wide(bytes)? {
        walks::<ImageNtHeaders64>(bytes).ok()
    } else {
        walks::<ImageNtHeaders32>(bytes).ok()
    }
}

// How many symbols this library finds in an object.
fn our_symbols(bytes: &[u8]) -> Option<usize> {
    let object = Image::read_object(bytes, Options::default()).ok()?;
    let mut count = 0;
    for symbol in object.symbols(&Budget::unlimited()) {
        let symbol = symbol.ok()?;
        black_box((symbol.name, symbol.value));
        count += 1;
    }
    Some(count)
}

// How many relocations this library finds in its sections.
fn our_relocations(bytes: &[u8]) -> Option<usize> {
    let object = Image::read_object(bytes, Options::default()).ok()?;
    let (mut count, budget) = (0, Budget::unlimited());
    for section in object.sections() {
        for relocation in section.relocations(&object, &budget) {
            black_box(relocation.ok()?);
            count += 1;
        }
    }
    Some(count)
}

// The count of `our_symbols` with object.
fn object_symbols(bytes: &[u8]) -> Option<usize> {
    let file = CoffFile::<&[u8]>::parse(bytes).ok()?;
    let mut count = 0;
    for symbol in file.symbols() {
        black_box((symbol.name_bytes().ok(), symbol.address()));
        count += 1;
    }
    Some(count)
}

// The count of `our_relocations` with object.
fn object_relocations(bytes: &[u8]) -> Option<usize> {
    let file = CoffFile::<&[u8]>::parse(bytes).ok()?;
    let mut count = 0;
    for section in file.sections() {
        for relocation in section.relocations() {
            black_box(relocation);
            count += 1;
        }
    }
    Some(count)
}

type Reader<T> = fn(&[u8]) -> Option<T>;

// Compares two readers on the files in which they count the same.
fn compare<T: PartialEq>(
    title: &str,
    rounds: usize,
    files: &[Vec<u8>],
    ours: Reader<T>,
    theirs: Reader<T>,
) -> Result<(), Box<dyn Error>> {
    if files.iter().any(|it| ours(it) != theirs(it)) {
        return Err(format!("the {title} count otherwise").into());
    }
    measure::compare(
        files,
        rounds,
        (&format!("{title}: ours"), |file| ours(file)),
        ("object", |file| theirs(file)),
    );
    Ok(())
}

fn main() -> Result<(), Box<dyn Error>> {
    let (rounds, files) = measure::asked()?;
    let (objects, images): (Vec<_>, Vec<_>) = files
        .into_iter()
        .partition(|(_, file)| Kind::of(file) == Kind::Object);
    let objects: Vec<_> = objects.into_iter().map(|(_, file)| file).collect();
    if !objects.is_empty() {
        compare("symbols", rounds, &objects, our_symbols, object_symbols)?;
        compare(
            "relocations",
            rounds,
            &objects,
            our_relocations,
            object_relocations,
        )?;
    }
    let images = measure::alike(images, our_lists, object_lists);
    if !images.is_empty() {
        compare("lists", rounds, &images, our_lists, object_lists)?;
        compare("walks", rounds, &images, our_walks, object_walks)?;
    }
    Ok(())
}
