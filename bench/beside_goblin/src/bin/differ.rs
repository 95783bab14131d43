//! Reads changed samples with this library and with goblin in one process, and compares their sections, imports and
//! exports: differ COUNT FILE..
//!
//! goblin is Debian's, 0.2.1. Its rules are older than those of 0.10.7, which this library follows, so only what both
//! read is compared. It has no reader of base relocations: bench/beside_objdump.py compares those with objdump's. Each
//! file has one table, that of its imports or that of its exports. A known difference is counted by its name
//! ([`Known`]). Any other difference is shown, and then the status is 1.
use goblin::pe::export::{ExportDirectoryTable, Reexport};
use goblin::pe::{PE, header::Header, utils};
use goblin_pe::{
    Budget, Cause, DirectoryType, ErrorKind, Import, Imported, Mapping, Options, Pe,
};
use std::collections::BTreeMap;
use std::error::Error;
use std::panic::{AssertUnwindSafe, catch_unwind};

/// The line of a section: its name, and the fields that both libraries name alike.
macro_rules! section_line {
    ($name:expr, $section:expr) => {
        format!(
            "section {:?} {:x} {:x} {:x} {:x} {:x} {:x} {} {} {:x}",
            $name,
            $section.virtual_size,
            $section.virtual_address,
            $section.size_of_raw_data,
            $section.pointer_to_raw_data,
            $section.pointer_to_relocations,
            $section.pointer_to_linenumbers,
            $section.number_of_relocations,
            $section.number_of_linenumbers,
            $section.characteristics
        )
    };
}

/// The known differences, from docs/DIFFERENCES.md or from the version of goblin.
#[derive(Clone, Copy, Debug, PartialEq, Eq, PartialOrd, Ord)]
enum Known {
    /// goblin 0.2.1 looks at no signature.
    Signature,
    /// goblin 0.2.1 reads neither the DOS stub nor the Rich header.
    Stub,
    /// goblin 0.2.1 has other windows of sections, so other addresses have a file offset.
    Window,
    /// goblin 0.2.1 ends an import directory at a record of zeros. 0.10.7 and this library end it at a record whose
    /// name or address table is at address 0.
    LastRecord,
    /// goblin 0.2.1 refuses a section whose name leads past the string table. 0.10.7 and this library give it no
    /// other name.
    SectionName,
    /// goblin would end the process, because a growth finds no memory.
    Growth,
    /// goblin ends the process, because a sum wraps or an index is past the end.
    Panic,
}

/// Numbers from a seed, by xorshift.
struct Random(u64);

impl Random {
    /// A number below a bound.
    fn below(&mut self, bound: usize) -> usize {
        self.0 ^= self.0 << 13;
        self.0 ^= self.0 >> 7;
        self.0 ^= self.0 << 17;
        (self.0 % bound as u64) as usize
    }
}

fn number(bytes: &[u8], at: usize, width: usize) -> Option<usize> {
    let digits = bytes.get(at..at.checked_add(width)?)?.iter().rev();
    Some(digits.fold(0, |number, &byte| number << 8 | usize::from(byte)))
}

fn put(bytes: &mut [u8], at: usize, number: usize) {
    bytes[at..at + 4].copy_from_slice(&(number as u32).to_le_bytes());
}

const PAGE: usize = 4096;

/// An image with the raw data of each section in whole pages: there the windows of both versions are the same.
fn in_pages(image: &[u8]) -> Option<Vec<u8>> {
    let header = number(image, 0x3C, 4)?;
    let optional = header + 24;
    let table = optional + number(image, header + 20, 2)?;
    let mut made = image
        .get(..table + 40 * number(image, header + 6, 2)?)?
        .to_vec();
    let headers = made.len();
    put(&mut made, optional + 36, PAGE);
    for record in (table..headers).step_by(40) {
        let (size, pointer) = (
            number(image, record + 16, 4)?,
            number(image, record + 20, 4)?,
        );
        made.resize(made.len().next_multiple_of(PAGE), 0);
        let begin = made.len();
        made.extend(image.get(pointer..pointer + size)?);
        put(&mut made, record + 16, size.next_multiple_of(PAGE));
        put(&mut made, record + 20, begin);
    }
    made.resize(made.len().next_multiple_of(PAGE), 0);
    Some(made)
}

/// The offset of the data directories of a file, if it has any.
fn directories(file: &[u8]) -> Option<usize> {
    let optional = number(file, 0x3C, 4)?.checked_add(24)?;
    match number(file, optional, 2)? {
        0x10B => Some(optional + 96),
        0x20B => Some(optional + 112),
        _ => None,
    }
}

/// The file with one table alone, and some of its bytes changed, in parts that are not empty.
fn changed(random: &mut Random, image: &[u8], places: &[usize], table: DirectoryType) -> Vec<u8> {
    let mut file = image.to_vec();
    for _ in 0..random.below(8) {
        let at = places[random.below(places.len())];
        match random.below(5) {
            0 => file[at] = random.below(256) as u8,
            1 => file[at] ^= 1 << random.below(8),
            2 => file[at] = file[at].wrapping_add(1),
            // (a number in decimal, as in forwarders)
            3 => {
                let text = format!("{}\0", random.below(100_000));
                let end = file.len().min(at + text.len());
                file[at..end].copy_from_slice(&text.as_bytes()[..end - at]);
            }
            _ => {
                let from = places[random.below(places.len())] & !3;
                let word = file[from..from + 4].to_vec();
                file[at & !3..(at & !3) + 4].copy_from_slice(&word);
            }
        }
    }
    if let Some(first) = directories(&file) {
        for index in (0..16).filter(|&it| it != table as usize) {
            if let Some(entry) = file.get_mut(first + 8 * index..first + 8 * index + 8) {
                entry.fill(0);
            }
        }
    }
    file
}

/// The answers about a file, a line each.
type Lines = Vec<String>;

/// The answers of this library, and the file offset of the import directory; or the refusal.
fn ours(file: &[u8]) -> Result<(Lines, Option<usize>), goblin_pe::Error> {
    let options = Options::default().with_mapping(Mapping::ByFileAlignment);
    let pe = Pe::read(file, options, &Budget::unlimited())?;
    let sections = pe.sections.iter().map(|s| section_line!(s.name.0, s));
    let mut lines: Lines = sections.collect();
    // goblin counts the entries that were kept, this library those in the file.
    let (mut library, mut kept) = (None, 0);
    let size = if pe.image.is_64() { 8 } else { 4 };
    for x in &pe.imports {
        kept = if library == Some(x.library) { kept + 1 } else { 0 };
        library = Some(x.library);
        let place = x.iat_rva - x.thunk_index * size + kept * size;
        lines.push(import_line(x, place, size));
    }
    // goblin 0.2.1 leaves out what has no file offset.
    for x in pe.exports.iter().filter(|x| x.offset.is_some()) {
        let forwarder = x.forwarder.map(|it| it.to_string());
        lines.push(format!(
            "export {:?} {:x?} {:x} {:?}",
            x.name.map(|it| it.0),
            x.offset,
            x.rva,
            forwarder
        ));
    }
    let imports = pe.image.directory(DirectoryType::ImportTable);
    let at = imports.and_then(|it| pe.image.find_offset(it.virtual_address));
    Ok((lines, at))
}

/// The line of an import, whose slot goblin has at this offset.
fn import_line(x: &Import, offset: usize, size: usize) -> String {
    let (name, ordinal) = match x.name {
        Imported::Name { name, hint } => (name.to_string(), hint),
        Imported::Ordinal(ordinal) => (format!("ORDINAL {ordinal}"), ordinal),
    };
    let (dll, rva) = (x.dll, x.hint_name_rva);
    format!("import {name} {dll} {ordinal} {offset:x} {rva:x} {size}")
}

/// Whether goblin would ask for memory for more exports than the file has bytes.
fn asks_for_too_much(file: &[u8]) -> Option<bool> {
    let header = Header::parse(file).ok()?;
    let coff = &header.coff_header;
    let mut at =
        header.dos_header.pe_pointer as usize + 24 + usize::from(coff.size_of_optional_header);
    let sections = coff.sections(file, &mut at).ok()?;
    let optional = header.optional_header?;
    let rva = (*optional.data_directories.get_export_table())?.virtual_address;
    let at = utils::find_offset(
        rva as usize,
        &sections,
        optional.windows_fields.file_alignment,
    )?;
    let table = ExportDirectoryTable::parse(file, at).ok()?;
    let most = table
        .number_of_name_pointers
        .max(table.address_table_entries);
    Some(most as usize > file.len())
}

/// The answers of goblin, or its refusal, or how it would have ended the process.
fn goblins(file: &[u8]) -> Result<Result<Lines, String>, Known> {
    let read = catch_unwind(AssertUnwindSafe(|| match asks_for_too_much(file) {
        Some(true) => Err(Known::Growth),
        _ => Ok(PE::parse(file)),
    }))
    .map_err(|_| Known::Panic)??;
    Ok(read.map_err(|error| error.to_string()).and_then(|pe| {
        let mut lines: Lines = pe
            .sections
            .iter()
            .map(|s| {
                let short = s.name.split(|&byte| byte == 0).next().unwrap_or_default();
                let name = s.real_name.as_ref().map_or(short, |it| it.as_bytes());
                section_line!(name, s)
            })
            .collect();
        let text = |it: &str| goblin_pe::Text(it.as_bytes()).to_string();
        for x in &pe.imports {
            lines.push(format!(
                "import {} {} {} {:x} {:x} {}",
                text(&x.name),
                text(x.dll),
                x.ordinal,
                x.offset,
                x.rva,
                x.size
            ));
        }
        for x in &pe.exports {
            let forwarder = x.reexport.as_ref().map(|it| match it {
                Reexport::DLLName { lib, export } => format!("{}.{}", text(lib), text(export)),
                Reexport::DLLOrdinal { lib, ordinal } => format!("{}.#{ordinal}", text(lib)),
            });
            lines.push(format!(
                "export {:?} {:x?} {:x} {:?}",
                x.name.map(|it| it.as_bytes()),
                Some(x.offset),
                x.rva,
                forwarder
            ));
        }
        // goblin passes over export data that is refused.
        let has_exports = pe
            .header
            .optional_header
            .is_some_and(|it| it.data_directories.get_export_table().is_some());
        if has_exports && pe.export_data.is_none() {
            Err("export data".into())
        } else {
            Ok(lines)
        }
    }))
}

/// Whether the two versions give some section other windows.
fn has_other_windows(file: &[u8]) -> Option<bool> {
    let header = number(file, 0x3C, 4)?;
    let alignment = number(file, header + 24 + 36, 4)?;
    if !alignment.is_power_of_two() {
        return Some(true);
    }
    let table = header + 24 + number(file, header + 20, 2)?;
    for record in (0..number(file, header + 6, 2)?).map(|it| table + 40 * it) {
        let [size, raw, pointer] = [8, 16, 20].map(|it| number(file, record + it, 4));
        let (size, raw, pointer) = (size?, raw?, pointer?);
        let end = (pointer + raw).next_multiple_of(alignment);
        let limit = if size == 0 {
            usize::MAX
        } else {
            size.next_multiple_of(PAGE)
        };
        let theirs = end.min(raw.next_multiple_of(PAGE)).min(limit);
        // (below an alignment of 512 this library does not round)
        let ours = if raw == 0 || alignment < 512 {
            0
        } else {
            (end - pointer / 512 * 512)
                .min(raw.next_multiple_of(PAGE))
                .min(limit)
        };
        if ours != theirs {
            return Some(true);
        }
    }
    Some(false)
}

/// Whether the import directory at an offset ends at a record that is not all zeros, and whose name or address table is at
/// address 0.
fn ends_before_zeros(file: &[u8], mut at: usize) -> bool {
    while let Some(record) = file.get(at..at + 20) {
        let is_zero = |it: usize| record[it..it + 4] == [0; 4];
        if is_zero(12) || is_zero(16) {
            return record != [0; 20];
        }
        at += 20;
    }
    false
}

/// Whether some section has a name with a slash at its front in this library, because it leads to no text.
fn has_lost_name(lines: &Lines) -> bool {
    let slash = format!("section [{}, ", b'/');
    lines.iter().any(|line| line.starts_with(&slash))
}

/// Why goblin reads a file that this library refuses.
fn known_refusal(error: &goblin_pe::Error) -> Option<Known> {
    let ErrorKind::Malformed(cause) = error.kind() else {
        return None;
    };
    match cause {
        Cause::DosMagic | Cause::PeMagic => Some(Known::Signature),
        Cause::StubBeforeStart | Cause::StubPastEnd | Cause::NoDans | Cause::RichBounds => {
            Some(Known::Stub)
        }
        _ => None,
    }
}

/// The result of the comparison of the two reads of a file.
enum Verdict {
    BothRead,
    BothRefused,
    Known(Known),
    Differ(String),
}

fn verdict(file: &[u8]) -> Verdict {
    let ours = ours(file);
    let known = match &ours {
        Err(error) => known_refusal(error),
        Ok((_, Some(at))) if ends_before_zeros(file, *at) => Some(Known::LastRecord),
        Ok(_) => None,
    };
    match (ours, goblins(file)) {
        (_, Err(known)) => Verdict::Known(known),
        (Ok((ours, _)), Ok(Ok(theirs))) if ours == theirs => Verdict::BothRead,
        (Err(_), Ok(Err(_))) => Verdict::BothRefused,
        (Ok((ours, _)), Ok(Err(_))) if has_lost_name(&ours) => Verdict::Known(Known::SectionName),
        (ours, Ok(theirs)) => {
            match known.or_else(|| has_other_windows(file)?.then_some(Known::Window)) {
                Some(known) => Verdict::Known(known),
                None => Verdict::Differ(format!(
                    "{:#?}\nand goblin: {theirs:#?}",
                    ours.map(|it| it.0)
                )),
            }
        }
    }
}

fn main() -> Result<(), Box<dyn Error>> {
    let words: Vec<String> = std::env::args().skip(1).collect();
    let [count, paths @ ..] = words.as_slice() else {
        return Err("usage: differ COUNT FILE..".into());
    };
    let images: Vec<_> = paths
        .iter()
        .map(|path| in_pages(&std::fs::read(path).ok()?))
        .collect::<Option<_>>()
        .ok_or("a file is no image")?;
    let places: Vec<Vec<usize>> = images
        .iter()
        .map(|it| (0..it.len()).filter(|&at| it[at] != 0).collect())
        .collect();
    std::panic::set_hook(Box::new(|_| {}));
    let mut random = Random(0x5EED);
    let mut known = BTreeMap::new();
    let (mut read, mut refused, mut differ) = (0, 0, 0);
    for turn in 0..count.parse()? {
        let which = turn % images.len();
        let table = [DirectoryType::ExportTable, DirectoryType::ImportTable][random.below(2)];
        let file = changed(&mut random, &images[which], &places[which], table);
        match verdict(&file) {
            Verdict::BothRead => read += 1,
            Verdict::BothRefused => refused += 1,
            Verdict::Known(it) => *known.entry(it).or_insert(0) += 1,
            Verdict::Differ(how) => {
                differ += 1;
                if differ <= 5 {
                    println!("{} in turn {turn}: {how}", paths[which]);
                }
            }
        }
    }
    println!(
        "read alike {read}, refused by both {refused}, known to differ {known:?}, differ {differ}"
    );
    if differ > 0 {
        Err("the two differ".into())
    } else {
        Ok(())
    }
}
