//! What is read of damaged files: walks, partial images and forwarders.
use goblin_pe::{
    Budget, Cause, DirectoryType, Error, ErrorKind, Forwarder, Image, Import, Mapping,
    Options, Pe, Region, Row, Table, Text, Walk,
};
use std::fmt::Debug;

fn sample(name: &str) -> Vec<u8> {
    let beside = concat!(env!("CARGO_MANIFEST_DIR"), "/../../samples");
    let folder = std::env::var("GOBLIN_PE_SAMPLES").unwrap_or(beside.into());
    std::fs::read(format!("{folder}/{name}")).expect("a sample")
}

fn put(bytes: &mut [u8], place: usize, number: u32) {
    bytes[place..place + 4].copy_from_slice(&number.to_le_bytes());
}

fn number(bytes: &[u8], place: usize) -> u32 {
    u32::from_le_bytes(bytes[place..place + 4].try_into().expect("four bytes"))
}

// The file offset of a table.
fn place(image: &Image, which: DirectoryType) -> usize {
    let directory = image.directory(which).expect("a directory");
    image.find_offset(directory.virtual_address).expect("an offset")
}

// The file offset of the entry of a data directory.
fn entry(image: &Image, which: DirectoryType) -> usize {
    image.dos_header().pe_pointer as usize + 24 + 112 + 8 * which as usize
}

// What a walk skips, and what leads nowhere.
fn sums<'a, T: Row<'a>>(mut walk: Walk<'a, '_, T>) -> [usize; 2] {
    walk.by_ref().for_each(drop);
    [walk.skipped(), walk.unmapped()]
}

#[test]
fn errors_have_kinds_numbers_and_texts() {
    let error = Image::parse(b"").expect_err("no bytes");
    assert_eq!(error.kind(), ErrorKind::Malformed(Cause::NoDosSignature));
    assert_eq!(error.to_string(), "header: the file is too short for the DOS signature");
    let error = Image::read(b"no image", Options::permissive()).expect_err("no image");
    let text = "header: the file begins with 0x6f6e in place of the DOS signature";
    assert_eq!((error.to_string().as_str(), error.numbers()), (text, (0x6f6e, 0)));
    assert_eq!(error.kind(), ErrorKind::Malformed(Cause::DosMagic));
    let error = Image::read_te(b"VZ", Options::default()).expect_err("no header");
    assert_eq!(error.kind(), ErrorKind::TooBig);
    let text = "header: there are not enough bytes, or not enough room";
    assert_eq!(format!("{error:.^60}"), format!("{text:.^60}"));
    let bytes = sample("imports_by_name_x64.dll");
    let image = Image::parse(&bytes).expect("an image");
    let error = image.imports(&Budget::steps(0)).next();
    let error = error.expect("a row").expect_err("no step");
    assert_eq!(error.to_string(), "imports: no steps are left");
    assert_eq!(image.text_at(0x9000), None);
    let error = image.forwarder_at(0x9000).expect_err("a look-up");
    assert_eq!(error.to_string(), "the address 0x9000 has no offset in the file");
}

#[test]
fn strict_walks_have_an_error_where_permissive_ones_skip() -> Result<(), Error> {
    fn has_error<'a, T: Row<'a>>(mut walk: Walk<'a, '_, T>) -> bool {
        walk.any(|it| it.is_err())
    }
    let (whole, budget) = (sample("imports_by_name_x64.dll"), &Budget::unlimited());
    for length in 0..whole.len() {
        let (image, _) = Image::read_partial(&whole[..length], Options::permissive());
        let strict = image.with_options(Options::default());
        // (a row whose name can't be read is not skipped)
        let imports = image.imports(budget).collect::<Result<Vec<_>, _>>()?;
        let is_named = |it: &Import| !it.dll.is_empty() && !it.name.to_string().is_empty();
        let is_read = sums(image.imports(budget))[0] == 0 && imports.iter().all(is_named);
        assert_eq!(has_error(strict.imports(budget)), !is_read, "{length}");
        let is_skipped = sums(image.exports(budget))[0] > 0;
        assert_eq!(has_error(strict.exports(budget)), is_skipped, "{length}");
        let is_skipped = sums(image.export_addresses(budget))[0] > 0;
        assert_eq!(has_error(strict.export_addresses(budget)), is_skipped, "{length}");
    }
    Ok(())
}

#[test]
fn a_walk_ends_with_the_error_of_a_read() -> Result<(), Error> {
    let mut bytes = sample("imports_by_name_x64.dll");
    let record = place(&Image::parse(&bytes)?, DirectoryType::ImportTable);
    put(&mut bytes, record + 12, 0x9000); // (the name of the only library, where no section is)
    let error = Pe::parse(&bytes).expect_err("a bad name");
    assert_eq!(error.kind(), ErrorKind::Malformed(Cause::Unmapped));
    assert_eq!(error.table(), Some(Table::Imports));
    let (image, budget) = (Image::parse(&bytes)?, &Budget::default());
    let mut walk = image.imports(budget);
    assert_eq!((walk.next(), walk.next()), (Some(Err(error)), None));
    let library = image.libraries(budget).next().expect("a library")?;
    assert_eq!(library.name, Err(error));
    let import = library.imports(&image, budget).next().expect("an import")?;
    assert_eq!((import.dll, import.name.to_string().as_str()), (Text(b""), "GetTickCount"));
    let image = Image::read(&bytes, Options::permissive())?;
    assert_eq!((image.imports(budget).count(), sums(image.imports(budget))), (1, [0, 0]));
    Ok(())
}

#[test]
fn relocation_blocks_end_with_the_error_of_what_follows() -> Result<(), Error> {
    let mut bytes = sample("imports_by_name_x64.dll");
    let (image, which) = (Image::parse(&bytes)?, DirectoryType::BaseRelocationTable);
    let size = image.directory(which).expect("a directory").size;
    let (begin, entry) = (place(&image, which), entry(&image, which));
    let blocks = Pe::parse(&bytes)?.relocation_blocks.len();
    put(&mut bytes, entry + 4, size + 8);
    put(&mut bytes, begin + size as usize + 4, 4); // (a block that says it has four bytes)
    let pe = Pe::parse(&bytes)?;
    assert_eq!(pe.relocation_blocks.len(), blocks);
    let kinds = Vec::from_iter(pe.errors.iter().map(|it| (it.table(), it.kind())));
    let wanted = ErrorKind::Malformed(Cause::BlockSize);
    assert_eq!(kinds, [(Some(Table::Relocations), wanted)]);
    let budget = Budget::default();
    let mut walk = pe.image.relocation_blocks(&budget).skip(blocks);
    assert_eq!((walk.next(), walk.next()), (Some(Err(pe.errors[0])), None));
    Ok(())
}

#[test]
fn exports_with_too_many_counted() -> Result<(), Error> {
    let bytes = sample("forwarders_x64.dll");
    let whole = Pe::parse(&bytes)?;
    let record = place(&whole.image, DirectoryType::ExportTable);
    let first = whole.export_addresses.iter().find(|it| it.rva != 0).copied();
    for (field, are_addresses_read) in [(0x14, false), (0x18, true)] {
        let mut changed = bytes.clone();
        put(&mut changed, record + field, u32::MAX); // (addresses, then name pointers)
        let error = Pe::parse(&changed).expect_err("too many exports");
        assert_eq!(error.table(), Some(Table::Exports));
        let image = Image::read(&changed, Options::permissive())?;
        assert_eq!(sums(image.exports(&Budget::default())), [1, 0]);
        let pe = Pe::of(image, &Budget::unlimited())?;
        assert_eq!((pe.exports, pe.unmapped), (vec![], 0));
        assert_eq!(pe.skipped, if are_addresses_read { 1 } else { 2 });
        if are_addresses_read {
            let ordinal = first.expect("an address").ordinal;
            assert_eq!(Image::parse(&changed)?.find_export_by_ordinal(ordinal)?, first);
            assert_eq!(image.find_export_by_ordinal(usize::MAX)?, None);
        }
    }
    Ok(())
}

// The address table is empty. The last name pointer is known as the last, so the end needs no step.
#[test]
fn name_pointers_without_exports_are_steps_and_unmapped() -> Result<(), Error> {
    let mut bytes = sample("forwarders_x64.dll");
    let record = place(&Image::parse(&bytes)?, DirectoryType::ExportTable);
    put(&mut bytes, record + 0x14, 0);
    let (pointers, image) = (number(&bytes, record + 0x18) as usize, Image::parse(&bytes)?);
    for steps in 0..pointers + 2 {
        let last = image.exports(&Budget::steps(steps)).last();
        let wanted = (steps < pointers).then_some(ErrorKind::Steps);
        assert_eq!(last.and_then(Result::err).map(|it| it.kind()), wanted, "{steps}");
    }
    assert_eq!(sums(image.exports(&Budget::default())), [0, pointers]);
    assert_eq!(Pe::parse(&bytes)?.unmapped, pointers);
    Ok(())
}

#[test]
fn forwarders_are_those_at_their_addresses() -> Result<(), Error> {
    let bytes = sample("forwarders_x64.dll");
    let pe = Pe::parse(&bytes)?;
    let forwarders = Vec::from_iter(pe.exports.iter().filter_map(|it| it.forwarder));
    let (ws2, ntdll) = (Text(b"WS2_32"), Text(b"NTDLL"));
    let (ordinal, name) = (3, Text(b"RtlZeroMemory"));
    assert_eq!(forwarders[0], Forwarder::Ordinal { dll: ws2, ordinal });
    assert_eq!(forwarders[1], Forwarder::Name { dll: ntdll, name, is_cut: false });
    for export in &pe.exports {
        let address = pe.image.find_export_by_ordinal(export.ordinal)?.expect("an address");
        assert_eq!((address.rva, address.is_forwarder), (export.rva, export.forwarder.is_some()));
        if address.is_forwarder {
            assert_eq!(Some(pe.image.forwarder_at(export.rva)?), export.forwarder);
        }
    }
    let error = pe.image.forwarder_at(0x9000).expect_err("no section is there");
    assert_eq!(error.kind(), ErrorKind::Malformed(Cause::Unmapped));
    Ok(())
}

// Two exports have one name. The forwarder of the first has no dot, so a walk does not give it.
#[test]
fn an_export_is_found_as_a_walk_gives_it() -> Result<(), Error> {
    let mut bytes = sample("forwarders_x64.dll");
    let pe = Pe::parse(&bytes)?;
    let names = pe.export_directory.expect("a directory").name_pointer_rva;
    let [text, pointer] = [pe.exports[1].rva + 6, names + 8].map(|it| pe.image.find_offset(it));
    let (name, wanted) = (pe.exports[1].name_rva, pe.exports[2].rva);
    bytes[text.expect("a dot")] = b'x';
    put(&mut bytes, pointer.expect("a pointer"), name);
    let image = Image::parse(&bytes)?;
    let found = image.find_export("fo", &Budget::steps(100))?;
    assert_eq!(found, image.exports(&Budget::default()).nth(1).transpose()?);
    assert_eq!(found.map(|it| it.rva), Some(wanted));
    let cut = image.with_options(Options::default().with_longest_name(1));
    assert_eq!(cut.find_export("fo", &Budget::steps(100))?, None);
    Ok(())
}

// The name of the first import is in the headers, where packers put it: Windows maps them, and goblin
// does not.
#[test]
fn names_in_the_headers_are_read_as_windows_maps_them() -> Result<(), Error> {
    let mut bytes = sample("imports_by_name_x64.dll");
    let image = Image::parse(&bytes)?;
    let lookup = number(&bytes, place(&image, DirectoryType::ImportTable));
    let slot = image.find_offset(lookup).expect("a lookup table");
    let header = image.optional_header().expect("an optional header");
    let hint = header.windows_fields.size_of_headers - 16;
    put(&mut bytes, slot, hint);
    bytes[hint as usize..][..15].copy_from_slice(b"\0\0VirtualAlloc\0");
    for (mapping, is_seen) in [(Mapping::AsStored, false), (Mapping::AsLoaded, true)] {
        let image = Image::read(&bytes, Options::permissive().with_mapping(mapping))?;
        let first = image.imports(&Budget::default()).next().transpose()?;
        let wanted = is_seen.then(|| String::from("VirtualAlloc"));
        assert_eq!(first.map(|it| it.name.to_string()), wanted);
        assert_eq!(sums(image.imports(&Budget::default())), [0, usize::from(!is_seen)]);
        assert_eq!(image.find_offset(hint).is_some(), is_seen);
        let region = if is_seen { Region::Headers } else { Region::Unmapped };
        assert_eq!(image.memory_at(hint, 2).region, region);
    }
    Ok(())
}

// Four libraries share a table of imports by ordinal between entries that lead nowhere. The last of
// them has an address table where no section is.
fn libraries_of_shared_imports() -> Vec<u8> {
    let mut bytes = sample("imports_by_name_x64.dll");
    let image = Image::parse(&bytes).expect("an image");
    let text = image.sections().next().expect("a section");
    let (rva, begin) = (text.virtual_address, text.pointer_to_raw_data as usize);
    let entry = entry(&image, DirectoryType::ImportTable);
    put(&mut bytes, entry, rva);
    bytes[begin..begin + 0x200].fill(0);
    for (index, record) in bytes[begin..].chunks_mut(20).take(4).enumerate() {
        let addresses = if index == 3 { 0x9000 } else { rva + 0x100 };
        for (at, number) in [(0, rva + 0x100), (12, rva + 0xF0), (16, addresses)] {
            put(record, at, number);
        }
    }
    bytes[begin + 0xF0..][..5].copy_from_slice(b"a.dll");
    let (dead, flag) = (0x7FFF_FFF0, 1 << 63);
    let slots = [dead, flag | 7, flag | 8, dead, dead, dead, flag | 900];
    for (slot, number) in bytes[begin + 0x100..].chunks_mut(8).zip(slots) {
        slot.copy_from_slice(&u64::to_le_bytes(number));
    }
    bytes
}

// How many items a walk gives. It gives the same whenever its steps run out, and it goes on then.
fn count<'a, T>(walk: &Walk<'a, '_, T>, budget: &Budget) -> usize
where
    T: Row<'a> + Clone + PartialEq + Debug,
{
    budget.set(usize::MAX);
    let (all, sums) = (Vec::from_iter(walk.clone()), sums(walk.clone()));
    for steps in 1..12 {
        let (mut rest, mut found, mut calls) = (walk.clone(), Vec::new(), 0);
        loop {
            budget.set(steps);
            found.extend(rest.by_ref());
            match found.last() {
                Some(Err(error)) if error.kind() == ErrorKind::Steps => found.pop(),
                _ => break,
            };
            calls += 1;
            assert!(calls < 1000, "a walk has no end");
        }
        assert_eq!(found, all, "{steps} steps at a time");
        assert_eq!([rest.skipped(), rest.unmapped()], sums);
    }
    all.len()
}

#[test]
fn walks_go_on_after_their_steps_ran_out() -> Result<(), Error> {
    let (mut counts, budget) = ([0; 5], &Budget::default());
    for bytes in [sample("forwarders_x64.dll"), libraries_of_shared_imports()] {
        for options in [Options::default(), Options::permissive()] {
            let image = Image::read(&bytes, options)?;
            counts[0] += count(&image.imports(budget), budget);
            counts[1] += count(&image.libraries(budget), budget);
            counts[2] += count(&image.exports(budget), budget);
            counts[3] += count(&image.export_addresses(budget), budget);
            counts[4] += count(&image.relocation_blocks(budget), budget);
        }
    }
    // (strict mode refuses the last library after its imports)
    assert_eq!(counts, [13 + 9, 8, 10, 14, 4]);
    let bytes = libraries_of_shared_imports();
    let (image, budget) = (Image::read(&bytes, Options::permissive())?, &Budget::default());
    assert_eq!((sums(image.imports(budget)), sums(image.libraries(budget))), ([1, 12], [1, 0]));
    let last = image.with_options(Options::default()).imports(budget).last();
    let error = last.expect("a row").expect_err("a library without an address table");
    assert_eq!(error.kind(), ErrorKind::Malformed(Cause::Unmapped));
    Ok(())
}

#[test]
fn walks_inside_a_walk_share_its_steps() -> Result<(), Error> {
    let bytes = libraries_of_shared_imports();
    let image = Image::read(&bytes, Options::permissive())?;
    let walked = |libraries, imports| -> Result<Vec<Import>, Error> {
        let inside = image.libraries(libraries).map(|it| Ok(it?.imports(&image, imports)));
        inside.flat_map(|it| it.map_or_else(|error| vec![Err(error)], Vec::from_iter)).collect()
    };
    let used = |it: &Budget| Budget::default().left() - it.left();
    let [outer, inner, both] = [(); 3].map(|()| Budget::default());
    assert_eq!(walked(&outer, &inner)?, walked(&both, &both)?);
    assert_eq!(used(&both), used(&outer) + used(&inner));
    let few = Budget::steps(used(&both) / 2);
    let error = walked(&few, &few).expect_err("no step is left");
    assert_eq!((error.kind(), few.left()), (ErrorKind::Steps, 0));
    Ok(())
}

// A look takes a step for each 96 sections, or part of 96. One that has fewer steps takes these.
#[test]
fn looks_in_many_sections_take_more_steps() -> Result<(), Error> {
    let mut bytes = sample("imports_by_name_x64.dll");
    let walked = |image: &Image| -> Result<(usize, usize), Error> {
        let budget = Budget::default();
        let count = image.imports(&budget).map(|it| it.map(|_| 1)).sum::<Result<usize, Error>>()?;
        Ok((count, Budget::default().left() - budget.left()))
    };
    let (count, looks) = walked(&Image::read(&bytes, Options::permissive())?)?;
    let signature = Image::parse(&bytes)?.dos_header().pe_pointer as usize;
    bytes[signature + 7] = 0xFF;
    bytes.resize(1 << 16, 0);
    let (image, _) = Image::read_partial(&bytes, Options::permissive());
    let price = image.sections().len().div_ceil(96);
    assert!(price > 10);
    assert_eq!(walked(&image)?, (count, looks * price));
    let (budget, mut found, mut stops) = (Budget::steps(1), 0, 0);
    for it in image.imports(&budget) {
        if let Err(error) = it {
            assert_eq!((error.kind(), budget.left()), (ErrorKind::Steps, 0));
            budget.set(1);
            stops += 1;
        } else {
            found += 1;
        }
    }
    assert!(found == count && stops + 1 >= looks);
    Ok(())
}

// (`ord900` is longer than the limit, but no name of the file)
#[test]
fn a_limit_of_the_length_of_all_names_changes_no_imphash() -> Result<(), Error> {
    let bytes = libraries_of_shared_imports();
    for (longest, is_there) in [(0, true), (Options::NO_LIMIT, true), (5, true), (4, false)] {
        let image = Image::read(&bytes, Options::permissive().with_longest_name(longest))?;
        let text = image.imphash_text(&Budget::unlimited())?;
        assert_eq!(text.is_some_and(|it| it.starts_with("a.ord7,a.ord8,a.ord900,")), is_there);
    }
    Ok(())
}

// The last section ends at 2^32; the address table of the first library passes that.
#[test]
fn addresses_may_pass_32_bits() -> Result<(), Error> {
    let mut bytes = libraries_of_shared_imports();
    let (image, which) = (Image::parse(&bytes)?, DirectoryType::BaseRelocationTable);
    let (header, block) = (entry(&image, DirectoryType::ExportTable) + 128, place(&image, which));
    let (imports, entry) = (place(&image, DirectoryType::ImportTable), entry(&image, which));
    put(&mut bytes, header + 3 * 40 + 12, 0xFFFF_FF00);
    put(&mut bytes, entry, 0xFFFF_FF00);
    put(&mut bytes, imports + 16, 0xFFFF_FFF0);
    put(&mut bytes, block, u32::MAX);
    let (image, budget) = (Image::read(&bytes, Options::permissive())?, &Budget::default());
    let found = image.imports(budget).map(|it| it.map(|it| it.iat_rva)).take(3);
    assert_eq!(found.collect::<Result<Vec<_>, _>>()?, [0xFFFF_FFF8, 1 << 32, 0x1_0000_0020]);
    let page = image.relocation_blocks(budget).next().expect("a block")?;
    assert!(page.relocations().all(|it| it.rva >= page.rva as usize));
    Ok(())
}

#[test]
fn names_are_cut_at_the_limit() -> Result<(), Error> {
    let mut bytes = sample("imports_by_name_x64.dll");
    let long = Options::default().with_longest_name(8);
    let image = Image::read(&bytes, long)?;
    let import = image.imports(&Budget::default()).next().expect("an import")?;
    assert_eq!((import.dll, import.is_library_cut), (Text(b"KERNEL32"), true));
    assert_eq!((import.by_name(), import.is_name_cut), (Some(Text(b"GetTickC")), true));
    assert_eq!(image.imphash_text(&Budget::unlimited())?, None);
    let (header, end) = (image.dos_header().pe_pointer as usize, bytes.len());
    let name = bytes.windows(8).position(|it| it == b".text\0\0\0").expect("a name");
    put(&mut bytes, header + 12, u32::try_from(end).expect("a small file"));
    bytes[name..name + 8].copy_from_slice(b"/4\0\0\0\0\0\0");
    bytes.extend(b"\x10\0\0\0eleven_more\0");
    let image = Image::read(&bytes, long)?;
    assert_eq!(image.sections().next().map(|it| it.name), Some(Text(b"eleven_m")));
    assert_eq!(image.section_by_name("eleven_more"), None);
    assert!(Image::parse(&bytes)?.section_by_name("eleven_more").is_some());
    Ok(())
}

// A change that both modes refuse, of an image whose optional header and whose section table begin at
// these offsets; the parts of the header that can't be read then, and how many sections are missing.
type Refused = (fn(&mut Vec<u8>, usize, usize), &'static [&'static str], usize);
const REFUSED: [Refused; 6] = [
    // (seventeen data directories; a section whose name is a slash and no number)
    (|bytes, header, _| bytes[header + 108] = 17, &["directories"], 0),
    (|bytes, _, table| bytes[table..][..5].copy_from_slice(b"/abc\0"), &["section_names"], 0),
    // (the magic of a ROM image; a header cut in its directories, and in its Windows fields)
    (
        |bytes, header, _| bytes[header..][..2].copy_from_slice(&[7, 1]),
        &["standard_fields", "windows_fields", "directories"],
        0,
    ),
    (|bytes, header, _| bytes.truncate(header + 120), &["directories", "section_table"], 4),
    (
        |bytes, header, _| bytes.truncate(header + 111),
        &["windows_fields", "directories", "section_table"],
        4,
    ),
    // (a section table that is cut in its third record)
    (|bytes, _, table| bytes.truncate(table + 100), &["section_table"], 2),
];

#[test]
fn a_partial_image_has_what_is_there_of_a_refused_header() -> Result<(), Error> {
    let bytes = sample("imports_by_name_x64.dll");
    let whole = Pe::parse(&bytes)?;
    let coff = whole.image.coff_header();
    let header = whole.image.dos_header().pe_pointer as usize + 24;
    let table = header + usize::from(coff.size_of_optional_header);
    for (change, wanted, missing) in REFUSED {
        let mut changed = bytes.clone();
        change(&mut changed, header, table);
        for options in [Options::default(), Options::permissive()] {
            let (image, faults) = Image::read_partial(&changed, options);
            assert_eq!(faults.refusal, Image::read(&changed, options).err());
            assert!(faults.refusal.is_some());
            let names = Vec::from_iter(faults.errors().map(|(name, _)| name));
            assert_eq!(names, wanted);
            assert_eq!((image.sections().len(), image.coff_header()), (4 - missing, coff));
            for (found, section) in image.sections().zip(&whole.sections) {
                assert_eq!(found.virtual_address, section.virtual_address);
            }
            if missing == 0 && faults.windows_fields.is_none() {
                let imports = image.imports(&Budget::default()).collect::<Result<Vec<_>, _>>();
                assert_eq!(imports?, whole.imports);
                assert_eq!(image.text_at(0x2000), whole.image.text_at(0x2000));
                let sections = Vec::from_iter(image.sections());
                assert_eq!(image.patched(&image.header(), &sections)?, changed);
            }
        }
    }
    Ok(())
}

#[test]
fn a_partial_image_of_a_sound_file_is_that_image() -> Result<(), Error> {
    let bytes = sample("forwarders_x64.dll");
    let whole = Pe::parse(&bytes)?;
    let (image, faults) = Image::read_partial(&bytes, Options::default());
    assert_eq!((faults.refusal, faults.errors().count()), (None, 0));
    assert_eq!(format!("{image:?}"), format!("{:?}", whole.image));
    assert_eq!(image.header(), whole.image.header());
    assert_eq!(Pe::of(image, &Budget::unlimited())?.exports, whole.exports);
    Ok(())
}

#[test]
fn a_partial_image_of_other_bytes_is_zeros() {
    let (image, faults) = Image::read_partial(b"no image", Options::default());
    let cause = faults.refusal.map(|it| it.kind());
    assert_eq!(cause, Some(ErrorKind::Malformed(Cause::DosMagic)));
    assert!(faults.errors().all(|(_, error)| Some(error) == faults.refusal));
    assert!(image.optional_header().is_none() && image.coff_header().machine == 0);
    assert_eq!((image.sections().len(), image.find_offset(0x1000)), (0, None));
    let budget = &Budget::default();
    assert!(image.imports(budget).next().is_none());
    assert!(image.relocation_blocks(budget).next().is_none());
    // (a DOS header that leads past the file has no stub, and no place for another header)
    let mut bytes = sample("imports_by_name_x64.dll");
    put(&mut bytes, 0x3C, u32::MAX);
    let (image, _) = Image::read_partial(&bytes, Options::permissive());
    assert!(image.header().dos_stub.is_empty() && image.checksum().is_none());
    assert!(image.patched(&image.header(), &[]).is_err());
}

#[test]
fn a_partial_image_has_the_sections_that_fit_into_the_file() -> Result<(), Error> {
    let mut bytes = sample("imports_by_name_x64.dll");
    let signature = Image::parse(&bytes)?.dos_header().pe_pointer as usize;
    bytes[signature + 7] = 0xFF;
    let (image, faults) = Image::read_partial(&bytes, Options::default());
    assert_eq!(image.coff_header().number_of_sections, 0xFF04);
    let room = (bytes.len() - signature - 24 - 240) / 40;
    assert_eq!((image.sections().len(), faults.section_table.is_some()), (room, true));
    assert!(image.imports(&Budget::default()).next().is_some());
    Ok(())
}
