//! Symbols, auxiliary records, relocations and data of objects and Terse Executables.
use goblin_pe::constants::{COFF_MACHINE_X86_64, IMAGE_SCN_LNK_NRELOC_OVFL};
use goblin_pe::{Auxiliary, Budget, Error, Image, Options, Symbol, Text};

fn sample(name: &str) -> Vec<u8> {
    let beside = concat!(env!("CARGO_MANIFEST_DIR"), "/../../samples");
    let folder = std::env::var("GOBLIN_PE_SAMPLES").unwrap_or(beside.into());
    std::fs::read(format!("{folder}/{name}")).expect("a sample")
}

fn number(bytes: &[u8], place: usize, width: usize) -> u32 {
    let digits = bytes[place..place + width].iter().rev();
    digits.fold(0, |number, &byte| number << 8 | u32::from(byte))
}

fn object(bytes: &[u8]) -> Image<'_> {
    Image::read_object(bytes, Options::default()).expect("an object")
}

#[test]
fn relocations_and_symbols_are_those_of_the_file() -> Result<(), Error> {
    let bytes = sample("object_x64.obj");
    let object = object(&bytes);
    for section in object.sections() {
        let rows = section.relocations(&object, &Budget::default()).collect::<Result<Vec<_>, _>>()?;
        assert_eq!(rows.len(), usize::from(section.number_of_relocations));
        for (index, it) in rows.iter().enumerate() {
            let place = section.pointer_to_relocations as usize + 10 * index;
            assert_eq!(it.virtual_address, number(&bytes, place, 4));
            assert_eq!(it.symbol_table_index, number(&bytes, place + 4, 4));
            assert_eq!(u32::from(it.typ), number(&bytes, place + 8, 2));
        }
    }
    let mut definitions = 0;
    for symbol in object.symbols(&Budget::default()) {
        let symbol = symbol?;
        assert!(symbol.name.is_some());
        assert_eq!(object.symbol_at(symbol.index)?, Some(symbol));
        if let Some(Auxiliary::SectionDefinition { length, .. }) = symbol.auxiliary(&object) {
            let section = object.section_by_number(symbol.section_number).expect("a section");
            assert_eq!((length, symbol.aux_bytes.len()), (section.size_of_raw_data, 18));
            definitions += 1;
        }
    }
    assert!(definitions > 0);
    assert_eq!(object.symbol_at(object.coff_header().number_of_symbol_table)?, None);
    assert_eq!(object.symbol_at(u32::MAX)?, None);
    Ok(())
}

// By the class, the type, the section and the value of a symbol.
#[test]
fn auxiliary_records_have_a_kind() -> Result<(), Error> {
    let bytes = sample("object_x64.obj");
    let with_one = |it: &Symbol| it.number_of_aux_symbols == 1;
    let (object, budget) = (object(&bytes), Budget::default());
    let mut symbols = object.symbols(&budget).map_while(Result::ok);
    let first = symbols.find(with_one).expect("a symbol with one");
    for (storage_class, typ, section_number, kind) in [
        (2, 0x20, 1, "FunctionDefinition"),
        (2, 0x20, 0, "WeakExternal"), // (undefined, of value 0)
        (2, 0, 1, ""),
        (101, 0, 1, "BeginAndEndFunction"),
        (105, 0, 0, "WeakExternal"),
        (3, 0, 1, "SectionDefinition"),
        (103, 0, -2, "File"),
    ] {
        let mut symbol: Symbol = first;
        (symbol.storage_class, symbol.typ, symbol.value) = (storage_class, typ, 0);
        symbol.section_number = section_number;
        let found = symbol.auxiliary(&object).map(|it| format!("{it:?}"));
        let is_found = found.as_ref().is_some_and(|it| it.starts_with(kind));
        assert_eq!(is_found, !kind.is_empty(), "{symbol:?}: {found:?}");
        (symbol.number_of_aux_symbols, symbol.aux_bytes) = (0, &[]);
        assert_eq!(symbol.auxiliary(&object), None);
    }
    Ok(())
}

#[test]
fn a_section_has_more_relocations_than_its_header_counts() -> Result<(), Error> {
    let count = 65_537_u32;
    let mut bytes = vec![0; 60 + 10 * count as usize];
    bytes[0..2].copy_from_slice(&COFF_MACHINE_X86_64.to_le_bytes());
    bytes[2] = 1;
    bytes[20 + 24] = 60;
    bytes[20 + 32..20 + 34].fill(0xFF);
    bytes[20 + 36..60].copy_from_slice(&IMAGE_SCN_LNK_NRELOC_OVFL.to_le_bytes());
    for (index, it) in bytes[60..].chunks_mut(10).enumerate() {
        let number = if index == 0 { count } else { index as u32 };
        it[..4].copy_from_slice(&number.to_le_bytes());
    }
    let object = object(&bytes);
    let section = object.sections().next().expect("a section");
    let rows = section.relocations(&object, &Budget::default()).collect::<Result<Vec<_>, _>>()?;
    // (without the first, which is their number; the end is seen by a step)
    assert!(rows.iter().map(|it| it.virtual_address).eq(1..count));
    for (steps, is_seen) in [(65_536, false), (65_537, true)] {
        let last = section.relocations(&object, &Budget::steps(steps)).last();
        assert_eq!(last.is_some_and(|it| it.is_ok()), is_seen);
    }
    Ok(())
}

#[test]
fn more_symbols_than_a_walk_reads_at_once() {
    for count in [0, 31, 32, 33, 288, 289, 600_u32] {
        let mut bytes = vec![0; 20 + 18 * count as usize];
        bytes[8] = 20;
        bytes[12..16].copy_from_slice(&count.to_le_bytes());
        bytes.extend([4, 0, 0, 0]);
        let (object, budget) = (object(&bytes), Budget::default());
        let symbols = object.symbols(&budget).map(|it| it.expect("a symbol").index);
        assert!(symbols.eq(0..count), "{count}");
    }
}

#[test]
fn sections_have_numbers_of_16_bits_without_a_sign() {
    let mut bytes = vec![0; 20 + 40 * 0xFFFF];
    bytes[2..4].fill(0xFF);
    let object = object(&bytes);
    let found = |number| object.section_by_number(number).map(|it| it.index);
    let wanted = [Some(0), Some(32_767), Some(39_999), Some(65_532), None, None, None];
    assert_eq!([1, i16::MIN, -25_536, -3, -2, -1, 0].map(found), wanted);
}

// Of one section of uninitialized data, larger than the file, and one symbol, whose name is at 4 in
// these strings.
fn odd_object(strings: &[u8]) -> Vec<u8> {
    let mut file = vec![0x64, 0x86, 1, 0, 0, 0, 0, 0, 60, 0, 0, 0, 1, 0, 0, 0, 0, 0, 0, 0];
    file.extend(b".bss\0\0\0\0");
    file.extend([0; 8]);
    file.extend(400_000_u32.to_le_bytes());
    file.extend([0; 16]);
    file.extend(0xC000_0080_u32.to_le_bytes());
    file.extend([0, 0, 0, 0, 4, 0, 0, 0, 0, 0, 0, 0, 0, 0, 0, 0, 2, 0]);
    file.extend(strings);
    file
}

#[test]
fn uninitialized_data_is_zeros_and_a_bad_name_is_none() -> Result<(), Error> {
    let file = odd_object(b"\x09\0\0\0\xE9\0ok\0");
    let object = object(&file);
    let bss = object.section_by_name(".bss").expect("a section").data(&object);
    assert_eq!((bss.bytes, bss.zeros, bss.missing), (&[][..], 400_000, 0));
    assert_eq!((object.string_at(4), object.string_at(6)), (None, Some(Text(b"ok"))));
    let budget = Budget::default();
    let names = object.symbols(&budget).map(|it| it.map(|it| it.name));
    assert_eq!(names.collect::<Result<Vec<_>, _>>()?, [None]);
    Ok(())
}

#[test]
fn names_are_cut_at_the_limit() -> Result<(), Error> {
    let file = odd_object(b"\x10\0\0\0eleven_more\0");
    for (longest, wanted) in [(0, 11), (3, 3), (8, 8), (10, 10), (11, 11)] {
        let options = Options::default().with_longest_name(longest);
        let (name, mut named) = (&b"eleven_more"[..wanted], file.clone());
        let object = Image::read_object(&file, options)?;
        let symbol = object.symbol_at(0)?.expect("a symbol");
        assert_eq!((symbol.name, symbol.is_name_cut), (Some(Text(name)), wanted < 11));
        assert_eq!(object.section_by_name(".bss").is_some(), wanted > 3);
        named[20..24].copy_from_slice(b"/4\0\0");
        let object = Image::read_object(&named, options)?;
        let section = object.sections().next().expect("a section");
        assert_eq!((section.name, section.is_name_cut), (Text(name), wanted < 11));
        assert_eq!(object.section_by_name(name).is_some(), wanted == 11);
    }
    Ok(())
}

#[test]
fn the_data_of_a_section_that_the_file_cuts_ends_with_it() -> Result<(), Error> {
    let (bytes, stripped) = (sample("object_x64.obj"), sample("firmware_x64.te"));
    let (te, header) = Image::read_te(&stripped, Options::default())?;
    assert_eq!((header.signature, te.sections().len()), (0x5A56, usize::from(stripped[4])));
    for image in [object(&bytes), te] {
        let mut section = image.sections().find(|it| it.size_of_raw_data > 1).expect("data");
        assert!(section.data(&image).missing == 0);
        let size = section.size_of_raw_data;
        section.pointer_to_raw_data = image.bytes().len() as u32 - size + 1;
        let data = section.data(&image);
        let rest = &image.bytes()[section.pointer_to_raw_data as usize..];
        assert_eq!((data.bytes, data.zeros, data.missing), (rest, 0, 1));
    }
    Ok(())
}
