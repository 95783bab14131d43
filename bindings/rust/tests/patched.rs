//! Files with changed headers and sections: what has a place in them.
use goblin_pe::{DataDirectory, DirectoryType, Error, ErrorKind, Header, Image, Options, Text};

fn sample(name: &str) -> Vec<u8> {
    let beside = concat!(env!("CARGO_MANIFEST_DIR"), "/../../samples");
    let folder = std::env::var("GOBLIN_PE_SAMPLES").unwrap_or(beside.into());
    std::fs::read(format!("{folder}/{name}")).expect("a sample")
}

// The file offset of the section table, which begins after an optional header of this size.
fn section_table(image: &Image, size: u16) -> usize {
    image.dos_header().pe_pointer as usize + 24 + usize::from(size)
}

// The sample with a smaller optional header: the section table overlaps the rest of it.
fn with_small_header(size: u16) -> (Vec<u8>, usize) {
    let mut bytes = sample("imports_by_name_x64.dll");
    let image = Image::parse(&bytes).expect("an image");
    let own = section_table(&image, image.coff_header().size_of_optional_header);
    let table = section_table(&image, size);
    bytes.copy_within(own..own + 160, table);
    let signature = table - usize::from(size) - 24;
    bytes[signature + 20..signature + 22].copy_from_slice(&size.to_le_bytes());
    (bytes, table)
}

fn has_place(made: Result<Vec<u8>, Error>) -> bool {
    let error = made.err().map(|it| it.kind());
    assert!(matches!(error, None | Some(ErrorKind::Place)), "{error:?}");
    error.is_none()
}

#[test]
fn only_the_change_differs() -> Result<(), Error> {
    for name in ["imports_by_name_x64.dll", "imports_by_name_x86.dll", "align16_x64.dll"] {
        let bytes = sample(name);
        let image = Image::parse(&bytes)?;
        let (mut header, mut section) = (image.header(), image.sections().next().expect("one"));
        header.coff_header.time_date_stamp = 7;
        section.stored_name = *b".code\0\0\0";
        let made = image.patched(&header, &[section])?;
        let again = Image::parse(&made)?;
        assert_eq!(again.coff_header().time_date_stamp, 7);
        assert_eq!(again.sections().next().map(|it| it.name), Some(Text(b".code")));
        let changed = made.iter().zip(&bytes).filter(|(one, other)| one != other);
        assert!(made.len() == bytes.len() && changed.count() <= 12);
    }
    Ok(())
}

// The section table overlaps the last directories of an optional header of 216 bytes. Other changes
// would move it.
#[test]
fn a_header_without_a_place_is_refused() -> Result<(), Error> {
    let (bytes, _) = with_small_header(216);
    let image = Image::read(&bytes, Options::permissive())?;
    assert_eq!(image.patched(&image.header(), &[])?, bytes);
    let directory = image.directory(DirectoryType::ImportTable).expect("imports");
    for (which, is_free) in [
        (DirectoryType::DebugTable, true),
        (DirectoryType::ClrRuntimeHeader, false),
    ] {
        let mut header = image.header();
        header.directories[which as usize] = directory;
        assert_eq!(has_place(image.patched(&header, &[])), is_free);
    }
    let bytes = sample("imports_by_name_x64.dll");
    let image = Image::parse(&bytes)?;
    type Change = (fn(&mut Header), bool);
    let changes: [Change; 5] = [
        (|it| it.coff_header.size_of_optional_header += 8, false),
        (|it| it.dos_header.pe_pointer += 8, false),
        (|it| it.dos_stub = b"short", false),
        (|it| it.optional_header = None, false),
        (|it| count(it, 3), true),
    ];
    for (change, is_free) in changes {
        let mut header = image.header();
        change(&mut header);
        assert_eq!(has_place(image.patched(&header, &[])), is_free);
    }
    Ok(())
}

fn count(header: &mut Header, directories: u32) {
    let optional = header.optional_header.as_mut().expect("an optional header");
    optional.windows_fields.number_of_rva_and_sizes = directories;
}

// Ten directories have a place in an optional header of 192 bytes, which counts two.
#[test]
fn directories_without_a_place_are_not_counted() -> Result<(), Error> {
    let (mut bytes, table) = with_small_header(192);
    bytes[table - 84..table - 80].copy_from_slice(&2_u32.to_le_bytes());
    let image = Image::read(&bytes, Options::permissive())?;
    for directories in (0..=11).chain([16, 17, u32::MAX]) {
        let mut header = image.header();
        count(&mut header, directories);
        let made = image.patched(&header, &[]);
        assert_eq!(has_place(made.clone()), directories <= 10, "{directories}");
        if let Ok(made) = made {
            let again = Image::read(&made, Options::permissive())?;
            assert_eq!(again.optional_header(), header.optional_header.as_ref());
            assert!(again.sections().eq(image.sections()));
        }
    }
    let mut header = image.header();
    let directory: &mut DataDirectory = &mut header.directories[9];
    directory.size = 1;
    assert!(!has_place(image.patched(&header, &[])));
    Ok(())
}

// The last two numbers of an optional header of 104 bytes are the name of the first section.
#[test]
fn sections_and_the_header_have_the_same_bytes_where_they_overlap() -> Result<(), Error> {
    let (mut bytes, table) = with_small_header(104);
    bytes[table..table + 8].copy_from_slice(b".tx\0\0\0\0\0");
    let image = Image::read(&bytes, Options::permissive())?;
    let (mut header, mut section) = (image.header(), image.sections().next().expect("a section"));
    section.stored_name = *b".ty\0\0\0\0\0";
    assert!(!has_place(image.patched(&header, &[section])));
    let optional = header.optional_header.as_mut().expect("an optional header");
    optional.windows_fields.loader_flags = u32::from_le_bytes(*b".ty\0");
    let made = image.patched(&header, &[section])?;
    let again = Image::read(&made, Options::permissive())?;
    section.name = Text(b".ty");
    assert_eq!(again.sections().next(), Some(section));
    assert_eq!(again.optional_header(), header.optional_header.as_ref());
    Ok(())
}

#[test]
fn more_sections_need_zeros_before_all_data() -> Result<(), Error> {
    let bytes = sample("imports_by_name_x64.dll");
    let image = Image::parse(&bytes)?;
    let (mut header, mut sections) = (image.header(), Vec::from_iter(image.sections()));
    let table = section_table(&image, header.coff_header.size_of_optional_header);
    let data = sections.iter().map(|it| it.pointer_to_raw_data as usize).min().expect("data");
    let (kept, room) = (sections.len(), (data - table) / 40);
    sections.resize(room, sections[0]);
    let made = image.patched(&header, &sections)?;
    assert!(made[data..] == bytes[data..] && made != bytes);
    let mut bound = bytes.clone();
    bound[table + 40 * kept] = 1;
    let other = Image::parse(&bound)?;
    assert!(!has_place(other.patched(&header, &sections)));
    assert_eq!(other.patched(&header, &sections[..kept])?, bound);
    sections.push(sections[0]);
    assert!(!has_place(image.patched(&header, &sections)));
    // (the header may count more than are given: the others are zeros)
    header.coff_header.number_of_sections = room as u16;
    let made = image.patched(&header, &[])?;
    let again = Image::read(&made, Options::permissive())?;
    assert_eq!(again.sections().len(), room);
    assert!(again.sections().take(kept).eq(image.sections()));
    header.coff_header.number_of_sections += 1;
    assert!(!has_place(image.patched(&header, &[])));
    Ok(())
}
