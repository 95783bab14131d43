//! What is read of the samples, by lists and by walks, and how budgets limit it.
use goblin_pe::{
    Budget, DataDirectory, DirectoryType, Error, ErrorKind, Forwarder, Image, Imported, Kind, Mapping,
    Options, Pe, Row, Table, Text, Walk, names, update_checksum,
};
use std::fmt::Write;
use std::path::PathBuf;

fn samples() -> PathBuf {
    let beside = PathBuf::from(env!("CARGO_MANIFEST_DIR")).join("../../samples");
    std::env::var_os("GOBLIN_PE_SAMPLES").map_or(beside, PathBuf::from)
}

fn images() -> Vec<(PathBuf, Vec<u8>)> {
    let entries = std::fs::read_dir(samples()).expect("the samples are there");
    let mut found: Vec<_> = entries.map(|it| it.expect("an entry").path()).collect();
    found.retain(|it| {
        it.extension()
            .is_some_and(|it| it == "dll" || it == "exe" || it == "efi")
    });
    found.sort();
    assert!(found.len() > 8);
    let read = |it: PathBuf| (it.clone(), std::fs::read(it).expect("a sample"));
    found.into_iter().map(read).collect()
}

fn sample(name: &str) -> Vec<u8> {
    std::fs::read(samples().join(name)).expect("a sample")
}

fn heading<'a, T>(mut walk: Walk<'a, '_, T>, table: Option<DataDirectory>, name: Table) -> String
where
    T: Row<'a>,
{
    let count = walk.by_ref().filter(Result::is_ok).count();
    if table.is_none() {
        format!("{name} absent")
    } else if walk.skipped() > 0 && name != Table::Imports {
        format!("{name} refused")
    } else {
        format!("{name} {count}")
    }
}

// As pe_list lists an image.
fn listed(pe: &Pe) -> Result<String, std::fmt::Error> {
    let (image, mut to) = (&pe.image, String::new());
    let coff = image.coff_header();
    let (machine, count) = (coff.machine, pe.sections.len());
    write!(to, "header machine={machine:#x} sections={count}")?;
    if let Some(optional) = image.optional_header() {
        let magic = optional.standard_fields.magic;
        write!(to, " magic={magic:#x} entry={:#x}", image.entry())?;
    }
    writeln!(to)?;
    for it in &pe.sections {
        let (address, size) = (it.virtual_address, it.virtual_size);
        write!(to, "section va={address:#x} vsize={size:#x}")?;
        let (raw, pointer) = (it.size_of_raw_data, it.pointer_to_raw_data);
        writeln!(to, " raw={raw:#x} ptr={pointer:#x} name={}", it.name)?;
    }
    let (table, budget) = (|it| image.directory(it), Budget::unlimited());
    let (walk, directory) = (image.imports(&budget), table(DirectoryType::ImportTable));
    writeln!(to, "{}", heading(walk, directory, Table::Imports))?;
    for it in &pe.imports {
        let (number, name) = match it.name {
            Imported::Name { name, hint } => (hint, name.to_string()),
            Imported::Ordinal(ordinal) => (ordinal, format!("ORDINAL {ordinal}")),
        };
        let (offset, rva, slot) = (it.iat_rva, it.hint_name_rva, it.thunk_index);
        let size = if image.is_64() { 8 } else { 4 };
        write!(
            to,
            "import offset={offset:#x} ordinal={number} rva={rva:#x} "
        )?;
        writeln!(to, "size={size} slot={slot} dll={} name={name}", it.dll)?;
    }
    let (walk, directory) = (image.exports(&budget), table(DirectoryType::ExportTable));
    writeln!(to, "{}", heading(walk, directory, Table::Exports))?;
    for it in &pe.exports {
        write!(to, "export rva={:#x}", it.rva)?;
        it.offset
            .map_or(Ok(()), |it| write!(to, " offset={it:#x}"))?;
        it.forwarder
            .map_or(Ok(()), |it| write!(to, " forward={it}"))?;
        it.name.map_or(Ok(()), |it| write!(to, " name={it}"))?;
        writeln!(to)?;
    }
    let walk = image.relocation_blocks(&budget);
    let directory = table(DirectoryType::BaseRelocationTable);
    writeln!(to, "{}", heading(walk, directory, Table::Relocations))?;
    for it in &pe.relocation_blocks {
        let words = it.relocations().len();
        writeln!(
            to,
            "block rva={:#x} size={:#x} words={words}",
            it.rva, it.size
        )?;
    }
    if pe
        .errors
        .iter()
        .any(|it| it.table() == Some(Table::Relocations))
    {
        writeln!(to, "block refused")?;
    }
    Ok(to)
}

#[test]
fn samples_are_listed() {
    for (path, bytes) in images() {
        for (options, kind) in [
            (Options::default(), "listing"),
            (Options::permissive(), "permissive"),
        ] {
            let options = options.with_mapping(Mapping::AsStored);
            let pe = Pe::read(&bytes, options, &Budget::unlimited()).expect("a sample is read");
            let wanted = std::fs::read_to_string(format!("{}.{kind}", path.display()));
            assert_eq!(listed(&pe).ok(), wanted.ok(), "{}", path.display());
        }
    }
}

#[test]
fn walks_give_what_lists_hold() -> Result<(), Error> {
    for (_, bytes) in images() {
        let (pe, budget) = (Pe::parse(&bytes)?, &Budget::default());
        let image = pe.image;
        assert!(image.sections().eq(pe.sections.iter().copied()));
        assert!(image.sections().rev().eq(pe.sections.iter().rev().copied()));
        assert_eq!(image.imports(budget).collect::<Result<Vec<_>, _>>()?, pe.imports);
        assert_eq!(image.exports(budget).collect::<Result<Vec<_>, _>>()?, pe.exports);
        let by_library = image
            .libraries(budget)
            .flat_map(|it| it.expect("a library").imports(&image, budget));
        assert_eq!(by_library.collect::<Result<Vec<_>, _>>()?, pe.imports);
        for export in &pe.exports {
            let name = export.name.unwrap_or_default();
            let found = image.find_export(name, budget)?;
            assert_eq!(found, Some(*export));
            let address = image.find_export_by_ordinal(export.ordinal)?;
            assert_eq!(address.map(|it| it.rva), Some(export.rva));
        }
    }
    Ok(())
}

#[test]
fn a_budget_ends_each_walk_and_a_kept_walk_goes_on() -> Result<(), Error> {
    let bytes = sample("imports_by_name_x64.dll");
    let image = Image::parse(&bytes)?;
    let unlimited = Budget::unlimited();
    let wanted: Vec<_> = image.exports(&unlimited).collect::<Result<_, _>>()?;
    assert_eq!(unlimited, Budget::unlimited());
    for steps in 0..8 {
        let budget = Budget::steps(steps);
        let rows: Vec<_> = image.exports(&budget).collect();
        let read: Vec<_> = rows.iter().filter_map(|it| it.ok()).collect();
        assert_eq!(read, wanted[..read.len()]);
        if let Some(Err(error)) = rows.last() {
            assert_eq!((error.kind(), budget.left()), (ErrorKind::Steps, 0));
            assert_eq!(error.table(), Some(Table::Exports));
        } else {
            assert_eq!(read.len(), wanted.len());
        }
    }
    let budget = Budget::default();
    let (mut walk, mut rows) = (image.exports(&budget), Vec::new());
    for _ in 0..10 {
        budget.set(1);
        rows.extend(walk.by_ref().filter_map(Result::ok));
        assert!(walk.next().is_none());
    }
    assert_eq!(rows, wanted);
    Ok(())
}

#[test]
fn errors_say_what_is_wrong() {
    let error = Image::parse(b"MZ").expect_err("no image");
    assert_eq!(error.table(), Some(Table::Header));
    assert!(!error.to_string().is_empty());
    assert_eq!(
        std::io::Error::from(error).kind(),
        std::io::ErrorKind::InvalidData
    );
}

#[test]
fn kinds_are_found_by_the_first_bytes() {
    assert_eq!(Kind::of(&sample("program_x64.exe")), Kind::Image);
    assert_eq!(Kind::of(&sample("object_x86.obj")), Kind::Object);
    assert_eq!(Kind::of(&sample("firmware_x64.te")), Kind::Te);
    assert_eq!(Kind::of(b""), Kind::Unknown);
}

#[test]
fn a_cut_file_has_missing_bytes_and_no_zeros() -> Result<(), Error> {
    let bytes = sample("program_x64.exe");
    let section = Image::parse(&bytes)?.sections().next().expect("a section");
    let begin = section.pointer_to_raw_data as usize;
    let image = Image::read(&bytes[..begin + 0x10], Options::permissive())?;
    let memory = image.memory_at(section.virtual_address, 0x20);
    assert_eq!(
        (memory.bytes.len(), memory.zeros, memory.missing),
        (0x10, 0, 0x10)
    );
    assert_eq!(memory.section, Some(0));
    assert_eq!(memory.whole(), None);
    let data = section.data(&image);
    assert_eq!((data.bytes.len(), data.zeros), (0x10, 0));
    Ok(())
}

#[test]
fn headers_are_written_and_checksums_stored() -> Result<(), Error> {
    for (_, bytes) in images() {
        let image = Image::parse(&bytes)?;
        let same = image.patched(&image.header(), &Vec::from_iter(image.sections()))?;
        assert_eq!(same, bytes);
        let mut header = image.header();
        header.coff_header.time_date_stamp = 0x1234_5678;
        let mut changed = image.patched(&header, &[])?;
        let sum = update_checksum(&mut changed)?;
        let changed = Image::parse(&changed)?;
        assert_eq!(changed.coff_header().time_date_stamp, 0x1234_5678);
        assert_eq!(changed.checksum(), Some(sum));
        let optional = changed.optional_header().expect("an optional header");
        assert_eq!(optional.windows_fields.check_sum, sum);
        header.dos_header.pe_pointer += 8;
        let refused = image.patched(&header, &[]).map_err(|it| it.kind());
        assert_eq!(refused.err(), Some(ErrorKind::Place));
    }
    Ok(())
}

#[test]
fn texts_print_safely() {
    assert_eq!(Text(b"a\xFF\\").to_string(), r"a\xff\x5c");
    assert_eq!(
        format!("{:>6}|{:<6}|", Text(b"abc"), Text(b"abc")),
        "   abc|abc   |"
    );
    assert_eq!(format!("{:?}", Text(b"a\"b")), r#""a\x22b""#);
    assert_eq!(String::from(Text(b"a\xFF")), Text(b"a\xFF").to_string());
    let (ordinal, dll, name) = (Imported::Ordinal(7), Text(b"A"), Text(b"b"));
    assert_eq!(format!("{ordinal:*>4}|{:*<5}", Forwarder::Name { dll, name, is_cut: false }), "**#7|A.b**");
    let (flags, machine) = (names::file_flags(0x2002), names::machine(0x14C));
    assert_eq!(format!("{flags:_^48}"), "__IMAGE_FILE_EXECUTABLE_IMAGE | IMAGE_FILE_DLL__");
    assert_eq!(format!("{machine:>18}|{:-<7}", Table::Header), "  COFF_MACHINE_X86|header-");
    assert_eq!(format!("{machine:?}"), "Names(COFF_MACHINE_X86)");
}
