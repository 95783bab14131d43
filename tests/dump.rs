// Prints what the crate says of each file that a list names. dump.py prints the same by the package for Python.
use goblin_pe::*;
use std::fmt::Debug;

const ADDRESSES: [u32; 8] = [0, 1, 0x1000, 0x1010, 0x2004, 0x30FF, 0x4000, 0x5000];
const OFFSETS: [usize; 5] = [0, 0x1FF, 0x400, 0x600, 0x9FF];

// Prints rows, and the error at which they end. Returns the rows.
fn rows<T: Debug>(rows: impl Iterator<Item = Result<T, Error>>) -> Vec<T> {
    let shown = |row: &Result<T, Error>| match row {
        Ok(row) => println!("{row:?}"),
        Err(error) => println!("{:?} {error:?}", error.kind()),
    };
    rows.inspect(shown).filter_map(Result::ok).collect()
}

// Prints the rows of a walk, and what gave no row.
fn walked<'a, T: Row<'a> + Debug>(name: &str, mut walk: Walk<'a, '_, T>) -> Vec<T> {
    let found = rows(walk.by_ref());
    println!("{name} skipped={} unmapped={}", walk.skipped(), walk.unmapped());
    found
}

fn headers(image: &Image) {
    println!("{:?} {} {:#x}", image.kind(), image.entry(), image.image_base());
    println!("{:?}", [image.is_64(), image.is_dll(), image.is_lib(), image.is_driver(), image.is_exe()]);
    println!("{:?}", image.header());
    println!("{:?}", image.rich_header());
    println!("{:?} {}", image.checksum(), image.overlay().len());
}

fn tables(image: &Image) {
    let budget = Budget::steps;
    for section in image.sections() {
        println!("{section:?} {:?}", section.to_bytes());
        println!("{:?}", section.data(image));
        walked("relocations", section.relocations(image, &budget(100)));
        println!("{:?}", image.section_by_name(section.name));
    }
    walked("rich_entries", image.rich_entries(&budget(100)));
    walked("imports", image.imports(&budget(300)));
    for library in walked("libraries", image.libraries(&budget(300))) {
        walked("imports", library.imports(image, &budget(100)));
    }
    println!("{:?}", image.export_directory());
    for export in walked("exports", image.exports(&budget(300))).into_iter().take(20) {
        println!("{:?}", image.find_export_by_ordinal(export.ordinal));
        let name = export.name.unwrap_or_default();
        println!("{:?}", image.find_export(name, &budget(300)));
    }
    for address in walked("export_addresses", image.export_addresses(&budget(300))) {
        println!("{:?}", address.is_forwarder.then(|| image.forwarder_at(address.rva)));
    }
    for block in walked("relocation_blocks", image.relocation_blocks(&budget(20))) {
        println!("{:?}", Vec::from_iter(block.relocations()));
    }
    for symbol in walked("symbols", image.symbols(&budget(300))) {
        println!("{:?} {:?}", symbol.auxiliary(image), image.symbol_at(symbol.index));
        println!("{:?}", image.section_by_number(symbol.section_number));
    }
}

fn facts(image: &Image) {
    for rva in ADDRESSES {
        println!("{:?} {:?}", image.find_offset(rva), image.memory_at(rva, 20));
        println!("{:?} {:?}", image.text_at(rva), image.forwarder_at(rva));
    }
    println!("{:?}", OFFSETS.map(|it| image.find_rva(it)));
    println!("{:?}", OFFSETS.map(|it| image.string_at(it as u32)));
    let same = image.patched(&image.header(), &Vec::from_iter(image.sections()));
    println!("{:?}", same.map(|it| it == image.bytes()).map_err(|it| it.kind()));
}

// The names of all numbers, and of all pairs of flags.
fn all_names() {
    for number in 0..=u16::MAX {
        println!("{} {}", names::machine(number), names::subsystem(number));
    }
    for number in 0..=u8::MAX {
        println!("{} {}", names::storage_class(number), names::comdat_selection(number));
        println!("{} {}", names::weak_search(number.into()), names::base_relocation(number));
        for machine in [0x14C, 0x8664, 0x1C0, 0x1C2, 0x1C4, 0xAA64, 0x200, 0] {
            println!("{}", names::relocation(machine, number.into()));
        }
    }
    for flags in (0..1024).map(|it| 1 << (it / 32) | 1 << (it % 32)).chain((0..16).map(|it| it << 20)) {
        println!("{} {}", names::file_flags(flags as u16), names::dll_flags(flags as u16));
        println!("{}", names::section_flags(flags));
    }
    for ordinal in 0..600 {
        let dlls = ["WS2_32.dll", "wsock32.dll", "OLEAUT32.DLL", "other.dll"];
        println!("{:?}", dlls.map(|dll| names::ordinal(dll, ordinal)));
    }
}

fn main() -> std::io::Result<()> {
    all_names();
    for path in std::fs::read_to_string(std::env::args().nth(1).unwrap_or_default())?.lines() {
        let bytes = std::fs::read(path)?;
        for (is_permissive, mapping) in [
            (false, Mapping::AsLoaded),
            (true, Mapping::AsLoaded),
            (true, Mapping::AsStored),
            (true, Mapping::Identity),
            (false, Mapping::ByFileAlignment),
        ] {
            let mut options = Options::default().with_mapping(mapping).with_longest_name(9);
            options.is_permissive = is_permissive;
            println!("{path} {is_permissive} {mapping:?} {:?}", Kind::of(&bytes));
            let image = match Kind::of(&bytes) {
                Kind::Object => Image::read_object(&bytes, options),
                Kind::Te => Image::read_te(&bytes, options).map(|(image, header)| {
                    println!("{header:?}");
                    image
                }),
                _ => {
                    let (image, faults) = Image::read_partial(&bytes, options);
                    println!("{:?}", faults.refusal.map(|it| (it.kind(), it)));
                    println!("{:?}", Vec::from_iter(faults.errors().map(|it| (it.0, it.1.kind(), it.1))));
                    Ok(image)
                }
            };
            for image in rows(std::iter::once(image)) {
                headers(&image);
                tables(&image);
                facts(&image);
            }
        }
    }
    Ok(())
}
