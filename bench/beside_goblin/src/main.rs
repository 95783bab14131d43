//! Reads files in memory with this library and with goblin, in turn, for `tools/benchmark`:
//! beside_goblin ROUNDS FILE..
mod measure;

use goblin::pe::PE;
use goblin_pe::{Budget, Mapping, Options, Pe};
use std::error::Error;
use std::hint::black_box;

// How many sections, imports and exports this library finds. Each name is looked at.
fn ours(bytes: &[u8]) -> Option<[usize; 3]> {
    let options = Options::default().with_mapping(Mapping::AsStored);
    let pe = Pe::read(bytes, options, &Budget::unlimited()).ok()?;
    for section in &pe.sections {
        black_box(section.name);
    }
    for import in &pe.imports {
        black_box((import.name, import.dll));
    }
    for export in &pe.exports {
        black_box(export.name);
    }
    Some([pe.sections.len(), pe.imports.len(), pe.exports.len()])
}

// How many goblin finds.
fn goblins(bytes: &[u8]) -> Option<[usize; 3]> {
    let pe = PE::parse(bytes).ok()?;
    for section in &pe.sections {
        black_box(section.name().ok());
    }
    for import in &pe.imports {
        black_box((&import.name, import.dll));
    }
    for export in &pe.exports {
        black_box(export.name);
    }
    Some([pe.sections.len(), pe.imports.len(), pe.exports.len()])
}

fn main() -> Result<(), Box<dyn Error>> {
    let (rounds, files) = measure::asked()?;
    let files = measure::alike(files, ours, goblins);
    measure::compare(
        &files,
        rounds,
        ("ours", |file| ours(file)),
        ("goblin", |file| goblins(file)),
    );
    Ok(())
}
