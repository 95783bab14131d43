//! Prints what analysts compare: triage FILE.. This is triage.py in Rust.
use goblin_pe::{Budget, Error, Image, Mapping, Options, names};
use std::collections::HashSet;

fn entropy(data: &[u8]) -> f64 {
    let mut counts = [0_u32; 256];
    data.iter().for_each(|&byte| counts[usize::from(byte)] += 1);
    let present = counts.iter().filter(|&&it| it > 0);
    let shares = present.map(|&it| f64::from(it) / data.len() as f64);
    shares.fold(0.0, |sum, share| sum - share * share.log2())
}

// (a crate for MD5 makes the two hashes of these texts)
fn report(image: &Image, budget: &Budget) -> Result<(), Error> {
    println!("machine {}", names::machine(image.coff_header().machine));
    println!("exe {}, dll {}, driver {}", image.is_exe(), image.is_dll(), image.is_driver());
    let rich = image.rich_header().map_or(0, |it| it.cleared().len());
    println!("text of the Rich hash: {rich} bytes");
    let size = image.bytes().len();
    println!("overlay from {:#x} to {size:#x}", size - image.overlay().len());
    let mut left = size; // (sections may overlap)
    for section in image.sections().take(1000) {
        let data = section.data(image).bytes;
        let data = &data[..data.len().min(left)];
        left -= data.len();
        let (name, flags) = (section.name, names::section_flags(section.characteristics));
        println!("section {name:<8.40} {:.3} {flags}", entropy(data));
    }
    let imports = image.imphash_text(budget)?.unwrap_or_default().len();
    println!("text of the imphash: {imports} bytes");
    // what only goblin, or only Windows finds
    let stored = image.with_options(image.options().with_mapping(Mapping::AsStored));
    let mut walk = image.imports(budget);
    let loaded: HashSet<_> = walk.by_ref().collect::<Result<_, _>>()?;
    println!("imports: {} skipped, {} lead nowhere", walk.skipped(), walk.unmapped());
    let stored: HashSet<_> = stored.imports(budget).collect::<Result<_, _>>()?;
    for import in loaded.symmetric_difference(&stored).take(100) {
        println!("hidden {:.200} {:.200}", import.dll, import.name);
    }
    Ok(())
}

fn main() -> std::io::Result<()> {
    for path in std::env::args().skip(1) {
        let bytes = std::fs::read(&path)?;
        println!("file {path}");
        let options = Options::permissive().with_longest_name(512);
        let (image, faults) = Image::read_partial(&bytes, options);
        for (part, error) in faults.errors() {
            println!("{part}: {error}");
        }
        if let Err(error) = report(&image, &Budget::steps(200_000)) {
            println!("cut off: {error}");
        }
    }
    Ok(())
}
