//! An image with a list of the rows of each table.

use crate::error::Error;
use crate::image::Image;
use crate::options::{Budget, Options};
use crate::rows::{
    Export, ExportAddress, ExportDirectory, Import, RelocationBlock, RichEntry, Section,
};
use crate::text::Text;
use crate::walk::{Sums, append};

/// An image and the rows of its tables, as the walks of an [`Image`] give them.
///
/// If you don't trust the file, call [`Pe::read`] with a limited budget. Then `Pe` has at most one row,
/// of 8 to 128 bytes, for each step.
///
/// ```no_run
/// use goblin_pe::{Budget, Options, Pe};
///
/// let bytes = std::fs::read("some.dll")?;
/// let pe = Pe::read(&bytes, Options::permissive(), &Budget::default())?;
/// println!("{} imports of {:?}", pe.imports.len(), pe.libraries());
/// if let Some(export) = pe.exports.iter().find(|it| it.name == Some("DllGetClassObject".into())) {
///     println!("{:#x}", export.rva);
/// }
/// # Ok::<(), std::io::Error>(())
/// ```
#[derive(Clone, Debug)]
#[non_exhaustive]
pub struct Pe<'a> {
    /// The image: its headers, and look-ups.
    pub image: Image<'a>,
    /// The sections.
    pub sections: Vec<Section<'a>>,
    /// The entries of the Rich header.
    pub rich_entries: Vec<RichEntry>,
    /// The imports.
    pub imports: Vec<Import<'a>>,
    /// The export directory.
    pub export_directory: Option<ExportDirectory<'a>>,
    /// The exports that have a name pointer.
    pub exports: Vec<Export<'a>>,
    /// The export address table.
    pub export_addresses: Vec<ExportAddress>,
    /// The blocks of base relocations.
    pub relocation_blocks: Vec<RelocationBlock<'a>>,
    /// Why lists end early. Each error has its [`table`](Error::table). In both modes these are errors
    /// for bytes that are no entry of the Rich header, and for bytes that are no block of base
    /// relocations. In permissive mode these are all errors at which a walk ended.
    pub errors: Vec<Error>,
    /// How many entries of all tables permissive mode skipped. Each [`Walk`](crate::Walk) says how
    /// many it did.
    pub skipped: usize,
    /// How many entries of all tables lead nowhere, in both modes.
    pub unmapped: usize,
}

impl<'a> Pe<'a> {
    /// Reads an image and lists its tables.
    ///
    /// # Errors
    /// As [`Image::read`]. In strict mode also the error of the first table that is refused, and in
    /// both modes [`ErrorKind::Steps`](crate::ErrorKind::Steps) and
    /// [`ErrorKind::Memory`](crate::ErrorKind::Memory).
    pub fn read(bytes: &'a [u8], options: Options, budget: &Budget) -> Result<Pe<'a>, Error> {
        Pe::of(Image::read(bytes, options)?, budget)
    }

    /// Reads an image and lists its tables, strictly and within ten million steps. For another
    /// limit or none, such as [`Budget::unlimited`], call [`Pe::read`].
    ///
    /// # Errors
    /// As [`Pe::read`].
    pub fn parse(bytes: &'a [u8]) -> Result<Pe<'a>, Error> {
        Pe::read(bytes, Options::default(), &Budget::steps(10_000_000))
    }

    /// Lists the tables of an image, such as a partial one.
    ///
    /// # Errors
    /// As [`Pe::read`].
    pub fn of(image: Image<'a>, budget: &Budget) -> Result<Pe<'a>, Error> {
        let mut pe = Pe {
            image,
            sections: Vec::new(),
            rich_entries: Vec::new(),
            imports: Vec::new(),
            export_directory: None,
            exports: Vec::new(),
            export_addresses: Vec::new(),
            relocation_blocks: Vec::new(),
            errors: Vec::new(),
            skipped: 0,
            unmapped: 0,
        };
        let mut sums = Sums::ZEROS;
        let sections = append(&image, &mut pe.sections, &mut sums, budget);
        pe.keep(sections, Ends::Refused)?;
        let entries = append(&image, &mut pe.rich_entries, &mut sums, budget);
        pe.keep(entries, Ends::Early)?;
        let imports = append(&image, &mut pe.imports, &mut sums, budget);
        pe.keep(imports, Ends::Refused)?;
        let directory = image.export_directory().map(|it| pe.export_directory = it);
        pe.keep(directory, Ends::Refused)?;
        let exports = append(&image, &mut pe.exports, &mut sums, budget);
        pe.keep(exports, Ends::Refused)?;
        let addresses = append(&image, &mut pe.export_addresses, &mut sums, budget);
        pe.keep(addresses, Ends::Refused)?;
        if !image.options().is_permissive {
            image.test::<RelocationBlock>()?;
        }
        let blocks = append(&image, &mut pe.relocation_blocks, &mut sums, budget);
        pe.keep(blocks, Ends::Early)?;
        (pe.skipped, pe.unmapped) = (sums.skipped, sums.unmapped);
        Ok(pe)
    }

    // Keeps the error at which a list ended. Returns it if steps or memory ran out, and in strict mode if
    // the table is refused.
    fn keep(&mut self, ended: Result<(), Error>, ends: Ends) -> Result<(), Error> {
        let Err(error) = ended else {
            return Ok(());
        };
        let is_strict = !self.image.options().is_permissive;
        if error.is_no_damage() || is_strict && matches!(ends, Ends::Refused) {
            return Err(error);
        }
        if self.errors.try_reserve(1).is_err() {
            return Err(Error::memory(error.table()));
        }
        self.errors.push(error);
        Ok(())
    }

    /// The image's own name as a DLL; `None` if it has none.
    #[must_use]
    pub fn name(&self) -> Option<Text<'a>> {
        self.export_directory?.name
    }

    /// The names of the DLLs that it imports from, sorted, each once.
    #[must_use]
    pub fn libraries(&self) -> Vec<Text<'a>> {
        let mut names: Vec<_> = self.imports.iter().map(|it| it.dll).collect();
        names.sort_unstable();
        names.dedup();
        names
    }
}

// What an error at the end of a walk means in strict mode.
#[derive(Clone, Copy)]
enum Ends {
    // The table is refused.
    Refused,
    // The list ends before bytes that are no row.
    Early,
}

impl<'a> TryFrom<&'a [u8]> for Pe<'a> {
    type Error = Error;

    /// As [`Pe::parse`].
    fn try_from(bytes: &'a [u8]) -> Result<Pe<'a>, Error> {
        Pe::parse(bytes)
    }
}
