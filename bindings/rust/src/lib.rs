//! Reads PE images, COFF objects and TE files that you can't trust.
//!
//! This program lists the imports and exports of an untrusted image. It limits its work, its memory
//! and the length of each name, and it says what it could not read:
//!
//! ```no_run
//! use goblin_pe::{Budget, Error, Image, Options};
//!
//! fn list(bytes: &[u8]) -> Result<(), Error> {
//!     let image = Image::read(bytes, Options::permissive().with_longest_name(512))?;
//!     let budget = Budget::default();
//!     let mut imports = image.imports(&budget);
//!     for import in imports.by_ref() {
//!         let import = import?;
//!         println!("{} {}", import.dll, import.name);
//!     }
//!     println!("{} skipped, {} lead nowhere", imports.skipped(), imports.unmapped());
//!     for export in image.exports(&budget) {
//!         println!("exports {}", export?.name.unwrap_or_default());
//!     }
//!     let entry = image.memory_at(image.entry(), 16);
//!     println!("begins with {:02x?}, in {:?}", entry.bytes, entry.region);
//!     Ok(())
//! }
//!
//! let bytes = std::fs::read("some.dll")?;
//! if let Err(error) = list(&bytes) {
//!     println!("not read to its end: {error}");
//! }
//! # Ok::<(), std::io::Error>(())
//! ```
//!
//! # One image
//!
//! [`Image::read`] reads the header of an image, and nothing else. The [`Image`] is a small value
//! that borrows the bytes: copy it, keep it, send it to another thread. It needs no other memory.
//! [`Image::read_partial`] reads what is there of a damaged header, [`Image::read_object`] a COFF
//! object, and [`Image::read_te`] a Terse Executable. All of them return the same type.
//! [`Image::with_options`] returns the same image with other options.
//!
//! # Walks
//!
//! Each table has a method that walks over it, such as [`Image::imports`]. A [`Walk`] is an
//! iterator over `Result<Row, Error>`. It reads up to 256 rows of the file at a time, and ends after
//! its first error. Rows, names and texts borrow the bytes and not the image.
//!
//! [`Pe`] collects the rows: it has an image and a `Vec` for each table.
//!
//! # Limits
//!
//! A small file can list very much: 256 KiB can list 850 million imports. So each call whose work
//! the file decides has a [`Budget`] of steps as an argument. Its default is 1,000,000. A step is one
//! look at an entry of an import or export table, or at 64 entries of an address table of imports, or
//! one row of another walk. Several calls can share one budget, which then limits their sum. When the
//! steps are used up, a call returns an error of the kind [`ErrorKind::Steps`]. It never leaves
//! anything out without that error.
//!
//! At most 4,096 bytes of a name are read, or as many as [`Options::longest_name`] says: a file of a
//! megabyte can list a million names of a megabyte. A row says whether a name of it is cut.
//!
//! # Strict and permissive
//!
//! Strict mode, the default, refuses a damaged table. Permissive mode skips the damaged parts, and
//! [`Walk::skipped`] counts them. To see why strict mode refuses a table, walk over it in strict mode:
//! [`Image::with_options`].
//!
//! By default addresses are mapped as Windows maps them, because packers hide imports from readers
//! that map otherwise. [`Mapping`] also has the rules of goblin and pefile.
//!
//! # Numbers
//!
//! - An address relative to the image base (an RVA) is a `u32`, as in every record of the format.
//!   So you can pass the RVA of a directory, a section or a row to any look-up, without a cast. The
//!   index of a symbol and the offset of a string are a `u32`, too.
//! - A file offset, a size and the index of a row are a `usize`, so that you can index bytes and
//!   slices with them. What is a base plus an index is a `usize`, too: an ordinal, and the RVA of a
//!   thunk and of a base relocation. From 2^32 on nothing is mapped.
//! - Names are a [`Text`]: bytes that need not be UTF-8. `{}` prints them safely escaped.
//!
//! # Platforms
//!
//! x86-64 Linux, Rust 1.85, and no other crate.
#![deny(missing_docs)]
#![warn(clippy::pedantic)]

#[cfg(doctest)]
mod borrowed;
#[allow(clippy::doc_markdown)] // (processors are called PowerPC and the like)
pub mod constants;
mod error;
mod ffi;
mod headers;
mod image;
mod imphash;
mod memory;
pub mod names;
mod options;
mod patch;
mod pe;
mod rows;
mod tables;
mod text;
mod walk;

pub use error::{Cause, Error, ErrorKind};
pub use headers::{
    CoffHeader, DataDirectory, DirectoryType, DosHeader, Header, OptionalHeader, StandardFields,
    TeHeader, WindowsFields,
};
pub use image::{HeaderFaults, Image, Kind, Memory, Region, Table, update_checksum};
pub use options::{Budget, Mapping, Options};
pub use pe::Pe;
pub use rows::{
    Auxiliary, BaseRelocation, CoffRelocation, Export, ExportAddress, ExportDirectory, Forwarder,
    Import, Imported, Library, RelocationBlock, RichEntry, RichHeader, Section, Symbol,
};
pub use text::Text;
pub use walk::{Row, Rows, Walk};

// The programs of the page.
#[cfg(doctest)]
#[doc = include_str!("../README.md")]
mod page {}
