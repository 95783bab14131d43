//! What went wrong.

use std::ffi::CStr;
use std::io::Write;
use std::{fmt, io};

use crate::ffi;
use crate::image::Table;

// The statuses of the library, and two of the crate's own. (The library has a text for the first.)
const MALFORMED: u32 = 1;
const BAD_MAGIC: u32 = 2;
const TOO_SHORT: u32 = 3;
const READ: u32 = 4;
const STEPS: u32 = 7;
const MEMORY: u32 = 5;
const PLACE: u32 = 0xFFFF_FFFF;

/// Why a file, a table or a part of one can't be read.
///
/// Its text says in which [`table`](Error::table), and what is wrong, with the numbers. Errors are
/// equal if they have the same kind and the same numbers, whatever table they are about.
#[derive(Clone, Copy)]
pub struct Error {
    fault: ffi::Fault,
    table: Option<Table>,
}

impl Error {
    // What the library returned.
    pub(crate) const fn of(fault: ffi::Fault, table: Option<Table>) -> Error {
        Error { fault, table }
    }

    const fn own(status: u32, table: Option<Table>) -> Error {
        let (cause, first, second) = (0, 0, 0);
        let fault = ffi::Fault {
            status,
            cause,
            first,
            second,
        };
        Error { fault, table }
    }

    pub(crate) const fn memory(table: Option<Table>) -> Error {
        Error::own(MEMORY, table)
    }

    pub(crate) const fn steps(table: Option<Table>) -> Error {
        Error::own(STEPS, table)
    }

    pub(crate) const fn place() -> Error {
        Error::own(PLACE, None)
    }

    // The error of a call, if it has failed.
    pub(crate) const fn test(fault: ffi::Fault, table: Option<Table>) -> Result<(), Error> {
        if fault.status == 0 {
            return Ok(());
        }
        Err(Error::of(fault, table))
    }

    // The error of a part, if it has one.
    pub(crate) fn some(fault: ffi::Fault, table: Option<Table>) -> Option<Error> {
        Error::test(fault, table).err()
    }

    // Whether the file is not to blame: steps or memory ran out.
    pub(crate) const fn is_no_damage(&self) -> bool {
        matches!(self.fault.status, STEPS | MEMORY)
    }

    /// What kind of error it is.
    ///
    /// ```no_run
    /// use goblin_pe::{Cause, ErrorKind, Image};
    ///
    /// # let bytes = [];
    /// match Image::parse(&bytes).map_err(|error| error.kind()) {
    ///     Err(ErrorKind::Malformed(Cause::DosMagic)) => println!("no image"),
    ///     Err(ErrorKind::BadMagic) => println!("for another machine"),
    ///     other => println!("{other:?}"),
    /// }
    /// ```
    #[must_use]
    pub fn kind(&self) -> ErrorKind {
        match (self.fault.status, self.fault.cause) {
            (MALFORMED, cause) => Cause::of(cause).map_or(ErrorKind::Unknown, ErrorKind::Malformed),
            (BAD_MAGIC, _) => ErrorKind::BadMagic,
            (TOO_SHORT, _) => ErrorKind::TooShort,
            (READ, 1) => ErrorKind::BadOffset,
            (READ, 2) => ErrorKind::TooBig,
            (READ, 3) => ErrorKind::NotUtf8,
            (MEMORY, _) => ErrorKind::Memory,
            (STEPS, _) => ErrorKind::Steps,
            (PLACE, _) => ErrorKind::Place,
            _ => ErrorKind::Unknown,
        }
    }

    /// The numbers of the error, such as an offset and a size; 0 where the kind has none.
    #[must_use]
    pub const fn numbers(&self) -> (u64, u64) {
        (self.fault.first, self.fault.second)
    }

    /// The part of the file that could not be read, if a read or a walk returned the error. `None`
    /// for an error of a look-up, and for one of [`HeaderFaults`](crate::HeaderFaults), where the
    /// field names the part.
    #[must_use]
    pub const fn table(&self) -> Option<Table> {
        self.table
    }
}

impl PartialEq for Error {
    fn eq(&self, other: &Error) -> bool {
        self.fault == other.fault
    }
}

impl Eq for Error {}

impl std::hash::Hash for Error {
    fn hash<H: std::hash::Hasher>(&self, state: &mut H) {
        self.fault.hash(state);
    }
}

impl fmt::Display for Error {
    fn fmt(&self, f: &mut fmt::Formatter<'_>) -> fmt::Result {
        if self.fault.status == PLACE {
            return f.pad("the file has no place for this header or these sections");
        }
        let mut text = [0; 256];
        ffi::goblin_pe_fault_string(&self.fault, &mut text);
        let text = CStr::from_bytes_until_nul(&text).unwrap_or_default();
        let text = text.to_str().unwrap_or_default();
        let Some(table) = self.table else {
            return f.pad(text);
        };
        // (without memory, which may be what was refused)
        let mut line = [0; 300];
        let mut rest = &mut line[..];
        let _ = write!(rest, "{table}: {text}");
        let size = 300 - rest.len();
        f.pad(std::str::from_utf8(&line[..size]).unwrap_or_default())
    }
}

impl fmt::Debug for Error {
    fn fmt(&self, f: &mut fmt::Formatter<'_>) -> fmt::Result {
        write!(f, "Error({self})")
    }
}

impl std::error::Error for Error {}

impl From<Error> for io::Error {
    /// An error of the kind [`io::ErrorKind::OutOfMemory`] if memory was refused; else of
    /// [`io::ErrorKind::InvalidData`], with this error in it.
    fn from(error: Error) -> io::Error {
        match error.kind() {
            ErrorKind::Memory => io::ErrorKind::OutOfMemory.into(),
            _ => io::Error::new(io::ErrorKind::InvalidData, error),
        }
    }
}

/// What kind of error it is.
#[derive(Clone, Copy, Debug, PartialEq, Eq, Hash)]
#[non_exhaustive]
pub enum ErrorKind {
    /// The bytes violate the format.
    Malformed(Cause),
    /// The magic of the optional header is neither PE32 nor PE32+.
    BadMagic,
    /// The file is too short for the entries that it counts.
    TooShort,
    /// An offset is at or past the end of the file.
    BadOffset,
    /// Fewer bytes follow an offset than were needed.
    TooBig,
    /// The bytes at an offset are not UTF-8.
    NotUtf8,
    /// A `Vec` or a `String` of the crate was refused memory. The library takes none.
    Memory,
    /// The budget is used up, and the walk is not over.
    Steps,
    /// The file has no place for a changed header or section.
    Place,
    /// A kind that only a later version of this crate has a name for.
    Unknown,
}

/// What is wrong with a file.
#[derive(Clone, Copy, Debug, PartialEq, Eq, PartialOrd, Ord, Hash)]
#[non_exhaustive]
pub enum Cause {
    /// The file ends before the DOS signature.
    NoDosSignature = 2,
    /// The file does not begin with `MZ`.
    DosMagic = 3,
    /// The file ends before the pointer to the PE signature.
    NoPePointer = 4,
    /// The PE signature would lie past the end of the file.
    NoPeSignature = 5,
    /// There is no PE signature where it should be.
    PeMagic = 6,
    /// The PE signature lies before the DOS stub.
    StubBeforeStart = 7,
    /// The DOS stub would pass the end of the file.
    StubPastEnd = 8,
    /// The DOS stub has the marker `Rich`, but no `DanS` under its key.
    NoDans = 9,
    /// The Rich header would end before its beginning.
    RichBounds = 10,
    /// The TE header says that fewer bytes were stripped than it has itself.
    StrippedSize = 11,
    /// The string table says a length below 4.
    CoffLength = 12,
    /// The header has more than sixteen data directories.
    DirectoryCount = 14,
    /// A section name is not UTF-8 after its slash.
    NameText = 15,
    /// A section name has no base-64 number after its two slashes.
    NameBase64 = 16,
    /// A section name has no decimal number after its slash.
    NameDecimal = 17,
    /// No section name can hold this offset of the string table.
    NameOffset = 18,
    /// The string table would pass the end of the file.
    StringTable = 20,
    /// A 64-bit field does not fit an optional header for 32 bits.
    FieldTooWide = 21,
    /// An address has no file offset.
    Unmapped = 22,
    /// There is no text where a name should be.
    NameRead = 23,
    /// The file ends inside a hint.
    HintEntry = 24,
    /// The file ends inside a lookup table.
    LookupEnd = 25,
    /// The file ends inside the import directory.
    ImportRecordEnd = 26,
    /// The file ends inside the export directory.
    ExportTable = 27,
    /// A forwarder has no dot, or nothing after its first dot.
    Forwarder = 28,
    /// A forwarder has no decimal number below 2^32 after its `#`.
    ForwarderOrdinal = 29,
    /// The base relocation directory passes the end of the file, or of what its section maps.
    RelocRange = 30,
    /// A base relocation block says a size that is less than that of its header.
    BlockSize = 31,
    /// The entries of a block pass the end of the directory.
    BlockRange = 32,
    /// A sum or product of offsets passes 64 bits.
    Overflow = 33,
}

impl Cause {
    // The cause of this number.
    fn of(number: u32) -> Option<Cause> {
        ALL.into_iter().find(|it| *it as u32 == number)
    }
}

const ALL: [Cause; 30] = [
    Cause::NoDosSignature,
    Cause::DosMagic,
    Cause::NoPePointer,
    Cause::NoPeSignature,
    Cause::PeMagic,
    Cause::StubBeforeStart,
    Cause::StubPastEnd,
    Cause::NoDans,
    Cause::RichBounds,
    Cause::StrippedSize,
    Cause::CoffLength,
    Cause::DirectoryCount,
    Cause::NameText,
    Cause::NameBase64,
    Cause::NameDecimal,
    Cause::NameOffset,
    Cause::StringTable,
    Cause::FieldTooWide,
    Cause::Unmapped,
    Cause::NameRead,
    Cause::HintEntry,
    Cause::LookupEnd,
    Cause::ImportRecordEnd,
    Cause::ExportTable,
    Cause::Forwarder,
    Cause::ForwarderOrdinal,
    Cause::RelocRange,
    Cause::BlockSize,
    Cause::BlockRange,
    Cause::Overflow,
];
