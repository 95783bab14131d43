//! How a file is read, and how much work may be done for it.

use std::cell::Cell;
use std::fmt;

use crate::ffi;

/// How a file is read. The default is strict, maps as Windows does, and reads at most 4,096 bytes of
/// a name.
///
/// ```
/// use goblin_pe::{Mapping, Options};
///
/// const UNTRUSTED: Options = Options::permissive().with_longest_name(512);
/// let as_goblin = Options::default().with_mapping(Mapping::AsStored);
/// assert!(UNTRUSTED.is_permissive && !as_goblin.is_permissive);
/// ```
#[derive(Clone, Copy, Debug, PartialEq, Eq, Hash)]
#[non_exhaustive]
pub struct Options {
    /// How addresses are mapped to file offsets, and where the data of a section begins.
    pub mapping: Mapping,
    /// How many bytes of a name are read at most. Any number above 2^32 - 1 means no limit, and 0
    /// means the default, 4,096. A longer name is cut between two characters, and its row says so.
    /// Different names can be cut to the same bytes, so don't compare or hash a name that is cut.
    pub longest_name: usize,
    /// Whether damaged parts are skipped. If not, they are refused.
    pub is_permissive: bool,
}

impl Options {
    /// Lifts the limit of names: a [`longest_name`](Self::longest_name).
    pub const NO_LIMIT: usize = usize::MAX;

    /// The defaults, except that damaged parts are skipped.
    #[must_use]
    pub const fn permissive() -> Options {
        Options {
            mapping: Mapping::AsLoaded,
            longest_name: 4096,
            is_permissive: true,
        }
    }

    /// The same options with this mapping.
    #[must_use]
    pub const fn with_mapping(mut self, mapping: Mapping) -> Options {
        self.mapping = mapping;
        self
    }

    /// The same options with this limit for names, in bytes; or with [`Options::NO_LIMIT`].
    #[must_use]
    pub const fn with_longest_name(mut self, longest_name: usize) -> Options {
        self.longest_name = longest_name;
        self
    }

    // The record of the library.
    pub(crate) const fn record(self) -> ffi::Options {
        ffi::Options {
            mapping: self.mapping as u32,
            longest_name: self.longest_name,
            is_permissive: self.is_permissive,
            reserved: [0; 3],
        }
    }

    // The options of a record.
    pub(crate) const fn of(record: &ffi::Options) -> Options {
        Options {
            mapping: match record.mapping {
                1 => Mapping::ByFileAlignment,
                2 => Mapping::AsStored,
                3 => Mapping::Identity,
                _ => Mapping::AsLoaded,
            },
            longest_name: record.longest_name,
            is_permissive: record.is_permissive,
        }
    }
}

impl Default for Options {
    fn default() -> Options {
        let mut options = Options::permissive();
        options.is_permissive = false;
        options
    }
}

/// How addresses are mapped to file offsets, and where the data of a section begins.
///
/// The first three agree on sections whose raw pointer is a multiple of 512, as the specification
/// asks for.
#[derive(Clone, Copy, Debug, Default, PartialEq, Eq, PartialOrd, Ord, Hash)]
#[non_exhaustive]
pub enum Mapping {
    /// As Windows maps: the raw pointer is rounded down to 512 if the file alignment is at least
    /// 512, and the headers are mapped at address 0.
    #[default]
    AsLoaded = 0,
    /// As [`AsLoaded`](Self::AsLoaded), without the headers: nearly as pefile maps.
    ByFileAlignment = 1,
    /// As goblin maps: the raw pointer is taken as stored, and the headers are not mapped. A
    /// section may reach up to 511 bytes too far if its raw pointer is not a multiple of 512.
    AsStored = 2,
    /// An address is a file offset: the bytes are a dump of the image in memory.
    Identity = 3,
}

/// The number of steps that are left for calls. Lend one budget to several walks and calls, also to a
/// walk inside another one, and it limits their sum. The default is 1,000,000 steps.
///
/// A step is one look at an entry of an import or export table, or at 64 entries of an address table
/// of imports, whether or not they give a row, or one row of another walk. To see the end of a table
/// may need a step, too. A call that needs more steps than are left returns an error of the kind
/// [`ErrorKind::Steps`](crate::ErrorKind::Steps).
///
/// A walk reads its rows in batches. So the steps of rows that you have not seen yet may already be
/// used.
///
/// A budget and the walks that share it stay in one thread. A clone is a budget of its own.
///
/// ```no_run
/// use goblin_pe::{Budget, Image};
///
/// # let bytes = [];
/// let image = Image::parse(&bytes)?;
/// let budget = Budget::steps(100_000);
/// let imports = image.imports(&budget).collect::<Result<Vec<_>, _>>()?;
/// let exports = image.exports(&budget).collect::<Result<Vec<_>, _>>()?;
/// println!("{} imports, {} exports", imports.len(), exports.len());
/// println!("{} steps are left", budget.left());
/// # Ok::<(), goblin_pe::Error>(())
/// ```
#[derive(Clone, PartialEq, Eq)]
#[must_use]
pub struct Budget {
    steps: Cell<usize>,
}

impl Budget {
    /// A budget with this number of steps. With names of 4,096 bytes, 100,000 steps take at most a
    /// quarter of a second if these are ASCII, 3 seconds if not.
    pub const fn steps(steps: usize) -> Budget {
        Budget {
            steps: Cell::new(steps),
        }
    }

    /// A budget that is never used up. Use it for files that you trust.
    pub const fn unlimited() -> Budget {
        Budget::steps(usize::MAX)
    }

    /// How many steps are left; `usize::MAX` if there is no limit.
    #[must_use]
    pub fn left(&self) -> usize {
        self.steps.get()
    }

    /// Sets how many steps are left. A walk that has ended because they were used up goes on.
    ///
    /// ```no_run
    /// use goblin_pe::{Budget, Error, Import, Walk};
    ///
    /// // Prints the next hundred imports of a walk that has this budget.
    /// fn page<'a>(walk: &mut Walk<'a, '_, Import<'a>>, budget: &Budget) -> Result<(), Error> {
    ///     budget.set(10_000);
    ///     for import in walk.take(100) {
    ///         println!("{}", import?.name);
    ///     }
    ///     Ok(())
    /// }
    /// ```
    pub fn set(&self, steps: usize) {
        self.steps.set(steps);
    }

    // Sets how many steps a call has left, unless there is no limit.
    pub(crate) fn count_down(&self, left: usize) {
        if self.left() != usize::MAX {
            self.set(left);
        }
    }
}

impl Default for Budget {
    fn default() -> Budget {
        Budget::steps(1_000_000)
    }
}

impl fmt::Debug for Budget {
    /// How many steps are left.
    fn fmt(&self, f: &mut fmt::Formatter<'_>) -> fmt::Result {
        match self.left() {
            usize::MAX => f.write_str("Budget(unlimited)"),
            left => write!(f, "Budget({left} steps left)"),
        }
    }
}
