//! Walks over tables.

use std::fmt;
use std::iter::FusedIterator;
use std::mem::MaybeUninit;
use std::slice;

use crate::error::{Error, ErrorKind};
use crate::ffi;
use crate::image::Image;
use crate::options::Budget;

/// A walk over a table: an iterator over its rows.
///
/// It reads up to 256 rows at a time, and keeps none of the rows that it gave. If a row is damaged,
/// it gives the rows before it, then one error, and then it ends. In permissive mode it gives an error
/// only if no row can follow the damage.
///
/// It takes its steps from a [`Budget`]. If they are used up before the walk is over, it gives one
/// error of the kind [`ErrorKind::Steps`](crate::ErrorKind::Steps), and then it ends, too. If you then
/// set new steps by [`Budget::set`], the walk goes on after the last row that it gave.
///
/// ```no_run
/// use goblin_pe::{Budget, Error, Image, Import};
///
/// fn of_kernel<'a>(image: &Image<'a>) -> Result<Vec<Import<'a>>, Error> {
///     let is_of_kernel = |it: &Import| it.dll.eq_ignore_ascii_case(b"kernel32.dll");
///     let budget = Budget::default();
///     image.imports(&budget).filter(|row| row.as_ref().map_or(true, is_of_kernel)).collect()
/// }
/// ```
#[derive(Clone)]
#[must_use = "walks do nothing unless they are consumed"]
pub struct Walk<'a, 'b, T: Row<'a>> {
    image: Image<'a>,
    budget: &'b Budget,
    cursor: T::Cursor,
    // What the last call gave, and how many of these were handed out.
    records: Vec<T::Record>,
    given: usize,
    sums: Sums,
    pub(crate) is_over: bool,
    // Whether it gave the error that its steps are used up: it has ended until there are new ones.
    has_run_out: bool,
}

// How many entries gave no row.
#[derive(Clone, Copy)]
pub(crate) struct Sums {
    pub(crate) skipped: usize,
    pub(crate) unmapped: usize,
}

impl Sums {
    pub(crate) const ZEROS: Sums = Sums {
        skipped: 0,
        unmapped: 0,
    };
}

// How many records a call is asked for: the first one, and each one after it.
const FIRST: usize = 32;
const ROOM: usize = 256;

// How many records `append` has on the stack.
const STACK: usize = 128;

impl<'a, 'b, T: Row<'a>> Walk<'a, 'b, T> {
    pub(crate) const fn at(image: &Image<'a>, cursor: T::Cursor, budget: &'b Budget) -> Self {
        Walk {
            image: *image,
            budget,
            cursor,
            records: Vec::new(),
            given: 0,
            sums: Sums::ZEROS,
            is_over: false,
            has_run_out: false,
        }
    }

    pub(crate) fn of(image: &Image<'a>, budget: &'b Budget) -> Self {
        Walk::at(image, T::Cursor::default(), budget)
    }

    /// How many entries permissive mode skipped in what the walk has read so far, where strict mode
    /// gives an error; a table that is skipped as a whole counts one.
    #[must_use]
    pub const fn skipped(&self) -> usize {
        self.sums.skipped
    }

    /// How many entries led nowhere in what the walk has read so far: in both modes they give no row
    /// and no error.
    #[must_use]
    pub const fn unmapped(&self) -> usize {
        self.sums.unmapped
    }

    // Reads until there is a row to give. Returns `false` if the walk has ended.
    #[inline(never)]
    fn refill(&mut self) -> Result<bool, Error> {
        while self.given == self.records.len() {
            if self.is_over || self.has_run_out && self.budget.left() == 0 {
                return Ok(false);
            }
            let read = self.read();
            self.has_run_out = read.is_err_and(|it| it.kind() == ErrorKind::Steps);
            self.is_over = !self.has_run_out && read.unwrap_or(true);
            read?;
        }
        Ok(true)
    }

    // Reads the next records. Returns whether they are the last ones.
    fn read(&mut self) -> Result<bool, Error> {
        let room = if self.records.capacity() == 0 { FIRST } else { ROOM };
        self.given = 0;
        self.records.clear();
        if self.records.try_reserve_exact(room).is_err() {
            return Err(Error::memory(Some(T::TABLE)));
        }
        let rows = self.records.as_mut_ptr();
        let (cursor, sums) = (&mut self.cursor, &mut self.sums);
        // SAFETY: there is room for the records, and the library has filled `count` of them.
        unsafe {
            let batch = fill::<T>(&self.image, cursor, rows, room, self.budget, sums)?;
            self.records.set_len(batch.count);
            Ok(batch.is_done)
        }
    }
}

// Fills at most `room` records with the next ones, as the budget allows, and says how many it filled.
//
// SAFETY: the caller has room for them.
unsafe fn fill<'a, T: Row<'a>>(
    image: &Image<'a>,
    cursor: &mut T::Cursor,
    rows: *mut T::Record,
    room: usize,
    budget: &Budget,
    sums: &mut Sums,
) -> Result<ffi::Batch, Error> {
    let (mut batch, mut left) = (ffi::Batch::default(), budget.left());
    let room = if T::COUNTS_STEPS { room } else { room.min(left) };
    if room == 0 {
        return Err(Error::steps(Some(T::TABLE)));
    }
    // SAFETY: as above.
    let fault = unsafe { T::next(&image.record, cursor, rows, room, &mut left, &mut batch) };
    Error::test(fault, Some(T::TABLE))?;
    batch.count = batch.count.min(room);
    sums.skipped += batch.skipped;
    sums.unmapped += batch.unmapped;
    budget.count_down(if T::COUNTS_STEPS { left } else { left - batch.count });
    Ok(batch)
}

// Appends all rows of a table, and returns the error at which the walk ends. (The records lie on the
// stack, so it needs no memory but that of the rows.)
pub(crate) fn append<'a, T: Row<'a>>(
    image: &Image<'a>,
    rows: &mut Vec<T>,
    sums: &mut Sums,
    budget: &Budget,
) -> Result<(), Error> {
    let mut cursor = T::Cursor::default();
    let mut records = [MaybeUninit::<T::Record>::uninit(); STACK];
    let first = records.as_mut_ptr().cast::<T::Record>();
    loop {
        // SAFETY: there is room for the records, and the library has filled `count` of them.
        let (records, is_done) = unsafe {
            let batch = fill::<T>(image, &mut cursor, first, STACK, budget, sums)?;
            (slice::from_raw_parts(first, batch.count), batch.is_done)
        };
        if rows.try_reserve(records.len()).is_err() {
            return Err(Error::memory(Some(T::TABLE)));
        }
        rows.extend(records.iter().map(|record| T::of(record, image)));
        if is_done {
            return Ok(());
        }
    }
}

impl<'a, T: Row<'a>> Iterator for Walk<'a, '_, T> {
    type Item = Result<T, Error>;

    #[inline]
    fn next(&mut self) -> Option<Result<T, Error>> {
        if self.given == self.records.len() {
            match self.refill() {
                Ok(true) => {}
                Ok(false) => return None,
                Err(error) => return Some(Err(error)),
            }
        }
        let record = &self.records[self.given];
        self.given += 1;
        Some(Ok(T::of(record, &self.image)))
    }
}

impl<'a, T: Row<'a>> fmt::Debug for Walk<'a, '_, T> {
    fn fmt(&self, f: &mut fmt::Formatter<'_>) -> fmt::Result {
        f.debug_struct("Walk").finish_non_exhaustive()
    }
}

/// An iterator over rows whose number is known, and that can always be read: the sections of an image,
/// and the base relocations of a block.
#[derive(Clone)]
#[must_use = "iterators do nothing unless they are consumed"]
pub struct Rows<'a, T: Listed<'a>> {
    table: T::Table,
    front: usize,
    back: usize,
}

impl<'a, T: Listed<'a>> Rows<'a, T> {
    pub(crate) const fn of(table: T::Table, count: usize) -> Rows<'a, T> {
        Rows {
            table,
            front: 0,
            back: count,
        }
    }

    fn left(&self) -> usize {
        self.back - self.front
    }
}

impl<'a, T: Listed<'a>> Iterator for Rows<'a, T> {
    type Item = T;

    fn next(&mut self) -> Option<T> {
        self.nth(0)
    }

    fn size_hint(&self) -> (usize, Option<usize>) {
        (self.left(), Some(self.left()))
    }

    fn nth(&mut self, index: usize) -> Option<T> {
        let at = self.front.saturating_add(index).min(self.back);
        self.front = self.back.min(at + 1);
        (at < self.back).then(|| T::at(&mut self.table, at))
    }
}

impl<'a, T: Listed<'a>> DoubleEndedIterator for Rows<'a, T> {
    fn next_back(&mut self) -> Option<T> {
        if self.left() == 0 {
            return None;
        }
        self.back -= 1;
        Some(T::at(&mut self.table, self.back))
    }
}

impl<'a, T: Listed<'a>> ExactSizeIterator for Rows<'a, T> {}
impl<'a, T: Listed<'a>> FusedIterator for Rows<'a, T> {}

impl<'a, T: Listed<'a>> fmt::Debug for Rows<'a, T> {
    fn fmt(&self, f: &mut fmt::Formatter<'_>) -> fmt::Result {
        f.debug_struct("Rows").finish_non_exhaustive()
    }
}

/// A row of a table. You can't implement this trait; it lists what can be walked over.
pub trait Row<'a>: Walked<'a> {}

impl<'a, T: Walked<'a>> Row<'a> for T {}

pub use sealed::{Listed, Walked};

// (these are `pub`, but nobody outside of the crate can name them)
mod sealed {
    use crate::ffi;
    use crate::image::{Image, Table};

    /// What a table is walked by.
    pub trait Walked<'a>: Sized {
        /// The record of a row.
        type Record: Copy;
        /// Where a walk is.
        type Cursor: Copy + Default;
        /// The table, for its errors.
        const TABLE: Table;
        /// Whether the call counts steps. If not, a row is a step.
        const COUNTS_STEPS: bool = false;

        /// Reads the next records.
        ///
        /// # Safety
        /// There is room for this many records.
        unsafe fn next(
            image: &ffi::Image<'a>,
            cursor: &mut Self::Cursor,
            rows: *mut Self::Record,
            room: usize,
            steps: &mut usize,
            batch: &mut ffi::Batch,
        ) -> ffi::Fault;

        /// The row of a record.
        fn of(record: &Self::Record, image: &Image<'a>) -> Self;
    }

    /// What a row is read by, where all can be read.
    pub trait Listed<'a>: Sized {
        /// What the rows lie in.
        type Table: Copy;

        /// The row at an index, which is there.
        fn at(table: &mut Self::Table, index: usize) -> Self;
    }
}
