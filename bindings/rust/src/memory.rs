//! Memory that may be refused.

use crate::error::Error;

/// An empty vector with room for this many values.
pub fn room<T>(count: usize) -> Result<Vec<T>, Error> {
    let mut vector = Vec::new();
    match vector.try_reserve_exact(count) {
        Ok(()) => Ok(vector),
        Err(_) => Err(Error::memory(None)),
    }
}
