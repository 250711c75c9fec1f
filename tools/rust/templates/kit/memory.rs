//! Lists and texts whose growth returns a result: memory may be refused.

use alloc::vec::Vec;
use core::fmt;

/// Memory was refused.
#[derive(Clone, Copy, Debug, PartialEq, Eq)]
pub struct AllocError;

impl fmt::Display for AllocError {
    fn fmt(&self, f: &mut fmt::Formatter<'_>) -> fmt::Result {
        f.write_str("memory")
    }
}

impl core::error::Error for AllocError {}

/// Memory was refused, and the call returns the value that it took.
#[derive(Debug)]
pub struct AllocFailed<T> {
    /// The value.
    pub value: T,
}

/// Returns an empty list with room for a number of items.
pub fn with_capacity<T>(count: usize) -> Result<Vec<T>, AllocError> {
    let mut list = Vec::new();
    list.try_reserve_exact(count).map_err(|_| AllocError)?;
    Ok(list)
}

/// Returns a list with an item a number of times.
pub fn filled<T: Clone>(item: T, count: usize) -> Result<Vec<T>, AllocError> {
    let mut list = with_capacity(count)?;
    list.resize(count, item);
    Ok(list)
}

/// Returns a list of the items.
pub fn copied<T: Clone>(items: &[T]) -> Result<Vec<T>, AllocError> {
    let mut list = with_capacity(items.len())?;
    list.extend_from_slice(items);
    Ok(list)
}

/// Growth of a list by which it is unchanged if memory is refused.
pub trait Growth<T> {
    /// Adds an item at the end.
    fn try_push(&mut self, item: T) -> Result<(), AllocError>;

    /// Adds an item at a place.
    fn try_insert(&mut self, at: usize, item: T) -> Result<(), AllocError>;

    /// Adds items at the end.
    fn try_extend_from_slice(&mut self, items: &[T]) -> Result<(), AllocError>
    where
        T: Clone;
}

impl<T> Growth<T> for Vec<T> {
    #[inline]
    fn try_push(&mut self, item: T) -> Result<(), AllocError> {
        self.try_reserve(1).map_err(|_| AllocError)?;
        self.push(item);
        Ok(())
    }

    #[inline]
    fn try_insert(&mut self, at: usize, item: T) -> Result<(), AllocError> {
        self.try_reserve(1).map_err(|_| AllocError)?;
        self.insert(at, item);
        Ok(())
    }

    #[inline]
    fn try_extend_from_slice(&mut self, items: &[T]) -> Result<(), AllocError>
    where
        T: Clone,
    {
        self.try_reserve(items.len()).map_err(|_| AllocError)?;
        self.extend_from_slice(items);
        Ok(())
    }
}
