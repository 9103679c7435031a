//! The allocator, and that it refused.

/// The allocator of the program.
#[derive(Clone, Copy, Debug, PartialEq, Eq)]
pub struct Global;

/// There was no memory.
#[derive(Clone, Copy, Debug, PartialEq, Eq)]
pub struct AllocError;

/// There was no memory for this value.
#[derive(Clone, Copy, Debug, PartialEq, Eq)]
pub struct AllocFailed<T>(pub T);

impl<T> From<AllocFailed<T>> for AllocError {
    fn from(_: AllocFailed<T>) -> AllocError {
        AllocError
    }
}
