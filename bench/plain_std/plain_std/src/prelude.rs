//! The names that every module has.

pub use crate::rt::HostRuntime;
pub use crate::io::Print;
pub use crate::string::String;
pub use crate::vec::{ToList, Vec};
pub use crate::{prove, prove_eq, prove_ne, vec};

/// Every type may be dropped.
pub trait Drop {}

impl<T: ?Sized> Drop for T {}
