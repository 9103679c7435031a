//! What the sources use of the toolchain's `std`, over Rust's. Memory is never refused: where there is none, the program ends.

pub mod alloc;
pub mod collections;
pub mod env;
pub mod fs;
pub mod io;
pub mod lists;
pub mod prelude;
pub mod rt;
pub mod string;
pub mod tally;
pub mod thread;
pub mod vec;

pub use std::{
    any, array, ascii, borrow, cell, char, cmp, convert, error, fmt, hash, hint, iter, mem, num, ops, option, os, process, ptr, result,
    slice, str, sync, time,
};

/// Marks that contracts read.
pub mod marker {
    pub use std::marker::*;

    /// What a contract sees of a type.
    pub trait Model {}

    /// A type that each call picks.
    pub struct Brand;
}
