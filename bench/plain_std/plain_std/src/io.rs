//! Reading and writing.

use crate::rt::HostRuntime;

pub use std::io::*;

/// What has a standard output.
pub trait Print {}

impl Print for HostRuntime {}

/// The standard output of a runtime.
pub struct Printer<'a, R>(#[allow(dead_code)] &'a R, Stdout);

impl<R: Print> Write for Printer<'_, R> {
    fn write(&mut self, bytes: &[u8]) -> Result<usize> {
        self.1.write(bytes)
    }

    fn flush(&mut self) -> Result<()> {
        self.1.flush()
    }
}

pub fn writer<R: Print>(rt: &R) -> Printer<'_, R> {
    Printer(rt, stdout())
}
