//! The runtime.

use crate::alloc::Global;

pub use crate::fs::Files;

/// The runtime of the program: its files, its report and its threads.
#[derive(Clone, Copy, Debug)]
pub struct HostRuntime;

impl HostRuntime {
    pub fn alloc(&self) -> Global {
        Global
    }
}

impl crate::thread::Threads for HostRuntime {}
