//! Files.

use crate::rt::HostRuntime;
use std::io;

pub use std::fs::Metadata;

/// What opens and creates files.
pub trait Files {
    type File: OpenFile;

    fn open(&self, name: &str) -> io::Result<Self::File>;

    fn create(&self, name: &str) -> io::Result<Self::File>;

    fn metadata(&self, name: &str) -> io::Result<Metadata>;
}

/// A file that is open.
pub trait OpenFile: io::Read + io::Write {
    fn metadata(&self) -> io::Result<Metadata>;
}

impl OpenFile for std::fs::File {
    fn metadata(&self) -> io::Result<Metadata> {
        std::fs::File::metadata(self)
    }
}

impl Files for HostRuntime {
    type File = std::fs::File;

    fn open(&self, name: &str) -> io::Result<Self::File> {
        std::fs::File::open(name)
    }

    fn create(&self, name: &str) -> io::Result<Self::File> {
        std::fs::File::create(name)
    }

    fn metadata(&self, name: &str) -> io::Result<Metadata> {
        std::fs::metadata(name)
    }
}

pub fn open<R: Files>(rt: &R, name: &str) -> io::Result<R::File> {
    rt.open(name)
}

pub fn create<R: Files>(rt: &R, name: &str) -> io::Result<R::File> {
    rt.create(name)
}

pub fn metadata<R: Files>(rt: &R, name: &str) -> io::Result<Metadata> {
    rt.metadata(name)
}
