//! The words of the program.

use crate::alloc::{AllocError, Global};
use crate::string::String;
use crate::vec::Vec;
use std::io::Result;

/// The words of the program, its name first.
pub struct Args(std::vec::IntoIter<std::string::String>);

/// The words that are left.
pub struct Rest(std::vec::IntoIter<std::string::String>);

pub fn args<R>(_: &R) -> Result<Args> {
    let words: Option<std::vec::Vec<_>> = std::env::args_os().map(|word| word.into_string().ok()).collect();
    match words {
        Some(words) => Ok(Args(words.into_iter())),
        None => Err(std::io::ErrorKind::InvalidData.into()),
    }
}

impl Args {
    pub fn skip(mut self, count: usize) -> Rest {
        for _ in 0..count {
            self.0.next();
        }
        Rest(self.0)
    }
}

impl Rest {
    pub fn collect(self, _: Global) -> std::result::Result<Vec<String>, AllocError> {
        Ok(Vec(self.0.map(String).collect()))
    }
}
