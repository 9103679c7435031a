//! Texts.

use crate::alloc::{AllocError, Global};
use std::fmt;
use std::ops::Deref;

/// A text of Rust, whose calls that take memory answer a result.
#[derive(Clone, Debug, PartialEq, Eq, PartialOrd, Ord)]
pub struct String(pub std::string::String);

impl String {
    pub fn new(_: Global) -> String {
        String(std::string::String::new())
    }

    pub fn from_str(_: Global, text: &str) -> Result<String, AllocError> {
        Ok(String(text.into()))
    }

    pub fn as_str(&self) -> &str {
        &self.0
    }

    pub fn push_str(&mut self, text: &str) -> Result<(), AllocError> {
        self.0.push_str(text);
        Ok(())
    }
}

impl Deref for String {
    type Target = str;

    fn deref(&self) -> &str {
        &self.0
    }
}

impl fmt::Display for String {
    fn fmt(&self, f: &mut fmt::Formatter<'_>) -> fmt::Result {
        f.write_str(&self.0)
    }
}
