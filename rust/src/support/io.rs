//! Readers and writers: Rust's.

#[allow(unused_imports)]
pub use std::io::{Error, ErrorKind, Result, Write};

/// A reader whose rest goes into a vector that asks for memory by name.
pub trait Read {
    fn read_to_end(&mut self, to: &mut super::vec::Vec<u8>) -> Result<usize>;
}

impl<R: std::io::Read> Read for R {
    fn read_to_end(&mut self, to: &mut super::vec::Vec<u8>) -> Result<usize> {
        to.read_from(self)
    }
}
