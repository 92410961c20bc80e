//! The published files as a library, with stubs for what they name and is not published.
//! No answer that the oracle gives comes out of a stub.
#![allow(dead_code, unused)]

// header.rs names a crate `brotli`; its one type is the stub at the end of this file.
extern crate self as brotli;

pub mod bytecode;
pub mod decompile;
pub mod disasm;
pub mod header;
pub mod serializer;
pub mod tables;
pub mod vhash;

/// Messages in two languages: the English one.
#[macro_export]
macro_rules! bi {
    ($en:expr, $other:expr) => {
        $en
    };
}

/// Gives no data, so that a compressed file is an error.
pub struct Decompressor;

impl Decompressor {
    pub fn new(_data: &[u8], _buffer: usize) -> Self {
        Decompressor
    }
}

impl std::io::Read for Decompressor {
    fn read(&mut self, _buf: &mut [u8]) -> std::io::Result<usize> {
        Ok(0)
    }
}
