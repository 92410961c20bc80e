//! `export.rs` built against the published sources, under the paths that it has within jscd; and code caches, from their first byte on.

pub use jscd::{bytecode, disasm, header, serializer, tables};

pub mod cache;
pub mod export;
pub mod version;
