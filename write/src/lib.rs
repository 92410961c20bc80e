//! Bytecode from lines as a listing has them, by the proved writer of the archive.
//!
//! table: the record files of a table, and its names. registers: their names in a listing. operands: one operand's
//! text. lines: what stands in a line. program: lines in, bytes out, or what is wrong with which line.
//!
//! Every byte comes from `jscd_capi::write`. What is here only finds the numbers that a text stands for.

pub mod lines;
pub mod operands;
pub mod program;
pub mod registers;
pub mod table;
