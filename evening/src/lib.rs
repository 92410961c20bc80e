//! The evening batch: every function of an exported folder, listed and walked by the proved archive in one process.
//!
//! arguments: the command line. input: the folder that is read. check: one function's listing and walk. answer: how it is
//! told, as a line and as JSON. output: the folder that is written, each file whole or not at all. interrupt: signals, and what they
//! must not leave. limits: how many threads there can be. run: the threads, the lines in their order, the summary. page: the functions as one page for a browser.
//!
//! Every listing and every answer comes from `jscd_capi`. What is here only reads, writes and counts.

pub mod answer;
pub mod arguments;
pub mod check;
pub mod input;
pub mod interrupt;
pub mod limits;
pub mod output;
pub mod page;
pub mod run;
