//! The published Rust as an oracle over document 01's record files, with document 02's opcode records.
//!
//! records: the eight files. port: files into the Rust's own structures. decode: its decoder, with
//! document 01's numbers. checks: the refusals that the Rust does not have. flows: what an opcode does, by
//! its record. switches: tables of switches, by V8's rule where the Rust has none. convert: opcode records
//! of 64 bytes to 72 and back, with vectors in convert_recording. flow_cases: opcodes whose flow is not
//! that of their name. ask: the answer of one function. vectors: answers as a file. sample, cases: document 01's sample and rows. recording:
//! vectors from a seed, out of stores (random ones and their boundaries) and faults, by classes.
//! code_recording: the same for instructions, out of codes, by the classes in instructions.
//! list_recording, jump_recording: the same for whole listings, and for targets and numbers in slots,
//! out of lists. named: listings with a name. v8, v8_lists: what V8 printed, as vectors.
//! real: the same functions as record files. walks: the walk check from document 01, with vectors
//! in walk_*. handlers: handler records from document 02, with vectors in handler_recording, by
//! handler_classes, and walk_tries. programs: what the programs are run on. header_recording: headers.
//! printed: what V8 prints. caches: functions of real code caches beside it.
//! entry_recording: entries of switches. slot_recording: slot records. writes: writing an
//! instruction, from document 02, with vectors in write_recording, out of write_cases. wrong: recorded calls with one
//! thing changed in each answer.

pub mod ask;
pub mod caches;
pub mod cases;
pub mod checks;
pub mod classes;
pub mod code_recording;
pub mod codes;
pub mod convert;
pub mod convert_recording;
pub mod decode;
pub mod entry_recording;
pub mod faults;
pub mod flow_cases;
pub mod flows;
pub mod handler_classes;
pub mod handler_recording;
pub mod handlers;
pub mod header_recording;
pub mod instructions;
pub mod jump_recording;
pub mod list_recording;
pub mod lists;
pub mod named;
pub mod port;
pub mod printed;
pub mod programs;
pub mod random;
pub mod real;
pub mod recording;
pub mod records;
pub mod sample;
pub mod slot_recording;
pub mod stores;
pub mod switches;
pub mod v8;
pub mod v8_lists;
pub mod vectors;
pub mod walk_classes;
pub mod walk_codes;
pub mod walk_recording;
pub mod walk_short;
pub mod walk_tries;
pub mod walk_v8;
pub mod walks;
pub mod write_cases;
pub mod write_recording;
pub mod writes;
pub mod wrong;
