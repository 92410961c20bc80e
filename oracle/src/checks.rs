//! Refusals, written from document 01's table and document 02's Wish 6. The Rust has none of these but 11 to 15 (see decode).
//!
//! Each number is a row of its own, and a row goes over all lent files before the next begins.

use crate::flows;
use crate::port::{bit, Port};
use crate::records::*;
use crate::switches;
use jscd::bytecode::Instr;
use std::fmt;

#[derive(Debug, Clone, Copy, PartialEq, Eq)]
pub struct Refusal {
    pub number: u64,
    pub place: u64,
}

impl fmt::Display for Refusal {
    fn fmt(&self, f: &mut fmt::Formatter) -> fmt::Result {
        write!(f, "refused {} at {}", self.number, self.place)
    }
}

pub type Check = Result<(), Refusal>;

pub fn refuse<T>(number: u64, place: usize) -> Result<T, Refusal> {
    Err(Refusal { number, place: place as u64 })
}

pub fn expect(good: bool, number: u64, place: usize) -> Check {
    if good {
        Ok(())
    } else {
        refuse(number, place)
    }
}

pub const MOST_CODE: usize = 65_536;
pub const MOST_ENTRIES: i64 = 4_096;
pub const PROGRAM_FILE: usize = 65_536;
pub const PROGRAM_OUTPUT: usize = 65_536;
const MOST_SLOTS: u32 = 1_048_576;

// ---- table: 1 to 5, and 26 ----

/// Over those of files 0 to 4 that are in `lent`. Opcodes are lent with their types.
pub fn table(files: &Files, lent: u8) -> Check {
    rows(files, lent, OPCODE_SIZE)
}

/// The same where opcode records are those before Wish 6.
pub fn old_table(files: &Files, lent: u8) -> Check {
    rows(files, lent, OLD_OPCODE_SIZE)
}

/// Opcode records have so many bytes. 26 is met record by record with 3, behind it.
fn rows(files: &Files, lent: u8, opcode: usize) -> Check {
    let is_lent = |file: &usize| lent & bit(*file) != 0;
    let size = |file: usize| if file == OPCODES { opcode } else { SIZES[file] };
    for file in (OPCODES..=LAYOUT).filter(is_lent) {
        expect(whole(&files.body[file], file, size(file)), 1, 0)?;
    }
    for file in (OPCODES..LAYOUT).filter(is_lent) {
        let width = [40, 28, 64, 64][file];
        for (i, record) in files.body[file].chunks_exact(size(file)).enumerate() {
            expect(name_is_good(&record[..width]), 2, i)?;
        }
    }
    if is_lent(&OPCODES) {
        for (i, record) in files.body[OPCODES].chunks_exact(opcode).map(Opcode).enumerate() {
            expect(opcode_is_good(&record, files.count(TYPES)), 3, i)?;
            expect(record.flow().is_none_or(flows::is_good), 26, i)?;
        }
    }
    if is_lent(&TYPES) {
        for (i, record) in files.all(TYPES).map(Type).enumerate() {
            expect(type_is_good(&record, i), 4, i)?;
        }
    }
    if is_lent(&LAYOUT) {
        for value in 0..20 {
            expect(layout_is_good(value, files.layout(value)), 5, value)?;
        }
    }
    Ok(())
}

/// Whether the contents of a file are whole records of this size, and as many as there may be.
fn whole(body: &[u8], file: usize, size: usize) -> bool {
    let (least, most) = [(1, 256), (17, 64), (0, 1_024), (0, 256), (1, 1)][file];
    body.len() % size == 0 && (least..=most).contains(&(body.len() / size))
}

fn name_is_good(field: &[u8]) -> bool {
    let length = field.iter().take_while(|b| b.is_ascii_alphanumeric() || **b == b'_').count();
    length >= 1 && field[length..].iter().all(|b| *b == 0)
}

fn opcode_is_good(record: &Opcode, types: usize) -> bool {
    let count = record.operands();
    record.prefix() <= 2
        && count <= 8
        && record.codes()[..count].iter().all(|c| (*c as usize) < types)
        && record.codes()[count..].iter().all(|c| *c == 0)
        && record.rest().iter().all(|b| *b == 0)
}

fn type_is_good(record: &Type, number: usize) -> bool {
    let name = name(record.name());
    let name_fits = match TYPE_NAMES.get(number) {
        Some(wanted) => name == *wanted,
        None => !TYPE_NAMES.contains(&name.as_str()),
    };
    let width_fits = match record.present() {
        0 => record.size() == 0 && record.scalable() == 0,
        1 => matches!((record.size(), record.scalable()), (1 | 2, 0 | 1) | (4, 0)),
        _ => false,
    };
    name_fits && width_fits && record.rest() == 0
}

fn layout_is_good(value: usize, is: u32) -> bool {
    match value {
        0 => is == 4 || is == 8,
        1 => is == 0 || is == 4 || is == 8,
        2 => is <= 65_535,
        3..=11 => is <= 65_535 || is == ABSENT,
        12 | 18 => is <= 1,
        13..=17 => true,
        _ => is == 0,
    }
}

// ---- store: 6 and 7 ----

/// Over files 5 to 7. `most` is a bound on the length of each file (the programs have one).
pub fn store(files: &Files, most: usize) -> Check {
    let limits = [(OBJECTS, 65_536), (SLOTS, MOST_SLOTS as usize), (PAYLOAD, 16_777_216)];
    for (file, records) in limits {
        let length = files.body[file].len();
        let good = length % SIZES[file] == 0 && files.count(file) <= records && length <= most;
        expect(good, 6, 0)?;
    }
    for (i, record) in files.all(OBJECTS).enumerate() {
        expect(object_is_good(record, files.count(SLOTS)), 7, i)?;
    }
    let falls = falling(files);
    for (i, record) in files.all(SLOTS).enumerate() {
        expect(slot_is_good(record, files) && !falls[i], 7, i)?;
    }
    Ok(())
}

fn object_is_good(record: &[u8], slots: usize) -> bool {
    let object = Object::read(record);
    let end = object.first as usize + object.count as usize;
    object.kind <= 2
        && object.raw_len <= 1
        && record[2..4] == [0, 0]
        && (object.count == 0 || end <= slots)
}

fn slot_is_good(record: &[u8], files: &Files) -> bool {
    let slot = Slot::read(record);
    let fields = match slot.kind {
        0..=4 => slot.inner == 0 && slot.count == 0 && value_is_good(&slot, slot.kind, files),
        5 => slot.count <= MOST_SLOTS && value_is_good(&slot, slot.inner, files),
        _ => false,
    };
    slot.index <= MOST_SLOTS && record[6..8] == [0; 2] && record[20..] == [0; 4] && fields
}

/// Number and length of a value of this kind, which is not a repeat.
fn value_is_good(slot: &Slot, kind: u8, files: &Files) -> bool {
    match kind {
        0 | 2 | 3 => slot.number == 0 && slot.length == 0,
        1 => (slot.number as usize) < files.count(OBJECTS) && slot.length == 0,
        4 => slot.number as usize + slot.length as usize <= files.body[PAYLOAD].len(),
        _ => false,
    }
}

/// The slots whose index is below that of the slot before, where some object holds both.
fn falling(files: &Files) -> Vec<bool> {
    let count = files.count(SLOTS);
    let mut change = vec![0i64; count + 1];
    for object in files.all(OBJECTS).map(Object::read).filter(|o| o.count > 1) {
        change[object.first as usize + 1] += 1;
        change[(object.first + object.count) as usize] -= 1;
    }
    let index = |i| u32_at(files.record(SLOTS, i), 0);
    let mut holders = 0;
    (0..count)
        .map(|i| {
            holders += change[i];
            holders > 0 && index(i) < index(i - 1)
        })
        .collect()
}

// ---- object: 8 and 9 ----

/// The object's number, where it is there.
pub fn object(files: &Files, number: u64) -> Result<usize, Refusal> {
    match usize::try_from(number) {
        Ok(n) if n < files.count(OBJECTS) => Ok(n),
        _ => refuse(8, 0),
    }
}

/// The same for an object whose header or code is wanted.
pub fn function(files: &Files, number: u64) -> Result<usize, Refusal> {
    let n = object(files, number)?;
    expect(Object::read(files.record(OBJECTS, n)).kind == 1, 8, 0)?;
    Ok(n)
}

pub fn code_length(length: i64) -> Check {
    expect((0..=MOST_CODE as i64).contains(&length), 9, 0)
}

// ---- code: 10 and 20 (11 to 15 are in decode) ----

pub fn lent_code(code: &[u8]) -> Check {
    expect(code.len() <= MOST_CODE, 10, 0)
}

/// 20 has the start place as its place, however large that is.
pub fn start(code: &[u8], place: u64) -> Result<usize, Refusal> {
    if place > code.len() as u64 {
        return Err(Refusal { number: 20, place });
    }
    Ok(place as usize)
}

// ---- switch: 16 ----

/// Of a switch under a prefix too (Wish 1), and of each opcode whose flow is 5 (Wish 6). `function` is the object whose pool is meant.
pub fn switch(port: &Port, function: usize, ins: &Instr) -> Check {
    match switches::table(port, ins) {
        Some(table) if port.pool(function).is_some() => {
            expect((0..=MOST_ENTRIES).contains(&table.count), 16, ins.offset)
        }
        _ => Ok(()),
    }
}

// ---- output: 17 ----

pub fn output(length: usize, room: usize) -> Check {
    expect(length <= room, 17, 0)
}

#[cfg(test)]
mod tests {
    use super::*;
    use crate::port::TABLE;
    use crate::sample;

    /// The sample with one byte changed, and what the checks say.
    fn changed(file: usize, at: usize, byte: u8) -> Check {
        let mut files = sample::sample();
        files.body[file][at] = byte;
        table(&files, TABLE)?;
        store(&files, PROGRAM_FILE)
    }

    fn cut(file: usize, length: usize) -> Check {
        let mut files = sample::sample();
        files.body[file].resize(length, 0);
        table(&files, TABLE)?;
        store(&files, PROGRAM_FILE)
    }

    #[test]
    fn the_sample_is_good() {
        assert_eq!(table(&sample::sample(), TABLE), Ok(()));
        assert_eq!(store(&sample::sample(), PROGRAM_FILE), Ok(()));
    }

    #[test]
    fn sizes() {
        assert_eq!(cut(OPCODES, 0), refuse(1, 0));
        assert_eq!(cut(OPCODES, OPCODE_SIZE - 1), refuse(1, 0));
        assert_eq!(cut(TYPES, 16 * 32), refuse(1, 0));
        assert_eq!(cut(LAYOUT, 160), refuse(1, 0));
        assert_eq!(cut(RUNTIME, 64), refuse(2, 0));
        assert_eq!(cut(OBJECTS, 17), refuse(6, 0));
        assert_eq!(cut(PAYLOAD, 65_537), refuse(6, 0));
        assert_eq!(cut(PAYLOAD, 50), refuse(7, 0));
    }

    #[test]
    fn names() {
        assert_eq!(changed(OPCODES, OPCODE_SIZE, b'.'), refuse(2, 1));
        assert_eq!(changed(OPCODES, 2 * OPCODE_SIZE + 39, b'a'), refuse(2, 2));
        assert_eq!(changed(OPCODES, 3 * OPCODE_SIZE, b'7'), Ok(()));
        assert_eq!(changed(TYPES, 3 * 32, 0), refuse(2, 3));
        assert_eq!(changed(TYPES, 3 * 32, b'S'), refuse(4, 3));
    }

    #[test]
    fn a_row_goes_over_all_files() {
        let mut files = sample::sample();
        files.body[OPCODES][40] = 3;
        files.body[TYPES][32] = b'-';
        assert_eq!(table(&files, TABLE), refuse(2, 1));
        assert_eq!(table(&files, bit(LAYOUT)), Ok(()));
    }

    #[test]
    fn opcodes_and_types() {
        assert_eq!(changed(OPCODES, 3 * OPCODE_SIZE + 40, 3), refuse(3, 3));
        assert_eq!(changed(OPCODES, 3 * OPCODE_SIZE + 41, 9), refuse(3, 3));
        assert_eq!(changed(OPCODES, 3 * OPCODE_SIZE + 41, 0), refuse(3, 3));
        assert_eq!(changed(OPCODES, 3 * OPCODE_SIZE + 42, 17), refuse(3, 3));
        assert_eq!(changed(OPCODES, 3 * OPCODE_SIZE + 71, 1), refuse(3, 3));
        assert_eq!(changed(TYPES, 5 * 32 + 28, 4), refuse(4, 5));
        assert_eq!(changed(TYPES, 5 * 32 + 28, 2), Ok(()));
        assert_eq!(changed(TYPES, 15 * 32 + 28, 4), Ok(()));
        assert_eq!(changed(TYPES, 5 * 32 + 30, 0), refuse(4, 5));
        assert_eq!(changed(TYPES, 5 * 32 + 31, 1), refuse(4, 5));
    }

    #[test]
    fn higher_types() {
        let with = |name: &str| {
            let mut files = sample::sample();
            files.body[TYPES].extend(type_record(name, 4, false));
            table(&files, TABLE)
        };
        assert_eq!(with("Extra"), Ok(()));
        assert_eq!(with("Idx"), refuse(4, 17));
    }

    #[test]
    fn layout_values() {
        for (value, byte, good) in [(0, 5, false), (1, 8, true), (1, 6, false), (12, 2, false)] {
            let wanted = if good { Ok(()) } else { refuse(5, value) };
            assert_eq!(changed(LAYOUT, 4 * value, byte), wanted, "value {value}");
        }
        assert_eq!(changed(LAYOUT, 4 * 2 + 2, 1), refuse(5, 2));
        assert_eq!(changed(LAYOUT, 4 * 13, 0), Ok(()));
        assert_eq!(changed(LAYOUT, 4 * 19, 1), refuse(5, 19));
    }

    #[test]
    fn objects_and_slots() {
        assert_eq!(changed(OBJECTS, 0, 3), refuse(7, 0));
        assert_eq!(changed(OBJECTS, 8, 2), refuse(7, 0));
        assert_eq!(changed(OBJECTS, 4, 1), refuse(7, 0));
        assert_eq!(changed(SLOTS, 5, 1), refuse(7, 0));
        assert_eq!(changed(SLOTS, 12, 52), refuse(7, 0));
        assert_eq!(changed(SLOTS, 16, 1), refuse(7, 0));
        assert_eq!(changed(SLOTS, 20, 1), refuse(7, 0));
        assert_eq!(changed(SLOTS, 4, 1), refuse(7, 0));
    }

    /// Slots of indices 1, 2, 1 and objects that hold (first, count) of them.
    fn with_slots(objects: &[(u32, u32)]) -> Check {
        let mut files = sample::table();
        for index in [1, 2, 1] {
            files.body[SLOTS].extend(Slot { index, ..Slot::default() }.bytes());
        }
        for (first, count) in objects {
            let object = Object { first: *first, count: *count, ..Object::default() };
            files.body[OBJECTS].extend(object.bytes());
        }
        store(&files, PROGRAM_FILE)
    }

    #[test]
    fn falling_indices() {
        assert_eq!(with_slots(&[(0, 2), (2, 1)]), Ok(()));
        assert_eq!(with_slots(&[(0, 2), (1, 2)]), refuse(7, 2));
        assert_eq!(with_slots(&[(9, 0), (0, 3)]), refuse(7, 2));
        assert_eq!(with_slots(&[(0, 3), (1, 3)]), refuse(7, 1));
    }

    #[test]
    fn object_code_output() {
        let mut files = sample::sample();
        assert_eq!(function(&files, 0), Ok(0));
        assert_eq!(object(&files, 1), refuse(8, 0));
        files.body[OBJECTS][0] = 2;
        assert_eq!(object(&files, 0), Ok(0));
        assert_eq!(function(&files, 0), refuse(8, 0));
        assert_eq!(code_length(65_536), Ok(()));
        assert_eq!(code_length(65_537), refuse(9, 0));
        assert_eq!(code_length(-1), refuse(9, 0));
        assert_eq!(lent_code(&[0; 65_537]), refuse(10, 0));
        assert_eq!(start(&[1, 2], 2), Ok(2));
        assert_eq!(start(&[1, 2], 3), refuse(20, 3));
        assert_eq!(output(10, 10), Ok(()));
        assert_eq!(output(11, 10), refuse(17, 0));
    }
}
