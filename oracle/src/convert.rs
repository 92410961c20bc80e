//! Opcode records as document 01 has them, 64 bytes, into those of document 02's Wish 6, 72 bytes, and back. Both are lent opcodes and
//! types, and make the table's checks of these.

use crate::checks::{self, expect, Check, Refusal};
use crate::flows;
use crate::records::*;

/// The files that a conversion is lent.
pub const LENT: u8 = 1 << OPCODES | 1 << TYPES;

/// To 72 bytes, into a buffer of so many.
pub fn to_new(files: &Files, room: u64) -> Result<Vec<u8>, Refusal> {
    checks::old_table(files, LENT)?;
    fits(new_opcodes(&files.body[OPCODES]), room)
}

/// To 64 bytes, into a buffer of so many. 27 comes behind the table's checks.
pub fn to_old(files: &Files, room: u64) -> Result<Vec<u8>, Refusal> {
    checks::table(files, LENT)?;
    has_named_flows(files)?;
    fits(old_opcodes(&files.body[OPCODES]), room)
}

/// 27: the first record whose name would give other bytes.
fn has_named_flows(files: &Files) -> Check {
    for (i, record) in files.all(OPCODES).map(Opcode).enumerate() {
        let of_name = flows::of_name(&name(record.name()));
        expect(record.flow() == Some(of_name), 27, i)?;
    }
    Ok(())
}

fn fits(file: Vec<u8>, room: u64) -> Result<Vec<u8>, Refusal> {
    expect(file.len() as u64 <= room, 17, 0)?;
    Ok(file)
}

/// Records of 64 bytes as records of 72: the first 50 bytes, the flow of the name, and zeros.
pub fn new_opcodes(old: &[u8]) -> Vec<u8> {
    let record = |old: &[u8]| {
        let mut new = old[..FLOW].to_vec();
        new.extend(flows::of_name(&name(Opcode(old).name())));
        new.resize(OPCODE_SIZE, 0);
        new
    };
    old.chunks_exact(OLD_OPCODE_SIZE).flat_map(record).collect()
}

/// Records of 72 bytes as records of 64: the first 50 bytes, and zeros.
pub fn old_opcodes(new: &[u8]) -> Vec<u8> {
    let record = |new: &[u8]| {
        let mut old = new[..FLOW].to_vec();
        old.resize(OLD_OPCODE_SIZE, 0);
        old
    };
    new.chunks_exact(OPCODE_SIZE).flat_map(record).collect()
}

/// Table files as a folder has them: good opcode records of 64 bytes become records of 72. A good file is of one kind alone: 8 of
/// the 72 bytes are zeros, where the next name of 64-byte records would begin.
pub fn loaded(mut files: Files) -> Files {
    if checks::old_table(&files, LENT).is_ok() {
        files.body[OPCODES] = new_opcodes(&files.body[OPCODES]);
    }
    files
}

#[cfg(test)]
mod tests {
    use super::*;
    use crate::checks::refuse;
    use crate::sample;

    fn old_sample() -> Files {
        let mut files = sample::table();
        files.body[OPCODES] = old_opcodes(&files.body[OPCODES]);
        files
    }

    #[test]
    fn there_and_back() {
        let (old, new) = (old_sample(), sample::table());
        assert_eq!(old.body[OPCODES].len(), 12 * 64);
        assert_eq!(to_new(&old, 12 * 72).as_ref(), Ok(&new.body[OPCODES]));
        assert_eq!(to_old(&new, 12 * 64).as_ref(), Ok(&old.body[OPCODES]));
        assert_eq!(to_new(&old, 12 * 72 - 1), refuse(17, 0));
        assert_eq!(to_old(&new, 12 * 64 - 1), refuse(17, 0));
        let switch = &new.body[OPCODES][9 * 72..10 * 72];
        assert_eq!(
            switch[50..],
            [5, 0, 0, 1, 0, 0, 0, 0, 0, 0, 0, 0, 0, 0, 0, 0, 0, 0, 0, 0, 0, 0]
        );
        // 768 is no multiple of 72, and 864 none of 64.
        assert_eq!(to_old(&old, 9_999), refuse(1, 0));
        assert_eq!(to_new(&new, 9_999), refuse(1, 0));
    }

    #[test]
    fn order() {
        let mut files = sample::table();
        files.body[OPCODES][4 * 72 + 52] = 1;
        files.body[OPCODES][3 * 72 + 53] = 1;
        assert_eq!(to_old(&files, 0), refuse(27, 3));
        files.body[TYPES][31] = 1;
        assert_eq!(to_old(&files, 0), refuse(4, 0));
        files.body[OPCODES][5 * 72 + 53] = 2;
        assert_eq!(to_old(&files, 0), refuse(26, 5));
        files.body[OPCODES][6 * 72 + 54] = 2;
        assert_eq!(to_old(&files, 0), refuse(26, 5));
        files.body[OPCODES][5 * 72 + 71] = 2;
        assert_eq!(to_old(&files, 0), refuse(3, 5));
    }

    /// A folder's table is converted where it has records of 64 bytes, and is else as it is.
    #[test]
    fn a_folder_of_either_size() {
        assert_eq!(loaded(old_sample()), sample::table());
        assert_eq!(loaded(sample::table()), sample::table());
    }
}
