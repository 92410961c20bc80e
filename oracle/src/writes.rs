//! Writing one instruction, from document 02's Wish 2: table, scale, opcode and operands in, bytes out. The Rust has no
//! writer; the tests hold what is written here to what the Rust reads of it.

use crate::checks::{refuse, Refusal};
use crate::codes::{marked, width_of};
use crate::records::*;

/// An instruction's numbers, as `jscd_decode` tells them for C: opcode, scale, end, count, then kind, first and second
/// number of each of eight operands. The kinds are those of a recorded decode and one more; 0 is no operand.
pub const NUMBERS: usize = 28;

/// The longest instruction: prefix, opcode, and eight lists, each with its count, at width 8.
pub const LONGEST: usize = 2 + 8 * 16;

/// Kind, first and second number of an operand.
type Told<'a> = &'a [u64];

/// An instruction's bytes, by a table that has passed its check, where they fit into so many. `end` is not read, nor
/// are operands behind the count.
pub fn write(files: &Files, numbers: &[u64], room: u64) -> Result<Vec<u8>, Refusal> {
    let [opcode, scale, _, count] = [0, 1, 2, 3].map(|k| numbers[k]);
    let mut out = prefix(files, scale)?;
    out.push(known_opcode(files, scale, opcode)?);
    let codes = operand_codes(files, out[out.len() - 1]);
    if count != codes.len() as u64 {
        return refuse(23, 0);
    }
    for (code, told) in codes.into_iter().zip(numbers[4..].chunks_exact(3)) {
        match operand(files, scale as usize, code, told) {
            Some(bytes) => out.extend(bytes),
            None => return refuse(23, 0),
        }
    }
    match room < out.len() as u64 {
        true => refuse(17, 0),
        false => Ok(out),
    }
}

/// Row 21: the prefix byte of a scale, if it has one.
fn prefix(files: &Files, scale: u64) -> Result<Vec<u8>, Refusal> {
    let byte = match scale {
        1 => return Ok(Vec::new()),
        2 => marked(files, 1),
        4 => marked(files, 2),
        _ => None,
    };
    byte.map_or(refuse(21, 0), |byte| Ok(vec![byte]))
}

/// Row 22: an opcode that has a record; without a prefix, one that does not read as a prefix.
fn known_opcode(files: &Files, scale: u64, opcode: u64) -> Result<u8, Refusal> {
    let byte = match u8::try_from(opcode) {
        Ok(byte) if (byte as usize) < files.count(OPCODES) => byte,
        _ => return refuse(22, 0),
    };
    let prefixes = [marked(files, 1), marked(files, 2)];
    match scale == 1 && prefixes.contains(&Some(byte)) {
        true => refuse(22, 0),
        false => Ok(byte),
    }
}

/// The type codes that take an operand: a RegCount right behind a list takes none.
pub fn operand_codes(files: &Files, opcode: u8) -> Vec<u8> {
    let record = Opcode(files.record(OPCODES, opcode as usize));
    let mut out = Vec::new();
    let mut before = 0;
    for code in &record.codes()[..record.operands()] {
        if *code != REG_COUNT || !is_list(before) {
            out.push(*code);
        }
        before = *code;
    }
    out
}

const REG_COUNT: u8 = 8;

fn is_list(code: u8) -> bool {
    code == 6 || code == 7
}

/// The bytes of an operand of a type code; None (row 23) where its kind is another, or reading it back would change it.
fn operand(files: &Files, scale: usize, code: u8, told: Told) -> Option<Vec<u8>> {
    let width = width_of(files, code, scale);
    let [kind, first, second] = [told[0], told[1], told[2]];
    if kind != kind_of(code) {
        return None;
    }
    let stored = match code {
        0..=7 => signed(register(files, first)?, width)?,
        9 => signed(i32::try_from(first as i64).ok()?, width)?,
        13 => below(first, 8.min(8 * width))?,
        14 => below(first, 16.min(8 * width))?,
        8..=16 => below(first, 32.min(8 * width))?,
        _ if first == code as u64 => below(second, 8 * width)?,
        _ => return None,
    };
    let fits = match code {
        3 | 4 => second == 2,
        5 => second == 3,
        6 | 7 | 17.. => true,
        _ => second == 0,
    };
    let mut out = bytes(stored, width);
    if is_list(code) {
        let width = width_of(files, REG_COUNT, scale);
        out.extend(bytes(below(second, 32.min(8 * width))?, width));
    }
    fits.then_some(out)
}

/// The kind that a type code reads as.
pub fn kind_of(code: u8) -> u64 {
    match code {
        0..=2 => 1,
        3..=7 => 2,
        9 => 3,
        8 | 10..=12 => 4,
        13 => 5,
        14 => 6,
        15 => 7,
        16 => 8,
        _ => 9,
    }
}

/// The operand of a register: reading takes it from reg_file_start, modulo 2^32.
fn register(files: &Files, index: u64) -> Option<i32> {
    let index = i32::try_from(index as i64).ok()?;
    Some((files.layout(13) as i32).wrapping_sub(index))
}

/// A signed number as its low 32 bits, where so many bytes hold it.
fn signed(value: i32, width: usize) -> Option<u64> {
    let most = match width {
        1 => i8::MAX as i64,
        2 => i16::MAX as i64,
        _ => i32::MAX as i64,
    };
    (-most - 1..=most).contains(&(value as i64)).then_some(value as u32 as u64)
}

/// A number below 2^bits.
fn below(value: u64, bits: usize) -> Option<u64> {
    (bits == 64 || value < 1 << bits).then_some(value)
}

/// The least byte first; what is above the number is 0.
fn bytes(stored: u64, width: usize) -> Vec<u8> {
    stored.to_le_bytes()[..width].to_vec()
}

#[cfg(test)]
mod tests {
    use super::*;
    use crate::checks;
    use crate::decode;
    use crate::port::{Port, TABLE};
    use crate::sample;
    use crate::write_cases;
    use crate::write_recording::{each_decoded, numbers};
    use jscd::bytecode::Instr;
    use std::path::Path;

    const TABLE_LENT: u8 = 1 << OPCODES | 1 << TYPES | 1 << LAYOUT;

    /// What the Rust reads of bytes that stand within code: the instruction's numbers, with its own length as the end.
    fn read(files: &Files, bytes: &[u8]) -> Option<Vec<u64>> {
        let port = Port::new(files, TABLE_LENT).unwrap();
        let (before, behind) = (&[0x02, 0x55, 0x01][..], &[0xff, 0x00, 0x80][..]);
        let code = [before, bytes, behind].concat();
        let ins = decode::one(&port, &code, before.len()).ok()??;
        let mut out = numbers(files, &ins);
        out[2] -= before.len() as u64;
        Some(out)
    }

    /// Widths at most 4, Flag8 of 1 byte, Flag16 of at most 2, of all that an instruction uses.
    fn is_narrow(files: &Files, ins: &Instr) -> bool {
        let width = |code| width_of(files, code, ins.scale as usize);
        operand_codes(files, ins.opcode).into_iter().all(|code| match code {
            6 | 7 => width(code) <= 4 && width(REG_COUNT) <= 4,
            13 => width(code) == 1,
            14 => width(code) <= 2,
            _ => width(code) <= 4,
        })
    }

    /// Every instruction that is decoded in a recording: written again it is its bytes, or, where it is wide, reads as
    /// the same.
    #[test]
    fn what_was_decoded_is_written_again() {
        let folder = Path::new(env!("CARGO_MANIFEST_DIR")).join("recorded");
        let (mut equal, mut other) = (0, 0);
        for source in ["rows.vec", "code.vec", "v8.vec"] {
            let recorded = std::fs::read(folder.join(source)).unwrap();
            let all = each_decoded(&recorded, |files, ins| {
                let mut told = numbers(files, ins);
                told[2] = ins.bytes.len() as u64;
                let bytes = write(files, &told, LONGEST as u64).map_err(|r| r.to_string())?;
                match bytes == ins.bytes {
                    true => equal += 1,
                    false => other += 1,
                }
                assert!(bytes == ins.bytes || !is_narrow(files, ins), "{bytes:02x?} {ins:?}");
                assert_eq!(bytes.len(), ins.bytes.len());
                assert_eq!(read(files, &bytes), Some(told));
                Ok(())
            });
            assert!(all.unwrap() > 0);
        }
        assert!(equal > 10_000 && other > 50, "{equal} {other}");
    }

    /// The stored number as the wish says it, whatever type it is for.
    fn stored(files: &Files, told: Told) -> u64 {
        match told[0] {
            1 | 2 => (files.layout(13) as u64).wrapping_sub(told[1]) as u32 as u64,
            3 => told[1] as u32 as u64,
            9 => told[2],
            _ => told[1],
        }
    }

    /// Bytes for these operands with no test of them: the low bytes of each stored number.
    fn untested(files: &Files, told: &[u64]) -> Vec<u8> {
        let (opcode, scale) = (told[0] as u8, told[1]);
        let mut out = prefix(files, scale).unwrap();
        out.push(opcode);
        for (code, told) in operand_codes(files, opcode).into_iter().zip(told[4..].chunks(3)) {
            out.extend(bytes(stored(files, told), width_of(files, code, scale as usize)));
            if is_list(code) {
                out.extend(bytes(told[2], width_of(files, REG_COUNT, scale as usize)));
            }
        }
        out
    }

    /// Number 23 is just where the Rust reads other operands, or another number of them, out of the bytes.
    #[test]
    fn what_is_refused_reads_back_changed() {
        let mut seen = [0, 0];
        for case in write_cases::cases() {
            if checks::table(&case.files, TABLE_LENT).is_err() {
                continue;
            }
            let said = write(&case.files, &case.numbers, u64::MAX);
            if said.as_ref().is_err_and(|refusal| refusal.number != 23) {
                continue;
            }
            let bytes = untested(&case.files, &case.numbers);
            let reads = read(&case.files, &bytes).expect("it decodes");
            let used = case.numbers[3].min(8) as usize;
            let same = reads[3] == case.numbers[3]
                && reads[4..4 + 3 * used] == case.numbers[4..4 + 3 * used];
            assert_eq!(said.is_ok(), same, "{} {:?}", case.class, case.numbers);
            assert!(said.is_err() || said == Ok(bytes), "{}", case.class);
            seen[same as usize] += 1;
        }
        assert!(seen.iter().all(|count| *count > 500), "{seen:?}");
    }

    /// Document 01's rows over its sample table.
    #[test]
    fn rows() {
        let files = sample::table();
        let mut told = [0; NUMBERS];
        for (opcode, scale, operands, wanted) in [
            (3, 1, &[3, u64::MAX, 0][..], &[0x03, 0xff][..]),
            (3, 2, &[3, 384, 0], &[0x00, 0x03, 0x80, 0x01]),
            (3, 4, &[3, -2147483648i64 as u64, 0], &[0x01, 0x03, 0, 0, 0, 0x80]),
            (10, 1, &[7, 5, 0, 2, 0, 2], &[0x0a, 0x05, 0x00, 0xfa, 0x02]),
            (0, 2, &[], &[0x00, 0x00]),
        ] {
            told[..4].copy_from_slice(&[opcode, scale, 0, operands.len() as u64 / 3]);
            told[4..4 + operands.len()].copy_from_slice(operands);
            assert_eq!(write(&files, &told, wanted.len() as u64), Ok(wanted.to_vec()));
            assert_eq!(write(&files, &told, wanted.len() as u64 - 1), refuse(17, 0));
        }
    }

    /// Bytes that reading drops are 0.
    #[test]
    fn a_wide_register() {
        let mut files = sample::table();
        files.body[TYPES][32 + 28] = 2;
        let mut told = [0; NUMBERS];
        told[..6].copy_from_slice(&[4, 4, 0, 1, 1, -5i64 as u64]);
        let wanted = vec![0x01, 0x04, 0xff, 0xff, 0xff, 0xff, 0, 0, 0, 0];
        assert_eq!(write(&files, &told, 10), Ok(wanted));
        assert!(checks::table(&files, TABLE).is_ok());
    }
}
