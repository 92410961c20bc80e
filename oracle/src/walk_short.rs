//! Vectors of the walk over every code of 1, 2 and 3 bytes under document 01's sample table, and over
//! those of 4 bytes whose first three are below 0d: without a pool, and with one.

use crate::ask::*;
use crate::records::Files;
use crate::sample;
use crate::vectors::Writer;
use std::ops::Range;

/// Distances of JumpConstant, 0 to 8 as numbers of elements; the reference is no small integer.
pub const POOL: [Option<i32>; 9] =
    [Some(2), Some(1), Some(0), Some(-1), Some(3), None, Some(-2), Some(4), Some(i32::MAX)];

/// The sample table has opcodes below 0c; 0c is the first without a record.
const BELOW: u32 = 0x0d;

/// The codes of 1 and 2 bytes without a pool, and those of 1 to 3 bytes with one, of which all bytes
/// but the last are below 0d: few enough for a program that reads the whole table in each call.
pub fn record_few() -> Result<Writer, String> {
    let mut writer = Writer::default();
    let files = sample::function(&[], 8, &POOL);
    writer.files(&files);
    for object in [NO_OBJECT, 0] {
        prefixes(&mut writer, &files, object, 0, 0..1)?;
        prefixes(&mut writer, &files, object, 1, 0..BELOW)?;
    }
    for high in 0..BELOW {
        prefixes(&mut writer, &files, 0, 2, high << 8..(high << 8) + BELOW)?;
    }
    Ok(writer)
}

pub fn record() -> Result<Writer, String> {
    let mut writer = Writer::default();
    let files = sample::function(&[], 8, &POOL);
    writer.files(&files);
    for object in [NO_OBJECT, 0] {
        for length in 0..=2 {
            prefixes(&mut writer, &files, object, length, 0..1 << (8 * length))?;
        }
        for (high, middle) in (0..BELOW).flat_map(|high| (0..BELOW).map(move |m| (high, m))) {
            let from = high << 16 | middle << 8;
            prefixes(&mut writer, &files, object, 3, from..from + BELOW)?;
        }
    }
    Ok(writer)
}

/// Prefixes of a length, in as few calls as there are runs of them that answer alike.
fn prefixes(
    writer: &mut Writer,
    files: &Files,
    object: u64,
    length: usize,
    range: Range<u32>,
) -> Result<(), String> {
    let code = |prefix: u32| prefix.to_be_bytes()[4 - length..].to_vec();
    let mut first = range.start;
    let mut said: Option<Answer> = None;
    for prefix in range.start..=range.end {
        let next = match prefix < range.end {
            true => Some(ask(files, &code(prefix), &Call::new(WALK_LAST_BYTES, &[object, 1]))?),
            false => None,
        };
        if next == said {
            continue;
        }
        if let Some(answer) = said {
            writer.code(&code(first));
            writer.given(&Call::new(WALK_LAST_BYTES, &[object, (prefix - first) as u64]), &answer);
        }
        (first, said) = (prefix, next);
    }
    Ok(())
}

#[cfg(test)]
mod tests {
    use super::*;
    use crate::vectors;

    /// The files in recorded/ are what is recorded today.
    #[test]
    fn recorded_files_are_current() {
        let recorded = include_bytes!("../recorded/walk-short.vec");
        assert!(recorded[..] == record().unwrap().out);
        assert!(include_bytes!("../recorded/walk-few.vec")[..] == record_few().unwrap().out);
    }

    #[test]
    fn ranges_of_prefixes() {
        let mut writer = Writer::default();
        writer.files(&sample::table());
        writer.code(&[0x0c, 0x00]);
        let answer = writer.call(&Call::new(WALK_LAST_BYTES, &[NO_OBJECT, 600])).unwrap();
        assert!(matches!(answer, Answer::Each(answers) if answers.len() == 256));
        assert_eq!(vectors::replay(&writer.out), Ok(1));
        // LdaZero and a byte: an opcode or none.
        writer.code(&[0x02, 0x0a]);
        let answer = writer.call(&Call::new(WALK_LAST_BYTES, &[NO_OBJECT, 3])).unwrap();
        assert_eq!(answer, Answer::Nothing);
    }
}
