//! Vectors of whole listings that are named in the reports: each with its name and what it shows.

use crate::ask::*;
use crate::checks::{PROGRAM_FILE, PROGRAM_OUTPUT};
use crate::lists::{repeated, switch_code, with_generator};
use crate::records::*;
use crate::sample;
use crate::vectors::Writer;

pub struct NamedRecording {
    pub writer: Writer,
    /// A line for each case: its name and what is said.
    pub report: String,
}

pub fn record() -> Result<NamedRecording, String> {
    let mut out = NamedRecording { writer: Writer::sharing(), report: String::new() };
    let two = [Some(4), None];
    let function = |code: &[u8]| sample::function(code, 8, &two);
    out.case("the sample", &sample::sample())?;
    out.case("an operand is cut", &function(&[0x03]))?;
    out.case("a prefix at the end", &function(&[0x02, 0x01]))?;
    out.case("no such opcode", &function(&[0x00, 0x0c]))?;
    out.case("a count is cut", &function(&[0x0a, 0x05, 0x00, 0xfa]))?;
    out.case("a switch", &function(&[0x09, 0x00, 0x02, 0x05, 0x0b]))?;
    out.case("a switch of no entries", &function(&[0x09, 0x00, 0x00, 0x05, 0x0b]))?;
    out.case("a switch of one skipped entry", &function(&[0x09, 0x01, 0x01, 0x05, 0x0b]))?;
    out.case("a switch under a prefix", &function(&[0x00, 9, 0, 0, 2, 0, 5, 0, 0x0b]))?;
    out.prefixed_switches()?;
    let no_pool = sample::function(&[0x09, 0x00, 0x02, 0x05, 0x0b], 8, &[]);
    out.case("a switch without a pool", &no_pool)?;
    out.case("a target below zero", &function(&[0x07, 0x03, 0x00]))?;
    out.case("a target by the pool", &function(&[0x08, 0x00, 0x0b]))?;
    out.case("no target: the element is a reference", &function(&[0x08, 0x01, 0x0b]))?;
    out.case("parameter size -9", &sample::function(&[0x0b], -9, &[]))?;
    out.case("a count of -1", &counted(&function(&[0x09, 0x00, 0xff, 0x00, 0x0b])))?;
    let sizes = exact()?;
    out.case("a listing of 65,536 bytes", &sizes[0])?;
    out.case("a listing of 65,537 bytes", &sizes[1])?;
    out.limits()?;
    out.flows()?;
    Ok(out)
}

/// The switch's count is of type Imm.
fn counted(files: &Files) -> Files {
    let mut files = files.clone();
    files.body[OPCODES][9 * OPCODE_SIZE + 43] = 9;
    files
}

impl NamedRecording {
    fn case(&mut self, name: &str, files: &Files) -> Result<(), String> {
        self.writer.files(files);
        let said = self.writer.call(&Call::new(LISTING, &[]))?.to_string();
        // Into more room the same is said, where the program's limits do not matter.
        let short = files.body.iter().all(|body| body.len() <= PROGRAM_FILE);
        if short && said.len() < 1_000 && said != "refused 17 at 0" {
            self.writer.call(&Call::new(LONG_LISTING, &[]))?;
        }
        let shown = match said.len() {
            0..=400 => said,
            n => format!("{n} bytes"),
        };
        self.report += &format!("{name}:\n{}\n", shown.trim_end_matches('\n'));
        Ok(())
    }

    /// Both switches under both prefixes.
    fn prefixed_switches(&mut self) -> Result<(), String> {
        let smi = |scale, numbers: [i64; 3]| switch_code(scale, 0x09, numbers);
        let generator = |scale, numbers: [i64; 3]| switch_code(scale, 0x0c, numbers);
        let pool = [Some(4), None, Some(9)];
        let function = |code: &[u8]| with_generator(sample::function(code, 8, &pool));
        self.case("a switch under ExtraWide", &function(&smi(4, [0, 3, 5])))?;
        self.case("a generator's switch under Wide", &function(&generator(2, [-6, 0, 3])))?;
        self.case("a generator's switch under ExtraWide", &function(&generator(4, [-6, 0, 3])))?;
        let wraps = smi(4, [0, 3, i32::MAX as i64]);
        self.case("a switch under ExtraWide from 2147483647 on", &function(&wraps))?;
        let skipped = smi(2, [1, 1, 5]);
        self.case("a switch under Wide of one skipped entry", &function(&skipped))?;
        let no_pool = sample::function(&smi(2, [0, 3, 5]), 8, &[]);
        self.case("a switch under Wide without a pool", &no_pool)?;
        self.case("a switch under Wide, a count of -1", &counted(&function(&smi(2, [0, -1, 5]))))?;
        let most = repeated(&smi(2, [0, 4_096, 5]));
        self.case("a switch of 4,096 entries under Wide", &most)?;
        self.case("a switch of 4,097 entries under Wide", &repeated(&smi(2, [0, 4_097, 5])))
    }

    /// Names with a flow that is not theirs, one behind the other: by an operand, by the pool, without the operand, as switches.
    fn flows(&mut self) -> Result<(), String> {
        let names = ["JumpIfForInDone", "JumpLoop", "Return"];
        for (title, codes, flow, operands) in [
            ("flow 3 of three names", &[11][..], [3, 0, 0, 0], &[4][..]),
            ("flow 4 of three names", &[11], [4, 0, 0, 0], &[4]),
            ("flow 3 of three names, by the pool", &[10], [3, 1, 0, 0], &[2]),
            ("flow 3 of three names, no such operand", &[11], [3, 0, 1, 0], &[4]),
            ("flow 5 of three names", &[0, 10, 11, 9], [5, 0, 1, 1], &[0xfa, 2, 1, 7]),
            ("flow 0 of three names", &[10, 11, 9], [0, 0, 0, 0], &[0, 3, 7]),
        ] {
            let code = (0x0c..0x0f).flat_map(|opcode| [&[opcode], operands].concat());
            let code: Vec<u8> = code.chain([0x0b]).collect();
            let mut files = sample::function(&code, 8, &[Some(4), None, Some(9)]);
            for name in names {
                files.body[OPCODES].extend(flow_record(name, 0, codes, flow));
            }
            self.case(title, &files)?;
        }
        Ok(())
    }

    /// Files longer than a program reads: the first bytes of this file, as a part of it.
    fn limits(&mut self) -> Result<(), String> {
        let lengths = [
            (PAYLOAD, PROGRAM_FILE + 1),
            (OBJECTS, 16 * 4_097),
            (SLOTS, 24 * 2_731),
            (OPCODES, PROGRAM_FILE + 1),
            (TYPES, PROGRAM_FILE + 1),
            (RUNTIME, 64 * 1_025),
        ];
        for (file, length) in lengths {
            let mut files = sample::sample();
            files.body[file] = self.writer.out[..length].to_vec();
            self.case(&format!("{} of {length} bytes", NAMES[file]), &files)?;
        }
        // 6 comes behind the table's rows.
        let mut files = sample::sample();
        files.body[PAYLOAD] = self.writer.out[..PROGRAM_FILE + 1].to_vec();
        files.body[LAYOUT][0] = 5;
        self.case("payload.bin of 65537 bytes and a bad layout", &files)
    }
}

/// Each of these makes the listing one byte longer than the one before: a digit more in the frame size or
/// in the register count.
const FRAMES: [u32; 14] = [
    8, 10, 80, 100, 800, 1_000, 8_000, 10_000, 80_000, 100_000, 800_000, 1_000_000, 8_000_000,
    10_000_000,
];

/// Two switches with a count of entries and a frame size such that the listing has the length that the
/// program lends, and one byte more.
fn exact() -> Result<[Files; 2], String> {
    for entries in (2_800..3_000).rev() {
        let Answer::Found { text, .. } = ask(&long(entries, 8), &[], &Call::new(LISTING, &[]))?
        else {
            continue;
        };
        let more = PROGRAM_OUTPUT - text.len();
        let frames = FRAMES.get(more..more + 2).ok_or("no listing has exactly that length")?;
        return Ok([long(entries, frames[0]), long(entries, frames[1])]);
    }
    Err("every listing is too long".into())
}

/// Two switches of so many entries; the pool is one small integer, repeated.
fn long(entries: u16, frame: u32) -> Files {
    let mut files = sample::table();
    // The count has two bytes.
    files.body[TYPES][11 * 32 + 28] = 2;
    let [low, high] = entries.to_le_bytes();
    let code = [0x09, 0x00, low, high, 0x05, 0x09, 0x00, 0xf0, 0x0a, 0x00];
    let mut tail = frame.to_le_bytes().to_vec();
    tail.extend(8u32.to_le_bytes());
    tail.extend([0; 6]);
    tail.extend(code);
    let small = |value: u64| (value << 32).to_le_bytes();
    let payload = [&small(code.len() as u64)[..], &tail, &small(4_096), &small(900)].concat();
    let behind = 8 + tail.len() as u32;
    let run = |index, number, length| Slot { index, kind: 4, number, length, ..Slot::default() };
    let slots = [
        run(1, 0, 8),
        Slot { index: 2, kind: 1, number: 1, ..Slot::default() },
        run(5, 8, tail.len() as u32),
        run(1, behind, 8),
        Slot { kind: 5, inner: 4, count: 4_096, ..run(2, behind + 8, 8) },
    ];
    let objects = [
        Object { kind: 1, count: 3, byte_size: 64, ..Object::default() },
        Object { first: 3, count: 2, byte_size: 8 * 4_098, ..Object::default() },
    ];
    files.body[OBJECTS] = objects.iter().flat_map(Object::bytes).collect();
    files.body[SLOTS] = slots.iter().flat_map(Slot::bytes).collect();
    files.body[PAYLOAD] = payload;
    files
}

#[cfg(test)]
mod tests {
    use super::*;
    use crate::vectors;

    /// The files in recorded/ are what is recorded today.
    #[test]
    fn recorded_files_are_current() {
        let recording = record().unwrap();
        assert_eq!(include_str!("../recorded/named.txt"), recording.report);
        assert!(include_bytes!("../recorded/named.vec")[..] == recording.writer.out);
        assert_eq!(vectors::replay(&recording.writer.out), Ok(recording.writer.calls));
    }
}
