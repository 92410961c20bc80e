//! Vectors of the walk from a seed: the refusals and codes of some size in one file, and random codes,
//! made by random tables, in the others.

use crate::ask::*;
use crate::checks::{MOST_CODE, MOST_ENTRIES};
use crate::classes::Classes;
use crate::codes::{self, Pools};
use crate::faults::{self, Case};
use crate::flow_cases;
use crate::random::Random;
use crate::records::*;
use crate::sample;
use crate::vectors::Writer;
use crate::walk_classes::classes;
use crate::walk_codes::{self, set_length, set_store, Element};

/// How many files there are, the first for what is not random.
pub const PARTS: usize = 5;
/// Random tables of a file, codes by each, and codes of these that are an object's.
const TABLES: usize = 32;
const CODES: usize = 160;
const OBJECTS_CODES: usize = 4;
/// Random tables whose opcodes have other flows than their names, and codes by each.
const FLOW_TABLES: usize = 20;
const FLOW_CODES: usize = 50;
/// Only contents longer than this are looked for in the file.
const SHORT: usize = 300;
/// The longest mark buffer that is recorded.
const MOST_MARKS: u64 = 65_540;

pub struct WalkRecording {
    /// One for each file.
    pub writers: Vec<Writer>,
    pub classes: Classes,
    writer: Writer,
    files: Files,
    code: Vec<u8>,
}

pub fn record(seed: u64) -> Result<WalkRecording, String> {
    let mut r = Random::new(seed);
    let mut out = WalkRecording {
        writers: Vec::new(),
        classes: Classes::default(),
        writer: Writer::sharing_above(SHORT),
        files: Files::default(),
        code: Vec::new(),
    };
    out.rows()?;
    out.faults()?;
    out.objects()?;
    out.refused_codes()?;
    out.nests()?;
    out.large_switch()?;
    out.long_lines()?;
    out.prefixed_switches()?;
    out.large_prefixed_switch()?;
    out.empty_codes()?;
    out.flows()?;
    // Of their own, so that the other files of a seed are what they were.
    let mut of_flows = Random::new(seed ^ 6);
    let pools = codes::pools(&mut of_flows);
    for k in 0..FLOW_TABLES {
        out.flow_table(&mut of_flows, &pools, k)?;
    }
    out.next_file();
    let pools = codes::pools(&mut r);
    for _ in 1..PARTS {
        for k in 0..TABLES {
            out.table(&mut r, &pools, k)?;
        }
        out.next_file();
    }
    Ok(out)
}

fn small(files: &Files) -> bool {
    files.body.iter().all(|b| b.len() < 2_000)
}

impl WalkRecording {
    fn next_file(&mut self) {
        let done = std::mem::replace(&mut self.writer, Writer::sharing_above(SHORT));
        self.writers.push(done);
    }

    fn set(&mut self, files: &Files, code: &[u8]) {
        self.writer.files(files);
        self.writer.code(code);
        self.files = files.clone();
        self.code = code.to_vec();
    }

    /// Asks, records and counts.
    fn call(&mut self, function: usize, args: &[u64]) -> Result<(), String> {
        assert!(*args.last().unwrap() <= MOST_MARKS);
        let call = Call::new(function, args);
        let answer = self.writer.call(&call)?;
        self.classes.add(&classes(&self.files, &self.code, &[], &call, &answer)?);
        Ok(())
    }

    /// The walk over lent code, with as many marks as it has bytes.
    fn walk_code(&mut self, object: u64) -> Result<(), String> {
        self.call(WALK_CODE, &[object, self.code.len() as u64])
    }

    /// Document 01's rows, as an object's code and as lent code.
    fn rows(&mut self) -> Result<(), String> {
        let rows: [(&[u8], &[Option<i32>]); 8] = [
            (&[0x05, 0x01], &[]),
            (&[0x00, 0x05, 0x03, 0x00, 0x02], &[]),
            (&[0x06, 0x02, 0x0b], &[]),
            (&[0x05, 0x00], &[]),
            (&[0x06, 0x03, 0x0b], &[]),
            (&[0x09, 0x00, 0x02, 0x05, 0x0b], &[Some(4), None]),
            (&[0x07, 0x03, 0x00], &[]),
            (&[0x03, 0x05, 0x04, 0xfa, 0x0b], &[]),
        ];
        for (code, pool) in rows {
            self.set(&sample::function(code, 8, pool), code);
            self.call(WALK, &[code.len() as u64])?;
            self.call(WALK, &[65_536])?;
            self.walk_code(0)?;
            self.walk_code(NO_OBJECT)?;
        }
        self.set(&sample::sample(), &[]);
        self.call(WALK, &[5])?;
        self.call(WALK, &[4])
    }

    /// The sample's function, and lent code, by some of these tables.
    fn tables(&mut self, cases: Vec<Case>) -> Result<(), String> {
        let store = sample::sample();
        for case in cases.iter().filter(|case| small(&case.files)).step_by(4) {
            let mut files = case.files.clone();
            for file in OBJECTS..=PAYLOAD {
                files.body[file] = store.body[file].clone();
            }
            self.set(&files, &[4, 0xfa, 4, 1]);
            self.call(WALK, &[0])?;
            self.call(WALK_CODE, &[0, 3])?;
            self.walk_code(NO_OBJECT)?;
        }
        Ok(())
    }

    /// Tables and stores to be refused.
    fn faults(&mut self) -> Result<(), String> {
        self.tables(faults::tables())?;
        let store = sample::sample();
        for case in faults::stores().iter().filter(|case| small(&case.files)).step_by(5) {
            let mut files = store.clone();
            for file in OBJECTS..=PAYLOAD {
                files.body[file] = case.files.body[file].clone();
            }
            self.set(&files, &[0x03, 0x05, 0x0b]);
            self.call(WALK, &[3])?;
            self.walk_code(0)?;
            self.walk_code(NO_OBJECT)?;
        }
        Ok(())
    }

    /// Objects that are not there, of another kind, or whose code length is bad; and empty lent code.
    fn objects(&mut self) -> Result<(), String> {
        let sample = sample::sample();
        for kind in [0, 2] {
            let mut files = sample.clone();
            files.body[OBJECTS][0] = kind;
            self.set(&files, &[0x0b]);
            self.call(WALK, &[5])?;
            self.walk_code(0)?;
        }
        for object in [1, 2, 1 << 32, u64::MAX - 1] {
            self.walk_code(object)?;
            self.call(WALK_CODE, &[object, 0])?;
        }
        self.set(&sample::table(), &[0x0b]);
        self.call(WALK, &[5])?;
        self.walk_code(0)?;
        // The length field; 0 is empty code, and no run holds 6 bytes of code.
        for length in [-1, i32::MIN, 65_537, i32::MAX, 0, 1, 2, 3, 4, 5, 6, 65_536] {
            let mut files = sample.clone();
            files.body[PAYLOAD][4..8].copy_from_slice(&i32::to_le_bytes(length));
            self.set(&files, &[]);
            for marks in [0, 1, 4, 5, 6, 65_536, MOST_MARKS] {
                self.call(WALK, &[marks])?;
            }
        }
        for object in [0, NO_OBJECT] {
            for marks in [0, 1, MOST_MARKS] {
                self.call(WALK_CODE, &[object, marks])?;
            }
        }
        Ok(())
    }

    /// Codes to be refused: each with enough marks and with too few.
    fn refused_codes(&mut self) -> Result<(), String> {
        let mut files = sample::table();
        // The entry count as an Imm and as a UImm of 2 bytes.
        files.body[TYPES].extend(type_record("Extra", 2, false));
        let switches = [[10, 9, 9], [10, 11, 9]];
        let generator = [[0, 10, 9], [0, 10, 11]];
        for k in 0..2 {
            files.body[OPCODES].extend(opcode_record("SwitchOnSmiNoFeedback", 0, &switches[k]));
            files.body[OPCODES].extend(opcode_record("SwitchOnGeneratorState", 0, &generator[k]));
        }
        let mut wide = files.clone();
        wide.body[TYPES][11 * 32 + 28] = 2;
        let pool = [Element::Number(5), Element::Reference];
        let codes: [&[u8]; 20] = [
            &[0x02, 0x00],
            &[0x02, 0x01],
            &[0x02, 0x10],
            &[0x0b, 0xff],
            &[0x02, 0x03],
            &[0x02, 0x00, 0x03, 0x00],
            &[0x0b, 0x0a, 0x05, 0x00, 0xfa],
            &[0x0c, 0x00, 0xff, 0x00, 0x0b],
            &[0x0b, 0x0c, 0x00, 0x80, 0x00],
            &[0x0d, 0xfa, 0x00, 0xff, 0x0b],
            // Under a prefix too.
            &[0x00, 0x0c, 0x00, 0x00, 0xff, 0xff, 0x00, 0x00, 0x0b],
            &[0x01, 0x0d, 0, 0, 0, 0, 0, 0, 0, 0, 0xff, 0xff, 0xff, 0xff, 0x0b],
            // 16 is behind 14, wherever they stand.
            &[0x0c, 0x00, 0xff, 0x00, 0x03],
            &[0x0c, 0x00, 0xff, 0x00, 0x00],
            // The first of two is met.
            &[0x02, 0x0c, 0x00, 0xff, 0x00, 0x0d, 0xfa, 0x00, 0xff, 0x0b],
            &[0x0e, 0x00, 0x01, 0x10, 0x00, 0x0b],
            &[0x0e, 0x00, 0x00, 0x10, 0x00, 0x0b],
            &[0x0f, 0xfa, 0x00, 0x01, 0x10, 0x0b],
            &[0x0f, 0xfa, 0x00, 0xff, 0xff, 0x0b],
            &[0x0f, 0xfa, 0x00, 0x02, 0x00, 0x0b],
        ];
        for (files, pool) in [(&files, &pool[..]), (&files, &[]), (&wide, &pool)] {
            let mut files = files.clone();
            set_store(&mut files, &[], &[], pool);
            for code in codes {
                self.set(&files, code);
                for object in [0, NO_OBJECT] {
                    let length = code.len() as u64;
                    for marks in [0, length - 1, length, length + 3] {
                        self.call(WALK_CODE, &[object, marks])?;
                    }
                }
            }
            for code in codes {
                let mut files = files.clone();
                set_store(&mut files, &[0; 14], code, pool);
                self.set(&files, &[]);
                self.call(WALK, &[code.len() as u64])?;
                self.call(WALK, &[1])?;
            }
        }
        Ok(())
    }

    /// Loops within each other, closed or left from the innermost, the outermost or one between.
    fn nests(&mut self) -> Result<(), String> {
        for depth in [1, 2, 3, 10, 60, 200] {
            for left_at in [None, Some(0), Some(depth / 2), Some(depth)] {
                self.set(&sample::table(), &nest(depth, left_at));
                self.walk_code(NO_OBJECT)?;
            }
        }
        Ok(())
    }

    /// A switch of the greatest number of entries, closed and with one entry that leaves; one more is
    /// refused.
    fn large_switch(&mut self) -> Result<(), String> {
        let most = MOST_ENTRIES as usize;
        let mut files = sample::table();
        files.body[LAYOUT][0] = 4;
        files.body[TYPES][11 * 32 + 28] = 2;
        let mut pool: Vec<Element> =
            (0..=most).map(|k| Element::Number(5 + (k * 7 % most) as i32)).collect();
        for bad in [None, Some(most - 1), Some(9)] {
            if let Some(k) = bad {
                pool[k] = Element::Number(2);
            }
            set_store(&mut files, &[], &[], &pool);
            for count in [most - 1, most, most + 1] {
                let mut code = vec![0x09, 0x00, count as u8, (count >> 8) as u8, 0x00];
                code.extend([0x02, 0x02, 0x0b, 0x02].repeat(most / 4));
                code.push(0x0b);
                self.set(&files, &code);
                self.walk_code(0)?;
            }
        }
        Ok(())
    }

    /// Code of the greatest length and one byte more, out of one payload: a straight line that falls
    /// off its end, or ends, or is left within.
    fn long_lines(&mut self) -> Result<(), String> {
        let mut files = sample::table();
        let mut line = vec![0x02; MOST_CODE];
        line.push(0x0b);
        files.body[PAYLOAD] = line.clone();
        for part in [0..MOST_CODE, 1..MOST_CODE + 1, 0..MOST_CODE + 1, 65_000..MOST_CODE + 1] {
            self.set(&files, &line[part]);
            self.walk_code(NO_OBJECT)?;
            self.call(WALK_CODE, &[NO_OBJECT, MOST_CODE as u64 - 1])?;
        }
        Ok(())
    }

    /// Switches under a prefix, of which an entry is an instruction, or the byte behind its start.
    fn prefixed_switches(&mut self) -> Result<(), String> {
        let wide: &[u8] = &[0, 9, 0, 0, 1, 0, 5, 0];
        let extra_wide: &[u8] = &[1, 9, 0, 0, 0, 0, 1, 0, 0, 0, 5, 0, 0, 0];
        let generator: &[u8] = &[0, 0x0c, 0xfa, 0xff, 0, 0, 1, 0];
        let extra_generator: &[u8] = &[1, 0x0c, 0xfa, 0xff, 0xff, 0xff, 0, 0, 0, 0, 1, 0, 0, 0];
        for switch in [wide, extra_wide, generator, extra_generator] {
            // Distances count from behind the prefix.
            let behind = switch.len() as i32 - 1;
            for (rest, to) in [
                // Return.
                (&[0x0b][..], &[0, 1][..]),
                // LdaSmi.Wide and Return: its prefix byte is a start, its opcode byte is none.
                (&[0x00, 0x03, 0x05, 0x00, 0x0b], &[0, 1]),
                // A jump into itself that only the entry reaches.
                (&[0x0b, 0x05, 0x01], &[1, -1 - behind]),
            ] {
                for to in to {
                    let code = [switch, rest].concat();
                    let mut files = sample::function(&code, 8, &[Some(behind + to), None]);
                    let record = opcode_record("SwitchOnGeneratorState", 0, &[0, 10, 11]);
                    files.body[OPCODES].extend(record);
                    self.set(&files, &code);
                    self.walk_code(0)?;
                    self.walk_code(NO_OBJECT)?;
                    self.call(WALK, &[code.len() as u64])?;
                }
            }
        }
        Ok(())
    }

    /// The same as `large_switch` under Wide, where the count has two bytes.
    fn large_prefixed_switch(&mut self) -> Result<(), String> {
        let most = MOST_ENTRIES as usize;
        let mut files = sample::table();
        files.body[LAYOUT][0] = 4;
        let mut pool: Vec<Element> =
            (0..=most).map(|k| Element::Number(7 + (k * 7 % most) as i32)).collect();
        for bad in [None, Some(most - 1)] {
            if let Some(k) = bad {
                pool[k] = Element::Number(1);
            }
            set_store(&mut files, &[], &[], &pool);
            for count in [most, most + 1] {
                let [low, high] = (count as u16).to_le_bytes();
                let mut code = vec![0x00, 0x09, 0x00, 0x00, low, high, 0x00, 0x00];
                code.extend([0x02, 0x02, 0x0b, 0x02].repeat(most / 4));
                code.push(0x0b);
                self.set(&files, &code);
                self.walk_code(0)?;
            }
        }
        Ok(())
    }

    /// Wish 4: code that is empty, of an object and lent, and lengths that no run holds; then table and
    /// object faults of empty code.
    fn empty_codes(&mut self) -> Result<(), String> {
        for ts in [8, 4] {
            let mut files = sample::table();
            files.body[LAYOUT][0] = ts;
            for pool in [&[][..], &[Element::Number(5), Element::Reference]] {
                self.empty_objects(&files, pool)?;
                self.not_held(&files, pool)?;
            }
        }
        self.cut_run()?;
        self.walk_code(1)?;
        let mut files = self.files.clone();
        files.body[LAYOUT][0] = 5;
        self.set(&files, &[]);
        self.call(WALK, &[0])?;
        self.walk_code(NO_OBJECT)
    }

    /// Length 0, with a run up to the code's place and one that ends before it; no length found, since it
    /// is no small integer, no run has it, or there is no slot; and lent code of no bytes.
    fn empty_objects(&mut self, table: &Files, pool: &[Element]) -> Result<(), String> {
        let mut files = table.clone();
        set_store(&mut files, &[0; 13], &[], pool);
        self.on_empty(&files)?;
        set_store(&mut files, &[0; 14], &[], pool);
        self.on_empty(&files)?;
        for object in [0, NO_OBJECT] {
            for marks in [0, 1, MOST_MARKS] {
                self.call(WALK_CODE, &[object, marks])?;
            }
        }
        set_store(&mut files, &[0; 14], &[0x02, 0x0b], pool);
        files.body[PAYLOAD][0] |= 1;
        self.on_empty(&files)?;
        let reference = Slot { index: 1, kind: 3, ..Slot::default() };
        files.body[SLOTS][24..48].copy_from_slice(&reference.bytes());
        self.on_empty(&files)?;
        files.body[OBJECTS][8] = 0;
        self.on_empty(&files)
    }

    /// The walk over object 0, of which the code is empty.
    fn on_empty(&mut self, files: &Files) -> Result<(), String> {
        self.set(files, &[]);
        [0, 1, MOST_MARKS].iter().try_for_each(|marks| self.call(WALK, &[*marks]))
    }

    /// Positive lengths of which no run holds so many bytes, and no run at all behind the header.
    fn not_held(&mut self, table: &Files, pool: &[Element]) -> Result<(), String> {
        let mut files = table.clone();
        for (held, length) in [(0, 1), (1, 2), (2, 3), (2, 65_536)] {
            set_store(&mut files, &[0; 14], &[0x02, 0x0b][..held], pool);
            set_length(&mut files, length);
            self.on_length(&files, length as u64)?;
        }
        let reference = Slot { index: 5, kind: 3, ..Slot::default() };
        files.body[SLOTS][5 * 24..6 * 24].copy_from_slice(&reference.bytes());
        set_length(&mut files, 2);
        self.on_length(&files, 2)
    }

    /// The sample with its run cut in two, within the code: both together hold it, neither does alone.
    fn cut_run(&mut self) -> Result<(), String> {
        let mut files = sample::sample();
        let run =
            |index, number, length| Slot { index, kind: 4, number, length, ..Slot::default() };
        files.body[SLOTS] = [run(1, 0, 48), run(7, 48, 3)].iter().flat_map(Slot::bytes).collect();
        files.body[OBJECTS][8] = 2;
        self.on_length(&files, 5)
    }

    /// The walk over object 0 with marks too few, just enough, and more.
    fn on_length(&mut self, files: &Files, length: u64) -> Result<(), String> {
        self.set(files, &[]);
        [0, length - 1, length, MOST_MARKS].iter().try_for_each(|marks| self.call(WALK, &[*marks]))
    }

    /// Flows at fault; chosen opcodes whose flow is not that of their name, each in a code of its own; and counts of such.
    fn flows(&mut self) -> Result<(), String> {
        self.tables(faults::flow_tables())?;
        for (k, chosen) in flow_cases::chosen().iter().enumerate() {
            let scales = if k == 1 { &[1, 2][..] } else { &[1, 2, 4] };
            for scale in scales {
                for (j, row) in chosen.rows.iter().enumerate() {
                    let code = flow_cases::code_of(&row.instruction(&chosen.files, *scale));
                    self.set(&chosen.files, &code);
                    self.walk_code(0)?;
                    if j % 6 == 0 {
                        self.walk_code(NO_OBJECT)?;
                    }
                    if j % 12 == 0 {
                        self.set(&chosen.function(&code), &code);
                        self.call(WALK, &[code.len() as u64])?;
                    }
                }
            }
        }
        for (files, code) in flow_cases::counted(true) {
            self.set(&files, &code);
            self.walk_code(0)?;
            self.call(WALK, &[code.len() as u64])?;
        }
        Ok(())
    }

    /// Codes by a table whose opcodes have other flows than their names.
    fn flow_table(&mut self, r: &mut Random, pools: &Pools, k: usize) -> Result<(), String> {
        let mut files = walk_codes::table(r, pools, k);
        flow_cases::change_flows(r, &mut files);
        let pool = walk_codes::pool(r);
        set_store(&mut files, &[], &[], &pool);
        for _ in 0..FLOW_CODES {
            let made = walk_codes::code(r, &files, &pool);
            set_store(&mut files, &[], &[], &made.pool);
            self.set(&files, &made.code);
            self.walk_code(if r.once_in(12) { NO_OBJECT } else { 0 })?;
        }
        Ok(())
    }

    /// Codes by a table.
    fn table(&mut self, r: &mut Random, pools: &Pools, k: usize) -> Result<(), String> {
        let mut files = walk_codes::table(r, pools, k);
        let pool = walk_codes::pool(r);
        set_store(&mut files, &[], &[], &pool);
        for _ in 0..CODES - OBJECTS_CODES {
            let made = walk_codes::code(r, &files, &pool);
            if made.reads_pool {
                set_store(&mut files, &[], &[], &made.pool);
            }
            self.set(&files, &made.code);
            let object = match r.below(20) {
                0 => NO_OBJECT,
                1 => 1,
                2..=7 if !made.reads_pool => NO_OBJECT,
                _ => 0,
            };
            let length = made.code.len() as u64;
            let marks = match r.below(40) {
                0 => length - 1,
                1 => r.below(length),
                2..=6 => length + 1 + r.below(9),
                7 => 65_536,
                _ => length,
            };
            self.call(WALK_CODE, &[object, marks])?;
        }
        for j in 0..OBJECTS_CODES {
            let made = walk_codes::code(r, &files, &pool);
            let held = if j == 0 && !made.reads_pool { &[] } else { &made.pool[..] };
            set_store(&mut files, &[0; 14], &made.code, held);
            self.set(&files, &[]);
            self.call(WALK, &[made.code.len() as u64 + r.below(3)])?;
        }
        Ok(())
    }
}

/// Loops within each other under document 01's table: for each a JumpIfTrue.Wide behind its end, in
/// the midst of all LdaZero, for each a JumpLoop.Wide to its start, and a Return. `left_at` is the
/// depth of an instruction that jumps into itself.
fn nest(depth: usize, left_at: Option<usize>) -> Vec<u8> {
    let low_high = |n: usize| (n as u16).to_le_bytes();
    let start = |k: usize| 4 * k;
    let middle = 4 * depth;
    let behind = |k: usize| middle + 1 + 6 * (depth - k);
    let mut code = Vec::new();
    for k in 0..depth {
        let distance = if left_at == Some(k) { 1 } else { behind(k) - start(k) - 1 };
        code.extend([0x00, 0x06]);
        code.extend(low_high(distance));
    }
    code.push(0x02);
    for k in (0..depth).rev() {
        // The innermost of all is left from at the end of its loop.
        let back = code.len() + 1 - start(k);
        let back = if left_at == Some(depth) && k + 1 == depth { back - 1 } else { back };
        code.extend([0x00, 0x07]);
        code.extend(low_high(back));
        code.extend([0, 0]);
    }
    code.push(0x0b);
    code
}

#[cfg(test)]
mod tests {
    use super::*;
    use crate::recording::SEED;
    use crate::vectors;
    use crate::walk_classes::wanted;

    /// The files in recorded/ are what the seed gives, and every class has a case.
    #[test]
    fn recorded_files_are_current() {
        let recorded: [&[u8]; PARTS] = [
            include_bytes!("../recorded/walk-1.vec"),
            include_bytes!("../recorded/walk-2.vec"),
            include_bytes!("../recorded/walk-3.vec"),
            include_bytes!("../recorded/walk-4.vec"),
            include_bytes!("../recorded/walk-5.vec"),
        ];
        let recording = record(SEED).unwrap();
        assert_eq!(recording.classes.missing(&wanted()), Vec::<String>::new());
        for (file, writer) in recorded.iter().zip(&recording.writers) {
            assert!(*file == writer.out);
            assert!(file.len() < 1_000_000);
            assert_eq!(vectors::replay(file), Ok(writer.calls));
        }
    }
}
