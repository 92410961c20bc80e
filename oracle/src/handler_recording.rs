//! Vectors of the walk with handler records (Wish 5) from a seed: cases chosen by hand, refusals, limits, and
//! random records for random codes.

use crate::ask::*;
use crate::checks::MOST_CODE;
use crate::classes::Classes;
use crate::codes;
use crate::decode;
use crate::faults::{self, Case};
use crate::flow_cases;
use crate::handler_classes::named;
use crate::handlers::{self, Handler, MOST, SIZE};
use crate::port::{Port, TABLE};
use crate::random::Random;
use crate::records::*;
use crate::sample;
use crate::vectors::Writer;
use crate::walk_classes::classes;
use crate::walk_codes::{self, set_length, set_store, Element};

/// Random tables, codes by each, record files for each code, and codes that are an object's.
const TABLES: usize = 16;
const CODES: usize = 15;
const SETS: usize = 6;
const OBJECTS_CODES: usize = 2;
/// Random tables whose opcodes have other flows than their names.
const FLOW_TABLES: usize = 5;
/// Only contents longer than this are looked for in the file.
const SHORT: usize = 300;
/// No instruction starts there, whatever the code.
const NOWHERE: u32 = u32::MAX;

pub struct HandlerRecording {
    pub writer: Writer,
    pub classes: Classes,
    files: Files,
    code: Vec<u8>,
    handlers: Vec<u8>,
}

pub fn record(seed: u64) -> Result<HandlerRecording, String> {
    let mut r = Random::new(seed);
    let mut out = HandlerRecording {
        writer: Writer::sharing_above(SHORT),
        classes: Classes::default(),
        files: Files::default(),
        code: Vec::new(),
        handlers: Vec::new(),
    };
    out.rows()?;
    out.bounds()?;
    out.places()?;
    out.names()?;
    out.several()?;
    out.chains()?;
    out.ties()?;
    out.refused_records()?;
    out.refused_codes()?;
    out.objects()?;
    out.faults(faults::tables(), faults::stores())?;
    out.limits()?;
    let pools = codes::pools(&mut r);
    for k in 0..TABLES {
        let files = walk_codes::table(&mut r, &pools, k);
        out.table(&mut r, files)?;
    }
    out.flows()?;
    for k in 0..FLOW_TABLES {
        let mut files = walk_codes::table(&mut r, &pools, k);
        flow_cases::change_flows(&mut r, &mut files);
        out.table(&mut r, files)?;
    }
    Ok(out)
}

fn one(start: u32, end: u32, to: u32) -> Vec<Handler> {
    vec![Handler::new(start, end, to)]
}

impl HandlerRecording {
    fn set(&mut self, files: &Files, code: &[u8]) {
        self.writer.files(files);
        self.writer.code(code);
        self.files = files.clone();
        self.code = code.to_vec();
    }

    /// Asks, records and counts, with a file of records.
    fn call(&mut self, function: usize, args: &[u64], file: &[u8]) -> Result<(), String> {
        self.writer.handlers(file);
        self.handlers = file.to_vec();
        let call = Call::new(function, args);
        let answer = self.writer.call(&call)?;
        self.classes.add(&classes(&self.files, &self.code, &self.handlers, &call, &answer)?);
        Ok(())
    }

    /// The walk over lent code, with as many marks as it has bytes.
    fn code_with(&mut self, object: u64, handlers: &[Handler]) -> Result<(), String> {
        let marks = self.code.len() as u64;
        self.call(WALK_CODE_WITH, &[object, marks], &handlers::file(handlers))
    }

    /// The walk over object 0, with a few marks more than its code has bytes.
    fn object_with(&mut self, length: usize, handlers: &[Handler]) -> Result<(), String> {
        self.call(WALK_WITH, &[length as u64 + 3], &handlers::file(handlers))
    }

    /// Some small codes, as an object's and lent.
    fn rows(&mut self) -> Result<(), String> {
        for (code, handlers) in rows() {
            self.set(&with_throw(sample::function(code, 8, &[])), code);
            self.object_with(code.len(), &handlers)?;
            self.code_with(0, &handlers)?;
            self.code_with(NO_OBJECT, &handlers)?;
        }
        Ok(())
    }

    /// Every range over a code of plain and prefixed instructions, with a handler that only records reach, and with
    /// one that is no instruction.
    fn bounds(&mut self) -> Result<(), String> {
        self.set(&sample::table(), LINE);
        let length = LINE.len() as u32;
        for start in 0..length {
            for end in start + 1..=length {
                for to in [LINE_HANDLER, 5] {
                    self.code_with(NO_OBJECT, &one(start, end, to))?;
                }
            }
        }
        Ok(())
    }

    /// Every handler offset, from an instruction without a prefix, under Wide and under ExtraWide.
    fn places(&mut self) -> Result<(), String> {
        self.set(&sample::function(LINE, 8, &[]), LINE);
        let within = 0..LINE.len() as u32 + 2;
        let beyond = [65_535, 65_536, i32::MAX as u32, 1 << 31, NOWHERE];
        for at in [0, 3, 7] {
            for to in within.clone().chain(beyond) {
                self.code_with(0, &one(at, at + 1, to))?;
                self.object_with(LINE.len(), &one(at, at + 1, to))?;
            }
        }
        Ok(())
    }

    /// Each name that is told apart, without a prefix and under both, in a range, and with a range that begins behind
    /// its prefix.
    fn names(&mut self) -> Result<(), String> {
        let files = names_table();
        for name in named() {
            for scale in [1, 2, 4] {
                let ins = instruction(&files, name, scale);
                let end = ins.len() as u32;
                let code = [&ins[..], &[0x0b, 0x02, 0x0b]].concat();
                self.set(&files, &code);
                for to in [end + 1, end + 3, 0] {
                    self.code_with(0, &one(0, 1, to))?;
                }
                if scale > 1 {
                    self.code_with(0, &one(1, end, NOWHERE))?;
                }
            }
        }
        Ok(())
    }

    /// Flows at fault; chosen opcodes whose flow is not that of their name: with a handler that is an instruction, and with one that is none.
    fn flows(&mut self) -> Result<(), String> {
        self.faults(faults::flow_tables(), Vec::new())?;
        let [chosen, ..] = flow_cases::chosen();
        for scale in [1, 2] {
            for row in &chosen.rows {
                let code = flow_cases::code_of(&row.instruction(&chosen.files, scale));
                self.set(&chosen.files, &code);
                for to in [code.len() as u32 - 2, NOWHERE] {
                    self.code_with(0, &one(4, 5, to))?;
                }
            }
        }
        Ok(())
    }

    /// Every two ranges within four instructions, and every three within three, each record with a handler of its own.
    fn several(&mut self) -> Result<(), String> {
        let code = [0x02, 0x02, 0x02, 0x02, 0x0b, 0x0b, 0x0b, 0x0b];
        self.set(&sample::table(), &code);
        let ranges = |length: u32| -> Vec<(u32, u32)> {
            (0..length).flat_map(|a| (a + 1..=length).map(move |b| (a, b))).collect()
        };
        for (a, b) in ranges(4) {
            for (c, d) in ranges(4) {
                self.code_with(NO_OBJECT, &[Handler::new(a, b, 5), Handler::new(c, d, 6)])?;
            }
        }
        for (a, b) in ranges(3) {
            for (c, d) in ranges(3) {
                for (e, f) in ranges(3) {
                    let two = [Handler::new(a, b, 5), Handler::new(c, d, 6)];
                    self.code_with(NO_OBJECT, &[&two[..], &one(e, f, 7)].concat())?;
                }
            }
        }
        Ok(())
    }

    /// Walks that go from handler to handler, closed or left at the end; and a line that is left from each instruction.
    fn chains(&mut self) -> Result<(), String> {
        let files = with_throw(sample::table());
        for length in (1..=12).chain([20, 45]) {
            self.set(&files, &vec![THROW; length as usize]);
            for last in [0, length, NOWHERE] {
                let to = |k: u32| if k + 1 == length { last } else { k + 1 };
                let chain: Vec<Handler> =
                    (0..length).map(|k| Handler::new(k, k + 1, to(k))).collect();
                self.code_with(NO_OBJECT, &chain)?;
                let backward: Vec<Handler> = chain.into_iter().rev().collect();
                self.code_with(NO_OBJECT, &backward)?;
            }
        }
        self.set(&files, &[&[0x02; 12][..], &[0x0b]].concat());
        for at in 0..13 {
            self.code_with(NO_OBJECT, &one(at, at + 1, NOWHERE))?;
            self.code_with(NO_OBJECT, &one(at, 13, NOWHERE))?;
        }
        Ok(())
    }

    /// Two instructions that are reached at once and leave, one or both by a handler.
    fn ties(&mut self) -> Result<(), String> {
        let files = with_throw(sample::table());
        // JumpIfTrue to 4; at 2 and at 4 LdaZero or a jump into itself.
        for (at_2, at_4) in
            [([0x02, 0x0b], [0x02, 0x0b]), ([0x05, 1], [0x02, 0x0b]), ([0x02, 0x0b], [0x05, 1])]
        {
            self.set(&files, &[&[0x06, 0x04][..], &at_2, &at_4, &[0x0b]].concat());
            for handlers in [
                one(2, 3, NOWHERE),
                one(4, 5, NOWHERE),
                one(2, 5, NOWHERE),
                one(0, 5, 4),
                vec![Handler::new(4, 5, NOWHERE), Handler::new(2, 3, 7)],
                vec![Handler::new(4, 5, 0), Handler::new(2, 3, 4)],
            ] {
                self.code_with(NO_OBJECT, &handlers)?;
            }
        }
        // The handler is the lower of two places.
        self.set(&files, &[0x05, 0x04, 0x02, 0x0b, 0x05, 0x01]);
        self.code_with(NO_OBJECT, &[Handler::new(0, 1, 2), Handler::new(2, 3, NOWHERE)])?;
        self.code_with(NO_OBJECT, &one(0, 1, 2))
    }
}

impl HandlerRecording {
    /// 24 and 25 on good code: cut files, and a record at fault alone, in front, between and behind.
    fn refused_records(&mut self) -> Result<(), String> {
        let code = [0x02, 0x02, 0x02, 0x0b];
        self.set(&sample::function(&code, 8, &[]), &code);
        let good = Handler::new(0, 1, 2);
        for file in [vec![good; 3], vec![good, Handler::new(1, 1, 2), good]] {
            let file = handlers::file(&file);
            for length in [1, 11, 13, 23, 25, 35] {
                self.both(4, &file[..length])?;
            }
        }
        let bounds =
            [(1, 1), (2, 1), (0, 5), (4, 4), (0, NOWHERE), (NOWHERE, NOWHERE), (5, 6), (4, 5)];
        for (start, end) in bounds.into_iter().chain([(NOWHERE, 0), (6, 6)]) {
            let bad = Handler::new(start, end, 2);
            for handlers in [
                vec![bad],
                vec![bad, good, good],
                vec![good, bad, good],
                vec![good, good, bad],
                vec![good, bad, bad],
            ] {
                self.both(4, &handlers::file(&handlers))?;
            }
        }
        Ok(())
    }

    /// Lent code without an object, and object 0.
    fn both(&mut self, marks: u64, file: &[u8]) -> Result<(), String> {
        self.call(WALK_CODE_WITH, &[NO_OBJECT, marks], file)?;
        self.call(WALK_WITH, &[marks], file)
    }

    /// Codes to be refused, and one that is not, with enough marks and with none, by each of `files`.
    fn refused_codes(&mut self) -> Result<(), String> {
        let mut table = sample::table();
        // The entry count as an Imm, so that it can be below 0.
        table.body[OPCODES].extend(opcode_record("SwitchOnSmiNoFeedback", 0, &[10, 9, 9]));
        let codes: [&[u8]; 9] = [
            &[0x02, 0x0b],
            &[0x02, 0x00],
            &[0x02, 0x01],
            &[0x02, 0x10],
            &[0x02, 0x03],
            &[0x0b, 0x0a, 0x05, 0x00, 0xfa],
            &[0x0c, 0x00, 0xff, 0x00, 0x0b],
            // 14 and 16.
            &[0x0c, 0x00, 0xff, 0x00, 0x03],
            // Under Wide, 4,097 entries.
            &[0x0b, 0x00, 0x0c, 0x00, 0x00, 0x01, 0x10, 0x00, 0x00],
        ];
        for code in codes {
            let mut files = table.clone();
            set_store(&mut files, &[0; 14], code, &[Element::Number(5), Element::Reference]);
            self.set(&files, code);
            for file in faulty() {
                for marks in [0, code.len() as u64] {
                    self.call(WALK_CODE_WITH, &[0, marks], &file)?;
                    self.call(WALK_WITH, &[marks], &file)?;
                }
            }
        }
        Ok(())
    }

    /// Objects that are not there, of another kind, or whose code length is bad or held by no run; empty code, of an
    /// object and lent; code that is too long.
    fn objects(&mut self) -> Result<(), String> {
        let sample = sample::sample();
        let mut other = sample.clone();
        other.body[OBJECTS][0] = 2;
        for files in [&other, &sample::table()] {
            self.set(files, &[0x0b]);
            for file in faulty() {
                self.call(WALK_WITH, &[0], &file)?;
                self.call(WALK_CODE_WITH, &[1, 0], &file)?;
            }
        }
        for length in [-1, 65_537, 6, 65_536, 0] {
            let mut files = sample.clone();
            files.body[PAYLOAD][4..8].copy_from_slice(&i32::to_le_bytes(length));
            self.on_lengths(&files)?;
        }
        // No run has a length.
        let mut files = sample;
        files.body[OBJECTS][8] = 0;
        self.on_lengths(&files)?;
        files.body[PAYLOAD].clear();
        files.body[SLOTS].clear();
        set_store(&mut files, &[0; 14], &[0x02], &[Element::Number(5)]);
        set_length(&mut files, 2);
        self.on_lengths(&files)
    }

    /// Object 0 by its length, and lent code of no bytes.
    fn on_lengths(&mut self, files: &Files) -> Result<(), String> {
        self.set(files, &[]);
        for file in faulty().iter().chain([&vec![], &vec![0; 12], &vec![0; 11]]) {
            for marks in [0, 7, 65_540] {
                self.call(WALK_WITH, &[marks], file)?;
            }
            self.call(WALK_CODE_WITH, &[NO_OBJECT, 0], file)?;
            self.call(WALK_CODE_WITH, &[NO_OBJECT, 3], file)?;
        }
        Ok(())
    }

    /// Tables and stores to be refused: the first of each number.
    fn faults(&mut self, tables: Vec<Case>, stores: Vec<Case>) -> Result<(), String> {
        let sample = sample::sample();
        let small = |files: &Files| files.body.iter().all(|b| b.len() < 2_000);
        let tables = tables.into_iter().map(|case| (case, OPCODES..OBJECTS));
        let stores = stores.into_iter().map(|case| (case, OBJECTS..PAYLOAD + 1));
        for (case, part) in tables.chain(stores).filter(|(case, _)| small(&case.files)) {
            let mut files = sample.clone();
            files.body[part.clone()].clone_from_slice(&case.files.body[part]);
            let code = [0x03, 0x05, 0x0b];
            let Answer::Refused(refusal) = ask(&files, &code, &Call::new(WALK_WITH, &[5]))? else {
                continue;
            };
            if self.classes.count(&format!("walk_with: refused {}", refusal.number)) > 0 {
                continue;
            }
            self.set(&files, &code);
            for file in faulty() {
                self.call(WALK_WITH, &[0], &file)?;
                self.call(WALK_CODE_WITH, &[0, 0], &file)?;
            }
        }
        Ok(())
    }

    /// As much code as there may be and as many records, each for one of 16 instructions and to the next one, and one
    /// more of both. The first record and the last are for offset 0, and the first leads nowhere; the one before the
    /// last ends with the code.
    fn limits(&mut self) -> Result<(), String> {
        let mut line = vec![0x02; MOST_CODE];
        line.push(0x0b);
        let part = |k: u32| Handler::new(16 * k, 16 * k + 1, 16 * k + 1);
        let mut records: Vec<Handler> = (0..MOST as u32).map(part).collect();
        records[0].to = NOWHERE;
        records[MOST - 1].end = MOST_CODE as u32;
        records.push(part(0));
        let file = handlers::file(&records);
        let (first, last) = (&file[..MOST * SIZE], &file[SIZE..]);
        let walk = [NO_OBJECT, MOST_CODE as u64];
        self.set(&sample::table(), &line);
        self.call(WALK_CODE_WITH, &walk, &file)?;
        self.set(&sample::table(), &line[..MOST_CODE]);
        self.call(WALK_CODE_WITH, &walk, &file)?;
        self.call(WALK_CODE_WITH, &walk, &file[..MOST * SIZE + 1])?;
        self.call(WALK_CODE_WITH, &walk, first)?;
        self.call(WALK_CODE_WITH, &walk, last)?;
        self.set(&sample::table(), &line[1..]);
        self.call(WALK_CODE_WITH, &walk, last)?;
        // The last of the ends is beyond the code.
        self.set(&sample::table(), &line[2..]);
        self.call(WALK_CODE_WITH, &walk, last)?;
        self.call(WALK_CODE_WITH, &[NO_OBJECT, 9], last)
    }

    /// Codes by a table, each with some files of records.
    fn table(&mut self, r: &mut Random, mut files: Files) -> Result<(), String> {
        let pool = walk_codes::pool(r);
        set_store(&mut files, &[], &[], &pool);
        for _ in 0..CODES {
            let made = walk_codes::code(r, &files, &pool);
            if made.reads_pool {
                set_store(&mut files, &[], &[], &made.pool);
            }
            self.set(&files, &made.code);
            let object = match r.below(20) {
                0 => NO_OBJECT,
                1..=6 if !made.reads_pool => NO_OBJECT,
                _ => 0,
            };
            let length = made.code.len() as u64;
            let marks = match r.below(30) {
                0 => length - 1,
                1..=4 => length + 1 + r.below(9),
                _ => length,
            };
            for _ in 0..SETS {
                let file = random_records(r, &files, &made.code)?;
                self.call(WALK_CODE_WITH, &[object, marks], &file)?;
            }
        }
        for j in 0..OBJECTS_CODES {
            let made = walk_codes::code(r, &files, &pool);
            let held = if j == 0 && !made.reads_pool { &[] } else { &made.pool[..] };
            set_store(&mut files, &[0; 14], &made.code, held);
            self.set(&files, &[]);
            for _ in 0..SETS {
                let file = random_records(r, &files, &made.code)?;
                self.call(WALK_WITH, &[made.code.len() as u64 + r.below(3)], &file)?;
            }
        }
        Ok(())
    }
}

/// Files of records that are good for code of a byte or more, cut, at fault, and both.
fn faulty() -> [Vec<u8>; 4] {
    let good = handlers::file(&one(0, 1, 0));
    let bad = handlers::file(&[Handler::new(0, 1, 0), Handler::new(1, 1, 0)]);
    [good.clone(), good[..7].to_vec(), bad.clone(), [&bad[..], &[0]].concat()]
}

/// Records for a code: most bounds and handlers are instructions; now and then a record is at fault or the file is
/// cut.
fn random_records(r: &mut Random, files: &Files, code: &[u8]) -> Result<Vec<u8>, String> {
    let port = Port::new(files, TABLE)?;
    let length = code.len() as u32;
    let starts: Vec<u32> = match decode::all(&port, code) {
        Ok(listed) => listed.iter().map(|ins| ins.offset as u32).collect(),
        Err(_) => (0..length).collect(),
    };
    let count = match r.below(8) {
        0 => 0,
        1..=3 => 1,
        4 | 5 => 2,
        6 => 3,
        _ => 4 + r.below(8),
    };
    // One in so many handlers is no instruction.
    let bad = *r.pick(&[1_000, 1_000, 8, 3]);
    let records: Vec<Handler> =
        (0..count).map(|_| random_record(r, &starts, length, bad)).collect();
    let mut file = handlers::file(&records);
    if r.once_in(80) {
        file.truncate(r.below(file.len() as u64 + 1) as usize);
        file.push(0);
    }
    Ok(file)
}

fn random_record(r: &mut Random, starts: &[u32], length: u32, bad: u64) -> Handler {
    let bound = |r: &mut Random| {
        let at = if r.once_in(5) { length } else { *r.pick(starts) };
        match r.below(12) {
            0 => at.saturating_sub(1),
            1 => (at + 1).min(length),
            _ => at,
        }
    };
    let within = r.below(length as u64) as u32;
    let to = match r.once_in(bad) {
        true => *r.pick(&[within, length, length + 1, NOWHERE]),
        false => *r.pick(starts),
    };
    let (a, b) = (bound(r), bound(r));
    if r.once_in(90) {
        return Handler::new(a, *r.pick(&[a, b, length + 1, NOWHERE]), to);
    }
    let (start, end) = (a.min(b).min(length - 1), a.max(b));
    Handler::new(start, end.max(start + 1), to)
}

/// LdaZero, LdaSmi, LdaSmi.Wide, LdaSmi.ExtraWide, Star, Return; LdaZero and Return, which no step but a handler's
/// reaches.
const LINE: &[u8] = &[2, 3, 5, 0, 3, 5, 0, 1, 3, 5, 0, 0, 0, 4, 0xfa, 0x0b, 2, 0x0b];
const LINE_HANDLER: u32 = 16;

/// Throw in `with_throw`.
const THROW: u8 = 0x0c;

fn with_throw(mut files: Files) -> Files {
    files.body[OPCODES].extend(opcode_record("Throw", 0, &[]));
    files
}

/// Code, and records.
fn rows() -> [(&'static [u8], Vec<Handler>); 12] {
    let code: &[u8] = &[0x02, 0x0b, 0x02, 0x0b];
    [
        (code, Vec::new()),
        (code, one(0, 1, 2)),
        (code, one(0, 1, 4)),
        (code, one(0, 1, NOWHERE)),
        (code, one(1, 2, 4)),
        (code, vec![Handler::new(0, 1, 4), Handler::new(0, 2, 2)]),
        (code, vec![Handler::new(0, 2, 2), Handler::new(0, 1, 4)]),
        (&[THROW, 0x02, 0x0b], one(0, 1, 1)),
        (&[THROW, 0x02], one(0, 1, 1)),
        (&[0x00, 0x03, 5, 0, 0x0b], one(1, 4, 9)),
        (code, one(1, 1, 2)),
        (code, vec![Handler::new(0, 1, 2), Handler::new(0, 5, 2)]),
    ]
}

/// Distances of `instruction`, by element.
const DISTANCES: [i32; 14] = [0, 1, 2, 3, 4, 5, 6, 7, 8, 9, 10, 11, 12, 13];

/// The sample's table and behind it each name that is told apart, with its operands in V8.
fn names_table() -> Files {
    let mut files = sample::function(&[], 8, &DISTANCES.map(Some));
    for name in named() {
        files.body[OPCODES].extend(opcode_record(name, 0, operands(name)));
    }
    files
}

fn operands(name: &str) -> &'static [u8] {
    match name {
        "JumpLoop" => &[11, 9],
        "JumpLoopConstant" => &[10, 9],
        "SwitchOnSmiNoFeedback" => &[10, 11, 9],
        "SwitchOnGeneratorState" => &[0, 10, 11],
        "SuspendGenerator" => &[0, 6, 8, 11],
        "Abort" => &[10],
        _ if walk_codes::is_jump(name) && name.ends_with("Constant") => &[10],
        _ if walk_codes::is_jump(name) => &[11],
        _ => &[],
    }
}

/// The instruction at offset 0: jumps and entries lead behind it, loops to itself.
fn instruction(files: &Files, name: &str, scale: usize) -> Vec<u8> {
    let opcode = 12 + named().position(|known| known == name).unwrap();
    assert!(opcode < files.count(OPCODES));
    let prefix: &[u8] = [&[][..], &[0x00], &[0x01]][scale / 2];
    let count = operands(name).len();
    let behind = 1 + scale * count;
    // A distance and the element that holds it are the same number.
    let values: Vec<usize> = match name {
        "JumpLoop" | "JumpLoopConstant" => vec![prefix.len(), 0],
        "SwitchOnSmiNoFeedback" => vec![behind, 1, 0],
        "SwitchOnGeneratorState" => vec![0, behind, 1],
        _ if walk_codes::is_jump(name) => vec![behind],
        _ => vec![0; count],
    };
    let operands = values.iter().flat_map(|value| value.to_le_bytes()[..scale].to_vec());
    [prefix, &[opcode as u8]].concat().into_iter().chain(operands).collect()
}

#[cfg(test)]
mod tests {
    use super::*;
    use crate::ask::{ask_with, Answer};
    use crate::handler_classes::wanted;
    use crate::recording::SEED;
    use crate::vectors;
    use crate::walks::Outcome;

    /// The file in recorded/ is what the seed gives, and every class has a case.
    #[test]
    fn recorded_file_is_current() {
        let recording = record(SEED).unwrap();
        assert_eq!(recording.classes.missing(&wanted()), Vec::<String>::new());
        let recorded = include_bytes!("../recorded/walk-handlers.vec");
        assert!(recorded[..] == recording.writer.out);
        assert_eq!(vectors::replay(recorded), Ok(recording.writer.calls));
    }

    /// With no records the walks are those of the calls that are lent none.
    #[test]
    fn no_records() {
        let recorded = include_bytes!("../recorded/walk-2.vec");
        let calls = vectors::each(recorded, |recorded| {
            let mut call = recorded.call.clone();
            call.function += WALK_WITH - WALK;
            let answer = ask(recorded.files, recorded.code, &call)?;
            assert!(vectors::said(&answer) == recorded.said, "item at {}", recorded.at);
            Ok(())
        });
        assert!(calls.unwrap() > 5_000);
    }

    /// What rewalk says of the functions with handlers in a file, from our own marks: as many of them are closed, and as many handlers reached, here.
    #[test]
    fn tries_are_as_many() {
        let stdout = include_str!("../../crates/rewalk/stdout");
        for (name, recorded) in [
            ("walk-handlers.vec", &include_bytes!("../recorded/walk-handlers.vec")[..]),
            ("walk-tries.vec", &include_bytes!("../recorded/walk-tries.vec")[..]),
            ("walk-tries-v8.vec", &include_bytes!("../recorded/walk-tries-v8.vec")[..]),
        ] {
            let (mut functions, mut closed, mut handlers, mut reached) = (0, 0, 0, 0);
            vectors::each(recorded, |recorded| {
                if recorded.call.function != WALK_WITH {
                    return Ok(());
                }
                functions += 1;
                handlers += recorded.handlers.len() / 12;
                let call = Call::new(WALK_WITH, &[65_536]);
                let answer = ask_with(recorded.files, &[], recorded.handlers, &call)?;
                let Answer::Walked(walked) = answer else { return Ok(()) };
                closed += usize::from(matches!(walked.outcome, Outcome::Closed));
                let to = |record: &[u8]| u32::from_le_bytes(record[8..].try_into().unwrap());
                let marked = |record: &&[u8]| walked.marks.get(to(record) as usize) == Some(&true);
                reached += recorded.handlers.chunks_exact(12).filter(marked).count();
                Ok(())
            })
            .unwrap();
            let said = format!(
                "tries: {functions} functions, {closed} closed; {handlers} handlers, {reached} reached"
            );
            let lines: Vec<&str> =
                stdout.lines().skip_while(|line| *line != name).take(10).collect();
            assert!(lines.contains(&said.as_str()), "{name}: {said}");
        }
    }
}
