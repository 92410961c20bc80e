//! Random functions: tables with jumps and switches, stores that hold a header, code and a pool, and
//! codes for them.

use crate::codes::{self, Pools};
use crate::flows::{Flow, SWITCHES_ON};
use crate::random::Random;
use crate::records::*;
use crate::sample;

/// The names that have a target.
pub const JUMPS: [&str; 30] = [
    "Jump",
    "JumpConstant",
    "JumpIfTrue",
    "JumpIfTrueConstant",
    "JumpIfFalse",
    "JumpIfFalseConstant",
    "JumpIfToBooleanTrue",
    "JumpIfToBooleanTrueConstant",
    "JumpIfToBooleanFalse",
    "JumpIfToBooleanFalseConstant",
    "JumpIfNull",
    "JumpIfNullConstant",
    "JumpIfNotNull",
    "JumpIfNotNullConstant",
    "JumpIfUndefined",
    "JumpIfUndefinedConstant",
    "JumpIfUndefinedOrNull",
    "JumpIfUndefinedOrNullConstant",
    "JumpIfNotUndefined",
    "JumpIfNotUndefinedConstant",
    "JumpIfJSReceiver",
    "JumpIfJSReceiverConstant",
    "JumpIfNotHole",
    "JumpIfNotHoleConstant",
    "JumpIfReferenceError",
    "JumpIfReferenceErrorConstant",
    "JumpIfNotReferenceError",
    "JumpIfNotReferenceErrorConstant",
    "JumpLoop",
    "JumpLoopConstant",
];

/// Names near those.
pub const NEAR: [&str; 5] =
    ["JumpIfForInDone", "JumpIfForInDoneConstant", "LdaConstant", "JumpLoops", "jump"];

pub const SWITCHES: [&str; 2] = ["SwitchOnSmiNoFeedback", "SwitchOnGeneratorState"];

/// A random table with some of these names; the k-th of a recording.
pub fn table(r: &mut Random, pools: &Pools, k: usize) -> Files {
    // Tables whose number is a multiple of 10 are long.
    let mut files = codes::table(r, pools, 1 + k + k / 9);
    let mut named = Vec::new();
    for j in 0..5 {
        named.extend(jump(r, JUMPS[(5 * k + j) % JUMPS.len()]));
    }
    named.extend(jump(r, NEAR[k % NEAR.len()]));
    if k % 3 == 0 {
        named.extend(jump(r, "JumpLoop"));
        named.extend(jump(r, "JumpLoopConstant"));
    }
    for name in SWITCHES {
        named.extend(switch(r, name));
    }
    let others = std::mem::take(&mut files.body[OPCODES]);
    files.body[OPCODES] =
        if r.once_in(3) { [named, others].concat() } else { [others, named].concat() };
    files
}

/// A distance in front, mostly.
fn jump(r: &mut Random, name: &str) -> Vec<u8> {
    let first = if name.ends_with("Constant") { 10 } else { *r.pick(&[11, 11, 9, 10, 12]) };
    let codes = match r.below(9) {
        0 => vec![*r.pick(&[0, 6, 8, 9, 13, 14, 15, 16])],
        1 if r.once_in(2) => Vec::new(),
        _ if name.starts_with("JumpLoop") => vec![first, 9],
        _ => vec![first],
    };
    opcode_record(name, 0, &codes)
}

/// The right kinds of operands, mostly.
fn switch(r: &mut Random, name: &str) -> Vec<u8> {
    let count = *r.pick(&[11, 11, 9, 8]);
    let mut codes = match name {
        "SwitchOnSmiNoFeedback" => vec![10, count, *r.pick(&[9, 9, 11])],
        _ => vec![*r.pick(&[0, 9]), 10, count],
    };
    match r.below(9) {
        0 => codes[r.below(3) as usize] = *r.pick(&[0, 13, 16]),
        1 => codes.truncate(r.below(3) as usize),
        _ => {}
    }
    opcode_record(name, 0, &codes)
}

/// Some instructions, more of them jumps and switches; at times the end is cut, or a prefix.
pub fn code(r: &mut Random, files: &Files, pool: &Elements) -> Vec<u8> {
    let mut out = Vec::new();
    for _ in 0..*r.pick(&[0, 1, 1, 2, 2, 3, 3, 4]) {
        match r.below(5) {
            0 => codes::instruction(r, files, &mut out),
            _ => flowing(r, files, pool, &mut out),
        }
    }
    match r.below(16) {
        0 | 1 if out.len() > 1 => out.truncate(out.len() - 1 - r.below(2) as usize),
        2 => out.extend(codes::marked(files, 1 + r.below(2) as u8)),
        _ => {}
    }
    out
}

/// A jump or a switch, with numbers near those of the pool's elements.
fn flowing(r: &mut Random, files: &Files, pool: &Elements, out: &mut Vec<u8>) {
    let flows = |k: &usize| {
        let flow = Flow::of(&Opcode(files.record(OPCODES, *k)));
        flow.jumps() || flow.kind == SWITCHES_ON
    };
    let flowing: Vec<usize> = (0..files.count(OPCODES)).filter(flows).collect();
    let mut scale = 1;
    if r.once_in(4) {
        let by = 1 + r.below(2) as u8;
        if let Some(prefix) = codes::marked(files, by) {
            out.push(prefix);
            scale = 2 * by as usize;
        }
    }
    let opcode = *r.pick(&flowing);
    out.push(opcode as u8);
    let record = Opcode(files.record(OPCODES, opcode));
    let codes = &record.codes()[..record.operands()];
    for (k, code) in codes.iter().enumerate() {
        if *code == 8 && k > 0 && matches!(codes[k - 1], 6 | 7) {
            continue;
        }
        let counts = if matches!(code, 6 | 7) { vec![*code, 8] } else { vec![*code] };
        for code in counts {
            let value = match r.below(12) {
                0 => r.next(),
                1 => u64::MAX - r.below(4),
                2 => *r.pick(&[4096, 4097, 1 << 31, 1 << 32]),
                3..=8 if code == 10 && !pool.numbers.is_empty() => *r.pick(&pool.numbers),
                _ => r.below(pool.count + 2),
            };
            let width = codes::width_of(files, code, scale);
            out.extend(&value.to_le_bytes()[..width]);
        }
    }
}

/// Functions of a switch and a Return: both names, without a prefix and under both, entries shown and skipped, cases that wrap.
pub fn switches() -> Vec<(Files, Vec<u8>)> {
    let pool = [Some(9), None, Some(-3)];
    let smi = |scale, numbers: [i64; 3]| switch_code(scale, 0x09, numbers);
    let generator = |scale, numbers: [i64; 3]| switch_code(scale, 0x0c, numbers);
    let mut out = Vec::new();
    for scale in [1, 2, 4] {
        out.extend([smi(scale, [0, 3, 5]), smi(scale, [0, 0, 5]), smi(scale, [1, 1, -1])]);
        let lowest = -1 << (8 * scale - 1);
        out.extend([smi(scale, [2, 2, lowest]), smi(scale, [3, 2, 0])]);
        out.extend([generator(scale, [-6, 0, 3]), generator(scale, [-6, 0, 0])]);
        out.extend([generator(scale, [-6, 1, 1]), generator(scale, [-6, 2, 4])]);
        out.push(generator(scale, [-6, 2, 1]));
    }
    out.push(smi(4, [0, 3, i32::MAX as i64]));
    let function = |code: Vec<u8>| (with_generator(sample::function(&code, 8, &pool)), code);
    out.into_iter().map(function).collect()
}

/// The same under a prefix, with the greatest number of entries, and one more.
pub fn large_switches() -> Vec<(Files, Vec<u8>)> {
    let most = switch_code(2, 0x09, [0, 4_096, 0]);
    let more = [switch_code(2, 0x09, [0, 4_097, 0]), switch_code(4, 0x0c, [-6, 0, 4_097])];
    let function = |code: Vec<u8>| (with_generator(repeated(&code)), code);
    [most].into_iter().chain(more).map(function).collect()
}

/// A switch of the sample's table with the generator's as opcode 0c, its operands `scale` bytes wide, and a Return.
pub fn switch_code(scale: usize, opcode: u8, numbers: [i64; 3]) -> Vec<u8> {
    let mut out = match scale {
        1 => vec![opcode],
        _ => vec![scale as u8 / 4, opcode],
    };
    out.extend(numbers.iter().flat_map(|n| n.to_le_bytes()[..scale].to_vec()));
    out.push(0x0b);
    out
}

pub fn with_generator(mut files: Files) -> Files {
    files.body[OPCODES].extend(opcode_record("SwitchOnGeneratorState", 0, &[0, 10, 11]));
    files
}

/// The sample's table with a function of this code, whose pool is one small integer, 4,097 times.
pub fn repeated(code: &[u8]) -> Files {
    let mut files = sample::function(code, 8, &[Some(4)]);
    let last = files.count(SLOTS) - 1;
    let element = Slot::read(files.record(SLOTS, last));
    files.body[SLOTS].truncate(24 * last);
    files.body[SLOTS].extend(Slot { kind: 5, inner: 4, count: 4_097, ..element }.bytes());
    files
}

/// A layout and a store, whose payload each code has for itself.
pub struct Shape {
    pub files: Files,
    pub pool: Elements,
    /// Where in the payload the length field, the fields and the code are.
    length: usize,
    fields: [usize; 4],
    code: usize,
    room: usize,
}

/// The elements of a pool: how many, and which are small integers.
pub struct Elements {
    pub count: u64,
    pub numbers: Vec<u64>,
}

struct Maker<'a> {
    r: &'a mut Random,
    ts: u32,
    slots: Vec<Slot>,
    payload: Vec<u8>,
}

/// How the header and the code lie in runs.
#[derive(PartialEq)]
enum Form {
    /// In one, from the length on.
    One,
    /// Behind the length, in one.
    Two,
    /// Behind the length, fields and code in one each.
    Three,
}

/// Bytes of the header behind its tagged slots.
const FIELDS: u32 = 16;

fn raw(index: u32, number: u32, length: u32) -> Slot {
    Slot { index, kind: 4, number, length, ..Slot::default() }
}

/// A store for code of up to this length.
pub fn shape(r: &mut Random, table: &Files, ts: u32, unit: u32, room: usize) -> Shape {
    let mut files = table.clone();
    let mut maker = Maker { r, ts, slots: Vec::new(), payload: Vec::new() };
    let form = match maker.r.below(5) {
        0 => Form::One,
        1 => Form::Three,
        _ => Form::Two,
    };
    let first = if form == Form::One { 1 } else { *maker.r.pick(&[5, 5, 4, 6, 7]) };
    // From the run's start: the fields, and the code.
    let start = if form == Form::One { ts } else { 0 };
    let header = start + FIELDS + if form == Form::Three { 0 } else { maker.r.below(4) as u32 };
    let tail = if form == Form::One { 0 } else { ts };
    let last = if form == Form::Three { first + FIELDS / ts } else { first };
    let pool_at = *maker.r.pick(&[2, 2, 3]);
    let pool_number = 1 + maker.r.below(2) as u32;
    maker.slots = match form {
        Form::One => vec![raw(1, 0, header + room as u32)],
        Form::Two => vec![raw(1, 0, ts), raw(first, tail, header + room as u32)],
        Form::Three => {
            vec![raw(1, 0, ts), raw(first, tail, FIELDS), raw(last, tail + FIELDS, room as u32)]
        }
    };
    maker.payload = vec![0; (tail + header) as usize + room];
    maker.other_slots(pool_at, pool_number, last);
    let own = maker.slots.len() as u32;
    let pool = maker.pool();
    files.body[OBJECTS] = maker.objects(own, pool_number, &pool);
    files.body[SLOTS] = maker.slots.iter().flat_map(Slot::bytes).collect();
    // In a run of their own, bca_rt_off keeps only fields at whole slots.
    let step = if form == Form::Three { ts } else { 1 };
    let places =
        [4, 4, 1, 1].map(|width| step * maker.r.below(((FIELDS - width) / step) as u64 + 1) as u32);
    let anchor = Anchor { ts, unit: if unit == 0 { 8 } else { unit }, index: last };
    let offsets = places.map(|place| anchor.capture(first * ts + start + place));
    let header_size = anchor.capture(first * ts + header);
    let given = Given { ts, unit, pool: pool_at, header_size, offsets };
    files.body[LAYOUT] = layout(maker.r, table, &anchor, &given);
    files.body[PAYLOAD] = maker.payload;
    let fields = places.map(|place| (tail + start + place) as usize);
    Shape { files, pool, length: 0, fields, code: (tail + header) as usize, room }
}

/// The last raw run, from which bca_rt_off counts.
struct Anchor {
    ts: u32,
    unit: u32,
    index: u32,
}

impl Anchor {
    /// The layout value for a byte of the object.
    fn capture(&self, at: u32) -> u32 {
        let start = self.index * self.ts;
        match at.checked_sub(start) {
            _ if self.ts == self.unit => at,
            Some(behind) => self.index * self.unit + behind,
            None => at / self.ts * self.unit,
        }
    }
}

/// What a layout says of a store.
struct Given {
    ts: u32,
    unit: u32,
    /// The pool's slot.
    pool: u32,
    header_size: u32,
    /// frame_size, parameter_size, osr and age.
    offsets: [u32; 4],
}

/// The layout: some values are absent, and now and then one is another.
fn layout(r: &mut Random, table: &Files, anchor: &Anchor, given: &Given) -> Vec<u8> {
    let mut out = table.body[LAYOUT].clone();
    let [frame, parameters, osr, age] = given.offsets;
    let slot = anchor.unit;
    let length = anchor.capture(anchor.ts);
    let direct = r.below(3) as u32 / 2;
    let mut values = vec![given.ts, given.unit, given.header_size];
    values.extend([given.pool * slot, 3 * slot, 4 * slot, length]);
    values.extend([frame, parameters, osr, osr, age, direct]);
    for value in values.iter_mut().take(12).skip(3) {
        if r.once_in(8) {
            *value = ABSENT;
        }
    }
    // Which of the two names the field has, or both.
    if !r.once_in(6) {
        values[9 + r.below(2) as usize] = ABSENT;
    }
    if given.pool == 2 && r.once_in(3) {
        values[3] = ABSENT;
    }
    if r.once_in(12) {
        values[2 + r.below(10) as usize] = r.below(120) as u32;
    }
    for (k, value) in values.iter().enumerate() {
        out[4 * k..4 * k + 4].copy_from_slice(&value.to_le_bytes());
    }
    out
}

fn small_integer(ts: u32, value: i32) -> Vec<u8> {
    match ts {
        8 => [[0; 4], value.to_le_bytes()].concat(),
        _ => value.wrapping_mul(2).to_le_bytes().to_vec(),
    }
}

/// Distances.
const NUMBERS: [i32; 12] = [0, 1, 2, 3, 5, 8, 13, 40, -1, -3, i32::MIN / 2, i32::MAX / 2];

impl Maker<'_> {
    /// A reference to the pool, mostly, and slots that hold nothing of the function.
    fn other_slots(&mut self, at: u32, number: u32, last: u32) {
        let pool = Slot { index: at, kind: 1, number, ..Slot::default() };
        match self.r.below(20) {
            0..=2 => {}
            3 => self.slots.push(Slot { number: 0, ..pool }),
            4 => self.slots.push(Slot { kind: 5, inner: 1, count: 2, ..pool }),
            5 | 6 => {
                let kind = *self.r.pick(&[0, 2, 3]);
                self.slots.push(Slot { kind, number: 0, ..pool });
            }
            _ => self.slots.push(pool),
        }
        let other = Slot { kind: 3, ..Slot::default() };
        self.slots.push(other);
        if self.r.once_in(4) {
            self.slots.push(Slot { index: last + 1, ..other });
        }
        self.slots.sort_by_key(|slot| slot.index);
    }

    /// Object 0, the pool, and an object without slots before it or behind it.
    fn objects(&self, own: u32, number: u32, pool: &Elements) -> Vec<u8> {
        let count = self.slots.len() as u32 - own;
        let byte_size = self.ts * (2 + pool.count as u32);
        let pool = Object { first: own, count, byte_size, ..Object::default() };
        let mut out = vec![Object { kind: 1, count: own, byte_size: 90, ..Object::default() }];
        out.extend([pool, Object::default()]);
        out.swap(1, number as usize);
        out.iter().flat_map(Object::bytes).collect()
    }

    fn run(&mut self, slot: Slot, bytes: &[u8]) {
        let number = self.payload.len() as u32;
        self.payload.extend(bytes);
        self.slots.push(Slot { number, length: bytes.len() as u32, ..slot });
    }

    fn numbers(&mut self, count: u64) -> Vec<u8> {
        (0..count).flat_map(|_| small_integer(self.ts, *self.r.pick(&NUMBERS))).collect()
    }

    /// The pool: runs of small integers, references, repeats, bytes that are no small integer, gaps.
    fn pool(&mut self) -> Elements {
        let bytes = small_integer(self.ts, 3);
        self.run(raw(1, 0, 0), &bytes);
        let mut out = Elements { count: 0, numbers: Vec::new() };
        for _ in 0..*self.r.pick(&[0, 1, 2, 2, 3, 3, 4]) {
            let index = 2 + out.count as u32;
            let many = 1 + self.r.below(4);
            let kind = self.r.below(9);
            let count = if kind < 6 { many } else { 1 };
            let slot = Slot { index, count: many as u32, ..raw(index, 0, 0) };
            match kind {
                0..=3 => {
                    let bytes = self.numbers(many);
                    self.run(Slot { count: 0, ..slot }, &bytes);
                }
                4 => {
                    let bytes = self.numbers(1);
                    self.run(Slot { kind: 5, inner: 4, ..slot }, &bytes);
                }
                5 => {
                    let inner = *self.r.pick(&[1, 2, 3]);
                    self.slots.push(Slot { kind: 5, inner, ..slot });
                }
                6 => self.run(raw(index, 0, 0), &vec![1; self.ts as usize]),
                7 => {
                    let kind = *self.r.pick(&[0, 1, 2, 3]);
                    self.slots.push(Slot { kind, count: 0, ..slot });
                }
                _ => {}
            }
            if kind < 5 {
                out.numbers.extend(out.count..out.count + count);
            }
            out.count += count;
        }
        out
    }
}

impl Shape {
    /// The files with this code.
    pub fn with(&self, r: &mut Random, code: &[u8]) -> Files {
        let ts = self.files.layout(0);
        let mut files = self.files.clone();
        let payload = &mut files.body[PAYLOAD];
        let frame = match r.below(3) {
            0 => r.next() as u32,
            _ => *r.pick(&[0, 8, 24, 1000, 7]),
        };
        let parameters = match r.below(4) {
            0 => r.next() as u32,
            1 => *r.pick(&[-9i32 as u32, -8i32 as u32, -1i32 as u32, 65_536, 524_288, 1 << 31]),
            _ => *r.pick(&[8, 16, 24, 0, 7, 3]),
        };
        let mut put = |at: usize, bytes: &[u8]| {
            payload[at..at + bytes.len()].copy_from_slice(bytes);
        };
        put(self.fields[2], &[r.below(3) as u8]);
        put(self.fields[3], &[r.next() as u8]);
        put(self.fields[0], &frame.to_le_bytes());
        put(self.fields[1], &parameters.to_le_bytes());
        let held = code.len().min(self.room);
        put(self.code, &code[..held]);
        let length = match r.below(25) {
            0 => *r.pick(&[-1, -2, i32::MIN / 2, 65_537, i32::MAX / 2]),
            1 => *r.pick(&[65_536, self.room as i32 + 1]),
            _ => code.len() as i32,
        };
        put(self.length, &small_integer(ts, length));
        if r.once_in(40) {
            put(self.length, &[1]);
        }
        files
    }
}
