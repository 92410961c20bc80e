//! Cases from a seed: functions over many tables, stores that are odd or damaged, tables that are damaged.

use oracle::codes;
use oracle::convert::old_opcodes;
use oracle::flow_cases::change_flows;
use oracle::handlers::{self, Handler};
use oracle::random::Random;
use oracle::real::{self, Real};
use oracle::records::*;
use oracle::stores;

/// Names that a jump, a switch or an end has.
const FLOWS: [&str; 12] = [
    "Jump",
    "JumpConstant",
    "JumpLoop",
    "JumpLoopConstant",
    "JumpIfTrue",
    "JumpIfNotHoleConstant",
    "JumpIfReferenceError",
    "SwitchOnSmiNoFeedback",
    "SwitchOnSmiNoFeedback",
    "SwitchOnGeneratorState",
    "Return",
    "SuspendGenerator",
];

/// What the cases are made from.
pub struct Stock {
    /// The sample's table first, then random ones.
    tables: Vec<Files>,
    real: Vec<Real>,
}

impl Stock {
    /// `real` are functions that V8 printed, or none.
    pub fn new(r: &mut Random, real: Vec<Real>) -> Stock {
        let pools = codes::pools(r);
        let mut tables = vec![oracle::sample::table()];
        for k in 0..80 {
            let mut table = codes::table(r, &pools, k);
            if k % 3 != 0 {
                flowing(r, &mut table);
            }
            // Of some the flows are not those of the names.
            if k % 4 == 1 {
                change_flows(r, &mut table);
            }
            tables.push(table);
        }
        Stock { tables, real }
    }

    /// A function: a code over a table, in a store. The functions of a turn share what they can of the table, which takes long to set.
    pub fn function(&self, r: &mut Random, turn: u64) -> Function {
        let mut shared = Random::new(turn);
        if !self.real.is_empty() && shared.once_in(24) {
            return self.damaged(r, shared.pick(&self.real));
        }
        let table = if shared.once_in(6) { &self.tables[0] } else { shared.pick(&self.tables) };
        let mut code = Vec::new();
        for _ in 0..1 + r.below(3) {
            code.extend(codes::code(r, table).bytes);
        }
        if r.once_in(12) {
            let some = r.below(24) as usize;
            code = r.bytes(some);
        }
        Function { table: table.clone(), code, ..Function::random(r, &mut shared) }
    }

    /// A function that V8 printed, with bytes changed, cut out or put in.
    fn damaged(&self, r: &mut Random, real: &Real) -> Function {
        // Behind the length field and the run's header fields.
        let from = 8 + real.files.layout(2) as usize - 40;
        let run = &real.files.body[PAYLOAD][from..][..real.code.min(600)];
        let mut code = run.to_vec();
        for _ in 0..r.below(4) {
            let at = r.below(code.len() as u64 + 1) as usize;
            match r.below(3) {
                0 if at < code.len() => code[at] = r.next() as u8,
                1 if at < code.len() => drop(code.remove(at)),
                _ => code.insert(at, r.next() as u8),
            }
        }
        let mut table = real.files.clone();
        table.body[OBJECTS..].iter_mut().for_each(Vec::clear);
        let shared = &mut Random::new(real.code as u64);
        Function { table, code, ..Function::random(r, shared) }
    }

    /// A store that is odd: a function's with slots changed, or a random one.
    pub fn store(&self, r: &mut Random, turn: u64) -> Files {
        if r.once_in(4) {
            let (ts, unit) = (*r.pick(&[4, 8]), *r.pick(&[0, 4, 8]));
            let store = stores::store(r, ts, unit);
            let mut files = self.tables[0].clone();
            files.body[OBJECTS..].clone_from_slice(&store.body[OBJECTS..]);
            files.body[LAYOUT][..8].copy_from_slice(&store.body[LAYOUT][..8]);
            if !files.body[OBJECTS].is_empty() && !r.once_in(8) {
                files.body[OBJECTS][0] = 1;
            }
            return files;
        }
        let mut files = self.function(r, turn).files();
        for _ in 0..1 + r.below(3) {
            odd(r, &mut files);
        }
        files
    }

    /// A table with some bytes changed, put in or cut out, and a function by it.
    pub fn table(&self, r: &mut Random, turn: u64) -> Files {
        let mut files = self.function(r, turn).with_code(&[0x02]).files();
        for _ in 0..1 + r.below(2) {
            let file = r.below(5) as usize;
            damage(r, &mut files, file);
        }
        files
    }

    /// Opcodes and types to be converted: of records of 64 bytes or of 72, as they are or with a byte changed, put in or cut out.
    pub fn to_convert(&self, r: &mut Random) -> Files {
        let table = r.pick(&self.tables);
        let mut files = Files::default();
        files.body[..=TYPES].clone_from_slice(&table.body[..=TYPES]);
        let keep = r.below(6) as usize;
        if keep > 0 {
            let most = files.count(OPCODES).min(keep * keep);
            files.body[OPCODES].truncate(most * SIZES[OPCODES]);
        }
        if r.once_in(2) {
            files.body[OPCODES] = old_opcodes(&files.body[OPCODES]);
        }
        for _ in 0..r.below(3) {
            let file = r.below(2) as usize;
            damage(r, &mut files, file);
        }
        files
    }
}

/// A byte of a file changed, or some put in or cut out; in an opcode record the flow at times.
fn damage(r: &mut Random, files: &mut Files, file: usize) {
    let records = files.count(file) as u64;
    let body = &mut files.body[file];
    let at = match file == OPCODES && records > 0 && r.once_in(3) {
        true => r.below(records) as usize * SIZES[OPCODES] + FLOW + r.below(4) as usize,
        false => r.below(body.len() as u64 + 1) as usize,
    };
    match r.below(12) {
        0 => body.truncate(at),
        1 => body.extend(vec![0; *r.pick(&[1, 31, 32, 64, 72, 80])]),
        2 => body.clear(),
        _ if at < body.len() => body[at] = *r.pick(&[0, 1, 2, 9, 255, b'_', b'-', b'z']),
        _ => {}
    }
}

/// A file of handler records for code of this length, whose instructions start there: most bounds and handlers are such
/// places; now and then a record is at fault or the file is cut.
pub fn handlers(r: &mut Random, starts: &[u32], length: u32) -> Vec<u8> {
    let place = |r: &mut Random| match r.below(8) {
        0 => r.below(length as u64 + 3) as u32,
        1 => length,
        _ if starts.is_empty() => r.below(length as u64 + 1) as u32,
        _ => *r.pick(starts),
    };
    let one = |r: &mut Random| {
        let (a, b, to) = (place(r), place(r), place(r));
        match r.below(40) {
            0 => Handler::new(b, a, to),
            1 => Handler::new(a, length + 1, u32::MAX),
            _ => {
                let start = a.min(b).min(length.saturating_sub(1));
                Handler::new(start, a.max(b).min(length).max(start + 1), to)
            }
        }
    };
    let count = *r.pick(&[0, 1, 1, 1, 2, 2, 3, 9]);
    let mut file = handlers::file(&(0..count).map(|_| one(r)).collect::<Vec<_>>());
    match r.below(200) {
        0 => file.push(0),
        1 => drop(file.pop()),
        _ => {}
    }
    file
}

/// Renames opcodes to jumps, switches and ends; half of these get the operands that they have in V8, or nearly.
fn flowing(r: &mut Random, table: &mut Files) {
    for k in 0..table.count(OPCODES) {
        let size = SIZES[OPCODES];
        let record = &mut table.body[OPCODES][size * k..size * (k + 1)];
        if record[40] != 0 || r.once_in(3) {
            continue;
        }
        let name = *r.pick(&FLOWS);
        let number = |r: &mut Random| *r.pick(&[11u8, 9, 11, 10]);
        let operands: Vec<u8> = match name {
            _ if r.once_in(3) => record[42..42 + record[41] as usize].to_vec(),
            "SwitchOnSmiNoFeedback" => vec![10, number(r), *r.pick(&[9, 9, 11])],
            "SwitchOnGeneratorState" => vec![0, 10, number(r)],
            "Return" | "SuspendGenerator" => vec![],
            _ if name.ends_with("Constant") => vec![10],
            _ => vec![number(r)],
        };
        record.copy_from_slice(&opcode_record(name, 0, &operands));
    }
}

/// A BytecodeArray and its pool, by parts.
#[derive(Clone)]
pub struct Function {
    pub table: Files,
    pub code: Vec<u8>,
    /// None is a reference.
    pub pool: Vec<Option<i32>>,
    ts: u32,
    unit: u32,
    parameters: i32,
    /// Layout values 6, 9, 10 and 11 that are there, as bits.
    fields: u64,
    /// What the length field says more than the code has.
    longer: i32,
}

impl Function {
    /// Sizes and fields of the layout are shared.
    fn random(r: &mut Random, shared: &mut Random) -> Function {
        let pool = (0..r.below(7)).map(|_| element(r)).collect();
        let (ts, unit) = match shared.below(4) {
            0 => (4, *shared.pick(&[0, 4, 8])),
            1 => (8, *shared.pick(&[0, 4, 8])),
            _ => (8, 0),
        };
        let longer = match r.below(200) {
            0 => *r.pick(&[-1_000_000, 65_536, 65_537, 1, i32::MAX / 4]),
            _ => 0,
        };
        let parameters = *r.pick(&[8, 8, 0, 16, -9, 0x10000, i32::MIN]);
        let (table, code) = (Files::default(), Vec::new());
        Function { table, code, pool, ts, unit, parameters, fields: shared.next(), longer }
    }

    pub fn with_code(&self, code: &[u8]) -> Function {
        Function { code: code.to_vec(), ..self.clone() }
    }

    pub fn with_pool(&self, pool: &[Option<i32>]) -> Function {
        Function { pool: pool.to_vec(), ..self.clone() }
    }

    /// As V8 lays it out: map, length, pool, handler table, source positions, then a run of header fields and code.
    pub fn files(&self) -> Files {
        let mut files = self.table.clone();
        let unit = if self.unit == 0 { 8 } else { self.unit } as usize;
        let present =
            |bit: u64, at: usize| if self.fields >> bit & 1 == 1 { at as i64 } else { -1 };
        let at = 5 * unit;
        let head = [self.ts as i64, self.unit as i64, at as i64 + 14];
        let slots = [2 * unit as i64, 3 * unit as i64, 4 * unit as i64, present(0, unit)];
        let fields = [at as i64, at as i64 + 4, present(1, at + 12), present(2, at + 8)];
        let rest = [present(3, at + 13), (self.fields >> 4 & 1) as i64];
        let values = [&head[..], &slots, &fields, &rest].concat();
        let frame = files.body[LAYOUT][4 * 13..].to_vec();
        files.body[LAYOUT] = values.iter().flat_map(|v| (*v as u32).to_le_bytes()).collect();
        files.body[LAYOUT].extend(frame);
        let mut bytes = 24i32.to_le_bytes().to_vec();
        bytes.extend(self.parameters.to_le_bytes());
        bytes.extend([7, 0, 0, 0, 3, 1]);
        real::store(&mut files, &self.code, &bytes, &self.pool);
        if self.ts == 4 {
            halved(&mut files);
        }
        if self.longer != 0 {
            let length = (self.code.len() as i32).wrapping_add(self.longer);
            let field = if self.ts == 8 { 4 } else { 0 };
            let said = if self.ts == 8 { length } else { length.wrapping_mul(2) };
            files.body[PAYLOAD][field..field + 4].copy_from_slice(&said.to_le_bytes());
        }
        files
    }
}

fn element(r: &mut Random) -> Option<i32> {
    match r.below(5) {
        0 => None,
        1 => Some(*r.pick(&[0, -1, i32::MAX / 2, i32::MIN / 2])),
        _ => Some(r.below(30) as i32),
    }
}

/// Runs of small integers in 4 bytes each: all of object 1's, and the length field of object 0.
fn halved(files: &mut Files) {
    let old = std::mem::take(&mut files.body[PAYLOAD]);
    let slots: Vec<Slot> = files.all(SLOTS).map(Slot::read).collect();
    let mut out = Vec::new();
    for (k, slot) in slots.iter().enumerate() {
        if slot.kind != 4 {
            out.extend(slot.bytes());
            continue;
        }
        let bytes = &old[slot.number as usize..][..slot.length as usize];
        let kept: Vec<u8> = match k {
            5 => bytes.to_vec(),
            _ => bytes
                .chunks_exact(8)
                .flat_map(|b| {
                    i32::from_le_bytes(b[4..].try_into().unwrap()).wrapping_mul(2).to_le_bytes()
                })
                .collect(),
        };
        let number = files.body[PAYLOAD].len() as u32;
        out.extend(Slot { number, length: kept.len() as u32, ..*slot }.bytes());
        files.body[PAYLOAD].extend(kept);
    }
    files.body[SLOTS] = out;
}

/// One thing of a store changed: a slot's index, kind, run or repeat, an object, a byte; or a slot put in, taken out or split.
fn odd(r: &mut Random, files: &mut Files) {
    let mut slots: Vec<Slot> = files.all(SLOTS).map(Slot::read).collect();
    let mut objects: Vec<Object> = files.all(OBJECTS).map(Object::read).collect();
    if slots.is_empty() || objects.is_empty() {
        return;
    }
    let k = r.below(slots.len() as u64) as usize;
    let payload = files.body[PAYLOAD].len() as u32;
    match r.below(12) {
        0 => slots[k].index = (slots[k].index as i64 + *r.pick(&[-1, 1, 2, 5])).max(0) as u32,
        1 => {
            slots[k] = Slot { index: slots[k].index, kind: *r.pick(&[0, 2, 3]), ..Slot::default() }
        }
        2 => {
            slots[k] = Slot {
                index: slots[k].index,
                kind: 1,
                number: r.below(3) as u32,
                ..Slot::default()
            }
        }
        3 => {
            let inner = if slots[k].kind < 5 { slots[k].kind } else { 0 };
            let count = *r.pick(&[0, 1, 2, 3, 40]);
            slots[k] = Slot { kind: 5, inner, count, ..slots[k] };
        }
        4 => slots[k].length = r.below(payload as u64 + 2) as u32,
        5 => slots[k].number = r.below(payload as u64 + 1) as u32,
        6 => {
            let o = r.below(objects.len() as u64) as usize;
            match r.below(4) {
                0 => objects[o].kind = r.below(4) as u8,
                1 => objects[o].first = r.below(slots.len() as u64 + 1) as u32,
                2 => objects[o].count = r.below(slots.len() as u64 + 1) as u32,
                _ => objects[o].raw_len = 1,
            }
        }
        7 | 8 => split(r, &mut slots, &mut objects, k),
        9 => {
            let at = r.below(files.body[PAYLOAD].len() as u64 + 1) as usize;
            if let Some(byte) = files.body[PAYLOAD].get_mut(at) {
                *byte = r.next() as u8;
            }
        }
        10 => files.body[PAYLOAD].truncate(r.below(payload as u64 + 1) as usize),
        _ => {
            let value = *r.pick(&[2, 3, 6, 7, 8, 9, 11]);
            let field = *r.pick(&[0u32, 8, 16, 40, 45, 1_000, 65_535, ABSENT]);
            files.body[LAYOUT][4 * value..4 * value + 4].copy_from_slice(&field.to_le_bytes());
        }
    }
    files.body[SLOTS] = slots.iter().flat_map(Slot::bytes).collect();
    files.body[OBJECTS] = objects.iter().flat_map(Object::bytes).collect();
    if r.once_in(40) {
        let file = *r.pick(&[OBJECTS, SLOTS, PAYLOAD]);
        let body = &mut files.body[file];
        let at = r.below(body.len() as u64 + 1) as usize;
        match r.below(3) {
            0 => body.truncate(at),
            1 => body.push(0),
            _ if at < body.len() => body[at] = r.next() as u8,
            _ => {}
        }
    }
}

/// Puts a slot behind slot k: the same again, or the second part of its run.
fn split(r: &mut Random, slots: &mut Vec<Slot>, objects: &mut [Object], k: usize) {
    let mut next = slots[k];
    if slots[k].kind == 4 && slots[k].length > 8 && r.once_in(2) {
        let at = *r.pick(&[4, 8, slots[k].length - 1]);
        next.number += at;
        next.length -= at;
        next.index += at / 8;
        slots[k].length = at;
    } else if r.once_in(2) {
        next = Slot { index: next.index, kind: *r.pick(&[0, 2, 3]), ..Slot::default() };
    }
    slots.insert(k + 1, next);
    for object in objects {
        let end = object.first + object.count;
        if (object.first..end).contains(&(k as u32)) {
            object.count += 1;
        } else if object.first > k as u32 {
            object.first += 1;
        }
    }
}
