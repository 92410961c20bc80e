//! Random tables with the names that walks tell apart, pools, and codes by them: with many jumps and
//! switches, most of them to instructions, so that walks are long and often closed.

use crate::codes::{self, marked, width_of, Pools};
use crate::flows::{Flow, ALWAYS, ENDS, MAYBE, SWITCHES};
use crate::flows::{BRANCHES, JUMPS, JUMPS_BACK, ON, STOPS, SWITCHES_ON};
use crate::random::Random;
use crate::records::*;
use crate::sample;

// ---- stores ----

#[derive(Debug, Clone, Copy, PartialEq)]
pub enum Element {
    Number(i32),
    /// Bytes in a run that are no small integer.
    NoNumber,
    Reference,
    Root,
}

/// Sets the store: object 0 a BytecodeArray with this code behind the header's last fields, and object
/// 1 its pool, where there are elements. The layout has the slots that V8 has (pool in slot 2).
pub fn set_store(files: &mut Files, head: &[u8], code: &[u8], pool: &[Element]) {
    let ts = files.layout(0) as usize;
    let header = files.layout(2);
    let mut payload = small(ts, code.len() as i32);
    let tail = payload.len() as u32;
    payload.extend(head);
    payload.extend(code);
    let reference = |index| Slot { index, kind: 3, ..Slot::default() };
    let run = |index, number: u32, end: usize| {
        let length = end as u32 - number;
        Slot { index, kind: 4, number, length, ..Slot::default() }
    };
    let pool_slot = match pool.is_empty() {
        true => Slot { index: 2, kind: 2, ..Slot::default() },
        false => Slot { index: 2, kind: 1, number: 1, ..Slot::default() },
    };
    let mut slots = vec![reference(0), run(1, 0, ts), pool_slot, reference(3), reference(4)];
    slots.push(run(5, tail, payload.len()));
    let byte_size = header + code.len() as u32;
    let mut objects = Object { kind: 1, count: 6, byte_size, ..Object::default() }.bytes();
    if !pool.is_empty() {
        slots.push(reference(0));
        // A run goes on until an element that is a slot of its own.
        let mut start = (1, payload.len() as u32);
        payload.extend(small(ts, pool.len() as i32));
        for (k, element) in pool.iter().enumerate() {
            let index = 2 + k as u32;
            let own = match element {
                Element::Number(v) => {
                    payload.extend(small(ts, *v));
                    continue;
                }
                Element::NoNumber => {
                    payload.extend(&[1, 0, 0, 0, 9, 0, 0, 0][..ts]);
                    continue;
                }
                Element::Reference => reference(index),
                Element::Root => Slot { index, kind: 2, ..Slot::default() },
            };
            if payload.len() as u32 > start.1 {
                slots.push(run(start.0, start.1, payload.len()));
            }
            slots.push(own);
            start = (index + 1, payload.len() as u32);
        }
        if payload.len() as u32 > start.1 {
            slots.push(run(start.0, start.1, payload.len()));
        }
        let (count, byte_size) = (slots.len() as u32 - 6, (ts * (2 + pool.len())) as u32);
        objects.extend(Object { first: 6, count, byte_size, ..Object::default() }.bytes());
    }
    files.body[OBJECTS] = objects;
    files.body[SLOTS] = slots.iter().flat_map(Slot::bytes).collect();
    files.body[PAYLOAD] = payload;
}

/// Sets the length field of such a store, whatever its code is.
pub fn set_length(files: &mut Files, length: i32) {
    let ts = files.layout(0) as usize;
    files.body[PAYLOAD][..ts].copy_from_slice(&small(ts, length));
}

/// A small integer of the tagged size.
fn small(ts: usize, value: i32) -> Vec<u8> {
    match ts {
        4 => value.wrapping_mul(2).to_le_bytes().to_vec(),
        _ => ((value as u32 as u64) << 32).to_le_bytes().to_vec(),
    }
}

/// Which elements a pool has; their numbers come with a code.
pub fn pool(r: &mut Random) -> Vec<Element> {
    let one = |r: &mut Random| match r.below(16) {
        0 => Element::NoNumber,
        1 => Element::Reference,
        2 => Element::Root,
        _ => Element::Number(0),
    };
    (0..3 + r.below(6)).map(|_| one(r)).collect()
}

// ---- tables ----

/// Names that are like those that walks tell apart, and are others.
pub const NEAR: [&str; 10] = [
    "JumpIfForInDone",
    "JumpIf",
    "Jump_",
    "JumpLoopConstants",
    "jump",
    "SwitchOnSmi",
    "Returns",
    "ThrowReferenceErrorIfHole",
    "LdaConstant",
    "Abor",
];

/// The sample table with a second switch, or a random table whose opcodes mostly have such names.
pub fn table(r: &mut Random, pools: &Pools, k: usize) -> Files {
    if k % 5 == 0 {
        let mut files = sample::table();
        files.body[OPCODES].extend(opcode_record("SwitchOnGeneratorState", 0, &[0, 10, 11]));
        files.body[OPCODES].extend(opcode_record("JumpLoopConstant", 0, &[10, 9]));
        files.body[OPCODES].extend(opcode_record("Throw", 0, &[]));
        return files;
    }
    let mut files = codes::table(r, pools, k);
    let body = &mut files.body[OPCODES];
    body.truncate(OPCODE_SIZE * 20);
    for record in body.chunks_exact_mut(OPCODE_SIZE) {
        if record[40] == 0 && !r.once_in(5) {
            record.copy_from_slice(&opcode(r));
        }
    }
    let wanted = 8 + r.below(9) as usize;
    while body.len() / OPCODE_SIZE < wanted {
        body.extend(opcode(r));
    }
    // Something to end on, and something that goes on.
    body.extend(opcode_record(ENDS[r.below(5) as usize], 0, &[]));
    body.extend(opcode_record("Nop", 0, &[]));
    files
}

fn opcode(r: &mut Random) -> Vec<u8> {
    let name = *match r.below(16) {
        0 | 1 => r.pick(&ENDS),
        2..=5 => r.pick(&ALWAYS),
        6..=11 => r.pick(&MAYBE),
        12 | 13 => r.pick(&SWITCHES),
        _ => r.pick(&NEAR),
    };
    let wrong = r.once_in(14);
    let index = *r.pick(&[10, 10, 10, 11, 12, 8]);
    let number = *r.pick(&[11, 11, 11, 9, 9, 9, 10, 12, 8]);
    let mut codes = match name {
        _ if name.ends_with("Constant") => vec![if wrong { *r.pick(&[9, 0, 13]) } else { index }],
        _ if name.starts_with("Jump") => vec![if wrong { *r.pick(&[0, 5, 14]) } else { number }],
        "SwitchOnSmiNoFeedback" => vec![index, number, *r.pick(&[9, 9, 11, 10])],
        "SwitchOnGeneratorState" => vec![*r.pick(&[0, 0, 9, 13]), index, number],
        _ => vec![*r.pick(&[0, 1, 9, 11, 13]); r.below(2) as usize],
    };
    if wrong && codes.len() == 3 {
        codes[r.below(3) as usize] = *r.pick(&[3, 13, 15]);
    }
    if wrong && r.once_in(3) {
        codes.pop();
    } else if name.starts_with("JumpLoop") || r.once_in(8) {
        codes.push(*r.pick(&[9, 9, 0, 11]));
    }
    opcode_record(name, 0, &codes)
}

// ---- codes ----

/// An instruction that is planned: its place, and its operands' types and bytes.
struct Planned {
    flow: Flow,
    prefix: Option<u8>,
    opcode: u8,
    at: usize,
    operands: Vec<(u8, Vec<u8>)>,
}

impl Planned {
    fn length(&self) -> usize {
        let operands: usize = self.operands.iter().map(|(_, bytes)| bytes.len()).sum();
        self.prefix.iter().len() + 1 + operands
    }

    /// Where distances count from.
    fn here(&self) -> i64 {
        (self.at + self.prefix.iter().len()) as i64
    }

    /// Puts a number into an operand, if it is there and the number fits.
    fn put(&mut self, operand: usize, value: i64) -> bool {
        let Some((code, bytes)) = self.operands.get_mut(operand) else {
            return false;
        };
        let bits = 8 * bytes.len().min(4) as u32;
        let fits = match code {
            9 => value >= -(1 << (bits - 1)) && value < 1 << (bits - 1),
            _ => value >= 0 && value < 1 << bits,
        };
        if fits {
            // A list and its count can have more.
            let length = bytes.len().min(8);
            bytes[..length].copy_from_slice(&value.to_le_bytes()[..length]);
        }
        fits
    }
}

/// A code, and the numbers of its pool.
pub struct Made {
    pub code: Vec<u8>,
    pub pool: Vec<Element>,
    /// Whether an instruction may read the pool.
    pub reads_pool: bool,
}

/// How a code is made.
struct Manner {
    /// One in so many instructions goes on or ends; the others jump.
    plain: u64,
    /// One in so many targets is far away.
    far: u64,
    /// One in so many targets is no instruction; 0 for none but those of the instructions `faults`.
    bad: u64,
    faults: [usize; 2],
    /// No way goes far ahead and none ends before the last, so that walks are long.
    long: bool,
}

struct Maker<'a> {
    files: &'a Files,
    manner: Manner,
    plan: Vec<Planned>,
    end: usize,
    pool: Vec<Element>,
    /// The elements whose number is in use.
    used: Vec<bool>,
    reads_pool: bool,
}

/// A code by a table, with a pool of this form.
pub fn code(r: &mut Random, files: &Files, pool: &[Element]) -> Made {
    let long = r.once_in(6);
    let count = match r.below(10) {
        _ if long => 14 + r.below(34),
        0 => 1 + r.below(3),
        1..=5 => 3 + r.below(9),
        6..=8 => 8 + r.below(16),
        _ => 20 + r.below(20),
    } as usize;
    let bad = match r.below(10) {
        8 | 9 if !long => 2 + r.below(4),
        _ => 0,
    };
    // Some have their fault late, some have none.
    let late = count - 1 - r.below(count as u64).min(r.below(count as u64)) as usize;
    let after = late + 1 + r.below(4) as usize;
    let faults = match r.below(6) {
        0..=2 => [count, count],
        3 => [late, late],
        _ => [late, after],
    };
    let (plain, far) = (*r.pick(&[2, 4, 9, 30]), *r.pick(&[2, 6, 20]));
    let manner = Manner { plain, far, bad, faults, long };
    let (pool, used) = (pool.to_vec(), vec![false; pool.len()]);
    let mut maker =
        Maker { files, manner, plan: Vec::new(), end: 0, pool, used, reads_pool: false };
    maker.choose(r, count);
    for k in 0..count {
        maker.fill(r, k);
    }
    maker.finish(r)
}

pub fn is_jump(name: &str) -> bool {
    ALWAYS.contains(&name) || MAYBE.contains(&name)
}

impl Maker<'_> {
    /// Chooses instructions and their places; operands are any bytes as yet.
    fn choose(&mut self, r: &mut Random, count: usize) {
        let opcodes: Vec<(usize, Flow)> =
            self.files.all(OPCODES).map(|o| Flow::of(&Opcode(o))).enumerate().collect();
        let prefixes = [marked(self.files, 1), marked(self.files, 2)];
        let plain = |k: usize| !prefixes.contains(&Some(k as u8));
        let of = |test: &dyn Fn(&Flow) -> bool| -> Vec<usize> {
            opcodes.iter().filter(|(k, flow)| plain(*k) && test(flow)).map(|(k, _)| *k).collect()
        };
        let ends = of(&|flow| flow.kind == STOPS);
        let last = of(&|flow| matches!(flow.kind, STOPS | JUMPS | JUMPS_BACK));
        let long = self.manner.long;
        let jumps = of(&|flow| match long {
            true => matches!(flow.kind, BRANCHES | SWITCHES_ON),
            false => flow.jumps() || flow.kind == SWITCHES_ON,
        });
        let on = of(&|flow| flow.kind == ON);
        let others = if on.is_empty() { of(&|_| true) } else { on };
        for k in 0..count {
            let from = match () {
                _ if k + 1 == count && !self.manner.faults.contains(&k) && self.manner.bad == 0 => {
                    &last
                }
                _ if r.once_in(12) && !long => &ends,
                _ if !r.once_in(self.manner.plain) && self.manner.plain > 2 => &jumps,
                _ if self.manner.plain == 2 && r.once_in(5) => &jumps,
                _ => &others,
            };
            let from = if from.is_empty() { &others } else { from };
            let opcode = *r.pick(from);
            let mark = if r.once_in(4) { 1 + r.below(2) as u8 } else { 0 };
            self.plan(r, opcode, opcodes[opcode].1, mark);
        }
    }

    fn plan(&mut self, r: &mut Random, opcode: usize, flow: Flow, mark: u8) {
        let prefix = if mark == 0 { None } else { marked(self.files, mark) };
        let scale = if prefix.is_none() { 1 } else { 2 * mark as usize };
        let record = Opcode(self.files.record(OPCODES, opcode));
        let codes = &record.codes()[..record.operands()];
        let mut operands = Vec::new();
        for (k, code) in codes.iter().enumerate() {
            if *code == 8 && k > 0 && matches!(codes[k - 1], 6 | 7) {
                continue;
            }
            let count = if matches!(code, 6 | 7) { width_of(self.files, 8, scale) } else { 0 };
            operands.push((*code, r.bytes(width_of(self.files, *code, scale) + count)));
        }
        let (opcode, at) = (opcode as u8, self.end);
        let planned = Planned { flow, prefix, opcode, at, operands };
        self.end += planned.length();
        self.plan.push(planned);
    }

    /// Where the k-th instruction may go: mostly to an instruction.
    fn target(&self, r: &mut Random, k: usize) -> i64 {
        let Manner { far, bad, faults, long, .. } = self.manner;
        let count = self.plan.len() as u64;
        if faults.contains(&k) || bad > 0 && r.once_in(bad) {
            let within = &self.plan[r.below(count) as usize];
            let end = self.end as i64;
            let inside = within.at as i64 + within.length() as i64 - 1;
            return *r.pick(&[inside, inside, end, end, end + 1, end + 40, -1, -3]);
        }
        let near = k + r.below(6) as usize;
        let to = match r.once_in(far) {
            _ if long => near.saturating_sub(4),
            true => r.below(count) as usize,
            false => near.saturating_sub(2),
        };
        self.plan[to.min(count as usize - 1)].at as i64
    }

    /// Sets the operands of the k-th instruction.
    fn fill(&mut self, r: &mut Random, k: usize) {
        let flow = self.plan[k].flow;
        if flow.kind == SWITCHES_ON {
            self.switch(r, k, flow.first);
        } else if flow.pool && flow.jumps() {
            self.constant(r, k, &flow);
        } else if flow.jumps() {
            // The first try that fits.
            for _ in 0..12 {
                let distance = self.target(r, k) - self.plan[k].here();
                let distance = if flow.kind == JUMPS_BACK { -distance } else { distance };
                if self.plan[k].put(flow.first, distance) {
                    return;
                }
            }
            self.plan[k].put(flow.first, 0);
        }
    }

    /// An element that holds the distance, or one that is free.
    fn constant(&mut self, r: &mut Random, k: usize, flow: &Flow) {
        self.reads_pool = true;
        let distance = self.target(r, k) - self.plan[k].here();
        let distance = if flow.kind == JUMPS_BACK { -distance } else { distance };
        let numbers: Vec<usize> =
            (0..self.pool.len()).filter(|e| matches!(self.pool[*e], Element::Number(_))).collect();
        if numbers.is_empty() || r.once_in(25) {
            self.plan[k].put(flow.first, r.below(self.pool.len() as u64 + 2) as i64);
            return;
        }
        let element = match numbers.iter().find(|e| !self.used[**e]) {
            Some(free) => *free,
            None => *r.pick(&numbers),
        };
        if !self.used[element] {
            self.used[element] = true;
            self.pool[element] = Element::Number(distance as i32);
        }
        self.plan[k].put(flow.first, element as i64);
    }

    /// Some elements, from one on; those that are free get a distance.
    fn switch(&mut self, r: &mut Random, k: usize, first: usize) {
        let length = self.pool.len();
        let start = r.below(length as u64) as usize;
        let count = r.below((length - start) as u64 + 1).min(r.below(7)) as usize;
        self.plan[k].put(first, start as i64);
        if r.once_in(60) && self.plan[k].put(first + 1, *r.pick(&[-1, -128, 4_097, 60_000])) {
            return;
        }
        self.plan[k].put(first + 1, count as i64);
        self.reads_pool = true;
        for element in start..start + count {
            if !self.used[element] && matches!(self.pool[element], Element::Number(_)) {
                self.used[element] = true;
                let distance = self.target(r, k) - self.plan[k].here();
                self.pool[element] = Element::Number(distance as i32);
            }
        }
    }

    fn finish(mut self, r: &mut Random) -> Made {
        let mut code = Vec::new();
        for ins in &self.plan {
            code.extend(ins.prefix);
            code.push(ins.opcode);
            code.extend(ins.operands.iter().flat_map(|(_, bytes)| bytes));
        }
        // Now and then the code is cut, or other bytes follow.
        if r.once_in(60) {
            code.truncate(1 + r.below(code.len() as u64) as usize);
        } else if r.once_in(60) {
            code.push(*r.pick(&[0, 1, 12, 200, 255]));
        }
        for (element, used) in self.pool.iter_mut().zip(&self.used) {
            if matches!(element, Element::Number(_)) && !used {
                *element = Element::Number(r.below(24) as i32 - 4);
            }
        }
        Made { code, pool: self.pool, reads_pool: self.reads_pool }
    }
}
