//! The worst cases within document 01's limits: what the listing and the walk check take for each.

use crate::{alike, lent, median, ours, time, Room};
use oracle::port::{Port, STORE, TABLE};
use oracle::records::*;
use oracle::sample;

/// Document 01's limits.
const MOST_CODE: usize = 65_536;
const MOST_ENTRIES: usize = 4_096;
const MOST_OBJECTS: usize = 65_536;
const MOST_SLOTS: usize = 1_048_576;
/// Wish 5's.
const MOST_HANDLERS: usize = 4_096;

/// The Rust looks at each slot for each element: it lists code that is so many times shorter, in time that is in proportion.
const SHORTER: usize = 64;
/// Bytes of the longest listing and some more.
const ROOM: usize = 1 << 30;
/// A call that takes less than a second is measured so often.
const ROUNDS: usize = 11;

const LDA_ZERO: u8 = 0x02;
const JUMP_CONSTANT: u8 = 0x08;
const SWITCH: u8 = 0x09;
const RETURN: u8 = 0x0b;

struct Case {
    name: &'static str,
    files: Files,
    /// Bytes of code.
    code: usize,
    rust: Rust,
}

/// What the Rust lists beside it.
enum Rust {
    Same,
    /// Another function, whose code is `SHORTER` times shorter.
    Shorter(Files),
    Nothing,
}

const CASES: [fn() -> Case; 7] =
    [one_byte, switches, objects, equal_slots, both, lower_references, few_each];

pub fn report() -> Result<(), String> {
    println!("Worst cases within document 01's limits: milliseconds of processor time.");
    println!("listing, walk: our whole calls, the buffer as long as the listing; rust: render_sfi where it can be had.");
    println!(
        "A time of the Rust with /{SHORTER} behind it is for code that is so many times shorter."
    );
    let [a, b, c, d, e] = ["case", "bytes", "listing", "walk", "rust"];
    println!("{a:<24} {b:>6} {c:>10} {d:>10} {e:>13}");
    for case in CASES {
        println!("{}", line(&case())?);
    }
    report_handlers()
}

fn line(case: &Case) -> Result<String, String> {
    let Case { name, files, code, rust } = case;
    let mut room = Room::of(ROOM);
    let rust = match rust {
        Rust::Same => format!("{:.1}", rusts(&mut room, name, files)?),
        Rust::Shorter(shorter) => format!("{:.1}/{SHORTER}", rusts(&mut room, name, shorter)?),
        Rust::Nothing => "-".into(),
    };
    let size = ours::list(&lent(files), 0, &mut room.bytes).map_err(|r| format!("{name}: {r}"))?;
    // In a buffer that is just long enough a listing is measured first and then written.
    let listing =
        milliseconds(|| ours::list(&lent(files), 0, &mut room.bytes[..size]).unwrap_or(0));
    let mut answer = Ok(ours::Walked::Closed);
    let walk = milliseconds(|| {
        answer = ours::walk(&lent(files), 0, &mut room.bytes);
        0
    });
    if answer != Ok(ours::Walked::Closed) {
        return Err(format!("{name}: {answer:?}, not closed"));
    }
    Ok(format!("{name:<24} {code:>6} {listing:>10.1} {walk:>10.1} {rust:>13}"))
}

/// The Rust's time. Its listing is ours.
fn rusts(room: &mut Room, name: &str, files: &Files) -> Result<f64, String> {
    let port = Port::new(files, TABLE | STORE)?;
    let taken = milliseconds(|| room.rust(&port));
    let size = ours::list(&lent(files), 0, &mut room.bytes).map_err(|r| format!("{name}: {r}"))?;
    alike(room, size, name)?;
    Ok(taken)
}

fn milliseconds(mut call: impl FnMut() -> usize) -> f64 {
    let first = time(1, &mut call) / 1e3;
    if first > 1e3 {
        return first;
    }
    let mut all: Vec<f64> = (0..ROUNDS).map(|_| time(1, &mut call) / 1e3).collect();
    median(&mut all)
}

// ---- cases ----

fn one_byte() -> Case {
    let code = repeated(&[LDA_ZERO], MOST_CODE);
    Case {
        name: "one-byte instructions",
        files: sample::function(&code, 8, &[]),
        code: code.len(),
        rust: Rust::Same,
    }
}

/// Each has as many entries as there may be, all to the instruction behind it. UImm is 2 bytes wide.
fn switches() -> Case {
    let [low, high] = (MOST_ENTRIES as u16).to_le_bytes();
    let switch = [SWITCH, 0, low, high, 0];
    let code = repeated(&switch, MOST_CODE);
    let mut files = sample::function(&code, 8, &[]);
    set_record(&mut files, TYPES, 11, &type_record(TYPE_NAMES[11], 2, true));
    add_pool(&mut files, &[switch.len() as i32; MOST_ENTRIES], 0);
    Case { name: "switches", files, code: code.len(), rust: Rust::Same }
}

/// All objects but the function over the same slots of equal index. An index that falls in front of these, where no object has it, makes
/// the check of the store ask every object.
fn objects() -> Case {
    const FIRST: usize = 256;
    let mut files = sample::function(&[RETURN], 8, &[]);
    let between = Slot { index: 6, ..Slot::default() };
    add_slots(&mut files, between, FIRST);
    add_slots(&mut files, Slot { index: 1, ..Slot::default() }, MOST_SLOTS);
    let (first, count) = (FIRST as u32, (MOST_SLOTS - FIRST) as u32);
    let object = Object { first, count, ..Object::default() };
    files.body[OBJECTS].extend(object.bytes().repeat(MOST_OBJECTS - 1));
    // The Rust's objects own their slots: there is no room for them.
    Case { name: "objects", files, code: 1, rust: Rust::Nothing }
}

/// Each jump looks its distance up behind all slots of the pool.
fn equal_slots() -> Case {
    let jump = [JUMP_CONSTANT, 0];
    over_pool("equal slots", &jump, |files| add_pool(files, &[jump.len() as i32], MOST_SLOTS))
}

/// Each switch does so for five entries: a walk stops after an index that is 5 lower than the one sought, so that a sixth entry costs little.
fn both() -> Case {
    let switch = [SWITCH, 0, NEAR as u8, 0];
    let elements = [switch.len() as i32; NEAR];
    over_pool("both", &switch, |files| add_pool(files, &elements, MOST_SLOTS))
}

/// The slots in front of the elements are references of the index below: each is an element, but not one that is sought.
fn lower_references() -> Case {
    let switch = [SWITCH, 1, NEAR as u8 - 1, 0];
    let elements = [switch.len() as i32; NEAR];
    over_pool("references", &switch, |files| {
        let other = Slot { index: 2, kind: 2, ..Slot::default() };
        add_pool_behind(files, &elements, other, MOST_SLOTS);
    })
}

/// As many entries as there may be, and each behind as many slots as there can then be: no block of slots is empty for all of them. The code
/// is `SHORTER` times shorter than it may be.
fn few_each() -> Case {
    let [low, high] = (MOST_ENTRIES as u16).to_le_bytes();
    let switch = [SWITCH, 0, low, high, 0];
    let code = repeated(&switch, MOST_CODE / SHORTER);
    let mut files = sample::function(&code, 8, &[]);
    set_record(&mut files, TYPES, 11, &type_record(TYPE_NAMES[11], 2, true));
    add_spread_pool(&mut files, &[switch.len() as i32; MOST_ENTRIES], MOST_SLOTS - 8);
    Case { name: "few each", files, code: code.len(), rust: Rust::Same }
}

/// Elements that lie near enough for a walk not to stop between them.
const NEAR: usize = 5;

/// Code of one instruction over a pool.
fn over_pool(name: &'static str, instruction: &[u8], pool: impl Fn(&mut Files)) -> Case {
    let of = |size| {
        let code = repeated(instruction, size);
        let mut files = sample::function(&code, 8, &[]);
        pool(&mut files);
        (files, code.len())
    };
    let (files, code) = of(MOST_CODE);
    let (shorter, _) = of(MOST_CODE / SHORTER);
    Case { name, files, code, rust: Rust::Shorter(shorter) }
}

// ---- handlers ----

/// Where handler record k is in the longest code: from start to end.
type Range = fn(u32) -> [u32; 2];

const END: u32 = MOST_CODE as u32;

const HANDLERS: [(&str, Range); 4] = [
    ("over the whole code", |_| [0, END]),
    ("nested", |k| [8 * k, END - 8 * k]),
    ("staggered", |k| [16 * k, END.min(16 * k + 4_096)]),
    // A search from the last record downward looks at them all for each other instruction.
    ("over the first byte", |_| [0, 1]),
];

/// The walks of lent code, one-byte instructions, with as many handler records as there may be, all with the Return as their handler, and
/// without any.
fn report_handlers() -> Result<(), String> {
    println!("Walks of lent code, {MOST_CODE} one-byte instructions: {MOST_HANDLERS} handler records, and none.");
    let [a, b, c] = ["records", "with", "none"];
    println!("{a:<24} {b:>10} {c:>10}");
    for (name, range) in HANDLERS {
        let record = |k| {
            let [start, end] = range(k);
            [start, end, END - 1]
        };
        let numbers = (0..MOST_HANDLERS as u32).flat_map(record);
        let handlers: Vec<u8> = numbers.flat_map(u32::to_le_bytes).collect();
        let [with, without] = [&handlers[..], &[]].map(|handlers| walk_code(name, handlers));
        println!("{name:<24} {:>10.1} {:>10.1}", with?, without?);
    }
    Ok(())
}

/// The time of a walk with these handlers, which is closed.
fn walk_code(name: &str, handlers: &[u8]) -> Result<f64, String> {
    let (table, code) = (sample::table(), repeated(&[LDA_ZERO], MOST_CODE));
    let ours::Files { opcodes, types, layout, .. } = lent(&table);
    let (objects, slots, payload) = (&[][..], &[][..], &[][..]);
    let lent = ours::Lent { opcodes, types, layout, objects, slots, payload, object: None };
    let mut marks = vec![0; code.len()];
    let mut answer = Ok(ours::Walked::Closed);
    let taken = milliseconds(|| {
        answer = ours::walk_code_with(&lent, &code, ours::Given { handlers }, &mut marks);
        0
    });
    match answer {
        Ok(ours::Walked::Closed) => Ok(taken),
        other => Err(format!("handlers {name}: {other:?}, not closed")),
    }
}

// ---- records ----

/// An instruction as often as it goes into so many bytes with a Return behind it.
fn repeated(instruction: &[u8], size: usize) -> Vec<u8> {
    let mut code = instruction.repeat((size - 1) / instruction.len());
    code.push(RETURN);
    code
}

fn set_record(files: &mut Files, file: usize, number: usize, record: &[u8]) {
    files.body[file][number * SIZES[file]..][..SIZES[file]].copy_from_slice(record);
}

/// Appends a slot until there are so many.
fn add_slots(files: &mut Files, slot: Slot, until: usize) {
    let more = until.saturating_sub(files.count(SLOTS));
    files.body[SLOTS].extend(slot.bytes().repeat(more));
}

/// Makes object 1 the function's pool: its elements in one run, and behind it slots of the run's index that hold nothing, until there are
/// so many slots.
fn add_pool(files: &mut Files, elements: &[i32], slots: usize) {
    add_pool_behind(files, elements, Slot { index: 2, ..Slot::default() }, slots);
}

/// The same with another slot behind the run.
fn add_pool_behind(files: &mut Files, elements: &[i32], behind: Slot, slots: usize) {
    let reference = Slot { index: 2, kind: 1, number: 1, ..Slot::default() };
    set_record(files, SLOTS, 1, &reference.bytes());
    let first = files.count(SLOTS);
    let number = files.body[PAYLOAD].len() as u32;
    for value in [elements.len() as i32].iter().chain(elements) {
        files.body[PAYLOAD].extend(((*value as u32 as u64) << 32).to_le_bytes());
    }
    let length = 8 * elements.len() as u32;
    let count = Slot { index: 1, kind: 4, number, length: 8, ..Slot::default() };
    let run = Slot { index: 2, kind: 4, number: number + 8, length, ..Slot::default() };
    files.body[SLOTS].extend([count.bytes(), run.bytes()].concat());
    add_slots(files, behind, slots);
    finish_pool(files, first, length);
}

/// Makes object 1 the function's pool: each element in a run of its own, and behind it as many slots of its index that hold nothing as there
/// may be in so many slots.
fn add_spread_pool(files: &mut Files, elements: &[i32], slots: usize) {
    let reference = Slot { index: 2, kind: 1, number: 1, ..Slot::default() };
    set_record(files, SLOTS, 1, &reference.bytes());
    let first = files.count(SLOTS);
    let each = (slots - first) / elements.len();
    for (i, value) in elements.iter().enumerate() {
        let (index, number) = (2 + i as u32, files.body[PAYLOAD].len() as u32);
        files.body[PAYLOAD].extend(((*value as u32 as u64) << 32).to_le_bytes());
        let run = Slot { index, kind: 4, number, length: 8, ..Slot::default() };
        files.body[SLOTS].extend(run.bytes());
        let until = first + (i + 1) * each;
        add_slots(files, Slot { index, ..Slot::default() }, until);
    }
    finish_pool(files, first, 8 * elements.len() as u32);
}

/// The pool's object, over the slots from number first on.
fn finish_pool(files: &mut Files, first: usize, length: u32) {
    let count = (files.count(SLOTS) - first) as u32;
    let pool = Object { first: first as u32, count, byte_size: 16 + length, ..Object::default() };
    files.body[OBJECTS].extend(pool.bytes());
}
