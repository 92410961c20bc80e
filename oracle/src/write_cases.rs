//! Instructions to be written, chosen by hand: each kind at each width at both ends of its range and one beyond, and
//! each refusal, alone and with a fault of each later row.

use crate::codes::width_of;
use crate::faults;
use crate::records::*;
use crate::sample;
use crate::writes::{kind_of, operand_codes, LONGEST, NUMBERS};

pub struct Case {
    /// What it is a case of.
    pub class: String,
    pub files: Files,
    pub numbers: Vec<u64>,
    /// The buffer's length; None is one that has room.
    pub room: Option<u64>,
}

/// Kind, first and second number.
type Operand = [u64; 3];

fn case(class: impl Into<String>, files: &Files, numbers: Vec<u64>) -> Case {
    Case { class: class.into(), files: files.clone(), numbers, room: None }
}

fn case_in(class: impl Into<String>, files: &Files, numbers: Vec<u64>, room: u64) -> Case {
    Case { room: Some(room), ..case(class, files, numbers) }
}

/// The numbers of an instruction; where it ends is not read.
fn told(opcode: u64, scale: u64, operands: &[Operand]) -> Vec<u64> {
    let mut out = vec![opcode, scale, 77, operands.len() as u64];
    out.extend(operands.concat());
    out.resize(NUMBERS, 0);
    out
}

pub fn cases() -> Vec<Case> {
    let mut out = ends();
    out.extend(kinds());
    out.extend(seconds());
    out.extend(lists());
    out.extend(counts());
    out.extend(one_wrong());
    out.extend(scales());
    out.extend(opcodes());
    out.extend(rooms());
    out.extend(registers());
    out.extend(not_read());
    out.extend(tables(faults::tables()));
    out.extend(orders());
    out.extend(tables(faults::flow_tables()));
    out
}

// ---- the table ----

/// Types 0 to 18 have each an opcode that takes one alone.
const TYPES_THERE: u8 = 19;
const WIDE: u64 = 0;
const EXTRA_WIDE: u64 = 1;
const ALONE: u64 = 2;
const LATER_WIDE: u64 = 21;
const LATER_EXTRA: u64 = 22;
const NONE: u64 = 23;
/// The opcodes with lists.
const LISTS: u64 = 24;
const EIGHT: u64 = 30;
const EIGHT_LISTS: u64 = 31;

/// Operands of the opcodes behind those with one type alone.
const OTHERS: [(u8, &[u8]); 11] = [
    (1, &[]),
    (2, &[10]),
    (0, &[]),
    (0, &[6, 8]),
    (0, &[7, 8, 8]),
    (0, &[6, 7]),
    (0, &[8, 6, 8]),
    (0, &[6, 9, 8]),
    (0, &[15, 7, 8, 4]),
    (0, &[9, 0, 6, 8, 13, 14, 17, 5]),
    (0, &[6, 7, 6, 7, 6, 7, 6, 7]),
];

/// Size, scalable and present.
const SIZES_THERE: [[u8; 3]; 6] =
    [[1, 1, 1], [2, 1, 1], [1, 0, 1], [2, 0, 1], [4, 0, 1], [0, 0, 0]];
const SCALES: [u64; 3] = [1, 2, 4];

/// All types of one size.
fn table(size: [u8; 3]) -> Files {
    let mut files = sample::table();
    let opcodes = &mut files.body[OPCODES];
    *opcodes = [opcode_record("Wide", 1, &[]), opcode_record("ExtraWide", 2, &[])].concat();
    for code in 0..TYPES_THERE {
        opcodes.extend(opcode_record(&format!("Type{code}"), 0, &[code]));
    }
    for (k, (mark, codes)) in OTHERS.iter().enumerate() {
        opcodes.extend(opcode_record(&format!("Other{k}"), *mark, codes));
    }
    files.body[TYPES].clear();
    for code in 0..TYPES_THERE {
        let extra = ["Extra", "Other"][code as usize % 2];
        let name = TYPE_NAMES.get(code as usize).unwrap_or(&extra);
        files.body[TYPES].extend(type_record(name, 1, true));
        resize(&mut files, code, size);
    }
    files
}

fn resize(files: &mut Files, code: u8, size: [u8; 3]) {
    files.body[TYPES][32 * code as usize + 28..][..3].copy_from_slice(&size);
}

/// An operand that a type code takes at every width.
fn small(code: u8) -> Operand {
    let kind = kind_of(code);
    match code {
        0..=2 => [kind, 3, 0],
        3 | 4 => [kind, 3, 2],
        5 => [kind, 3, 3],
        6 | 7 => [kind, 3, 5],
        17.. => [kind, code as u64, 9],
        _ => [kind, 9, 0],
    }
}

/// Such operands for each that an opcode takes.
fn smalls(files: &Files, opcode: u64) -> Vec<Operand> {
    operand_codes(files, opcode as u8).into_iter().map(small).collect()
}

// ---- operands ----

/// Each type, size and scale: both ends of the range, one beyond each, and numbers beyond any.
fn ends() -> Vec<Case> {
    let mut out = Vec::new();
    for size in SIZES_THERE {
        let files = table(size);
        for scale in SCALES {
            for code in 0..TYPES_THERE {
                let width = width_of(&files, code, scale as usize);
                let class = format!("kind {} at width {width}", kind_of(code));
                for operand in at_ends(code, width) {
                    let numbers = told(ALONE + code as u64, scale, &[operand]);
                    out.push(case(class.clone(), &files, numbers));
                }
            }
        }
    }
    out
}

fn at_ends(code: u8, width: usize) -> Vec<Operand> {
    let [kind, first, second] = small(code);
    let bits = match code {
        13 => 8,
        14 => 16,
        _ => 32,
    };
    match code {
        // Register 0 is operand -6.
        0..=7 => signed_ends(width).iter().map(|d| [kind, (-6 - d) as u64, second]).collect(),
        9 => signed_ends(width).iter().map(|v| [kind, *v as u64, 0]).collect(),
        17.. => ends_below(8 * width).iter().map(|v| [kind, first, *v]).collect(),
        _ => ends_below(bits.min(8 * width)).iter().map(|v| [kind, *v, 0]).collect(),
    }
}

/// The ends of a signed width, and one beyond each.
fn signed_ends(width: usize) -> [i64; 4] {
    let most = (1 << (8 * width.min(4) - 1)) - 1;
    [-most - 2, -most - 1, most, most + 1]
}

/// The least and the greatest number of so many bits, one beyond, and the last number.
fn ends_below(bits: usize) -> Vec<u64> {
    match bits {
        64 => vec![0, 1 << 32, u64::MAX],
        _ => vec![0, (1 << bits) - 1, 1 << bits, u64::MAX],
    }
}

/// Every type with every kind, with kinds that no operand has, and with none.
fn kinds() -> Vec<Case> {
    let files = table(SIZES_THERE[0]);
    let mut out = Vec::new();
    for code in 0..TYPES_THERE {
        let [right, first, second] = small(code);
        for kind in (0..=10).chain([12, 256 + right, right | 1 << 63]) {
            let class = if kind == right { "the kind of a type" } else { "another kind" };
            let numbers = told(ALONE + code as u64, 1, &[[kind, first, second]]);
            out.push(case(class, &files, numbers));
        }
    }
    out
}

/// Second numbers: of kinds that have none, of pairs and triples; type codes of a raw operand.
fn seconds() -> Vec<Case> {
    let files = table(SIZES_THERE[0]);
    let mut out = Vec::new();
    for code in 0..17 {
        let [kind, first, right] = small(code);
        let others = [0, 1, 2, 3, 4, 256 + right, right | 1 << 32, right | 1 << 63];
        for second in others {
            let numbers = told(ALONE + code as u64, 1, &[[kind, first, second]]);
            out.push(case("a second number", &files, numbers));
        }
    }
    for ty in [0, 9, 16, 17, 18, 19, 255, 256 + 17, 17 | 1 << 63] {
        let numbers = told(ALONE + 17, 1, &[[9, ty, 9]]);
        out.push(case("a type code of a raw operand", &files, numbers));
    }
    out
}

/// Lists whose count has another width than their register, at both ends of the count and beyond; with and without a
/// RegCount behind them.
fn lists() -> Vec<Case> {
    let mut out = Vec::new();
    for (list, count) in (0..6).flat_map(|list| (0..6).map(move |count| (list, count))) {
        let mut files = table(SIZES_THERE[list]);
        resize(&mut files, 8, SIZES_THERE[count]);
        let scale = SCALES[(list + count) % 3];
        let width = width_of(&files, 8, scale as usize);
        for (k, many) in ends_below(32.min(8 * width)).into_iter().enumerate() {
            let opcode = LISTS + (list + k) as u64 % 3;
            let mut operands = smalls(&files, opcode);
            operands[0][2] = many;
            let class = format!("a list whose count has width {width}");
            out.push(case(class, &files, told(opcode, scale, &operands)));
        }
        for opcode in LISTS..=EIGHT_LISTS {
            let operands = smalls(&files, opcode);
            let class = format!("lists of opcode {opcode}");
            out.push(case(class, &files, told(opcode, scale, &operands)));
        }
    }
    out
}

/// One operand too few or too many, and counts that no instruction has.
fn counts() -> Vec<Case> {
    let files = table(SIZES_THERE[0]);
    let mut out = Vec::new();
    for opcode in [NONE, ALONE, LISTS, LISTS + 1, EIGHT, EIGHT_LISTS] {
        let operands = smalls(&files, opcode);
        let right = operands.len() as u64;
        for count in
            [0, right.saturating_sub(1), right, right + 1, 7, 8, 9, 255, 256 + right, 1 << 63]
        {
            let mut numbers = told(opcode, 1, &operands);
            numbers[3] = count;
            out.push(case("a count of operands", &files, numbers));
        }
        // One more that is right by itself.
        for more in [[0, 0, 0], [4, 1, 0], [1, 0, 0]] {
            if operands.len() < 8 {
                let more = [&operands[..], &[more]].concat();
                out.push(case("one operand more", &files, told(opcode, 1, &more)));
            }
        }
    }
    out
}

/// Operands that are all right but one.
fn one_wrong() -> Vec<Case> {
    let mut out = Vec::new();
    for (size, scale) in [(0, 1), (0, 2), (1, 4), (4, 1)] {
        let files = table(SIZES_THERE[size]);
        for opcode in [EIGHT, EIGHT_LISTS, LISTS + 5] {
            let right = smalls(&files, opcode);
            for k in 0..right.len() {
                let [kind, first, second] = right[k];
                let next = right[(k + 1) % right.len()];
                for wrong in
                    [[0; 3], [kind % 9 + 1, first, second], [kind, first ^ 1 << 40, 0], next]
                {
                    let mut operands = right.clone();
                    operands[k] = wrong;
                    out.push(case("one operand", &files, told(opcode, scale, &operands)));
                }
            }
        }
    }
    out
}

// ---- scale and opcode ----

/// Scales that there are and others, by tables with both prefixes, with one and with none.
fn scales() -> Vec<Case> {
    let whole = table(SIZES_THERE[0]);
    let mut out = Vec::new();
    for unmarked in [
        &[][..],
        &[WIDE, LATER_WIDE],
        &[EXTRA_WIDE, LATER_EXTRA],
        &[WIDE, 1, 21, 22],
        &[WIDE, EXTRA_WIDE],
    ] {
        let mut files = whole.clone();
        for opcode in unmarked {
            files.body[OPCODES][OPCODE_SIZE * *opcode as usize + 40] = 0;
        }
        for scale in [0, 1, 2, 3, 4, 5, 8, 255, 256, 257, 258, 260, 300, 1 << 32 | 2, u64::MAX] {
            let class = format!("scale {scale}");
            out.push(case(class, &files, told(ALONE + 9, scale, &[small(9)])));
        }
    }
    out
}

/// Opcodes that there are and others, prefix opcodes and later records with a mark, at each scale.
fn opcodes() -> Vec<Case> {
    let files = table(SIZES_THERE[0]);
    let mut most = files.clone();
    let records = most.body[OPCODES].len();
    most.body[OPCODES].extend((0..256).flat_map(|k| opcode_record(&format!("More{k}"), 0, &[])));
    most.body[OPCODES].truncate(256 * OPCODE_SIZE);
    let last = (records / OPCODE_SIZE) as u64 - 1;
    let mut out = Vec::new();
    for scale in SCALES {
        for opcode in [WIDE, EXTRA_WIDE, LATER_WIDE, LATER_EXTRA, NONE, last] {
            let class = format!("opcode {opcode} at scale {scale}");
            let operands = smalls(&files, opcode);
            out.push(case(class, &files, told(opcode, scale, &operands)));
        }
        for opcode in [last + 1, 255, 256, 256 + NONE, 1 << 32 | NONE, u64::MAX] {
            let class = format!("no opcode {opcode}");
            out.push(case(class, &files, told(opcode, scale, &[])));
        }
        for opcode in [254, 255, 256, 512 - 1] {
            let class = format!("opcode {opcode} of 256");
            out.push(case(class, &most, told(opcode, scale, &[])));
        }
    }
    out
}

// ---- buffers ----

/// Buffers that are exactly long enough, one byte shorter, longer, and empty.
fn rooms() -> Vec<Case> {
    let mut out = Vec::new();
    for (size, scale) in [(0, 1), (0, 2), (1, 2), (1, 4), (4, 1)] {
        let files = table(SIZES_THERE[size]);
        for opcode in [NONE, ALONE, LISTS, LISTS + 5, EIGHT, EIGHT_LISTS] {
            let numbers = told(opcode, scale, &smalls(&files, opcode));
            let written = crate::writes::write(&files, &numbers, u64::MAX);
            let length = written.expect("small operands fit").len() as u64;
            for (class, room) in [
                ("a buffer that fits", length),
                ("a buffer that is one too short", length - 1),
                ("a buffer that is one too long", length + 1),
                ("an empty buffer", 0),
                ("a long buffer", LONGEST as u64 + 70),
            ] {
                out.push(case_in(class, &files, numbers.clone(), room));
            }
        }
    }
    out
}

/// Registers whose distance wraps, by layouts at the ends.
fn registers() -> Vec<Case> {
    let mut out = Vec::new();
    for (start, size) in [i32::MIN, i32::MIN + 3, -1, 0, 5, i32::MAX].iter().zip([0, 1, 4, 0, 1, 4])
    {
        let mut files = table(SIZES_THERE[size]);
        files.body[LAYOUT][4 * 13..][..4].copy_from_slice(&start.to_le_bytes());
        for (k, distance) in [0, 1, -1, 127, -128, 128, i32::MAX, i32::MIN].iter().enumerate() {
            let index = start.wrapping_sub(*distance) as i64 as u64;
            let code = [0, 1, 2, 3, 5, 6, 7, 4][k];
            let [kind, _, second] = small(code);
            for scale in SCALES {
                let numbers = told(ALONE + code as u64, scale, &[[kind, index, second]]);
                out.push(case(format!("registers from {start}"), &files, numbers));
            }
        }
    }
    out
}

/// Where it ends, and operands behind the count, are not read.
fn not_read() -> Vec<Case> {
    let files = table(SIZES_THERE[0]);
    let mut out = Vec::new();
    for opcode in [NONE, ALONE, LISTS + 2, LISTS + 4] {
        let numbers = told(opcode, 1, &smalls(&files, opcode));
        for (class, from, to) in [("the end", 2, 3), ("operands behind the count", 16, NUMBERS)] {
            for rubbish in [0, 1, 12, 1 << 63, u64::MAX] {
                let mut numbers = numbers.clone();
                numbers[from..to].fill(rubbish);
                out.push(case(class, &files, numbers));
            }
        }
    }
    out
}

// ---- the table's refusals, and the order ----

/// Tables to be refused, and tables whose fault lies in names that a writer is not lent.
fn tables(cases: Vec<faults::Case>) -> Vec<Case> {
    let small = |files: &Files| files.body.iter().all(|b| b.len() < 2_000);
    let cases = cases.into_iter().filter(|case| small(&case.files));
    // Opcode 4 takes a register.
    let one = |case: faults::Case| Case {
        class: case.class.replace("table_check: ", "table, "),
        files: case.files,
        numbers: told(4, 1, &[[1, 0, 0]]),
        room: None,
    };
    cases.step_by(3).map(one).collect()
}

/// Faults of a table with refusals 1 to 5, and 26, as file, place and byte.
const FAULTS: [(u64, usize, usize, u8); 7] = [
    (1, LAYOUT, 80, 0),
    (2, OPCODES, 0, b'-'),
    (2, TYPES, 32, b'-'),
    (3, OPCODES, OPCODE_SIZE + 40, 3),
    (26, OPCODES, 2 * OPCODE_SIZE + FLOW, 6),
    (4, TYPES, 31, 1),
    (5, LAYOUT, 0, 5),
];

/// The refusals in their order.
pub const ROWS: [u64; 10] = [1, 2, 3, 26, 4, 5, 21, 22, 23, 17];

/// Every two faults of these rows at once, and all from one on.
fn orders() -> Vec<Case> {
    let rows = ROWS;
    let mut out = Vec::new();
    for (k, first) in rows.iter().enumerate() {
        for second in &rows[k..] {
            let class = format!("order: {first} and {second}");
            out.push(faulty(class, &[*first, *second]));
        }
        out.push(faulty(format!("order: {first} and all behind"), &rows[k..]));
    }
    out
}

/// An instruction with these faults.
fn faulty(class: String, rows: &[u64]) -> Case {
    let mut files = table(SIZES_THERE[0]);
    let has = |row| rows.contains(&row);
    for (_, file, at, byte) in FAULTS.iter().filter(|fault| has(fault.0)) {
        match files.body[*file].get_mut(*at) {
            Some(held) => *held = *byte,
            None => files.body[*file].push(*byte),
        }
    }
    let opcode = if has(22) { 99 } else { ALONE + 9 };
    let mut numbers = told(opcode, if has(21) { 3 } else { 1 }, &[small(9)]);
    if has(23) {
        numbers[3] = 9;
    }
    case_in(class, &files, numbers, if has(17) { 1 } else { 2 })
}
