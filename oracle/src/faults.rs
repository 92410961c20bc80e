//! Tables and stores with one fault or two, for each refusal 1 to 7, and 26, at its first, middle and
//! last place, and others at a limit with none. Each case says what the documents answer to it.

use crate::checks::{refuse, Check};
use crate::flows::MOST;
use crate::records::*;
use crate::sample;

pub struct Case {
    /// What it is a case of.
    pub class: String,
    pub files: Files,
    pub says: Check,
}

fn case(class: impl Into<String>, files: Files, says: Check) -> Case {
    Case { class: class.into(), files, says }
}

/// A file with bytes changed within one record.
fn with(base: &Files, file: usize, record: usize, at: usize, bytes: &[u8]) -> Files {
    let mut files = base.clone();
    let from = record * SIZES[file] + at;
    files.body[file][from..from + bytes.len()].copy_from_slice(bytes);
    files
}

fn with_file(base: &Files, file: usize, body: Vec<u8>) -> Files {
    let mut files = base.clone();
    files.body[file] = body;
    files
}

/// The first, the middle and the last of so many records.
fn places(count: usize) -> [(&'static str, usize); 3] {
    [("first", 0), ("middle", count / 2), ("last", count - 1)]
}

// ---- tables ----

const FILES: [&str; 8] = [
    "opcodes",
    "types",
    "runtime names",
    "intrinsic names",
    "layout",
    "objects",
    "slots",
    "payload",
];

/// 5 opcodes, 19 types, 3 runtime names, 3 intrinsic names, a layout.
fn table() -> Files {
    let mut files = sample::table();
    files.body[OPCODES] = [
        opcode_record("Wide", 1, &[]),
        opcode_record("ExtraWide", 2, &[]),
        opcode_record("Four", 0, &[9, 18, 17, 16]),
        opcode_record("Eight", 0, &[0, 1, 2, 3, 4, 5, 6, 7]),
        opcode_record("Last", 0, &[0]),
    ]
    .concat();
    files.body[TYPES].extend(type_record("Extra", 4, false));
    let mut absent = type_record("Absent", 0, false);
    absent[30] = 0;
    files.body[TYPES].extend(absent);
    for file in [RUNTIME, INTRINSIC] {
        files.body[file] = ["One", "_2", "3"].map(name_record).concat();
    }
    files
}

pub fn tables() -> Vec<Case> {
    let base = table();
    let mut out = vec![case("table_check: passed", base.clone(), Ok(()))];
    out.extend(limits(&base));
    out.extend(sizes(&base));
    out.extend(names(&base));
    out.extend(opcodes(&base));
    out.extend(types(&base));
    out.extend(layouts(&base));
    out.extend(orders(&base));
    out
}

/// Tables with a flow that is good, or at fault.
pub fn flow_tables() -> Vec<Case> {
    let base = table();
    [flows(&base), flow_orders(&base)].into_iter().flatten().collect()
}

/// As many records as there may be, one more, and faults in the last of so many.
fn limits(base: &Files) -> Vec<Case> {
    let mut names: Vec<u8> = (0..1025).flat_map(|k| name_record(&format!("N{k}"))).collect();
    names[1024 * SIZES[RUNTIME]] = b'-';
    let mut opcodes: Vec<u8> =
        (0..257).flat_map(|k| opcode_record(&format!("N{k}"), 0, &[])).collect();
    opcodes[256 * SIZES[OPCODES]] = b'-';
    let part = |file: usize, first: usize, count: usize| {
        let records = if file == OPCODES { &opcodes } else { &names };
        records[SIZES[file] * first..SIZES[file] * (first + count)].to_vec()
    };
    let mut out = Vec::new();
    for (file, most) in [(RUNTIME, 1024), (INTRINSIC, 256), (OPCODES, 256)] {
        let name = FILES[file];
        let with = |first, count| with_file(base, file, part(file, first, count));
        let class = format!("table_check: refused 1, {name}, one too many");
        out.push(case(class, with(0, most + 1), refuse(1, 0)));
        let class = format!("table_check: passed, {name}, as many as there may be");
        out.push(case(class, with(0, most), Ok(())));
        let class = format!("table_check: refused 2, {name}, last of the most");
        let all = if file == OPCODES { 257 } else { 1025 };
        out.push(case(class, with(all - most, most), refuse(2, most - 1)));
    }
    let last = with_file(base, OPCODES, part(OPCODES, 0, 256));
    let class = "table_check: refused 3, opcodes, last of the most";
    out.push(case(class, with(&last, OPCODES, 255, 40, &[3]), refuse(3, 255)));
    let mut types = base.body[TYPES].clone();
    types.extend((19..65).flat_map(|k| type_record(&format!("T{k}"), 2, true)));
    let class = "table_check: refused 1, types, one too many";
    out.push(case(class, with_file(base, TYPES, types.clone()), refuse(1, 0)));
    types.truncate(64 * 32);
    let class = "table_check: passed, types, as many as there may be";
    let most = with_file(base, TYPES, types);
    out.push(case(class, most.clone(), Ok(())));
    let class = "table_check: refused 2, types, last of the most";
    out.push(case(class, with(&most, TYPES, 63, 0, b"."), refuse(2, 63)));
    let class = "table_check: refused 4, types, last of the most";
    out.push(case(class, with(&most, TYPES, 63, 28, &[3]), refuse(4, 63)));
    let class = "table_check: passed, a code of the last of the most types";
    out.push(case(class, with(&most, OPCODES, 4, 42, &[63]), Ok(())));
    let class = "table_check: refused 3, a code above the most types";
    out.push(case(class, with(&most, OPCODES, 4, 42, &[64]), refuse(3, 4)));
    out
}

/// Row 1.
fn sizes(base: &Files) -> Vec<Case> {
    let mut out = Vec::new();
    for (file, few) in [(OPCODES, 0), (TYPES, 16), (RUNTIME, 0), (INTRINSIC, 0), (LAYOUT, 0)] {
        let (name, size) = (FILES[file], SIZES[file]);
        let length = base.body[file].len();
        let mut resized = |class: &str, length: usize, says| {
            let mut body = base.body[file].clone();
            body.resize(length, 0);
            let class = format!("table_check: {class}, {name}");
            out.push(case(class, with_file(base, file, body), says));
        };
        for length in [1, length - 1, length + 1] {
            resized("refused 1, not whole", length, refuse(1, 0));
        }
        match file {
            RUNTIME | INTRINSIC => resized("passed, none", 0, Ok(())),
            _ => resized("refused 1, too few", few * size, refuse(1, 0)),
        }
    }
    let layouts = base.body[LAYOUT].repeat(2);
    let class = "table_check: refused 1, layout, one too many";
    out.push(case(class, with_file(base, LAYOUT, layouts), refuse(1, 0)));
    let types = base.body[TYPES][..17 * 32].to_vec();
    let few = with(&with_file(base, TYPES, types), OPCODES, 2, 42, &[9, 16, 15]);
    out.push(case("table_check: passed, 17 types", few, Ok(())));
    let one = base.body[OPCODES][..SIZES[OPCODES]].to_vec();
    out.push(case("table_check: passed, one opcode", with_file(base, OPCODES, one), Ok(())));
    out
}

/// Row 2.
fn names(base: &Files) -> Vec<Case> {
    let mut out = Vec::new();
    for (file, width) in [(OPCODES, 40), (TYPES, 28), (RUNTIME, 64), (INTRINSIC, 64)] {
        for (place, record) in places(base.count(file)) {
            let class = format!("table_check: refused 2, {}, {place}", FILES[file]);
            let bad = |at, bytes: &[u8]| with(base, file, record, at, bytes);
            let other = [b'@', b'[', b'`', b'{', b'/', b':', b'-', 0x80][(file + record) % 8];
            for files in [
                bad(0, &vec![0; width]),
                bad(0, &[0]),
                bad(0, &[other]),
                bad(width - 1, b"a"),
                bad(0, &[&vec![b'x'; width - 1][..], b"."].concat()),
            ] {
                out.push(case(class.clone(), files, refuse(2, record)));
            }
        }
        if file != TYPES {
            let full = with(base, file, 2, 0, &vec![b'z'; width]);
            let class = format!("table_check: passed, {}, a name of full width", FILES[file]);
            out.push(case(class, full, Ok(())));
        }
    }
    let ends = with(base, OPCODES, 4, 0, b"AZaz09_");
    out.push(case("table_check: passed, all characters of a name", ends, Ok(())));
    out
}

/// Row 3.
fn opcodes(base: &Files) -> Vec<Case> {
    let mut out = Vec::new();
    for (place, record) in places(base.count(OPCODES)) {
        let class = format!("table_check: refused 3, opcodes, {place}");
        for (at, bytes) in [
            (40, &[3][..]),
            (40, &[255]),
            (41, &[9]),
            (41, &[255]),
            (41, &[1, 19]),
            (41, &[1, 255]),
            (41, &[8, 0, 0, 0, 0, 0, 0, 0, 19]),
            (41, &[0, 1]),
            (41, &[1, 0, 1]),
            (41, &[7, 0, 0, 0, 0, 0, 0, 0, 1]),
            (54, &[1]),
            (71, &[1]),
        ] {
            let files = with(base, OPCODES, record, at, bytes);
            out.push(case(class.clone(), files, refuse(3, record)));
        }
    }
    let class = "table_check: passed, a prefix with operands";
    out.push(case(class, with(base, OPCODES, 0, 41, &[2, 9, 18]), Ok(())));
    let class = "table_check: passed, two of a prefix";
    out.push(case(class, with(base, OPCODES, 4, 40, &[1]), Ok(())));
    out
}

/// Row 4.
fn types(base: &Files) -> Vec<Case> {
    let mut out = Vec::new();
    let sizes = [
        &[0, 1, 1][..],
        &[3, 0, 1],
        &[5, 0, 1],
        &[8, 0, 1],
        &[4, 1, 1],
        &[1, 2, 1],
        &[1, 1, 2],
        &[1, 0, 0],
        &[0, 1, 0],
        &[1, 1, 1, 1],
    ];
    let last = base.count(TYPES) - 1;
    for (place, record) in [("first", 0), ("middle", 8), ("17th", 16), ("18th", 17), ("last", last)]
    {
        let class = format!("table_check: refused 4, types, {place}");
        for bytes in sizes {
            let files = with(base, TYPES, record, 28, bytes);
            out.push(case(class.clone(), files, refuse(4, record)));
        }
        let names = if record < 17 { ["Other", "Regs"] } else { ["Reg\0\0\0", "IntrinsicId"] };
        for name in names {
            let files = with(base, TYPES, record, 0, name.as_bytes());
            out.push(case(class.clone(), files, refuse(4, record)));
        }
    }
    for (record, name, good) in [(6, "RegListx", false), (17, "RegListx", true)] {
        let files = with(base, TYPES, record, 0, name.as_bytes());
        let (word, says) = if good { ("passed", Ok(())) } else { ("refused 4", refuse(4, 6)) };
        out.push(case(format!("table_check: {word}, a longer type name"), files, says));
    }
    for bytes in [[1, 0, 1], [1, 1, 1], [2, 0, 1], [2, 1, 1], [4, 0, 1], [0, 0, 0]] {
        for record in [0, 18] {
            let files = with(base, TYPES, record, 28, &bytes);
            out.push(case("table_check: passed, each size of a type", files, Ok(())));
        }
    }
    out
}

/// Row 5: each value, at both ends of its range and beside them.
fn layouts(base: &Files) -> Vec<Case> {
    let mut out = Vec::new();
    for value in 0..20 {
        let (good, bad): (&[u32], &[u32]) = match value {
            0 => (&[4, 8], &[0, 3, 5, 7, 9, ABSENT, 260]),
            1 => (&[0, 4, 8], &[1, 3, 5, 7, 9, ABSENT, 264]),
            2 => (&[0, 65_535], &[65_536, ABSENT]),
            3..=11 => (&[0, 65_535, ABSENT], &[65_536, ABSENT - 1]),
            12 | 18 => (&[0, 1], &[2, ABSENT, 256]),
            13..=17 => (&[0, ABSENT, 0x8000_0000], &[]),
            _ => (&[0], &[1, 256, ABSENT]),
        };
        for (numbers, says) in [(good, Ok(())), (bad, refuse(5, value))] {
            for number in numbers {
                let files = with(base, LAYOUT, 0, 4 * value, &number.to_le_bytes());
                let word = if says.is_ok() { "passed" } else { "refused 5" };
                out.push(case(format!("table_check: {word}, value {value}"), files, says));
            }
        }
    }
    let two = with(&with(base, LAYOUT, 0, 76, &[1]), LAYOUT, 0, 12, &[0, 0, 1]);
    out.push(case("table_check: refused 5, the lower of two", two, refuse(5, 3)));
    out
}

/// Two faults: the lower number is answered, wherever it lies, and then the earlier file and record.
fn orders(base: &Files) -> Vec<Case> {
    let cut = |files: &Files, file: usize| {
        let body = files.body[file][1..].to_vec();
        with_file(files, file, body)
    };
    let name = |files: &Files, file, record| with(files, file, record, 0, b"-");
    let opcode = |files: &Files, record| with(files, OPCODES, record, 40, &[7]);
    let kind = |files: &Files, record| with(files, TYPES, record, 30, &[7]);
    let value = |files: &Files, at: usize| with(files, LAYOUT, 0, 4 * at, &[99]);
    let cases = [
        ("1 before 2", cut(&name(base, OPCODES, 0), LAYOUT), refuse(1, 0)),
        ("1 before 3", cut(&opcode(base, 0), INTRINSIC), refuse(1, 0)),
        ("1 before 4", cut(&kind(base, 3), RUNTIME), refuse(1, 0)),
        ("1 before 5", cut(&value(base, 0), OPCODES), refuse(1, 0)),
        ("2 before 3", name(&opcode(base, 0), INTRINSIC, 2), refuse(2, 2)),
        ("2 before 4", name(&kind(base, 0), RUNTIME, 1), refuse(2, 1)),
        ("2 before 5", name(&value(base, 0), TYPES, 18), refuse(2, 18)),
        ("3 before 4", opcode(&kind(base, 0), 4), refuse(3, 4)),
        ("3 before 5", opcode(&value(base, 0), 3), refuse(3, 3)),
        ("4 before 5", kind(&value(base, 0), 18), refuse(4, 18)),
        ("2, opcodes before types", name(&name(base, TYPES, 0), OPCODES, 4), refuse(2, 4)),
        ("2, types before runtime", name(&name(base, RUNTIME, 0), TYPES, 18), refuse(2, 18)),
        ("2, runtime before intrinsic", name(&name(base, INTRINSIC, 0), RUNTIME, 2), refuse(2, 2)),
        ("3, the first of two", opcode(&opcode(base, 4), 2), refuse(3, 2)),
        ("4, the first of two", kind(&kind(base, 17), 16), refuse(4, 16)),
    ];
    let named = |(what, files, says)| case(format!("table_check: order, {what}"), files, says);
    cases.into_iter().map(named).collect()
}

/// Each of bytes 50 to 53 at its ends and beyond, whatever the others are, and the zeros behind them: 26 and 3.
fn flows(base: &Files) -> Vec<Case> {
    let mut out = Vec::new();
    for (place, record) in places(base.count(OPCODES)) {
        for (k, most) in MOST.into_iter().enumerate() {
            let at = FLOW + k;
            for value in [1, most] {
                let files = with(base, OPCODES, record, at, &[value]);
                let class = format!("table_check: passed, byte {at} up to {most}, {place}");
                out.push(case(class, files, Ok(())));
            }
            for value in [most + 1, 255] {
                let files = with(base, OPCODES, record, at, &[value]);
                let class = format!("table_check: refused 26, byte {at}, {place}");
                out.push(case(class, files, refuse(26, record)));
            }
        }
        let class = format!("table_check: passed, bytes 50 to 53 at their most, {place}");
        out.push(case(class, with(base, OPCODES, record, FLOW, &MOST), Ok(())));
        for at in [54, 63, 64, 71] {
            let files = with(base, OPCODES, record, at, &[1]);
            let class = format!("table_check: refused 3, byte {at}, {place}");
            out.push(case(class, files, refuse(3, record)));
        }
    }
    for kind in 0..=MOST[0] {
        let files = with(base, OPCODES, 2, FLOW, &[kind, 1, 7, 1]);
        out.push(case(format!("table_check: passed, flow {kind}"), files, Ok(())));
        let files = with(base, OPCODES, 2, FLOW, &[kind, 0, 8, 0]);
        let class = format!("table_check: refused 26, byte 52 of flow {kind}");
        out.push(case(class, files, refuse(26, 2)));
    }
    out
}

/// 26 with other faults: met record by record with 3, behind it in a record, and between 2 and 4.
fn flow_orders(base: &Files) -> Vec<Case> {
    let flow = |files: &Files, record| with(files, OPCODES, record, FLOW, &[6]);
    let opcode = |files: &Files, record| with(files, OPCODES, record, 40, &[7]);
    let zeros = |files: &Files, record| with(files, OPCODES, record, 71, &[7]);
    let name = |files: &Files, file, record| with(files, file, record, 0, b"-");
    let kind = |files: &Files, record| with(files, TYPES, record, 30, &[7]);
    let value = |files: &Files, at: usize| with(files, LAYOUT, 0, 4 * at, &[99]);
    let cut = |files: &Files, file: usize| {
        let body = files.body[file][1..].to_vec();
        with_file(files, file, body)
    };
    let cases = [
        ("26 before 3 of a later record", opcode(&flow(base, 2), 3), refuse(26, 2)),
        ("26 before zeros of a later record", zeros(&flow(base, 0), 1), refuse(26, 0)),
        ("3 before 26 of a later record", opcode(&flow(base, 3), 2), refuse(3, 2)),
        ("3 before 26 of its own record", opcode(&flow(base, 3), 3), refuse(3, 3)),
        ("zeros before 26 of their own record", zeros(&flow(base, 4), 4), refuse(3, 4)),
        ("26, the first of two", flow(&flow(base, 4), 1), refuse(26, 1)),
        ("1 before 26", cut(&flow(base, 0), LAYOUT), refuse(1, 0)),
        ("2 before 26", name(&flow(base, 0), OPCODES, 4), refuse(2, 4)),
        ("2 of a later file before 26", name(&flow(base, 0), INTRINSIC, 2), refuse(2, 2)),
        ("26 before 4", flow(&kind(base, 0), 4), refuse(26, 4)),
        ("26 before 5", flow(&value(base, 0), 4), refuse(26, 4)),
    ];
    let named = |(what, files, says)| case(format!("table_check: order, {what}"), files, says);
    let mut out: Vec<Case> = cases.into_iter().map(named).collect();
    let opcodes = (0..256).flat_map(|k| opcode_record(&format!("N{k}"), 0, &[])).collect();
    let last = with(&with_file(base, OPCODES, opcodes), OPCODES, 255, FLOW, &[6]);
    let class = "table_check: refused 26, opcodes, last of the most";
    out.push(case(class, last, refuse(26, 255)));
    out
}

// ---- stores ----

/// Three objects of 3, 3 and 1 slots and one slot that none has; a payload of 24 bytes.
fn base_store() -> Files {
    let mut files = Files::default();
    files.body[LAYOUT] = sample::table().body[LAYOUT].clone();
    files.body[PAYLOAD] = (0..24).collect();
    let object = |kind, first, count| Object { kind, first, count, ..Object::default() };
    let objects = [object(1, 0, 3), object(0, 3, 3), object(2, 6, 1)];
    files.body[OBJECTS] = objects.iter().flat_map(Object::bytes).collect();
    let slot = |index, kind| Slot { index, kind, ..Slot::default() };
    let slots = [
        Slot { number: 0, length: 8, ..slot(1, 4) },
        Slot { number: 2, ..slot(2, 1) },
        Slot { inner: 1, number: 1, count: 2, ..slot(3, 5) },
        Slot { number: 8, length: 16, ..slot(0, 4) },
        slot(2, 0),
        Slot { inner: 4, number: 4, length: 4, count: 3, ..slot(2, 5) },
        slot(1, 2),
        slot(0, 3),
    ];
    files.body[SLOTS] = slots.iter().flat_map(Slot::bytes).collect();
    files
}

pub fn stores() -> Vec<Case> {
    let base = base_store();
    let mut out = vec![case("store_check: passed", base.clone(), Ok(()))];
    out.extend(store_sizes(&base));
    out.extend(objects(&base));
    out.extend(slots(&base));
    out.extend(good_slots(&base));
    out.extend(falls(&base));
    out
}

/// Row 6. Too many records or too long a payload would be too long for a vector file.
fn store_sizes(base: &Files) -> Vec<Case> {
    let mut out = Vec::new();
    for file in [OBJECTS, SLOTS] {
        let size = SIZES[file];
        let length = base.body[file].len();
        for length in [1, size - 1, size + 1, length - 1, length + 1, length + size - 1] {
            let mut body = base.body[file].clone();
            body.resize(length, 0);
            let class = format!("store_check: refused 6, {}, not whole", FILES[file]);
            out.push(case(class, with_file(base, file, body), refuse(6, 0)));
        }
    }
    let bad = with(base, OBJECTS, 0, 0, &[9]);
    let cut = bad.body[SLOTS][1..].to_vec();
    out.push(case("store_check: order, 6 before 7", with_file(&bad, SLOTS, cut), refuse(6, 0)));
    out.push(case("store_check: passed, empty", Files::default(), Ok(())));
    let only = with_file(&Files::default(), PAYLOAD, vec![7; 9]);
    out.push(case("store_check: passed, a payload alone", only, Ok(())));
    out
}

/// Row 7, objects.
fn objects(base: &Files) -> Vec<Case> {
    let slots = base.count(SLOTS) as u32;
    let range = |first: u32, count: u32| [first.to_le_bytes(), count.to_le_bytes()].concat();
    let mut out = Vec::new();
    for (place, record) in places(3) {
        let class = format!("store_check: refused 7, objects, {place}");
        for (at, bytes) in [
            (0, vec![3]),
            (0, vec![255]),
            (1, vec![2]),
            (2, vec![1]),
            (3, vec![1]),
            (4, range(slots, 1)),
            (4, range(1, slots)),
            (4, range(0, slots + 1)),
            (4, range(u32::MAX, 1)),
            (4, range(1, u32::MAX)),
            (4, range(u32::MAX, u32::MAX)),
        ] {
            let files = with(base, OBJECTS, record, at, &bytes);
            out.push(case(class.clone(), files, refuse(7, record)));
        }
        for (first, count) in [(slots - 1, 1), (slots, 0), (u32::MAX, 0)] {
            let files = with(base, OBJECTS, record, 4, &range(first, count));
            out.push(case("store_check: passed, an object's slots at the end", files, Ok(())));
        }
    }
    let two = with(&with(base, SLOTS, 0, 4, &[9]), OBJECTS, 2, 0, &[9]);
    out.push(case("store_check: order, objects before slots", two, refuse(7, 2)));
    let none = with_file(base, SLOTS, Vec::new());
    out.push(case("store_check: refused 7, no slots", none, refuse(7, 0)));
    out
}

/// Fields of a slot that are wrong, with its index: kind, inner, two zeros, number, length, count,
/// four zeros.
fn wrong_values() -> Vec<Vec<u8>> {
    let value = |kind, inner, number, length, count| {
        Slot { index: 0, kind, inner, number, length, count }.bytes()[4..].to_vec()
    };
    let mut out = vec![
        value(6, 0, 0, 0, 0),
        value(255, 0, 0, 0, 0),
        value(0, 1, 0, 0, 0),
        value(1, 0, 3, 0, 0),
        value(1, 0, u32::MAX, 0, 0),
        value(1, 0, 0, 1, 0),
        value(1, 1, 0, 0, 0),
        value(4, 0, 20, 5, 0),
        value(4, 0, 25, 0, 0),
        value(4, 0, u32::MAX, u32::MAX, 0),
        value(4, 0, 1, u32::MAX, 0),
        value(4, 4, 0, 4, 0),
        value(4, 0, 0, 4, 1),
        value(5, 5, 0, 0, 1),
        value(5, 255, 0, 0, 1),
        value(5, 1, 3, 0, 1),
        value(5, 1, 0, 1, 1),
        value(5, 4, 24, 1, 1),
        value(5, 0, 0, 0, 1_048_577),
        value(5, 4, 0, 0, u32::MAX),
    ];
    for kind in [0, 2, 3] {
        out.extend([value(kind, 0, 1, 0, 0), value(kind, 0, 0, 1, 0), value(kind, 0, 0, 0, 1)]);
        out.extend([value(5, kind, 1, 0, 1), value(5, kind, 0, 1, 1)]);
    }
    for at in [2, 3, 16, 17, 18, 19] {
        let mut zeros = value(2, 0, 0, 0, 0);
        zeros[at] = 1;
        out.push(zeros);
    }
    out
}

/// Row 7, slots by themselves.
fn slots(base: &Files) -> Vec<Case> {
    let mut out = Vec::new();
    for (place, record) in places(base.count(SLOTS)) {
        let class = format!("store_check: refused 7, slots, {place}");
        for value in wrong_values() {
            let files = with(base, SLOTS, record, 4, &value);
            out.push(case(class.clone(), files, refuse(7, record)));
        }
        for index in [1_048_577u32, u32::MAX] {
            let files = with(base, SLOTS, record, 0, &index.to_le_bytes());
            out.push(case(class.clone(), files, refuse(7, record)));
        }
    }
    out
}

/// Limits that the last slot keeps.
fn good_slots(base: &Files) -> Vec<Case> {
    let last = base.count(SLOTS) - 1;
    let slot = |kind, inner, number, length, count| Slot {
        index: 1_048_576,
        kind,
        inner,
        number,
        length,
        count,
    };
    let slots = [
        slot(0, 0, 0, 0, 0),
        slot(1, 0, 2, 0, 0),
        slot(2, 0, 0, 0, 0),
        slot(3, 0, 0, 0, 0),
        slot(4, 0, 20, 4, 0),
        slot(4, 0, 24, 0, 0),
        slot(5, 0, 0, 0, 1_048_576),
        slot(5, 1, 2, 0, 0),
        slot(5, 2, 0, 0, 1),
        slot(5, 3, 0, 0, 1),
        slot(5, 4, 0, 24, 1_048_576),
    ];
    let good = |s: &Slot| {
        let files = with(base, SLOTS, last, 0, &s.bytes());
        case("store_check: passed, a slot at its limits", files, Ok(()))
    };
    slots.iter().map(good).collect()
}

/// Row 7, falling indices.
fn falls(base: &Files) -> Vec<Case> {
    let index =
        |files: &Files, record, index: u32| with(files, SLOTS, record, 0, &index.to_le_bytes());
    let kind = |files: &Files, record| with(files, SLOTS, record, 4, &[9]);
    let holds = |files: &Files, object, first: u32, count: u32| {
        let range = [first.to_le_bytes(), count.to_le_bytes()].concat();
        with(files, OBJECTS, object, 4, &range)
    };
    let cases = [
        ("refused 7, falling, first", index(base, 1, 0), refuse(7, 1)),
        ("passed, equal indices", index(base, 4, 0), Ok(())),
        ("refused 7, falling, middle", index(&index(base, 3, 3), 5, 9), refuse(7, 4)),
        ("refused 7, falling, last", holds(base, 2, 6, 2), refuse(7, 7)),
        ("passed, falling where no object has both", index(base, 3, 0), Ok(())),
        ("passed, falling where no object has both", index(base, 6, 9), Ok(())),
        ("passed, equal indices", index(&index(base, 1, 3), 0, 3), Ok(())),
        ("refused 7, falling, two objects", holds(base, 2, 2, 2), refuse(7, 3)),
        ("refused 7, falling, the lower of two", index(&holds(base, 0, 5, 3), 4, 9), refuse(7, 5)),
        ("order, a fall before a bad slot", kind(&index(base, 1, 0), 4), refuse(7, 1)),
        ("order, a bad slot before a fall", kind(&index(base, 5, 1), 4), refuse(7, 4)),
        ("order, a bad slot that falls", kind(&index(base, 5, 1), 5), refuse(7, 5)),
        ("order, a bad slot before all falls", kind(&holds(base, 2, 5, 3), 0), refuse(7, 0)),
    ];
    let named = |(what, files, says)| case(format!("store_check: {what}"), files, says);
    cases.into_iter().map(named).collect()
}
