//! Document 01's sample, and stores that hold other code under its table.

use crate::records::*;

const OPCODE_ROWS: [(&str, u8, &[u8]); 12] = [
    ("Wide", 1, &[]),
    ("ExtraWide", 2, &[]),
    ("LdaZero", 0, &[]),
    ("LdaSmi", 0, &[9]),
    ("Star", 0, &[1]),
    ("Jump", 0, &[11]),
    ("JumpIfTrue", 0, &[11]),
    ("JumpLoop", 0, &[11, 9]),
    ("JumpConstant", 0, &[10]),
    ("SwitchOnSmiNoFeedback", 0, &[10, 11, 9]),
    ("CallRuntime", 0, &[15, 6, 8]),
    ("Return", 0, &[]),
];

/// Where layout value -1 is read as ffffffff, absent.
const LAYOUT_VALUES: [i64; 20] =
    [8, 0, 54, 16, 24, 32, -1, 40, 44, -1, -1, 53, 0, -6, -5, -4, -8, 0, 0, 0];

pub const LISTING: &str = "\
Bytecode length: 5
Parameter count 1
Register count 1
Frame size 8
OSR nesting level: 0
Bytecode Age: 0
           @    0 : 03 05              LdaSmi [5]
           @    2 : 04 fa              Star r0
           @    4 : 0b                 Return
";

/// The table files; the store is empty.
pub fn table() -> Files {
    let mut files = Files::default();
    for (name, prefix, codes) in OPCODE_ROWS {
        files.body[OPCODES].extend(opcode_record(name, prefix, codes));
    }
    for name in TYPE_NAMES {
        let fixed = name == "RuntimeId";
        files.body[TYPES].extend(type_record(name, if fixed { 2 } else { 1 }, !fixed));
    }
    files.body[LAYOUT] = layout_record(&LAYOUT_VALUES);
    files
}

/// The sample: object 0 with one raw run.
pub fn sample() -> Files {
    let mut files = table();
    let payload = &mut files.body[PAYLOAD];
    payload.extend([0, 0, 0, 0, 5, 0, 0, 0]);
    payload.extend([0; 24]);
    payload.extend([8, 0, 0, 0, 8, 0, 0, 0]);
    payload.extend([0; 6]);
    payload.extend([0x03, 0x05, 0x04, 0xfa, 0x0b]);
    let run = Slot { index: 1, kind: 4, length: 51, ..Slot::default() };
    files.body[SLOTS] = run.bytes();
    // 01 gives no byte size: 54 of header and 5 of code.
    files.body[OBJECTS] = Object { kind: 1, count: 1, byte_size: 59, ..Object::default() }.bytes();
    files
}

/// Object 0 with this code; object 1, its pool, where there are elements (None is a reference).
pub fn function(code: &[u8], parameter_size: i32, pool: &[Option<i32>]) -> Files {
    let mut files = table();
    let mut slots = vec![
        raw_slot(&mut files, 1, &smi(code.len() as i32)),
        Slot { index: 2, kind: 2, ..Slot::default() },
        raw_slot(&mut files, 5, &tail(code, parameter_size)),
    ];
    let count = slots.len() as u32;
    let byte_size = 54 + code.len() as u32;
    files.body[OBJECTS] = Object { kind: 1, count, byte_size, ..Object::default() }.bytes();
    if !pool.is_empty() {
        slots[1] = Slot { index: 2, kind: 1, number: 1, ..Slot::default() };
        slots.push(raw_slot(&mut files, 1, &smi(pool.len() as i32)));
        for (k, element) in pool.iter().enumerate() {
            let index = 2 + k as u32;
            slots.push(match element {
                Some(v) => raw_slot(&mut files, index, &smi(*v)),
                None => Slot { index, kind: 3, ..Slot::default() },
            });
        }
        let held = slots.len() as u32 - count;
        let byte_size = 8 * (2 + pool.len() as u32);
        let object = Object { first: count, count: held, byte_size, ..Object::default() };
        files.body[OBJECTS].extend(object.bytes());
    }
    files.body[SLOTS] = slots.iter().flat_map(Slot::bytes).collect();
    files
}

/// The header from frame_size (40) on, and the code.
fn tail(code: &[u8], parameter_size: i32) -> Vec<u8> {
    let mut out = 8i32.to_le_bytes().to_vec();
    out.extend(parameter_size.to_le_bytes());
    out.extend([0; 6]);
    out.extend(code);
    out
}

fn smi(value: i32) -> [u8; 8] {
    ((value as u32 as u64) << 32).to_le_bytes()
}

/// A raw slot whose bytes go behind the payload.
fn raw_slot(files: &mut Files, index: u32, bytes: &[u8]) -> Slot {
    let payload = &mut files.body[PAYLOAD];
    let number = payload.len() as u32;
    payload.extend(bytes);
    Slot { index, kind: 4, number, length: bytes.len() as u32, ..Slot::default() }
}
