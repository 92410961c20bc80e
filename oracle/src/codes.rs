//! Random tables, good by rows 1 to 5, codes made by them, and calls on both.

use crate::ask::*;
use crate::random::Random;
use crate::records::*;

/// Size, scalable and present of a type.
const SIZES_OF_TYPES: [[u8; 3]; 8] =
    [[1, 1, 1], [1, 1, 1], [2, 1, 1], [2, 1, 1], [1, 0, 1], [2, 0, 1], [4, 0, 1], [0, 0, 0]];

const POOL_NAMES: usize = 40;
/// The file of types that all have size 2, scalable: a width of 8 behind ExtraWide.
const DOUBLE: usize = 1;

/// What several tables share, so that it stands in the file once.
pub struct Pools {
    types: Vec<Vec<u8>>,
    /// 256 opcodes with codes below 17.
    opcodes: Vec<u8>,
    names: Vec<u8>,
}

pub fn pools(r: &mut Random) -> Pools {
    let counts = [17, 17, 17, 18, 19, 20, 22, 24, 26, 28, 32, 36, 40, 40];
    let types = counts.iter().enumerate().map(|(j, count)| types(r, j, *count)).collect();
    let marked: [&[usize]; 2] = [&[0, 77], &[1, 255]];
    let opcodes = opcodes(r, 256, 17, marked);
    // Every fifth has full width.
    let full = "n".repeat(64);
    let name = |k| if k % 5 == 2 { full.clone() } else { name(r, 64) };
    let names = (0..POOL_NAMES).map(name).flat_map(|name| name_record(&name)).collect();
    Pools { types, opcodes, names }
}

/// Letters, digits and underscores, as many as `most` at times.
fn name(r: &mut Random, most: u64) -> String {
    const CHARACTERS: &[u8] = b"abcdefghijklmnopqrstuvwxyzABCDEFGHIJKLMNOPQRSTUVWXYZ0123456789_";
    let length = if r.once_in(8) { most } else { 1 + r.below(most.min(12)) };
    (0..length).map(|_| *r.pick(CHARACTERS) as char).collect()
}

/// The j-th file of type records. Each of the first 17 has each size in some file, and all have size
/// 2 in one; behind them an earlier one stands again at times, with its name and size.
fn types(r: &mut Random, j: usize, count: usize) -> Vec<u8> {
    let mut out: Vec<u8> = Vec::new();
    for k in 0..count {
        if k > 17 && r.once_in(10) {
            let earlier = 17 + r.below(k as u64 - 17) as usize;
            out.extend_from_within(32 * earlier..32 * (earlier + 1));
            continue;
        }
        // The number in front keeps names apart.
        let mut record = match TYPE_NAMES.get(k) {
            Some(name) => type_record(name, 0, false),
            None => type_record(&format!("{k}_{}", name(r, 25)), 0, false),
        };
        let size = match k {
            _ if j == DOUBLE => [2, 1, 1],
            0..=16 => SIZES_OF_TYPES[(j + 3 * k) % 8],
            _ => *r.pick(&SIZES_OF_TYPES),
        };
        record[28..31].copy_from_slice(&size);
        out.extend(record);
    }
    out
}

/// Opcode records, those at these places marked Wide and ExtraWide.
fn opcodes(r: &mut Random, count: usize, types: usize, marked: [&[usize]; 2]) -> Vec<u8> {
    let mut out = Vec::new();
    for k in 0..count {
        let prefix = match k {
            _ if marked[0].contains(&k) => 1,
            _ if marked[1].contains(&k) => 2,
            _ => 0,
        };
        // Most prefixes have no operands.
        let codes = if prefix != 0 && !r.once_in(3) { Vec::new() } else { operands(r, types) };
        out.extend(opcode_record(&name(r, 40), prefix, &codes));
    }
    out
}

/// Type codes of an opcode's operands, with and without a RegCount (8) behind a list (6, 7).
fn operands(r: &mut Random, types: usize) -> Vec<u8> {
    let count = *r.pick(&[0, 1, 1, 1, 2, 2, 2, 3, 3, 4, 5, 6, 7, 8]);
    let mut out = Vec::new();
    while out.len() < count {
        match r.below(10) {
            0 | 1 => {
                out.push(6 + r.below(2) as u8);
                out.extend(match r.below(8) {
                    0 | 1 => &[][..],
                    2 => &[8, 8],
                    _ => &[8],
                });
            }
            2 if r.once_in(2) => out.push(8),
            3 => out.push(r.below(3) as u8),
            4 | 5 if types > 17 => out.push(17 + r.below(types as u64 - 17) as u8),
            _ => out.push(r.below(17) as u8),
        }
    }
    out.truncate(count);
    out
}

/// Places of a mark among so many opcodes: none, the first, the last, one, several.
fn marks(r: &mut Random, count: usize) -> Vec<usize> {
    let mut any = || r.below(count as u64) as usize;
    let places = [any(), any(), any()];
    match r.below(7) {
        0 => Vec::new(),
        1 | 2 => vec![0],
        3 => vec![count - 1],
        4 | 5 => vec![places[0]],
        _ => places.to_vec(),
    }
}

/// A table; the k-th of a recording.
pub fn table(r: &mut Random, pools: &Pools, k: usize) -> Files {
    let mut files = Files::default();
    let types = match k % 10 {
        0 => &pools.types[k / 10 % 3],
        1 | 6 => &pools.types[DOUBLE],
        _ => r.pick(&pools.types),
    };
    files.body[TYPES] = types.clone();
    files.body[OPCODES] = match k % 10 {
        // All opcodes that there may be, or a run of them.
        0 => {
            let whole = k % 50 == 0;
            let first = if whole { 0 } else { r.below(200) as usize };
            let count = if whole { 256 } else { 1 + r.below(256 - first as u64) as usize };
            pools.opcodes[OPCODE_SIZE * first..OPCODE_SIZE * (first + count)].to_vec()
        }
        _ => {
            let count = *r.pick(&[1, 2, 3, 4, 5, 6, 8, 10, 12, 13]);
            let marked = match k % 10 {
                1 | 6 => [vec![0], vec![1]],
                _ => [marks(r, count), marks(r, count)],
            };
            opcodes(r, count, types.len() / 32, [&marked[0], &marked[1]])
        }
    };
    files.body[LAYOUT] = layout(r);
    for file in [RUNTIME, INTRINSIC] {
        let count = if k == 0 { POOL_NAMES } else { *r.pick(&[0, 0, 1, 2, 8, 9, 20]) };
        let first = r.below((POOL_NAMES - count) as u64 + 1) as usize;
        files.body[file] = pools.names[64 * first..64 * (first + count)].to_vec();
    }
    files
}

/// A layout with numbers near 0 and numbers that make registers wrap.
pub fn layout(r: &mut Random) -> Vec<u8> {
    let mut number = |likely: &[i32]| -> i64 {
        let ends = [i32::MIN, i32::MIN + 3, i32::MAX, i32::MAX - 2, 0, 2, -1, 40];
        let any = match r.below(5) {
            0 => *r.pick(&ends),
            1 => r.next() as i32,
            _ => *r.pick(likely),
        };
        any as i64
    };
    let start = number(&[-6, -7, -6, -3]);
    let context = number(&[-5, -5, -1, 1, 0]);
    let closure = number(&[-4, -4, context as i32, 2, 0]);
    let first = number(&[-8, -8, -2]);
    let base = number(&[-6, -5, -2]);
    let with_base = r.below(2) as i64;
    let size = *r.pick(&[4, 8]);
    let values = [size, 0, 54, 16, 24, 32, -1, 40, 44, -1, -1, 53, 0];
    let frame = [start, context, closure, first, base, with_base, 0];
    layout_record(&[&values[..], &frame].concat().try_into().unwrap())
}

/// The first record with a mark.
pub fn marked(files: &Files, mark: u8) -> Option<u8> {
    files.all(OPCODES).position(|o| Opcode(o).prefix() == mark).map(|k| k as u8)
}

/// Size and scaling of a type, and whether it is present.
pub fn size_of(files: &Files, code: u8) -> (usize, bool, bool) {
    let record = Type(files.record(TYPES, code as usize));
    match record.present() {
        1 => (record.size() as usize, record.scalable() == 1, true),
        _ => (1, true, false),
    }
}

pub fn width_of(files: &Files, code: u8, scale: usize) -> usize {
    let (size, scalable, _) = size_of(files, code);
    if scalable {
        size * scale
    } else {
        size
    }
}

/// Code, and where the instructions in it start that were meant.
pub struct Code {
    pub bytes: Vec<u8>,
    pub starts: Vec<usize>,
}

/// Some instructions by a table; now and then with an end that is cut, or with other bytes.
pub fn code(r: &mut Random, files: &Files) -> Code {
    let mut out = Code { bytes: Vec::new(), starts: Vec::new() };
    for _ in 0..1 + r.below(4) {
        out.starts.push(out.bytes.len());
        instruction(r, files, &mut out.bytes);
    }
    let last = *out.starts.last().unwrap();
    match r.below(8) {
        0 | 1 => {
            let left = r.below((out.bytes.len() - last) as u64) as usize;
            out.bytes.truncate(last + left);
        }
        2 => {
            out.starts.push(out.bytes.len());
            let prefix = marked(files, 1 + r.below(2) as u8).unwrap_or(7);
            out.bytes.push(prefix);
        }
        3 => {
            out.starts.push(out.bytes.len());
            let some = r.below(5) as usize;
            out.bytes.extend(r.bytes(some));
        }
        _ => {}
    }
    out.starts.retain(|s| *s < out.bytes.len());
    out
}

pub fn instruction(r: &mut Random, files: &Files, out: &mut Vec<u8>) {
    let mut scale = 1;
    let prefix = match r.below(3) {
        0 => None,
        k => marked(files, k as u8).map(|prefix| (prefix, 2 * k as usize)),
    };
    if let Some((byte, by)) = prefix {
        out.push(byte);
        scale = by;
    }
    let count = files.count(OPCODES);
    if r.once_in(25) {
        let above = (count + r.below(2) as usize).min(255);
        out.push(*r.pick(&[above as u8, 255]));
        return;
    }
    let last = if count == 256 { 3 } else { 8 };
    let opcode = if r.once_in(last) { count - 1 } else { r.below(count as u64) as usize };
    out.push(opcode as u8);
    let record = Opcode(files.record(OPCODES, opcode));
    let codes = &record.codes()[..record.operands()];
    for (k, code) in codes.iter().enumerate() {
        if *code == 8 && k > 0 && matches!(codes[k - 1], 6 | 7) {
            continue;
        }
        operand(r, files, *code, scale, out);
        if matches!(code, 6 | 7) {
            operand(r, files, 8, scale, out);
        }
    }
}

/// Bytes of an operand: its ends, small numbers, and others.
fn operand(r: &mut Random, files: &Files, code: u8, scale: usize, out: &mut Vec<u8>) {
    let width = width_of(files, code, scale);
    let value = match code {
        0..=7 if !r.once_in(4) => register(r, files),
        8 => *r.pick(&[0, 0, 1, 2, 3, 9, 0x80, 0xff, 0x8000_0000, u64::MAX, 1 << 32]),
        15 | 16 if !r.once_in(4) => {
            let names = files.count(if code == 15 { RUNTIME } else { INTRINSIC }) as u64;
            *r.pick(&[0, names.saturating_sub(1), names, names + 1])
        }
        _ => match r.below(5) {
            0 => 0,
            1 => 1 << (8 * width - 1),
            2 => u64::MAX,
            3 => r.below(100),
            _ => r.next(),
        },
    };
    // What a wide operand has above 32 bits.
    let value = if width == 8 && r.once_in(3) { value ^ r.next() << 32 } else { value };
    out.extend(&value.to_le_bytes()[..width]);
}

/// The operand of a register that has a name of its own, or is near one.
fn register(r: &mut Random, files: &Files) -> u64 {
    let signed = |value| files.layout(value) as i32;
    let (near, by) = (*r.pick(&[14, 15, 16, 17, 17]), *r.pick(&[0, 0, 0, -1, 1, -2, -3]));
    let index = match r.below(4) {
        0 => r.below(9) as i32,
        1 => -1 - r.below(12) as i32,
        _ => signed(near).wrapping_add(by),
    };
    signed(13).wrapping_sub(index) as i64 as u64
}

/// Numbers of parameters; signed ones in two's complement.
pub const PARAMETERS: [u64; 8] =
    [1, 1, 2, 3, 0, -2i64 as u64, i32::MAX as u64, i32::MIN as i64 as u64];

/// Calls on a table and code: at the instructions and within them, at the end and beyond it.
pub fn calls(r: &mut Random, files: &Files, code: &Code) -> Vec<Call> {
    let length = code.bytes.len() as u64;
    let mut starts: Vec<u64> = code.starts.iter().map(|s| *s as u64).collect();
    starts.extend([r.below(length + 1), length, length + 1, length + 2 + r.below(99), u64::MAX]);
    let mut out = Vec::new();
    for start in starts {
        out.push(Call::new(DECODE, &[start]));
        out.push(Call::new(INSTRUCTION_TEXT, &[start, *r.pick(&PARAMETERS)]));
        let opcode = code.bytes.get(start as usize..).and_then(|rest| {
            let prefixes = [marked(files, 1), marked(files, 2)];
            rest.iter().find(|b| !prefixes.contains(&Some(**b)))
        });
        let operands = match opcode {
            Some(k) if (*k as usize) < files.count(OPCODES) => {
                Opcode(files.record(OPCODES, *k as usize)).operands() as u64
            }
            _ => 0,
        };
        let beyond = *r.pick(&[8, u32::MAX as u64, 1 << 32, u64::MAX]);
        for operand in (0..=operands).chain([beyond]) {
            let parameters = *r.pick(&PARAMETERS);
            out.push(Call::new(RENDER_OPERAND, &[start, operand, parameters]));
        }
    }
    out
}

/// Calls of reg_name around each number of a layout, with several numbers of parameters.
pub fn registers(r: &mut Random, files: &Files) -> Vec<Call> {
    let signed = |value| files.layout(value) as i32;
    let mut out = Vec::new();
    for parameters in PARAMETERS {
        let this = signed(17).wrapping_sub(parameters as i32);
        let some = r.next() as i32;
        for near in [signed(14), signed(15), signed(16), this, 0, i32::MIN, i32::MAX, some] {
            for by in -1..=1 {
                let index = near.wrapping_add(by) as i64 as u64;
                out.push(Call::new(REG_NAME, &[index, parameters]));
            }
        }
    }
    out
}
