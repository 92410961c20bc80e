//! Which cases a recorded call on code is one of. The decoding here only names cases: answers come
//! from `ask`, and an end, a number of operands or a refusal that differs from this is an error.

use crate::ask::*;
use crate::checks::{refuse, Refusal};
use crate::codes::{marked, size_of, width_of};
use crate::records::*;

/// A type code and, for an operand that is read, what it reads.
struct Read {
    code: u8,
    width: usize,
    value: u64,
    /// Width and value of the count that a list reads.
    count: Option<(usize, u64)>,
}

/// An instruction as far as the code goes.
struct Walk {
    scale: usize,
    opcode: u8,
    /// The operands that were read whole.
    reads: Vec<Read>,
    /// Where it ends.
    end: usize,
    refused: Option<Refusal>,
    marks: Vec<&'static str>,
}

fn number(bytes: &[u8]) -> u64 {
    bytes.iter().rev().fold(0, |n, b| n << 8 | *b as u64)
}

impl Walk {
    fn refuse(&mut self, number: u64, place: usize) {
        self.refused = refuse::<()>(number, place).err();
    }

    /// The next so many bytes, or a refusal.
    fn take(&mut self, code: &[u8], width: usize, otherwise: u64) -> Option<u64> {
        if self.end + width > code.len() {
            self.refuse(otherwise, self.end);
            let some = self.end < code.len();
            self.marks.push(if some { "some bytes of it there" } else { "no byte of it there" });
            self.marks.push(if self.reads.is_empty() { "first operand" } else { "later operand" });
            self.marks.push(["", "no prefix", "Wide", "", "ExtraWide"][self.scale]);
            return None;
        }
        let value = number(&code[self.end..self.end + width]);
        self.end += width;
        Some(value)
    }
}

/// The instruction at a place within the code.
fn walk(files: &Files, code: &[u8], place: usize) -> Walk {
    let (reads, marks) = (Vec::new(), Vec::new());
    let mut walk = Walk { scale: 1, opcode: 0, reads, end: place, refused: None, marks };
    for (mark, scale) in [(1, 2), (2, 4)] {
        if marked(files, mark) == Some(code[place]) {
            walk.scale = scale;
            walk.end += 1;
        }
    }
    if walk.end == code.len() {
        walk.refuse(10 + (walk.scale / 2) as u64, place);
        return walk;
    }
    walk.opcode = code[walk.end];
    walk.end += 1;
    if walk.opcode as usize >= files.count(OPCODES) {
        walk.refuse(13, place);
        return walk;
    }
    let record = Opcode(files.record(OPCODES, walk.opcode as usize));
    let codes = &record.codes()[..record.operands()];
    for (k, code_k) in codes.iter().enumerate() {
        let before = if k == 0 { None } else { Some(codes[k - 1]) };
        if *code_k == 8 && matches!(before, Some(6 | 7)) {
            continue;
        }
        read(files, code, *code_k, &codes[k + 1..], &mut walk);
        if walk.refused.is_some() {
            if *code_k == 8 {
                walk.marks.push("a RegCount by itself");
            }
            return walk;
        }
    }
    walk
}

fn read(files: &Files, code: &[u8], code_k: u8, behind: &[u8], walk: &mut Walk) {
    let width = width_of(files, code_k, walk.scale);
    let Some(value) = walk.take(code, width, 14) else {
        return;
    };
    let mut count = None;
    if matches!(code_k, 6 | 7) {
        let count_width = width_of(files, 8, walk.scale);
        let Some(n) = walk.take(code, count_width, 15) else {
            walk.marks.push(match behind.first() {
                Some(8) => "a RegCount in the record",
                _ => "no RegCount in the record",
            });
            return;
        };
        count = Some((count_width, n));
    }
    walk.reads.push(Read { code: code_k, width, value, count });
}

/// The classes of a call and its answer.
pub fn classes(
    files: &Files,
    code: &[u8],
    call: &Call,
    answer: &Answer,
) -> Result<Vec<String>, String> {
    let name = FUNCTIONS[call.function].name;
    let kinds = match (call.function, answer) {
        (REG_NAME, _) => vec![register(files, call.args[0] as i32, call.args[1] as i32)],
        (LAST_BYTES, Answer::Each(_)) => vec![format!("codes of {} bytes", code.len() + 1)],
        (_, Answer::End) if code.is_empty() => vec!["end, empty code".into()],
        (_, Answer::End) => vec!["end".into()],
        (_, Answer::Refused(r)) if r.number <= 10 || r.number == 26 => {
            vec![format!("refused {}", r.number)]
        }
        (_, Answer::Refused(r)) if r.number == 20 => vec![match call.args[0] - code.len() as u64 {
            1 => "refused 20, one beyond".into(),
            _ if call.args[0] == u64::MAX => "refused 20, the last number".into(),
            _ => "refused 20, further beyond".into(),
        }],
        _ => on_instruction(files, code, call, answer)?,
    };
    Ok(kinds.into_iter().map(|k| format!("{name}: {k}")).collect())
}

fn on_instruction(
    files: &Files,
    code: &[u8],
    call: &Call,
    answer: &Answer,
) -> Result<Vec<String>, String> {
    let place = call.args[0] as usize;
    let walk = walk(files, code, place);
    let differs = || format!("{call:?} on {code:02x?}: the walk here does not find {answer}");
    if let Answer::Refused(refusal) = answer {
        if walk.refused != Some(*refusal) {
            return Err(differs());
        }
        return Ok(refused(files, place, &walk, *refusal));
    }
    if walk.refused.is_some() {
        return Err(differs());
    }
    match call.function {
        DECODE => {
            let Answer::Found { words, .. } = answer else {
                return Err(differs());
            };
            let wanted = [walk.opcode as usize, walk.scale, walk.end, walk.reads.len()];
            if words[..4].iter().map(|w| w.bits() as usize).ne(wanted) {
                return Err(differs());
            }
            Ok(decoded(files, code, place, &walk))
        }
        INSTRUCTION_TEXT => Ok(written(files, &walk)),
        _ => match (walk.reads.get(call.args[1] as usize), answer) {
            (Some(read), Answer::Found { .. }) => {
                Ok(operand_text(files, read, call.args[2] as i32))
            }
            (None, Answer::Nothing) => Ok(vec![match call.args[1] {
                k if k > u32::MAX as u64 => "nothing, above 32 bits".into(),
                _ if walk.reads.is_empty() => "nothing, no operands".into(),
                k if k == walk.reads.len() as u64 => "nothing, one beyond".into(),
                _ => "nothing, further beyond".into(),
            }]),
            _ => Err(differs()),
        },
    }
}

fn refused(files: &Files, place: usize, walk: &Walk, refusal: Refusal) -> Vec<String> {
    let number = refusal.number;
    let at = if place == 0 { "at 0" } else { "within the code" };
    let mut out = vec![format!("refused {number}, {at}")];
    out.extend(walk.marks.iter().map(|mark| format!("refused {number}, {mark}")));
    if number == 13 {
        let behind = ["", "no prefix", "Wide", "", "ExtraWide"][walk.scale];
        out.push(format!("refused 13, {behind}"));
        if walk.opcode as usize == files.count(OPCODES) {
            out.push("refused 13, the first opcode without a record".into());
        }
        if walk.opcode == 255 {
            out.push("refused 13, opcode 255".into());
        }
    }
    out
}

fn marks_of(files: &Files, mark: u8) -> usize {
    files.all(OPCODES).filter(|o| Opcode(o).prefix() == mark).count()
}

/// Names for the marks that hold.
fn held(marks: &[(&str, bool)]) -> Vec<String> {
    marks.iter().filter(|(_, is)| *is).map(|(mark, _)| mark.to_string()).collect()
}

fn decoded(files: &Files, code: &[u8], place: usize, walk: &Walk) -> Vec<String> {
    let mut out = vec![
        format!("scale {}", walk.scale),
        format!("{} operands", walk.reads.len()),
        format!("{} operands in the record", record(files, walk).operands()),
    ];
    out.extend(prefixes(files, walk));
    out.extend(shapes(record(files, walk)));
    let types = files.count(TYPES);
    out.extend(held(&[
        ("at 0", place == 0),
        ("within the code", place > 0),
        ("up to the code's end", walk.end == code.len()),
        ("one opcode", files.count(OPCODES) == 1),
        ("opcode 255", walk.opcode == 255),
        ("17 types", types == 17),
        ("40 types", types == 40),
        ("code of 65536 bytes", code.len() == 65_536),
    ]));
    for read in &walk.reads {
        out.extend(operand(files, walk.scale, read));
    }
    out
}

fn record<'a>(files: &'a Files, walk: &Walk) -> Opcode<'a> {
    Opcode(files.record(OPCODES, walk.opcode as usize))
}

/// How the table marks prefixes, and how this instruction meets them.
fn prefixes(files: &Files, walk: &Walk) -> Vec<String> {
    let (wide, extra) = (marked(files, 1), marked(files, 2));
    let last = (files.count(OPCODES) - 1) as u8;
    let mark = record(files, walk).prefix();
    let plain = walk.scale == 1;
    held(&[
        ("no prefix in the table", wide.is_none() && extra.is_none()),
        ("Wide alone in the table", wide.is_some() && extra.is_none()),
        ("ExtraWide alone in the table", wide.is_none() && extra.is_some()),
        ("Wide is opcode 0", walk.scale == 2 && wide == Some(0)),
        ("Wide is the last opcode", walk.scale == 2 && wide == Some(last)),
        ("ExtraWide is opcode 0", walk.scale == 4 && extra == Some(0)),
        ("ExtraWide is the last opcode", walk.scale == 4 && extra == Some(last)),
        ("several are marked Wide", walk.scale == 2 && marks_of(files, 1) > 1),
        ("several are marked ExtraWide", walk.scale == 4 && marks_of(files, 2) > 1),
        ("a later Wide mark as an opcode", plain && mark == 1),
        ("a later ExtraWide mark as an opcode", plain && mark == 2),
        ("Wide behind Wide", walk.scale == 2 && wide == Some(walk.opcode)),
        ("ExtraWide behind Wide", walk.scale == 2 && extra == Some(walk.opcode)),
        ("Wide behind ExtraWide", walk.scale == 4 && wide == Some(walk.opcode)),
        ("ExtraWide behind ExtraWide", walk.scale == 4 && extra == Some(walk.opcode)),
        ("a prefix with operands behind a prefix", !plain && mark != 0 && !walk.reads.is_empty()),
    ])
}

/// Where lists and counts stand in the record.
fn shapes(record: Opcode) -> Vec<String> {
    let codes = &record.codes()[..record.operands()];
    let list = |k: usize| matches!(codes.get(k), Some(6 | 7));
    let is = |k: usize, code: u8| codes.get(k) == Some(&code);
    let any = |test: &dyn Fn(usize) -> bool| (0..codes.len()).any(test);
    held(&[
        ("a list, its RegCount behind", any(&|k| list(k) && is(k + 1, 8))),
        ("a list last, no RegCount", any(&|k| list(k) && k + 1 == codes.len())),
        (
            "a list, another operand behind",
            any(&|k| list(k) && k + 1 < codes.len() && !is(k + 1, 8) && !list(k + 1)),
        ),
        ("a list, a list behind", any(&|k| list(k) && list(k + 1))),
        ("a list, two RegCounts behind", any(&|k| list(k) && is(k + 1, 8) && is(k + 2, 8))),
        ("a RegCount first", is(0, 8)),
        ("a RegCount behind no list", any(&|k| k > 0 && is(k, 8) && !list(k - 1) && !is(k - 1, 8))),
    ])
}

/// The name of a type code; codes above 16 are Raw.
fn type_name(code: u8) -> &'static str {
    TYPE_NAMES.get(code as usize).copied().unwrap_or("Raw")
}

fn extended(read: &Read) -> i64 {
    match read.width {
        1 => read.value as i8 as i64,
        2 => read.value as i16 as i64,
        _ => read.value as i32 as i64,
    }
}

fn operand(files: &Files, scale: usize, read: &Read) -> Vec<String> {
    let (name, width) = (type_name(read.code), read.width);
    let (size, scalable, present) = size_of(files, read.code);
    let signed = matches!(read.code, 0..=7 | 9);
    let value = extended(read);
    let mut out = vec![format!("{name} of width {width}")];
    if !present {
        out.push(format!("absent type, scale {scale}"));
    } else if !scalable {
        out.push(format!("fixed size {size}, scale {scale}"));
    }
    if signed && value < 0 {
        out.push(format!("negative, width {width}"));
    }
    let above = width == 8 && read.value >> 32 != 0;
    let most = match read.code {
        13 => u8::MAX as u64,
        14 => u16::MAX as u64,
        _ => u64::MAX,
    };
    let register = files.layout(13) as i32 as i64 - value;
    out.extend(held(&[
        ("signed, above 32 bits dropped", signed && above),
        ("index, above 32 bits dropped", matches!(read.code, 8 | 10..=12) && above),
        ("runtime id, above 32 bits dropped", read.code == 15 && above),
        ("intrinsic id, above 32 bits dropped", read.code == 16 && above),
        ("Raw, above 32 bits kept", read.code >= 17 && above),
        ("Flag8, cut", read.code == 13 && read.value > most),
        ("Flag16, cut", read.code == 14 && read.value > most),
        ("a register above 2147483647 wraps", read.code <= 7 && register > i32::MAX as i64),
        ("a register below -2147483648 wraps", read.code <= 7 && register < i32::MIN as i64),
    ]));
    if let Some((width, count)) = read.count {
        out.push(format!("count of width {width}"));
        out.extend(held(&[
            ("count, above 32 bits dropped", count >> 32 != 0),
            ("count 0", count as u32 == 0),
            ("count 1", count as u32 == 1),
            ("count above 2147483647", count as u32 > i32::MAX as u32),
        ]));
    }
    out
}

fn written(files: &Files, walk: &Walk) -> Vec<String> {
    let mut out = vec![
        ["", "plain name", "name.Wide", "", "name.ExtraWide"][walk.scale].into(),
        format!("{} operands", walk.reads.len()),
    ];
    if record(files, walk).name()[39] != 0 {
        out.push("a name of full width".into());
    }
    out
}

/// How a register is written.
fn register(files: &Files, index: i32, parameters: i32) -> String {
    let signed = |value: usize| files.layout(value) as i32;
    let (context, closure) = (signed(14), signed(15));
    if index == context || index == closure {
        let name = if index == context { "context" } else { "closure" };
        let at = if index < 0 { "below 0" } else { "not below 0" };
        let both = if context == closure { ", closure too" } else { "" };
        format!("{name}, index {at}{both}")
    } else if index >= 0 {
        if index == i32::MAX { "register 2147483647" } else { "register" }.into()
    } else {
        let (number, by) = match files.layout(18) {
            1 => (index as i64 - signed(17) as i64 + parameters as i64, "by base"),
            _ => (signed(16) as i64 - index as i64, "by first"),
        };
        let wraps = if number == number as i32 as i64 { "" } else { ", wraps" };
        match number as i32 {
            0 => format!("this, {by}{wraps}"),
            1.. => format!("parameter, {by}{wraps}"),
            i32::MIN => "parameter number -2147483648".into(),
            _ => format!("parameter below 0, {by}{wraps}"),
        }
    }
}

fn operand_text(files: &Files, read: &Read, parameters: i32) -> Vec<String> {
    let first = (files.layout(13) as i32).wrapping_sub(extended(read) as i32);
    let list = |count: u32| {
        let name = type_name(read.code);
        let last = first as i64 + count as i64 - 1;
        let mut out = vec![match count {
            0..=3 => format!("{name}, count {count}"),
            _ => format!("{name}, count above 3"),
        }];
        let context = files.layout(14) == 0 || files.layout(15) == 0;
        out.extend(held(&[
            ("list, its last wraps", count > 0 && last != last as i32 as i64),
            ("list of none, register 0 has a name of its own", count == 0 && context),
            ("list from a parameter to a register", first < 0 && count > 0 && last as i32 >= 0),
        ]));
        out
    };
    let id = read.value as u32 as usize;
    let named = |file: usize, name: &str| match files.count(file) {
        0 => vec![format!("{name}, no names")],
        n if id < n && files.record(file, id)[63] != 0 => {
            vec![format!("{name}, named"), format!("{name}, a name of full width")]
        }
        n if id + 1 == n => vec![format!("{name}, named"), format!("{name}, the last name")],
        n if id < n => vec![format!("{name}, named")],
        n if id == n => vec![format!("{name}, one behind the names")],
        _ => vec![format!("{name}, behind the names")],
    };
    match read.code {
        0..=2 => vec![format!("register, {}", register(files, first, parameters))],
        3 | 4 => list(2),
        5 => list(3),
        6 | 7 => list(read.count.map_or(0, |(_, n)| n as u32)),
        9 if extended(read) < 0 => vec!["Imm, negative".into()],
        15 => named(RUNTIME, "runtime id"),
        16 => named(INTRINSIC, "intrinsic id"),
        17.. => {
            let full = Type(files.record(TYPES, read.code as usize)).name()[27] != 0;
            let mut out = vec!["Raw".to_string()];
            out.extend(held(&[("Raw, a name of full width", full)]));
            out
        }
        code => vec![type_name(code).to_string()],
    }
}

/// Classes that must have a case, of each function by its name.
const WANTED: [(&str, &[&str]); 5] = [
    (
        "decode",
        &[
            "scale 1",
            "scale 2",
            "scale 4",
            "no prefix in the table",
            "Wide alone in the table",
            "ExtraWide alone in the table",
            "Wide is opcode 0",
            "Wide is the last opcode",
            "ExtraWide is opcode 0",
            "ExtraWide is the last opcode",
            "several are marked Wide",
            "several are marked ExtraWide",
            "a later Wide mark as an opcode",
            "a later ExtraWide mark as an opcode",
            "Wide behind Wide",
            "ExtraWide behind Wide",
            "Wide behind ExtraWide",
            "ExtraWide behind ExtraWide",
            "a prefix with operands behind a prefix",
            "a list, its RegCount behind",
            "a list last, no RegCount",
            "a list, another operand behind",
            "a list, a list behind",
            "a list, two RegCounts behind",
            "a RegCount first",
            "a RegCount behind no list",
            "at 0",
            "within the code",
            "up to the code's end",
            "one opcode",
            "opcode 255",
            "17 types",
            "40 types",
            "code of 65536 bytes",
            "absent type, scale 1",
            "absent type, scale 2",
            "absent type, scale 4",
            "fixed size 1, scale 1",
            "fixed size 1, scale 2",
            "fixed size 1, scale 4",
            "fixed size 2, scale 1",
            "fixed size 2, scale 2",
            "fixed size 2, scale 4",
            "fixed size 4, scale 1",
            "fixed size 4, scale 2",
            "fixed size 4, scale 4",
            "negative, width 1",
            "negative, width 2",
            "negative, width 4",
            "negative, width 8",
            "signed, above 32 bits dropped",
            "index, above 32 bits dropped",
            "runtime id, above 32 bits dropped",
            "intrinsic id, above 32 bits dropped",
            "Raw, above 32 bits kept",
            "Flag8, cut",
            "Flag16, cut",
            "a register above 2147483647 wraps",
            "a register below -2147483648 wraps",
            "count of width 1",
            "count of width 2",
            "count of width 4",
            "count of width 8",
            "count, above 32 bits dropped",
            "count 0",
            "count 1",
            "count above 2147483647",
        ],
    ),
    (
        "render_operand",
        &[
            "register, context, index below 0",
            "register, context, index not below 0",
            "register, closure, index below 0",
            "register, closure, index not below 0",
            "register, register",
            "register, this, by first",
            "register, this, by base",
            "register, parameter, by first",
            "register, parameter, by base",
            "register, parameter below 0, by first",
            "register, parameter below 0, by base",
            "RegPair, count 2",
            "RegOutPair, count 2",
            "RegOutTriple, count 3",
            "RegList, count 0",
            "RegList, count 1",
            "RegList, count 2",
            "RegList, count 3",
            "RegList, count above 3",
            "RegOutList, count 0",
            "RegOutList, count 1",
            "RegOutList, count 2",
            "RegOutList, count 3",
            "RegOutList, count above 3",
            "list, its last wraps",
            "list of none, register 0 has a name of its own",
            "list from a parameter to a register",
            "RegCount",
            "Imm",
            "Imm, negative",
            "Idx",
            "UImm",
            "NativeContextIndex",
            "Flag8",
            "Flag16",
            "runtime id, no names",
            "runtime id, named",
            "runtime id, a name of full width",
            "runtime id, the last name",
            "runtime id, one behind the names",
            "runtime id, behind the names",
            "intrinsic id, no names",
            "intrinsic id, named",
            "intrinsic id, a name of full width",
            "intrinsic id, the last name",
            "intrinsic id, one behind the names",
            "intrinsic id, behind the names",
            "Raw",
            "Raw, a name of full width",
            "nothing, above 32 bits",
            "nothing, no operands",
            "nothing, one beyond",
            "nothing, further beyond",
        ],
    ),
    ("instruction_text", &["plain name", "name.Wide", "name.ExtraWide", "a name of full width"]),
    (
        "reg_name",
        &[
            "context, index below 0",
            "context, index not below 0",
            "context, index below 0, closure too",
            "closure, index below 0",
            "closure, index not below 0",
            "register",
            "register 2147483647",
            "this, by first",
            "this, by base",
            "this, by base, wraps",
            "parameter, by first",
            "parameter, by base",
            "parameter, by base, wraps",
            "parameter below 0, by first",
            "parameter below 0, by first, wraps",
            "parameter below 0, by base",
            "parameter below 0, by base, wraps",
            "parameter number -2147483648",
        ],
    ),
    ("last_bytes", &["codes of 1 bytes", "codes of 2 bytes", "codes of 3 bytes"]),
];

/// What each call at a start place can meet.
const AT_A_PLACE: [&str; 37] = [
    "end",
    "end, empty code",
    "refused 1",
    "refused 2",
    "refused 3",
    "refused 26",
    "refused 4",
    "refused 5",
    "refused 10",
    "refused 20, one beyond",
    "refused 20, further beyond",
    "refused 20, the last number",
    "refused 11, at 0",
    "refused 11, within the code",
    "refused 12, at 0",
    "refused 12, within the code",
    "refused 13, at 0",
    "refused 13, within the code",
    "refused 13, no prefix",
    "refused 13, Wide",
    "refused 13, ExtraWide",
    "refused 13, the first opcode without a record",
    "refused 13, opcode 255",
    "refused 14, no byte of it there",
    "refused 14, some bytes of it there",
    "refused 14, first operand",
    "refused 14, later operand",
    "refused 14, no prefix",
    "refused 14, Wide",
    "refused 14, ExtraWide",
    "refused 14, a RegCount by itself",
    "refused 15, no byte of it there",
    "refused 15, some bytes of it there",
    "refused 15, first operand",
    "refused 15, later operand",
    "refused 15, a RegCount in the record",
    "refused 15, no RegCount in the record",
];

pub fn wanted() -> Vec<String> {
    let mut out = Vec::new();
    for (function, classes) in WANTED {
        out.extend(classes.iter().map(|class| format!("{function}: {class}")));
    }
    for function in ["decode", "render_operand", "instruction_text"] {
        out.extend(AT_A_PLACE.iter().map(|class| format!("{function}: {class}")));
    }
    for function in ["decode", "instruction_text"] {
        out.extend((0..=8).map(|k| format!("{function}: {k} operands")));
    }
    out.extend((0..=8).map(|k| format!("decode: {k} operands in the record")));
    for name in TYPE_NAMES.iter().chain(["Raw"].iter()) {
        out.extend([1, 2, 4, 8].map(|width| format!("decode: {name} of width {width}")));
    }
    out
}
