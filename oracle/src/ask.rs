//! One call of one ported function: its checks by document 01, its answer by the Rust.

use crate::checks::{self, Refusal};
use crate::convert;
use crate::decode;
use crate::flows;
use crate::port::{self, bit, Port, STORE, TABLE};
use crate::records::*;
use crate::switches::{self, Table};
use crate::walks::{self, Outcome, Walked};
use crate::writes;
use jscd::bytecode::{Instr, Operand};
use jscd::disasm::open_max_register;
use jscd::serializer::{decode_smi_bytes, Elem, Ref, SlotValue};
use std::fmt;

/// In place of an object number: no object is lent, so there is no pool.
pub const NO_OBJECT: u64 = u64::MAX;

/// A number of an answer; signed ones are stored in two's complement.
#[derive(Debug, Clone, Copy, PartialEq)]
pub enum Word {
    U(u64),
    S(i64),
}

impl Word {
    pub fn bits(self) -> u64 {
        match self {
            Word::U(v) => v,
            Word::S(v) => v as u64,
        }
    }
}

#[derive(Debug, Clone, PartialEq)]
pub enum Answer {
    Nothing,
    Found {
        words: Vec<Word>,
        text: String,
    },
    Refused(Refusal),
    End,
    /// One answer to each of several questions.
    Each(Vec<Answer>),
    Walked(Walked),
    /// The bytes that were written.
    Written(Vec<u8>),
}

impl fmt::Display for Answer {
    fn fmt(&self, f: &mut fmt::Formatter) -> fmt::Result {
        match self {
            Answer::Nothing => write!(f, "nothing"),
            Answer::End => write!(f, "end"),
            Answer::Refused(r) => write!(f, "{r}"),
            Answer::Each(answers) => {
                let shown: Vec<String> = answers.iter().map(Answer::to_string).collect();
                write!(f, "{}", shown.join("; "))
            }
            Answer::Walked(walked) => match walked.outcome {
                Outcome::Closed => write!(f, "closed"),
                Outcome::Leaves { steps, from } => write!(f, "leaves steps {steps} from {from}"),
            },
            Answer::Written(bytes) => {
                let shown: Vec<String> = bytes.iter().map(|b| format!("{b:02x}")).collect();
                write!(f, "{}", shown.join(" "))
            }
            Answer::Found { words, text } => {
                let shown = words.iter().map(|w| match w {
                    Word::U(v) => v.to_string(),
                    Word::S(v) => v.to_string(),
                });
                write!(f, "{}{text}", shown.collect::<Vec<_>>().join(" "))
            }
        }
    }
}

fn words(words: Vec<Word>) -> Answer {
    Answer::Found { words, text: String::new() }
}

fn text(text: String) -> Answer {
    Answer::Found { words: Vec::new(), text }
}

fn value(value: Option<Word>) -> Answer {
    value.map_or(Answer::Nothing, |v| words(vec![v]))
}

#[derive(Debug, Clone)]
pub struct Call {
    pub function: usize,
    /// The arguments; signed ones in two's complement.
    pub args: Vec<u64>,
    /// For decode_smi_bytes alone: its bytes. `args` then holds their number.
    pub bytes: Vec<u8>,
}

impl Call {
    pub fn new(function: usize, args: &[u64]) -> Call {
        Call { function, args: args.to_vec(), bytes: Vec::new() }
    }

    pub fn smi_bytes(bytes: &[u8]) -> Call {
        Call { function: DECODE_SMI_BYTES, args: vec![bytes.len() as u64], bytes: bytes.to_vec() }
    }
}

pub struct Function {
    pub name: &'static str,
    pub args: &'static [&'static str],
    /// The files that it is lent, as bits.
    lent: u8,
    run: Run,
}

/// A check is all that is asked, or the Rust runs, or a conversion, which makes its own checks and has nothing of the Rust.
enum Run {
    Check,
    Rust(fn(&Lent) -> Result<Answer, Refusal>),
    Convert(fn(&Files, u64) -> Result<Vec<u8>, Refusal>),
}

/// What a running function is lent.
struct Lent<'a> {
    files: &'a Files,
    port: Port<'a>,
    code: &'a [u8],
    handlers: &'a [u8],
    call: &'a Call,
}

/// What long_listing lends.
pub const LONG_OUTPUT: usize = 262_144;

const ON_LAYOUT: u8 = 1 << LAYOUT;
const ON_CODE: u8 = 1 << OPCODES | 1 << TYPES | 1 << LAYOUT;
const READS: u8 = STORE | ON_LAYOUT;

pub const LISTING: usize = 0;
pub const RAW_AT: usize = 1;
pub const ARRAY_LEN: usize = 2;
pub const ARRAY_ELEM: usize = 3;
pub const SMI_SLOT: usize = 4;
pub const NUM_FIELD: usize = 5;
pub const BCA_RT_OFF: usize = 6;
pub const DECODE_SMI_BYTES: usize = 7;
pub const JUMP_TARGET: usize = 8;
pub const JUMP_TABLE: usize = 9;
pub const MAX_REGISTER: usize = 10;
pub const REG_NAME: usize = 11;
pub const RENDER_OPERAND: usize = 12;
pub const DECODE: usize = 13;
pub const SLOT_AT: usize = 14;
pub const TABLE_CHECK: usize = 15;
pub const STORE_CHECK: usize = 16;
pub const INSTRUCTION_TEXT: usize = 17;
pub const LAST_BYTES: usize = 18;
pub const WALK: usize = 19;
pub const WALK_CODE: usize = 20;
pub const WALK_LAST_BYTES: usize = 21;
pub const LONG_LISTING: usize = 22;
pub const HEADER: usize = 23;
pub const JUMP_ENTRY: usize = 24;
pub const SLOT_RECORDS: usize = 25;
pub const WRITE: usize = 26;
pub const WALK_WITH: usize = 27;
pub const WALK_CODE_WITH: usize = 28;
pub const TO_NEW: usize = 29;
pub const TO_OLD: usize = 30;

/// An instruction's numbers, and the length of the buffer.
const TO_WRITE: [&str; writes::NUMBERS + 1] = {
    let mut names = ["operand"; writes::NUMBERS + 1];
    (names[0], names[1], names[2], names[3]) = ("opcode", "scale", "end", "count");
    names[writes::NUMBERS] = "room";
    names
};

const fn conversion(
    name: &'static str,
    run: fn(&Files, u64) -> Result<Vec<u8>, Refusal>,
) -> Function {
    Function { name, args: &["room"], lent: convert::LENT, run: Run::Convert(run) }
}

macro_rules! function {
    ($name:literal, $args:expr, $lent:expr) => {
        Function { name: $name, args: &$args, lent: $lent, run: Run::Check }
    };
    ($name:literal, $args:expr, $lent:expr, $run:expr) => {
        Function { name: $name, args: &$args, lent: $lent, run: Run::Rust($run) }
    };
}

/// By number. New functions go behind.
pub const FUNCTIONS: [Function; 31] = [
    function!("listing", [], TABLE | STORE, listing),
    function!("raw_at", ["object", "offset", "length"], READS, raw_at),
    function!("array_len", ["object"], READS, array_len),
    function!("array_elem", ["object", "index"], READS, array_elem),
    function!("smi_slot", ["object", "slot"], READS, smi_slot),
    function!("num_field", ["object", "slot", "flags_smi"], READS, num_field),
    function!("bca_rt_off", ["object", "offset"], READS, bca_rt_off),
    function!("decode_smi_bytes", ["bytes"], 0, smi_bytes),
    function!("jump_target", ["object", "start"], ON_CODE, jump_target),
    function!("jump_table", ["object", "start"], ON_CODE, jump_table),
    function!("max_register", [], ON_CODE, max_register),
    function!("reg_name", ["index", "parameters"], ON_LAYOUT, reg_name),
    function!("render_operand", ["start", "operand", "parameters"], TABLE, render_operand),
    function!("decode", ["start"], ON_CODE, decode_one),
    function!("slot_at", ["object", "slot"], STORE, slot_at),
    function!("table_check", [], TABLE),
    function!("store_check", [], STORE),
    function!("instruction_text", ["start", "parameters"], TABLE, instruction_text),
    function!("last_bytes", ["start"], ON_CODE, last_bytes),
    function!("walk", ["marks"], TABLE | STORE, walk),
    function!("walk_code", ["object", "marks"], ON_CODE, walk_code),
    function!("walk_last_bytes", ["object", "prefixes"], ON_CODE, walk_last_bytes),
    function!("long_listing", [], TABLE | STORE, listing),
    function!("header", ["object"], READS, header),
    function!("jump_entry", ["object", "start", "entry"], ON_CODE, jump_entry),
    function!("slot_records", [], STORE, slot_records),
    function!("write", TO_WRITE, ON_CODE, write_one),
    function!("walk_with", ["marks"], TABLE | STORE, walk_with),
    function!("walk_code_with", ["object", "marks"], ON_CODE, walk_code_with),
    conversion("to_new", convert::to_new),
    conversion("to_old", convert::to_old),
];

/// Functions whose first argument is the object that lends its pool, or none.
const POOL_LENT: [usize; 6] =
    [JUMP_TARGET, JUMP_TABLE, WALK_CODE, WALK_LAST_BYTES, JUMP_ENTRY, WALK_CODE_WITH];

/// The files that a call is lent, as bits.
pub fn lent(call: &Call) -> u8 {
    let pool = POOL_LENT.contains(&call.function) && call.args[0] != NO_OBJECT;
    FUNCTIONS[call.function].lent | if pool { STORE } else { 0 }
}

/// Whether a call is lent code.
pub fn lends_code(call: &Call) -> bool {
    (FUNCTIONS[call.function].lent == ON_CODE && call.function != WRITE)
        || matches!(call.function, RENDER_OPERAND | INSTRUCTION_TEXT)
}

/// Whether a call is lent handler records.
pub fn lends_handlers(call: &Call) -> bool {
    matches!(call.function, WALK_WITH | WALK_CODE_WITH)
}

/// A call that is lent no handler records.
pub fn ask(files: &Files, code: &[u8], call: &Call) -> Result<Answer, String> {
    ask_with(files, code, &[], call)
}

/// An error is a call that cannot be asked: wrong arguments, or not comparable.
pub fn ask_with(
    files: &Files,
    code: &[u8],
    handlers: &[u8],
    call: &Call,
) -> Result<Answer, String> {
    let function = FUNCTIONS.get(call.function).ok_or("no such function")?;
    if call.args.len() != function.args.len() {
        return Err(format!("{} takes {}", function.name, function.args.join(", ")));
    }
    if let Run::Convert(run) = function.run {
        let answer = run(files, call.args[0]).map(Answer::Written);
        return Ok(answer.unwrap_or_else(Answer::Refused));
    }
    let lent = lent(call);
    if let Err(refusal) = checks::table(files, lent).and_then(|_| store_check(files, lent, call)) {
        return Ok(Answer::Refused(refusal));
    }
    let Run::Rust(run) = function.run else {
        return Ok(words(Vec::new()));
    };
    fits(call)?;
    let port = Port::new(files, lent)?;
    Ok(run(&Lent { files, port, code, handlers, call }).unwrap_or_else(Answer::Refused))
}

/// Listing and walk of object 0 are those of the programs, which read files up to a limit.
fn store_check(files: &Files, lent: u8, call: &Call) -> checks::Check {
    if lent & bit(OBJECTS) == 0 {
        return Ok(());
    }
    let of_programs = matches!(call.function, LISTING | WALK | WALK_WITH);
    checks::store(files, if of_programs { checks::PROGRAM_FILE } else { usize::MAX })
}

/// Arguments that the Rust has in 32 bits or as a truth value.
fn fits(call: &Call) -> Result<(), String> {
    let signed = |k: usize| i32::try_from(call.args[k] as i64).is_ok();
    let good = match call.function {
        NUM_FIELD => call.args[2] <= 1,
        BCA_RT_OFF => call.args[1] <= u32::MAX as u64,
        REG_NAME => signed(0) && signed(1),
        RENDER_OPERAND => signed(2),
        INSTRUCTION_TEXT => signed(1),
        WALK_LAST_BYTES => (1..=65_536).contains(&call.args[1]),
        _ => true,
    };
    good.then_some(()).ok_or("an argument is out of range".into())
}

impl<'a> Lent<'a> {
    fn object(&self) -> Result<usize, Refusal> {
        checks::object(self.files, self.call.args[0])
    }

    /// A slot, element, offset or length; one above 32 bits finds nothing.
    fn number(&self, k: usize) -> Option<usize> {
        u32::try_from(self.call.args[k]).ok().map(|n| n as usize)
    }

    fn signed(&self, k: usize) -> i32 {
        self.call.args[k] as i64 as i32
    }

    /// The object whose pool is meant.
    fn pool_lent(&self) -> Result<usize, Refusal> {
        match self.call.args[0] {
            NO_OBJECT => Ok(self.port.without_pool()),
            _ => self.object(),
        }
    }

    /// The object whose pool is meant, and the instruction at the start place.
    fn jump(&self) -> Result<(usize, Option<Instr>), Refusal> {
        let function = self.pool_lent()?;
        Ok((function, decode::checked(&self.port, self.code, self.call.args[1])?))
    }
}

/// The header of an object: the numbers that `render_sfi` writes in its first lines, and where in the payload the code is.
fn header(lent: &Lent) -> Result<Answer, Refusal> {
    let function = checks::function(lent.files, lent.call.args[0])?;
    checks::code_length(lent.port.code_length(function))?;
    let port = Port::of_any_code(lent.files, READS, function);
    let mut whole = String::new();
    port.disassembler()
        .open_render_sfi(port.shared_function_info(), "", &mut whole)
        .expect("any code decodes");
    let last_words = whole.lines().skip(1).take(6).map(|l| l.rsplit(' ').next().unwrap_or(""));
    let mut out: Vec<Word> = last_words.map(|n| Word::S(n.parse().expect("a number"))).collect();
    let code = port.code_part(function);
    out.push(Word::U(code.map_or(0, |part| port.place(part))));
    out.push(Word::U(code.map_or(0, |part| part.len() as u64)));
    Ok(words(out))
}

/// The listing of object 0: header and instruction lines of `render_sfi`, with the entries of switches under a prefix.
fn listing(lent: &Lent) -> Result<Answer, Refusal> {
    let port = &lent.port;
    let function = checks::function(lent.files, 0)?;
    checks::code_length(port.code_length(function))?;
    let listed = decode::all(port, port.code(function))?;
    for ins in &listed {
        checks::switch(port, function, ins)?;
    }
    let listing = switches::listing(port, &listed).expect("the code decodes");
    let room = if lent.call.function == LISTING { checks::PROGRAM_OUTPUT } else { LONG_OUTPUT };
    checks::output(listing.len(), room)?;
    Ok(text(listing))
}

fn raw_at(lent: &Lent) -> Result<Answer, Refusal> {
    let object = lent.object()?;
    let (Some(offset), Some(length)) = (lent.number(1), lent.number(2)) else {
        return Ok(Answer::Nothing);
    };
    let part = lent.port.cache.raw_at(object, offset, length);
    Ok(value(part.map(|p| Word::U(lent.port.place(p)))))
}

fn array_len(lent: &Lent) -> Result<Answer, Refusal> {
    let length = lent.port.cache.array_len(lent.object()?);
    Ok(words(vec![Word::U(length as u64)]))
}

fn array_elem(lent: &Lent) -> Result<Answer, Refusal> {
    let object = lent.object()?;
    let elem = lent.number(1).and_then(|i| lent.port.cache.array_elem(object, i));
    Ok(match elem {
        None => Answer::Nothing,
        Some(Elem::Ref(Ref::Object(n))) => words(vec![Word::U(0), Word::U(n as u64)]),
        Some(Elem::Ref(Ref::Root(_))) => words(vec![Word::U(1)]),
        Some(Elem::Ref(_)) => words(vec![Word::U(2)]),
        Some(Elem::Smi(v)) => words(vec![Word::U(3), Word::S(v)]),
        Some(Elem::Bytes(d)) => {
            words(vec![Word::U(4), Word::U(lent.port.place(d)), Word::U(d.len() as u64)])
        }
    })
}

fn smi_slot(lent: &Lent) -> Result<Answer, Refusal> {
    let object = lent.object()?;
    let dis = lent.port.disassembler();
    let smi = lent.number(1).and_then(|slot| dis.open_smi_slot(object, slot));
    Ok(value(smi.map(Word::S)))
}

fn num_field(lent: &Lent) -> Result<Answer, Refusal> {
    let object = lent.object()?;
    let flags_smi = lent.call.args[2] == 1;
    let dis = lent.port.disassembler();
    let field = lent.number(1).and_then(|slot| dis.open_num_field(object, slot, flags_smi));
    Ok(value(field.map(|v| Word::U(v as u64))))
}

fn bca_rt_off(lent: &Lent) -> Result<Answer, Refusal> {
    let object = lent.object()?;
    let table = &lent.port.table;
    let ts = table.tagged_size as usize;
    let offset = lent.call.args[1] as usize;
    let at = lent.port.cache.bca_rt_off(table, ts, object, offset);
    Ok(words(vec![Word::U(at as u64)]))
}

fn smi_bytes(lent: &Lent) -> Result<Answer, Refusal> {
    Ok(value(decode_smi_bytes(&lent.call.bytes).map(Word::S)))
}

fn jump_target(lent: &Lent) -> Result<Answer, Refusal> {
    let (function, Some(ins)) = lent.jump()? else {
        return Ok(Answer::End);
    };
    let target = flows::target(&lent.port, function, &ins);
    Ok(value(target.map(|t| Word::U(t as u64))))
}

fn jump_table(lent: &Lent) -> Result<Answer, Refusal> {
    let (function, Some(ins)) = lent.jump()? else {
        return Ok(Answer::End);
    };
    checks::switch(&lent.port, function, &ins)?;
    let Some(entries) = switches::entries(&lent.port, function, &ins) else {
        return Ok(Answer::Nothing);
    };
    let mut out = vec![Word::U(entries.len() as u64)];
    for (case, target) in entries {
        out.extend([Word::S(case as i64), Word::U(target as u64)]);
    }
    Ok(words(out))
}

/// One entry of a table: 0 with case and target, 1 skipped, 2 beyond the table. Skipped entries are left out of a table, so the
/// tables that end before this entry and behind it are asked for.
fn jump_entry(lent: &Lent) -> Result<Answer, Refusal> {
    let (function, Some(ins)) = lent.jump()? else {
        return Ok(Answer::End);
    };
    checks::switch(&lent.port, function, &ins)?;
    let entries = |ins: &Instr| switches::entries(&lent.port, function, ins);
    if entries(&ins).is_none() {
        return Ok(Answer::Nothing);
    }
    let table = switches::table(&lent.port, &ins);
    let Table { count, count_at, .. } = table.expect("a table has a count");
    let k = lent.call.args[2];
    if k >= count as u64 {
        return Ok(words(vec![Word::U(2)]));
    }
    let first = |n: u64| {
        let mut ins = ins.clone();
        ins.operands[count_at] = Operand::Idx(n as u32);
        entries(&ins).expect("a shorter table")
    };
    Ok(words(match first(k + 1).get(first(k).len()) {
        Some((case, target)) => {
            vec![Word::U(0), Word::S(*case as i64), Word::U(*target as u64)]
        }
        None => vec![Word::U(1)],
    }))
}

fn max_register(lent: &Lent) -> Result<Answer, Refusal> {
    checks::lent_code(lent.code)?;
    let most = open_max_register(&decode::all(&lent.port, lent.code)?);
    Ok(value(most.map(|m| Word::S(m as i64))))
}

fn reg_name(lent: &Lent) -> Result<Answer, Refusal> {
    Ok(text(lent.port.decoder(lent.signed(1)).reg_name(lent.signed(0))))
}

fn render_operand(lent: &Lent) -> Result<Answer, Refusal> {
    let Some(ins) = decode::checked(&lent.port, lent.code, lent.call.args[0])? else {
        return Ok(Answer::End);
    };
    let decoder = lent.port.decoder(lent.signed(2));
    let operand = lent.number(1).and_then(|k| ins.operands.get(k));
    Ok(operand.map_or(Answer::Nothing, |o| text(decoder.render_operand(o))))
}

/// Name and operands, put together as `render_sfi` does.
fn instruction_text(lent: &Lent) -> Result<Answer, Refusal> {
    let Some(ins) = decode::checked(&lent.port, lent.code, lent.call.args[0])? else {
        return Ok(Answer::End);
    };
    let decoder = lent.port.decoder(lent.signed(1));
    let operands: Vec<String> = ins.operands.iter().map(|o| decoder.render_operand(o)).collect();
    Ok(text(match operands.is_empty() {
        true => ins.name,
        false => format!("{} {}", ins.name, operands.join(", ")),
    }))
}

fn decode_one(lent: &Lent) -> Result<Answer, Refusal> {
    decoded(lent, lent.code)
}

/// decode_one on the code and one byte more, for each byte.
fn last_bytes(lent: &Lent) -> Result<Answer, Refusal> {
    let each = (0..=255).map(|b| {
        let code = [lent.code, &[b]].concat();
        decoded(lent, &code).unwrap_or_else(Answer::Refused)
    });
    Ok(Answer::Each(each.collect()))
}

fn decoded(lent: &Lent, code: &[u8]) -> Result<Answer, Refusal> {
    let Some(ins) = decode::checked(&lent.port, code, lent.call.args[0])? else {
        return Ok(Answer::End);
    };
    Ok(instruction(lent.files, &ins))
}

/// An instruction as its numbers.
pub fn instruction(files: &Files, ins: &Instr) -> Answer {
    let end = ins.offset + ins.bytes.len();
    let mut out: Vec<Word> = [ins.opcode as usize, ins.scale as usize, end, ins.operands.len()]
        .map(|n| Word::U(n as u64))
        .to_vec();
    let codes = operand_codes(Opcode(files.record(OPCODES, ins.opcode as usize)));
    for (operand, code) in ins.operands.iter().zip(codes) {
        out.extend(operand_words(operand, code));
    }
    words(out)
}

/// The instruction whose numbers are the arguments.
fn write_one(lent: &Lent) -> Result<Answer, Refusal> {
    let (room, numbers) = lent.call.args.split_last().expect("29 arguments");
    writes::write(lent.files, numbers, *room).map(Answer::Written)
}

/// The walk over the code of object 0.
fn walk(lent: &Lent) -> Result<Answer, Refusal> {
    of_object(lent, &[])
}

/// The same with the lent handler records.
fn walk_with(lent: &Lent) -> Result<Answer, Refusal> {
    of_object(lent, lent.handlers)
}

fn of_object(lent: &Lent, handlers: &[u8]) -> Result<Answer, Refusal> {
    let function = checks::function(lent.files, 0)?;
    let marks = lent.call.args[0];
    walks::check_object(&lent.port, function, marks, handlers).map(Answer::Walked)
}

/// The walk over lent code.
fn walk_code(lent: &Lent) -> Result<Answer, Refusal> {
    of_code(lent, &[])
}

/// The same with the lent handler records.
fn walk_code_with(lent: &Lent) -> Result<Answer, Refusal> {
    of_code(lent, lent.handlers)
}

fn of_code(lent: &Lent, handlers: &[u8]) -> Result<Answer, Refusal> {
    let function = lent.pool_lent()?;
    let marks = lent.call.args[1];
    walks::check(&lent.port, function, lent.code, marks, handlers).map(Answer::Walked)
}

/// walk_code with each last byte behind the lent code, and behind those that follow it as numbers
/// whose first byte is the highest. Nothing, unless they all answer alike.
fn walk_last_bytes(lent: &Lent) -> Result<Answer, Refusal> {
    let function = lent.pool_lent()?;
    let first = lent.code.iter().fold(0, |n, b| n << 8 | *b as u64);
    let each = |prefix: u64| -> Vec<Answer> {
        let mut code = prefix.to_be_bytes()[8 - lent.code.len()..].to_vec();
        code.push(0);
        let last = code.len() - 1;
        let mut answer = |byte| {
            code[last] = byte;
            let said = walks::check(&lent.port, function, &code, code.len() as u64, &[]);
            said.map_or_else(Answer::Refused, Answer::Walked)
        };
        (0..=255).map(&mut answer).collect()
    };
    let answers = each(first);
    let same = (1..lent.call.args[1]).all(|k| each(first + k) == answers);
    Ok(if same { Answer::Each(answers) } else { Answer::Nothing })
}

/// The type code of each decoded operand: a RegCount (8) right after a list (6, 7) gives none.
fn operand_codes(record: Opcode) -> Vec<u8> {
    let codes = &record.codes()[..record.operands()];
    let counts = |k: usize| codes[k] == 8 && k > 0 && matches!(codes[k - 1], 6 | 7);
    (0..codes.len()).filter(|k| !counts(*k)).map(|k| codes[k]).collect()
}

/// Kind, first number, second number. The Rust names a Raw operand's type; the code stands for it.
fn operand_words(operand: &Operand, code: u8) -> [Word; 3] {
    let one = |kind, v| [Word::U(kind), v, Word::U(0)];
    match operand {
        Operand::Reg(i) => one(0, Word::S(*i as i64)),
        Operand::RegList { first, count } => {
            [Word::U(1), Word::S(*first as i64), Word::U(*count as u64)]
        }
        Operand::Imm(v) => one(2, Word::S(*v)),
        Operand::Idx(v) => one(3, Word::U(*v as u64)),
        Operand::Flag8(v) => one(4, Word::U(*v as u64)),
        Operand::Flag16(v) => one(5, Word::U(*v as u64)),
        Operand::RuntimeId(v) => one(6, Word::U(*v as u64)),
        Operand::IntrinsicId(v) => one(7, Word::U(*v as u64)),
        Operand::Raw { value, .. } => [Word::U(8), Word::U(code as u64), Word::U(*value)],
    }
}

fn slot_at(lent: &Lent) -> Result<Answer, Refusal> {
    let object = lent.object()?;
    let found = lent.number(1).and_then(|slot| lent.port.cache.slot_at(object, slot));
    Ok(found.map_or(Answer::Nothing, |v| words(slot_words(v).map(Word::U).to_vec())))
}

/// Index and value of every slot record, in order.
fn slot_records(lent: &Lent) -> Result<Answer, Refusal> {
    let mut out = Vec::new();
    for slot in lent.files.all(SLOTS).map(Slot::read) {
        let slot = port::slot(slot);
        out.push(Word::U(slot.index as u64));
        out.extend(slot_words(&slot.value).map(Word::U));
    }
    Ok(words(out))
}

/// Kind, number or offset, length, repeat count, inner kind.
fn slot_words(value: &SlotValue) -> [u64; 5] {
    match value {
        SlotValue::Ref(Ref::Object(n)) => [1, *n as u64, 0, 0, 0],
        SlotValue::Ref(Ref::Root(_)) => [2, 0, 0, 0, 0],
        SlotValue::Ref(_) => [3, 0, 0, 0, 0],
        SlotValue::Raw(r) => [4, r.off as u64, r.len as u64, 0, 0],
        SlotValue::Repeat(count, inner) => {
            let [kind, number, length, _, _] = slot_words(inner);
            [5, number, length, *count as u64, kind]
        }
        _ => [0; 5],
    }
}

#[cfg(test)]
mod tests {
    use super::*;
    use crate::sample;

    fn on_sample(function: usize, args: &[u64]) -> String {
        let files = sample::sample();
        ask(&files, &[0x04, 0xfa, 0x0b], &Call::new(function, args)).unwrap().to_string()
    }

    #[test]
    fn small_reads() {
        assert_eq!(on_sample(RAW_AT, &[0, 54, 5]), "46");
        assert_eq!(on_sample(RAW_AT, &[0, 54, 6]), "nothing");
        assert_eq!(on_sample(RAW_AT, &[1, 54, 5]), "refused 8 at 0");
        assert_eq!(on_sample(SMI_SLOT, &[0, 1]), "5");
        assert_eq!(on_sample(SMI_SLOT, &[0, 1 << 32]), "nothing");
        assert_eq!(on_sample(ARRAY_ELEM, &[0, 3]), "4 32 8");
        assert_eq!(on_sample(SLOT_AT, &[0, 1]), "4 0 51 0 0");
        assert_eq!(on_sample(SLOT_AT, &[0, 2]), "nothing");
    }

    #[test]
    fn instructions() {
        assert_eq!(on_sample(DECODE, &[0]), "4 1 2 1 0 0 0");
        assert_eq!(on_sample(DECODE, &[3]), "end");
        assert_eq!(on_sample(DECODE, &[4]), "refused 20 at 4");
        assert_eq!(on_sample(MAX_REGISTER, &[]), "0");
        assert_eq!(on_sample(RENDER_OPERAND, &[0, 0, 1]), "r0");
        assert_eq!(on_sample(RENDER_OPERAND, &[0, 1, 1]), "nothing");
        assert_eq!(on_sample(REG_NAME, &[-9i64 as u64, 1]), "a0");
    }

    #[test]
    fn a_raw_operand_carries_its_code() {
        let mut files = sample::table();
        files.body[TYPES].extend(type_record("Extra", 4, false));
        files.body[OPCODES].extend(opcode_record("Listed", 0, &[6, 8, 8, 17]));
        let code = [0x0c, 0xfa, 2, 7, 1, 0, 0, 0x80];
        let said = ask(&files, &code, &Call::new(DECODE, &[0])).unwrap().to_string();
        assert_eq!(said, "12 1 8 3 1 0 2 3 7 0 8 17 2147483649");
    }

    #[test]
    fn equal_names_of_other_sizes_are_not_comparable() {
        let mut files = sample::table();
        files.body[TYPES].extend(type_record("Extra", 4, false));
        files.body[TYPES].extend(type_record("Extra", 2, false));
        assert!(ask(&files, &[0x0b], &Call::new(DECODE, &[0])).is_err());
        assert!(ask(&files, &[], &Call::new(TABLE_CHECK, &[])).is_ok());
    }
}
