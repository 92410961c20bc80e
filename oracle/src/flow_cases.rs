//! Opcodes whose flow is not that of their name (Wish 6), and functions of such: chosen ones, random ones, and what each is a case of.

use crate::ask::{self, Call, NO_OBJECT};
use crate::checks::MOST_ENTRIES;
use crate::codes::{marked, width_of};
use crate::decode::{self, plain};
use crate::flows::{self, Flow, JUMPS_BACK, MOST, SWITCHES_ON};
use crate::port::Port;
use crate::random::Random;
use crate::records::*;
use crate::sample;
use crate::switches;
use jscd::bytecode::{Instr, Operand};

// ---- chosen opcodes ----

/// Names of the chosen opcodes: two that have no flow, and one or more of each flow that a name has.
pub const NAMES_THERE: [&str; 12] = [
    "TestAndJump",
    "JumpIfForInDone",
    "Jump",
    "JumpLoop",
    "JumpLoopConstant",
    "JumpIfTrue",
    "JumpIfNullConstant",
    "Return",
    "SuspendGenerator",
    "Throw",
    "SwitchOnSmiNoFeedback",
    "SwitchOnGeneratorState",
];

/// The pool of the chosen functions.
pub const POOL: [Option<i32>; 10] =
    [Some(1), Some(4), None, Some(-4), Some(5), Some(10), Some(14), Some(0), Some(2), Some(7)];

/// An opcode of a chosen table, and the numbers that its operands have.
#[derive(Clone)]
pub struct Row {
    pub opcode: u8,
    pub name: &'static str,
    pub flow: [u8; 4],
    codes: Vec<u8>,
    values: Vec<u64>,
}

impl Row {
    /// The instruction: at scale 1 without a prefix.
    pub fn instruction(&self, files: &Files, scale: usize) -> Vec<u8> {
        let mut out = match scale {
            1 => Vec::new(),
            _ => vec![scale as u8 / 4],
        };
        out.push(self.opcode);
        for (code, value) in self.codes.iter().zip(&self.values) {
            out.extend(&value.to_le_bytes()[..width_of(files, *code, scale)]);
        }
        out
    }

    pub fn is_switch(&self) -> bool {
        self.flow[0] == SWITCHES_ON
    }
}

/// The sample's table with chosen opcodes behind it, and these.
pub struct Chosen {
    pub files: Files,
    pub rows: Vec<Row>,
}

impl Chosen {
    fn new() -> Chosen {
        Chosen { files: sample::function(&[], 8, &POOL), rows: Vec::new() }
    }

    /// `codes` are the type codes of the record; `given` those of its operands as they are written, with their numbers.
    fn add(&mut self, name: &'static str, flow: [u8; 4], codes: &[u8], given: &[(u8, u64)]) {
        let opcode = self.files.count(OPCODES) as u8;
        self.files.body[OPCODES].extend(flow_record(name, 0, codes, flow));
        let (codes, values) = given.iter().copied().unzip();
        self.rows.push(Row { opcode, name, flow, codes, values });
    }

    /// The files of a function with this code.
    pub fn function(&self, code: &[u8]) -> Files {
        let mut files = sample::function(code, 8, &POOL);
        files.body[OPCODES] = self.files.body[OPCODES].clone();
        files
    }
}

pub fn chosen() -> [Chosen; 3] {
    [by_name(), by_operand(), by_kind()]
}

/// Each name with each flow, by an operand and by the pool.
fn by_name() -> Chosen {
    let mut out = Chosen::new();
    for name in NAMES_THERE {
        for kind in 0..=MOST[0] {
            for pool in [0, 1] {
                let flow = [kind, pool, 0, (kind == SWITCHES_ON) as u8];
                let codes = [10, 11, 9];
                out.add(name, flow, &codes, &[(10, 4), (11, 2), (9, 5)]);
            }
        }
    }
    out
}

/// Byte 52 from 0 to 7 with 0 to 8 operands; each operand is another number.
fn by_operand() -> Chosen {
    let mut out = Chosen::new();
    for first in 0..=MOST[2] {
        for count in 0..=8 {
            let codes = vec![10; count];
            let given: Vec<(u8, u64)> =
                (0..count as u64).map(|k| (10, [5, 1, 4, 2, 6, 3, 7, 1][k as usize])).collect();
            let name = ["TestAndJump", "JumpLoop", "Star"][(first as usize + count) % 3];
            let (kind, pool) = (2 + (first + count as u8) % 3, (count as u8 / 2) % 2);
            out.add(name, [kind, pool, first, 0], &codes, &given);
            out.add(name, [SWITCHES_ON, 0, first, 0], &codes, &given);
            out.add("Test", [SWITCHES_ON, pool, first, 1], &codes, &given);
        }
    }
    out
}

/// Operands of each type as distance, element, table, count and case base; and lists, whose RegCount takes no operand.
fn by_kind() -> Chosen {
    let mut out = Chosen::new();
    for code in 0..17 {
        let one = |value: u64| match code {
            6 | 7 => vec![(code, value), (8, 1)],
            _ => vec![(code, value)],
        };
        let idx = |value: u64| vec![(10, value)];
        out.add("Test", [2, 0, 0, 0], &[code], &one(4));
        out.add("Test", [3, 1, 0, 0], &[code], &one(4));
        out.add("Test", [5, 0, 0, 1], &[code, 10, 10], &[one(4), idx(1), idx(9)].concat());
        out.add("Test", [5, 0, 0, 1], &[10, code, 10], &[idx(4), one(2), idx(9)].concat());
        out.add("Test", [5, 0, 0, 1], &[10, 10, code], &[idx(4), idx(1), one(9)].concat());
    }
    let list = [(6, 250), (8, 2)];
    for first in 0..4 {
        let distance = [(11, 4), (11, 5)];
        out.add("Test", [2, 0, first, 0], &[6, 8, 11, 11], &[list, distance].concat());
        out.add("Test", [4, 0, first, 0], &[7, 11, 11], &[list, distance].concat());
        let table = [(10, 4), (10, 2), (9, 0xff)];
        out.add("Test", [5, 0, first, 1], &[6, 8, 10, 10, 9], &[&list[..], &table].concat());
    }
    out
}

/// Counts that number 16 is about: of an opcode by its flow, and of a switch's name with another flow. In front stands LdaZero. The
/// greatest count, of which the answer can be long, is there where it is asked for.
pub fn counted(greatest: bool) -> Vec<(Files, Vec<u8>)> {
    let mut out = Vec::new();
    for (name, flow) in [
        ("TestAndJump", [5, 0, 0, 1]),
        ("Return", [5, 1, 0, 0]),
        ("SwitchOnSmiNoFeedback", [0, 0, 0, 1]),
        ("SwitchOnSmiNoFeedback", [2, 0, 1, 1]),
        ("SwitchOnGeneratorState", [5, 0, 0, 0]),
        ("SwitchOnGeneratorState", [3, 0, 1, 0]),
    ] {
        let all = [[0, 4_096, 5], [0, 4_097, 5], [0, -1, 5], [0, 2, 4_097]];
        for numbers in &all[!greatest as usize..] {
            let operands = numbers.iter().flat_map(|n: &i16| n.to_le_bytes());
            let code: Vec<u8> =
                [0x02, 0x00, 0x0c].into_iter().chain(operands).chain([0x0b]).collect();
            let mut files = crate::lists::repeated(&code);
            // The count is of type Imm.
            files.body[OPCODES].extend(flow_record(name, 0, &[10, 9, 9], flow));
            out.push((files, code));
        }
    }
    out
}

/// Four times LdaZero, the instruction, Return, LdaZero, Return.
pub fn code_of(instruction: &[u8]) -> Vec<u8> {
    [&[0x02; 4][..], instruction, &[0x0b, 0x02, 0x0b]].concat()
}

/// The opcodes of a chosen table, so many at once: the starts of their instructions, and the code, with Return behind it.
pub fn codes_of(chosen: &Chosen, scale: usize, many: usize) -> Vec<(Vec<usize>, Vec<u8>)> {
    let code = |rows: &[Row]| {
        let mut code = vec![0x02; 4];
        let mut starts = Vec::new();
        for row in rows {
            starts.push(code.len());
            code.extend(row.instruction(&chosen.files, scale));
        }
        code.push(0x0b);
        (starts, code)
    };
    chosen.rows.chunks(many).map(code).collect()
}

// ---- random ones ----

/// Gives some opcodes of a table another flow, by operands that they have, mostly; prefixes too at times.
pub fn change_flows(r: &mut Random, files: &mut Files) {
    let prefixes = [marked(files, 1), marked(files, 2)];
    for k in 0..files.count(OPCODES) {
        let prefix = prefixes.contains(&Some(k as u8));
        if r.once_in(if prefix { 2 } else { 3 }) {
            continue;
        }
        let record = &mut files.body[OPCODES][k * OPCODE_SIZE..][..OPCODE_SIZE];
        let codes = operand_codes(&record[42..42 + record[41] as usize]);
        // An operand that is a number, where there is one.
        let numbers: Vec<usize> =
            (0..codes.len()).filter(|k| matches!(codes[*k], 8..=12)).collect();
        let first = match r.below(8) {
            0 => r.below(8) as usize,
            _ if numbers.is_empty() => 0,
            _ => *r.pick(&numbers),
        };
        let kinds: &[u8] = match numbers.len() {
            0 => &[0, 1, 1, 2, 3],
            1 => &[0, 1, 2, 2, 3, 3, 3, 4],
            _ => &[0, 1, 2, 3, 3, 4, 5, 5, 5],
        };
        let pool = codes.get(first).is_some_and(|code| *code == 10) || r.once_in(8);
        let flow = [*r.pick(kinds), pool as u8, first as u8, r.below(2) as u8];
        record[FLOW..FLOW + 4].copy_from_slice(&flow);
    }
}

/// The type code of each decoded operand.
fn operand_codes(codes: &[u8]) -> Vec<u8> {
    let counts = |k: usize| codes[k] == 8 && k > 0 && matches!(codes[k - 1], 6 | 7);
    (0..codes.len()).filter(|k| !counts(*k)).map(|k| codes[k]).collect()
}

// ---- classes ----

/// Counts that pass number 16.
const COUNTS: std::ops::RangeInclusive<i64> = 0..=MOST_ENTRIES;

/// Which cases an instruction is one of; none where its flow is that of its name.
pub fn classes(port: &Port, function: usize, ins: &Instr) -> Vec<String> {
    let flow = port.flow(ins);
    if flow.named {
        return Vec::new();
    }
    let name = plain(ins);
    let otherwise = match flows::of_name(name) {
        [0, 0, 0, 0] => "a name without a flow",
        _ => "a name that says otherwise",
    };
    let what = what(port, function, ins, &flow);
    let kind = flow.kind;
    let mut out = vec![format!("flow {kind} of {otherwise}"), format!("flow {kind}: {what}")];
    if ins.scale > 1 {
        out.push(format!("flow {kind}, prefixed: {what}"));
    }
    if flow.jumps() && flow.pool {
        out.push(format!("flow {kind} by the pool: {what}"));
    }
    if flow.jumps() && name.starts_with("JumpLoop") && kind != JUMPS_BACK {
        out.push(format!("JumpLoop by flow {kind}: {what}"));
    }
    if flow.jumps() || kind == SWITCHES_ON {
        let used = if kind == SWITCHES_ON { "table" } else { "jump" };
        let beyond = if flow.first >= ins.operands.len() { ", beyond the operands" } else { "" };
        out.push(format!("{used} from operand {}{beyond}: {what}", flow.first));
        let list = |o: &Operand| matches!(o, Operand::RegList { .. });
        if ins.operands.iter().take(flow.first).any(list) && beyond.is_empty() {
            out.push(format!("{used} behind a list: {what}"));
        }
    }
    if kind == SWITCHES_ON {
        out.push(format!("flow 5, case base {}: {what}", flow.base as u8));
    }
    out
}

/// The same for the instruction that a call on lent code is about; None where its flow is that of its name, or there is none.
pub fn of_call(files: &Files, code: &[u8], call: &Call) -> Result<Option<Vec<String>>, String> {
    let port = Port::new(files, ask::lent(call))?;
    let function = match call.args[0] {
        NO_OBJECT => port.without_pool(),
        object => object as usize,
    };
    let Ok(Some(ins)) = decode::checked(&port, code, call.args[1]) else {
        return Ok(None);
    };
    Ok(match port.flow(&ins).named {
        true => None,
        false => Some(classes(&port, function, &ins)),
    })
}

/// What it does.
fn what(port: &Port, function: usize, ins: &Instr, flow: &Flow) -> &'static str {
    match flow.kind {
        flows::ON => "on",
        flows::STOPS => "ends",
        SWITCHES_ON if switches::table(port, ins).is_some_and(|t| !COUNTS.contains(&t.count)) => {
            "a bad count"
        }
        SWITCHES_ON => match switches::entries(port, function, ins) {
            None => "no table",
            Some(entries) if entries.is_empty() => "no entries",
            Some(_) => "entries",
        },
        _ => match flows::target(port, function, ins) {
            None => "no target",
            Some(_) => "a target",
        },
    }
}

/// Classes that must have a case, wherever targets and tables show.
pub fn wanted() -> Vec<String> {
    let mut out = wanted_kinds();
    for kind in 2..=4 {
        for what in ["a target", "no target"] {
            out.push(format!("flow {kind}: {what}"));
            out.push(format!("flow {kind} by the pool: {what}"));
        }
        out.push(format!("flow {kind}, prefixed: a target"));
    }
    for what in ["entries", "no table"] {
        out.push(format!("flow 5: {what}"));
        out.push(format!("flow 5, prefixed: {what}"));
        out.push(format!("flow 5, case base 0: {what}"));
        out.push(format!("flow 5, case base 1: {what}"));
    }
    for first in 0..8 {
        out.push(format!("jump from operand {first}: a target"));
        out.push(format!("jump from operand {first}, beyond the operands: no target"));
        out.push(format!("table from operand {first}, beyond the operands: no table"));
        // The last has no count behind it.
        let what = if first < 7 { "entries" } else { "no table" };
        out.push(format!("table from operand {first}: {what}"));
    }
    out.extend(["JumpLoop by flow 2: a target", "JumpLoop by flow 3: a target"].map(String::from));
    out.extend(["jump behind a list: a target", "table behind a list: entries"].map(String::from));
    out
}

/// Each flow of both kinds of names.
pub fn wanted_kinds() -> Vec<String> {
    let mut out = Vec::new();
    for kind in 0..=MOST[0] {
        out.push(format!("flow {kind} of a name that says otherwise"));
        if kind > 0 {
            out.push(format!("flow {kind} of a name without a flow"));
        }
    }
    out
}

#[cfg(test)]
mod tests {
    use super::*;
    use crate::ask::{ask, Answer, JUMP_TABLE, JUMP_TARGET, LISTING, LONG_LISTING, WALK};
    use crate::checks;
    use crate::port::{STORE, TABLE};
    use crate::vectors;
    use std::collections::BTreeMap;

    /// What is said of an instruction behind four LdaZero, by an opcode of this name, operands and flow.
    fn said(name: &str, codes: &[u8], flow: [u8; 4], instruction: &[u8]) -> [String; 4] {
        let code = code_of(instruction);
        let mut files = sample::function(&code, 8, &POOL);
        files.body[OPCODES].extend(flow_record(name, 0, codes, flow));
        let of = |function, args: &[u64]| {
            ask(&files, &code, &Call::new(function, args)).unwrap().to_string()
        };
        let line = of(LISTING, &[]).lines().nth(10).unwrap().to_string();
        let line = line.split_once(name).unwrap().1.to_string();
        [of(JUMP_TARGET, &[0, 4]), of(JUMP_TABLE, &[0, 4]), line, of(WALK, &[99])]
    }

    /// The bytes alone decide, whatever the name.
    #[test]
    fn by_hand() {
        let closed = "closed";
        // Distance 2 leads to Return, and back to LdaZero.
        for name in ["Test", "Return", "JumpLoop", "SwitchOnSmiNoFeedback", "JumpConstant"] {
            let [target, table, line, walk] = said(name, &[11], [2, 0, 0, 0], &[0x0c, 2]);
            assert_eq!(
                [&*target, &*table, &*line, &*walk],
                ["6", "nothing", " [2] (jscd @ 6)", closed]
            );
            let [target, _, line, walk] = said(name, &[11], [4, 0, 0, 0], &[0x0c, 2]);
            assert_eq!([&*target, &*line, &*walk], ["2", " [2] (jscd @ 2)", closed]);
            let [target, _, line, walk] = said(name, &[11], [0, 1, 7, 1], &[0x0c, 2]);
            assert_eq!([&*target, &*line, &*walk], ["nothing", " [2]", closed]);
            let [target, _, line, walk] = said(name, &[11], [1, 0, 0, 0], &[0x0c, 1]);
            assert_eq!([&*target, &*line, &*walk], ["nothing", " [1]", closed]);
            // Element 4 is 5: behind the Return.
            let [target, _, line, walk] = said(name, &[10], [3, 1, 0, 0], &[0x0c, 4]);
            assert_eq!(
                [&*target, &*line, &*walk],
                ["9", " [4] (jscd @ 9)", "leaves steps 5 from 4"]
            );
            // No such operand.
            let [target, _, line, walk] = said(name, &[10], [3, 1, 1, 0], &[0x0c, 4]);
            assert_eq!([&*target, &*line, &*walk], ["nothing", " [4]", "leaves steps 5 from 4"]);
            let [_, table, line, walk] = said(name, &[10, 11], [5, 1, 0, 0], &[0x0c, 1, 2]);
            assert_eq!([&*table, &*line, &*walk], ["1 0 8", " [1], [2] { 0: @8 }", closed]);
            let [_, table, line, walk] = said(name, &[10, 11], [5, 0, 0, 1], &[0x0c, 1, 2]);
            assert_eq!([&*table, &*line, &*walk], ["nothing", " [1], [2]", closed]);
            let codes = [9, 10, 11, 9];
            let [_, table, line, _] = said(name, &codes, [5, 0, 1, 1], &[0x0c, 9, 4, 1, 0xff]);
            assert_eq!([&*table, &*line], ["1 -1 9", " [9], [4], [1], [-1] { -1: @9 }"]);
            // A RegCount behind a list is no operand of its own.
            let codes = [6, 8, 11];
            let [target, ..] = said(name, &codes, [2, 0, 1, 0], &[0x0c, 0xfa, 2, 5]);
            assert_eq!(target, "9");
            let [target, ..] = said(name, &codes, [2, 0, 2, 0], &[0x0c, 0xfa, 2, 5]);
            assert_eq!(target, "nothing");
        }
        // Under a prefix the distance counts from the opcode byte.
        let code = [0x00, 0x0c, 4, 0];
        let [target, _, line, _] = said("Jump", &[11], [4, 0, 0, 0], &code);
        assert_eq!([&*target, &*line], ["1", ".Wide [4] (jscd @ 1)"]);
    }

    /// The chosen opcodes all decode, and a table has as many as it may.
    #[test]
    fn chosen_tables() {
        for chosen in chosen() {
            assert!(chosen.files.count(OPCODES) <= 256);
            for scale in [1, 2, 4] {
                for (starts, code) in codes_of(&chosen, scale, 24) {
                    let files = chosen.function(&code);
                    let port = Port::new(&files, TABLE | STORE).unwrap();
                    let listed = decode::all(&port, &code).unwrap();
                    let at: Vec<usize> = listed.iter().map(|ins| ins.offset).collect();
                    assert_eq!(at[4..at.len() - 1], starts);
                }
            }
        }
    }

    /// The same flows under other names, where the table is good.
    fn renamed(files: &Files) -> Option<Files> {
        checks::table(files, 1 << OPCODES | 1 << TYPES).ok()?;
        let mut out = files.clone();
        for (k, record) in out.body[OPCODES].chunks_exact_mut(OPCODE_SIZE).enumerate() {
            let flow = Opcode(record).flow().unwrap();
            let codes = record[42..42 + record[41] as usize].to_vec();
            let other = flow_record(&format!("Z{k}"), record[40], &codes, flow);
            record.copy_from_slice(&other);
        }
        Some(out)
    }

    /// Under other names the bytes say what the Rust said by the names: targets, tables, entries, walks, and the listings but for the
    /// names.
    #[test]
    fn bytes_say_what_names_said() {
        let recorded: [(&[u8], usize); 5] = [
            (include_bytes!("../recorded/jump.vec"), 5_000),
            (include_bytes!("../recorded/entry.vec"), 1_500),
            (include_bytes!("../recorded/walk-1.vec"), 2_500),
            (include_bytes!("../recorded/walk-2.vec"), 5_000),
            (include_bytes!("../recorded/v8list.vec"), 60),
        ];
        for (file, least) in recorded {
            let mut asked = 0;
            let all = vectors::each(file, |recorded| {
                let Some(files) = renamed(recorded.files) else {
                    return Ok(());
                };
                let answer = ask(&files, recorded.code, &recorded.call)?;
                let said = match (&answer, recorded.call.function) {
                    (Answer::Found { text, .. }, LISTING | LONG_LISTING) => {
                        vectors::said(&Answer::Found {
                            words: Vec::new(),
                            text: by_aliases(recorded.files, text),
                        })
                    }
                    _ => vectors::said(&answer),
                };
                assert!(said == recorded.said, "item at {}: {answer}", recorded.at);
                asked += 1;
                Ok(())
            });
            assert!(all.is_ok() && asked >= least, "{asked}");
        }
    }

    /// A listing with the names of these files in place of their aliases.
    fn by_aliases(files: &Files, text: &str) -> String {
        let names = files.all(OPCODES).map(|record| name(Opcode(record).name())).enumerate();
        let names: BTreeMap<String, String> =
            names.map(|(k, name)| (format!("Z{k}"), name)).collect();
        let word = |word: &str| {
            let (plain, prefix) = word.split_once('.').unwrap_or((word, ""));
            match names.get(plain) {
                Some(name) if prefix.is_empty() => name.clone(),
                Some(name) => format!("{name}.{prefix}"),
                None => word.to_string(),
            }
        };
        let line = |line: &str| line.split(' ').map(word).collect::<Vec<_>>().join(" ") + "\n";
        text.lines().map(line).collect()
    }
}
