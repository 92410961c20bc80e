//! Vectors of numbers in slots, targets, entries and the largest register, from a seed.

use crate::ask::*;
use crate::checks::MOST_CODE;
use crate::classes::{slots, Classes};
use crate::codes;
use crate::faults::{self, Case};
use crate::flow_cases;
use crate::lists::{self, JUMPS, SWITCHES};
use crate::random::Random;
use crate::records::*;
use crate::sample;
use crate::stores;
use crate::vectors::Writer;

/// Stores of each tagged size and unit for slots, and calls on each.
const STORES: usize = 6;
const CALLS: usize = 20;
/// Random tables, stores for each, codes for each store, and calls on each code.
const TABLES: usize = 48;
const SHAPES: usize = 3;
const CODES: usize = 5;
const JUMP_CALLS: usize = 6;
/// Tables whose opcodes have other flows than their names.
const FLOW_TABLES: usize = 12;
/// Chosen opcodes of one code.
const TOGETHER: usize = 24;
/// A call is taken where one of its classes has fewer cases than this, and else sometimes.
const ENOUGH: usize = 30;

pub struct JumpRecording {
    pub writer: Writer,
    pub classes: Classes,
    files: Files,
    code: Vec<u8>,
}

pub fn record(seed: u64) -> Result<JumpRecording, String> {
    let mut r = Random::new(seed);
    let (writer, classes) = (Writer::sharing(), Classes::default());
    let mut out = JumpRecording { writer, classes, files: Files::default(), code: Vec::new() };
    out.faults()?;
    for _ in 0..STORES {
        for (ts, unit) in [(4, 0), (4, 4), (4, 8), (8, 0), (8, 4), (8, 8)] {
            let files = stores::store(&mut r, ts, unit);
            let calls = slot_calls(&files);
            out.some(&mut r, &files, &[], calls, CALLS)?;
        }
    }
    let pools = codes::pools(&mut r);
    for k in 0..TABLES {
        let table = lists::table(&mut r, &pools, k);
        for j in 0..SHAPES {
            let (ts, unit) = [(8, 0), (4, 8), (4, 4), (8, 8), (8, 4), (4, 0)][(j + 3 * k) % 6];
            out.random(&mut r, &table, ts, unit)?;
        }
    }
    out.switches()?;
    out.flows()?;
    for k in 0..FLOW_TABLES {
        let mut table = lists::table(&mut r, &pools, k);
        flow_cases::change_flows(&mut r, &mut table);
        let (ts, unit) = [(8, 0), (4, 8), (4, 4), (8, 8)][k % 4];
        out.random(&mut r, &table, ts, unit)?;
    }
    out.long_codes()?;
    Ok(out)
}

/// Numbers in the slots of each object, near its slots and at the ends of what a number can be.
fn slot_calls(files: &Files) -> Vec<Call> {
    let mut out = Vec::new();
    let objects = files.count(OBJECTS) as u64;
    for object in (0..objects + 1).chain([u64::MAX]) {
        let mut numbers = vec![0, u32::MAX as u64, u32::MAX as u64 + 1, u64::MAX];
        if object < objects {
            let record = Object::read(files.record(OBJECTS, object as usize));
            for slot in slots(files, record) {
                let index = slot.index as u64;
                numbers.extend([index, index + 1, index + 2, index + 4, index + 5]);
            }
        }
        for number in numbers {
            out.push(Call::new(SMI_SLOT, &[object, number]));
            out.push(Call::new(NUM_FIELD, &[object, number, 0]));
            out.push(Call::new(NUM_FIELD, &[object, number, 1]));
        }
    }
    out
}

/// The code that tables and stores at fault are lent with.
const FAULTY: [u8; 7] = [0x05, 0x02, 0x09, 0x00, 0x01, 0x00, 0x0b];

fn small(files: &Files) -> bool {
    files.body.iter().all(|b| b.len() < 2_000)
}

impl JumpRecording {
    fn set(&mut self, files: &Files, code: &[u8]) {
        self.writer.files(files);
        self.writer.code(code);
        self.files = files.clone();
        self.code = code.to_vec();
    }

    /// Asks, records and counts.
    fn call(&mut self, call: &Call) -> Result<(), String> {
        let answer = self.writer.call(call)?;
        self.classes.add(&classes(&self.files, &self.code, call, &answer)?);
        Ok(())
    }

    /// Some of these tables, without a store or with an empty one.
    fn tables(&mut self, cases: Vec<Case>) -> Result<(), String> {
        let tables = cases.into_iter().filter(|case| small(&case.files));
        for (k, case) in tables.step_by(7).enumerate() {
            self.set(&case.files, &FAULTY);
            let object = if k % 3 == 0 { 0 } else { NO_OBJECT };
            self.call(&Call::new(JUMP_TARGET, &[object, 0]))?;
            self.call(&Call::new(JUMP_TABLE, &[object, 2]))?;
            self.call(&Call::new(MAX_REGISTER, &[]))?;
        }
        Ok(())
    }

    /// Tables and stores to be refused.
    fn faults(&mut self) -> Result<(), String> {
        self.tables(faults::tables())?;
        let stores = faults::stores().into_iter().filter(|case| small(&case.files));
        for (k, case) in stores.step_by(5).enumerate() {
            let mut files = sample::table();
            for file in OBJECTS..=PAYLOAD {
                files.body[file] = case.files.body[file].clone();
            }
            self.set(&files, &FAULTY);
            let object = k as u64 % 3;
            self.call(&Call::new(SMI_SLOT, &[object, 1]))?;
            self.call(&Call::new(NUM_FIELD, &[object, 1, k as u64 % 2]))?;
            self.call(&Call::new(JUMP_TARGET, &[object, 0]))?;
            self.call(&Call::new(JUMP_TABLE, &[object, 2]))?;
        }
        Ok(())
    }

    /// The tables of switches, without a prefix and under both.
    fn switches(&mut self) -> Result<(), String> {
        let functions = [lists::switches(), lists::large_switches()];
        for (files, code) in functions.concat() {
            self.set(&files, &code);
            for object in [0, NO_OBJECT] {
                self.call(&Call::new(JUMP_TABLE, &[object, 0]))?;
                self.call(&Call::new(JUMP_TARGET, &[object, 0]))?;
            }
        }
        Ok(())
    }

    /// Flows at fault; chosen opcodes whose flow is not that of their name, most with a pool; and counts of such.
    fn flows(&mut self) -> Result<(), String> {
        self.tables(faults::flow_tables())?;
        for (k, chosen) in flow_cases::chosen().iter().enumerate() {
            let scales = if k == 1 { &[1, 2][..] } else { &[1, 2, 4] };
            for scale in scales {
                for (starts, code) in flow_cases::codes_of(chosen, *scale, TOGETHER) {
                    self.set(&chosen.function(&[]), &code);
                    for (j, start) in starts.iter().enumerate() {
                        let others = if j % 5 == 0 { &[0, NO_OBJECT][..] } else { &[0] };
                        for object in others {
                            self.call(&Call::new(JUMP_TARGET, &[*object, *start as u64]))?;
                            self.call(&Call::new(JUMP_TABLE, &[*object, *start as u64]))?;
                        }
                    }
                }
            }
        }
        for (files, code) in flow_cases::counted(false) {
            self.set(&files, &code);
            self.call(&Call::new(JUMP_TARGET, &[0, 1]))?;
            self.call(&Call::new(JUMP_TABLE, &[0, 1]))?;
            self.call(&Call::new(JUMP_TABLE, &[NO_OBJECT, 1]))?;
        }
        Ok(())
    }

    /// Codes by a table, over a store.
    fn random(&mut self, r: &mut Random, table: &Files, ts: u32, unit: u32) -> Result<(), String> {
        let shape = lists::shape(r, table, ts, unit, 12);
        for k in 0..CODES {
            let code = match k {
                0 => codes::code(r, table).bytes,
                _ => lists::code(r, table, &shape.pool),
            };
            let calls = self.jump_calls(r, &shape.files, &code)?;
            self.some(r, &shape.files, &code, calls, JUMP_CALLS)?;
        }
        Ok(())
    }

    /// Calls at each instruction, within them, at the end and beyond it.
    fn jump_calls(&self, r: &mut Random, files: &Files, code: &[u8]) -> Result<Vec<Call>, String> {
        let length = code.len() as u64;
        let mut starts = vec![r.below(length + 1), length, length + 1, u64::MAX];
        let mut at = 0;
        while let Some((_, _, end)) = instruction(files, code, at)? {
            starts.push(at);
            at = end;
        }
        starts.push(at);
        let mut out = vec![Call::new(MAX_REGISTER, &[])];
        for start in starts {
            for object in [0, NO_OBJECT, *r.pick(&[1, 2, 3, 1 << 32])] {
                out.push(Call::new(JUMP_TARGET, &[object, start]));
                out.push(Call::new(JUMP_TABLE, &[object, start]));
            }
        }
        Ok(out)
    }

    fn some(
        &mut self,
        r: &mut Random,
        files: &Files,
        code: &[u8],
        mut calls: Vec<Call>,
        most: usize,
    ) -> Result<(), String> {
        for _ in 0..most {
            let Some(call) = self.next(r, files, code, &mut calls)? else {
                break;
            };
            self.set(files, code);
            self.call(&call)?;
        }
        Ok(())
    }

    /// Takes calls out at random until one is wanted.
    fn next(
        &self,
        r: &mut Random,
        files: &Files,
        code: &[u8],
        calls: &mut Vec<Call>,
    ) -> Result<Option<Call>, String> {
        while !calls.is_empty() {
            let call = calls.swap_remove(r.below(calls.len() as u64) as usize);
            let answer = ask(files, code, &call)?;
            let named = classes(files, code, &call, &answer)?;
            if named.iter().any(|c| self.classes.count(c) < ENOUGH) || r.once_in(12) {
                return Ok(Some(call));
            }
        }
        Ok(None)
    }

    /// Code of the greatest length and one byte more: the first bytes of this file, as a part of it.
    fn long_codes(&mut self) -> Result<(), String> {
        let files = sample::sample();
        for length in [MOST_CODE, MOST_CODE + 1] {
            let code = self.writer.out[..length].to_vec();
            self.set(&files, &code);
            self.call(&Call::new(MAX_REGISTER, &[]))?;
            for start in [0, 2, length as u64 - 1, length as u64, length as u64 + 1] {
                for object in [0, 1, NO_OBJECT] {
                    self.call(&Call::new(JUMP_TARGET, &[object, start]))?;
                    self.call(&Call::new(JUMP_TABLE, &[object, start]))?;
                }
            }
        }
        Ok(())
    }
}

/// Plain name, scale and end of the instruction at a place, where there is one.
pub fn instruction(
    files: &Files,
    code: &[u8],
    at: u64,
) -> Result<Option<(String, u64, u64)>, String> {
    Ok(match ask(files, code, &Call::new(DECODE, &[at]))? {
        Answer::Found { words, .. } => {
            let [opcode, scale, end] = [0, 1, 2].map(|k: usize| words[k].bits());
            let record = Opcode(files.record(OPCODES, opcode as usize));
            Some((name(record.name()), scale, end))
        }
        _ => None,
    })
}

/// The scale of the instruction that a call is about; 0 where it is about none.
pub fn scale(files: &Files, code: &[u8], call: &Call) -> Result<u64, String> {
    Ok(instruction(files, code, call.args[1])?.map_or(0, |(_, scale, _)| scale))
}

/// Which cases a call is one of.
fn classes(
    files: &Files,
    code: &[u8],
    call: &Call,
    answer: &Answer,
) -> Result<Vec<String>, String> {
    let function = FUNCTIONS[call.function].name;
    let found: Vec<u64> = match answer {
        Answer::Refused(refusal) => {
            let mut out = vec![format!("{function}: refused {}", refusal.number)];
            if refusal.number == 16 && scale(files, code, call)? > 1 {
                out.push(format!("{function}: refused 16, prefixed"));
            }
            return Ok(out);
        }
        Answer::End => return Ok(vec![format!("{function}: end")]),
        Answer::Found { words, .. } => words.iter().map(|w| w.bits()).collect(),
        _ => Vec::new(),
    };
    if let JUMP_TARGET | JUMP_TABLE = call.function {
        if let Some(named) = flow_cases::of_call(files, code, call)? {
            return Ok(named.into_iter().map(|class| format!("{function}: {class}")).collect());
        }
    }
    let named = match call.function {
        SMI_SLOT => smi_classes(files, call, &found),
        NUM_FIELD => num_classes(files, call, &found)?,
        JUMP_TARGET => target_classes(instruction(files, code, call.args[1])?, call, &found),
        JUMP_TABLE => table_classes(instruction(files, code, call.args[1])?, &found),
        _ => vec![if found.is_empty() { "nothing" } else { "found" }.into()],
    };
    Ok(named.into_iter().map(|class| format!("{function}: {class}")).collect())
}

fn smi_classes(files: &Files, call: &Call, found: &[u64]) -> Vec<String> {
    let ts = files.layout(0);
    match found {
        [] if call.args[1] > u32::MAX as u64 => vec!["nothing, above 32 bits".into()],
        [] => vec!["nothing".into()],
        [value, ..] if (*value as i64) < 0 => vec![format!("below zero, tagged size {ts}")],
        _ => vec![format!("found, tagged size {ts}")],
    }
}

fn num_classes(files: &Files, call: &Call, found: &[u64]) -> Result<Vec<String>, String> {
    let flag = call.args[2];
    if found.is_empty() {
        let above = if call.args[1] > u32::MAX as u64 { ", above 32 bits" } else { "" };
        return Ok(vec![format!("nothing, flag {flag}{above}")]);
    }
    let smi = ask(files, &[], &Call::new(SMI_SLOT, &call.args[..2]))?;
    let tagged = match smi {
        Answer::Found { words, .. } => words[0].bits() as u32 as u64 == found[0],
        _ => return Ok(vec![format!("plain alone, flag {flag}")]),
    };
    let how = if tagged { "the small integer" } else { "the plain number" };
    Ok(vec![format!("{how}, flag {flag}")])
}

fn target_classes(ins: Option<(String, u64, u64)>, call: &Call, found: &[u64]) -> Vec<String> {
    let (name, scale, _) = ins.unwrap_or_default();
    let by_pool = if name.ends_with("Constant") { " by the pool" } else { "" };
    let Some(target) = found.first() else {
        let pool = if call.args[0] == NO_OBJECT { ", no object" } else { "" };
        let listed = JUMPS.contains(&name.as_str());
        let what = if listed { format!("a jump{by_pool}{pool}") } else { "another name".into() };
        return vec![format!("nothing, {what}")];
    };
    let below = if *target > i64::MAX as u64 { "below zero" } else { "not below zero" };
    vec![format!("{name}"), format!("scale {scale}{by_pool}, {below}")]
}

fn table_classes(ins: Option<(String, u64, u64)>, found: &[u64]) -> Vec<String> {
    let (name, scale, _) = ins.unwrap_or_default();
    if !SWITCHES.contains(&name.as_str()) {
        return vec!["nothing, another name".into()];
    }
    let prefixed = if scale == 1 { "" } else { ", prefixed" };
    match found {
        [] => vec![format!("nothing, {name}{prefixed}")],
        [0, ..] => vec![format!("{name}{prefixed}, no entries")],
        [count, entries @ ..] => {
            let cases: Vec<i64> = entries.chunks(2).map(|e| e[0] as i64).collect();
            let gaps = cases.windows(2).any(|w| w[1] != w[0] + 1);
            let mut out = vec![format!("{name}{prefixed}, entries")];
            out.extend((*count > 1).then(|| format!("{name}{prefixed}, several entries")));
            out.extend(gaps.then(|| format!("one skipped between two{prefixed}")));
            out.extend(
                cases.iter().any(|c| *c < 0).then(|| format!("a case below zero{prefixed}")),
            );
            out.extend((*count == 4_096).then(|| format!("4096 entries{prefixed}")));
            out
        }
    }
}

/// Classes that must have a case.
pub fn wanted() -> Vec<String> {
    let mut out: Vec<String> = Vec::new();
    for ts in [4, 8] {
        out.push(format!("smi_slot: found, tagged size {ts}"));
        out.push(format!("smi_slot: below zero, tagged size {ts}"));
    }
    out.extend(["nothing", "nothing, above 32 bits"].map(|c| format!("smi_slot: {c}")));
    for flag in [0, 1] {
        for kind in ["the small integer", "nothing"] {
            out.push(format!("num_field: {kind}, flag {flag}"));
        }
        out.push(format!("num_field: nothing, flag {flag}, above 32 bits"));
        out.push(format!("num_field: plain alone, flag {flag}"));
    }
    out.push("num_field: the plain number, flag 0".into());
    for function in ["smi_slot", "num_field"] {
        out.extend([6, 7, 8].map(|n| format!("{function}: refused {n}")));
    }
    out.extend(JUMPS.map(|name| format!("jump_target: {name}")));
    for how in ["", " by the pool"] {
        for scale in [1, 2, 4] {
            out.push(format!("jump_target: scale {scale}{how}, not below zero"));
        }
        out.push(format!("jump_target: scale 1{how}, below zero"));
        out.push(format!("jump_target: nothing, a jump{how}"));
    }
    out.push("jump_target: nothing, a jump by the pool, no object".into());
    for prefixed in ["", ", prefixed"] {
        for name in SWITCHES {
            let kinds = ["no entries", "entries", "several entries"];
            out.extend(kinds.map(|kind| format!("jump_table: {name}{prefixed}, {kind}")));
            out.push(format!("jump_table: nothing, {name}{prefixed}"));
        }
        out.extend(
            ["one skipped between two", "a case below zero"]
                .map(|c| format!("jump_table: {c}{prefixed}")),
        );
        out.push(format!("jump_table: refused 16{prefixed}"));
    }
    out.push("jump_table: 4096 entries, prefixed".into());
    for function in ["jump_target", "jump_table"] {
        out.push(format!("{function}: nothing, another name"));
        out.push(format!("{function}: end"));
        out.extend(
            [1, 2, 3, 26, 4, 5, 6, 7, 8, 10, 20, 11, 12, 13, 14]
                .map(|n| format!("{function}: refused {n}")),
        );
    }
    for class in flow_cases::wanted() {
        let tables = class.starts_with("flow 5") || class.starts_with("table");
        out.push(format!("{}: {class}", if tables { "jump_table" } else { "jump_target" }));
    }
    out.extend(["found", "nothing"].map(|c| format!("max_register: {c}")));
    out.extend(
        [1, 2, 3, 26, 4, 5, 10, 11, 12, 13, 14].map(|n| format!("max_register: refused {n}")),
    );
    out
}

#[cfg(test)]
mod tests {
    use super::*;
    use crate::recording::SEED;
    use crate::vectors;

    /// The file in recorded/ is what the seed gives, and every class has a case.
    #[test]
    fn recorded_file_is_current() {
        let recording = record(SEED).unwrap();
        assert_eq!(recording.classes.missing(&wanted()), Vec::<String>::new());
        assert!(include_bytes!("../recorded/jump.vec")[..] == recording.writer.out);
        assert_eq!(vectors::replay(&recording.writer.out), Ok(recording.writer.calls));
    }
}
