//! Vectors of single entries of switches, from a seed: on the tables and stores of `record-list`, and the refusals.

use crate::ask::*;
use crate::checks::MOST_CODE;
use crate::classes::Classes;
use crate::codes;
use crate::faults::{self, Case};
use crate::flow_cases;
use crate::jump_recording::{instruction, scale};
use crate::lists::{self, SWITCHES};
use crate::random::Random;
use crate::records::*;
use crate::sample;
use crate::vectors::Writer;

/// Random tables, stores for each, and codes for each store.
const TABLES: usize = 48;
const SHAPES: usize = 2;
const CODES: usize = 9;
/// A call is taken where one of its classes has fewer cases than this, and else sometimes.
const ENOUGH: usize = 20;

pub struct EntryRecording {
    pub writer: Writer,
    pub classes: Classes,
}

pub fn record(seed: u64) -> Result<EntryRecording, String> {
    let mut r = Random::new(seed);
    let mut out = EntryRecording { writer: Writer::sharing(), classes: Classes::default() };
    out.faults()?;
    out.rows()?;
    out.switches()?;
    let pools = codes::pools(&mut r);
    for k in 0..TABLES {
        let table = lists::table(&mut r, &pools, k);
        for j in 0..SHAPES {
            let (ts, unit) = [(8, 0), (4, 8), (4, 4), (8, 8), (8, 4), (4, 0)][(j + 2 * k) % 6];
            let shape = lists::shape(&mut r, &table, ts, unit, 12);
            for _ in 0..CODES {
                let code = lists::code(&mut r, &table, &shape.pool);
                out.random(&mut r, &shape.files, &code)?;
            }
        }
    }
    out.flows()?;
    out.long_codes()?;
    Ok(out)
}

/// The code that tables and stores at fault are lent with.
const FAULTY: [u8; 5] = [0x09, 0x00, 0x01, 0x00, 0x0b];

fn small(files: &Files) -> bool {
    files.body.iter().all(|b| b.len() < 2_000)
}

impl EntryRecording {
    /// Asks, records and counts.
    fn call(&mut self, files: &Files, code: &[u8], call: &Call) -> Result<(), String> {
        self.writer.files(files);
        self.writer.code(code);
        let answer = self.writer.call(call)?;
        self.classes.add(&classes(files, code, call, &answer)?);
        Ok(())
    }

    /// Some of these tables, without a store or with an empty one.
    fn tables(&mut self, cases: Vec<Case>) -> Result<(), String> {
        let tables = cases.into_iter().filter(|case| small(&case.files));
        for (k, case) in tables.step_by(7).enumerate() {
            let object = if k % 3 == 0 { 0 } else { NO_OBJECT };
            self.call(&case.files, &FAULTY, &Call::new(JUMP_ENTRY, &[object, 0, 0]))?;
        }
        Ok(())
    }

    /// Tables and stores to be refused.
    fn faults(&mut self) -> Result<(), String> {
        self.tables(faults::tables())?;
        let stores = faults::stores().into_iter().filter(|case| small(&case.files));
        for (k, case) in stores.step_by(9).enumerate() {
            let mut files = sample::table();
            for file in OBJECTS..=PAYLOAD {
                files.body[file] = case.files.body[file].clone();
            }
            self.call(&files, &FAULTY, &Call::new(JUMP_ENTRY, &[k as u64 % 3, 0, 0]))?;
        }
        Ok(())
    }

    /// Document 01's switch, whole and cut, with and without a pool, plain and prefixed.
    fn rows(&mut self) -> Result<(), String> {
        let plain = &[0x09, 0x00, 0x02, 0x05, 0x0b][..];
        let prefixed = &[0x00, 9, 0, 0, 2, 0, 5, 0, 0x0b][..];
        for code in [plain, prefixed, &plain[..3], &[0x02, 0x00], &[0x02, 0x01], &[0x00, 0x0c]] {
            let files = sample::function(code, 8, &[Some(4), None]);
            for start in 0..=code.len() as u64 + 1 {
                for object in [0, 1, NO_OBJECT] {
                    let entries = if start == 0 { &[0, 1, 2, u64::MAX][..] } else { &[0] };
                    for entry in entries.iter().copied() {
                        self.call(&files, code, &Call::new(JUMP_ENTRY, &[object, start, entry]))?;
                    }
                }
            }
        }
        Ok(())
    }

    /// The first and the last entries of switches, without a prefix and under both, and those behind.
    fn switches(&mut self) -> Result<(), String> {
        let functions = [lists::switches(), lists::large_switches()];
        for (files, code) in functions.concat() {
            for object in [0, NO_OBJECT] {
                for entry in [0, 1, 2, 3, 4_095, 4_096, u64::MAX] {
                    self.call(&files, &code, &Call::new(JUMP_ENTRY, &[object, 0, entry]))?;
                }
            }
        }
        Ok(())
    }

    /// Flows at fault; chosen opcodes whose flow is 5 and not that of their name, and switches with another flow; and counts of such.
    fn flows(&mut self) -> Result<(), String> {
        self.tables(faults::flow_tables())?;
        for chosen in flow_cases::chosen() {
            for scale in [1, 2, 4] {
                for row in &chosen.rows {
                    // At other scales each seventh.
                    if scale > 1 && row.opcode % 7 > 0 {
                        continue;
                    }
                    let entries = match row.is_switch() {
                        true => &[0, 1, 9][..],
                        false if SWITCHES.contains(&row.name) => &[0],
                        false => &[],
                    };
                    let code = flow_cases::code_of(&row.instruction(&chosen.files, scale));
                    for entry in entries {
                        let call = Call::new(JUMP_ENTRY, &[0, 4, *entry]);
                        self.call(&chosen.files, &code, &call)?;
                    }
                }
            }
        }
        for (files, code) in flow_cases::counted(true) {
            for entry in [0, 4_095, 4_096] {
                self.call(&files, &code, &Call::new(JUMP_ENTRY, &[0, 1, entry]))?;
            }
        }
        Ok(())
    }

    /// Entries of each switch of a code, around their number.
    fn random(&mut self, r: &mut Random, files: &Files, code: &[u8]) -> Result<(), String> {
        let mut at = 0;
        while let Some((name, _, end)) = instruction(files, code, at)? {
            if SWITCHES.contains(&name.as_str()) || r.once_in(8) {
                self.at(r, files, code, at)?;
            }
            at = end;
        }
        // The end, or what does not decode.
        if r.once_in(8) {
            self.at(r, files, code, at)?;
        }
        Ok(())
    }

    fn at(&mut self, r: &mut Random, files: &Files, code: &[u8], start: u64) -> Result<(), String> {
        let far = *r.pick(&[4_095, 4_096, 65_535, 65_536, 1 << 32, u64::MAX]);
        for object in [0, NO_OBJECT, *r.pick(&[1, 2, 3, 1 << 32])] {
            for entry in [0, 1, 2, 3, 4, 5, 6, far] {
                let call = Call::new(JUMP_ENTRY, &[object, start, entry]);
                let answer = ask(files, code, &call)?;
                let named = classes(files, code, &call, &answer)?;
                if named.iter().any(|c| self.classes.count(c) < ENOUGH) || r.once_in(40) {
                    self.call(files, code, &call)?;
                }
            }
        }
        Ok(())
    }

    /// Code of the greatest length and one byte more: the first bytes of this file, as a part of it.
    fn long_codes(&mut self) -> Result<(), String> {
        let files = sample::sample();
        for length in [MOST_CODE, MOST_CODE + 1] {
            let Some(code) = self.writer.out.get(..length).map(<[u8]>::to_vec) else {
                return Err("the file is too short".into());
            };
            for start in [0, length as u64, length as u64 + 1] {
                self.call(&files, &code, &Call::new(JUMP_ENTRY, &[0, start, 0]))?;
            }
        }
        Ok(())
    }
}

/// Which cases a call is one of.
fn classes(
    files: &Files,
    code: &[u8],
    call: &Call,
    answer: &Answer,
) -> Result<Vec<String>, String> {
    let found: Vec<u64> = match answer {
        Answer::Refused(refusal) => {
            let mut out = vec![format!("refused {}", refusal.number)];
            if refusal.number == 16 && scale(files, code, call)? > 1 {
                out.push("refused 16, prefixed".into());
            }
            return Ok(out);
        }
        Answer::End => return Ok(vec!["end".into()]),
        Answer::Found { words, .. } => words.iter().map(|w| w.bits()).collect(),
        _ => Vec::new(),
    };
    if let Some(named) = flow_cases::of_call(files, code, call)? {
        let entry = match found[..] {
            [0, ..] => "shown",
            [1] => "skipped",
            [2] => "beyond",
            _ => "nothing",
        };
        let of = |class: &String| class.starts_with("flow") && class.contains(" of ");
        let also = named.iter().filter(|class| of(class)).map(|class| format!("{class}: {entry}"));
        return Ok(also.chain(named.iter().cloned()).collect());
    }
    let (name, scale, _) = instruction(files, code, call.args[1])?.unwrap_or_default();
    if !SWITCHES.contains(&name.as_str()) {
        return Ok(vec!["nothing, another name".into()]);
    }
    let prefixed = if scale == 1 { "" } else { ", prefixed" };
    Ok(match found[..] {
        [0, case, target] => {
            let mut out = vec![format!("{name}: shown{prefixed}")];
            let first = if call.args[2] == 0 { "the first" } else { "a later one" };
            out.push(format!("{name}: {first} shown{prefixed}"));
            out.extend(((case as i64) < 0).then(|| format!("a case below zero{prefixed}")));
            out.extend(((target as i64) < 0).then(|| format!("a target below zero{prefixed}")));
            out
        }
        [1] => vec![format!("{name}: skipped{prefixed}")],
        [2] if call.args[2] > u16::MAX as u64 => vec![format!("far beyond{prefixed}")],
        [2] => vec![format!("{name}: beyond{prefixed}")],
        _ => vec![format!("{name}: nothing{prefixed}")],
    })
}

/// Classes that must have a case.
pub fn wanted() -> Vec<String> {
    let mut out: Vec<String> = Vec::new();
    for prefixed in ["", ", prefixed"] {
        for name in SWITCHES {
            for kind in
                ["shown", "the first shown", "a later one shown", "skipped", "beyond", "nothing"]
            {
                out.push(format!("{name}: {kind}{prefixed}"));
            }
        }
        for class in ["far beyond", "a case below zero", "a target below zero", "refused 16"] {
            out.push(format!("{class}{prefixed}"));
        }
    }
    for name in ["a name without a flow", "a name that says otherwise"] {
        for entry in ["shown", "skipped", "beyond", "nothing"] {
            out.push(format!("flow 5 of {name}: {entry}"));
        }
    }
    let tables = |class: &String| class.starts_with("table") || class.starts_with("flow 5");
    out.extend(flow_cases::wanted().into_iter().filter(tables));
    out.extend(["nothing, another name", "end"].map(String::from));
    out.extend(
        [1, 2, 3, 26, 4, 5, 6, 7, 8, 10, 20, 11, 12, 13, 14].map(|n| format!("refused {n}")),
    );
    out
}

#[cfg(test)]
mod tests {
    use super::*;
    use crate::recording::SEED;
    use crate::vectors;

    /// The file in recorded/ is what the seed gives, and every class has a case.
    #[test]
    fn recorded_file_is_current() {
        let recording = record(SEED).unwrap();
        assert_eq!(recording.classes.missing(&wanted()), Vec::<String>::new());
        assert!(include_bytes!("../recorded/entry.vec")[..] == recording.writer.out);
        assert_eq!(vectors::replay(&recording.writer.out), Ok(recording.writer.calls));
    }

    /// The entries that are shown, one by one, are the table's.
    #[test]
    fn entries_are_those_of_the_table() {
        let code = [0x09, 0x00, 0x03, 0x05, 0x0b];
        let files = sample::function(&code, 8, &[Some(4), None, Some(9)]);
        let said = |function, args: &[u64]| {
            ask(&files, &code, &Call::new(function, args)).unwrap().to_string()
        };
        assert_eq!(said(JUMP_TABLE, &[0, 0]), "2 5 4 7 9");
        let entries = [0, 1, 2, 3].map(|k| said(JUMP_ENTRY, &[0, 0, k]));
        assert_eq!(entries, ["0 5 4", "1", "0 7 9", "2"]);
    }
}
