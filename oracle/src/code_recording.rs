//! Vectors of decoding and writing instructions, from a seed: short codes over document 01's sample
//! table, random tables with codes made by them, and the refusals.

use crate::ask::*;
use crate::checks::MOST_CODE;
use crate::classes::Classes;
use crate::codes::{self, Code};
use crate::faults::{self, Case};
use crate::instructions::classes;
use crate::random::Random;
use crate::records::*;
use crate::sample;
use crate::vectors::Writer;

/// Random tables, codes by each, and calls on each code.
const TABLES: usize = 108;
const CODES: usize = 9;
const CALLS: usize = 5;
/// A call is taken where one of its classes has fewer cases than this, and else sometimes.
const ENOUGH: usize = 14;
/// Sampled codes of 3 bytes.
const THREE_BYTES: usize = 120;

pub struct CodeRecording {
    pub writer: Writer,
    pub classes: Classes,
    files: Files,
    code: Vec<u8>,
}

pub fn record(seed: u64) -> Result<CodeRecording, String> {
    let mut r = Random::new(seed);
    let (writer, classes) = (Writer::sharing(), Classes::default());
    let files = Files::default();
    let mut out = CodeRecording { writer, classes, files, code: Vec::new() };
    out.short_codes(&mut r)?;
    out.faults(faults::tables(), 6)?;
    let pools = codes::pools(&mut r);
    for k in 0..TABLES {
        let files = codes::table(&mut r, &pools, k);
        out.random(&mut r, &files)?;
    }
    out.faults(faults::flow_tables(), 4)?;
    out.long_codes()?;
    Ok(out)
}

impl CodeRecording {
    fn set(&mut self, files: &Files, code: &[u8]) {
        self.writer.files(files);
        self.writer.code(code);
        self.files = files.clone();
        self.code = code.to_vec();
    }

    /// Asks, records and counts.
    fn call(&mut self, call: &Call) -> Result<(), String> {
        let answer = self.writer.call(call)?;
        self.classes.add(&classes(&self.files, &self.code, call, &answer)?);
        Ok(())
    }

    /// Every code of 1 and 2 bytes over the sample table, and some of 3.
    fn short_codes(&mut self, r: &mut Random) -> Result<(), String> {
        let files = sample::table();
        self.set(&files, &[]);
        self.call(&Call::new(LAST_BYTES, &[0]))?;
        for first in 0..=255 {
            self.set(&files, &[first]);
            self.call(&Call::new(LAST_BYTES, &[0]))?;
        }
        for first in [[0x00, 0x03], [0x01, 0x04], [0x0a, 0x05], [0x09, 0x00], [0x03, 0x05]] {
            self.set(&files, &first);
            self.call(&Call::new(LAST_BYTES, &[0]))?;
        }
        for _ in 0..THREE_BYTES {
            let mut code = r.bytes(3);
            code[0] %= 13;
            code[1] %= if r.once_in(2) { 13 } else { 255 };
            self.set(&files, &code);
            self.call(&Call::new(DECODE, &[0]))?;
        }
        Ok(())
    }

    /// Tables to be refused, and tables whose fault lies in names that decoding is not lent.
    fn faults(&mut self, cases: Vec<Case>, each: usize) -> Result<(), String> {
        let small = |files: &Files| files.body.iter().all(|b| b.len() < 2_000);
        let cases = cases.into_iter().filter(|case| small(&case.files));
        for case in cases.step_by(each) {
            self.set(&case.files, &[4, 0xfa, 4, 1]);
            self.call(&Call::new(DECODE, &[0]))?;
            self.call(&Call::new(RENDER_OPERAND, &[2, 0, 1]))?;
            self.call(&Call::new(INSTRUCTION_TEXT, &[0, 1]))?;
        }
        Ok(())
    }

    /// Codes by a table, and calls on them.
    fn random(&mut self, r: &mut Random, files: &Files) -> Result<(), String> {
        for _ in 0..CODES {
            let code = codes::code(r, files);
            let calls = codes::calls(r, files, &code);
            self.some(r, files, &code.bytes, calls)?;
        }
        let none = Code { bytes: Vec::new(), starts: Vec::new() };
        let calls = codes::calls(r, files, &none);
        self.some(r, files, &[], calls)?;
        let calls = codes::registers(r, files);
        self.some(r, files, &[], calls)
    }

    fn some(
        &mut self,
        r: &mut Random,
        files: &Files,
        code: &[u8],
        mut calls: Vec<Call>,
    ) -> Result<(), String> {
        for _ in 0..CALLS {
            let Some(call) = self.next(r, files, code, &mut calls)? else {
                break;
            };
            self.set(files, code);
            self.call(&call)?;
        }
        Ok(())
    }

    /// Takes calls out at random until one is wanted.
    fn next(
        &self,
        r: &mut Random,
        files: &Files,
        code: &[u8],
        calls: &mut Vec<Call>,
    ) -> Result<Option<Call>, String> {
        while !calls.is_empty() {
            let call = calls.swap_remove(r.below(calls.len() as u64) as usize);
            let answer = ask(files, code, &call)?;
            let named = classes(files, code, &call, &answer)?;
            let decodes = call.function == DECODE && matches!(answer, Answer::Found { .. });
            let otherwise = if decodes { 2 } else { 60 };
            if named.iter().any(|c| self.classes.count(c) < ENOUGH) || r.once_in(otherwise) {
                return Ok(Some(call));
            }
        }
        Ok(None)
    }

    /// Code of the greatest length and one byte more: the first bytes of this file, as a part of it.
    fn long_codes(&mut self) -> Result<(), String> {
        let files = sample::table();
        for length in [MOST_CODE, MOST_CODE + 1] {
            let code = self.writer.out[..length].to_vec();
            self.set(&files, &code);
            for start in [0, 2, length as u64 - 1, length as u64, length as u64 + 1, u64::MAX] {
                self.call(&Call::new(DECODE, &[start]))?;
                self.call(&Call::new(INSTRUCTION_TEXT, &[start, 1]))?;
                self.call(&Call::new(RENDER_OPERAND, &[start, 0, 1]))?;
            }
        }
        Ok(())
    }
}

#[cfg(test)]
mod tests {
    use super::*;
    use crate::instructions::wanted;
    use crate::recording::SEED;
    use crate::vectors;

    /// The file in recorded/ is what the seed gives, and every class has a case.
    #[test]
    fn recorded_file_is_current() {
        let recording = record(SEED).unwrap();
        assert_eq!(recording.classes.missing(&wanted()), Vec::<String>::new());
        assert!(include_bytes!("../recorded/code.vec")[..] == recording.writer.out);
        assert_eq!(vectors::replay(&recording.writer.out), Ok(recording.writer.calls));
    }
}
