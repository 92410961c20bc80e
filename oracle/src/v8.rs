//! Vectors of what V8 itself printed: each instruction of the functions in a folder of listings, its
//! text taken from V8's line. The Rust is asked for the same only to count where it differs.

use crate::ask::{ask, Answer, Call, INSTRUCTION_TEXT};
use crate::convert;
use crate::records::*;
use crate::vectors::Writer;
use serde_json::Value;
use std::collections::{BTreeMap, BTreeSet};
use std::path::Path;

/// A function of more instructions than this leaves out those that stand in the file already: of the
/// same version, parameter count and bytes. All instructions of all functions would take 500 KB.
const MOST_WHOLE: usize = 330;

/// A function as V8 printed it.
struct Case {
    v8: String,
    code: Vec<u8>,
    parameters: u64,
    lines: Vec<Line>,
    /// Offsets of lines where V8 prints a name for which the table files have no record.
    odd: Vec<usize>,
}

struct Line {
    at: usize,
    bytes: Vec<u8>,
    /// Name and operands.
    text: String,
}

#[derive(Default)]
pub struct V8Recording {
    pub writer: Writer,
    /// Names with their prefix, and calls of each, by version.
    names: BTreeMap<(String, String), usize>,
    pub functions: usize,
    pub instructions: usize,
    pub odd: usize,
    pub repeated: usize,
    /// Where the Rust writes something else: version, bytes, V8's text, the Rust's.
    pub differences: Vec<String>,
}

pub fn record(folder: &Path) -> Result<V8Recording, String> {
    let path = folder.join("cases.jsonl");
    let all = std::fs::read_to_string(&path).map_err(|e| format!("{}: {e}", path.display()))?;
    let mut cases = Vec::new();
    for (k, line) in all.lines().enumerate() {
        cases.push(case(line).ok_or(format!("{}: line {} is no case", path.display(), k + 1))?);
    }
    cases.sort_by_key(|case| (case.v8.clone(), case.lines.len()));
    let mut out = V8Recording::default();
    // What V8 printed for an instruction of a version, parameter count and bytes.
    let mut printed: BTreeMap<(String, u64, Vec<u8>), String> = BTreeMap::new();
    for case in &cases {
        let files = tables(&folder.join("tables").join(&case.v8))?;
        out.writer.files(&files);
        out.writer.code(&case.code);
        out.functions += 1;
        for line in &case.lines {
            out.instructions += 1;
            if case.odd.contains(&line.at) {
                out.odd += 1;
                continue;
            }
            let key = (case.v8.clone(), case.parameters, line.bytes.clone());
            let before = printed.insert(key, line.text.clone());
            if before.as_ref().is_some_and(|text| *text != line.text) {
                return Err(format!("V8 prints {:02x?} in two ways", line.bytes));
            }
            if before.is_some() && case.lines.len() > MOST_WHOLE {
                out.repeated += 1;
                continue;
            }
            out.call(&files, case, line)?;
        }
    }
    Ok(out)
}

impl V8Recording {
    /// Records V8's text, and counts where the Rust's is another.
    fn call(&mut self, files: &Files, case: &Case, line: &Line) -> Result<(), String> {
        let call = Call::new(INSTRUCTION_TEXT, &[line.at as u64, case.parameters]);
        let answer = Answer::Found { words: Vec::new(), text: line.text.clone() };
        let rust = ask(files, &case.code, &call)?;
        if rust != answer {
            let (v8, bytes, text) = (&case.v8, &line.bytes, &line.text);
            self.differences.push(format!("{v8} {bytes:02x?}: V8 {text}, the Rust {rust}"));
        }
        self.writer.given(&call, &answer);
        let name = line.text.split(' ').next().unwrap_or_default().to_string();
        *self.names.entry((case.v8.clone(), name)).or_default() += 1;
        Ok(())
    }

    pub fn report(&self) -> String {
        let versions: BTreeSet<&String> = self.names.keys().map(|(v8, _)| v8).collect();
        let mut out = String::new();
        for v8 in versions {
            let mut names = 0;
            let mut opcodes = BTreeSet::new();
            let mut calls = 0;
            for ((_, name), count) in self.names.iter().filter(|((v, _), _)| v == v8) {
                names += 1;
                opcodes.insert(name.split('.').next());
                calls += count;
            }
            let opcodes = opcodes.len();
            out += &format!("V8 {v8}: {calls} calls, {opcodes} opcodes, {names} with prefixes\n");
        }
        let (functions, instructions) = (self.functions, self.instructions);
        out += &format!("{functions} functions, {instructions} instructions, ");
        let (odd, repeated) = (self.odd, self.repeated);
        out += &format!("{odd} of them odd, {repeated} left out as equal to one before\n");
        for difference in &self.differences {
            out += &format!("{difference}\n");
        }
        out + &format!("the Rust writes {} otherwise\n", self.differences.len())
    }
}

/// The five table files of a version; there is no store.
pub fn tables(folder: &Path) -> Result<Files, String> {
    let mut files = Files::default();
    for file in OPCODES..=LAYOUT {
        let path = folder.join(NAMES[file]);
        files.body[file] = std::fs::read(&path).map_err(|e| format!("{}: {e}", path.display()))?;
    }
    Ok(convert::loaded(files))
}

fn case(line: &str) -> Option<Case> {
    let case: Value = serde_json::from_str(line).ok()?;
    let code = hex(case["code"].as_str()?)?;
    let lines = case["lines"].as_array()?.iter().map(|line| parsed(line.as_str()?));
    let lines: Vec<Line> = lines.collect::<Option<_>>()?;
    // The lines are the whole code, one behind the other.
    let mut at = 0;
    for line in &lines {
        let end = at + line.bytes.len();
        if line.at != at || code.get(at..end)? != line.bytes {
            return None;
        }
        at = end;
    }
    if at != code.len() {
        return None;
    }
    let odd = case["odd"].as_array()?.iter().map(|at| at.as_u64().map(|at| at as usize));
    Some(Case {
        v8: case["v8"].as_str()?.into(),
        code,
        parameters: case["parameter_count"].as_i64()? as u64,
        lines,
        odd: odd.collect::<Option<_>>()?,
    })
}

pub fn hex(digits: &str) -> Option<Vec<u8>> {
    let pairs = (0..digits.len()).step_by(2);
    pairs.map(|k| u8::from_str_radix(digits.get(k..k + 2)?, 16).ok()).collect()
}

/// `           @    0 : 0b 04              Ldar a1`, and what is behind the operands.
fn parsed(line: &str) -> Option<Line> {
    let (at, rest) = line.trim_start().strip_prefix("@ ")?.split_once(" : ")?;
    let name = rest.find(|c: char| c.is_ascii_uppercase())?;
    let (bytes, text) = rest.split_at(name);
    let end = [" (jscd @ ", " { "].iter().filter_map(|mark| text.find(mark)).min();
    Some(Line {
        at: at.trim().parse().ok()?,
        bytes: hex(&bytes.replace(' ', ""))?,
        text: text[..end.unwrap_or(text.len())].into(),
    })
}

#[cfg(test)]
mod tests {
    use super::*;
    use crate::vectors;

    #[test]
    fn lines() {
        let line = parsed("           @    7 : 89 0d              JumpIfFalse [13] (jscd @ 20)");
        let Line { at, bytes, text } = line.unwrap();
        assert_eq!((at, bytes, text.as_str()), (7, vec![0x89, 0x0d], "JumpIfFalse [13]"));
        let line =
            parsed("           @ 1234 : 00 a3 01 00 02 00 05 00 00  Switch [1], [2] { 0: @5 }");
        let Line { at, bytes, text } = line.unwrap();
        assert_eq!((at, bytes.len(), text.as_str()), (1234, 9, "Switch [1], [2]"));
    }

    /// The Rust writes every recorded instruction as V8 printed it.
    #[test]
    fn the_rust_agrees() {
        assert!(vectors::replay(include_bytes!("../recorded/v8.vec")).is_ok());
    }

    /// The file in recorded/ is what the listings give, where they are beside the repository.
    #[test]
    fn recorded_file_is_current() {
        let folder = Path::new(env!("CARGO_MANIFEST_DIR")).join("../../shared/v8-listings");
        if folder.is_dir() {
            let recording = record(&folder).unwrap();
            assert!(include_bytes!("../recorded/v8.vec")[..] == recording.writer.out);
        }
    }
}
