//! Vectors of the walk over the functions that V8 compiled, in a folder of listings. V8 itself says
//! nothing on walks; but none leaves code that its compiler made.

use crate::ask::*;
use crate::records::Files;
use crate::v8::{hex, tables};
use crate::vectors::Writer;
use crate::walk_codes::{set_store, Element};
use crate::walks::Outcome;
use serde_json::Value;
use std::path::Path;

/// Only contents longer than this are looked for in the file.
const SHORT: usize = 300;

pub struct WalkV8Recording {
    pub writer: Writer,
    pub functions: usize,
    /// Offsets of instructions reached, over all functions.
    pub reached: usize,
    /// What is not closed, which is a defect.
    pub others: Vec<String>,
}

pub fn record(folder: &Path) -> Result<WalkV8Recording, String> {
    let writer = Writer::sharing_above(SHORT);
    let mut out = WalkV8Recording { writer, functions: 0, reached: 0, others: Vec::new() };
    for case in cases(folder)? {
        out.function(&case.files(folder)?, &case)?;
    }
    Ok(out)
}

/// The functions of a folder of listings, by version and length.
pub fn cases(folder: &Path) -> Result<Vec<Case>, String> {
    let path = folder.join("cases.jsonl");
    let all = std::fs::read_to_string(&path).map_err(|e| format!("{}: {e}", path.display()))?;
    let mut cases = Vec::new();
    for (k, line) in all.lines().enumerate() {
        cases.push(case(line).ok_or(format!("{}: line {} is no case", path.display(), k + 1))?);
    }
    cases.sort_by_key(|case| (case.v8.clone(), case.code.len()));
    Ok(cases)
}

impl WalkV8Recording {
    /// The walk of object 0, and of the same code lent with its pool.
    fn function(&mut self, files: &Files, case: &Case) -> Result<(), String> {
        self.writer.files(files);
        self.writer.code(&case.code);
        let length = case.code.len() as u64;
        let of_object = self.writer.call(&Call::new(WALK, &[65_536]))?;
        let lent = self.writer.call(&Call::new(WALK_CODE, &[0, length]))?;
        self.functions += 1;
        match &of_object {
            Answer::Walked(walked) if walked.outcome == Outcome::Closed && of_object == lent => {
                self.reached += walked.marks.iter().filter(|mark| **mark).count();
            }
            _ => self.others.push(format!(
                "V8 {}, {length} bytes: {of_object} as object 0, {lent} as lent code",
                case.v8
            )),
        }
        Ok(())
    }
}

pub struct Case {
    pub v8: String,
    pub code: Vec<u8>,
    pool: Vec<Element>,
    /// The handler table: start, end and handler of each entry.
    pub handlers: Vec<[u32; 3]>,
}

impl Case {
    /// Its version's tables, and a store with its code and pool.
    pub fn files(&self, folder: &Path) -> Result<Files, String> {
        let mut files = tables(&folder.join("tables").join(&self.v8))?;
        let head = (files.layout(2) as usize).checked_sub(40).ok_or("no header")?;
        set_store(&mut files, &vec![0; head], &self.code, &self.pool);
        Ok(files)
    }
}

fn case(line: &str) -> Option<Case> {
    let case: Value = serde_json::from_str(line).ok()?;
    let element = |value: &Value| match value.is_null() {
        true => Some(Element::Reference),
        false => Some(Element::Number(i32::try_from(value.as_i64()?).ok()?)),
    };
    let number = |value: &Value| value.as_u64().and_then(|n| u32::try_from(n).ok());
    let entry = |value: &Value| {
        let numbers: Option<Vec<u32>> = value.as_array()?.iter().map(number).collect();
        <[u32; 3]>::try_from(numbers?).ok()
    };
    Some(Case {
        v8: case["v8"].as_str()?.into(),
        code: hex(case["code"].as_str()?)?,
        pool: case["pool"].as_array()?.iter().map(element).collect::<Option<_>>()?,
        handlers: case["handlers"].as_array()?.iter().map(entry).collect::<Option<_>>()?,
    })
}

#[cfg(test)]
mod tests {
    use super::*;
    use crate::vectors;

    /// The walk says the same on the recorded functions.
    #[test]
    fn asked_again() {
        assert!(vectors::replay(include_bytes!("../recorded/walk-v8.vec")).is_ok());
    }

    /// The file in recorded/ is what the listings give, where they are beside the repository.
    #[test]
    fn recorded_file_is_current() {
        let folder = Path::new(env!("CARGO_MANIFEST_DIR")).join("../../shared/v8-listings");
        if folder.is_dir() {
            let recording = record(&folder).unwrap();
            assert_eq!(recording.others, Vec::<String>::new());
            assert!(include_bytes!("../recorded/walk-v8.vec")[..] == recording.writer.out);
        }
    }
}
