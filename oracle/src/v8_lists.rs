//! Vectors of whole listings as V8 printed them: header counts and lines of each function. The Rust is
//! asked for the same only to count where it differs.

use crate::ask::{ask, Answer, Call, LISTING, LONG_LISTING};
use crate::checks::{refuse, PROGRAM_OUTPUT};
use crate::records::*;
use crate::v8::{hex, tables};
use crate::vectors::Writer;
use serde_json::Value;
use std::path::Path;

#[derive(Default)]
pub struct V8Lists {
    pub writer: Writer,
    pub functions: usize,
    pub lines: usize,
    /// Functions that the program refuses with 17; their text is asked for in a longer buffer.
    pub long: usize,
    /// Where the Rust lists something else.
    pub differences: Vec<String>,
}

/// A function: its version, its files and its text.
struct Case {
    v8: String,
    files: Files,
    text: String,
}

pub fn record(folder: &Path) -> Result<V8Lists, String> {
    let path = folder.join("cases.jsonl");
    let all = std::fs::read_to_string(&path).map_err(|e| format!("{}: {e}", path.display()))?;
    let mut cases = Vec::new();
    for (k, line) in all.lines().enumerate() {
        let case = case(folder, line)?;
        cases.push(case.ok_or(format!("{}: line {} is no case", path.display(), k + 1))?);
    }
    cases.sort_by_key(|case| case.v8.clone());
    let mut out = V8Lists::default();
    for case in &cases {
        out.function(case)?;
    }
    Ok(out)
}

impl V8Lists {
    fn function(&mut self, case: &Case) -> Result<(), String> {
        self.functions += 1;
        self.lines += case.text.lines().count() - 6;
        self.writer.files(&case.files);
        let text = Answer::Found { words: Vec::new(), text: case.text.clone() };
        if case.text.len() > PROGRAM_OUTPUT {
            self.long += 1;
            let refusal = refuse::<()>(17, 0).unwrap_err();
            self.given(case, LISTING, &Answer::Refused(refusal))?;
            self.given(case, LONG_LISTING, &text)
        } else {
            self.given(case, LISTING, &text)
        }
    }

    fn given(&mut self, case: &Case, function: usize, answer: &Answer) -> Result<(), String> {
        let call = Call::new(function, &[]);
        let rust = ask(&case.files, &[], &call)?;
        if rust != *answer {
            self.differences.push(format!("{} differs:\n{answer}\nthe Rust:\n{rust}\n", case.v8));
        }
        self.writer.given(&call, answer);
        Ok(())
    }

    pub fn report(&self) -> String {
        let mut out = self.differences.concat();
        out += &format!("{} functions, {} lines, ", self.functions, self.lines);
        out += &format!("{} listings of more than {PROGRAM_OUTPUT} bytes\n", self.long);
        out + &format!("the Rust lists {} otherwise\n", self.differences.len())
    }
}

fn case(folder: &Path, line: &str) -> Result<Option<Case>, String> {
    let Ok(case) = serde_json::from_str::<Value>(line) else {
        return Ok(None);
    };
    let v8 = case["v8"].as_str().unwrap_or_default().to_string();
    let mut files = tables(&folder.join("tables").join(&v8))?;
    Ok(store(&case, &mut files).and_then(|_| {
        let text = listing(&case)?;
        Some(Case { v8, files, text })
    }))
}

/// The header lines by V8's numbers, and V8's lines.
fn listing(case: &Value) -> Option<String> {
    let number = |key: &str| case[key].as_i64();
    let mut out = format!("Bytecode length: {}\n", case["code"].as_str()?.len() / 2);
    for (text, key) in [
        ("Parameter count", "parameter_count"),
        ("Register count", "register_count"),
        ("Frame size", "frame_size"),
        ("OSR nesting level:", "osr"),
        ("Bytecode Age:", "age"),
    ] {
        out += &format!("{text} {}\n", number(key)?);
    }
    for line in case["lines"].as_array()? {
        out += &format!("{}\n", line.as_str()?);
    }
    Some(out)
}

fn small_integer(value: i64) -> [u8; 8] {
    ((value as u32 as u64) << 32).to_le_bytes()
}

/// The store as V8's serializer lays a function out at tagged size 8: map, length, pool, handler
/// table, source positions, then one run with the numbers of the header and the code.
fn store(case: &Value, files: &mut Files) -> Option<()> {
    let code = hex(case["code"].as_str()?)?;
    let pool = case["pool"].as_array()?;
    let slot = |index, kind| Slot { index, kind, ..Slot::default() };
    let mut payload = small_integer(code.len() as i64).to_vec();
    let header = files.layout(2) as usize;
    let mut tail = vec![0; header - 40];
    tail[..4].copy_from_slice(&(case["frame_size"].as_u64()? as u32).to_le_bytes());
    tail[4..8].copy_from_slice(&(8 * case["parameter_count"].as_i64()? as i32).to_le_bytes());
    let byte = |key: &str| case[key].as_i64().map(|v| v as u8);
    // osr under the name that the version has, where it has one.
    if files.layout(10) != ABSENT {
        tail[files.layout(10) as usize - 40] = byte("osr")?;
    }
    tail[files.layout(11) as usize - 40] = byte("age")?;
    tail.extend(&code);
    let pool_slot = if pool.is_empty() { slot(2, 2) } else { Slot { number: 1, ..slot(2, 1) } };
    let run = Slot { number: 8, length: tail.len() as u32, ..slot(5, 4) };
    let length = Slot { length: 8, ..slot(1, 4) };
    let mut slots = vec![slot(0, 3), length, pool_slot, slot(3, 3), slot(4, 3), run];
    payload.extend(&tail);
    let count = slots.len() as u32;
    let byte_size = (header + code.len()) as u32;
    let mut objects = vec![Object { kind: 1, count, byte_size, ..Object::default() }];
    if !pool.is_empty() {
        let held = elements(pool, &mut payload);
        let byte_size = 16 + 8 * pool.len() as u32;
        let object =
            Object { first: count, count: held.len() as u32, byte_size, ..Object::default() };
        objects.push(object);
        slots.extend(held);
    }
    files.body[OBJECTS] = objects.iter().flat_map(Object::bytes).collect();
    files.body[SLOTS] = slots.iter().flat_map(Slot::bytes).collect();
    files.body[PAYLOAD] = payload;
    Some(())
}

/// The pool's slots: small integers that stand together are one run, which the length begins.
fn elements(pool: &[Value], payload: &mut Vec<u8>) -> Vec<Slot> {
    let other = Slot { kind: 3, ..Slot::default() };
    let mut slots = vec![other];
    let mut values = vec![Some(pool.len() as i64)];
    values.extend(pool.iter().map(Value::as_i64));
    for (k, value) in values.iter().enumerate() {
        let index = 1 + k as u32;
        let Some(value) = value else {
            slots.push(Slot { index, ..other });
            continue;
        };
        match slots.last_mut() {
            Some(run) if run.kind == 4 => run.length += 8,
            _ => {
                let number = payload.len() as u32;
                slots.push(Slot { index, kind: 4, number, length: 8, ..Slot::default() });
            }
        }
        payload.extend(small_integer(*value));
    }
    slots
}

#[cfg(test)]
mod tests {
    use super::*;
    use crate::vectors;

    /// The Rust lists every recorded function as V8 printed it.
    #[test]
    fn the_rust_agrees() {
        assert!(vectors::replay(include_bytes!("../recorded/v8list.vec")).is_ok());
    }

    /// The file in recorded/ is what the listings give, where they are beside the repository.
    #[test]
    fn recorded_file_is_current() {
        let folder = Path::new(env!("CARGO_MANIFEST_DIR")).join("../../shared/v8-listings");
        if folder.is_dir() {
            let recording = record(&folder).unwrap();
            assert!(include_bytes!("../recorded/v8list.vec")[..] == recording.writer.out);
        }
    }
}
