//! Functions of real JavaScript, as V8 printed them, as record files: laid out as V8's serializer lays a BytecodeArray out at tagged size
//! 8. Object 0 is the BytecodeArray: map, length, pool, handler table, source positions, then one run with the other header fields and the
//! code. Object 1 is the pool: small integers that follow each other are one run, any other element is a reference.

use crate::records::*;
use crate::v8;
use serde_json::Value;
use std::collections::BTreeMap;
use std::path::Path;

pub struct Real {
    /// The version and a number: `10.2-07`.
    pub name: String,
    pub files: Files,
    /// Bytes of code.
    pub code: usize,
    /// V8's header and instruction lines.
    pub listing: String,
}

/// The functions of a folder of listings (its `cases.jsonl` and `tables/`).
pub fn functions(folder: &Path) -> Result<Vec<Real>, String> {
    let path = folder.join("cases.jsonl");
    let all = std::fs::read_to_string(&path).map_err(|e| format!("{}: {e}", path.display()))?;
    let mut tables = BTreeMap::new();
    let mut out = Vec::new();
    for (k, line) in all.lines().enumerate() {
        let wrong = || format!("{}: line {} is no case", path.display(), k + 1);
        let case: Value = serde_json::from_str(line).map_err(|_| wrong())?;
        let v8 = case["v8"].as_str().ok_or_else(wrong)?.to_string();
        if !tables.contains_key(&v8) {
            tables.insert(v8.clone(), v8::tables(&folder.join("tables").join(&v8))?);
        }
        out.push(function(&case, &v8, &tables[&v8], k).ok_or_else(wrong)?);
    }
    Ok(out)
}

fn function(case: &Value, v8: &str, table: &Files, k: usize) -> Option<Real> {
    let number = |key: &str| case[key].as_i64();
    let code = hex(case["code"].as_str()?)?;
    let pool: Vec<Option<i32>> =
        case["pool"].as_array()?.iter().map(|e| e.as_i64().map(|v| v as i32)).collect();
    let head = table.layout(2) as usize;
    let mut fields = vec![0u8; head - 40];
    fields[..4].copy_from_slice(&(number("frame_size")? as u32).to_le_bytes());
    fields[4..8].copy_from_slice(&(8 * number("parameter_count")? as u32).to_le_bytes());
    for (value, key) in [(9, "osr"), (11, "age")] {
        if table.layout(value) != ABSENT {
            *fields.get_mut(table.layout(value) as usize - 40)? = number(key)? as u8;
        }
    }
    let mut files = table.clone();
    store(&mut files, &code, &fields, &pool);
    let shown = [
        ("Bytecode length: ", code.len() as i64),
        ("Parameter count ", number("parameter_count")?),
        ("Register count ", number("register_count")?),
        ("Frame size ", number("frame_size")?),
        ("OSR nesting level: ", number("osr")?),
        ("Bytecode Age: ", number("age")?),
    ];
    let mut listing: String = shown.iter().map(|(what, n)| format!("{what}{n}\n")).collect();
    for line in case["lines"].as_array()? {
        listing += line.as_str()?;
        listing += "\n";
    }
    Some(Real { name: format!("{v8}-{k:02}"), files, code: code.len(), listing })
}

/// A function of this code, with these header fields from offset 40 on, and this pool (None is a reference).
pub fn store(files: &mut Files, code: &[u8], fields: &[u8], pool: &[Option<i32>]) {
    let reference = |index| Slot { index, kind: 3, ..Slot::default() };
    let mut payload = Vec::new();
    let pool_slot = match pool.is_empty() {
        true => Slot { index: 2, kind: 2, ..Slot::default() },
        false => Slot { index: 2, kind: 1, number: 1, ..Slot::default() },
    };
    let mut slots = vec![
        reference(0),
        run(&mut payload, 1, &smi(code.len() as i32)),
        pool_slot,
        reference(3),
        reference(4),
        run(&mut payload, 5, &[fields, code].concat()),
    ];
    let count = slots.len() as u32;
    let byte_size = (40 + fields.len() + code.len()) as u32;
    files.body[OBJECTS] = Object { kind: 1, count, byte_size, ..Object::default() }.bytes();
    if !pool.is_empty() {
        slots.push(reference(0));
        let (mut bytes, mut from) = (smi(pool.len() as i32).to_vec(), 1);
        for (k, element) in pool.iter().enumerate() {
            let index = 2 + k as u32;
            match element {
                Some(v) => bytes.extend(smi(*v)),
                None => {
                    if !bytes.is_empty() {
                        slots.push(run(&mut payload, from, &bytes));
                    }
                    slots.push(reference(index));
                    (bytes, from) = (Vec::new(), index + 1);
                }
            }
        }
        if !bytes.is_empty() {
            slots.push(run(&mut payload, from, &bytes));
        }
        let held = slots.len() as u32 - count;
        let byte_size = 16 + 8 * pool.len() as u32;
        let object = Object { first: count, count: held, byte_size, ..Object::default() };
        files.body[OBJECTS].extend(object.bytes());
    }
    files.body[SLOTS] = slots.iter().flat_map(Slot::bytes).collect();
    files.body[PAYLOAD] = payload;
}

fn smi(value: i32) -> [u8; 8] {
    ((value as u32 as u64) << 32).to_le_bytes()
}

/// A run of these bytes, which go behind the payload.
fn run(payload: &mut Vec<u8>, index: u32, bytes: &[u8]) -> Slot {
    let number = payload.len() as u32;
    payload.extend(bytes);
    Slot { index, kind: 4, number, length: bytes.len() as u32, ..Slot::default() }
}

fn hex(digits: &str) -> Option<Vec<u8>> {
    let pairs = (0..digits.len()).step_by(2);
    pairs.map(|k| u8::from_str_radix(digits.get(k..k + 2)?, 16).ok()).collect()
}

#[cfg(test)]
mod tests {
    use super::*;
    use crate::ask::{ask, Call, LISTING};

    /// The Rust lists each function as V8 printed it, where the listings are beside the repository. A listing that is too long for the
    /// program is number 17.
    #[test]
    fn as_v8_printed() {
        let folder = Path::new(env!("CARGO_MANIFEST_DIR")).join("../../shared/v8-listings");
        if !folder.is_dir() {
            return;
        }
        for function in functions(&folder).unwrap() {
            let said = ask(&function.files, &[], &Call::new(LISTING, &[])).unwrap().to_string();
            if function.listing.len() > crate::checks::PROGRAM_OUTPUT {
                assert_eq!(said, "refused 17 at 0");
                continue;
            }
            for (rust, v8) in said.lines().zip(function.listing.lines()) {
                assert_eq!(rust, v8, "{}", function.name);
            }
            assert_eq!(said.lines().count(), function.listing.lines().count());
        }
    }
}
