//! The listings in a recorded vector file (oracle/FORMAT.md) of crate `relist`.

use jscd_write::table::Table;
use std::path::Path;

/// Kinds of items: a part of the file itself, and calls of the listing, into 65,536 and into 262,144 bytes.
const PART: u8 = 16;
const CALL: u8 = 32;
const LISTING: u8 = CALL;
const LONG_LISTING: u8 = CALL + 22;

pub struct Listing {
    pub table: Table,
    payload: Vec<u8>,
    pub text: String,
}

impl Listing {
    /// As its header has it.
    pub fn parameters(&self) -> i32 {
        let mut lines = self.text.lines();
        let count = lines.find_map(|line| line.strip_prefix("Parameter count ")).unwrap();
        count.parse().unwrap()
    }

    /// Whether the payload has this code.
    pub fn holds(&self, code: &[u8]) -> bool {
        self.payload.windows(code.len()).any(|part| part == code)
    }
}

/// The listings of a file; one that was asked with more room too is taken once.
pub fn listings(name: &str) -> Vec<Listing> {
    let data = Path::new(env!("CARGO_MANIFEST_DIR")).join("../crates/relist/data");
    let vectors = std::fs::read(data.join(name)).unwrap();
    let mut files: [&[u8]; 9] = [&[]; 9];
    let mut out: Vec<Listing> = Vec::new();
    let mut at = 0;
    while at < vectors.len() {
        let body = &vectors[at + 5..][..number(&vectors, at + 1)];
        match vectors[at] {
            kind @ 0..PART => files[kind as usize] = body,
            kind @ PART..CALL => {
                let part = &vectors[number(body, 0)..][..number(body, 4)];
                files[(kind - PART) as usize] = part;
            }
            kind @ (LISTING | LONG_LISTING) if body[0] == 1 => {
                let text = String::from_utf8(body[1..].to_vec()).unwrap();
                if kind == LISTING || out.last().is_none_or(|last| last.text != text) {
                    out.push(listing(&files, text));
                }
            }
            _ => {}
        }
        at += 5 + body.len();
    }
    out
}

fn number(bytes: &[u8], at: usize) -> usize {
    u32::from_le_bytes(bytes[at..at + 4].try_into().unwrap()) as usize
}

fn listing(files: &[&[u8]; 9], text: String) -> Listing {
    let [opcodes, types, runtime, intrinsic, layout] = [0, 1, 2, 3, 4].map(|k| files[k].to_vec());
    let table = Table { opcodes, types, runtime, intrinsic, layout };
    Listing { table, payload: files[7].to_vec(), text }
}
