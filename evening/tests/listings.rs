//! The listings are, byte for byte, those that crate `relist` replays: what jscd_list answers.

mod folder;

use folder::*;
use std::collections::BTreeMap;
use std::path::Path;

/// Kinds of items in a recorded file (oracle/FORMAT.md): a part of the file itself; calls of the listing, into 65,536 and into 262,144 bytes.
const PART: u8 = 16;
const CALL: u8 = 32;
const LISTING: u8 = CALL;
const LONG_LISTING: u8 = CALL + 22;

type Files = Vec<Vec<u8>>;

/// The functions of a file by their tables: store and listing.
fn recorded(name: &str) -> BTreeMap<Files, Vec<(Files, Vec<u8>)>> {
    let vectors = std::fs::read(crates("relist/data").join(name)).unwrap();
    let mut files: [&[u8]; 9] = [&[]; 9];
    let mut out: BTreeMap<Files, Vec<(Files, Vec<u8>)>> = BTreeMap::new();
    let mut at = 0;
    while at < vectors.len() {
        let body = &vectors[at + 5..][..number(&vectors, at + 1)];
        match vectors[at] {
            kind @ 0..PART => files[kind as usize] = body,
            kind @ PART..CALL => {
                files[(kind - PART) as usize] = &vectors[number(body, 0)..][..number(body, 4)];
            }
            LISTING | LONG_LISTING if body[0] == 1 => {
                let owned = |files: &[&[u8]]| files.iter().map(|file| file.to_vec()).collect();
                let functions = out.entry(owned(&files[..5])).or_default();
                functions.push((owned(&files[5..8]), body[1..].to_vec()));
            }
            _ => {}
        }
        at += 5 + body.len();
    }
    out
}

fn number(bytes: &[u8], at: usize) -> usize {
    u32::from_le_bytes(bytes[at..at + 4].try_into().unwrap()) as usize
}

/// How many functions were listed as recorded.
fn compared(file: &str) -> usize {
    let mut count = 0;
    for (table, functions) in recorded(file) {
        let folder = folder(&format!("recorded-{file}"));
        let (from, to) = (folder.join("in"), folder.join("out"));
        put_files(&from.join("table"), &TABLE, &table);
        for (k, (store, _)) in functions.iter().enumerate() {
            put_files(&from.join(k.to_string()), &STORE, store);
        }
        let (status, ..) = call([Path::new("-j2"), &from, &to]);
        assert!(status < 2);
        for (k, (_, text)) in functions.iter().enumerate() {
            let listed = std::fs::read(to.join(format!("{k}.txt"))).unwrap();
            assert_eq!(String::from_utf8_lossy(&listed), String::from_utf8_lossy(text));
            count += 1;
        }
    }
    count
}

#[test]
fn v8_functions() {
    assert!(compared("v8list.vec") >= 70);
}

#[test]
fn functions_of_code_caches() {
    assert!(compared("caches.vec") >= 156);
}

#[test]
fn functions_over_random_tables() {
    let count: usize = ["list.vec", "rows.vec", "named.vec"].map(compared).iter().sum();
    assert!(count > 100, "{count}");
}
