//! Whole listings of the repository, recorded for the replay programs: their lines give back the code.

mod vectors;

use jscd_capi::{decode, Instr, Operand, OPCODE_SIZE};
use jscd_write::program::{hex, written};
use jscd_write::table::{function_name, function_named, Table};
use vectors::{listings, Listing};

/// The bytes that a listing's line carries, and its text.
fn parts(line: &str) -> Option<(Vec<u8>, &str)> {
    let (_, rest) = line.split_once(" : ").filter(|(place, _)| place.trim().starts_with('@'))?;
    let pairs = |text: &str| text.split(' ').take_while(|word| word.len() == 2).count();
    // Bytes are padded to 18 columns, and a blank stands behind them.
    let width = if rest[..18].contains("  ") { 18 } else { (3 * pairs(rest)).max(18) };
    let bytes = rest[..width].split_whitespace();
    let bytes = bytes.map(|pair| u8::from_str_radix(pair, 16).unwrap()).collect();
    Some((bytes, rest[width..].trim_start()))
}

fn code(listing: &Listing) -> Vec<Vec<u8>> {
    listing.text.lines().filter_map(parts).map(|(bytes, _)| bytes).collect()
}

/// The same listing without places and bytes.
fn texts(listing: &Listing) -> String {
    let cut = |line| parts(line).map_or(line, |(_, text)| text);
    listing.text.lines().map(|line| cut(line).to_string() + "\n").collect()
}

fn instr(table: &Table, bytes: &[u8]) -> Instr {
    decode(&table.opcodes, &table.types, &table.layout, bytes, 0).unwrap().unwrap()
}

fn has_empty_list(instr: &Instr) -> bool {
    instr.operands.iter().any(|operand| matches!(operand, Operand::RegList { count: 0, .. }))
}

/// V8's 70 functions of node 18 and node 20.
#[test]
fn v8_functions() {
    let seen = real("v8list.vec");
    assert_eq!((seen.functions, seen.lines), (70, 9_200));
    assert!(seen.empty_lists > 0);
}

/// The functions of small files' code caches, with switches under prefixes, generators, many registers.
#[test]
fn functions_of_code_caches() {
    let seen = real("caches.vec");
    assert_eq!((seen.functions, seen.lines), (156, 11_967));
}

#[derive(Default)]
struct Seen {
    functions: usize,
    lines: usize,
    empty_lists: usize,
}

/// Every listing of a file whose table is V8's: with its bytes, and without them.
fn real(file: &str) -> Seen {
    let mut seen = Seen::default();
    for listing in listings(file) {
        let code = code(&listing);
        assert!(listing.holds(&code.concat()), "{file}: the lines are not the code");
        assert_eq!(written(&listing.table, None, &listing.text).as_ref(), Ok(&code), "{file}");
        seen.functions += 1;
        seen.lines += code.len();
        seen.empty_lists += without_bytes(&listing, &code);
    }
    seen
}

/// A text stands for its bytes, but for an empty list, which is printed as the list of r0: so many there are.
fn without_bytes(listing: &Listing, code: &[Vec<u8>]) -> usize {
    let texts = texts(listing);
    let again = written(&listing.table, None, &texts).unwrap();
    assert_eq!(again.len(), code.len());
    let mut empty = 0;
    for (again, bytes) in again.iter().zip(code) {
        let right = instr(&listing.table, bytes);
        if !has_empty_list(&right) {
            assert_eq!(again, bytes);
            continue;
        }
        empty += 1;
        let operands = instr(&listing.table, again).operands;
        for (one, other) in operands.iter().zip(&right.operands) {
            let r0 = Operand::RegList { first: 0, count: 1 };
            let is_empty = matches!(other, Operand::RegList { count: 0, .. });
            assert_eq!(*one, if is_empty { r0 } else { *other });
        }
    }
    empty
}

/// Listings over random tables, whose names repeat, whose registers wrap and whose widths go up to 8: the bytes come back, or it is told that the
/// line's are others, which is so where they have bits that reading drops.
#[test]
fn listings_over_random_tables() {
    let (mut functions, mut lines, mut dropped) = (0, 0, 0);
    for file in ["list.vec", "rows.vec", "named.vec"] {
        for listing in listings(file) {
            let code = code(&listing);
            let refused: Vec<usize> = match written(&listing.table, None, &listing.text) {
                Ok(bytes) => {
                    assert_eq!(bytes, code);
                    Vec::new()
                }
                Err(faults) => faults.iter().map(|fault| told(&listing, fault.number)).collect(),
            };
            functions += 1;
            lines += code.len();
            dropped += refused.len();
        }
    }
    assert!(functions > 100 && lines > 1_000 && dropped > 0, "{functions} {lines} {dropped}");
}

/// An empty list, where r0 can be too far for the layout, a function whose name an earlier one has, or an opcode whose name another one has: some kinds
/// of operands read alike.
fn is_open(table: &Table, instr: &Instr) -> bool {
    let name = |opcode: usize| &table.opcodes[opcode * OPCODE_SIZE..][..40];
    let opcode = usize::from(instr.opcode);
    let mut others = (0..table.opcodes.len() / OPCODE_SIZE).filter(|other| *other != opcode);
    if others.any(|other| name(other) == name(opcode)) {
        return true;
    }
    let repeats = |file: &[u8], number| {
        function_name(file, number).and_then(|name| function_named(file, name)) != Some(number)
    };
    instr.operands.iter().any(|operand| match *operand {
        Operand::RegList { count, .. } => count == 0,
        Operand::RuntimeId(number) => repeats(&table.runtime, number),
        Operand::IntrinsicId(number) => repeats(&table.intrinsic, number),
        _ => false,
    })
}

/// Over random tables, too, a text without bytes stands for its instruction, where it stands for one alone.
#[test]
fn texts_over_random_tables() {
    let (mut same, mut others) = (0, 0);
    for listing in listings("list.vec") {
        for (bytes, text) in listing.text.lines().filter_map(parts) {
            let right = instr(&listing.table, &bytes);
            match written(&listing.table, Some(listing.parameters()), text) {
                Ok(again) if instr(&listing.table, &again[0]) == right => same += 1,
                _ => {
                    assert!(is_open(&listing.table, &right), "{text}");
                    others += 1;
                }
            }
        }
    }
    assert!(same > 1_000 && others > 0, "{same} {others}");
}

/// A line of a listing that is refused has bytes that are not those of what they read as.
fn told(listing: &Listing, number: usize) -> usize {
    let line = listing.text.lines().nth(number - 1).unwrap();
    let (bytes, _) = parts(line).unwrap();
    let Table { opcodes, types, layout, .. } = &listing.table;
    let mut out = [0; 256];
    let read = instr(&listing.table, &bytes);
    let length = jscd_capi::write(opcodes, types, layout, &read, &mut out).unwrap();
    assert_ne!(out[..length], bytes, "{line}: {}", hex(&out[..length]));
    assert_eq!(instr(&listing.table, &out[..length]), read);
    number
}
