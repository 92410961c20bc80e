//! Bytes 50 to 53 of opcode records, by name: those of document 01's 37 names, and the tables of V8.

use jscd_export::tables::{BytecodeDef, VersionTable};
use jscd_export::{cache, export};
use oracle::port::{Port, TABLE};
use oracle::sample;
use std::collections::BTreeSet;
use std::path::{Path, PathBuf};

const OPCODE: usize = 72;
const OLD_OPCODE: usize = 64;

fn root() -> PathBuf {
    Path::new(env!("CARGO_MANIFEST_DIR")).join("..")
}

/// What the conditional jumps ask.
const CONDITIONS: [&str; 13] = [
    "True",
    "False",
    "ToBooleanTrue",
    "ToBooleanFalse",
    "Null",
    "NotNull",
    "Undefined",
    "UndefinedOrNull",
    "NotUndefined",
    "JSReceiver",
    "NotHole",
    "ReferenceError",
    "NotReferenceError",
];

/// Every name that is not straight on.
fn named() -> Vec<(String, [u8; 4])> {
    let ends = ["Return", "SuspendGenerator", "Throw", "ReThrow", "Abort"];
    let mut out: Vec<_> = ends.map(|name| (name.to_string(), [1, 0, 0, 0])).into();
    out.push(("SwitchOnSmiNoFeedback".into(), [5, 0, 0, 1]));
    out.push(("SwitchOnGeneratorState".into(), [5, 0, 1, 0]));
    let jumps = CONDITIONS.map(|condition| (format!("JumpIf{condition}"), 3));
    for (name, flow) in jumps.into_iter().chain([("Jump".into(), 2), ("JumpLoop".into(), 4)]) {
        out.push((format!("{name}Constant"), [flow, 1, 0, 0]));
        out.push((name, [flow, 0, 0, 0]));
    }
    out
}

/// The opcode records of a table that has just these names.
fn records(names: &[String]) -> Vec<Vec<u8>> {
    let mut table: VersionTable = Port::new(&sample::sample(), TABLE).unwrap().table;
    let def = |name: &String| BytecodeDef {
        name: name.clone(),
        operands: vec!["Reg".into(), "Idx".into()],
        prefix: None,
        acc: String::new(),
    };
    table.bytecodes = names.iter().map(def).collect();
    let [opcodes, ..] = export::table(&table).unwrap();
    assert_eq!(opcodes.len(), OPCODE * names.len());
    opcodes.chunks_exact(OPCODE).map(<[u8]>::to_vec).collect()
}

#[test]
fn each_name() {
    let named = named();
    assert_eq!(named.len(), 37);
    let names: Vec<String> = named.iter().map(|(name, _)| name.clone()).collect();
    for (record, (name, flow)) in records(&names).iter().zip(&named) {
        assert_eq!(record[..name.len()], *name.as_bytes());
        assert_eq!(record[name.len()..40], [0; 40][name.len()..]);
        assert_eq!(record[40..50], [0, 2, 0, 10, 0, 0, 0, 0, 0, 0]);
        assert_eq!((&record[50..54], &record[54..]), (&flow[..], &[0; 18][..]), "{name}");
    }
}

/// Names that are nearly one of them are straight on, also jumps that document 01 does not know.
#[test]
fn other_names() {
    let other = [
        "LdaZero",
        "return",
        "Returns",
        "JumpIf",
        "JumpIfForInDone",
        "JumpIfForInDoneConstant",
        "JumpIfTrueConstantConstant",
        "Constant",
        "Jump_",
        "ResumeGenerator",
        "SwitchOnSmi",
        "ThrowReferenceErrorIfHole",
    ];
    for (record, name) in records(&other.map(String::from)).iter().zip(other) {
        assert_eq!(record[50..], [0; 22], "{name}");
    }
}

/// The jumps are those of the published `jump_target`.
#[test]
fn the_rusts_jumps() {
    let source = std::fs::read_to_string(root().join("oracle/jscd/src/disasm.rs")).unwrap();
    let start = source.find("fn jump_target(").unwrap();
    let body = &source[start..start + source[start..].find("fn jump_table(").unwrap()];
    let quoted = body.split('"').skip(1).step_by(2);
    let theirs: BTreeSet<&str> = quoted.filter(|name| name.starts_with("Jump")).collect();
    let named = named();
    let ours = named.iter().map(|(name, _)| name.as_str());
    assert_eq!(theirs, ours.filter(|name| name.starts_with("Jump")).collect());
}

/// V8's opcodes: the tables of 64-byte records beside the repository, and what is exported. Every jump of these versions is one that document 01 knows.
#[test]
fn v8_tables() {
    for (node, v8) in [("node18", "10.2"), ("node20", "11.3")] {
        let file = root().join("../shared/v8-listings/tables").join(v8).join("opcodes.bin");
        let Ok(old) = std::fs::read(&file) else {
            return eprintln!("no {}: the opcodes are not compared", file.display());
        };
        let data = std::fs::read(root().join(format!("export/tests/data/{node}.jsc"))).unwrap();
        let [opcodes, ..] = cache::read(&data).ok().unwrap().all.table;
        let new: Vec<u8> = old.chunks_exact(OLD_OPCODE).flat_map(converted).collect();
        assert!(opcodes == new, "{v8}");
    }
}

/// A record of 64 bytes as one of 72.
fn converted(old: &[u8]) -> Vec<u8> {
    let name = std::str::from_utf8(&old[..40]).unwrap().trim_end_matches('\0');
    let pool = name.starts_with("Jump") && name.ends_with("Constant");
    let flow = match name.trim_end_matches("Constant") {
        "Return" | "SuspendGenerator" | "Throw" | "ReThrow" | "Abort" => [1, 0, 0, 0],
        "SwitchOnSmiNoFeedback" => [5, 0, 0, 1],
        "SwitchOnGeneratorState" => [5, 0, 1, 0],
        "Jump" => [2, pool as u8, 0, 0],
        "JumpLoop" => [4, pool as u8, 0, 0],
        jump if jump.starts_with("JumpIf") => [3, pool as u8, 0, 0],
        _ => [0; 4],
    };
    [&old[..50], &flow, &[0; 18]].concat()
}
