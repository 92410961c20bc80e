//! What the programs jscd_list, jscd_walk, jscd_convert and file_cases are run on in the gate, and what
//! they must print: the listing as the Rust says it, the walk as document 01 does, the conversion as
//! document 02 does.

use crate::ask::{ask, ask_with, Answer, Call, LISTING, TO_NEW, TO_OLD, WALK, WALK_WITH};
use crate::checks::PROGRAM_FILE;
use crate::convert::old_opcodes;
use crate::handlers::{self, Handler};
use crate::records::*;
use crate::sample;
use std::collections::BTreeMap;
use std::path::Path;

/// Contents by path below crates/.
pub type Tree = BTreeMap<String, Vec<u8>>;

/// Bytes of the sample's payload in front of its code.
const HEADER: usize = 46;

/// Bytes for code in file_cases, so that one object record and one slot record serve every payload.
const ROOM: usize = 10;

const SAMPLE_CODE: &[u8] = &[0x03, 0x05, 0x04, 0xfa, 0x0b];
const P11: &[u8] = &[0x00, 0x05, 0x03, 0x00, 0x02];
const SWITCH: &[u8] = &[0x09, 0x00, 0x02, 0x05, 0x0b];

/// CallRuntime with name 1, InvokeIntrinsic with name 0, and Return.
const BOTH_NAMES: &[u8] = &[0x0a, 0x01, 0x00, 0xfa, 0x01, 0x0c, 0x00, 0xfa, 0x01, 0x0b];

/// What file_cases is lent as arguments, eight files a set: the usual names, but for these.
const SETS: [&[(usize, &str)]; 15] = [
    &[],
    &[(PAYLOAD, "full.bin")],
    &[(PAYLOAD, "long.bin")],
    &[(OPCODES, "long.bin")],
    &[(PAYLOAD, "none.bin")],
    &[(PAYLOAD, ".")],
    &[(PAYLOAD, "p10.bin")],
    &[(PAYLOAD, "p11.bin")],
    &[(PAYLOAD, "p12.bin")],
    &[(PAYLOAD, "off.bin")],
    &[(OBJECTS, "switch_objects.bin"), (SLOTS, "switch_slots.bin"), (PAYLOAD, "switch.bin")],
    &[(OPCODES, "prefix_3.bin")],
    &[(OBJECTS, "switch_objects.bin"), (SLOTS, "kind_6.bin"), (PAYLOAD, "switch.bin")],
    &[(PAYLOAD, "empty.bin")],
    &[(PAYLOAD, "not_held.bin")],
];

/// The cases of file_cases: title, program, and the set.
const CASES: [(&str, usize, usize); 28] = [
    ("list: the usual names, not as arguments", LISTING, 0),
    ("list: the usual names", LISTING, 0),
    ("list: payload of 65,536 bytes", LISTING, 1),
    ("list: payload of 65,537 bytes", LISTING, 2),
    ("list: opcodes of 65,537 bytes", LISTING, 3),
    ("list: payload missing", LISTING, 4),
    ("list: payload a folder", LISTING, 5),
    ("list: a switch", LISTING, 10),
    ("list: opcode 4 with prefix byte 3", LISTING, 11),
    ("list: slot 4 of kind 6", LISTING, 12),
    ("list: empty code", LISTING, 13),
    ("list: length 11, in no run", LISTING, 14),
    ("walk: the usual names, not as arguments", WALK, 0),
    ("walk: the usual names", WALK, 0),
    ("walk: payload of 65,536 bytes", WALK, 1),
    ("walk: payload of 65,537 bytes", WALK, 2),
    ("walk: opcodes of 65,537 bytes", WALK, 3),
    ("walk: payload missing", WALK, 4),
    ("walk: payload a folder", WALK, 5),
    ("walk: 05 01", WALK, 6),
    ("walk: 00 05 03 00 02", WALK, 7),
    ("walk: 06 02 0b", WALK, 8),
    ("walk: 06 03 0b", WALK, 9),
    ("walk: a switch", WALK, 10),
    ("walk: opcode 4 with prefix byte 3", WALK, 11),
    ("walk: slot 4 of kind 6", WALK, 12),
    ("walk: empty code", WALK, 13),
    ("walk: length 11, in no run", WALK, 14),
];

/// Files of handler records, behind the sets among the arguments.
const RECORDS: [&str; 9] = [
    "inside.bin",
    "last.bin",
    "return.bin",
    "beyond.bin",
    "cut.bin",
    "long.bin",
    "no_record.bin",
    "none.bin",
    ".",
];

/// The walks of `06 02 0b` with each of these, by the option in front of its set.
const HANDLED: [&str; 9] = [
    "walk: 06 02 0b, a handler at 1",
    "walk: 06 02 0b, handlers at 1 and at 2, the last one at 2",
    "walk: 06 02 0b, a handler at 1 of the Return alone",
    "walk: 06 02 0b, the second record ends at 4",
    "walk: 06 02 0b, 13 bytes of handlers",
    "walk: 06 02 0b, handlers of 65,537 bytes",
    "walk: 06 02 0b, no handlers in the file",
    "walk: 06 02 0b, handlers missing",
    "walk: 06 02 0b, handlers a folder",
];

/// The set that has `06 02 0b`.
const P12_SET: usize = 8;

/// Behind these: the option and its file, and the files of the usual names.
const USUAL_HANDLED: &str = "walk: a handler at 1, the usual names not as arguments";

/// Numbers of arguments that neither program takes, and the listing program with the option.
const WRONG_COUNTS: [&str; 7] = [
    "list: seven files",
    "walk: nine files",
    "walk: the option alone",
    "walk: the option, its file and seven files",
    "list: the option, its file and eight files",
    "list: all arguments",
    "walk: all arguments",
];

/// The conversions: a word and the opcodes; what is refused or no way prints nothing.
const CONVERSIONS: [(&str, &str, &str); 5] = [
    ("convert: new", "new", "old.bin"),
    ("convert: old", "old", "opcodes.bin"),
    ("convert: old, a flow that is not its name's", "old", "other_flow.bin"),
    ("convert: new, records of 72 bytes", "new", "opcodes.bin"),
    ("convert: no such way", "either", "opcodes.bin"),
];

/// The data folders, arguments and outputs of the four programs.
pub fn record() -> Result<Tree, String> {
    let mut tree = Tree::new();
    tree.insert("jscd_list/stdout".into(), said(&sample::sample(), LISTING)?.into_bytes());
    tree.insert("jscd_walk/stdout".into(), said(&walk_files(), WALK)?.into_bytes());
    for (program, files) in [("jscd_list", sample::sample()), ("jscd_walk", walk_files())] {
        for (name, body) in NAMES.iter().zip(files.body) {
            tree.insert(format!("{program}/data/{name}"), body);
        }
    }
    // For its option, by hand: a handler at the byte behind the prefix.
    tree.insert("jscd_walk/data/handlers.bin".into(), records(&[(0, 1, 1)]));
    // The conversion is run on the sample's opcodes as document 01 has them, and gives those that jscd_list reads.
    let [opcodes, types, ..] = sample::sample().body;
    tree.insert("jscd_convert/data/old.bin".into(), old_opcodes(&opcodes));
    tree.insert("jscd_convert/data/types.bin".into(), types);
    tree.insert("jscd_convert/args".into(), b"new\nold.bin\ntypes.bin\n".to_vec());
    tree.insert("jscd_convert/stdout".into(), opcodes);
    let data = case_files();
    tree.insert("file_cases/args".into(), arguments().into_bytes());
    tree.insert("file_cases/stdout".into(), case_output(&data)?);
    for (name, body) in data {
        tree.insert(format!("file_cases/data/{name}"), body);
    }
    Ok(tree)
}

/// The sample with P11's code.
fn walk_files() -> Files {
    let mut files = sample::sample();
    files.body[PAYLOAD].splice(HEADER.., P11.iter().copied());
    files
}

/// A file of handler records.
fn records(of: &[(u32, u32, u32)]) -> Vec<u8> {
    let records: Vec<Handler> = of.iter().map(|(a, e, to)| Handler::new(*a, *e, *to)).collect();
    handlers::file(&records)
}

/// Writes the tree into the folder crates/.
pub fn write(folder: &Path) -> Result<usize, String> {
    let tree = record()?;
    for (path, body) in &tree {
        let path = folder.join(path);
        let shown = |e: std::io::Error| format!("{}: {e}", path.display());
        std::fs::create_dir_all(path.parent().unwrap_or(folder)).map_err(shown)?;
        std::fs::write(&path, body).map_err(shown)?;
    }
    Ok(tree.len())
}

/// What a program prints.
fn said(files: &Files, function: usize) -> Result<String, String> {
    let marks = [65_536];
    let args: &[u64] = if function == WALK { &marks } else { &[] };
    let said = ask(files, &[], &Call::new(function, args))?.to_string();
    Ok(format!("{}\n", said.trim_end_matches('\n')))
}

/// What the walk program prints with handler records.
fn said_with(files: &Files, records: &[u8]) -> Result<String, String> {
    Ok(format!("{}\n", ask_with(files, &[], records, &Call::new(WALK_WITH, &[65_536]))?))
}

/// The files of file_cases. Those of the usual names are the sample's table with InvokeIntrinsic as
/// opcode 0c and V8's first names of each kind, two and one, and a function that shows one of each.
fn case_files() -> BTreeMap<&'static str, Vec<u8>> {
    let mut files = sample::sample();
    files.body[OPCODES].extend(opcode_record("InvokeIntrinsic", 0, &[16, 6, 8]));
    for name in ["DebugBreakOnBytecode", "LoadLookupSlotForCall"] {
        files.body[RUNTIME].extend(name_record(name));
    }
    files.body[INTRINSIC] = name_record("AsyncFunctionAwaitCaught");
    files.body[OBJECTS] =
        Object { kind: 1, count: 1, byte_size: 54 + ROOM as u32, ..Object::default() }.bytes();
    let length = (HEADER + ROOM) as u32;
    files.body[SLOTS] = Slot { index: 1, kind: 4, length, ..Slot::default() }.bytes();
    files.body[PAYLOAD] = payload(BOTH_NAMES);
    let mut prefix_3 = files.body[OPCODES].clone();
    prefix_3[4 * OPCODE_SIZE + 40] = 3;
    // JumpLoop, which then goes on in the wrong direction.
    let mut other_flow = files.body[OPCODES].clone();
    other_flow[7 * OPCODE_SIZE + 50] = 2;
    let old = old_opcodes(&files.body[OPCODES]);
    let mut full = payload(SAMPLE_CODE);
    full.resize(PROGRAM_FILE, 0);
    let mut long = full.clone();
    long.push(0);
    // One byte more than the run holds behind the header.
    let mut not_held = payload(BOTH_NAMES);
    not_held[4] = ROOM as u8 + 1;
    let [.., objects, slots, switch] = sample::function(SWITCH, 8, &[Some(4), None]).body;
    let mut kind_6 = slots.clone();
    kind_6[4 * 24 + 4] = 6;
    let mut out: BTreeMap<_, _> = NAMES.into_iter().zip(files.body).collect();
    out.extend([
        ("full.bin", full),
        ("long.bin", long),
        ("p10.bin", payload(&[0x05, 0x01])),
        ("p11.bin", payload(P11)),
        ("p12.bin", payload(&[0x06, 0x02, 0x0b])),
        ("off.bin", payload(&[0x06, 0x03, 0x0b])),
        ("switch_objects.bin", objects),
        ("switch_slots.bin", slots),
        ("switch.bin", switch),
        ("prefix_3.bin", prefix_3),
        ("other_flow.bin", other_flow),
        ("old.bin", old),
        ("kind_6.bin", kind_6),
        ("empty.bin", payload(&[])),
        ("not_held.bin", not_held),
        ("inside.bin", records(&[(0, 2, 1)])),
        ("last.bin", records(&[(0, 2, 1), (0, 3, 2)])),
        ("return.bin", records(&[(2, 3, 1)])),
        ("beyond.bin", records(&[(0, 2, 2), (2, 4, 0)])),
        ("cut.bin", [records(&[(0, 2, 1)]), vec![0]].concat()),
        ("no_record.bin", Vec::new()),
    ]);
    out
}

/// The sample's payload with this code, and zeros behind it.
fn payload(code: &[u8]) -> Vec<u8> {
    let mut out = sample::sample().body[PAYLOAD][..HEADER].to_vec();
    out[4] = code.len() as u8;
    out.extend(code);
    out.resize(HEADER + ROOM, 0);
    out
}

/// The eight names of a set.
fn names(set: usize) -> [&'static str; 8] {
    let mut out = NAMES;
    for (file, name) in SETS[set] {
        out[*file] = name;
    }
    out
}

/// One word a line: the sets, the option with its file in front of `06 02 0b`, and the conversions.
fn arguments() -> String {
    let mut words: Vec<&str> = (0..SETS.len()).flat_map(names).collect();
    for file in RECORDS {
        words.extend(["--handlers", file]);
        words.extend(names(P12_SET));
    }
    for (_, way, opcodes) in CONVERSIONS {
        words.extend([way, opcodes, NAMES[TYPES]]);
    }
    words.iter().map(|word| format!("{word}\n")).collect()
}

/// Each case's title and answer; where a file is missing, and for a wrong number of arguments, there is
/// none.
fn case_output(data: &BTreeMap<&str, Vec<u8>>) -> Result<Vec<u8>, String> {
    let mut out = String::new();
    for (title, function, set) in CASES {
        out += &format!("{title}\n");
        if let Some(files) = set_files(data, set) {
            out += &said(&files, function)?;
        }
    }
    for (title, name) in HANDLED.iter().zip(RECORDS) {
        out += &format!("{title}\n");
        if let (Some(files), Some(records)) = (set_files(data, P12_SET), data.get(name)) {
            out += &said_with(&files, records)?;
        }
    }
    out += &format!("{USUAL_HANDLED}\n");
    if let (Some(files), Some(records)) = (set_files(data, 0), data.get(RECORDS[0])) {
        out += &said_with(&files, records)?;
    }
    for title in WRONG_COUNTS {
        out += &format!("{title}\n");
    }
    let mut out = out.into_bytes();
    for (title, way, opcodes) in CONVERSIONS {
        out.extend(format!("{title}\n").into_bytes());
        if let Some(file) = converted(data, way, opcodes)? {
            out.extend(file);
        }
    }
    Ok(out)
}

/// The opcode file that a conversion prints; none where it is refused.
fn converted(
    data: &BTreeMap<&str, Vec<u8>>,
    way: &str,
    opcodes: &str,
) -> Result<Option<Vec<u8>>, String> {
    let function = match way {
        "new" => TO_NEW,
        "old" => TO_OLD,
        _ => return Ok(None),
    };
    let Some(mut files) = set_files(data, 0) else { return Ok(None) };
    files.body[OPCODES] = data[opcodes].clone();
    match ask(&files, &[], &Call::new(function, &[65_536]))? {
        Answer::Written(file) => Ok(Some(file)),
        _ => Ok(None),
    }
}

/// The eight files of a set, where all are there.
fn set_files(data: &BTreeMap<&str, Vec<u8>>, set: usize) -> Option<Files> {
    let body: Option<Vec<Vec<u8>>> =
        names(set).iter().map(|name| data.get(name).cloned()).collect();
    body.and_then(|body| body.try_into().ok()).map(|body| Files { body })
}

#[cfg(test)]
mod tests {
    use super::*;

    /// What file_cases prints; the converted files have bytes that are no text.
    fn printed() -> String {
        String::from_utf8_lossy(&record().unwrap()["file_cases/stdout"]).into_owned()
    }

    /// There and back in file_cases; what is refused prints nothing.
    #[test]
    fn conversions_show() {
        let data = case_files();
        let file = |way, opcodes| converted(&data, way, opcodes).unwrap();
        assert_eq!(file("new", "old.bin").as_ref(), data.get("opcodes.bin"));
        assert_eq!(file("old", "opcodes.bin").as_ref(), data.get("old.bin"));
        assert_eq!(file("old", "other_flow.bin"), None);
        assert_eq!(file("new", "opcodes.bin"), None);
    }

    /// The files of the four programs are what is made today.
    #[test]
    fn the_programs_files_are_current() {
        let crates = Path::new(env!("CARGO_MANIFEST_DIR")).join("../crates");
        for (path, body) in record().unwrap() {
            assert!(std::fs::read(crates.join(&path)).unwrap() == body, "{path}");
        }
    }

    /// Wish 4: empty code is closed, and a length that no run holds is 19; both list their header alone.
    #[test]
    fn empty_code_shows() {
        let output = printed();
        assert!(output.contains("\nwalk: empty code\nclosed\n"));
        assert!(output.contains("\nwalk: length 11, in no run\nrefused 19 at 0\n"));
        for (title, length) in [("empty code", 0), ("length 11, in no run", 11)] {
            let from = output.find(&format!("list: {title}\n")).unwrap();
            let lines: Vec<&str> = output[from..].lines().take(8).collect();
            assert_eq!(lines[1], format!("Bytecode length: {length}"));
            assert_eq!(lines[6], "Bytecode Age: 0");
            assert!(["list: ", "walk: "].iter().any(|title| lines[7].starts_with(title)));
        }
    }

    /// Wish 5: with handler records both programs say something else than without.
    #[test]
    fn handlers_show() {
        let tree = record().unwrap();
        assert_eq!(tree["jscd_walk/stdout"], b"leaves steps 2 from 4\n");
        let records = &tree["jscd_walk/data/handlers.bin"];
        assert_eq!(said_with(&walk_files(), records).unwrap(), "leaves steps 1 from 0\n");
        let output = printed();
        let said =
            ["leaves steps 1 from 0", "closed", "closed", "refused 25 at 1", "refused 24 at 0"];
        for (title, said) in
            HANDLED.iter().zip(said.into_iter().chain(["refused 24 at 0", "closed"]))
        {
            assert!(output.contains(&format!("\n{title}\n{said}\n")), "{title}");
        }
        assert!(output.contains(&format!("\n{USUAL_HANDLED}\nleaves steps 1 from 0\n")));
    }

    /// Wish 6: what the conversion prints is what the listing program reads.
    #[test]
    fn the_conversion_shows() {
        let tree = record().unwrap();
        let mut files = sample::sample();
        files.body[OPCODES] = tree["jscd_convert/data/old.bin"].clone();
        let said = ask(&files, &[], &Call::new(TO_NEW, &[65_536])).unwrap();
        assert_eq!(said, Answer::Written(tree["jscd_convert/stdout"].clone()));
        assert_eq!(tree["jscd_convert/stdout"], tree["jscd_list/data/opcodes.bin"]);
    }

    /// A runtime name and an intrinsic name show, and not one for the other.
    #[test]
    fn both_names_show() {
        let listing = printed();
        assert!(listing.contains("CallRuntime [LoadLookupSlotForCall], r0-r0\n"));
        assert!(listing.contains("InvokeIntrinsic [_AsyncFunctionAwaitCaught], r0-r0\n"));
    }
}
