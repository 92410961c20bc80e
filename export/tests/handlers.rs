//! Handler records: those of real caches beside what V8 prints of its handler tables, and tables that are damaged or of a form that is not known.
//!
//! data/handlers18.jsc and data/handlers20.jsc are caches of data/handlers.js, made by make.js with nodes of these versions, and the texts beside them
//! V8's lines on each function and its handler table: `node --print-bytecode --no-flush-bytecode ../../make.js --mark OUT handlers.js`.

use jscd_export::cache;
use jscd_export::export::{self, Handlers};
use jscd_export::serializer::{self, CodeCache, Raw, Ref, SlotValue, Ty};
use jscd_export::tables::VersionTable;
use std::path::{Path, PathBuf};
use std::process::Command;

const NODE_18: (&[u8], &str) =
    (include_bytes!("data/handlers18.jsc"), include_str!("data/handlers18.txt"));
const NODE_20: (&[u8], &str) =
    (include_bytes!("data/handlers20.jsc"), include_str!("data/handlers20.txt"));

/// Start, end, handler.
type Record = [u32; 3];

/// A function: its bytes of code, its records, and how many entries of V8's table have none.
type Held = (usize, Vec<Record>, usize);

fn root() -> PathBuf {
    Path::new(env!("CARGO_MANIFEST_DIR")).join("..")
}

/// A fresh folder below the build's own.
fn folder(name: &str) -> PathBuf {
    let folder = Path::new(env!("CARGO_TARGET_TMPDIR")).join(name);
    let _ = std::fs::remove_dir_all(&folder);
    std::fs::create_dir_all(&folder).unwrap();
    folder
}

fn records(bytes: &[u8]) -> Vec<Record> {
    assert_eq!(bytes.len() % 12, 0);
    let word = |b: &[u8]| u32::from_le_bytes(b.try_into().unwrap());
    bytes.chunks(12).map(|b| [word(&b[..4]), word(&b[4..8]), word(&b[8..])]).collect()
}

/// What V8 printed: of each function `Bytecode length: 21`, later `Handler Table (size = 16)` and lines `(   3,   7)  ->     9 (prediction=1, ..`.
fn printed(print: &str) -> Vec<Held> {
    let mut out: Vec<Held> = Vec::new();
    let mut wanted = 0;
    let number = |text: &str| text.trim().parse::<u32>().unwrap();
    for line in print.lines() {
        if let Some(length) = line.strip_prefix("Bytecode length: ") {
            out.push((length.parse().unwrap(), Vec::new(), 0));
        } else if let Some(size) = line.strip_prefix("Handler Table (size = ") {
            wanted = size.trim_end_matches(')').parse::<usize>().unwrap() / 16;
        } else if let Some((range, rest)) = line.split_once(")  -> ").filter(|_| wanted > 0) {
            let (start, end) = range.trim_start_matches([' ', '(']).split_once(',').unwrap();
            let record = [start, end, rest.split(" (").next().unwrap()].map(number);
            let (_, records, empty) = out.last_mut().unwrap();
            match record[0] == record[1] {
                true => *empty += 1,
                false => records.push(record),
            }
            wanted -= 1;
        }
    }
    assert_eq!(wanted, 0);
    out.sort();
    out
}

/// What is exported of a cache.
fn exported(data: &[u8]) -> Vec<Held> {
    let all = cache::read(data).ok().unwrap().all;
    assert_eq!(all.refused, []);
    let mut out: Vec<Held> = Vec::new();
    for function in &all.functions {
        // The payload begins with the length, a small integer.
        let length = u32::from_le_bytes(function.store[2][4..8].try_into().unwrap()) as usize;
        let Handlers { records, empty } = &function.handlers;
        out.push((length, self::records(records), *empty));
    }
    out.sort();
    out
}

#[test]
fn as_v8_printed_them() {
    for (data, print) in [NODE_18, NODE_20] {
        let held = exported(data);
        assert_eq!(held, printed(print));
        let records: usize = held.iter().map(|(_, records, _)| records.len()).sum();
        let empty: usize = held.iter().map(|(.., empty)| empty).sum();
        assert_eq!((held.len(), records, empty), (18, 32, 1));
        // An offset of two bytes.
        assert!(held.iter().any(|(_, records, _)| records.contains(&[850, 890, 892])));
    }
}

/// The node at hand, on these files and the oracle's own, where its V8 has a table.
#[test]
fn as_the_node_at_hand_prints_them() {
    let folder = folder("printed");
    let mut files = vec![root().join("export/tests/data/handlers.js")];
    for entry in std::fs::read_dir(root().join("oracle/caches")).unwrap() {
        files.extend(Some(entry.unwrap().path()).filter(|p| p.extension() == Some("js".as_ref())));
    }
    let mut node = Command::new("node");
    node.args(["--print-bytecode", "--no-flush-bytecode"]).arg(root().join("export/make.js"));
    let Ok(said) = node.arg("--mark").arg(&folder).args(&files).output() else {
        return eprintln!("no node: its handler tables are not compared");
    };
    let print = String::from_utf8(said.stdout).unwrap();
    let (_, print) = print.split_once("files begin\n").unwrap();
    let (print, _) = print.split_once("files end\n").unwrap();
    let mut held = Vec::new();
    for entry in std::fs::read_dir(&folder).unwrap() {
        let cache = std::fs::read_dir(entry.unwrap().path()).unwrap().next().unwrap().unwrap();
        let data = std::fs::read(cache.path()).unwrap();
        if let Err(message) = cache::checked(&data) {
            return eprintln!("{message}: its handler tables are not compared");
        }
        held.extend(exported(&data));
    }
    held.sort();
    assert_eq!(held, printed(print));
    assert!(held.iter().map(|(_, records, _)| records.len()).sum::<usize>() > 60);
}

/// The files, and the line that tells of entries that have no record.
#[test]
fn files_and_messages() {
    let folder = folder("handler files");
    let (path, out) = (folder.join("app.jsc"), folder.join("out"));
    std::fs::write(&path, NODE_20.0).unwrap();
    let said = Command::new(env!("CARGO_BIN_EXE_export_cache")).arg(&path).arg(&out).output();
    let said = said.unwrap();
    assert_eq!((said.status.code(), said.stderr.as_slice()), (Some(0), &b""[..]));
    let line = String::from_utf8(said.stdout).unwrap();
    let counts = "18 functions, 32 handlers, 1 empty handler entries left out; V8 11.3.244.8";
    assert!(line.contains(counts), "{line}");
    let of = |name: &str| {
        let mut entries = std::fs::read_dir(&out).unwrap().map(|e| e.unwrap().path());
        let folder = entries.find(|path| path.to_string_lossy().ends_with(name)).unwrap();
        records(&std::fs::read(folder.join(export::HANDLERS_FILE)).unwrap())
    };
    assert_eq!(of("-both"), [[3, 69, 69], [6, 19, 19]]);
    // No table, and one whose only entry is empty: the files are there and have no bytes.
    assert_eq!((of("-none"), of("-emptied")), (vec![], vec![]));
}

/// A parsed cache, to be changed, with the BytecodeArray of `both` and its handler table, whose data begin at a place of the payload.
struct Changed<'a> {
    table: VersionTable,
    cache: CodeCache<'a>,
    function: usize,
    array: usize,
}

/// What is said of the function `both` of node 20, first with its payload changed behind the start of its handler table's run (length at 0, entries
/// at 8), then with its structures changed.
fn said(
    bytes: impl FnOnce(&mut [u8]),
    change: impl FnOnce(&mut Changed),
) -> Result<Vec<Record>, String> {
    let (header, found) = cache::checked(NODE_20.0).ok().unwrap();
    let mut payload = header.payload(NODE_20.0).to_vec();
    let (function, array, at) = {
        let cache = serializer::parse(&payload, &found.table).unwrap();
        both(&cache, &found.table)
    };
    bytes(&mut payload[at..]);
    let cache = serializer::parse(&payload, &found.table).unwrap();
    let mut changed = Changed { table: found.table, cache, function, array };
    change(&mut changed);
    let told = export::handlers(&changed.cache, &changed.table, function);
    // The whole function is written or left out with that reason.
    let all = export::all(&changed.cache, &changed.table, |_| String::new()).unwrap();
    assert_eq!(all.refused.len(), told.is_err() as usize);
    assert_eq!(all.refused.first().map(|(_, why)| why), told.as_ref().err());
    told.map(|handlers| records(&handlers.records)).map_err(|why| unnumbered(&why))
}

/// A message without the object's number, which another cache has otherwise.
fn unnumbered(message: &str) -> String {
    match message.split_once("object ") {
        Some((before, rest)) => {
            let rest = rest.trim_start_matches(|c: char| c.is_ascii_digit());
            format!("{before}object{rest}")
        }
        None => message.into(),
    }
}

/// The function with two entries, the first from 3 to 69: its BytecodeArray, its handler table, and where the payload has that one's run.
fn both(cache: &CodeCache, table: &VersionTable) -> (usize, usize, usize) {
    for (_, function) in export::functions(cache, table) {
        let held = export::handlers(cache, table, function).unwrap();
        if records(&held.records) == [[3, 69, 69], [6, 19, 19]] {
            let Some(SlotValue::Ref(Ref::Object(array))) = cache.slot_at(function, 3) else {
                panic!("no handler table");
            };
            let Some(SlotValue::Raw(run)) = cache.slot_at(*array, 1) else { panic!("no run") };
            return (function, *array, run.off);
        }
    }
    panic!("no such function")
}

/// The message for a payload changed so.
fn of_bytes(change: impl FnOnce(&mut [u8])) -> String {
    said(change, |_| {}).unwrap_err()
}

/// The message for structures changed so.
fn of_change(change: impl FnOnce(&mut Changed)) -> String {
    said(|_| {}, change).unwrap_err()
}

fn set(bytes: &mut [u8], entry: usize, word: usize, value: u32) {
    bytes[8 + 16 * entry + 4 * word..][..4].copy_from_slice(&value.to_le_bytes());
}

#[test]
fn entries() {
    assert_eq!(said(|_| {}, |_| {}), Ok(vec![[3, 69, 69], [6, 19, 19]]));
    // The handler is not tested: the walk check judges it as a jump's target. What lies below it and the data are no part of it.
    let odd = |b: &mut [u8]| {
        set(b, 0, 2, u32::MAX);
        set(b, 1, 2, 19 << 3 | 7);
        set(b, 1, 3, u32::MAX);
    };
    assert_eq!(said(odd, |_| {}), Ok(vec![[3, 69, u32::MAX >> 3], [6, 19, 19]]));
    let code = of_bytes(|b| set(b, 0, 1, 1_000));
    let code = code.strip_prefix("handler 0 is from 3 to 1000, in ").unwrap();
    let code: u32 = code.strip_suffix(" bytes of code").unwrap().parse().unwrap();
    assert_eq!(said(|b| set(b, 0, 1, code), |_| {}), Ok(vec![[3, code, 69], [6, 19, 19]]));
    let beyond = format!("handler 0 is from 3 to {}, in {code} bytes of code", code + 1);
    assert_eq!(of_bytes(|b| set(b, 0, 1, code + 1)), beyond);
    let turned = format!("handler 1 is from 20 to 19, in {code} bytes of code");
    assert_eq!(of_bytes(|b| set(b, 1, 0, 20)), turned);
    // Below zero.
    let negative = format!("handler 1 is from 4294967295 to 19, in {code} bytes of code");
    assert_eq!(of_bytes(|b| set(b, 1, 0, u32::MAX)), negative);
    // Empty within the code has no record; beyond it, it is damage too.
    assert_eq!(said(|b| set(b, 1, 0, 19), |_| {}), Ok(vec![[3, 69, 69]]));
    let empty = format!("handler 1 is from 9999 to 9999, in {code} bytes of code");
    assert_eq!(of_bytes(|b| [0, 1].into_iter().for_each(|k| set(b, 1, k, 9_999))), empty);
}

#[test]
fn lengths() {
    let of_length = |length: i32| said(|b| b[4..8].copy_from_slice(&length.to_le_bytes()), |_| {});
    assert_eq!(of_length(32), Ok(vec![[3, 69, 69], [6, 19, 19]]));
    assert_eq!(of_length(16), Ok(vec![[3, 69, 69]]));
    assert_eq!(of_length(0), Ok(vec![]));
    for length in [1, 12, 31] {
        let message = format!("the handler table, object, has {length} bytes: no whole entries");
        assert_eq!(of_length(length), Err(message));
    }
    let message = "the handler table, object, has no run of its length";
    for length in [33, 48, i32::MAX, -1, i32::MIN] {
        assert_eq!(of_length(length), Err(message.into()));
    }
    // No small integer.
    assert_eq!(of_bytes(|b| b[0] = 1), message);
}

#[test]
fn structures() {
    let empty = |c: &Changed| c.table.roots.iter().position(|r| r == "EmptyByteArray").unwrap();
    let value = |c: &mut Changed, value: SlotValue| {
        let slots = &mut c.cache.objects[c.function].slots;
        slots.iter_mut().find(|slot| slot.index == 3).unwrap().value = value;
    };
    // The root of the empty table, alone or repeated.
    let root = |c: &mut Changed| value(c, SlotValue::Ref(Ref::Root(empty(c))));
    assert_eq!(said(|_| {}, root), Ok(vec![]));
    let repeat = |c: &mut Changed| {
        let root = SlotValue::Ref(Ref::Root(empty(c)));
        value(c, SlotValue::Repeat(2, Box::new(root)));
    };
    assert_eq!(said(|_| {}, repeat), Ok(vec![]));
    assert_eq!(
        of_change(|c| value(c, SlotValue::Ref(Ref::Root(0)))),
        "the handler table is root 0 (FreeSpaceMap), no empty ByteArray"
    );
    assert_eq!(
        of_change(|c| value(c, SlotValue::Ref(Ref::Root(70_000)))),
        "the handler table is root 70000 (without a name), no empty ByteArray"
    );
    for odd in [
        SlotValue::ClearedWeak,
        SlotValue::Ref(Ref::Attached(0)),
        SlotValue::Ref(Ref::Object(1 << 40)),
    ] {
        let message = of_change(|c| value(c, odd));
        assert_eq!(message, "slot 3 of object holds no handler table");
    }
    let other = "the handler table, object, is no ByteArray";
    assert_eq!(of_change(|c| value(c, SlotValue::Ref(Ref::Object(c.function)))), other);
    assert_eq!(of_change(|c| c.cache.objects[c.array].ty = Ty::Unknown), other);
    assert_eq!(
        of_change(|c| c.cache.objects[c.array].slots.truncate(1)),
        "the handler table, object, has no run behind its map"
    );
    for (off, len) in [(usize::MAX, 40), (1 << 40, 40), (0, usize::MAX), (0, 7), (0, 0)] {
        let run = SlotValue::Raw(Raw { off, len, advances: true });
        let message = of_change(|c| c.cache.objects[c.array].slots[1].value = run);
        assert_eq!(message, "the handler table, object, has no run of its length");
    }
}

/// Code that no run holds has no bytes: every entry lies beyond it.
#[test]
fn code_that_is_not_there() {
    let message = of_change(|c| c.cache.objects[c.function].slots.retain(|slot| slot.index < 5));
    assert_eq!(message, "handler 0 is from 3 to 69, in 0 bytes of code");
}

/// The form of an entry is known of two versions; where another one's table is the root of the empty one, there is nothing to know.
#[test]
fn other_versions() {
    for v8 in ["10.2.154.26", "11.3.244.8"] {
        assert!(said(|_| {}, |c| c.table.v8 = v8.into()).is_ok());
    }
    for v8 in ["", "9.4.146.24", "10.20.1.1", "11.4.183.2", "12.4.254.21", "13.6.233.10"] {
        let (_, found) = cache::checked(NODE_20.0).ok().unwrap();
        let payload = &NODE_20.0[24..];
        let mut table = found.table;
        let parsed = serializer::parse(payload, &table).unwrap();
        table.v8 = v8.into();
        let all = export::all(&parsed, &table, |_| String::new()).unwrap();
        assert_eq!((all.functions.len(), all.refused.len()), (5, 13));
        let message = format!("how V8 {v8} writes a handler table is not known here");
        assert!(all.refused.iter().all(|(_, why)| *why == message));
        assert_eq!(all.handlers(), (0, 0));
    }
}

/// As many records as the walk check takes, and one more; an empty entry does not count.
#[test]
fn how_many() {
    let of = |entries: usize, start: u32| {
        let entry = |start: u32| [start, 19, 19 << 3, 0].into_iter().flat_map(u32::to_le_bytes);
        let entries = (0..entries).flat_map(|_| entry(6)).chain(entry(start)).collect::<Vec<u8>>();
        let (header, found) = cache::checked(NODE_20.0).ok().unwrap();
        let mut payload = header.payload(NODE_20.0).to_vec();
        let off = payload.len();
        payload.extend(((entries.len() as u64) << 32).to_le_bytes());
        payload.extend(&entries);
        let parsed = serializer::parse(header.payload(NODE_20.0), &found.table).unwrap();
        let (function, array, _) = both(&parsed, &found.table);
        let mut objects = parsed.objects.clone();
        let run = Raw { off, len: payload.len() - off, advances: true };
        objects[array].slots[1].value = SlotValue::Raw(run);
        let ts = found.table.tagged_size as usize;
        let cache = CodeCache::open_new(&payload, ts, objects);
        export::handlers(&cache, &found.table, function).map(|h| (h.count(), h.empty))
    };
    assert_eq!(of(4_095, 6), Ok((4_096, 0)));
    assert_eq!(of(4_096, 19), Ok((4_096, 1)));
    assert_eq!(of(4_096, 6), Err("4097 handlers, more than 4096".into()));
}
