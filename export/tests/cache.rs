//! Code caches from their first byte on: what is refused and why, what is written, and that nothing is written of a cache that is refused.
//!
//! data/node18.jsc and data/node20.jsc are caches of data/small.js, made by make.js with nodes of these versions.

use jscd_export::cache::{self, checksum};
use jscd_export::version;
use oracle::ask::{ask, Call, LISTING, WALK};
use oracle::checks;
use oracle::port::TABLE;
use oracle::records::{Files, LAYOUT, NAMES, OPCODES};
use std::path::{Path, PathBuf};
use std::process::{Command, Output};

const NODE_18: &[u8] = include_bytes!("data/node18.jsc");
const NODE_20: &[u8] = include_bytes!("data/node20.jsc");

fn root() -> PathBuf {
    Path::new(env!("CARGO_MANIFEST_DIR")).join("..")
}

/// A fresh folder below the build's own.
fn folder(name: &str) -> PathBuf {
    let folder = Path::new(env!("CARGO_TARGET_TMPDIR")).join(name);
    let _ = std::fs::remove_dir_all(&folder);
    std::fs::create_dir_all(&folder).unwrap();
    folder
}

/// The program on these caches, which it finds as 0.jsc, 1.jsc .. in the folder; it writes to `out` there.
fn run(folder: &Path, caches: &[&[u8]]) -> Output {
    let mut command = Command::new(env!("CARGO_BIN_EXE_export_cache"));
    for (k, cache) in caches.iter().enumerate() {
        let path = folder.join(format!("{k}.jsc"));
        std::fs::write(&path, cache).unwrap();
        command.arg(path);
    }
    command.arg(folder.join("out")).output().unwrap()
}

fn text(bytes: &[u8]) -> String {
    String::from_utf8(bytes.to_vec()).unwrap()
}

/// The cache of node 20 with a word of its header changed.
fn with_word(at: usize, word: u32) -> Vec<u8> {
    let mut data = NODE_20.to_vec();
    data[at..at + 4].copy_from_slice(&word.to_le_bytes());
    data
}

fn message(data: &[u8]) -> String {
    cache::read(data).err().unwrap()
}

#[test]
fn headers() {
    assert_eq!(message(&[]), "0 bytes are no header");
    assert_eq!(message(&NODE_20[..7]), "7 bytes are no header");
    let magic = message(&with_word(0, 0xc0df_05cc));
    assert!(magic.starts_with("magic 0xc0df05cc is not 0xc0de...."), "{magic}");
    let brotli = message(b"\x1b\x0f\x00\x00 a compressed cache");
    assert!(brotli.contains("a compressed one, which must be unpacked first"), "{brotli}");
    let older = message(&with_word(4, version::hash([9, 4, 146, 24])));
    assert!(older.starts_with("V8 9.4.146.24 (version hash 0x"), "{older}");
    assert!(older.contains("no table for that version; there is one for V8 10.2.154.26 (node 18)"));
    let none = message(&with_word(4, 1));
    assert!(none.starts_with("version hash 0x00000001, of no V8 from 5.0 to 15.9"), "{none}");
    let short = message(&NODE_20[..23]);
    assert_eq!(short, "file too small for a 24-byte code cache header: 23 bytes");
}

#[test]
fn payloads() {
    let payload = NODE_20.len() - 24;
    let follow =
        |more: usize| format!("the header says {payload} bytes of payload, and {more} follow it");
    assert_eq!(message(&NODE_20[..NODE_20.len() - 1]), follow(payload - 1));
    assert_eq!(message(&[NODE_20, &[0]].concat()), follow(payload + 1));
    assert_eq!(message(&NODE_20[..24]), follow(0));
    let mut data = NODE_20.to_vec();
    data[1_000] ^= 1;
    let sum = checksum(&data[24..]);
    let said = u32::from_le_bytes(NODE_20[20..24].try_into().unwrap());
    assert_eq!(
        message(&data),
        format!("the header says checksum {said:#010x}, and the payload has {sum:#010x}")
    );
    // A cache without a checksum, as node makes them: the payload is tested by its form alone.
    assert!(cache::read(&with_word(20, 0)).is_ok());
    let mut data = with_word(20, 0);
    data[24] = 0x0b;
    let damaged = message(&data);
    assert_eq!(
        damaged,
        "the payload is damaged, or of a V8 11.3.244.8 that the table is not for: \
         payload does not start with kNewObject (got 0x0b)"
    );
}

/// Adler-32 of the published example is 0x11e60398 from 1 on; from 0 on the low half is 1 less, the high half its 9 bytes less.
#[test]
fn checksums() {
    assert_eq!(checksum(b"Wikipedia"), 0x11e6_0398 - 0x0009_0001);
    assert_eq!(checksum(&[]), 0);
}

/// What the program says of a cache that is refused: one line, status 2, and no file.
#[test]
fn a_refused_cache_leaves_nothing() {
    let folder = folder("refused");
    let cut = &NODE_20[..900];
    for caches in [&[cut][..], &[NODE_20, cut], &[NODE_20, NODE_18]] {
        let said = run(&folder, caches);
        assert_eq!(said.status.code(), Some(2));
        assert_eq!(said.stdout, b"");
        let line = text(&said.stderr);
        let last = folder.join(format!("{}.jsc", caches.len() - 1));
        assert!(line.starts_with(&format!("export/cache: {}: ", last.display())), "{line}");
        assert_eq!(line.lines().count(), 1);
        assert!(!folder.join("out").exists());
    }
    let said = Command::new(env!("CARGO_BIN_EXE_export_cache")).arg("one").output().unwrap();
    assert_eq!(said.status.code(), Some(2));
    assert!(text(&said.stderr).starts_with("export/cache: usage: export/cache CACHE.jsc.. OUT"));
    let said = run(&folder, &[NODE_20]);
    assert_eq!(said.status.code(), Some(0), "{}", text(&said.stderr));
    let said = run(&folder, &[NODE_20]);
    assert_eq!(said.status.code(), Some(2));
    assert!(text(&said.stderr).contains("is there already and not empty"));
}

#[test]
fn what_is_written() {
    let folder = folder("written");
    let said = run(&folder, &[NODE_20]);
    assert_eq!(said.status.code(), Some(0), "{}", text(&said.stderr));
    assert_eq!(said.stderr, b"");
    let line = text(&said.stdout);
    let flags = u32::from_le_bytes(NODE_20[12..16].try_into().unwrap());
    let rest = format!("0.jsc: 6 functions, 2 handlers; V8 11.3.244.8 (node 20), flags {flags:#010x}, source of 517 characters\n");
    assert!(line.ends_with(&rest), "{line}");
    let mut names: Vec<String> = std::fs::read_dir(folder.join("out"))
        .unwrap()
        .map(|entry| entry.unwrap().file_name().into_string().unwrap())
        .collect();
    names.sort();
    assert_eq!(
        names,
        [
            "000000",
            "000003",
            "000006-guarded",
            "000018-counted",
            "000025-worded",
            "000036-nothing",
            "table"
        ]
    );
    // Several caches: their names come before, with a number where two have the same.
    let said = run(&self::folder("several"), &[NODE_18, NODE_18]);
    assert_eq!(said.status.code(), Some(0), "{}", text(&said.stderr));
}

/// The files of each function of a cache, with the table's.
fn functions(data: &[u8]) -> Vec<(String, Files)> {
    let all = cache::read(data).ok().unwrap().all;
    let with_table = |store: &[Vec<u8>; 3]| {
        let mut files = Files::default();
        for (body, file) in files.body.iter_mut().zip(all.table.iter().chain(store)) {
            *body = file.clone();
        }
        files
    };
    all.functions.iter().map(|f| (f.folder.clone(), with_table(&f.store))).collect()
}

/// What is exported passes the checks, and lists and walks; the listing program says what the Rust says.
#[test]
fn exported_functions() {
    let program = root().join("target/bin/jscd_list");
    for data in [NODE_18, NODE_20] {
        let mut lines = 0;
        for (name, files) in functions(data) {
            assert_eq!(checks::table(&files, TABLE), Ok(()));
            assert_eq!(checks::store(&files, checks::PROGRAM_FILE), Ok(()));
            let said = ask(&files, &[], &Call::new(LISTING, &[])).unwrap().to_string();
            let walked = ask(&files, &[], &Call::new(WALK, &[65_536])).unwrap().to_string();
            assert!(walked.starts_with("closed"), "{name}: {walked}");
            let folder = folder("function");
            files.write(&folder).unwrap();
            let listed = Command::new(&program).current_dir(&folder).output().unwrap();
            assert_eq!(text(&listed.stdout), said, "{name}");
            lines += said.lines().count() - 6;
        }
        // So many V8 printed.
        assert_eq!(lines, 121);
    }
}

/// The table files are those that were made from V8's macros by another hand, where they are beside the repository. Opcode records have 64 bytes there: the
/// first 50 are compared (the others in tests/flows.rs).
#[test]
fn table_files() {
    for (data, v8) in [(NODE_18, "10.2"), (NODE_20, "11.3")] {
        let folder = root().join("../shared/v8-listings/tables").join(v8);
        if !folder.is_dir() {
            return eprintln!("no {}: the table files are not compared", folder.display());
        }
        for (k, body) in cache::read(data).ok().unwrap().all.table.iter().enumerate() {
            let other = std::fs::read(folder.join(NAMES[k])).unwrap();
            let same = match k {
                OPCODES => first_50(body, 72) == first_50(&other, 64),
                _ => k <= LAYOUT && *body == other,
            };
            assert!(same, "{v8} {k}");
        }
    }
}

/// The first 50 bytes of each opcode record; there is nothing behind the last one.
fn first_50(opcodes: &[u8], size: usize) -> Vec<&[u8]> {
    assert_eq!(opcodes.len() % size, 0);
    opcodes.chunks_exact(size).map(|record| &record[..50]).collect()
}

/// A number as V8's serializer writes it.
fn number(value: usize) -> Vec<u8> {
    let bytes = [1, 2, 3, 4].into_iter().find(|n| value < 1 << (8 * n - 2)).unwrap();
    ((value << 2 | (bytes - 1)) as u32).to_le_bytes()[..bytes].to_vec()
}

/// A cache made by hand: a SharedFunctionInfo whose BytecodeArray has so many bytes of code, or that has none, and one without beside it.
fn made_up(code: Option<usize>) -> Vec<u8> {
    let found = version::table_of(version::hash([11, 3, 244, 8])).ok().unwrap();
    let root = |name: &str| {
        let at = found.table.roots.iter().position(|root| root == name).unwrap();
        [vec![6], number(at)].concat()
    };
    let undefined = root("UndefinedValue");
    // Pool, handler table, source positions.
    let fields = [undefined.clone(), root("EmptyByteArray"), undefined.clone()].concat();
    let bytecode = |code: usize| {
        let size = (54 + code).next_multiple_of(8);
        let head = [vec![0], number(size / 8), root("BytecodeArrayMap"), vec![0x60]].concat();
        let rest = [vec![16], number(size / 8 - 5), vec![0; size - 40]].concat();
        [head, (code << 32).to_le_bytes().to_vec(), fields.clone(), rest].concat()
    };
    let shared = |data: Vec<u8>, last: Vec<u8>| {
        let head = [vec![0], number(7), root("SharedFunctionInfoMap"), data].concat();
        [head, undefined.repeat(2), last, vec![0x61], vec![0; 16]].concat()
    };
    let beside = shared(undefined.clone(), undefined.clone());
    let data = code.map_or(undefined.clone(), bytecode);
    let out = [shared(data, beside), vec![11]].concat();
    let mut header = NODE_20[..24].to_vec();
    header[16..20].copy_from_slice(&(out.len() as u32).to_le_bytes());
    header[20..].copy_from_slice(&checksum(&out).to_le_bytes());
    [header, out].concat()
}

/// What V8 had not compiled is counted; where that is all, there is nothing to write.
#[test]
fn functions_without_bytecode() {
    assert_eq!(message(&made_up(None)), "no function of it has bytecode");
    let folder = folder("without");
    let said = run(&folder, &[&made_up(Some(100))]);
    assert_eq!((text(&said.stderr).as_str(), said.status.code()), ("", Some(0)));
    assert!(text(&said.stdout).contains("0.jsc: 1 functions, 1 not compiled; V8 11.3.244.8"));
    assert!(folder.join("out/000000/objects.bin").exists());
    assert_eq!(std::fs::read(folder.join("out/000000/handlers.bin")).unwrap(), b"");
}

/// A function that the records cannot hold is left out and told; the others are written.
#[test]
fn a_function_left_out() {
    let folder = folder("left");
    let said = run(&folder, &[&made_up(Some(65_536)), NODE_20]);
    assert_eq!(said.status.code(), Some(1));
    let told = text(&said.stderr);
    let rest = "0.jsc: 0-000000 left out: payload.bin would have 65560 bytes, more than 65536\n";
    assert!(told.ends_with(rest), "{told}");
    assert!(text(&said.stdout)
        .contains("0.jsc: 0 functions, 1 left out, 1 not compiled; V8 11.3.244.8"));
    assert!(!folder.join("out/0-000000").exists());
    assert!(folder.join("out/1-000006-guarded/payload.bin").exists());
}
