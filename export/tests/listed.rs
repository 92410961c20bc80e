//! Stores exported, listed by `jscd_list`, and compared with the Rust's own listing.
//!
//! The stores come from record files that the oracle reads into the Rust's structures, with the values that records lack put in where the
//! Rust reads them alike.

use jscd_export::export;
use jscd_export::serializer::{CodeCache, Ref, Slot, SlotValue};
use oracle::ask::{ask, Call, LISTING};
use oracle::port::{Port, STORE, TABLE};
use oracle::random::Random;
use oracle::records::*;
use oracle::{checks, codes, decode, real, sample, stores, switches};
use std::path::{Path, PathBuf};
use std::process::Command;

fn root() -> PathBuf {
    Path::new(env!("CARGO_MANIFEST_DIR")).join("..")
}

/// What the program prints for a table and a function that were exported.
fn listed(folder: &Path, function: &str) -> String {
    let program = root().join("target/bin/jscd_list");
    assert!(program.exists(), "no {}: run `./programs jscd_list` first", program.display());
    let table = export::TABLE_FILES.iter().map(|name| folder.join("table").join(name));
    let store = export::STORE_FILES.iter().map(|name| folder.join(function).join(name));
    let out = Command::new(program).args(table.chain(store)).output().unwrap();
    assert!(out.stderr.is_empty(), "{}", String::from_utf8_lossy(&out.stderr));
    String::from_utf8(out.stdout).unwrap()
}

/// A fresh folder below the build's own.
fn folder(name: &str) -> PathBuf {
    let folder = Path::new(env!("CARGO_TARGET_TMPDIR")).join(name);
    let _ = std::fs::remove_dir_all(&folder);
    folder
}

/// The Rust's listing of the function that the oracle adds an SharedFunctionInfo for, with the entries of switches under a prefix.
fn rust_listing(port: &Port) -> String {
    switches::listing(port, &decode::all(port, port.code(0)).unwrap()).unwrap()
}

/// The Rust's own listing, also by a table that leaves the layout to the fallback.
fn own_listing(port: &Port) -> String {
    let mut whole = String::new();
    port.disassembler().open_render_sfi(port.shared_function_info(), "", &mut whole).unwrap();
    let lines = whole.lines().skip(1).take_while(|l| !l.starts_with("Constant pool"));
    lines.map(|l| format!("{l}\n")).collect()
}

/// What the records of the export say about the checks of document 01.
fn exported_files(folder: &Path, function: &str) -> Files {
    let mut files = Files::default();
    for (k, name) in NAMES.iter().enumerate() {
        let of = if k <= LAYOUT { "table" } else { function };
        files.body[k] = std::fs::read(folder.join(of).join(name)).unwrap();
    }
    files
}

/// Exports the store of a port, lists it, and compares with what the oracle says about the record files.
fn same(files: &Files, name: &str, change: impl FnOnce(&mut CodeCache)) -> String {
    let said = ask(files, &[], &Call::new(LISTING, &[])).unwrap().to_string();
    let said = if said.starts_with("refused") { said + "\n" } else { said };
    let mut port = Port::new(files, TABLE | STORE).unwrap();
    change(&mut port.cache);
    if !said.starts_with("refused") {
        assert_eq!(rust_listing(&port), said, "the change is read");
    }
    let folder = folder(name);
    write(&port, &folder);
    let exported = exported_files(&folder, FUNCTION);
    assert_eq!(checks::table(&exported, TABLE), Ok(()));
    assert_eq!(checks::store(&exported, checks::PROGRAM_FILE), Ok(()));
    assert_eq!(listed(&folder, FUNCTION), said);
    said
}

/// The folder of a function that `write` wrote.
const FUNCTION: &str = "f";

/// The table's files and those of object 0. Its handlers are left out: what stands in the place of their table may be anything here.
fn write(port: &Port, folder: &Path) {
    let table = export::table(&port.table).unwrap();
    let store = export::function(&port.cache, &port.table, 0).unwrap();
    put(&folder.join("table"), &export::TABLE_FILES, &table);
    put(&folder.join(FUNCTION), &export::STORE_FILES, &store);
}

fn put(folder: &Path, names: &[&str], bodies: &[Vec<u8>]) {
    std::fs::create_dir_all(folder).unwrap();
    for (name, body) in names.iter().zip(bodies) {
        std::fs::write(folder.join(name), body).unwrap();
    }
}

#[test]
fn the_sample() {
    assert_eq!(same(&sample::sample(), "sample", |_| {}), sample::LISTING);
}

#[test]
fn real_functions() {
    let folder = root().join("../shared/v8-listings");
    if !folder.is_dir() {
        return eprintln!("no {}: real functions are not tested", folder.display());
    }
    let functions = real::functions(&folder).unwrap();
    for function in &functions {
        same(&function.files, "real", |_| {});
    }
    assert_eq!(functions.len(), 70);
}

/// Object 0 of a random store as a function, with the sample's table: most headers are not found or odd.
fn random_store(r: &mut Random) -> Files {
    let (ts, unit) = (*r.pick(&[4, 8]), *r.pick(&[0, 4, 8]));
    let mut files = stores::store(r, ts, unit);
    files.body[OBJECTS][0] = 1;
    let table = sample::table();
    for file in [OPCODES, TYPES, RUNTIME, INTRINSIC] {
        files.body[file] = table.body[file].clone();
    }
    files
}

/// A function over a random table, with a pool or none.
fn random_function(r: &mut Random, tables: &[Files]) -> Files {
    let table = r.pick(tables);
    let code = codes::code(r, table).bytes;
    let pool: Vec<Option<i32>> =
        (0..r.below(5)).map(|_| (!r.once_in(3)).then(|| r.below(9) as i32)).collect();
    let mut files = sample::function(&code, 8 * r.below(4) as i32, &pool);
    for file in [OPCODES, TYPES, RUNTIME, INTRINSIC] {
        files.body[file] = table.body[file].clone();
    }
    // The frame of the table; the rest of the layout goes with the store.
    let frame = table.body[LAYOUT][4 * 13..].to_vec();
    files.body[LAYOUT].truncate(4 * 13);
    files.body[LAYOUT].extend(frame);
    files
}

/// Values that the Rust reads as it reads a cleared weak reference, and a weak pool as a strong one.
fn odd_values(r: &mut Random, cache: &mut CodeCache) {
    let objects = cache.objects.len();
    for object in &mut cache.objects[..objects - 2] {
        for slot in &mut object.slots {
            match &mut slot.value {
                SlotValue::ClearedWeak => slot.value = odd(r, objects),
                SlotValue::Repeat(_, inner) if matches!(**inner, SlotValue::ClearedWeak) => {
                    **inner = match r.below(2) {
                        0 => SlotValue::Repeat(2, Box::new(SlotValue::Ref(Ref::Root(1)))),
                        _ => odd(r, objects),
                    };
                }
                SlotValue::Ref(Ref::Attached(_)) if r.once_in(2) => {
                    slot.value = SlotValue::Ref(Ref::RoRef(3, 4));
                }
                _ => {}
            }
        }
    }
}

fn odd(r: &mut Random, objects: usize) -> SlotValue {
    match r.below(6) {
        0 => SlotValue::WeakRef(Box::new(SlotValue::Ref(Ref::Root(7)))),
        1 => SlotValue::RepeatPrev(3),
        2 => SlotValue::Skip(16),
        3 => SlotValue::StreamBytes(5),
        4 => SlotValue::PendingRef(objects as u32),
        _ => SlotValue::ClearedWeak,
    }
}

#[test]
fn random_stores() {
    let mut r = Random::new(7);
    let mut refused = 0;
    for _ in 0..1_000 {
        let files = random_store(&mut r);
        let mut other = Random::new(r.next());
        let said = same(&files, "store", |cache| odd_values(&mut other, cache));
        refused += said.starts_with("refused") as usize;
    }
    assert!(refused < 500, "{refused} refused");
}

#[test]
fn random_functions() {
    let mut r = Random::new(8);
    let pools = codes::pools(&mut r);
    let tables: Vec<Files> = (0..100).map(|k| codes::table(&mut r, &pools, k)).collect();
    let mut with_lines = 0;
    for _ in 0..1_000 {
        let files = random_function(&mut r, &tables);
        let mut other = Random::new(r.next());
        let said = same(&files, "function", |cache| odd_values(&mut other, cache));
        with_lines += said.contains(" @ ") as usize;
    }
    assert!(with_lines > 400, "{with_lines} with instructions");
}

/// `09 00 02 05 0b` over a pool of 4 and a reference, the pool behind a weak (or protected) pointer.
#[test]
fn a_weak_pool_is_the_pool() {
    let files = sample::function(&[0x09, 0x00, 0x02, 0x05, 0x0b], 8, &[Some(4), None]);
    let said = same(&files, "weak", |cache| {
        let pool = cache.objects[0].slots.iter_mut().find(|s| s.index == 2).unwrap();
        pool.value = SlotValue::WeakRef(Box::new(pool.value.clone()));
    });
    assert!(said.contains("{ 5: @4 }"), "{said}");
}

/// The first element of the pool as a weak reference: it is no small integer, and what lies below it is read.
#[test]
fn a_weak_element_is_passed_over() {
    let files = sample::function(&[0x09, 0x00, 0x02, 0x05, 0x0b], 8, &[Some(4), Some(4)]);
    let mut port = Port::new(&files, TABLE | STORE).unwrap();
    let slots = &mut port.cache.objects[1].slots;
    let first = slots.iter_mut().find(|s| s.index == 2).unwrap();
    first.value = SlotValue::WeakRef(Box::new(SlotValue::Ref(Ref::Root(1))));
    let folder = folder("element");
    write(&port, &folder);
    let said = listed(&folder, FUNCTION);
    assert_eq!(said, rust_listing(&port));
    assert!(said.contains("{ 6: @4 }"), "{said}");
}

/// Without a layout of the BytecodeArray and the frame the Rust takes its own; so do the records.
#[test]
fn fallbacks_are_written_out() {
    let mut files = sample::sample();
    // The fallback has no length field and the sample's other offsets.
    assert_eq!(files.layout(6), ABSENT);
    files.body[RUNTIME] = name_record("Abort");
    for tagged_size in [8, 4] {
        let mut port = Port::new(&files, TABLE | STORE).unwrap();
        if tagged_size == 4 {
            port.table.capture_tagged_size = 8;
            port.table.tagged_size = 4;
            let objects = port.cache.objects.clone();
            port.cache = CodeCache::open_new(&files.body[PAYLOAD], 4, objects);
        }
        port.table.bytecode_array = None;
        port.table.frame = None;
        port.table.parameter_count = None;
        let folder = folder(&format!("fallback{tagged_size}"));
        write(&port, &folder);
        assert_eq!(listed(&folder, FUNCTION), own_listing(&port));
    }
}

/// Functions are found as `render_all` finds them, and have folders of their own.
#[test]
fn every_function_has_a_folder() {
    let files = sample::sample();
    let mut port = Port::new(&files, TABLE | STORE).unwrap();
    // The sample has a run in the place of the handler table.
    let none = Slot { index: 3, value: SlotValue::Ref(Ref::Root(0)) };
    port.cache.objects[0].slots.push(none);
    let again = port.cache.objects[port.shared_function_info()].clone();
    port.cache.objects.push(again);
    let mut without = port.cache.objects[port.shared_function_info()].clone();
    without.slots.clear();
    port.cache.objects.push(without);
    let name = |id| if id == 1 { "a b/../c".to_string() } else { String::new() };
    let folder = folder("several");
    let written = export::write_all(&port.cache, &port.table, name, &folder).unwrap();
    assert_eq!(written.functions, ["000001-abc", "000003"]);
    for function in &written.functions {
        assert_eq!(listed(&folder, function), sample::LISTING);
        assert_eq!(std::fs::read(folder.join(function).join(export::HANDLERS_FILE)).unwrap(), b"");
    }
    assert_eq!((written.refused.len(), written.handlers, written.empty_handlers), (0, 0, 0));
}
