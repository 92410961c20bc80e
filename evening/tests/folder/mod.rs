//! Folders of functions over document 01's sample table, and calls of the program.

#![allow(dead_code)]

use std::ffi::{OsStr, OsString};
use std::os::unix::ffi::OsStrExt;
use std::path::{Path, PathBuf};
use std::process::{Command, Output, Stdio};

pub const TABLE: [&str; 5] =
    ["opcodes.bin", "types.bin", "runtime.bin", "intrinsic.bin", "layout.bin"];
pub const STORE: [&str; 3] = ["objects.bin", "slots.bin", "payload.bin"];
pub const HANDLERS: &str = "handlers.bin";
/// The sample's function, and what the gate has jscd_list print of it.
pub const SAMPLE: &[u8] = &[0x03, 0x05, 0x04, 0xfa, 0x0b];

pub fn crates(path: &str) -> PathBuf {
    Path::new(env!("CARGO_MANIFEST_DIR")).join("../crates").join(path)
}

pub fn sample_listing() -> Vec<u8> {
    std::fs::read(crates("jscd_list/stdout")).unwrap()
}

/// An empty folder of a test's own.
pub fn folder(name: &str) -> PathBuf {
    let folder = Path::new(env!("CARGO_TARGET_TMPDIR")).join(name);
    let _ = std::fs::remove_dir_all(&folder);
    std::fs::create_dir_all(&folder).unwrap();
    folder
}

/// A folder `in` with the sample's table, in an empty folder of a test's own.
pub fn input(name: &str) -> PathBuf {
    let input = folder(name).join("in");
    std::fs::create_dir_all(input.join("table")).unwrap();
    for file in TABLE {
        std::fs::copy(crates("jscd_list/data").join(file), input.join("table").join(file)).unwrap();
    }
    input
}

/// The sample's store with this code.
pub fn store(code: &[u8]) -> [Vec<u8>; 3] {
    let [mut objects, mut slots, payload] =
        STORE.map(|file| std::fs::read(crates("jscd_list/data").join(file)).unwrap());
    let mut payload = payload[..payload.len() - SAMPLE.len()].to_vec();
    payload[4..8].copy_from_slice(&(code.len() as u32).to_le_bytes());
    payload.extend(code);
    slots[12..16].copy_from_slice(&(payload.len() as u32).to_le_bytes());
    objects[12..16].copy_from_slice(&(payload.len() as u32 + 8).to_le_bytes());
    [objects, slots, payload]
}

/// A function of this code in a folder with any name. It has no handlers.
pub fn put(input: &Path, name: impl AsRef<OsStr>, code: &[u8]) -> PathBuf {
    put_with(input, name, code, &[])
}

/// A function with handlers: start, end, handler offset.
pub fn put_with(
    input: &Path,
    name: impl AsRef<OsStr>,
    code: &[u8],
    handlers: &[[u32; 3]],
) -> PathBuf {
    let folder = input.join(name.as_ref());
    put_files(&folder, &STORE, &store(code));
    let handlers: Vec<u8> = handlers.iter().flatten().flat_map(|n| n.to_le_bytes()).collect();
    std::fs::write(folder.join(HANDLERS), handlers).unwrap();
    folder
}

pub fn put_files(folder: &Path, names: &[&str], bodies: &[impl AsRef<[u8]>]) {
    std::fs::create_dir_all(folder).unwrap();
    for (name, body) in names.iter().zip(bodies) {
        std::fs::write(folder.join(name), body).unwrap();
    }
}

pub fn batch() -> Command {
    let mut command = Command::new(env!("CARGO_BIN_EXE_batch"));
    command.stdin(Stdio::null());
    command
}

/// Status, standard output and standard error.
pub fn call<A: AsRef<OsStr>>(args: impl IntoIterator<Item = A>) -> (i32, String, String) {
    said(batch().args(args).output().unwrap())
}

pub fn said(output: Output) -> (i32, String, String) {
    let text = |bytes| String::from_utf8(bytes).unwrap();
    (output.status.code().unwrap(), text(output.stdout), text(output.stderr))
}

/// `in` and, beside it, `out`.
pub fn both(input: &Path) -> [PathBuf; 2] {
    [input.to_path_buf(), input.with_file_name("out")]
}

pub fn names(folder: &Path) -> Vec<OsString> {
    let entries = std::fs::read_dir(folder).unwrap();
    let mut names: Vec<OsString> = entries.map(|entry| entry.unwrap().file_name()).collect();
    names.sort();
    names
}

pub fn bytes(name: &[u8]) -> OsString {
    OsStr::from_bytes(name).to_os_string()
}
