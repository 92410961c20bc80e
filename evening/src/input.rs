//! The folder that is read: `table`, and a folder for each function.

use crate::answer::shown;
use jscd_capi::{is_old, Files, OLD_RECORDS, OPCODE_SIZE};
use std::ffi::OsString;
use std::fs::File;
use std::io::{self, Read};
use std::os::unix::ffi::OsStrExt;
use std::os::unix::fs::OpenOptionsExt;
use std::path::Path;

const TABLE: &str = "table";

/// O_NONBLOCK: opening a pipe does not wait for a writer.
pub const NO_WAIT: i32 = 0o4_000;

/// The files of a table, and the most bytes that document 01 lets each have; its opcode records are of 72 bytes.
const TABLE_FILES: [(&str, usize); 5] = [
    ("opcodes.bin", 256 * OPCODE_SIZE),
    ("types.bin", 64 * 32),
    ("runtime.bin", 1_024 * 64),
    ("intrinsic.bin", 256 * 64),
    ("layout.bin", 80),
];
/// The same for the files of a function.
const STORE_FILES: [(&str, usize); 3] =
    [("objects.bin", 65_536 * 16), ("slots.bin", 1_048_576 * 24), ("payload.bin", 16_777_216)];
/// And for that of a function's exception handlers, which may be missing.
const HANDLERS_FILE: (&str, usize) = ("handlers.bin", 4_096 * 12);

/// The names of the functions, sorted by their bytes: every folder but the table's. What leads nowhere is named too, so that it is told.
pub fn names(folder: &Path) -> Result<Vec<OsString>, String> {
    let told = |e: io::Error| format!("cannot read {}: {}", shown_path(folder), reason(&e));
    let mut names = Vec::new();
    for entry in std::fs::read_dir(folder).map_err(told)? {
        let name = entry.map_err(told)?.file_name();
        let is_folder = std::fs::metadata(folder.join(&name)).map_or(true, |held| held.is_dir());
        if is_folder && name != TABLE {
            names.push(name);
        }
    }
    names.sort();
    Ok(names)
}

/// The five files that all functions share, read once.
#[derive(Debug, Default)]
pub struct Table([Vec<u8>; 5]);

impl Table {
    pub fn read(input: &Path) -> Result<Table, String> {
        let folder = input.join(TABLE);
        if !folder.is_dir() {
            return Err(format!("no folder {}", shown_path(&folder)));
        }
        let mut table = Table::default();
        for ((name, most), bytes) in TABLE_FILES.iter().zip(&mut table.0) {
            read(&folder.join(name), *most, bytes).map_err(|why| format!("cannot read {why}"))?;
        }
        // Every function would be refused for it.
        if is_old(&table.0[0], &table.0[1]) {
            return Err(format!("{} {OLD_RECORDS}", shown_path(&folder.join(TABLE_FILES[0].0))));
        }
        Ok(table)
    }
}

/// The three files of a function, and its handler records. A thread has one, whose room it uses again.
#[derive(Debug, Default)]
pub struct Store {
    files: [Vec<u8>; 3],
    handlers: Vec<u8>,
    has_handlers: bool,
}

impl Store {
    /// An error names the first file that cannot be read, and why.
    pub fn read(&mut self, folder: &Path) -> Result<(), String> {
        for ((name, most), bytes) in STORE_FILES.iter().zip(&mut self.files) {
            read(&folder.join(name), *most, bytes)?;
        }
        let (name, most) = HANDLERS_FILE;
        let path = folder.join(name);
        self.has_handlers = is_there(&path);
        match self.has_handlers {
            true => read(&path, most, &mut self.handlers),
            false => Ok(()),
        }
    }

    /// The function's handler records; None where it has no file of them.
    pub fn handlers(&self) -> Option<&[u8]> {
        self.has_handlers.then_some(&self.handlers)
    }

    pub fn files<'a>(&'a self, table: &'a Table) -> Files<'a> {
        let [opcodes, types, runtime, intrinsic, layout] = &table.0;
        let [objects, slots, payload] = &self.files;
        Files { opcodes, types, runtime, intrinsic, layout, objects, slots, payload }
    }
}

/// Whether anything has that name, also what leads nowhere or cannot be looked at: reading it then tells why.
fn is_there(path: &Path) -> bool {
    let looked = path.symlink_metadata();
    !looked.is_err_and(|e| e.kind() == io::ErrorKind::NotFound)
}

/// A whole file; of one that is too long, one byte more than it may have, for which it is refused.
fn read(path: &Path, most: usize, bytes: &mut Vec<u8>) -> Result<(), String> {
    bytes.clear();
    let read = regular(path).and_then(|file| file.take(most as u64 + 1).read_to_end(bytes));
    read.map(|_| ()).map_err(|e| format!("{}: {}", shown_path(path), reason(&e)))
}

/// A file to read; a pipe, which might never end, or a device is none. Reading a folder fails by itself.
fn regular(path: &Path) -> io::Result<File> {
    let file = File::options().read(true).custom_flags(NO_WAIT).open(path)?;
    let kind = file.metadata()?.file_type();
    match kind.is_file() || kind.is_dir() {
        true => Ok(file),
        false => Err(io::Error::other("not a regular file")),
    }
}

/// Why, in the system's words alone.
pub fn reason(error: &io::Error) -> String {
    let text = error.to_string();
    text.split(" (os error ").next().unwrap_or_default().to_string()
}

pub fn shown_path(path: &Path) -> String {
    shown(path.as_os_str().as_bytes())
}
