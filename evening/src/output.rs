//! The folder that is written: a listing for each function, whole or not at all.

use crate::input::{reason, shown_path, NO_WAIT};
use crate::interrupt::{is_left_over, Part};
use std::ffi::{OsStr, OsString};
use std::fs::File;
use std::io::{self, ErrorKind, Read, Write};
use std::os::unix::ffi::{OsStrExt, OsStringExt};
use std::os::unix::fs::OpenOptionsExt;
use std::path::{Component, Path, PathBuf};

const SUFFIX: &[u8] = b".txt";
/// How each listing begins.
const BEGINNING: &[u8] = b"Bytecode length: ";
/// O_NOFOLLOW.
const NO_LINK: i32 = 0o400_000;

/// Makes the folder and tests that a file can be written there. Neither it nor the page may lie among the functions.
pub fn prepare(input: &Path, output: &Path, html: Option<&Path>) -> Result<(), String> {
    let functions = input.canonicalize().map_err(|e| cannot("read", input, &e))?;
    let inside = |path: &Path| resolved(path).is_some_and(|path| path.starts_with(&functions));
    if let Some(path) = [Some(output), html].into_iter().flatten().find(|path| inside(path)) {
        let (path, input) = (shown_path(path), shown_path(input));
        return Err(format!("{path} lies in {input}, among the functions: name another place"));
    }
    std::fs::create_dir_all(output).map_err(|e| cannot("make", output, &e))?;
    Part::new(output).nameless().map_err(|e| cannot("write in", output, &e))?;
    let Some(html) = html else { return Ok(()) };
    let folder = folder_of(html);
    let among =
        resolved(folder) == resolved(output) && html.as_os_str().as_bytes().ends_with(SUFFIX);
    if among || html.is_dir() || html.file_name().is_none() {
        return Err(format!("{}: no name for a page", shown_path(html)));
    }
    Part::new(folder).nameless().map_err(|e| cannot("write in", folder, &e))?;
    Ok(())
}

/// The folder that a file is in.
pub fn folder_of(file: &Path) -> &Path {
    file.parent().filter(|folder| !folder.as_os_str().is_empty()).unwrap_or(Path::new("."))
}

pub fn cannot(what: &str, path: &Path, error: &io::Error) -> String {
    format!("cannot {what} {}: {}", shown_path(path), reason(error))
}

/// Where a path leads that need not be there yet: its longest part that is there, and the rest behind it.
fn resolved(path: &Path) -> Option<PathBuf> {
    let whole = Path::new(".").join(path);
    let there = whole.ancestors().find_map(|part| Some((part, part.canonicalize().ok()?)))?;
    let rest = whole.strip_prefix(there.0).ok()?;
    let plain = rest.components().all(|part| matches!(part, Component::Normal(_)));
    plain.then(|| there.1.join(rest))
}

/// The listing's file of a function.
fn listing_name(name: &OsStr) -> OsString {
    OsString::from_vec([name.as_bytes(), SUFFIX].concat())
}

/// Writes a function's listing, unless it stands there as it is to be.
pub fn put_listing(output: &Path, part: &Part, name: &OsStr, text: &[u8]) -> Result<(), String> {
    let path = output.join(listing_name(name));
    if holds(&path, text).unwrap_or(false) {
        return Ok(());
    }
    let done = part.whole(&path, |mut file| file.write_all(text));
    done.map_err(|e| cannot("write", &path, &e))
}

/// Whether a file, and no link to one, holds this text.
fn holds(path: &Path, mut text: &[u8]) -> io::Result<bool> {
    let mut file = File::options().read(true).custom_flags(NO_LINK | NO_WAIT).open(path)?;
    let held = file.metadata()?;
    if !held.is_file() || held.len() != text.len() as u64 {
        return Ok(false);
    }
    let mut read = [0; 16 << 10];
    while !text.is_empty() {
        let length = file.read(&mut read)?;
        match text.strip_prefix(&read[..length]) {
            Some(rest) if length > 0 => text = rest,
            _ => return Ok(false),
        }
    }
    Ok(true)
}

/// A function that has no listing keeps none of an earlier run.
pub fn remove_listing(output: &Path, name: &OsStr) -> Result<(), String> {
    let path = output.join(listing_name(name));
    match std::fs::remove_file(&path) {
        Err(e) if !matches!(e.kind(), ErrorKind::NotFound | ErrorKind::IsADirectory) => {
            Err(cannot("remove", &path, &e))
        }
        _ => Ok(()),
    }
}

/// What earlier runs left, by name: listings of functions that are no longer there, and what killed runs had begun. `names` is sorted.
pub fn left(output: &Path, names: &[OsString]) -> io::Result<Vec<PathBuf>> {
    let mut left = Vec::new();
    for entry in std::fs::read_dir(output)? {
        let entry = entry?;
        let name = entry.file_name();
        let path = entry.path();
        let gone = |name: &[u8]| names.binary_search_by(|held| held.as_bytes().cmp(name)).is_err();
        let stale = match name.as_bytes().strip_suffix(SUFFIX) {
            Some(function) => gone(function) && entry.file_type()?.is_file() && is_listing(&path),
            None => name.to_str().is_some_and(is_left_over),
        };
        if stale {
            left.push(path);
        }
    }
    left.sort();
    Ok(left)
}

fn is_listing(path: &Path) -> bool {
    let mut start = [0; BEGINNING.len()];
    let read = File::open(path).and_then(|mut file| file.read_exact(&mut start));
    read.is_ok() && start == BEGINNING
}
