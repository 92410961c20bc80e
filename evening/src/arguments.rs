//! The command line.

use std::ffi::{OsStr, OsString};
use std::os::unix::ffi::OsStrExt;
use std::path::PathBuf;

pub const USAGE: &str = "usage: batch [-j N] [--json] [--html FILE] [--prune] [--] IN OUT";

/// More threads than this are a mistake, not a wish.
const MOST_THREADS: usize = 1024;

#[derive(Debug, PartialEq)]
pub struct Arguments {
    pub threads: usize,
    pub json: bool,
    pub prune: bool,
    pub html: Option<PathBuf>,
    pub input: PathBuf,
    pub output: PathBuf,
}

/// Options may stand anywhere before `--`. An error is what to tell.
pub fn parse(args: impl IntoIterator<Item = OsString>) -> Result<Arguments, String> {
    let mut args = args.into_iter();
    let (mut threads, mut html, mut json, mut prune) = (None, None, false, false);
    let mut folders: Vec<PathBuf> = Vec::new();
    while let Some(arg) = args.next() {
        match arg.as_bytes() {
            b"--" => folders.extend(args.by_ref().map(PathBuf::from)),
            b"--json" => json = true,
            b"--prune" => prune = true,
            b"--html" => html = Some(args.next().ok_or(USAGE)?),
            b"-j" => threads = Some(count(&args.next().ok_or(USAGE)?)?),
            [b'-', b'-', b'h', b't', b'm', b'l', b'=', file @ ..] => {
                html = Some(OsStr::from_bytes(file).to_os_string());
            }
            [b'-', b'j', digits @ ..] => threads = Some(count(OsStr::from_bytes(digits))?),
            [b'-', _, ..] => return Err(USAGE.into()),
            _ => folders.push(arg.into()),
        }
    }
    let [input, output] = <[PathBuf; 2]>::try_from(folders).map_err(|_| USAGE)?;
    let html = html.map(PathBuf::from);
    let empty = |path: &PathBuf| path.as_os_str().is_empty();
    if empty(&input) || empty(&output) || html.as_ref().is_some_and(empty) {
        return Err(USAGE.into());
    }
    let threads = threads.unwrap_or_else(processors);
    Ok(Arguments { threads, json, prune, html, input, output })
}

/// A number of threads: digits, the first of them not 0.
fn count(text: &OsStr) -> Result<usize, String> {
    let digits = text.to_str().filter(|text| text.bytes().all(|b| b.is_ascii_digit()));
    let number = digits.filter(|text| !text.starts_with('0')).and_then(|text| text.parse().ok());
    number.filter(|number| *number <= MOST_THREADS).ok_or_else(|| {
        let text = crate::answer::shown(text.as_bytes());
        format!("-j {text}: not a number of functions at once, from 1 to {MOST_THREADS}")
    })
}

fn processors() -> usize {
    std::thread::available_parallelism().map_or(1, |count| count.get().min(MOST_THREADS))
}
