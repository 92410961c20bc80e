//! jscd_write: bytecode from lines as a listing has them (see README.md).

use jscd_write::program::{hex, meaning, written};
use jscd_write::table::Table;
use std::io::{Read, Write};
use std::path::{Path, PathBuf};
use std::process::ExitCode;

const USAGE: &str = "usage: jscd_write TABLE_FOLDER [LINES_FILE|-] [-o FILE] [--parameters N]";

struct Arguments {
    table: PathBuf,
    lines: String,
    out: Option<PathBuf>,
    parameters: Option<i32>,
}

/// Why nothing was written: a line is refused (status 1), or a file or the usage is wrong (2).
enum Failure {
    Lines(String),
    Files(String),
}

fn main() -> ExitCode {
    match run() {
        Ok(()) => ExitCode::SUCCESS,
        Err(Failure::Lines(message)) => {
            eprintln!("{message}");
            ExitCode::from(1)
        }
        Err(Failure::Files(message)) => {
            eprintln!("jscd_write: {message}");
            ExitCode::from(2)
        }
    }
}

fn run() -> Result<(), Failure> {
    let arguments = arguments(std::env::args().skip(1)).ok_or(Failure::Files(USAGE.into()))?;
    let table = Table::read(&arguments.table).map_err(Failure::Files)?;
    table.check().map_err(|refusal| {
        let (table, words) = (arguments.table.display(), meaning(refusal.number));
        Failure::Files(format!("the table in {table} is {refusal}: {words}"))
    })?;
    let text = lines(&arguments.lines).map_err(Failure::Files)?;
    let bytes = written(&table, arguments.parameters, &text).map_err(|faults| {
        let told: Vec<String> = faults.iter().map(|fault| format!("jscd_write: {fault}")).collect();
        Failure::Lines(told.join("\n"))
    })?;
    match &arguments.out {
        Some(file) => whole(file, &bytes.concat()),
        None => printed(&bytes),
    }
    .map_err(Failure::Files)
}

/// None where the usage is another.
fn arguments(mut args: impl Iterator<Item = String>) -> Option<Arguments> {
    let (mut places, mut out, mut parameters) = (Vec::new(), None, None);
    while let Some(arg) = args.next() {
        match arg.as_str() {
            "-o" if out.is_none() => out = Some(PathBuf::from(args.next()?)),
            "--parameters" if parameters.is_none() => parameters = Some(args.next()?.parse().ok()?),
            "-" => places.push(arg),
            _ if arg.starts_with('-') => return None,
            _ => places.push(arg),
        }
    }
    let mut places = places.into_iter();
    let table = places.next()?.into();
    let lines = places.next().unwrap_or("-".into());
    places.next().is_none().then_some(Arguments { table, lines, out, parameters })
}

/// The text of a file, or of standard input.
fn lines(from: &str) -> Result<String, String> {
    let mut bytes = Vec::new();
    let read = match from {
        "-" => std::io::stdin().read_to_end(&mut bytes).map(|_| ()),
        _ => std::fs::read(from).map(|read| bytes = read),
    };
    read.map_err(|e| format!("cannot read {from}: {e}"))?;
    Ok(String::from_utf8_lossy(&bytes).into_owned())
}

/// A line of digits for each instruction.
fn printed(bytes: &[Vec<u8>]) -> Result<(), String> {
    let text: String = bytes.iter().map(|bytes| hex(bytes) + "\n").collect();
    let mut out = std::io::stdout();
    let done = out.write_all(text.as_bytes()).and_then(|_| out.flush());
    done.map_err(|e| format!("cannot write to standard output: {e}"))
}

/// A file, written whole or not at all: under another name beside it, and then renamed.
fn whole(file: &Path, bytes: &[u8]) -> Result<(), String> {
    let told = |e: std::io::Error| format!("cannot write {}: {e}", file.display());
    let mut name = file.file_name().ok_or(format!("no file: {}", file.display()))?.to_os_string();
    name.push(format!(".{}.part", std::process::id()));
    let part = file.with_file_name(name);
    let done = std::fs::write(&part, bytes).and_then(|_| std::fs::rename(&part, file));
    done.map_err(|e| {
        let _ = std::fs::remove_file(&part);
        told(e)
    })
}
