//! The oracle's command line (see README.md).

use oracle::ask::{ask, ask_with, Call, DECODE_SMI_BYTES, FUNCTIONS, LISTING, NO_OBJECT, WALK};
use oracle::caches;
use oracle::checks;
use oracle::classes::{self, Classes};
use oracle::port::{Port, STORE, TABLE};
use oracle::records::Files;
use oracle::vectors::{self, Writer};
use oracle::walk_tries::{self, TriesRecording};
use oracle::{cases, code_recording, convert_recording, instructions, recording, sample, v8};
use oracle::{entry_recording, header_recording, jump_recording, list_recording, named};
use oracle::{handler_classes, handler_recording};
use oracle::{programs, slot_recording, v8_lists};
use oracle::{walk_classes, walk_recording, walk_short, walk_v8, write_recording, wrong};
use std::path::Path;
use std::process::ExitCode;

const USAGE: &str = "usage:
  oracle sample DIR                   write document 01's sample as eight record files
  oracle list DIR                     the listing of object 0, or a refusal
  oracle call DIR FUNCTION ARGS..     the answer of one function (lent code: DIR/code.bin, else object 0's; handlers: DIR/handlers.bin)
  oracle functions                    the functions, their numbers and arguments
  oracle cases                        document 01's rows: what it says and what the Rust says
  oracle record OUT                   write the vectors of these rows
  oracle record-store SEED OUT        write vectors of stores and tables, and count their classes
  oracle record-code SEED OUT         write vectors of instructions, and count their classes
  oracle record-list SEED OUT         write vectors of whole listings, and count their classes
  oracle record-jump SEED OUT         the same for targets, entries, numbers in slots, max_register
  oracle record-header SEED OUT       the same for headers
  oracle record-layout OUT            the same for the sample's header by good and bad layouts
  oracle record-slots SEED OUT        the same for all slot records of a store
  oracle record-entry SEED OUT        the same for single entries of switches
  oracle record-write FOLDER OUT..    write vectors of writing (three files), out of FOLDER's recordings, and count their classes
  oracle record-convert SEED OUT      write vectors of the conversions of opcode records, and count their classes
  oracle record-convert-v8 FOLDER OUT the same for V8's tables (v8-listings), both ways
  oracle record-wrong FOLDER PROGRAM OUT   write calls of FOLDER's recordings that PROGRAM asks, one thing changed in each answer
  oracle record-v8 FOLDER OUT         write vectors of what V8 printed (v8-listings), and count them
  oracle record-v8-list FOLDER OUT    write vectors of V8's whole listings, and count them
  oracle record-caches EXPORTED PRINT LISTS WALKS   write vectors of the functions that export/cache wrote and V8 printed, and count them
  oracle compare-caches EXPORTED PRINT LISTINGS ANSWERS   what batch wrote of such functions, against what V8 printed
  oracle record-named OUT             write vectors of some named listings, and print them
  oracle replay FILE                  ask every call of a vector file again
  oracle record-walk SEED OUT..       write vectors of the walk (five files), and count their classes
  oracle record-walk-short OUT [few]  write vectors of the walk over all short codes, or over few of them
  oracle record-walk-v8 FOLDER OUT    write vectors of the walk over V8's functions (v8-listings)
  oracle record-handlers SEED OUT     write vectors of the walk with handler records, and count their classes
  oracle record-tries EXPORTED PRINT OUT   write vectors of the walk over such functions with V8's handler tables, and count them
  oracle record-tries-v8 FOLDER OUT   the same for V8's functions (v8-listings)
  oracle record-programs CRATES       write data, args and stdout of jscd_list, jscd_walk, jscd_convert, file_cases
  oracle walk DIR [MARKS]             the walk over object 0's code with a mark buffer of so many bytes (65536)";

fn main() -> ExitCode {
    let args: Vec<String> = std::env::args().skip(1).collect();
    let args: Vec<&str> = args.iter().map(String::as_str).collect();
    let done = match args.as_slice() {
        ["sample", folder] => sample::sample().write(Path::new(folder)).map(|_| true),
        ["list", folder] => list(Path::new(folder)),
        ["call", folder, function, args @ ..] => call(Path::new(folder), function, args),
        ["functions"] => functions(),
        ["cases"] => {
            let (table, same) = cases::report();
            print!("{table}");
            Ok(same)
        }
        ["record", out] => record(out),
        ["record-store", seed, out] => record_store(seed, out),
        ["record-code", seed, out] => record_code(seed, out),
        ["record-list", seed, out] => record_list(seed, out),
        ["record-jump", seed, out] => record_jump(seed, out),
        ["record-header", seed, out] => record_header(seed, out),
        ["record-layout", out] => record_layout(out),
        ["record-slots", seed, out] => record_slots(seed, out),
        ["record-entry", seed, out] => record_entry(seed, out),
        ["record-write", folder, out @ ..] => record_write(Path::new(folder), out),
        ["record-convert", seed, out] => record_convert(seed, out),
        ["record-convert-v8", folder, out] => record_convert_v8(Path::new(folder), out),
        ["record-wrong", folder, program, out] => record_wrong(Path::new(folder), program, out),
        ["record-named", out] => record_named(out),
        ["record-v8-list", folder, out] => record_v8_list(Path::new(folder), out),
        ["record-caches", folder, print, lists, walks] => {
            record_caches([folder, print].map(Path::new), lists, walks)
        }
        ["compare-caches", folder, print, listings, answers] => {
            compare_caches([folder, print, listings, answers].map(Path::new))
        }
        ["record-v8", folder, out] => record_v8(Path::new(folder), out),
        ["replay", file] => replay(file),
        ["record-walk", seed, out @ ..] => record_walk(seed, out),
        ["record-handlers", seed, out] => record_handlers(seed, out),
        ["record-tries", folder, print, out] => {
            record_tries(walk_tries::record(Path::new(folder), Path::new(print)), out)
        }
        ["record-tries-v8", folder, out] => {
            record_tries(walk_tries::record_v8(Path::new(folder)), out)
        }
        ["record-walk-v8", folder, out] => record_walk_v8(Path::new(folder), out),
        ["record-walk-short", out] => record_walk_short(out, false),
        ["record-walk-short", out, "few"] => record_walk_short(out, true),
        ["record-programs", crates] => record_programs(Path::new(crates)),
        ["walk", folder] => walk(Path::new(folder), "65536"),
        ["walk", folder, marks] => walk(Path::new(folder), marks),
        _ => Err(USAGE.into()),
    };
    match done {
        Ok(true) => ExitCode::SUCCESS,
        Ok(false) => ExitCode::from(1),
        Err(message) => {
            eprintln!("{message}");
            ExitCode::from(2)
        }
    }
}

fn list(folder: &Path) -> Result<bool, String> {
    let files = Files::read(folder)?;
    let said = ask(&files, &[], &Call::new(LISTING, &[]))?.to_string();
    println!("{}", said.trim_end_matches('\n'));
    Ok(true)
}

fn call(folder: &Path, function: &str, args: &[&str]) -> Result<bool, String> {
    let files = Files::read(folder)?;
    let number = FUNCTIONS.iter().position(|f| f.name == function);
    let number = number.ok_or(format!("no function {function}; `oracle functions` lists them"))?;
    let call = if number == DECODE_SMI_BYTES {
        Call::smi_bytes(&hex(&args.concat())?)
    } else {
        let words: Result<Vec<u64>, String> = args.iter().map(|a| word(a)).collect();
        Call::new(number, &words?)
    };
    let handlers = std::fs::read(folder.join("handlers.bin")).unwrap_or_default();
    println!("{}", ask_with(&files, &lent_code(folder, &files)?, &handlers, &call)?);
    Ok(true)
}

/// A number in two's complement; `none` stands for no object.
fn word(arg: &str) -> Result<u64, String> {
    match arg {
        "none" => Ok(NO_OBJECT),
        _ if arg.starts_with('-') => arg.parse::<i64>().map(|v| v as u64),
        _ => arg.parse(),
    }
    .map_err(|_: std::num::ParseIntError| format!("not a number: {arg}"))
}

fn hex(digits: &str) -> Result<Vec<u8>, String> {
    let pairs = digits.as_bytes().chunks(2).map(|p| std::str::from_utf8(p).unwrap_or(""));
    let bytes: Result<Vec<u8>, _> = pairs.map(|p| u8::from_str_radix(p, 16)).collect();
    bytes.ok().filter(|_| digits.len() % 2 == 0).ok_or(format!("not bytes in hex: {digits}"))
}

/// code.bin where it is there, else the code of object 0 where it has some.
fn lent_code(folder: &Path, files: &Files) -> Result<Vec<u8>, String> {
    if let Ok(code) = std::fs::read(folder.join("code.bin")) {
        return Ok(code);
    }
    let good = checks::table(files, TABLE)
        .and_then(|_| checks::store(files, usize::MAX))
        .and_then(|_| checks::function(files, 0));
    if good.is_err() {
        return Ok(Vec::new());
    }
    let port = Port::new(files, TABLE | STORE)?;
    match checks::code_length(port.code_length(0)) {
        Ok(()) => Ok(port.code(0).to_vec()),
        Err(_) => Ok(Vec::new()),
    }
}

fn functions() -> Result<bool, String> {
    for (number, function) in FUNCTIONS.iter().enumerate() {
        println!("{number:>2} {} {}", function.name, function.args.join(" "));
    }
    Ok(true)
}

fn record(out: &str) -> Result<bool, String> {
    let vectors = cases::record()?;
    std::fs::write(out, &vectors.out).map_err(|e| format!("{out}: {e}"))?;
    println!("{} calls, {} bytes", vectors.calls, vectors.out.len());
    Ok(true)
}

fn record_store(seed: &str, out: &str) -> Result<bool, String> {
    let recording = recording::record(word(seed)?)?;
    classified(out, &recording.writer, &recording.classes, &classes::wanted())
}

fn record_code(seed: &str, out: &str) -> Result<bool, String> {
    let recording = code_recording::record(word(seed)?)?;
    classified(out, &recording.writer, &recording.classes, &instructions::wanted())
}

fn record_list(seed: &str, out: &str) -> Result<bool, String> {
    let recording = list_recording::record(word(seed)?)?;
    classified(out, &recording.writer, &recording.classes, &list_recording::wanted())
}

fn record_jump(seed: &str, out: &str) -> Result<bool, String> {
    let recording = jump_recording::record(word(seed)?)?;
    classified(out, &recording.writer, &recording.classes, &jump_recording::wanted())
}

fn record_header(seed: &str, out: &str) -> Result<bool, String> {
    let recording = header_recording::record(word(seed)?)?;
    classified(out, &recording.writer, &recording.classes, &header_recording::wanted())
}

fn record_layout(out: &str) -> Result<bool, String> {
    let recording = header_recording::record_layouts()?;
    classified(out, &recording.writer, &recording.classes, &[])
}

fn record_slots(seed: &str, out: &str) -> Result<bool, String> {
    let recording = slot_recording::record(word(seed)?)?;
    classified(out, &recording.writer, &recording.classes, &slot_recording::wanted())
}

fn record_entry(seed: &str, out: &str) -> Result<bool, String> {
    let recording = entry_recording::record(word(seed)?)?;
    classified(out, &recording.writer, &recording.classes, &entry_recording::wanted())
}

fn record_write(folder: &Path, out: &[&str]) -> Result<bool, String> {
    if out.len() != write_recording::PARTS.len() {
        return Err(format!("record-write writes {} files", write_recording::PARTS.len()));
    }
    let recording = write_recording::record(folder)?;
    parts(out, &recording.writers, &recording.classes, &write_recording::wanted())
}

fn record_convert(seed: &str, out: &str) -> Result<bool, String> {
    let recording = convert_recording::record(word(seed)?)?;
    classified(out, &recording.writer, &recording.classes, &convert_recording::wanted())
}

fn record_convert_v8(folder: &Path, out: &str) -> Result<bool, String> {
    let recording = convert_recording::record_v8(folder)?;
    classified(out, &recording.writer, &recording.classes, &[])
}

fn record_wrong(folder: &Path, program: &str, out: &str) -> Result<bool, String> {
    let named = wrong::PROGRAMS.iter().find(|p| p.name == program);
    let recording = wrong::record(named.ok_or(format!("no program {program}"))?, folder)?;
    let vectors = &recording.writer;
    std::fs::write(out, &vectors.out).map_err(|e| format!("{out}: {e}"))?;
    print!("{}", recording.report());
    println!("{} calls, {} bytes", vectors.calls, vectors.out.len());
    Ok(true)
}

/// Writes vectors and prints their classes; false where a wanted class has no case.
fn classified(
    out: &str,
    vectors: &Writer,
    classes: &Classes,
    wanted: &[String],
) -> Result<bool, String> {
    std::fs::write(out, &vectors.out).map_err(|e| format!("{out}: {e}"))?;
    print!("{}", classes.report());
    let missing = classes.missing(wanted);
    for class in &missing {
        println!("no case of {class}");
    }
    println!("{} calls, {} bytes", vectors.calls, vectors.out.len());
    Ok(missing.is_empty())
}

fn record_v8(folder: &Path, out: &str) -> Result<bool, String> {
    let recording = v8::record(folder)?;
    let vectors = &recording.writer;
    std::fs::write(out, &vectors.out).map_err(|e| format!("{out}: {e}"))?;
    print!("{}", recording.report());
    println!("{} calls, {} bytes", vectors.calls, vectors.out.len());
    Ok(true)
}

fn record_v8_list(folder: &Path, out: &str) -> Result<bool, String> {
    let recording = v8_lists::record(folder)?;
    let vectors = &recording.writer;
    std::fs::write(out, &vectors.out).map_err(|e| format!("{out}: {e}"))?;
    print!("{}", recording.report());
    println!("{} calls, {} bytes", vectors.calls, vectors.out.len());
    Ok(recording.differences.is_empty())
}

fn record_caches([folder, print]: [&Path; 2], lists: &str, walks: &str) -> Result<bool, String> {
    let recording = caches::record(folder, print)?;
    for (out, vectors) in [(lists, &recording.lists), (walks, &recording.walks)] {
        std::fs::write(out, &vectors.out).map_err(|e| format!("{out}: {e}"))?;
        println!("{out}: {} calls, {} bytes", vectors.calls, vectors.out.len());
    }
    print!("{}", recording.report());
    Ok(recording.differences.is_empty())
}

fn compare_caches([folder, print, listings, answers]: [&Path; 4]) -> Result<bool, String> {
    let comparison = caches::compare(folder, print, listings, answers)?;
    print!("{}", comparison.report());
    Ok(comparison.differences.is_empty())
}

fn record_named(out: &str) -> Result<bool, String> {
    let recording = named::record()?;
    std::fs::write(out, &recording.writer.out).map_err(|e| format!("{out}: {e}"))?;
    print!("{}", recording.report);
    Ok(true)
}

fn replay(file: &str) -> Result<bool, String> {
    let vectors = std::fs::read(file).map_err(|e| format!("{file}: {e}"))?;
    println!("{} calls, all the same", vectors::replay(&vectors)?);
    Ok(true)
}

fn record_programs(crates: &Path) -> Result<bool, String> {
    println!("{} files", programs::write(crates)?);
    Ok(true)
}

fn walk(folder: &Path, marks: &str) -> Result<bool, String> {
    let files = Files::read(folder)?;
    println!("{}", ask(&files, &[], &Call::new(WALK, &[word(marks)?]))?);
    Ok(true)
}

fn record_walk(seed: &str, out: &[&str]) -> Result<bool, String> {
    if out.len() != walk_recording::PARTS {
        return Err(format!("record-walk writes {} files", walk_recording::PARTS));
    }
    let recording = walk_recording::record(word(seed)?)?;
    parts(out, &recording.writers, &recording.classes, &walk_classes::wanted())
}

fn record_handlers(seed: &str, out: &str) -> Result<bool, String> {
    let recording = handler_recording::record(word(seed)?)?;
    classified(out, &recording.writer, &recording.classes, &handler_classes::wanted())
}

fn record_tries(recording: Result<TriesRecording, String>, out: &str) -> Result<bool, String> {
    let recording = recording?;
    let vectors = &recording.writer;
    std::fs::write(out, &vectors.out).map_err(|e| format!("{out}: {e}"))?;
    print!("{}", recording.report());
    println!("{} calls, {} bytes", vectors.calls, vectors.out.len());
    Ok(recording.others.is_empty())
}

/// The same as `classified` for vectors in several files.
fn parts(
    out: &[&str],
    writers: &[Writer],
    classes: &Classes,
    wanted: &[String],
) -> Result<bool, String> {
    let mut calls = 0;
    for (out, vectors) in out.iter().zip(writers) {
        std::fs::write(out, &vectors.out).map_err(|e| format!("{out}: {e}"))?;
        println!("{out}: {} calls, {} bytes", vectors.calls, vectors.out.len());
        calls += vectors.calls;
    }
    print!("{}", classes.report());
    let missing = classes.missing(wanted);
    for class in &missing {
        println!("no case of {class}");
    }
    println!("{calls} calls");
    Ok(missing.is_empty())
}

fn record_walk_v8(folder: &Path, out: &str) -> Result<bool, String> {
    let recording = walk_v8::record(folder)?;
    let vectors = &recording.writer;
    std::fs::write(out, &vectors.out).map_err(|e| format!("{out}: {e}"))?;
    for other in &recording.others {
        println!("{other}");
    }
    let (functions, others) = (recording.functions, recording.others.len());
    println!("{functions} functions, {others} not closed, {} offsets reached", recording.reached);
    println!("{} calls, {} bytes", vectors.calls, vectors.out.len());
    Ok(recording.others.is_empty())
}

fn record_walk_short(out: &str, few: bool) -> Result<bool, String> {
    let vectors = if few { walk_short::record_few()? } else { walk_short::record()? };
    std::fs::write(out, &vectors.out).map_err(|e| format!("{out}: {e}"))?;
    println!("{} calls, {} bytes", vectors.calls, vectors.out.len());
    Ok(true)
}
