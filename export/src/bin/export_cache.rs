//! Record files of the functions of code caches (../../README.md, `export/cache`).

use jscd_export::cache::{self, Cache};
use std::collections::BTreeSet;
use std::path::{Path, PathBuf};
use std::process::ExitCode;

const USAGE: &str = "usage: export/cache CACHE.jsc.. OUT
writes OUT/table and a folder of record files for each function of the code caches";

/// 0 where every function is written, 1 where one is left out, 2 where nothing is written.
fn main() -> ExitCode {
    let args: Vec<PathBuf> = std::env::args_os().skip(1).map(PathBuf::from).collect();
    let done = match args.split_last() {
        Some((out, caches)) if !caches.is_empty() => export(caches, out),
        _ => Err(USAGE.into()),
    };
    match done {
        Ok(true) => ExitCode::SUCCESS,
        Ok(false) => ExitCode::from(1),
        Err(message) => {
            eprintln!("export/cache: {message}");
            ExitCode::from(2)
        }
    }
}

/// All caches are read before anything is written. Whether every function was written.
fn export(paths: &[PathBuf], out: &Path) -> Result<bool, String> {
    // A panic of the parser is told as an error.
    std::panic::set_hook(Box::new(|_| {}));
    if std::fs::read_dir(out).is_ok_and(|mut held| held.next().is_some()) {
        return Err(format!("{} is there already and not empty", out.display()));
    }
    let mut caches: Vec<(String, Cache)> = Vec::new();
    let mut prefixes = BTreeSet::new();
    for path in paths {
        let of = |message: String| format!("{}: {message}", path.display());
        let data = std::fs::read(path).map_err(|e| of(e.to_string()))?;
        let read = cache::read(&data).map_err(of)?;
        if let Some((_, first)) = caches.first() {
            if first.v8 != read.v8 {
                let (v8, other) = (&read.v8, &first.v8);
                return Err(of(format!("of V8 {v8}, and {} of {other}", paths[0].display())));
            }
        }
        let prefix = if paths.len() == 1 { String::new() } else { prefix(path, &mut prefixes) };
        caches.push((prefix, read));
    }
    let mut whole = true;
    for ((prefix, cache), path) in caches.iter().zip(paths) {
        cache.all.write(out, prefix)?;
        for (name, message) in &cache.all.refused {
            whole = false;
            eprintln!("{}: {prefix}{name} left out: {message}", path.display());
        }
        println!("{}: {}", path.display(), spoken(cache));
    }
    Ok(whole)
}

/// What the header says, and how many functions and handlers there are. An entry of a handler table that holds no offset has no record.
fn spoken(cache: &Cache) -> String {
    let Cache { header, v8, node, all } = cache;
    let module = if header.is_module() { ", a module" } else { "" };
    let (length, flags) = (header.source_length(), header.flag_hash);
    let counted = |count: usize, what: &str| match count {
        0 => String::new(),
        count => format!(", {count} {what}"),
    };
    let left = counted(all.refused.len(), "left out") + &counted(all.without, "not compiled");
    let (handlers, empty) = all.handlers();
    let handlers =
        counted(handlers, "handlers") + &counted(empty, "empty handler entries left out");
    let functions = all.functions.len();
    format!("{functions} functions{left}{handlers}; V8 {v8} ({node}), flags {flags:#010x}, source of {length} characters{module}")
}

/// What tells the functions of a cache from those of the others: its file's name, with a number where another has the same.
fn prefix(path: &Path, held: &mut BTreeSet<String>) -> String {
    let stem = path.file_stem().unwrap_or_default().to_string_lossy();
    let kept = |c: char| if c.is_ascii_alphanumeric() || "_$.".contains(c) { c } else { '_' };
    let stem: String = stem.chars().map(kept).take(60).collect();
    let named = |k: usize| if k == 1 { format!("{stem}-") } else { format!("{stem}_{k}-") };
    let free = (1..).map(named).find(|name| !held.contains(name)).unwrap_or_default();
    held.insert(free.clone());
    free
}
