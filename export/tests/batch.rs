//! The program `batch` over exported functions: it goes on after a refusal, and says one line for each function. And the whole way from JavaScript to
//! a page, where the node at hand has a table.

use jscd_export::export;
use oracle::port::{Port, STORE, TABLE};
use oracle::sample;
use std::path::{Path, PathBuf};
use std::process::Command;

fn root() -> PathBuf {
    Path::new(env!("CARGO_MANIFEST_DIR")).join("..")
}

/// Writes the store of a function of this code; the table is the sample's.
fn put(folder: &Path, name: &str, code: &[u8]) {
    let files = sample::function(code, 8, &[]);
    let port = Port::new(&files, TABLE | STORE).unwrap();
    let parts = [
        ("table", &export::TABLE_FILES[..], export::table(&port.table).unwrap().to_vec()),
        (
            name,
            &export::STORE_FILES,
            export::function(&port.cache, &port.table, 0).unwrap().to_vec(),
        ),
        // The sample's functions have no handlers.
        (name, &[export::HANDLERS_FILE], vec![Vec::new()]),
    ];
    for (part, names, bodies) in parts {
        std::fs::create_dir_all(folder.join(part)).unwrap();
        for (name, body) in names.iter().zip(bodies) {
            std::fs::write(folder.join(part).join(name), body).unwrap();
        }
    }
}

/// Document 01's `03` (14 at 1), P10 (leaves, 1 step from 0), P12 (closed), its sample's code, a placeholder, whose code is empty (Wish 4: closed), and a
/// folder with no files.
#[test]
fn lines_and_listings() {
    let folder = Path::new(env!("CARGO_TARGET_TMPDIR")).join("batch");
    let _ = std::fs::remove_dir_all(&folder);
    let (from, to) = (folder.join("in"), folder.join("out"));
    put(&from, "cut", &[0x03]);
    put(&from, "jumps", &[0x05, 0x01]);
    put(&from, "left or right", &[0x06, 0x02, 0x0b]);
    put(&from, "placeholder", &[]);
    put(&from, "sample", &[0x03, 0x05, 0x04, 0xfa, 0x0b]);
    std::fs::create_dir_all(from.join("missing")).unwrap();
    for jobs in ["1", "3"] {
        let run =
            Command::new(root().join("batch")).args(["-j", jobs]).arg(&from).arg(&to).output();
        let run = run.unwrap();
        let (out, err) =
            (String::from_utf8(run.stdout).unwrap(), String::from_utf8(run.stderr).unwrap());
        let lines: Vec<&str> = out.lines().collect();
        assert_eq!(lines[0], "cut refused 14 at 1");
        assert_eq!(lines[1], "jumps leaves steps 1 from 0");
        assert_eq!(lines[2], "left or right closed");
        assert!(lines[3].starts_with("missing unreadable: "), "{}", lines[3]);
        assert_eq!(lines[4], "placeholder closed");
        assert_eq!(lines[5], "sample closed");
        assert_eq!(lines.len(), 6);
        assert!(err.contains("6 functions: 3 closed, 1 leave, 1 refused, 1 unreadable"), "{err}");
        assert_eq!(run.status.code(), Some(1));
        let listing = std::fs::read_to_string(to.join("sample.txt")).unwrap();
        assert_eq!(listing, sample::LISTING);
        let listing = std::fs::read_to_string(to.join("placeholder.txt")).unwrap();
        assert!(listing.starts_with("Bytecode length: 0\n") && listing.lines().count() == 6);
        assert!(!to.join("cut.txt").exists());
    }
}

/// The page that `batch` makes of a folder, after every function was closed.
fn page(from: &Path, to: &Path) -> String {
    let file = to.join("index.html");
    let run =
        Command::new(root().join("batch")).arg("--html").arg(&file).arg(from).arg(to).output();
    let run = run.unwrap();
    let out = String::from_utf8(run.stdout).unwrap();
    assert!(run.status.success() && out.lines().all(|line| line.ends_with(" closed")), "{out}");
    std::fs::read_to_string(file).unwrap()
}

/// A page's lines of a function that hold this text; those that no walk reaches begin with `<span class=u>`.
fn lines<'a>(page: &'a str, function: &str, text: &str) -> Vec<&'a str> {
    let start = page.find(&format!("-{function}</b>")).unwrap();
    let part = &page[start..start + page[start..].find("</details>").unwrap()];
    part.lines().filter(|line| line.contains(text)).collect()
}

/// Exported with their handlers, all functions of data/handlers.js are closed, and walks reach every line of them, those of a catch block too, but
/// for one; without handlers.bin these are grey.
#[test]
fn catch_blocks_are_reached() {
    let folder = Path::new(env!("CARGO_TARGET_TMPDIR")).join("catch");
    let _ = std::fs::remove_dir_all(&folder);
    std::fs::create_dir_all(&folder).unwrap();
    let (from, to) = (folder.join("in"), folder.join("out"));
    let file = root().join("export/tests/data/handlers.js");
    let said = Command::new(root().join("export/node")).arg(file).arg(&from).output().unwrap();
    let told = String::from_utf8(said.stderr).unwrap();
    if told.contains("no node here") || told.contains("no table for that version") {
        return eprintln!("no node that has a table: the whole way is not tested");
    }
    assert_eq!((said.status.code(), told.as_str()), (Some(0), ""));
    let with = page(&from, &to);
    assert!(!with.contains("It has no handlers.bin"));
    // The one catch block that nothing enters: its try has no instruction.
    let grey = "class=u>           @";
    assert_eq!((with.matches(grey).count(), lines(&with, "emptied", grey).len()), (9, 9));
    for entry in std::fs::read_dir(&from).unwrap() {
        let _ = std::fs::remove_file(entry.unwrap().path().join(export::HANDLERS_FILE));
    }
    let without = page(&from, &to);
    for (function, text) in [("caught", "CreateCatchContext"), ("nested", "CreateCatchContext")] {
        let (with, without) = (lines(&with, function, text), lines(&without, function, text));
        assert!(!with.is_empty() && with.len() == without.len());
        assert!(with.iter().all(|line| !line.contains("class=u>")), "{with:?}");
        assert!(without.iter().all(|line| line.contains("class=u>")), "{without:?}");
    }
}
