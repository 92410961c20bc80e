//! Odd arguments, odd folders, and a standard output that takes nothing.

mod folder;

use folder::*;
use std::fs::File;
use std::path::Path;
use std::process::{Command, Stdio};

const USAGE: &str = "batch: usage: batch [-j N] [--json] [--html FILE] [--prune] [--] IN OUT\n";

#[test]
fn usage() {
    let calls: [&[&str]; 10] = [
        &[],
        &["in"],
        &["in", "out", "more"],
        &["-x", "in", "out"],
        &["in", "out", "-j"],
        &["in", "out", "--html"],
        &["in", "out", "--html="],
        &["", "out"],
        &["--js", "in", "out"],
        &["--", "-j", "2", "in", "out"],
    ];
    for args in calls {
        assert_eq!(call(args), (2, "".into(), USAGE.into()), "{args:?}");
    }
}

#[test]
fn numbers_of_threads() {
    let input = input("threads");
    put(&input, "sample", SAMPLE);
    let [from, to] = both(&input);
    for jobs in ["0", "00", "01", "+1", "-1", "1.0", " 1", "", "1025", "99999999999999999999", "x"]
    {
        let (status, out, errors) = call([Path::new("-j"), Path::new(jobs), &from, &to]);
        let told = format!("batch: -j {jobs}: not a number of functions at once, from 1 to 1024\n");
        assert_eq!((status, out, errors), (2, "".into(), told));
    }
    assert!(!to.exists());
}

/// Where few files may be open there are fewer threads, and no function is unreadable for it.
#[test]
fn few_open_files() {
    let input = input("open files");
    for k in 0..200 {
        put(&input, k.to_string(), SAMPLE);
    }
    let [from, to] = both(&input);
    let script = "ulimit -n 64; exec \"$0\" -j 1000 --html \"$2/index.html\" \"$@\"";
    let mut command = Command::new("sh");
    command.args(["-c", script, env!("CARGO_BIN_EXE_batch")]).args([&from, &to]);
    let (status, out, errors) = said(command.output().unwrap());
    assert_eq!((status, out.lines().filter(|line| line.ends_with(" closed")).count()), (0, 200));
    assert!(errors.starts_with("batch: only 16 threads: no more files may be open\n"), "{errors}");
}

/// Every name is one line, and no two lines are alike; its listing has the name as it is.
#[test]
fn names_of_any_bytes() {
    let input = input("names");
    let odd: [(&[u8], &str); 14] = [
        (b"\x01", "\"\\u{1}\""),
        (b"\ttab", "\"\\ttab\""),
        (b" blank ", " blank "),
        (b"\"quoted\"", "\"\\\"quoted\\\"\""),
        (b"*", "*"),
        (b"-j", "-j"),
        (b"--", "--"),
        (b".hidden", ".hidden"),
        (b"a\\tb", "a\\tb"),
        (b"a\tb\\", "\"a\\tb\\\\\""),
        (b"line\n", "\"line\\n\""),
        (b"table2", "table2"),
        ("\u{e4}".as_bytes(), "\u{e4}"),
        (b"\xff\xfe", "\"\\xff\\xfe\""),
    ];
    let mut lines: Vec<(&[u8], String)> = Vec::new();
    for (name, shown) in odd {
        put(&input, bytes(name), SAMPLE);
        lines.push((name, format!("{shown} closed\n")));
    }
    lines.sort();
    let [from, to] = both(&input);
    let (status, out, _) = call([&from, &to]);
    let lines: String = lines.into_iter().map(|(_, line)| line).collect();
    assert_eq!((status, out), (0, lines));
    for (name, _) in odd {
        let file = to.join(bytes(&[name, b".txt"].concat()));
        assert_eq!(std::fs::read(file).unwrap(), sample_listing());
    }
}

#[test]
fn folders_whose_names_begin_with_a_dash() {
    let input = input("dash");
    put(&input, "sample", SAMPLE);
    let folder = input.parent().unwrap();
    std::fs::rename(&input, folder.join("-in")).unwrap();
    let run = batch().current_dir(folder).args(["--", "-in", "-out"]).output().unwrap();
    assert_eq!(said(run).1, "sample closed\n");
    let run = batch().current_dir(folder).args(["-in", "out"]).output().unwrap();
    assert_eq!(said(run), (2, "".into(), USAGE.into()));
    assert_eq!(names(&folder.join("-out")), ["sample.txt"]);
}

/// Where the listings, or the page, would lie among the functions nothing is done.
#[test]
fn output_in_the_input() {
    let input = input("inside");
    put(&input, "sample", SAMPLE);
    let folder = input.parent().unwrap();
    std::os::unix::fs::symlink("in", folder.join("link")).unwrap();
    let before = names(&input);
    for out in [
        "in",
        "in/",
        "./in",
        "in/out",
        "in/new/out",
        "in/sample",
        "in/table",
        "link/out",
        "../inside/in",
    ] {
        let run = batch().current_dir(folder).args(["in", out]).output().unwrap();
        let told = format!("batch: {out} lies in in, among the functions: name another place\n");
        assert_eq!(said(run), (2, "".into(), told));
    }
    let page = ["in", "out", "--html", "in/sample/payload.bin"];
    let (status, _, errors) = said(batch().current_dir(folder).args(page).output().unwrap());
    assert!(status == 2 && errors.contains("lies in in"), "{errors}");
    assert_eq!((names(&input), names(&input.join("sample")).len()), (before, 4));
    // The other way round is no harm.
    let run = batch().current_dir(folder).args(["in", "."]).output().unwrap();
    assert_eq!(said(run).0, 0);
}

#[test]
fn nothing_to_do() {
    let input = input("nothing");
    let [from, to] = both(&input);
    let told = |args: [&Path; 2]| {
        let (status, out, errors) = call(args);
        assert_eq!((status, out.as_str()), (2, ""));
        assert!(!to.exists());
        errors
    };
    let shown = from.display();
    assert_eq!(told([&from, &to]), format!("batch: no function in {shown}\n"));
    let absent = from.join("absent");
    assert_eq!(told([&absent, &to]), format!("batch: no folder {}\n", absent.display()));
    put(&from, "sample", SAMPLE);
    std::fs::remove_file(from.join("table/types.bin")).unwrap();
    let why = "table/types.bin: No such file or directory";
    assert_eq!(told([&from, &to]), format!("batch: cannot read {shown}/{why}\n"));
    std::fs::remove_dir_all(from.join("table")).unwrap();
    assert_eq!(told([&from, &to]), format!("batch: no folder {shown}/table\n"));
    let file = from.join("sample/payload.bin");
    assert_eq!(told([&file, &to]), format!("batch: no folder {}\n", file.display()));
}

#[test]
fn output_that_cannot_be_made() {
    let input = input("file");
    put(&input, "sample", SAMPLE);
    let [from, to] = both(&input);
    std::fs::write(&to, "mine").unwrap();
    let (status, out, errors) = call([&from, &to]);
    let told = format!("batch: cannot make {}: File exists\n", to.display());
    assert_eq!((status, out, errors), (2, "".into(), told));
    let page = to.with_file_name("absent/index.html");
    let to = to.with_file_name("out2");
    let (status, out, errors) = call([Path::new("--html"), &page, &from, &to]);
    assert_eq!((status, out.as_str()), (2, ""));
    assert!(errors.starts_with("batch: cannot write in "), "{errors}");
    let page = to.join("sample.txt");
    let (status, _, errors) = call([Path::new("--html"), &page, &from, &to]);
    assert_eq!((status, errors), (2, format!("batch: {}: no name for a page\n", page.display())));
}

/// Files that cannot be read are told, and the run goes on. None of them is waited for.
#[test]
fn files_that_cannot_be_read() {
    let input = input("unreadable");
    let files = [("a folder", 0), ("a pipe", 1), ("a device", 2), ("a loop", 0)];
    for (name, k) in files {
        std::fs::remove_file(put(&input, name, SAMPLE).join(STORE[k])).unwrap();
    }
    std::fs::create_dir(input.join("a folder/objects.bin")).unwrap();
    assert!(Command::new("mkfifo").arg(input.join("a pipe/slots.bin")).status().unwrap().success());
    let link = |to: &str, from: &str| std::os::unix::fs::symlink(to, input.join(from)).unwrap();
    link("/dev/zero", "a device/payload.bin");
    link("objects.bin", "a loop/objects.bin");
    link("nowhere", "a link");
    put(&input, "sample", SAMPLE);
    link("sample", "the same");
    let (status, out, _) = call(both(&input));
    let out = out.replace(input.to_str().unwrap(), "IN");
    let lines = "a device unreadable: IN/a device/payload.bin: not a regular file
a folder unreadable: IN/a folder/objects.bin: Is a directory
a link unreadable: IN/a link/objects.bin: No such file or directory
a loop unreadable: IN/a loop/objects.bin: Too many levels of symbolic links
a pipe unreadable: IN/a pipe/slots.bin: not a regular file
sample closed
the same closed
";
    assert_eq!((status, out.as_str()), (1, lines));
}

/// A closed, a full and a broken standard output end the run with 2, and leave nothing half.
#[test]
fn standard_output_that_takes_nothing() {
    let input = input("stdout");
    for k in 0..200 {
        put(&input, format!("{k:03}"), SAMPLE);
    }
    let [from, to] = both(&input);
    let full = File::options().write(true).open("/dev/full").unwrap();
    let run = batch().args([&from, &to]).stdout(full).output().unwrap();
    let told = "batch: cannot write to standard output: No space left on device\n";
    assert_eq!(said(run), (2, "".into(), told.into()));
    whole(&to);

    let mut run =
        batch().args([&from, &to]).stdout(Stdio::piped()).stderr(Stdio::piped()).spawn().unwrap();
    drop(run.stdout.take());
    let told = "batch: cannot write to standard output: Broken pipe\n";
    assert_eq!(said(run.wait_with_output().unwrap()), (2, "".into(), told.into()));
    whole(&to);

    let script = "exec \"$0\" \"$@\" >&-";
    let program = env!("CARGO_BIN_EXE_batch");
    let run = Command::new("sh").args(["-c", script, program]).args([&from, &to]).output().unwrap();
    let told = "batch: standard output is closed: nothing is done\n";
    assert_eq!(said(run), (2, "".into(), told.into()));
    // Where nobody listens to standard error either the status tells.
    let script = "exec \"$0\" \"$@\" >/dev/null 2>&-";
    let run = Command::new("sh").args(["-c", script, program]).args([&from, &to]).output().unwrap();
    assert_eq!(run.status.code(), Some(0));
}

fn whole(to: &Path) {
    for name in names(to) {
        assert_eq!(std::fs::read(to.join(&name)).unwrap(), sample_listing(), "{name:?}");
    }
}

/// Listings of functions that are gone are named, and removed only with --prune; nothing else ever is.
#[test]
fn listings_of_functions_that_are_gone() {
    let input = input("gone");
    for name in ["gone", "refused", "sample"] {
        put(&input, name, SAMPLE);
    }
    let [from, to] = both(&input);
    assert_eq!(call([&from, &to]).0, 0);
    std::fs::remove_dir_all(from.join("gone")).unwrap();
    put(&from, "refused", &[0x03]);
    std::fs::write(to.join("notes.txt"), "mine").unwrap();
    std::fs::create_dir(to.join("folder.txt")).unwrap();
    std::os::unix::fs::symlink("sample.txt", to.join("link.txt")).unwrap();
    std::fs::write(to.join(".batch-4194305-0.part"), "of a run that was killed").unwrap();
    let kept = ["folder.txt", "link.txt", "notes.txt", "sample.txt"];
    let lines = "refused refused 14 at 1\nsample closed\n";
    let shown = |name: &str| to.join(name).display().to_string();
    let left = [shown(".batch-4194305-0.part"), shown("gone.txt")];

    let (status, out, errors) = call([&from, &to]);
    assert_eq!((status, out.as_str()), (1, lines));
    let told = left
        .clone()
        .map(|name| format!("batch: {name} is of no function in this run (--prune removes it)\n"));
    assert!(errors.starts_with(&told.concat()) && errors.lines().count() == 3, "{errors}");
    assert_eq!(names(&to).len(), kept.len() + left.len());

    let (status, out, errors) = call([Path::new("--prune"), &from, &to]);
    assert_eq!((status, out.as_str()), (1, lines));
    let told = left.map(|name| format!("batch: {name} was of no function in this run: removed\n"));
    assert!(errors.starts_with(&told.concat()) && errors.lines().count() == 3, "{errors}");
    assert_eq!(names(&to), kept);
}

/// A listing that is there as it should be stays; another text, a link and a half one are replaced.
#[test]
fn listings_of_an_earlier_run() {
    let input = input("again");
    let [from, to] = both(&input);
    for name in ["half", "link", "other", "same"] {
        put(&from, name, SAMPLE);
    }
    assert_eq!(call([&from, &to]).0, 0);
    let written = || std::fs::metadata(to.join("same.txt")).unwrap().modified().unwrap();
    let before = written();
    let listing = sample_listing();
    std::fs::write(to.join("half.txt"), &listing[..100]).unwrap();
    std::fs::write(to.join("other.txt"), [&listing[1..], b"\n"].concat()).unwrap();
    std::fs::remove_file(to.join("link.txt")).unwrap();
    std::os::unix::fs::symlink("same.txt", to.join("link.txt")).unwrap();
    assert_eq!(call([&from, &to]).0, 0);
    whole(&to);
    assert_eq!(written(), before);
    assert!(!std::fs::symlink_metadata(to.join("link.txt")).unwrap().is_symlink());
}

/// A listing that has no place is told; the others are written, every line is said, and the status is 2.
#[test]
fn a_listing_that_has_no_place() {
    let input = input("no place");
    let [from, to] = both(&input);
    let long = "n".repeat(255);
    for name in [long.as_str(), "folder", "sample"] {
        put(&from, name, SAMPLE);
    }
    std::fs::create_dir_all(to.join("folder.txt")).unwrap();
    let (status, out, errors) = call([Path::new("-j1"), &from, &to]);
    assert_eq!((status, out), (2, format!("folder closed\n{long} closed\nsample closed\n")));
    let told: Vec<&str> = errors.lines().collect();
    let first = format!("batch: cannot write {}: Is a directory", to.join("folder.txt").display());
    assert_eq!(
        (told[0], told[2]),
        (first.as_str(), "batch: 2 files could not be written or removed")
    );
    assert_eq!(names(&to), ["folder.txt", "sample.txt"]);
}
