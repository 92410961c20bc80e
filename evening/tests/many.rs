//! Ten thousand functions, in memory that depends on the threads and not on them.

mod folder;

use folder::*;
use std::fs::File;
use std::path::Path;
use std::process::Stdio;

const FEW: usize = 500;
const MANY: usize = 10_000;

extern "C" {
    /// The last is a `struct rusage`: 18 numbers, the fifth of them the most memory in KB.
    fn wait4(id: i32, status: *mut i32, options: i32, usage: *mut [i64; 18]) -> i32;
}

/// Each tenth has 8 KiB of code and a listing of 340 KB; each hundredth leaves. Equal ones share their files.
fn put_many(input: &Path, functions: usize) {
    for k in 0..functions {
        let of = if k % 10 == 0 {
            0
        } else if k % 100 == 7 {
            7
        } else {
            1
        };
        if k == of {
            let mut code = vec![0x02; if k == 0 { 8_192 } else { 100 }];
            code.push(if k == 7 { 0x02 } else { 0x0b });
            put(input, format!("{k:05}"), &code);
            continue;
        }
        let [from, to] = [of, k].map(|k| input.join(format!("{k:05}")));
        std::fs::create_dir(&to).unwrap();
        for file in STORE {
            std::fs::hard_link(from.join(file), to.join(file)).unwrap();
        }
    }
}

/// The most memory, in KB, that the program takes for a folder, with a page; all of it is checked.
fn peak(name: &str, functions: usize) -> i64 {
    let input = input(name);
    put_many(&input, functions);
    let [from, to] = both(&input);
    let (page, lines) = (to.join("index.html"), to.with_file_name("lines"));
    let mut command = batch();
    command.args([Path::new("-j2"), &from, &to, Path::new("--html"), &page]);
    command.stdout(File::create(&lines).unwrap()).stderr(Stdio::null());
    let mut run = command.spawn().unwrap();
    let (mut status, mut usage) = (0, [0; 18]);
    // Safety: the id is that of a child that nobody else waits for; both places are as large as the call writes.
    assert_eq!(unsafe { wait4(run.id() as i32, &mut status, 0, &mut usage) }, run.id() as i32);
    // It is gone already; the standard library is to know it.
    let _ = run.wait();
    assert_eq!(status >> 8, 1);
    let lines = std::fs::read_to_string(lines).unwrap();
    for (k, line) in lines.lines().enumerate() {
        let closed = format!("{k:05} closed");
        let leaves = format!("{k:05} leaves steps 101 from 100");
        assert_eq!(line, if k % 100 == 7 { leaves } else { closed });
    }
    assert_eq!((lines.lines().count(), names(&to).len()), (functions, functions + 1));
    usage[4]
}

#[test]
#[ignore = "writes 20,000 files and folders; run by .ci/around"]
fn ten_thousand_functions() {
    let (few, many) = (peak("few", FEW), peak("many", MANY));
    println!("{few} KB for {FEW} functions, {many} KB for {MANY}");
    assert!(many < few + 8 * 1_024 && many < 64 * 1_024, "{few} and {many} KB");
}
