//! Exception handlers: handlers.bin is lent to the walk check where a function has one, and told as the other files are where it is bad.

mod folder;

use folder::*;
use std::path::{Path, PathBuf};
use std::process::Command;

/// `02 0b 02 0b`: no walk comes by the last two, unless a handler leads there.
const CODE: &[u8] = &[0x02, 0x0b, 0x02, 0x0b];

/// A function for each way that handlers may be.
fn each(name: &str) -> PathBuf {
    let input = input(name);
    put_with(&input, "beyond", CODE, &[[0, 1, 2], [1, 5, 2]]);
    put_with(&input, "cut", &[0x03], &[[0, 1, 0]]);
    let cut = put(&input, "cut handlers", CODE);
    std::fs::write(cut.join(HANDLERS), [0; 13]).unwrap();
    put_with(&input, "leaves", CODE, &[[0, 4, 9]]);
    put_with(&input, "many", CODE, &[[0, 1, 2]; 4_096]);
    let missing = put(&input, "missing", CODE);
    std::fs::remove_file(missing.join(HANDLERS)).unwrap();
    put(&input, "none", CODE);
    put_with(&input, "reached", CODE, &[[0, 2, 2], [1, 2, 9]]);
    put_with(&input, "too many", CODE, &[[0, 1, 2]; 4_097]);
    input
}

#[test]
fn lines() {
    let input = each("handlers");
    let [from, to] = both(&input);
    let lines = "beyond refused 25 at 1
cut refused 14 at 1
cut handlers refused 24 at 0
leaves leaves steps 1 from 0
many closed
missing closed
none closed
reached closed
too many refused 24 at 0
";
    let (status, out, errors) = call([&from, &to]);
    assert_eq!((status, out.as_str()), (1, lines));
    let told = "batch: 1 functions have no handlers.bin: their walks enter no handler\nbatch: 9 functions: ";
    assert!(errors.starts_with(told) && errors.lines().count() == 2, "{errors}");
    // Of 24 and 25, which are the walk check's, the listing is written.
    assert_eq!(names(&to).len(), 8);
    assert_eq!(
        std::fs::read(to.join("beyond.txt")).unwrap(),
        std::fs::read(to.join("none.txt")).unwrap()
    );
}

/// How many records there are; null where there is no file, or no walk.
#[test]
fn json() {
    let (_, out, _) = call(
        [Path::new("--json")]
            .into_iter()
            .chain(both(&each("json of handlers")).iter().map(PathBuf::as_path)),
    );
    let handlers = out.lines().map(|line| line.split("\"handlers\":").last().unwrap());
    let handlers: Vec<&str> = handlers.collect();
    assert_eq!(handlers, ["2}", "null}", "1}", "1}", "4096}", "null}", "0}", "2}", "4096}"]);
}

/// What cannot be read is told, as the other files are: a folder, a pipe, a link that leads nowhere.
#[test]
fn unreadable() {
    let input = input("unreadable handlers");
    let [folder, pipe, link] = ["folder", "pipe", "link"].map(|name| {
        let path = put(&input, name, SAMPLE).join(HANDLERS);
        std::fs::remove_file(&path).unwrap();
        path
    });
    std::fs::create_dir(&folder).unwrap();
    assert!(Command::new("mkfifo").arg(&pipe).status().unwrap().success());
    std::os::unix::fs::symlink("nowhere", &link).unwrap();
    let [from, to] = both(&input);
    std::fs::create_dir(&to).unwrap();
    // The listing of an earlier run is not kept.
    std::fs::write(to.join("pipe.txt"), "Bytecode length: 5\n").unwrap();
    let lines = format!(
        "folder unreadable: {}: Is a directory\nlink unreadable: {}: No such file or directory\npipe unreadable: {}: not a regular file\n",
        folder.display(),
        link.display(),
        pipe.display()
    );
    let (status, out, errors) = call([&from, &to]);
    assert_eq!((status, out), (1, lines));
    assert!(errors.lines().count() == 1 && names(&to).is_empty(), "{errors}");
    // A link that leads to a file is read.
    std::fs::write(input.join("records"), [0, 0, 0, 0, 1, 0, 0, 0, 9, 0, 0, 0]).unwrap();
    std::fs::remove_file(&link).unwrap();
    std::os::unix::fs::symlink("../records", &link).unwrap();
    let (_, out, _) = call([&from, &to]);
    assert!(out.contains("link leaves steps 1 from 0\n"), "{out}");
}

/// Each function's part of the page, by its name.
fn part<'a>(page: &'a str, name: &str) -> &'a str {
    let start = page.find(&format!("<summary><b>{name}</b>")).unwrap();
    &page[start..start + page[start..].find("</details>").unwrap()]
}

#[test]
fn page() {
    let input = each("page of handlers");
    let [from, to] = both(&input);
    let page = to.join("index.html");
    call([Path::new("--html"), &page, &from, &to]);
    let page = std::fs::read_to_string(page).unwrap();
    let legend = "Walks enter exception handlers, unless a function has no handlers.bin.</p>";
    assert!(page.contains(legend));
    let missing = "<p>It has no handlers.bin: walks enter no exception handler of it.</p>\n";
    assert_eq!(page.matches(missing).count(), 1);
    let grey = |name: &str| part(&page, name).matches("class=u>").count();
    assert!(part(&page, "missing").contains(missing) && grey("missing") == 2);
    assert!(part(&page, "none").contains("4 instructions</small>") && grey("none") == 2);
    assert!(part(&page, "none").contains("none reaches 2 instructions.</p>\n<pre>"));
    let reached = part(&page, "reached");
    assert!(reached.contains("4 instructions, 2 handlers</small>"), "{reached}");
    assert!(reached.contains("<p>No walk leaves.</p>\n<pre>") && grey("reached") == 0);
    assert!(part(&page, "leaves").contains(" class=x>           @    0 : 02"));
    // Where the walk check is refused nothing is known of what walks reach.
    let beyond = part(&page, "beyond");
    assert!(beyond.contains("the end is beyond the code.</p>\n<pre>"), "{beyond}");
    assert!(beyond.contains("Return\n</pre>") && grey("beyond") == 0);
    let cut = part(&page, "cut handlers");
    assert!(cut.contains("<p>handlers.bin is not whole records, or has more than 4,096.</p>"));
}
