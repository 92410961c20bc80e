//! Runs that do not come to their end: interrupted, or on a full disk. No file is half, and none is left under a name that is not its own.

mod folder;

use folder::*;
use std::io::{BufRead, BufReader, Read};
use std::os::unix::process::ExitStatusExt;
use std::path::{Path, PathBuf};
use std::process::{Child, Command, Stdio};
use std::time::{Duration, Instant};

/// So many functions that their lines do not go into a pipe: a run whose lines nobody reads stands still in its middle.
const MANY: usize = 3_000;

fn many(name: &str) -> PathBuf {
    let input = input(name);
    for k in 0..MANY {
        put(&input, format!("{k:04}-{}", "n".repeat(60)), SAMPLE);
    }
    input
}

fn signal(run: &Child, name: &str) {
    let id = run.id().to_string();
    assert!(Command::new("kill").args([name, &id]).status().unwrap().success());
}

/// A run that has written some listings and not all. It holds its pipes.
fn begun(input: &Path, more: &[&Path]) -> Child {
    let [from, to] = both(input);
    let mut command = batch();
    command.args(["-j", "2"]).args(more).args([&from, &to]);
    let run = command.stdout(Stdio::piped()).stderr(Stdio::piped()).spawn().unwrap();
    let until = Instant::now() + Duration::from_secs(60);
    while !to.exists() || names(&to).len() < 100 {
        assert!(Instant::now() < until, "nothing is written");
        std::thread::sleep(Duration::from_millis(1));
    }
    run
}

fn all_whole(to: &Path) -> usize {
    for name in names(to) {
        assert!(name.to_str().unwrap().ends_with(".txt"), "{name:?} is left");
        assert_eq!(std::fs::read(to.join(&name)).unwrap(), sample_listing(), "{name:?}");
    }
    names(to).len()
}

#[test]
fn interrupted() {
    let input = many("interrupted");
    let [_, to] = both(&input);
    let page = to.with_file_name("page.html");
    for (name, status) in [("-INT", 130), ("-TERM", 143), ("-HUP", 129)] {
        let _ = std::fs::remove_dir_all(&to);
        let run = begun(&input, &[Path::new("--html"), &page]);
        signal(&run, name);
        let (ended, _, errors) = said(run.wait_with_output().unwrap());
        let told = "batch: interrupted: every listing there is whole\n";
        assert_eq!((ended, errors.as_str()), (status, told));
        let count = all_whole(&to);
        assert!((100..MANY).contains(&count), "{count}");
        assert_eq!(names(to.parent().unwrap()), ["in", "out"]);
    }
}

/// At any time, also before the first function and when the page is put together.
#[test]
fn interrupted_at_any_time() {
    let input = many("any time");
    let [from, to] = both(&input);
    let page = to.with_file_name("page.html");
    for pause in (0..40).map(|k| 3 * k) {
        let _ = std::fs::remove_dir_all(&to);
        let _ = std::fs::remove_file(&page);
        let mut command = batch();
        command.args([Path::new("--html"), &page, &from, &to]).stdout(Stdio::null());
        let mut run = command.stderr(Stdio::null()).spawn().unwrap();
        std::thread::sleep(Duration::from_millis(pause));
        signal(&run, "-INT");
        let status = run.wait().unwrap();
        // Before the program listens the signal ends it, and behind its end it hears none.
        assert!([Some(130), Some(0)].contains(&status.code()) || status.signal() == Some(2));
        if to.exists() {
            all_whole(&to);
        }
        if page.exists() {
            assert!(std::fs::read(&page).unwrap().ends_with(b"</html>\n"));
        }
        let left = names(to.parent().unwrap());
        assert!(left
            .iter()
            .all(|name| ["in", "out", "page.html"].map(Some).contains(&name.to_str())));
    }
}

/// A reader that goes away after some lines.
#[test]
fn a_reader_that_stops() {
    let input = many("reader");
    let mut run = begun(&input, &[]);
    let mut out = BufReader::new(run.stdout.take().unwrap());
    let mut line = String::new();
    out.read_line(&mut line).unwrap();
    assert!(line.starts_with("0000-") && line.ends_with(" closed\n"));
    drop(out);
    assert_eq!(run.wait().unwrap().code(), Some(2));
    let mut errors = String::new();
    run.stderr.take().unwrap().read_to_string(&mut errors).unwrap();
    assert_eq!(errors, "batch: cannot write to standard output: Broken pipe\n");
    assert!(all_whole(&both(&input)[1]) < MANY);
}

/// A signal that is ignored, as under nohup, stays so.
#[test]
fn an_ignored_signal() {
    let input = input("ignored");
    for k in 0..500 {
        put(&input, k.to_string(), SAMPLE);
    }
    let script = "trap '' HUP; exec \"$0\" \"$@\"";
    let mut command = Command::new("sh");
    command.args(["-c", script, env!("CARGO_BIN_EXE_batch")]).args(both(&input));
    let run = command.stdout(Stdio::piped()).stderr(Stdio::piped()).spawn().unwrap();
    std::thread::sleep(Duration::from_millis(10));
    signal(&run, "-HUP");
    let (status, out, _) = said(run.wait_with_output().unwrap());
    assert_eq!((status, out.lines().count()), (0, 500));
}

/// A disk of 512 KB, gone when the test ends.
struct Disk(PathBuf);

impl Disk {
    fn mounted(folder: PathBuf) -> Option<Disk> {
        std::fs::create_dir_all(&folder).unwrap();
        let mut mount = Command::new("mount");
        mount.args(["-t", "tmpfs", "-o", "size=512k", "none"]).arg(&folder);
        let done = mount.stderr(Stdio::null()).status().is_ok_and(|status| status.success());
        done.then_some(Disk(folder))
    }
}

impl Drop for Disk {
    fn drop(&mut self) {
        let _ = Command::new("umount").arg(&self.0).status();
    }
}

/// What does not go onto the disk is told; every line is said all the same, and what is there is whole.
#[test]
fn a_full_disk() {
    let input = many("full");
    let [from, to] = both(&input);
    let Some(disk) = Disk::mounted(to.clone()) else {
        eprintln!("skipped: a tmpfs cannot be mounted here");
        return;
    };
    let page = to.join("index.html");
    let (status, out, errors) = call([Path::new("--html"), &page, &from, &to]);
    assert_eq!((status, out.lines().count()), (2, MANY));
    assert!(errors.contains("No space left on device") && errors.lines().count() == 3, "{errors}");
    assert!(errors.ends_with("files could not be written or removed\n"), "{errors}");
    let count = all_whole(&to);
    assert!((1..MANY).contains(&count), "{count}");
    drop(disk);
}

/// The listings have room, and the page has not.
#[test]
fn a_full_disk_for_the_page() {
    let input = many("full page");
    let [from, to] = both(&input);
    let Some(disk) = Disk::mounted(to.with_file_name("disk")) else {
        eprintln!("skipped: a tmpfs cannot be mounted here");
        return;
    };
    let page = disk.0.join("index.html");
    let (status, out, errors) = call([Path::new("--html"), &page, &from, &to]);
    assert_eq!((status, out.lines().count(), all_whole(&to)), (2, MANY, MANY));
    assert!(errors.contains("index.html: No space left on device"), "{errors}");
    assert!(names(&disk.0).is_empty());
}
