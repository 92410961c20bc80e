//! How the program ends: files that are not whole are removed first, by a signal too.

use std::fs::File;
use std::io::{self, IsTerminal, Write};
use std::path::{Path, PathBuf};
use std::sync::atomic::{AtomicBool, AtomicI32, Ordering::Relaxed, Ordering::SeqCst};
use std::sync::{PoisonError, RwLock};
use std::time::Duration;

const HANGUP: i32 = 1;
const INTERRUPT: i32 = 2;
const TERMINATE: i32 = 15;
const DEFAULT: usize = 0;
const IGNORE: usize = 1;
const STANDARD_OUTPUT: i32 = 1;
const GET_FLAGS: i32 = 1;

extern "C" {
    fn signal(number: i32, handler: usize) -> usize;
    fn fcntl(file: i32, command: i32, ...) -> i32;
    fn _exit(status: i32) -> !;
}

/// The signal that came, or 0.
static SIGNAL: AtomicI32 = AtomicI32::new(0);
static CLOSED: AtomicBool = AtomicBool::new(false);
static LEAVING: AtomicBool = AtomicBool::new(false);
/// Every name that a part may have. Who writes here lets no part be made.
static PARTS: RwLock<Vec<PathBuf>> = RwLock::new(Vec::new());

extern "C" fn note(number: i32) {
    SIGNAL.store(number, Relaxed);
}

/// Whether standard output was closed when the program began. Rust's runtime opens /dev/null in its place, and all would seem written.
pub fn output_is_closed() -> bool {
    CLOSED.load(Relaxed)
}

extern "C" fn look() {
    // Safety: asks for a number's flags and changes nothing.
    CLOSED.store(unsafe { fcntl(STANDARD_OUTPUT, GET_FLAGS) } < 0, Relaxed);
}

/// Called before Rust's runtime begins.
#[used]
#[link_section = ".init_array"]
static LOOK: extern "C" fn() = look;

/// From here on a signal ends the program by `leave`, within some milliseconds, whatever its threads do. One that is ignored stays so.
pub fn watch() {
    for number in [HANGUP, INTERRUPT, TERMINATE] {
        // Safety: `note` only stores a number, which a handler may do.
        unsafe {
            if signal(number, note as extern "C" fn(i32) as usize) == IGNORE {
                signal(number, IGNORE);
            }
        }
    }
    std::thread::spawn(|| loop {
        std::thread::sleep(Duration::from_millis(20));
        match SIGNAL.load(Relaxed) {
            0 => {}
            number => leave(128 + number, Some("interrupted: every listing there is whole")),
        }
    });
}

/// Removes every file that is not whole and ends the program. A further signal does not wait for what is told.
pub fn leave(status: i32, message: Option<&str>) -> ! {
    let parts = PARTS.write().unwrap_or_else(PoisonError::into_inner);
    LEAVING.store(true, SeqCst);
    for part in parts.iter() {
        let _ = std::fs::remove_file(part);
    }
    for number in [HANGUP, INTERRUPT, TERMINATE] {
        // Safety: sets what the system does by itself.
        unsafe { signal(number, DEFAULT) };
    }
    if let Some(message) = message {
        say(message);
    }
    // Safety: nothing is buffered. No thread makes a file meanwhile, since `parts` is held.
    unsafe { _exit(status) }
}

/// A line on standard error, and nothing more where it cannot be written. Once the program leaves, what fails for that is not told.
pub fn tell(message: &str) {
    if !LEAVING.load(SeqCst) {
        say(message);
    }
}

fn say(message: &str) {
    let mut errors = io::stderr().lock();
    let clear = if errors.is_terminal() { "\r\x1b[K" } else { "" };
    let _ = errors.write_all(format!("{clear}batch: {message}\n").as_bytes());
}

/// A name for files that are being written, one after the other: each gets its own name once it is whole, and else is gone.
pub struct Part(PathBuf);

impl Part {
    pub fn new(folder: &Path) -> Part {
        let mut parts = PARTS.write().unwrap_or_else(PoisonError::into_inner);
        let name = format!("{PREFIX}{}-{}{SUFFIX}", std::process::id(), parts.len());
        let path = folder.join(name);
        parts.push(path.clone());
        Part(path)
    }

    /// Makes the file by `fill`, whole or not at all.
    pub fn whole(&self, path: &Path, fill: impl FnOnce(&File) -> io::Result<()>) -> io::Result<()> {
        let file = self.made()?;
        let done = fill(&file).and_then(|_| std::fs::rename(&self.0, path));
        done.inspect_err(|_| {
            let _ = std::fs::remove_file(&self.0);
        })
    }

    /// A file that no folder names any more: nothing is left of it when the program ends.
    pub fn nameless(&self) -> io::Result<File> {
        let file = self.made()?;
        std::fs::remove_file(&self.0)?;
        Ok(file)
    }

    fn made(&self) -> io::Result<File> {
        let _parts = PARTS.read().unwrap_or_else(PoisonError::into_inner);
        let make = || File::options().read(true).write(true).create_new(true).open(&self.0);
        match make() {
            // A killed run with the same number has left it.
            Err(e) if e.kind() == io::ErrorKind::AlreadyExists => {
                std::fs::remove_file(&self.0)?;
                make()
            }
            made => made,
        }
    }
}

const PREFIX: &str = ".batch-";
const SUFFIX: &str = ".part";

/// Whether a name is one that a part has whose run was killed.
pub fn is_left_over(name: &str) -> bool {
    let numbers = name.strip_prefix(PREFIX).and_then(|name| name.strip_suffix(SUFFIX));
    let Some((run, part)) = numbers.and_then(|numbers| numbers.split_once('-')) else {
        return false;
    };
    let digits = |text: &str| !text.is_empty() && text.bytes().all(|b| b.is_ascii_digit());
    digits(run) && digits(part) && !Path::new("/proc").join(run).exists()
}
