//! The run: threads that check functions, lines in the order of the names, and the summary.

use crate::answer::{Finding, Kind, KINDS};
use crate::arguments::Arguments;
use crate::check::{Checker, STACK};
use crate::input::{self, shown_path, Table};
use crate::interrupt::{tell, Part};
use crate::limits;
use crate::output;
use crate::page::{Fragment, Page};
use std::collections::BTreeMap;
use std::ffi::OsString;
use std::io::{self, IsTerminal, Write};
use std::os::unix::ffi::OsStrExt;
use std::path::PathBuf;
use std::sync::atomic::{AtomicUsize, Ordering::Relaxed};
use std::sync::mpsc::{sync_channel, Receiver, SyncSender};
use std::sync::Arc;
use std::time::{Duration, Instant};

/// How often progress is shown on a terminal.
const PROGRESS: Duration = Duration::from_millis(200);
/// Findings that may wait to be told, for each thread.
const WAITING: usize = 16;

/// What the threads share.
struct Job {
    arguments: Arguments,
    table: Table,
    /// Sorted.
    names: Vec<OsString>,
    next: AtomicUsize,
    page: Option<Page>,
}

/// What a thread says of function `number`.
struct Told {
    number: usize,
    finding: Finding,
    written: Result<(), String>,
    fragment: Option<Result<Fragment, String>>,
}

/// Whether every function is closed; an error where nothing was done, or something could not be written.
pub fn run(arguments: Arguments) -> Result<bool, String> {
    let started = Instant::now();
    let job = Arc::new(prepared(arguments)?);
    let mut tally = Tally::default();
    tally.collect(&job, &begin(&job)?)?;
    if tally.printed < job.names.len() {
        let (printed, all) = (tally.printed, job.names.len());
        return Err(format!("stopped after {printed} of {all} functions"));
    }
    if let Some(page) = &job.page {
        tally.put_page(&job, page);
    }
    tell_left(&job, &mut tally);
    if tally.without_handlers > 0 {
        let count = tally.without_handlers;
        tell(&format!("{count} functions have no handlers.bin: their walks enter no handler"));
    }
    tell(&tally.summary(started.elapsed()));
    match tally.failures {
        0 => Ok(tally.count(Kind::Closed) == job.names.len()),
        failures => Err(format!("{failures} files could not be written or removed")),
    }
}

/// Everything that can be wrong before the first function.
fn prepared(mut arguments: Arguments) -> Result<Job, String> {
    let folder = &arguments.input;
    if !folder.is_dir() {
        return Err(format!("no folder {}", shown_path(folder)));
    }
    let table = Table::read(folder)?;
    let names = input::names(folder)?;
    if names.is_empty() {
        return Err(format!("no function in {}", shown_path(folder)));
    }
    output::prepare(folder, &arguments.output, arguments.html.as_deref())?;
    let wanted = arguments.threads.min(names.len());
    arguments.threads = limits::threads(wanted);
    if arguments.threads < wanted {
        tell(&format!("only {} threads: no more files may be open", arguments.threads));
    }
    let new = |file: &PathBuf| {
        let page = Page::new(file, arguments.threads);
        page.map_err(|e| output::cannot("write", file, &e))
    };
    let page = arguments.html.as_ref().map(new).transpose()?;
    Ok(Job { arguments, table, names, next: AtomicUsize::new(0), page })
}

/// Starts the threads. Where the system has room for some of them only, these do the work.
fn begin(job: &Arc<Job>) -> Result<Receiver<Told>, String> {
    let threads = job.arguments.threads;
    let (sender, receiver) = sync_channel(WAITING * threads);
    for thread in 0..threads {
        let (job, sender) = (job.clone(), sender.clone());
        let new = std::thread::Builder::new().stack_size(STACK);
        match new.spawn(move || work(&job, thread, &sender)) {
            Ok(_) => {}
            Err(e) if thread == 0 => return Err(format!("no thread: {}", input::reason(&e))),
            Err(e) => {
                tell(&format!("only {thread} threads: {}", input::reason(&e)));
                break;
            }
        }
    }
    Ok(receiver)
}

/// One thread: the next function that none has taken, until there is none or nobody listens.
fn work(job: &Job, thread: usize, sender: &SyncSender<Told>) {
    let mut checker = Checker::default();
    let output = &job.arguments.output;
    let part = Part::new(output);
    loop {
        let number = job.next.fetch_add(1, Relaxed);
        let Some(name) = job.names.get(number) else { return };
        let finding = checker.check(&job.table, &job.arguments.input.join(name));
        let written = match finding.listing {
            Some(_) => output::put_listing(output, &part, name, checker.text()),
            None => output::remove_listing(output, name),
        };
        let fragment = job.page.as_ref().map(|page| {
            let put = page.put(thread, number, name.as_bytes(), &finding, &checker);
            put.map_err(|e| output::cannot("write", page.file(), &e))
        });
        if sender.send(Told { number, finding, written, fragment }).is_err() {
            return;
        }
    }
}

/// What was told so far.
#[derive(Default)]
struct Tally {
    /// Lines that wait for one before them.
    waiting: BTreeMap<usize, String>,
    /// Functions whose lines are printed, and those that are done.
    printed: usize,
    done: usize,
    counts: [usize; KINDS.len()],
    fragments: Vec<(Kind, usize, Fragment)>,
    without_handlers: usize,
    failures: usize,
}

impl Tally {
    /// Prints the lines as they come, in the order of the names, until all threads are done.
    fn collect(&mut self, job: &Job, receiver: &Receiver<Told>) -> Result<(), String> {
        let mut out = io::stdout().lock();
        // Lines on a terminal are progress enough.
        let shows = io::stderr().is_terminal() && !out.is_terminal();
        let mut shown = Instant::now();
        for told in receiver {
            let name = job.names[told.number].as_bytes();
            let line = match job.arguments.json {
                true => told.finding.json(name),
                false => told.finding.line(name),
            };
            self.waiting.insert(told.number, line);
            self.add(told);
            while let Some(line) = self.waiting.remove(&self.printed) {
                let put = out.write_all(line.as_bytes());
                put.map_err(|e| format!("cannot write to standard output: {}", input::reason(&e)))?;
                self.printed += 1;
            }
            if shows && shown.elapsed() >= PROGRESS {
                shown = Instant::now();
                progress(self.done, job.names.len());
            }
        }
        let flushed = out.flush();
        flushed.map_err(|e| format!("cannot write to standard output: {}", input::reason(&e)))
    }

    fn add(&mut self, told: Told) {
        let kind = told.finding.kind();
        self.done += 1;
        self.counts[kind as usize] += 1;
        self.without_handlers += usize::from(told.finding.lacks_handlers());
        self.test(told.written);
        match told.fragment {
            Some(Ok(fragment)) => self.fragments.push((kind, told.number, fragment)),
            Some(Err(message)) => self.test(Err(message)),
            None => {}
        }
    }

    /// Of what could not be written the first is told, and all are counted.
    fn test(&mut self, written: Result<(), String>) {
        if let Err(message) = written {
            if self.failures == 0 {
                tell(&message);
            }
            self.failures += 1;
        }
    }

    fn count(&self, kind: Kind) -> usize {
        self.counts[kind as usize]
    }

    /// The page, unless a part of it is missing.
    fn put_page(&mut self, job: &Job, page: &Page) {
        self.fragments.sort_by_key(|(kind, number, _)| (*kind, *number));
        if self.fragments.len() < self.done {
            let page = shown_path(page.file());
            return self.test(Err(format!("cannot write {page}: a part of it is missing")));
        }
        let done = page.join(&job.arguments.input, &self.fragments);
        self.test(done.map_err(|e| output::cannot("write", page.file(), &e)));
    }

    fn summary(&self, time: Duration) -> String {
        let all = self.done;
        let [refused, unreadable, leaves, closed] = KINDS.map(|kind| self.count(kind));
        let rate = all as f64 / time.as_secs_f64().max(1e-6);
        let places = if rate < 10.0 { 2 } else { 0 };
        format!("{all} functions: {closed} closed, {leaves} leave, {refused} refused, {unreadable} unreadable; {rate:.places$} functions a second")
    }
}

fn progress(done: usize, all: usize) {
    let _ = io::stderr().write_all(format!("\rbatch: {done} of {all}").as_bytes());
}

/// Names what earlier runs left, and removes it if that is wanted.
fn tell_left(job: &Job, tally: &mut Tally) {
    let folder = &job.arguments.output;
    let left = match output::left(folder, &job.names) {
        Ok(left) => left,
        Err(e) => return tally.test(Err(output::cannot("read", folder, &e))),
    };
    for path in &left {
        let shown = shown_path(path);
        match job.arguments.prune.then(|| std::fs::remove_file(path)) {
            None => tell(&format!("{shown} is of no function in this run (--prune removes it)")),
            Some(Ok(())) => tell(&format!("{shown} was of no function in this run: removed")),
            Some(Err(e)) => tally.test(Err(output::cannot("remove", path, &e))),
        }
    }
}
