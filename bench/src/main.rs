//! Our listing and the Rust's on the same functions, in one process, and our walk check beside them.
//!
//!   bench FOLDER [ROUNDS]        all functions of a folder of listings, then how cost grows with the code
//!   bench once ours|rust FOLDER  each function once, for a count of instructions by valgrind
//!   bench worst                  the worst cases within document 01's limits

mod worst;

use jscd_capi as ours;
use oracle::port::{Port, STORE, TABLE};
use oracle::real::{self, Real};
use oracle::records::*;
use oracle::sample;
use std::hint::black_box;
use std::path::Path;
use std::process::ExitCode;

const ROUNDS: usize = 31;
/// A measurement runs for about so long, in microseconds.
const SPAN: f64 = 2_000.0;

fn main() -> ExitCode {
    let args: Vec<String> = std::env::args().skip(1).collect();
    let args: Vec<&str> = args.iter().map(String::as_str).collect();
    let done = match args.as_slice() {
        ["worst"] => worst::report(),
        ["once", which @ ("ours" | "rust"), folder] => once(which, Path::new(folder)),
        [folder] => whole(Path::new(folder), ROUNDS),
        [folder, rounds] => match rounds.parse() {
            Ok(rounds) if rounds > 0 => whole(Path::new(folder), rounds),
            _ => Err(format!("not a number of rounds: {rounds}")),
        },
        _ => Err("usage: bench FOLDER [ROUNDS]; bench once ours|rust FOLDER; bench worst".into()),
    };
    match done {
        Ok(()) => ExitCode::SUCCESS,
        Err(message) => {
            eprintln!("{message}");
            ExitCode::from(2)
        }
    }
}

fn whole(folder: &Path, rounds: usize) -> Result<(), String> {
    let functions = real::functions(folder)?;
    for function in &functions {
        agree(&function.files, &function.name)?;
    }
    report(&functions, rounds);
    growth(rounds);
    Ok(())
}

fn once(which: &str, folder: &Path) -> Result<(), String> {
    let functions = real::functions(folder)?;
    let mut room = Room::new();
    for function in &functions {
        match which {
            "ours" => black_box(room.ours(&function.files)),
            _ => black_box(room.rust(&Port::new(&function.files, TABLE | STORE)?)),
        };
    }
    Ok(())
}

// ---- what is measured ----

// A further call is one more function of `Room`, measured in `measure` and shown in `report` and `growth`.

/// The buffers of both, made once: neither grows while it is measured.
struct Room {
    bytes: Vec<u8>,
    text: String,
}

impl Room {
    fn new() -> Room {
        Room::of(1 << 23)
    }

    fn of(size: usize) -> Room {
        Room { bytes: vec![0; size], text: String::with_capacity(size) }
    }

    /// The whole call: all checks of the eight files, and the listing.
    fn ours(&mut self, files: &Files) -> usize {
        ours::list(&lent(files), 0, &mut self.bytes).unwrap_or(0)
    }

    /// The checks of the eight files alone: the call for an object that is not there, which is refused with 8 behind them.
    fn checks(&mut self, files: &Files) -> usize {
        ours::list(&lent(files), usize::MAX, &mut self.bytes).unwrap_or(0)
    }

    /// The whole call of the walk check, with the same checks of the files. It has marks for every code.
    fn walk(&mut self, files: &Files) -> usize {
        match ours::walk(&lent(files), 0, &mut self.bytes) {
            Ok(ours::Walked::Leaves { steps, .. }) => steps,
            _ => 0,
        }
    }

    /// `render_sfi` on structures that are there already. It writes the pool behind the lines, too (see `pool`).
    fn rust(&mut self, port: &Port) -> usize {
        self.text.clear();
        let dis = port.disassembler();
        dis.open_render_sfi(port.shared_function_info(), "", &mut self.text).expect("it decodes");
        self.text.len()
    }

    /// The part of `render_sfi` that our listing does not have: the pool's elements as text.
    fn pool(&mut self, port: &Port) -> usize {
        let entries = port.pool(0).map(|pool| port.disassembler().fixed_array_entries(pool));
        self.text.clear();
        for (i, entry) in entries.iter().flatten().enumerate() {
            use std::fmt::Write;
            let _ = writeln!(self.text, "{i:>12}: {entry}");
        }
        self.text.len()
    }
}

fn lent(files: &Files) -> ours::Files<'_> {
    let [opcodes, types, runtime, intrinsic, layout, objects, slots, payload] = &files.body;
    ours::Files { opcodes, types, runtime, intrinsic, layout, objects, slots, payload }
}

/// Both list the function alike; else there is nothing to compare.
fn agree(files: &Files, name: &str) -> Result<(), String> {
    let mut room = Room::new();
    match ours::list(&lent(files), usize::MAX, &mut room.bytes) {
        Err(refusal) if refusal.number == 8 => (),
        other => return Err(format!("{name}: {other:?} for an object that is not there")),
    }
    let size = ours::list(&lent(files), 0, &mut room.bytes).map_err(|r| format!("{name}: {r}"))?;
    let port = Port::new(files, TABLE | STORE)?;
    room.rust(&port);
    alike(&room, size, name)
}

/// The room's bytes, so many of them, are its text between the line that names the function and the pool.
fn alike(room: &Room, size: usize, name: &str) -> Result<(), String> {
    let lines = room.text.find('\n').map_or("", |end| &room.text[end + 1..]);
    let end = lines.find("\nConstant pool").map_or(lines.len(), |end| end + 1);
    match &lines.as_bytes()[..end] == &room.bytes[..size] {
        true => Ok(()),
        false => Err(format!("{name}: our listing is not the Rust's")),
    }
}

/// Microseconds of a call, from so many.
fn time(times: usize, mut call: impl FnMut() -> usize) -> f64 {
    let start = spent();
    for _ in 0..times {
        black_box(call());
    }
    (spent() - start) * 1e6 / times as f64
}

/// Seconds of processor time that this thread has spent: other programs on the machine do not count.
fn spent() -> f64 {
    #[repr(C)]
    struct Time {
        seconds: i64,
        nanoseconds: i64,
    }
    extern "C" {
        fn clock_gettime(clock: i32, time: *mut Time) -> i32;
    }
    const THREAD: i32 = 3;
    let mut time = Time { seconds: 0, nanoseconds: 0 };
    // Safety: Linux on x86-64 has two numbers of 64 bits here, and writes them.
    let failed = unsafe { clock_gettime(THREAD, &mut time) };
    assert_eq!(failed, 0, "no clock of the thread's time");
    time.seconds as f64 + time.nanoseconds as f64 / 1e9
}

fn times_for(call: impl FnMut() -> usize) -> usize {
    (SPAN / time(3, call).max(0.01)).ceil().max(1.0) as usize
}

fn median(values: &mut [f64]) -> f64 {
    values.sort_by(f64::total_cmp);
    values[values.len() / 2]
}

/// Medians over the rounds, in each of which all calls run one after the other.
struct Medians {
    ours: f64,
    rust: f64,
    pool: f64,
    checks: f64,
    walk: f64,
}

fn measure(files: &Files, rounds: usize) -> Medians {
    let port = Port::new(files, TABLE | STORE).expect("it was compared");
    let mut room = Room::new();
    let times = [
        times_for(|| room.ours(files)),
        times_for(|| room.rust(&port)),
        times_for(|| room.pool(&port)),
        times_for(|| room.checks(files)),
        times_for(|| room.walk(files)),
    ];
    let mut all = [const { Vec::new() }; 5];
    for _ in 0..rounds {
        all[0].push(time(times[0], || room.ours(files)));
        all[1].push(time(times[1], || room.rust(&port)));
        all[2].push(time(times[2], || room.pool(&port)));
        all[3].push(time(times[3], || room.checks(files)));
        all[4].push(time(times[4], || room.walk(files)));
    }
    let [ours, rust, pool, checks, walk] = all.map(|mut values| median(&mut values));
    Medians { ours, rust, pool, checks, walk }
}

impl Medians {
    /// How many times as long the Rust takes for what our listing has.
    fn ratio(&self) -> f64 {
        (self.rust - self.pool) / self.ours
    }

    /// The same, with our checks of the files left out: the Rust's table and store are there before it starts.
    fn checked(&self) -> f64 {
        (self.rust - self.pool) / (self.ours - self.checks).max(0.001)
    }

    fn line(&self, name: &str, bytes: usize) -> String {
        let Medians { ours, rust, pool, checks, walk } = self;
        let (ratio, checked) = (self.ratio(), self.checked());
        format!("{name:<10} {bytes:>6} {ours:>10.2} {checks:>10.2} {rust:>10.2} {pool:>8.2} {ratio:>7.2} {checked:>8.2} {walk:>10.2}")
    }
}

// ---- reports ----

fn report(functions: &[Real], rounds: usize) {
    println!("Listing: medians of {rounds} rounds, in microseconds of processor time.");
    println!("ours: the whole call, all checks of the files counted in; checks: these alone.");
    println!("rust: render_sfi on structures that are there; pool: the part of it that writes the pool, which");
    println!("our listing does not have. ratio: (rust - pool) / ours; checked: (rust - pool) / (ours - checks).");
    println!("walk: the whole call of our walk check, which the Rust does not have.");
    let heads = ["function", "bytes", "ours", "checks", "rust", "pool", "ratio", "checked", "walk"];
    let [a, b, c, d, e, f, g, h, i] = heads;
    println!("{a:<10} {b:>6} {c:>10} {d:>10} {e:>10} {f:>8} {g:>7} {h:>8} {i:>10}");
    let mut sum = Medians { ours: 0.0, rust: 0.0, pool: 0.0, checks: 0.0, walk: 0.0 };
    let mut ratios = Vec::new();
    for function in functions {
        let m = measure(&function.files, rounds);
        println!("{}", m.line(&function.name, function.code));
        sum.ours += m.ours;
        sum.rust += m.rust;
        sum.pool += m.pool;
        sum.checks += m.checks;
        sum.walk += m.walk;
        ratios.push(m.ratio());
    }
    println!("{}", sum.line("all", functions.iter().map(|f| f.code).sum()));
    let (least, most) = ratios.iter().fold((f64::MAX, 0f64), |(a, b), r| (a.min(*r), b.max(*r)));
    let (whole, checked, middle) = (sum.ratio(), sum.checked(), median(&mut ratios));
    println!("ratio: {whole:.2} for all functions, {checked:.2} without the checks; of single functions median {middle:.2}, least {least:.2}, most {most:.2}");
}

/// Code that grows: one-byte instructions, and the sample's instructions in turn.
fn growth(rounds: usize) {
    println!();
    println!("Listing and walk check by the length of the code: nanoseconds of processor time a byte of code.");
    let [a, b, c, d, e, f] = ["code", "bytes", "ours", "rust", "ratio", "walk"];
    println!("{a:<24} {b:>7} {c:>9} {d:>9} {e:>7} {f:>9}");
    for (name, unit) in [("LdaZero", &[0x02][..]), ("mixed", &MIXED)] {
        for kib in [1, 4, 16, 64] {
            let length = kib * 1024;
            let code: Vec<u8> =
                unit.iter().copied().cycle().take(length / unit.len() * unit.len()).collect();
            let files = sample::function(&code, 8, &[]);
            let m = measure(&files, rounds.min(11));
            let per = |time: f64| time * 1000.0 / code.len() as f64;
            let (ours, rust, walk) = (per(m.ours), per(m.rust), per(m.walk));
            let (bytes, ratio) = (code.len(), rust / ours);
            println!("{name:<24} {bytes:>7} {ours:>9.2} {rust:>9.2} {ratio:>7.2} {walk:>9.2}");
        }
    }
}

/// LdaSmi, Star, Jump, JumpIfTrue, JumpLoop, LdaSmi.Wide, CallRuntime, Return.
const MIXED: [u8; 21] = [
    0x03, 0x05, 0x04, 0xfa, 0x05, 0x02, 0x06, 0x02, 0x07, 0x00, 0x00, 0x00, 0x03, 0x80, 0x01, 0x0a,
    0x05, 0x00, 0xfa, 0x02, 0x0b,
];
