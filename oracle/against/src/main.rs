//! Our code against the Rust, in one process: exhaustive, random and damaged cases from a seed.
//!
//!   against SEED [-j N] [--codes N] [--stores N] [--tables N] [--short] [--real FOLDER]

use against::cases::Stock;
use against::compare::{Compare, Report};
use against::exhaustive;
use oracle::random::Random;
use oracle::real;
use std::path::PathBuf;
use std::process::ExitCode;
use std::time::Instant;

const USAGE: &str = "usage: oracle/compare SEED [-j N] [--codes N] [--stores N] [--tables N] [--short] [--real FOLDER]
  -j N           N cases at once (1)
  --codes N      functions over many tables (1000000)
  --stores N     odd and damaged stores (150000)
  --tables N     damaged tables (100000)
  --short        leave out the codes of 3 bytes
  --real FOLDER  damage the functions of a folder of listings (cases.jsonl, tables/) too";

/// So many functions share a table.
const TURN: u64 = 50;

struct Options {
    seed: u64,
    jobs: u64,
    codes: u64,
    stores: u64,
    tables: u64,
    short: bool,
    real: Option<PathBuf>,
}

fn options() -> Option<Options> {
    let mut args = std::env::args().skip(1);
    let seed = args.next()?.parse().ok()?;
    let mut o = Options {
        seed,
        jobs: 1,
        codes: 1_000_000,
        stores: 150_000,
        tables: 100_000,
        short: false,
        real: None,
    };
    while let Some(arg) = args.next() {
        match arg.as_str() {
            "-j" => o.jobs = args.next()?.parse().ok().filter(|n| (1..=64).contains(n))?,
            "--codes" => o.codes = args.next()?.parse().ok()?,
            "--stores" => o.stores = args.next()?.parse().ok()?,
            "--tables" => o.tables = args.next()?.parse().ok()?,
            "--short" => o.short = true,
            "--real" => o.real = Some(args.next()?.into()),
            _ => return None,
        }
    }
    Some(o)
}

fn main() -> ExitCode {
    let Some(options) = options() else {
        eprintln!("{USAGE}");
        return ExitCode::from(2);
    };
    let start = Instant::now();
    let reports: Result<Vec<Report>, String> = std::thread::scope(|scope| {
        let jobs: Vec<_> = (0..options.jobs)
            .map(|job| (job, &options))
            .map(|(job, o)| scope.spawn(move || run(o, job)))
            .collect();
        jobs.into_iter().map(|job| job.join().expect("a job ends")).collect()
    });
    match reports {
        Err(message) => {
            eprintln!("{message}");
            ExitCode::from(2)
        }
        Ok(reports) => {
            let mut whole = Report::default();
            reports.into_iter().for_each(|report| whole.add(report));
            print!("{whole}");
            println!("{:.0} seconds, seed {}", start.elapsed().as_secs_f64(), options.seed);
            let good = whole.differences.is_empty() && whole.missing(!options.short).is_empty();
            ExitCode::from(!good as u8)
        }
    }
}

/// One job's part of the cases. Every job makes its own stock from the seed.
fn run(options: &Options, job: u64) -> Result<Report, String> {
    let real = options.real.as_ref().map_or(Ok(Vec::new()), |folder| real::functions(folder))?;
    let mut r = Random::new(options.seed);
    let stock = Stock::new(&mut r, real);
    let mut r = Random::new(r.next() ^ job);
    let mut compare = Compare::new();
    let part = |all: u64| all / options.jobs + (job < all % options.jobs) as u64;
    let start = Instant::now();
    let done =
        |what: &str| eprintln!("job {job}: {what} done, {:.0} s", start.elapsed().as_secs_f64());
    let first = r.next();
    let turn = |case: u64| first.wrapping_add(case / TURN);
    for case in 0..part(options.codes) {
        let function = stock.function(&mut r, turn(case));
        compare.function(&mut r, &function);
    }
    done("codes");
    for case in 0..part(options.stores) {
        let files = stock.store(&mut r, turn(case));
        compare.files(&mut r, "stores", &files);
    }
    done("stores");
    for case in 0..part(options.tables) {
        let files = stock.table(&mut r, turn(case));
        compare.files(&mut r, "tables", &files);
        compare.decode(&files, &[0x02, 0x00], r.below(4) as usize);
        let files = stock.to_convert(&mut r);
        compare.convert(&mut r, &files);
    }
    done("tables");
    if job == 0 {
        compare.limits();
    }
    exhaustive::run(&mut compare, if options.short { 2 } else { 3 }, job, options.jobs);
    done("short codes");
    Ok(compare.report)
}
