//! Damaged caches: every byte of a small cache changed in turn, random bytes changed, and random cuts. The export never stops and never takes
//! long; what it still writes passes the checks of rows 1 to 8, its handler records pass 24 and 25, and the programs list and walk it or refuse it by
//! number, as the oracle does.

use jscd_export::cache;
use jscd_export::export::Function;
use oracle::ask::{ask, Call, LISTING, WALK};
use oracle::checks;
use oracle::port::{Port, STORE, TABLE};
use oracle::random::Random;
use oracle::records::{u32_at, Files, NAMES};
use std::collections::{BTreeMap, BTreeSet};
use std::path::{Path, PathBuf};
use std::process::Command;
use std::sync::mpsc;
use std::time::Duration;

const CACHES: [&[u8]; 2] = [include_bytes!("data/node18.jsc"), include_bytes!("data/node20.jsc")];
/// Caches with many handler tables.
const HANDLERS: [&[u8]; 2] =
    [include_bytes!("data/handlers18.jsc"), include_bytes!("data/handlers20.jsc")];
const HEADER: usize = 24;
const PAYLOAD_LENGTH: usize = 16;
const CHECKSUM: usize = 20;

/// What became of the damaged caches.
#[derive(Default)]
struct Seen {
    /// Caches refused, by the first words of the reason, and caches written.
    refused: BTreeMap<String, usize>,
    written: usize,
    /// Functions that differ from the undamaged ones: what the listing says of them, and how many the programs were asked for.
    said: BTreeMap<String, usize>,
    left_out: usize,
    asked: usize,
    /// Handler records of functions that were looked at, and functions left out for their handlers.
    handlers: usize,
    bad_handlers: usize,
    /// Functions that were looked at already: their files and handlers.
    functions: BTreeSet<([Vec<u8>; 3], Vec<u8>)>,
    folder: PathBuf,
}

/// Reads a cache within a time limit.
fn read(data: Vec<u8>) -> Result<cache::Cache, String> {
    let (send, receive) = mpsc::channel();
    let copy = data.clone();
    std::thread::spawn(move || send.send(cache::read(&copy)));
    let read = receive.recv_timeout(Duration::from_secs(20));
    read.unwrap_or_else(|_| panic!("a cache takes more than 20 seconds: {data:02x?}"))
}

impl Seen {
    /// With a folder of its own, below the build's.
    fn in_folder(name: &str) -> Seen {
        let folder = Path::new(env!("CARGO_TARGET_TMPDIR")).join("damage").join(name);
        Seen { folder, ..Seen::default() }
    }

    fn cache(&mut self, data: Vec<u8>) {
        match read(data) {
            Err(message) => {
                let why = message.split("not for: ").last().unwrap();
                let words = why.split(' ').filter(|word| word.chars().all(|c| !c.is_numeric()));
                let words: Vec<&str> = words.take(3).collect();
                *self.refused.entry(words.join(" ")).or_default() += 1;
            }
            Ok(cache) => {
                self.written += 1;
                let refused = &cache.all.refused;
                self.left_out += refused.len();
                self.bad_handlers +=
                    refused.iter().filter(|(_, why)| why.contains("handler")).count();
                for function in &cache.all.functions {
                    let Function { store, handlers, .. } = function;
                    if self.functions.insert((store.clone(), handlers.records.clone())) {
                        self.handlers += handlers.count();
                        self.function(&cache.all.table, function);
                    }
                }
            }
        }
    }

    /// A function passes the checks, and is listed or refused; one in ten is asked of the programs too.
    fn function(&mut self, table: &[Vec<u8>; 5], function: &Function) {
        let mut files = Files::default();
        for (body, file) in files.body.iter_mut().zip(table.iter().chain(&function.store)) {
            *body = file.clone();
        }
        assert_eq!(checks::table(&files, TABLE), Ok(()));
        assert_eq!(checks::store(&files, checks::PROGRAM_FILE), Ok(()));
        assert_eq!(checks::function(&files, 0), Ok(0));
        handler_checks(&files, &function.handlers.records);
        let listing = ask(&files, &[], &Call::new(LISTING, &[])).unwrap().to_string();
        let kind = match listing.starts_with("refused") {
            true => listing.split(" at").next().unwrap(),
            false => "listed",
        };
        *self.said.entry(kind.into()).or_default() += 1;
        if self.functions.len() % 10 == 0 {
            self.asked += 1;
            let walk = ask(&files, &[], &Call::new(WALK, &[65_536])).unwrap().to_string();
            files.write(&self.folder).unwrap();
            assert_eq!(self.program("jscd_list"), listing.trim_end());
            assert_eq!(self.program("jscd_walk"), walk);
        }
    }

    /// What a program says of the function in the folder.
    fn program(&self, name: &str) -> String {
        let root = Path::new(env!("CARGO_MANIFEST_DIR")).join("..");
        let paths = NAMES.map(|name| self.folder.join(name));
        let out = Command::new(root.join("target/bin").join(name)).args(paths).output().unwrap();
        assert_eq!(String::from_utf8_lossy(&out.stderr), "");
        String::from_utf8(out.stdout).unwrap().trim_end().into()
    }

    fn report(&self) {
        println!("{} written, refused {:?}", self.written, self.refused);
        let (left, asked) = (self.left_out, self.asked);
        println!("  functions {:?}, {left} left out, {asked} asked of the programs", self.said);
        println!("  {} handlers, {} left out for theirs", self.handlers, self.bad_handlers);
    }
}

/// Numbers 24 and 25: whole records, up to 4,096, each start below its end, and no end beyond the code.
fn handler_checks(files: &Files, records: &[u8]) {
    assert!(records.len() % 12 == 0 && records.len() <= 4_096 * 12);
    let port = Port::new(files, TABLE | STORE).unwrap();
    let good = (0..=65_536).contains(&port.code_length(0));
    let code = if good { port.code(0).len() } else { 0 };
    for record in records.chunks(12) {
        let (start, end) = (u32_at(record, 0), u32_at(record, 4));
        assert!(start < end && end as usize <= code, "{start} to {end} in {code}");
    }
}

/// Without its checksum, so that damage reaches the parser.
fn unsummed(cache: &[u8]) -> Vec<u8> {
    let mut data = cache.to_vec();
    data[CHECKSUM..HEADER].fill(0);
    data
}

/// Where a cache has its checksum, a changed byte of the payload never passes, and of the header only in what is not tested: the lower half of
/// the magic, the length of the source and the hash of the flags.
#[test]
fn every_byte_of_a_cache_with_its_checksum() {
    for cache in CACHES {
        let passed: Vec<usize> = (0..cache.len())
            .filter(|k| {
                let mut data = cache.to_vec();
                data[*k] ^= 0x80;
                cache::checked(&data).is_ok()
            })
            .collect();
        assert_eq!(passed, [0, 1, 8, 9, 10, 11, 12, 13, 14, 15]);
    }
}

/// Every byte in turn, in four ways; the parser sees all of it.
#[test]
fn every_byte_in_turn() {
    let mut seen = Seen::in_folder("bytes");
    for cache in CACHES {
        seen.cache(unsummed(cache));
        let whole = seen.functions.len();
        for k in HEADER..cache.len() {
            for change in [0x01, 0x10, 0x80, 0xff] {
                let mut data = unsummed(cache);
                data[k] ^= change;
                seen.cache(data);
            }
        }
        assert!(seen.functions.len() > whole + 500);
    }
    seen.report();
    assert!(seen.written > 5_000 && seen.refused.values().sum::<usize>() > 1_000);
    for kind in ["listed", "refused 9", "refused 13", "refused 14"] {
        assert!(seen.said.contains_key(kind), "no function {kind}");
    }
    assert!(seen.asked > 100);
}

/// One to twelve bytes anywhere in the payload.
#[test]
fn random_bytes() {
    let mut seen = Seen::in_folder("random");
    let mut r = Random::new(16);
    for k in 0..6_000 {
        let mut data = unsummed(CACHES[k % 2]);
        for _ in 0..1 + r.below(12) {
            let at = HEADER + r.below((data.len() - HEADER) as u64) as usize;
            data[at] = r.next() as u8;
        }
        seen.cache(data);
    }
    seen.report();
    assert!(seen.written > 300 && seen.refused.values().sum::<usize>() > 2_000);
}

/// The same in caches with many handler tables, so that these are hit.
#[test]
fn random_bytes_of_handlers() {
    let mut seen = Seen::in_folder("handlers");
    let mut r = Random::new(18);
    for k in 0..4_000 {
        let mut data = unsummed(HANDLERS[k % 2]);
        for _ in 0..1 + r.below(3) {
            let at = HEADER + r.below((data.len() - HEADER) as u64) as usize;
            data[at] = r.next() as u8;
        }
        seen.cache(data);
    }
    seen.report();
    assert!(seen.written > 1_000 && seen.handlers > 1_000 && seen.bad_handlers > 50);
}

/// Cuts: refused by the length in the header; and where the header says the length that is left, by the parser.
#[test]
fn cuts() {
    let mut seen = Seen::in_folder("cuts");
    let mut r = Random::new(17);
    for k in 0..1_000 {
        let cache = unsummed(CACHES[k % 2]);
        let cut = r.below(cache.len() as u64) as usize;
        assert!(cache::checked(&cache[..cut]).is_err());
        let mut data = cache[..cut].to_vec();
        if cut >= HEADER {
            let left = (cut - HEADER) as u32;
            data[PAYLOAD_LENGTH..CHECKSUM].copy_from_slice(&left.to_le_bytes());
        }
        // Bytes taken out of the middle, too.
        let mut holed = cache.clone();
        let from = HEADER + r.below((cache.len() - HEADER) as u64) as usize;
        let count = r.below(40).min((cache.len() - from) as u64) as usize;
        holed.drain(from..from + count);
        let left = (holed.len() - HEADER) as u32;
        holed[PAYLOAD_LENGTH..CHECKSUM].copy_from_slice(&left.to_le_bytes());
        seen.cache(data);
        seen.cache(holed);
    }
    seen.report();
    assert!(seen.refused.values().sum::<usize>() > 1_800);
}

/// Objects within objects, far deeper than V8 writes them: the parser counts how deep it is.
#[test]
fn a_deep_nest() {
    let mut data = unsummed(CACHES[1])[..HEADER].to_vec();
    // A new object of two words, whose map is a new object of two words ..
    data.extend([0x00, 2 << 2].repeat(500_000));
    let payload = (data.len() - HEADER) as u32;
    data[PAYLOAD_LENGTH..CHECKSUM].copy_from_slice(&payload.to_le_bytes());
    let message = read(data).err().unwrap();
    assert!(message.ends_with("ref recursion too deep"), "{message}");
}

/// The program itself on some of them: it ends by itself, with status 0, 1 or 2, and where it is 2 nothing is written.
#[test]
fn the_program_ends() {
    let folder = PathBuf::from(env!("CARGO_TARGET_TMPDIR")).join("ends");
    let _ = std::fs::remove_dir_all(&folder);
    std::fs::create_dir_all(&folder).unwrap();
    let mut statuses = BTreeMap::new();
    for k in (HEADER..CACHES[1].len()).step_by(8) {
        let mut data = unsummed(CACHES[1]);
        data[k] ^= 0xff;
        let (path, out) = (folder.join("cache.jsc"), folder.join("out"));
        std::fs::write(&path, &data).unwrap();
        let _ = std::fs::remove_dir_all(&out);
        let said = Command::new(env!("CARGO_BIN_EXE_export_cache")).arg(&path).arg(&out).output();
        let said = said.unwrap();
        let status = said.status.code().unwrap_or_else(|| panic!("byte {k}: ended by a signal"));
        *statuses.entry(status).or_insert(0) += 1;
        let told = String::from_utf8_lossy(&said.stderr).lines().count();
        match status {
            0 => assert!(out.join("table").exists() && told == 0),
            1 => assert!(out.join("table").exists() && told > 0),
            2 => assert!(!out.exists() && told == 1 && said.stdout.is_empty()),
            _ => panic!("byte {k}: status {status}"),
        }
    }
    println!("statuses {statuses:?}");
    assert!(statuses[&0] > 20 && statuses[&2] > 20);
}
