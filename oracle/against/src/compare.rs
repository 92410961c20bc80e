//! Both sides asked, what they said counted, and a difference made small.

use crate::cases::{self, Function};
use crate::sides::{self, Handled, LentCode, Ours, Rust, Said};
use oracle::flows::Flow;
use oracle::handlers;
use oracle::random::Random;
use oracle::records::*;
use std::collections::BTreeMap;
use std::fmt;

/// As long as the listing of nearly every case.
const ROOM: usize = 1 << 18;
/// So many differences are made small and shown.
const SHOWN: usize = 20;
/// The numbers that a listing, one instruction, and a walk check can be refused with.
const OF_LISTING: [usize; 17] = [1, 2, 3, 26, 4, 5, 6, 7, 8, 9, 11, 12, 13, 14, 15, 16, 17];
const OF_DECODING: [usize; 13] = [1, 2, 3, 26, 4, 5, 10, 11, 12, 13, 14, 15, 20];
const OF_WALKS: [usize; 18] = [1, 2, 3, 26, 4, 5, 6, 7, 8, 9, 11, 12, 13, 14, 15, 16, 18, 19];
/// The same with handler records; 10 is that of lent code.
const OF_HANDLED: [usize; 21] =
    [1, 2, 3, 26, 4, 5, 6, 7, 8, 9, 10, 11, 12, 13, 14, 15, 16, 18, 19, 24, 25];
/// Those of a conversion.
const OF_CONVERSIONS: [usize; 7] = [1, 2, 3, 26, 4, 27, 17];
/// One more than the highest number.
const NUMBERS: usize = 28;
/// As many marks as the code of nearly every case has bytes.
const MARKS: usize = 1 << 12;
/// As long as the listing of every short code.
const SHORT_ROOM: usize = 1 << 10;

#[derive(Default)]
pub struct Report {
    /// Cases by kind, and calls by function.
    pub cases: BTreeMap<&'static str, u64>,
    /// Answers (0) and refusals by number, where both sides agree.
    pub listed: [u64; NUMBERS],
    pub decoded: [u64; NUMBERS],
    pub walked: [u64; NUMBERS],
    pub handled: [u64; NUMBERS],
    pub converted: [u64; NUMBERS],
    /// Of the walks that are answered: closed, leaving.
    pub closed: u64,
    pub leaving: u64,
    /// Of the closed ones, those of empty code.
    pub empty: u64,
    /// Of the walks with handler records that are answered: closed, leaving, and those that are otherwise without records.
    pub handled_closed: u64,
    pub handled_leaving: u64,
    pub changed: u64,
    /// Listings, alike, that show entries of a switch under a prefix.
    pub prefixed: u64,
    /// Listings, alike, by tables of which a flow is not that of the name.
    pub flows: u64,
    pub not_comparable: u64,
    pub differences: Vec<String>,
    pub more: u64,
}

impl Report {
    pub fn add(&mut self, other: Report) {
        for (kind, count) in other.cases {
            *self.cases.entry(kind).or_default() += count;
        }
        for k in 0..NUMBERS {
            self.listed[k] += other.listed[k];
            self.decoded[k] += other.decoded[k];
            self.walked[k] += other.walked[k];
            self.handled[k] += other.handled[k];
            self.converted[k] += other.converted[k];
        }
        self.handled_closed += other.handled_closed;
        self.handled_leaving += other.handled_leaving;
        self.changed += other.changed;
        self.closed += other.closed;
        self.leaving += other.leaving;
        self.empty += other.empty;
        self.prefixed += other.prefixed;
        self.flows += other.flows;
        self.not_comparable += other.not_comparable;
        self.differences.extend(other.differences);
        self.more += other.more;
    }

    /// Refusals of which there was no case.
    pub fn missing(&self, whole: bool) -> Vec<String> {
        let none = |of: &str, numbers: &[usize], counts: &[u64]| -> Vec<String> {
            let missing = numbers.iter().filter(|n| whole && counts[**n] == 0);
            missing.map(|n| format!("no {of} was refused with number {n}")).collect()
        };
        let mut out = none("listing", &OF_LISTING, &self.listed);
        out.extend(none("instruction", &OF_DECODING, &self.decoded));
        out.extend(none("walk check", &OF_WALKS, &self.walked));
        out.extend(none("walk check with handlers", &OF_HANDLED, &self.handled));
        out.extend(none("conversion", &OF_CONVERSIONS, &self.converted));
        if whole && self.flows == 0 {
            out.push("no listing was by flows that are not those of the names".into());
        }
        if whole && self.changed == 0 {
            out.push("no handlers changed the answer of a walk check".into());
        }
        if whole && self.prefixed == 0 {
            out.push("no listing shows entries of a switch under a prefix".into());
        }
        if whole && self.empty == 0 {
            out.push("no walk check was of empty code".into());
        }
        out
    }
}

impl fmt::Display for Report {
    fn fmt(&self, f: &mut fmt::Formatter) -> fmt::Result {
        for difference in &self.differences {
            writeln!(f, "{difference}\n")?;
        }
        for (kind, count) in &self.cases {
            writeln!(f, "{kind}: {count} cases")?;
        }
        let counted = [
            ("listings", &self.listed),
            ("instructions", &self.decoded),
            ("walk checks", &self.walked),
            ("walk checks with handlers", &self.handled),
            ("conversions", &self.converted),
        ];
        for (what, counts) in counted {
            let refused: Vec<String> = (1..NUMBERS)
                .filter(|n| counts[*n] > 0)
                .map(|n| format!("{n}: {}", counts[n]))
                .collect();
            writeln!(f, "{what}: {} answered; refused {}", counts[0], refused.join(", "))?;
        }
        writeln!(
            f,
            "walk checks that are answered: {} closed, {} of them of empty code, {} leave",
            self.closed, self.empty, self.leaving
        )?;
        writeln!(
            f,
            "with handlers: {} closed, {} leave; {} otherwise than without them",
            self.handled_closed, self.handled_leaving, self.changed
        )?;
        writeln!(f, "listings with entries of a switch under a prefix: {}", self.prefixed)?;
        writeln!(f, "listings by flows that are not those of the names: {}", self.flows)?;
        writeln!(f, "not comparable (two types of one name): {}", self.not_comparable)?;
        for line in self.missing(true) {
            writeln!(f, "{line}")?;
        }
        let (shown, more) = (self.differences.len() as u64, self.more);
        writeln!(f, "{} differences", shown + more)
    }
}

pub struct Compare {
    ours: Ours,
    rust: Rust,
    pub report: Report,
}

impl Compare {
    pub fn new() -> Compare {
        Compare { ours: Ours::new(), rust: Rust::new(), report: Report::default() }
    }

    fn case(&mut self, kind: &'static str) {
        *self.report.cases.entry(kind).or_default() += 1;
    }

    /// A function listed, with room that just fits or does not at times, an instruction of its code decoded, and its walks checked.
    pub fn function(&mut self, r: &mut Random, function: &Function) {
        self.case("codes");
        let files = function.files();
        if !self.list(&files, ROOM) {
            self.smaller_function(function, ROOM);
        }
        self.rooms(r, &files);
        let length = function.code.len() as u64;
        let start = match r.below(8) {
            0 => *r.pick(&[length, length + 1, u64::MAX, length + 1_000]),
            _ => r.below(length + 1),
        };
        self.decode(&files, &function.code, start as usize);
        // By turns, so that the other cases of a seed are what they were without this one.
        let turn = self.report.cases.get("walk checks").copied().unwrap_or(0);
        let room = match turn % 8 {
            0 => length / 2,
            1 => length.saturating_sub(1),
            2 => length,
            _ => length + turn % 100,
        };
        if !self.walk(&files, room as usize) {
            self.smaller_walk(function, room as usize);
        }
        self.handlers(&files, &function.code, room as usize, turn);
    }

    /// The walks with handler records, by turns of object 0 and of the same code lent, with its pool and without.
    fn handlers(&mut self, files: &Files, code: &[u8], room: usize, turn: u64) {
        // Of their own, so that the other cases of a seed are what they were.
        let mut r = Random::new(turn);
        let starts = self.rust.starts(files, code);
        let handlers = &cases::handlers(&mut r, &starts, code.len() as u32)[..];
        let lent = match turn % 4 {
            0 => Some(LentCode { code, pool: true }),
            1 => Some(LentCode { code, pool: false }),
            _ => None,
        };
        self.handle(Handled { files, lent, room, handlers });
    }

    /// The eight files, as they are, listed, and their walks checked.
    pub fn files(&mut self, r: &mut Random, kind: &'static str, files: &Files) {
        self.case(kind);
        if !self.list(files, ROOM) && self.to_show() {
            let small = smaller_files(files, |files| self.differs(files, ROOM));
            self.difference(kind.to_string(), &small, ROOM);
        }
        self.rooms(r, files);
        if !self.walk(files, MARKS) && self.to_show() {
            let small = smaller_files(files, |files| self.walks_differ(files, MARKS));
            self.walk_difference(kind.to_string(), &small, MARKS);
        }
        let turn = self.report.cases.get("walk checks").copied().unwrap_or(0);
        self.handlers(files, &[0x02, 0x0b], MARKS, turn);
    }

    /// Opcodes and types converted both ways, with room and with too little.
    pub fn convert(&mut self, r: &mut Random, files: &Files) {
        for to_new in [true, false] {
            let fits = files.body[OPCODES].len() / 8 * 9;
            let room = if r.once_in(8) { r.below(fits as u64 + 1) as usize } else { fits };
            self.case("conversions");
            let (ours, own) = self.converted(files, to_new, room);
            if ours == own {
                self.report.converted[own.number()] += 1;
                continue;
            }
            if self.to_show() {
                let small = smaller_files(files, |files| {
                    let (ours, own) = self.converted(files, to_new, room);
                    ours != own
                });
                let (ours, own) = self.converted(&small, to_new, room);
                let way = if to_new { "new" } else { "old" };
                let whole = format!(
                    "to_{way}, room {room}\n  ours {}\n  own  {}",
                    ours.shown(),
                    own.shown()
                );
                self.told(whole + &tables(&small));
            }
        }
    }

    fn converted(&self, files: &Files, to_new: bool, room: usize) -> (Said, Said) {
        (self.ours.convert(files, to_new, room), sides::converted(files, to_new, room))
    }

    /// A short code of the sample: its first instruction, its listing and its walks.
    pub fn short(&mut self, files: &Files, code: &[u8]) {
        self.case("short codes");
        self.decode(files, code, 0);
        if !self.list(files, SHORT_ROOM) {
            self.difference(format!("short code {code:02x?}"), files, SHORT_ROOM);
        }
        if !self.walk(files, code.len()) {
            self.walk_difference(format!("short code {code:02x?}"), files, code.len());
        }
        if code.len() <= 2 {
            self.short_handlers(files, code);
        }
    }

    /// Every record of a short code, with a handler up to behind its end.
    fn short_handlers(&mut self, files: &Files, code: &[u8]) {
        let length = code.len() as u32;
        for (start, end) in [(0, 1), (0, 2), (1, 2), (1, 1)] {
            for to in 0..=length + 1 {
                let handlers = &handlers::Handler::new(start, end, to).bytes()[..];
                self.handle(Handled { files, lent: None, room: code.len(), handlers });
            }
        }
    }

    /// Code that is as long as it may be, and longer.
    pub fn limits(&mut self) {
        let table = oracle::sample::table();
        for length in [65_535, 65_536, 65_537, 100_000] {
            let mut code = vec![0x02; length];
            self.decode(&table, &code, length - 1);
            self.decode(&table, &code, length + 1);
            code[length - 1] = 0x03;
            self.decode(&table, &code, length - 1);
            let handlers = &[][..];
            let lent = Some(LentCode { code: &code, pool: false });
            self.handle(Handled { files: &table, lent, room: length, handlers });
            for last in [0x02, 0x03, 0x0c] {
                code[length - 1] = last;
                let files = oracle::sample::function(&code, 8, &[]);
                self.case("long codes");
                if !self.list(&files, 1 << 22) {
                    self.difference(
                        format!("{length} bytes of 02, the last {last:02x}"),
                        &files,
                        1 << 22,
                    );
                }
            }
        }
    }

    /// Room for exactly the listing, for one byte less, and for less.
    fn rooms(&mut self, r: &mut Random, files: &Files) {
        if !r.once_in(16) {
            return;
        }
        let Said::Text(text) = self.ours.list(files, ROOM) else { return };
        let length = text.len();
        for room in [length, length - 1, r.below(length as u64) as usize, 0] {
            self.case("rooms");
            if !self.list(files, room) {
                self.difference(format!("room {room}"), files, room);
            }
        }
    }

    /// Whether both list alike; counted where they do.
    fn list(&mut self, files: &Files, room: usize) -> bool {
        let Ok(rust) = self.rust.list(files, room) else {
            self.report.not_comparable += 1;
            return true;
        };
        let same = self.ours.list(files, room) == rust;
        if same {
            self.report.listed[rust.number()] += 1;
            self.report.prefixed += rust.shows_prefixed() as u64;
            self.report.flows += (rust.number() == 0 && other_flows(files)) as u64;
        }
        same
    }

    /// Whether both check the walks alike, with so many marks: the answer and the marks; counted where they do.
    fn walk(&mut self, files: &Files, room: usize) -> bool {
        self.case("walk checks");
        let Ok(rust) = self.rust.walk(files, room) else {
            self.report.not_comparable += 1;
            return true;
        };
        let same = self.ours.walk(files, rust.marks(), room) == rust;
        if same {
            self.report.walked[rust.number()] += 1;
            match rust {
                Said::Walked(None, marks) => {
                    self.report.closed += 1;
                    self.report.empty += marks.is_empty() as u64;
                }
                Said::Walked(Some(_), _) => self.report.leaving += 1,
                _ => (),
            }
        }
        same
    }

    /// Both asked for the walks with handler records: the answer and the marks; counted where they are alike.
    fn handle(&mut self, asked: Handled) {
        self.case("walk checks with handlers");
        let Ok(rust) = self.rust.handled(asked) else {
            self.report.not_comparable += 1;
            return;
        };
        if self.ours.handled(asked, rust.marks()) != rust {
            return self.handled_difference(asked);
        }
        self.report.handled[rust.number()] += 1;
        match rust {
            Said::Walked(None, _) => self.report.handled_closed += 1,
            Said::Walked(Some(_), _) => self.report.handled_leaving += 1,
            _ => return,
        }
        let without = self.rust.handled(Handled { handlers: &[], ..asked });
        self.report.changed += without.is_ok_and(|without| without != rust) as u64;
    }

    /// The difference with as few records as still differ.
    fn handled_difference(&mut self, asked: Handled) {
        if !self.to_show() {
            return;
        }
        let records: Vec<&[u8]> = asked.handlers.chunks(handlers::SIZE).collect();
        let differs = |handlers: &[u8], compare: &mut Compare| {
            let asked = Handled { handlers, ..asked };
            let rust = compare.rust.handled(asked);
            rust.is_ok_and(|rust| compare.ours.handled(asked, rust.marks()) != rust)
        };
        let small = shrunk(&records, |records| differs(&records.concat(), self)).concat();
        let asked = Handled { handlers: &small, ..asked };
        let rust = self.rust.handled(asked);
        let marks = rust.as_ref().map_or(0, |rust| rust.marks());
        let ours = self.ours.handled(asked, marks).shown();
        let rust = rust.map_or("not comparable".into(), |rust| rust.shown());
        let lent = asked.lent.map(|lent| format!("code {:02x?}, pool {}", lent.code, lent.pool));
        let of = lent.unwrap_or("object 0".into());
        let whole = format!(
            "walk with handlers {}, {of}, {} marks\n  ours {ours}\n  rust {rust}",
            hex(&small),
            asked.room
        );
        self.told(whole + &store(asked.files) + &tables(asked.files));
    }

    fn walks_differ(&mut self, files: &Files, room: usize) -> bool {
        let rust = self.rust.walk(files, room);
        rust.is_ok_and(|rust| self.ours.walk(files, rust.marks(), room) != rust)
    }

    pub fn decode(&mut self, files: &Files, code: &[u8], start: usize) {
        let Ok(rust) = self.rust.decode(files, code, start) else {
            self.report.not_comparable += 1;
            return;
        };
        let ours = self.ours.decode(files, code, start);
        if ours == rust {
            self.report.decoded[rust.number()] += 1;
            return;
        }
        let differs = |code: &[u8], compare: &mut Compare| {
            let rust = compare.rust.decode(files, code, start);
            rust.is_ok_and(|rust| compare.ours.decode(files, code, start) != rust)
        };
        let small = shrunk(code, |code| differs(code, self));
        let (ours, rust) =
            (self.ours.decode(files, &small, start), self.rust.decode(files, &small, start));
        let rust = rust.map_or("not comparable".into(), |rust| rust.shown());
        let what =
            format!("decode {small:02x?} at {start}\n  ours {}\n  rust {rust}", ours.shown());
        self.told(what + &tables(files));
    }

    // ---- differences ----

    fn differs(&mut self, files: &Files, room: usize) -> bool {
        let rust = self.rust.list(files, room);
        rust.is_ok_and(|rust| self.ours.list(files, room) != rust)
    }

    /// Whether one more difference is shown; counted where it is not.
    fn to_show(&mut self) -> bool {
        let shown = self.report.differences.len() < SHOWN;
        self.report.more += !shown as u64;
        shown
    }

    /// The function with as little code and pool as still differs.
    fn smaller_function(&mut self, function: &Function, room: usize) {
        if !self.to_show() {
            return;
        }
        let small = smaller(function, |files| self.differs(files, room));
        let what = format!("code {:02x?}, pool {:?}", small.code, small.pool);
        self.difference(what, &small.files(), room);
    }

    /// The same where the walks differ.
    fn smaller_walk(&mut self, function: &Function, room: usize) {
        if !self.to_show() {
            return;
        }
        let small = smaller(function, |files| self.walks_differ(files, room));
        let what = format!("code {:02x?}, pool {:?}", small.code, small.pool);
        self.walk_difference(what, &small.files(), room);
    }

    fn difference(&mut self, what: String, files: &Files, room: usize) {
        let ours = self.ours.list(files, room).shown();
        let rust = self.rust.list(files, room).map_or("not comparable".into(), |rust| rust.shown());
        self.told(
            format!("list, {what}\n  ours {ours}\n  rust {rust}") + &store(files) + &tables(files),
        );
    }

    fn walk_difference(&mut self, what: String, files: &Files, room: usize) {
        let rust = self.rust.walk(files, room);
        let marks = rust.as_ref().map_or(0, |rust| rust.marks());
        let ours = self.ours.walk(files, marks, room).shown();
        let rust = rust.map_or("not comparable".into(), |rust| rust.shown());
        let whole = format!("walk, {what}, {room} marks\n  ours {ours}\n  rust {rust}");
        self.told(whole + &store(files) + &tables(files));
    }

    fn told(&mut self, difference: String) {
        match self.report.differences.len() < SHOWN {
            true => self.report.differences.push(difference),
            false => self.report.more += 1,
        }
    }
}

/// The function with as little code and pool as still differs.
fn smaller(function: &Function, mut differs: impl FnMut(&Files) -> bool) -> Function {
    let code = shrunk(&function.code, |code| differs(&function.with_code(code).files()));
    let small = function.with_code(&code);
    let pool = shrunk(&small.pool, |pool| differs(&small.with_pool(pool).files()));
    small.with_pool(&pool)
}

/// The files with as few records and bytes as still differ.
fn smaller_files(files: &Files, mut differs: impl FnMut(&Files) -> bool) -> Files {
    let mut small = files.clone();
    for file in [INTRINSIC, RUNTIME, OPCODES, TYPES, SLOTS, OBJECTS, PAYLOAD] {
        let records: Vec<Vec<u8>> =
            small.body[file].chunks(SIZES[file]).map(<[u8]>::to_vec).collect();
        let base = small.clone();
        let kept = shrunk(&records, |records| {
            let mut files = base.clone();
            files.body[file] = records.concat();
            differs(&files)
        });
        small.body[file] = kept.concat();
    }
    small
}

/// Whether a flow is not that of its name.
fn other_flows(files: &Files) -> bool {
    files.all(OPCODES).any(|record| !Flow::of(&Opcode(record)).named)
}

fn store(files: &Files) -> String {
    (OBJECTS..=PAYLOAD)
        .map(|file| format!("\n  {} {}", NAMES[file], hex(&files.body[file])))
        .collect()
}

fn tables(files: &Files) -> String {
    (OPCODES..=LAYOUT)
        .map(|file| format!("\n  {} {}", NAMES[file], hex(&files.body[file])))
        .collect()
}

fn hex(bytes: &[u8]) -> String {
    bytes.iter().map(|b| format!("{b:02x}")).collect()
}

/// A part of a list that still differs: halves taken away first, then shorter parts, then, of a short list, a part of any length at any
/// place, until nothing more can go.
pub fn shrunk<T: Clone>(items: &[T], mut differs: impl FnMut(&[T]) -> bool) -> Vec<T> {
    const SHORT: usize = 200;
    const PART: usize = 24;
    let mut kept = items.to_vec();
    let mut size = kept.len();
    while size > 0 {
        without(&mut kept, size, size, &mut differs);
        size /= 2;
    }
    let mut before = usize::MAX;
    while kept.len() < before && kept.len() <= SHORT {
        before = kept.len();
        for size in (1..=PART.min(before)).rev() {
            without(&mut kept, size, 1, &mut differs);
        }
    }
    kept
}

/// Takes parts of a size away, one after the other, where what is left differs still.
fn without<T: Clone>(
    kept: &mut Vec<T>,
    size: usize,
    step: usize,
    differs: &mut impl FnMut(&[T]) -> bool,
) {
    let mut at = 0;
    while at + size <= kept.len() {
        let mut less = kept.clone();
        less.drain(at..at + size);
        match differs(&less) {
            true => *kept = less,
            false => at += step,
        }
    }
}

#[cfg(test)]
mod tests {
    use super::*;

    #[test]
    fn made_small() {
        let items: Vec<u8> = (0..100).collect();
        let differs = |kept: &[u8]| kept.contains(&7) && kept.contains(&93);
        assert_eq!(shrunk(&items, differs), [7, 93]);
        assert_eq!(shrunk(&items, |_| true), Vec::<u8>::new());
        assert_eq!(shrunk(&[1, 2], |_| false), [1, 2]);
        // Only whole parts of 5 can go.
        assert_eq!(shrunk(&items, |kept| kept.len() % 5 == 0 && kept.contains(&7)).len(), 5);
    }

    #[test]
    fn files_made_small() {
        let sample = oracle::sample::sample();
        let small = smaller_files(&sample, |files| files.count(OPCODES) >= 2);
        assert_eq!(small.count(OPCODES), 2);
        let others = [INTRINSIC, RUNTIME, TYPES, SLOTS, OBJECTS, PAYLOAD];
        assert!(others.iter().all(|file| small.body[*file].is_empty()));
    }

    /// The sides are told apart: with one byte of what the Rust is given changed, there is a difference, and it is small.
    #[test]
    fn a_difference_is_found() {
        let mut compare = Compare::new();
        let files = oracle::sample::sample();
        assert!(compare.list(&files, ROOM));
        let mut other = files.clone();
        *other.body[PAYLOAD].last_mut().unwrap() = 0x02;
        let rust = compare.rust.list(&other, ROOM).ok().unwrap();
        assert_ne!(compare.ours.list(&files, ROOM), rust);
        assert_ne!(
            compare.ours.decode(&files, &[0x03, 1], 0),
            compare.rust.decode(&files, &[0x03, 2], 0).ok().unwrap()
        );
        assert_eq!(compare.ours.walk(&files, 5, 9), compare.rust.walk(&files, 9).ok().unwrap());
        assert_ne!(compare.ours.walk(&files, 5, 9), compare.rust.walk(&other, 9).ok().unwrap());
        // A handler at 0, and one inside the first instruction.
        let [good, bad] = [0, 1].map(|to| handlers::Handler::new(0, 1, to).bytes());
        let lent = Some(LentCode { code: &[0x03, 0x05, 0x0b], pool: true });
        for lent in [None, lent] {
            let asked = Handled { files: &files, lent, room: 9, handlers: &good };
            let other = Handled { handlers: &bad, ..asked };
            let length = if lent.is_none() { 5 } else { 3 };
            let ours = compare.ours.handled(asked, length);
            assert_eq!(ours, compare.rust.handled(asked).ok().unwrap());
            assert_ne!(ours, compare.rust.handled(other).ok().unwrap());
        }
    }

    /// The same of conversions.
    #[test]
    fn a_converted_difference_is_found() {
        let compare = Compare::new();
        let files = oracle::sample::sample();
        let mut other = files.clone();
        other.body[OPCODES][FLOW] = 1;
        let (ours, own) = compare.converted(&files, false, ROOM);
        assert_eq!(ours, own);
        assert_ne!(ours, sides::converted(&other, false, ROOM));
        assert_ne!(ours, sides::converted(&files, true, ROOM));
    }

    #[test]
    fn a_report_names_what_is_missing() {
        let report = Report::default();
        assert_eq!(
            report.missing(true).len(),
            OF_LISTING.len()
                + OF_DECODING.len()
                + OF_WALKS.len()
                + OF_HANDLED.len()
                + OF_CONVERSIONS.len()
                + 4
        );
        assert!(report.to_string().ends_with("0 differences\n"));
    }
}
