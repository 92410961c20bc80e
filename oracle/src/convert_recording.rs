//! Vectors of the conversions of opcode records (Wish 6), from a seed: every name that has a flow and names near them, the refusals of
//! both, round trips of random tables; and V8's tables, both ways.

use crate::ask::*;
use crate::checks::{refuse, Check};
use crate::classes::Classes;
use crate::codes;
use crate::convert::{new_opcodes, old_opcodes};
use crate::flows::{ALWAYS, ENDS, MAYBE, MOST, SWITCHES};
use crate::random::Random;
use crate::records::*;
use crate::sample;
use crate::v8;
use crate::vectors::Writer;
use std::path::Path;

/// The file is made from a seed, and the other from V8's tables.
pub const PARTS: [&str; 2] = ["convert.vec", "convert-v8.vec"];

/// Random tables.
const TABLES: usize = 20;
/// The longest buffer that is recorded.
pub const MOST_ROOM: u64 = 256 * OPCODE_SIZE as u64 + 64;

pub struct ConvertRecording {
    pub writer: Writer,
    pub classes: Classes,
}

pub fn record(seed: u64) -> Result<ConvertRecording, String> {
    let mut out = ConvertRecording { writer: Writer::sharing(), classes: Classes::default() };
    let mut r = Random::new(seed);
    let sample = sample::table();
    out.round("the sample", &old_opcodes(&sample.body[OPCODES]), &sample.body[TYPES])?;
    out.names()?;
    for function in [TO_NEW, TO_OLD] {
        let base = base(function);
        out.rooms(&base)?;
        out.sizes(&base)?;
        out.bad_names(&base)?;
        out.bad_opcodes(&base)?;
        out.bad_types(&base)?;
        out.orders(&base)?;
        out.most(&base)?;
    }
    out.flows()?;
    out.ways_back()?;
    out.of_the_other_size()?;
    out.random(&mut r)?;
    Ok(out)
}

/// Both tables of a folder of listings, both ways.
pub fn record_v8(folder: &Path) -> Result<ConvertRecording, String> {
    let mut out = ConvertRecording { writer: Writer::sharing(), classes: Classes::default() };
    for v8 in ["10.2", "11.3"] {
        let files = v8::tables(&folder.join("tables").join(v8))?;
        let path = folder.join("tables").join(v8).join(NAMES[OPCODES]);
        let old = std::fs::read(&path).map_err(|e| format!("{}: {e}", path.display()))?;
        let types = &files.body[TYPES];
        out.round(&format!("V8 {v8}"), &old, types)?;
        let count = old.len() / OLD_OPCODE_SIZE;
        for (place, record) in places(count) {
            let asked = Asked::new(TO_OLD, &new_opcodes(&old), types).with(record, FLOW + 2, &[7]);
            out.refused(&format!("V8 {v8}, byte 52, {place}"), &asked, 27, record)?;
        }
        let short = new_opcodes(&old).len() as u64 - 1;
        let asked = Asked { room: Some(short), ..Asked::new(TO_NEW, &old, types) };
        out.refused(&format!("V8 {v8}, one byte too short"), &asked, 17, 0)?;
        for function in [TO_NEW, TO_OLD] {
            let other = if function == TO_NEW { new_opcodes(&old) } else { old.clone() };
            let asked = Asked::new(function, &other, types);
            out.call(&format!("V8 {v8}, records of the other size"), &asked)?;
        }
    }
    Ok(out)
}

/// A conversion of two files.
#[derive(Clone)]
struct Asked {
    function: usize,
    opcodes: Vec<u8>,
    types: Vec<u8>,
    /// The buffer's length; None is one that has room.
    room: Option<u64>,
}

impl Asked {
    fn new(function: usize, opcodes: &[u8], types: &[u8]) -> Asked {
        Asked { function, opcodes: opcodes.to_vec(), types: types.to_vec(), room: None }
    }

    /// Bytes of the records that it takes, and of those that it gives.
    fn sizes(&self) -> [usize; 2] {
        match self.function {
            TO_NEW => [OLD_OPCODE_SIZE, OPCODE_SIZE],
            _ => [OPCODE_SIZE, OLD_OPCODE_SIZE],
        }
    }

    fn count(&self) -> usize {
        self.opcodes.len() / self.sizes()[0]
    }

    /// Bytes changed within an opcode record.
    fn with(&self, record: usize, at: usize, bytes: &[u8]) -> Asked {
        let mut out = self.clone();
        let from = record * self.sizes()[0] + at;
        out.opcodes[from..from + bytes.len()].copy_from_slice(bytes);
        out
    }

    /// Bytes changed within a type record.
    fn with_type(&self, record: usize, at: usize, bytes: &[u8]) -> Asked {
        let mut out = self.clone();
        let from = record * SIZES[TYPES] + at;
        out.types[from..from + bytes.len()].copy_from_slice(bytes);
        out
    }

    /// Records of the right size out of records of 72 bytes.
    fn records(&self, new: &[u8]) -> Vec<u8> {
        if self.function == TO_NEW {
            old_opcodes(new)
        } else {
            new.to_vec()
        }
    }

    fn name(&self) -> &'static str {
        FUNCTIONS[self.function].name
    }
}

/// The first, the middle and the last of so many records.
fn places(count: usize) -> [(&'static str, usize); 3] {
    [("first", 0), ("middle", count / 2), ("last", count - 1)]
}

/// 7 opcodes, one of each flow, with up to 8 operands, and 19 types, for a conversion.
fn base(function: usize) -> Asked {
    let opcodes = [
        opcode_record("Wide", 1, &[]),
        opcode_record("Throw", 0, &[]),
        opcode_record("JumpConstant", 0, &[10]),
        opcode_record("JumpIfTrue", 0, &[11]),
        opcode_record("JumpLoop", 0, &[11, 9]),
        opcode_record("SwitchOnGeneratorState", 2, &[0, 10, 18]),
        opcode_record("Eight", 0, &[0, 1, 2, 3, 4, 5, 6, 17]),
    ];
    let mut types = sample::table().body[TYPES].clone();
    types.extend(type_record("Extra", 4, false));
    types.extend(type_record("More", 2, true));
    let out = Asked::new(function, &[], &types);
    Asked { opcodes: out.records(&opcodes.concat()), ..out }
}

impl ConvertRecording {
    /// Asks, records and counts.
    fn call(&mut self, class: &str, asked: &Asked) -> Result<Answer, String> {
        let mut files = Files::default();
        files.body[OPCODES] = asked.opcodes.clone();
        files.body[TYPES] = asked.types.clone();
        // Where none is chosen, what is written fits, and there are 0, 1 or 64 bytes more.
        let more = [0, 1, 64][self.writer.calls % 3];
        let fits = (asked.count() * asked.sizes()[1]) as u64 + more;
        let room = asked.room.unwrap_or(fits.min(MOST_ROOM));
        self.writer.files(&files);
        let answer = self.writer.call(&Call::new(asked.function, &[room]))?;
        let said = match &answer {
            Answer::Refused(refusal) => format!("refused {}", refusal.number),
            _ => "converted".into(),
        };
        self.classes.add(&[format!("{}: {class}: {said}", asked.name())]);
        self.classes.add(&[format!("{}: {said}", asked.name())]);
        Ok(answer)
    }

    /// The call is refused so.
    fn refused(
        &mut self,
        class: &str,
        asked: &Asked,
        number: u64,
        place: usize,
    ) -> Result<(), String> {
        self.says(class, asked, refuse(number, place))
    }

    /// The call is answered so: refused, or not.
    fn says(&mut self, class: &str, asked: &Asked, says: Check) -> Result<(), String> {
        let answer = self.call(class, asked)?;
        let said = match &answer {
            Answer::Refused(refusal) => Err(*refusal),
            _ => Ok(()),
        };
        match said == says {
            true => Ok(()),
            false => Err(format!("{} of {class} is {answer}", asked.name())),
        }
    }

    /// The bytes that a conversion gives.
    fn converted(&mut self, class: &str, asked: &Asked) -> Result<Vec<u8>, String> {
        match self.call(class, asked)? {
            Answer::Written(bytes) => Ok(bytes),
            answer => Err(format!("{} of {class} is {answer}", asked.name())),
        }
    }

    /// To records of 72 bytes and back: the same bytes.
    fn round(&mut self, class: &str, old: &[u8], types: &[u8]) -> Result<(), String> {
        let new = self.converted(class, &Asked::new(TO_NEW, old, types))?;
        let back = self.converted(class, &Asked::new(TO_OLD, &new, types))?;
        match back == old {
            true => Ok(()),
            false => Err(format!("{class}: there and back gives other bytes")),
        }
    }

    /// Every name that has a flow, then names near them, each in records of both sizes.
    fn names(&mut self) -> Result<(), String> {
        let types = sample::table().body[TYPES].clone();
        let named: Vec<&str> = listed().collect();
        let near: Vec<String> =
            named.iter().flat_map(|name| near_of(name)).map(|(_, n)| n).collect();
        let near: Vec<&str> = near.iter().map(String::as_str).collect();
        for (k, names) in [&named[..]].into_iter().chain(near.chunks(256)).enumerate() {
            let record = |(k, name): (usize, &&str)| opcode_record(name, 0, &[9, 10, 0][..k % 4]);
            let new: Vec<u8> = names.iter().enumerate().flat_map(record).collect();
            let class = if k == 0 { "names with a flow" } else { "names near them" };
            self.round(class, &old_opcodes(&new), &types)?;
        }
        for name in named {
            self.classes.add(&[format!("the name {name}")]);
            for (how, other) in near_of(name) {
                self.classes.add(&[format!("a name with {how}, and no flow")]);
                assert_eq!(crate::flows::of_name(&other), [0; 4], "{other}");
            }
        }
        Ok(())
    }

    /// Buffers that just fit, that do not, and that are longer.
    fn rooms(&mut self, base: &Asked) -> Result<(), String> {
        let length = (base.count() * base.sizes()[1]) as u64;
        for (class, room) in [
            ("a buffer that fits", length),
            ("a buffer that is one too short", length - 1),
            ("a buffer that is one too long", length + 1),
            ("an empty buffer", 0),
            ("a buffer for one record less", length - base.sizes()[1] as u64),
            ("a buffer of the length of what is lent", base.opcodes.len() as u64),
            ("a long buffer", MOST_ROOM),
        ] {
            let asked = Asked { room: Some(room), ..base.clone() };
            let says = if room < length { refuse(17, 0) } else { Ok(()) };
            self.says(class, &asked, says)?;
        }
        Ok(())
    }

    /// Row 1.
    fn sizes(&mut self, base: &Asked) -> Result<(), String> {
        for length in [0, 1, base.sizes()[0] - 1, base.opcodes.len() - 1, base.opcodes.len() + 1] {
            let mut asked = base.clone();
            asked.opcodes.resize(length, 0);
            let class = if length == 0 { "no opcodes" } else { "opcodes not whole" };
            self.refused(class, &asked, 1, 0)?;
        }
        for length in [0, 16 * 32, 17 * 32 - 1, base.types.len() - 1, base.types.len() + 1] {
            let mut asked = base.clone();
            asked.types.resize(length, 0);
            let class = if length % 32 == 0 { "too few types" } else { "types not whole" };
            self.refused(class, &asked, 1, 0)?;
        }
        let one = Asked { opcodes: base.opcodes[..base.sizes()[0]].to_vec(), ..base.clone() };
        self.says("one opcode", &one, Ok(()))?;
        let few = Asked { types: base.types[..17 * 32].to_vec(), ..one };
        self.says("17 types", &few, Ok(()))
    }

    /// Row 2.
    fn bad_names(&mut self, base: &Asked) -> Result<(), String> {
        for (place, record) in places(base.count()) {
            let class = format!("a name, opcodes, {place}");
            for (at, bytes) in [(0, &[0][..]), (0, b"-"), (39, b"a"), (0, b"Jump.")] {
                self.refused(&class, &base.with(record, at, bytes), 2, record)?;
            }
        }
        for (place, record) in places(base.types.len() / 32) {
            let class = format!("a name, types, {place}");
            for (at, bytes) in [(0, &[0][..]), (0, b"-"), (27, b"a")] {
                self.refused(&class, &base.with_type(record, at, bytes), 2, record)?;
            }
        }
        Ok(())
    }

    /// Row 3: in records of 64 bytes the zeros begin at byte 50, in those of 72 at byte 54.
    fn bad_opcodes(&mut self, base: &Asked) -> Result<(), String> {
        let zeros: &[usize] = match base.function {
            TO_NEW => &[50, 51, 52, 53, 54, 63],
            _ => &[54, 63, 64, 71],
        };
        for (place, record) in places(base.count()) {
            let class = format!("an opcode, {place}");
            for (at, bytes) in [
                (40, &[3][..]),
                (41, &[9]),
                (41, &[1, 19]),
                (41, &[0, 1]),
                (41, &[7, 0, 0, 0, 0, 0, 0, 0, 1]),
            ] {
                self.refused(&class, &base.with(record, at, bytes), 3, record)?;
            }
            for at in zeros {
                let class = format!("byte {at}, {place}");
                self.refused(&class, &base.with(record, *at, &[1]), 3, record)?;
            }
        }
        Ok(())
    }

    /// Row 4.
    fn bad_types(&mut self, base: &Asked) -> Result<(), String> {
        for (place, record) in
            [("first", 0), ("middle", 8), ("17th", 16), ("18th", 17), ("last", 18)]
        {
            let class = format!("a type, {place}");
            for bytes in [&[3, 0, 1][..], &[4, 1, 1], &[1, 2, 1], &[1, 0, 0], &[1, 1, 1, 1]] {
                self.refused(&class, &base.with_type(record, 28, bytes), 4, record)?;
            }
            let name: &[u8] = if record < 17 { b"Other" } else { b"Idx\0\0" };
            self.refused(&class, &base.with_type(record, 0, name), 4, record)?;
        }
        Ok(())
    }

    /// Every two rows at once, and all from one on.
    fn orders(&mut self, base: &Asked) -> Result<(), String> {
        let rows: &[u64] = match base.function {
            TO_NEW => &[1, 2, 3, 4, 17],
            _ => &[1, 2, 3, 26, 4, 27, 17],
        };
        for (k, first) in rows.iter().enumerate() {
            for second in &rows[k + 1..] {
                let asked = faulty(base, &[*first, *second]);
                self.faulty(&format!("order, {first} and {second}"), &asked, *first)?;
            }
            let asked = faulty(base, &rows[k..]);
            self.faulty(&format!("order, {first} and all behind"), &asked, *first)?;
        }
        let both = base.with(3, 0, b"-").with_type(1, 0, b"-");
        self.refused("order, 2, opcodes before types", &both, 2, 3)?;
        self.refused("order, 3, the first of two", &base.with(5, 40, &[3]).with(2, 40, &[3]), 3, 2)
    }

    fn faulty(&mut self, class: &str, asked: &Asked, number: u64) -> Result<(), String> {
        match self.call(class, asked)? {
            Answer::Refused(refusal) if refusal.number == number => Ok(()),
            answer => Err(format!("{} of {class} is {answer}", asked.name())),
        }
    }

    /// As many records as there may be, one more, and a fault in the last.
    fn most(&mut self, base: &Asked) -> Result<(), String> {
        let named: Vec<&str> = listed().collect();
        let record = |k: usize| match k % 3 {
            0 => opcode_record(&format!("N{k}"), 0, &[]),
            _ => opcode_record(named[k % named.len()], 0, &[9]),
        };
        let new: Vec<u8> = (0..257).flat_map(record).collect();
        let asked = Asked { opcodes: base.records(&new), ..base.clone() };
        self.refused("257 opcodes", &asked, 1, 0)?;
        let asked = Asked { opcodes: base.records(&new[..256 * OPCODE_SIZE]), ..asked };
        self.says("256 opcodes", &asked, Ok(()))?;
        self.refused("256 opcodes, the last is bad", &asked.with(255, 40, &[3]), 3, 255)?;
        let mut types = base.types.clone();
        types.extend((19..65).flat_map(|k| type_record(&format!("T{k}"), 2, true)));
        self.refused("65 types", &Asked { types: types.clone(), ..base.clone() }, 1, 0)?;
        types.truncate(64 * 32);
        self.says("64 types", &Asked { types, ..base.clone() }, Ok(()))
    }

    /// 26: each of bytes 50 to 53 at each place, and beside 3.
    fn flows(&mut self) -> Result<(), String> {
        let base = base(TO_OLD);
        for (place, record) in places(base.count()) {
            for (k, most) in MOST.into_iter().enumerate() {
                let class = format!("byte {} beyond its values, {place}", FLOW + k);
                for value in [most + 1, 255] {
                    self.refused(&class, &base.with(record, FLOW + k, &[value]), 26, record)?;
                }
            }
        }
        let flow = |asked: &Asked, record| asked.with(record, FLOW, &[6]);
        let bad = |asked: &Asked, record| asked.with(record, 40, &[3]);
        let zero = |asked: &Asked, record| asked.with(record, 71, &[1]);
        let later = "26 before 3 of a later record";
        self.refused(later, &bad(&flow(&base, 2), 3), 26, 2)?;
        self.refused(later, &zero(&flow(&base, 0), 1), 26, 0)?;
        let own = "26 behind 3 of its own record";
        self.refused(own, &bad(&flow(&base, 3), 3), 3, 3)?;
        self.refused(own, &zero(&flow(&base, 6), 6), 3, 6)?;
        self.refused("26 behind 3 of an earlier record", &bad(&flow(&base, 3), 2), 3, 2)?;
        self.refused("26, the first of two", &flow(&flow(&base, 5), 4), 26, 4)
    }

    /// 27: each of bytes 50 to 53 other than the name's, at each place, and every flow of every name but its own.
    fn ways_back(&mut self) -> Result<(), String> {
        let base = base(TO_OLD);
        for (place, record) in places(base.count()) {
            let from = record * OPCODE_SIZE + FLOW;
            for (k, most) in MOST.into_iter().enumerate() {
                let is = base.opcodes[from + k];
                let class = format!("byte {} is not the name's, {place}", FLOW + k);
                for value in (0..=most).filter(|value| *value != is) {
                    self.refused(&class, &base.with(record, FLOW + k, &[value]), 27, record)?;
                }
            }
        }
        let two = base.with(5, FLOW, &[0]).with(2, FLOW, &[3]);
        self.refused("27, the lower of two", &two, 27, 2)?;
        self.refused("27, the lower of two", &two.with(6, FLOW + 2, &[1]), 27, 2)?;
        // A switch that reads as its name does.
        let switch = base.with(5, FLOW + 1, &[1]);
        self.refused("27, a byte that is not read", &switch, 27, 5)?;
        // Names with the bytes of another, and names near them with those of the name.
        let flows: [[u8; 4]; 9] = [
            [0, 0, 0, 0],
            [1, 0, 0, 0],
            [2, 0, 0, 0],
            [2, 1, 0, 0],
            [3, 0, 0, 0],
            [3, 1, 0, 0],
            [4, 0, 0, 0],
            [5, 0, 0, 1],
            [5, 0, 1, 0],
        ];
        for (k, name) in listed().enumerate() {
            let own = crate::flows::of_name(name);
            let others = flows.iter().filter(|flow| **flow != own);
            let other = *others.clone().nth(k % 8).unwrap();
            let asked = base.with(3, 0, &flow_record(name, 0, &[11], other)[..]);
            self.refused(&format!("{name} with another flow"), &asked, 27, 3)?;
            let near = &near_of(name)[k % 3].1;
            let asked = base.with(4, 0, &flow_record(near, 0, &[11], own)[..]);
            self.refused("a name near one, with its flow", &asked, 27, 4)?;
        }
        Ok(())
    }

    /// Records of the other size: these are 1, 2 or 3, whatever their number.
    fn of_the_other_size(&mut self) -> Result<(), String> {
        let types = sample::table().body[TYPES].clone();
        let new: Vec<u8> =
            (0..72).flat_map(|k| opcode_record(&format!("N{k}"), 0, &[9, 9][..k % 3])).collect();
        let old = old_opcodes(&new);
        for count in [1, 2, 8, 9, 10, 16, 18, 27, 64, 72] {
            let asked = Asked::new(TO_OLD, &old[..count * OLD_OPCODE_SIZE], &types);
            self.other_size("records of 64 bytes", &asked)?;
            let asked = Asked::new(TO_NEW, &new[..count * OPCODE_SIZE], &types);
            self.other_size("records of 72 bytes", &asked)?;
        }
        Ok(())
    }

    fn other_size(&mut self, class: &str, asked: &Asked) -> Result<(), String> {
        match self.call(class, asked)? {
            Answer::Refused(refusal) if (1..=3).contains(&refusal.number) => Ok(()),
            answer => Err(format!("{} of {class} is {answer}", asked.name())),
        }
    }

    /// Random tables with the names of flows put in, there and back; and with a record of another flow, or one byte changed.
    fn random(&mut self, r: &mut Random) -> Result<(), String> {
        let pools = codes::pools(r);
        let named: Vec<&str> = listed().collect();
        for k in 0..TABLES {
            // Tables whose number is a multiple of 10 are long.
            let mut files = codes::table(r, &pools, 1 + k + k / 9);
            for record in files.body[OPCODES].chunks_exact_mut(OPCODE_SIZE) {
                if r.once_in(2) {
                    let (mark, count) = (record[40], record[41] as usize);
                    let codes = record[42..42 + count].to_vec();
                    record.copy_from_slice(&opcode_record(
                        named[r.below(named.len() as u64) as usize],
                        mark,
                        &codes,
                    ));
                }
            }
            let [opcodes, types, ..] = &files.body;
            self.round("a random table", &old_opcodes(opcodes), types)?;
            let count = files.count(OPCODES);
            for _ in 0..3 {
                let asked = Asked::new(TO_OLD, opcodes, types);
                let record = r.below(count as u64) as usize;
                let flow = MOST.map(|most| r.below(most as u64 + 1) as u8);
                self.call("a random table, a random flow", &asked.with(record, FLOW, &flow))?;
                let at = r.below(OPCODE_SIZE as u64) as usize;
                let byte = *r.pick(&[0, 1, 2, 9, 255, b'_', b'-', b'z']);
                self.call("a random table, one byte", &asked.with(record, at, &[byte]))?;
                let asked = Asked::new(TO_NEW, &old_opcodes(opcodes), types);
                let at = r.below(OLD_OPCODE_SIZE as u64) as usize;
                self.call("a random table, one byte", &asked.with(record, at, &[byte]))?;
            }
        }
        Ok(())
    }
}

/// A conversion with these faults, in the rows' order from the last record on.
fn faulty(base: &Asked, rows: &[u64]) -> Asked {
    let mut out = base.clone();
    for row in rows {
        out = match row {
            2 => out.with(6, 0, b"-"),
            3 => out.with(1, 40, &[3]),
            26 => out.with(2, FLOW, &[6]),
            4 => out.with_type(0, 31, &[1]),
            27 => out.with(0, FLOW + 2, &[1]),
            17 => Asked { room: Some(3), ..out },
            _ => out,
        };
    }
    // Last, since then records are not where they were.
    if rows.contains(&1) {
        out.opcodes.push(0);
    }
    out
}

/// The names that have a flow.
pub fn listed() -> impl Iterator<Item = &'static str> {
    ENDS.into_iter().chain(ALWAYS).chain(MAYBE).chain(SWITCHES)
}

/// How names near one differ from it, and the names; none has a flow.
fn near_of(name: &str) -> Vec<(&'static str, String)> {
    let other = |c: char| if c == 'x' { 'y' } else { 'x' };
    let middle = name.len() / 2;
    let changed: String =
        name.char_indices().map(|(k, c)| if k == middle { other(c) } else { c }).collect();
    let all = [
        ("one letter more", format!("{name}s")),
        ("one letter less", name[..name.len() - 1].to_string()),
        ("a letter in front", format!("_{name}")),
        ("another letter within", changed),
        ("the first letter small", name[..1].to_lowercase() + &name[1..]),
        ("Constant behind", format!("{name}Constant")),
    ];
    let known: Vec<&str> = listed().collect();
    let fits = |(_, other): &(&str, String)| other.len() <= 40 && !known.contains(&other.as_str());
    all.into_iter().filter(fits).collect()
}

/// Classes that must have a case.
pub fn wanted() -> Vec<String> {
    let mut out: Vec<String> = listed().map(|name| format!("the name {name}")).collect();
    for how in [
        "one letter more",
        "one letter less",
        "a letter in front",
        "another letter within",
        "the first letter small",
        "Constant behind",
    ] {
        out.push(format!("a name with {how}, and no flow"));
    }
    for (function, rows) in
        [("to_new", &[1, 2, 3, 4, 17][..]), ("to_old", &[1, 2, 3, 26, 4, 27, 17])]
    {
        let mut of = |class: String| out.push(format!("{function}: {class}"));
        for class in ["the sample", "names with a flow", "names near them", "a random table"] {
            of(format!("{class}: converted"));
        }
        rows.iter().for_each(|row| of(format!("refused {row}")));
        for place in ["first", "middle", "last"] {
            of(format!("a name, opcodes, {place}: refused 2"));
            of(format!("a name, types, {place}: refused 2"));
            of(format!("an opcode, {place}: refused 3"));
            of(format!("a type, {place}: refused 4"));
        }
        for (k, first) in rows.iter().enumerate() {
            for second in &rows[k + 1..] {
                of(format!("order, {first} and {second}: refused {first}"));
            }
        }
        for class in [
            "a buffer that fits: converted",
            "a buffer that is one too short: refused 17",
            "a buffer that is one too long: converted",
            "an empty buffer: refused 17",
            "no opcodes: refused 1",
            "opcodes not whole: refused 1",
            "too few types: refused 1",
            "types not whole: refused 1",
            "one opcode: converted",
            "17 types: converted",
            "257 opcodes: refused 1",
            "256 opcodes: converted",
            "256 opcodes, the last is bad: refused 3",
            "65 types: refused 1",
            "64 types: converted",
        ] {
            of(class.into());
        }
    }
    for place in ["first", "middle", "last"] {
        for at in [54, 71] {
            out.push(format!("to_old: byte {at}, {place}: refused 3"));
        }
        for at in [50, 63] {
            out.push(format!("to_new: byte {at}, {place}: refused 3"));
        }
        for at in 50..54 {
            out.push(format!("to_old: byte {at} beyond its values, {place}: refused 26"));
            out.push(format!("to_old: byte {at} is not the name's, {place}: refused 27"));
        }
    }
    for class in [
        "26 before 3 of a later record: refused 26",
        "26 behind 3 of its own record: refused 3",
        "26 behind 3 of an earlier record: refused 3",
        "26, the first of two: refused 26",
        "27, the lower of two: refused 27",
        "27, a byte that is not read: refused 27",
        "a name near one, with its flow: refused 27",
        "records of 64 bytes: refused 1",
        "records of 64 bytes: refused 2",
        "a random table, a random flow: refused 27",
    ] {
        out.push(format!("to_old: {class}"));
    }
    out.extend(listed().map(|name| format!("to_old: {name} with another flow: refused 27")));
    for number in [1, 2] {
        out.push(format!("to_new: records of 72 bytes: refused {number}"));
    }
    out
}

#[cfg(test)]
mod tests {
    use super::*;
    use crate::recording::SEED;
    use crate::vectors;

    /// The file in recorded/ is what the seed gives, and every class has a case.
    #[test]
    fn recorded_file_is_current() {
        let recording = record(SEED).unwrap();
        assert_eq!(recording.classes.missing(&wanted()), Vec::<String>::new());
        assert!(include_bytes!("../recorded/convert.vec")[..] == recording.writer.out);
        assert_eq!(vectors::replay(&recording.writer.out), Ok(recording.writer.calls));
        let rooms = vectors::each(&recording.writer.out, |recorded| {
            assert!(recorded.call.args[0] <= MOST_ROOM);
            Ok(())
        });
        assert!(rooms.is_ok());
    }

    /// V8's tables are converted as they were recorded; where the listings are beside the repository the file is made again.
    #[test]
    fn recorded_v8_file_is_current() {
        let recorded = include_bytes!("../recorded/convert-v8.vec");
        assert!(vectors::replay(recorded).is_ok());
        let folder = Path::new(env!("CARGO_MANIFEST_DIR")).join("../../shared/v8-listings");
        if folder.is_dir() {
            assert!(recorded[..] == record_v8(&folder).unwrap().writer.out);
        }
    }
}
