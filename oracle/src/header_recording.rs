//! Vectors of headers, from a seed: functions of random stores, and the refusals.

use crate::ask::*;
use crate::classes::Classes;
use crate::faults;
use crate::lists;
use crate::random::Random;
use crate::records::*;
use crate::sample;
use crate::stores;
use crate::vectors::Writer;

/// Stores of each tagged size and unit: those of `record-list`, codes for each, and those of `record-store`.
const SHAPES: usize = 10;
const CODES: usize = 4;
const STORES: usize = 4;

pub struct HeaderRecording {
    pub writer: Writer,
    pub classes: Classes,
}

pub fn record(seed: u64) -> Result<HeaderRecording, String> {
    let mut r = Random::new(seed);
    let mut out = HeaderRecording { writer: Writer::sharing(), classes: Classes::default() };
    out.faults()?;
    for _ in 0..SHAPES {
        for (ts, unit) in [(4, 0), (4, 4), (4, 8), (8, 0), (8, 4), (8, 8)] {
            out.functions(&mut r, ts, unit)?;
        }
    }
    for _ in 0..STORES {
        for (ts, unit) in [(4, 0), (4, 4), (4, 8), (8, 0), (8, 4), (8, 8)] {
            let files = stores::store(&mut r, ts, unit);
            for object in 0..files.count(OBJECTS) as u64 {
                out.call(&files, object)?;
            }
        }
    }
    Ok(out)
}

/// The sample's header by layouts to be refused, of another length or with a bad value, and by some at a limit; alone, and with
/// a fault of each row behind the layout's.
pub fn record_layouts() -> Result<HeaderRecording, String> {
    let mut out = HeaderRecording { writer: Writer::sharing(), classes: Classes::default() };
    for layout in layouts() {
        let mut files = sample::sample();
        files.body[LAYOUT] = layout;
        out.call(&files, 0)?;
        out.call(&files, u64::MAX)?;
        for (file, at, byte) in [(SLOTS, 4, 6), (OBJECTS, 0, 2), (PAYLOAD, 7, 0xff)] {
            let mut files = files.clone();
            files.body[file][at] = byte;
            out.call(&files, 0)?;
        }
        let mut files = files.clone();
        files.body[OBJECTS].push(0);
        out.call(&files, 0)?;
    }
    Ok(out)
}

fn layouts() -> Vec<Vec<u8>> {
    let good = &sample::table().body[LAYOUT];
    let mut out: Vec<Vec<u8>> = Vec::new();
    for length in [0, 1, 79, 81, 84, 160] {
        out.push(good.iter().copied().cycle().take(length).collect());
    }
    let with = |value: usize, is: u32| {
        let mut layout = good.clone();
        layout[4 * value..4 * value + 4].copy_from_slice(&is.to_le_bytes());
        layout
    };
    for value in 0..20 {
        let values: &[u32] = match value {
            0 => &[0, 1, 4, 6, 264, 1 << 31, ABSENT],
            1 => &[1, 4, 8, 12, 1 << 8, ABSENT],
            2 => &[0, 65_535, 65_536, ABSENT],
            3..=11 => &[65_535, 65_536, ABSENT - 1, ABSENT],
            12 | 18 => &[1, 2, 256, ABSENT],
            13..=17 => &[0, ABSENT],
            _ => &[1, 1 << 31, ABSENT],
        };
        out.extend(values.iter().map(|is| with(value, *is)));
    }
    // Two faults: the value of the lower number is told.
    let mut two = with(19, 1);
    two[4 * 5..4 * 5 + 4].copy_from_slice(&65_536u32.to_le_bytes());
    out.push(two);
    out
}

impl HeaderRecording {
    /// Asks, records and counts. Only layout and store are lent.
    fn call(&mut self, files: &Files, object: u64) -> Result<(), String> {
        let mut lent = files.clone();
        for file in OPCODES..LAYOUT {
            lent.body[file].clear();
        }
        self.writer.files(&lent);
        let answer = self.writer.call(&Call::new(HEADER, &[object]))?;
        self.classes.add(&classes(&lent, &answer));
        Ok(())
    }

    /// The sample with a fault in its store or in object 0, and objects that are not there.
    fn faults(&mut self) -> Result<(), String> {
        let small = |files: &Files| files.body.iter().all(|b| b.len() < 2_000);
        let stores = faults::stores().into_iter().filter(|case| small(&case.files));
        for (k, case) in stores.step_by(3).enumerate() {
            let mut files = sample::table();
            for file in OBJECTS..=PAYLOAD {
                files.body[file] = case.files.body[file].clone();
            }
            self.call(&files, k as u64 % 3)?;
        }
        for object in [0, 1, 1 << 32, u64::MAX] {
            self.call(&sample::sample(), object)?;
        }
        for kind in [0, 2] {
            let mut files = sample::sample();
            files.body[OBJECTS][0] = kind;
            self.call(&files, 0)?;
        }
        for length in [-1, 0, 6, 65_536, 65_537, i32::MIN, i32::MAX] {
            let mut files = sample::sample();
            files.body[PAYLOAD][4..8].copy_from_slice(&length.to_le_bytes());
            self.call(&files, 0)?;
        }
        Ok(())
    }

    /// A store for random codes, and its objects.
    fn functions(&mut self, r: &mut Random, ts: u32, unit: u32) -> Result<(), String> {
        let shape = lists::shape(r, &sample::table(), ts, unit, 12);
        for k in 0..CODES {
            let length = r.below(13) as usize;
            let code = r.bytes(length);
            let files = shape.with(r, &code);
            self.call(&files, 0)?;
            if k == 0 {
                self.call(&files, 1 + r.below(3))?;
            }
        }
        Ok(())
    }
}

/// Which cases a header is one of.
fn classes(files: &Files, answer: &Answer) -> Vec<String> {
    let found: Vec<i64> = match answer {
        Answer::Refused(refusal) => return vec![format!("refused {}", refusal.number)],
        Answer::Found { words, .. } => words.iter().map(|w| w.bits() as i64).collect(),
        _ => return vec!["no header".into()],
    };
    let [length, parameters, _, frame, osr, age, at, held] = found[..] else {
        return vec!["no header".into()];
    };
    let mut out = vec![format!("tagged size {}, unit {}", files.layout(0), files.layout(1))];
    for value in 6..=11 {
        if files.layout(value) == ABSENT {
            out.push(format!("layout value {value} absent"));
        }
    }
    let direct = if files.layout(12) == 1 { "direct" } else { "by size" };
    let sign = if parameters < 0 { ", below zero" } else { "" };
    out.push(format!("parameter count {direct}{sign}"));
    out.push(
        match (length, held) {
            (0, _) if at == 0 => "length 0, nothing there",
            (0, _) => "length 0",
            (_, 0) => "code that is not there",
            _ => "code",
        }
        .into(),
    );
    out.extend((frame % 8 != 0).then(|| "a frame size that 8 does not divide".into()));
    out.extend((frame > i32::MAX as i64).then(|| "a frame size above 31 bits".into()));
    out.extend((osr != 0).then(|| "a nesting level".into()));
    out.extend((age != 0).then(|| "an age".into()));
    out
}

/// Classes that must have a case.
pub fn wanted() -> Vec<String> {
    let mut out: Vec<String> = [6, 7, 8, 9].map(|n| format!("refused {n}")).to_vec();
    for ts in [4, 8] {
        out.extend([0, 4, 8].map(|unit| format!("tagged size {ts}, unit {unit}")));
    }
    out.extend((6..=11).map(|value| format!("layout value {value} absent")));
    for how in ["direct", "by size", "by size, below zero"] {
        out.push(format!("parameter count {how}"));
    }
    for class in [
        "length 0",
        "length 0, nothing there",
        "code that is not there",
        "code",
        "a frame size that 8 does not divide",
        "a frame size above 31 bits",
        "a nesting level",
        "an age",
    ] {
        out.push(class.into());
    }
    out
}

#[cfg(test)]
mod tests {
    use super::*;
    use crate::recording::SEED;
    use crate::vectors;

    /// The same for layouts; each refusal has a case.
    #[test]
    fn recorded_layouts_are_current() {
        let recording = record_layouts().unwrap();
        let wanted = [1, 5, 6, 7, 8, 9].map(|n| format!("refused {n}"));
        assert_eq!(recording.classes.missing(&wanted), Vec::<String>::new());
        assert!(include_bytes!("../recorded/layout.vec")[..] == recording.writer.out);
        assert_eq!(vectors::replay(&recording.writer.out), Ok(recording.writer.calls));
    }

    /// The file in recorded/ is what the seed gives, and every class has a case.
    #[test]
    fn recorded_file_is_current() {
        let recording = record(SEED).unwrap();
        assert_eq!(recording.classes.missing(&wanted()), Vec::<String>::new());
        assert!(include_bytes!("../recorded/header.vec")[..] == recording.writer.out);
        assert_eq!(vectors::replay(&recording.writer.out), Ok(recording.writer.calls));
    }
}
