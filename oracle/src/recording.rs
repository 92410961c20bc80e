//! Vectors of stores and tables, from a seed: small reads on random stores, and the checks.

use crate::ask::*;
use crate::checks::Check;
use crate::classes::{classes, Classes};
use crate::faults::{self, Case};
use crate::random::Random;
use crate::records::*;
use crate::stores;
use crate::vectors::Writer;

pub const SEED: u64 = 1;

/// Stores of each tagged size and unit, and calls on each store.
const STORES: usize = 12;
const CALLS: usize = 40;
/// A call is taken where one of its classes has fewer cases than this, and else sometimes.
const ENOUGH: usize = 40;

pub struct Recording {
    pub writer: Writer,
    pub classes: Classes,
    files: Files,
}

pub fn record(seed: u64) -> Result<Recording, String> {
    let mut r = Random::new(seed);
    let (writer, classes) = (Writer::sharing(), Classes::default());
    let mut out = Recording { writer, classes, files: Files::default() };
    for case in faults::tables() {
        out.table(&case)?;
    }
    for (k, case) in faults::stores().iter().enumerate() {
        out.store(case, k)?;
    }
    for call in stores::smi_bytes(&mut r) {
        out.call(&call)?;
    }
    for _ in 0..STORES {
        for (ts, unit) in [(4, 0), (4, 4), (4, 8), (8, 0), (8, 4), (8, 8)] {
            out.random(&mut r, ts, unit)?;
        }
    }
    for case in faults::flow_tables() {
        out.table(&case)?;
    }
    Ok(out)
}

impl Recording {
    fn set(&mut self, files: &Files) {
        self.writer.files(files);
        self.files = files.clone();
    }

    /// Asks, records and counts.
    fn call(&mut self, call: &Call) -> Result<Answer, String> {
        let answer = self.writer.call(call)?;
        self.classes.add(&classes(&self.files, call, &answer)?);
        Ok(answer)
    }

    /// A check, which must answer as the case says.
    fn check(&mut self, function: usize, case: &Case) -> Result<(), String> {
        let answer = self.writer.call(&Call::new(function, &[]))?;
        let said: Check = match answer {
            Answer::Refused(refusal) => Err(refusal),
            _ => Ok(()),
        };
        if said != case.says {
            return Err(format!("{}: the check says {answer}", case.class));
        }
        self.classes.add(std::slice::from_ref(&case.class));
        Ok(())
    }

    fn table(&mut self, case: &Case) -> Result<(), String> {
        self.set(&case.files);
        self.check(TABLE_CHECK, case)
    }

    /// The check, and one small read, of an object that is there or of one that is not.
    fn store(&mut self, case: &Case, k: usize) -> Result<(), String> {
        let mut files = case.files.clone();
        files.body[LAYOUT] = stores::layout(8, 0);
        self.set(&files);
        self.check(STORE_CHECK, case)?;
        let object = [0, 1, 2, 3][k / 5 % 4];
        self.call(&match k % 5 {
            0 => Call::new(RAW_AT, &[object, 8, 4]),
            1 => Call::new(ARRAY_LEN, &[object]),
            2 => Call::new(ARRAY_ELEM, &[object, 1]),
            3 => Call::new(BCA_RT_OFF, &[object, 16]),
            _ => Call::new(SLOT_AT, &[object, 2]),
        })?;
        Ok(())
    }

    /// A random store and some calls on it.
    fn random(&mut self, r: &mut Random, ts: u32, unit: u32) -> Result<(), String> {
        let files = stores::store(r, ts, unit);
        self.set(&files);
        for call in stores::whole(&files) {
            self.call(&call)?;
        }
        let mut calls = stores::calls(&files);
        for _ in 0..CALLS {
            let Some(call) = self.next(r, &mut calls)? else {
                break;
            };
            self.call(&call)?;
            self.classes.add(&[format!("tagged size {ts}, unit {unit}")]);
        }
        Ok(())
    }

    /// Takes calls out at random until one is wanted.
    fn next(&self, r: &mut Random, calls: &mut Vec<Call>) -> Result<Option<Call>, String> {
        while !calls.is_empty() {
            let call = calls.swap_remove(r.below(calls.len() as u64) as usize);
            let answer = ask(&self.files, &[], &call)?;
            let named = classes(&self.files, &call, &answer)?;
            if named.iter().any(|c| self.classes.count(c) < ENOUGH) || r.once_in(30) {
                return Ok(Some(call));
            }
        }
        Ok(None)
    }
}

#[cfg(test)]
mod tests {
    use super::*;
    use crate::classes::wanted;
    use crate::vectors;

    /// The file in recorded/ is what the seed gives, and every class has a case.
    #[test]
    fn recorded_file_is_current() {
        let recording = record(SEED).unwrap();
        assert_eq!(recording.classes.missing(&wanted()), Vec::<String>::new());
        assert!(include_bytes!("../recorded/store.vec")[..] == recording.writer.out);
        assert_eq!(vectors::replay(&recording.writer.out), Ok(recording.writer.calls));
    }

    /// The crates `replay`, `relist` and `rewalk` have copies of the recorded files.
    #[test]
    fn copies_are_current() {
        let oracle = std::path::Path::new(env!("CARGO_MANIFEST_DIR"));
        let replay = ["rows.vec", "store.vec", "slots.vec", "code.vec", "v8.vec"];
        let replay = replay.iter().chain(&crate::write_recording::PARTS);
        let replay = replay.chain(&crate::convert_recording::PARTS);
        let replay = replay.map(|name| ("replay", *name));
        let relist = [
            "rows.vec",
            "named.vec",
            "list.vec",
            "jump.vec",
            "entry.vec",
            "header.vec",
            "layout.vec",
            "v8list.vec",
            "caches.vec",
        ];
        let rewalk = [
            "walk-1",
            "walk-2",
            "walk-3",
            "walk-4",
            "walk-5",
            "walk-few",
            "walk-v8",
            "walk-caches",
            "walk-handlers",
            "walk-tries",
            "walk-tries-v8",
        ];
        let rewalk = rewalk.map(|name| ("rewalk", name.to_owned() + ".vec"));
        let copies = replay.chain(relist.map(|name| ("relist", name)));
        let copies = copies.map(|(held, name)| (held, name.to_owned()));
        for (held, name) in copies.chain(rewalk) {
            let recorded = std::fs::read(oracle.join("recorded").join(&name)).unwrap();
            let copy = oracle.join("../crates").join(held).join("data").join(&name);
            assert!(recorded == std::fs::read(copy).unwrap(), "{held} {name}");
        }
        for held in ["replay", "relist", "rewalk"] {
            let recorded = oracle.join("recorded").join(format!("wrong-{held}.vec"));
            let copy = oracle.join("../crates").join(held).join("data/wrong.vec");
            assert!(std::fs::read(recorded).unwrap() == std::fs::read(copy).unwrap(), "{held}");
        }
    }

    #[test]
    fn a_seed_decides() {
        assert!(record(2).unwrap().writer.out == record(2).unwrap().writer.out);
        assert!(record(2).unwrap().writer.out != record(3).unwrap().writer.out);
    }
}
