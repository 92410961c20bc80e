//! Vectors of all slot records of a store, from a seed: the random stores of `record-store`, and those to be refused.

use crate::ask::*;
use crate::classes::Classes;
use crate::faults;
use crate::random::Random;
use crate::records::*;
use crate::sample;
use crate::stores;
use crate::vectors::Writer;

/// Random stores.
const STORES: usize = 60;

pub struct SlotRecording {
    pub writer: Writer,
    pub classes: Classes,
}

pub fn record(seed: u64) -> Result<SlotRecording, String> {
    let mut r = Random::new(seed);
    let mut out = SlotRecording { writer: Writer::sharing(), classes: Classes::default() };
    out.call(&Files::default())?;
    out.call(&sample::sample())?;
    let small = |files: &Files| files.body.iter().all(|b| b.len() < 2_000);
    for case in faults::stores().into_iter().filter(|case| small(&case.files)).step_by(4) {
        out.call(&case.files)?;
    }
    for k in 0..STORES {
        out.call(&stores::store(&mut r, [4, 8][k % 2], 0))?;
    }
    Ok(out)
}

impl SlotRecording {
    /// Asks, records and counts. Only the store is lent.
    fn call(&mut self, files: &Files) -> Result<(), String> {
        let mut lent = files.clone();
        for file in OPCODES..=LAYOUT {
            lent.body[file].clear();
        }
        self.writer.files(&lent);
        let answer = self.writer.call(&Call::new(SLOT_RECORDS, &[]))?;
        self.classes.add(&classes(&answer));
        Ok(())
    }
}

/// Which cases a store is one of.
fn classes(answer: &Answer) -> Vec<String> {
    let words: Vec<u64> = match answer {
        Answer::Refused(refusal) => return vec![format!("refused {}", refusal.number)],
        Answer::Found { words, .. } => words.iter().map(|w| w.bits()).collect(),
        _ => return Vec::new(),
    };
    let mut out: Vec<String> =
        words.chunks(6).map(|slot| format!("kind {}, inner {}", slot[1], slot[5])).collect();
    out.extend(words.is_empty().then(|| "no slots".into()));
    out.sort();
    out.dedup();
    out
}

/// Classes that must have a case.
pub fn wanted() -> Vec<String> {
    let mut out: Vec<String> = (0..5).map(|kind| format!("kind {kind}, inner 0")).collect();
    out.extend((0..5).map(|inner| format!("kind 5, inner {inner}")));
    out.extend([6, 7].map(|n| format!("refused {n}")));
    out.push("no slots".into());
    out
}

#[cfg(test)]
mod tests {
    use super::*;
    use crate::recording::SEED;
    use crate::vectors;

    /// The file in recorded/ is what the seed gives, and every class has a case.
    #[test]
    fn recorded_file_is_current() {
        let recording = record(SEED).unwrap();
        assert_eq!(recording.classes.missing(&wanted()), Vec::<String>::new());
        assert!(include_bytes!("../recorded/slots.vec")[..] == recording.writer.out);
        assert_eq!(vectors::replay(&recording.writer.out), Ok(recording.writer.calls));
    }
}
