//! Vectors of writing an instruction: the chosen ones of `write_cases`, and every instruction that other recordings
//! decode, written again, some with one number changed.

use crate::ask::*;
use crate::checks;
use crate::classes::Classes;
use crate::decode;
use crate::port::Port;
use crate::random::Random;
use crate::records::*;
use crate::vectors::{self, Recorded, Writer};
use crate::write_cases::{self, Case};
use crate::writes;
use jscd::bytecode::Instr;
use std::collections::BTreeSet;
use std::path::Path;

/// The files that are written: chosen cases and document 01's rows; instructions over random tables; V8's.
pub const PARTS: [&str; 3] = ["write.vec", "write-code.vec", "write-v8.vec"];

/// The recordings that each is made from.
const SOURCES: [&str; 3] = ["rows.vec", "code.vec", "v8.vec"];

/// Of instructions over random tables, one in so many is recorded with a number changed too.
const CHANGED: u64 = 5;

/// The files that a writer is lent.
const LENT: u8 = 1 << OPCODES | 1 << TYPES | 1 << LAYOUT;

pub struct WriteRecording {
    pub writers: Vec<Writer>,
    pub classes: Classes,
}

/// From the recordings in a folder.
pub fn record(folder: &Path) -> Result<WriteRecording, String> {
    let mut out = WriteRecording { writers: Vec::new(), classes: Classes::default() };
    let mut r = Random::new(1);
    for source in SOURCES {
        out.writers.push(Writer::sharing_above(31));
        if source == SOURCES[0] {
            for case in write_cases::cases() {
                out.call(&case)?;
            }
        }
        let path = folder.join(source);
        let recorded = std::fs::read(&path).map_err(|e| format!("{}: {e}", path.display()))?;
        out.again(&mut r, source, &recorded)?;
    }
    Ok(out)
}

impl WriteRecording {
    /// Every instruction that a recording decodes, once for each table.
    fn again(&mut self, r: &mut Random, source: &str, recorded: &[u8]) -> Result<(), String> {
        let mut held = BTreeSet::new();
        each_decoded(recorded, |files, ins| {
            let files = lent(files);
            let numbers = numbers(&files, ins);
            let mut known = numbers.clone();
            known[2] = 0;
            if !held.insert((files.body.clone(), known)) {
                return Ok(());
            }
            let class = format!("again, {source}");
            let case = Case { class, files, numbers, room: None };
            self.call(&case)?;
            match source == SOURCES[1] && r.once_in(CHANGED) {
                true => self.call(&changed(r, case)),
                false => Ok(()),
            }
        })?;
        Ok(())
    }

    /// Asks, records and counts.
    fn call(&mut self, case: &Case) -> Result<(), String> {
        let files = lent(&case.files);
        let args = [&case.numbers[..], &[self.room(&files, case)]].concat();
        let writer = self.writers.last_mut().expect("a part");
        writer.files(&files);
        let answer = writer.call(&Call::new(WRITE, &args))?;
        let said = match &answer {
            Answer::Refused(refusal) => format!("refused {}", refusal.number),
            _ => "written".into(),
        };
        self.classes.add(&[format!("{}: {said}", case.class)]);
        Ok(())
    }

    /// The length of the buffer: where none is chosen, what is written fits, and there are 0, 1 or 9 bytes more.
    fn room(&self, files: &Files, case: &Case) -> u64 {
        let more = [0, 1, 9][self.writers.iter().map(|w| w.calls).sum::<usize>() % 3];
        let longest = writes::LONGEST as u64;
        let fits = || match checks::table(files, LENT) {
            Ok(()) => writes::write(files, &case.numbers, longest).map(|out| out.len() as u64),
            Err(refusal) => Err(refusal),
        };
        case.room.unwrap_or_else(|| fits().map_or(longest, |length| length + more))
    }
}

/// An instruction with one number changed, of those that are used.
fn changed(r: &mut Random, mut case: Case) -> Case {
    let used = 4 + 3 * case.numbers[3];
    let k = r.below(used) as usize;
    let by = *r.pick(&[1, 1, 2, 0xff, 1 << 7, 1 << 8, 1 << 15, 1 << 16, 1 << 31, 1 << 32, 1 << 63]);
    case.numbers[k] = case.numbers[k].wrapping_add(by);
    Case { class: "again, a number changed".into(), ..case }
}

/// The files that a writer is lent; the others empty.
fn lent(files: &Files) -> Files {
    let mut out = Files::default();
    for k in [OPCODES, TYPES, LAYOUT] {
        out.body[k] = files.body[k].clone();
    }
    out
}

/// A decoded instruction's numbers.
pub fn numbers(files: &Files, ins: &Instr) -> Vec<u64> {
    let Answer::Found { words, .. } = instruction(files, ins) else {
        unreachable!("an instruction is numbers")
    };
    let mut out: Vec<u64> = words.iter().map(|word| word.bits()).collect();
    // Recorded kinds begin with 0.
    out.iter_mut().skip(4).step_by(3).for_each(|kind| *kind += 1);
    out.resize(writes::NUMBERS, 0);
    out
}

/// Hands over every instruction that a recorded call decodes, with its files. Gives how many.
pub fn each_decoded(
    recorded: &[u8],
    mut take: impl FnMut(&Files, &Instr) -> Result<(), String>,
) -> Result<usize, String> {
    let mut count = 0;
    vectors::each(recorded, |recorded| {
        for ins in decoded(recorded)? {
            count += 1;
            take(recorded.files, &ins)?;
        }
        Ok(())
    })?;
    Ok(count)
}

/// The instructions that a call decodes: one, or one for each last byte.
fn decoded(recorded: &Recorded) -> Result<Vec<Instr>, String> {
    let codes = match recorded.call.function {
        DECODE | INSTRUCTION_TEXT => vec![recorded.code.to_vec()],
        LAST_BYTES => (0..=255).map(|b| [recorded.code, &[b]].concat()).collect(),
        _ => return Ok(Vec::new()),
    };
    if checks::table(recorded.files, LENT).is_err() {
        return Ok(Vec::new());
    }
    let port = Port::new(recorded.files, LENT)?;
    let start = recorded.call.args[0];
    let found = codes.iter().filter_map(|code| decode::checked(&port, code, start).ok().flatten());
    Ok(found.collect())
}

/// Classes that must have a case.
pub fn wanted() -> Vec<String> {
    let mut out = Vec::new();
    for kind in 1..=9 {
        for width in [1, 2, 4, 8] {
            out.push(format!("kind {kind} at width {width}: written"));
            // Every number fits there.
            if (kind, width) != (9, 8) {
                out.push(format!("kind {kind} at width {width}: refused 23"));
            }
        }
    }
    let rows = write_cases::ROWS;
    for (k, first) in rows.iter().enumerate() {
        let pairs = rows[k..].iter().map(|second| second.to_string());
        for second in pairs.chain(["all behind".into()]) {
            out.push(format!("order: {first} and {second}: refused {first}"));
        }
    }
    out.extend(OTHERS_WANTED.map(String::from));
    out
}

const OTHERS_WANTED: [&str; 24] = [
    "the kind of a type: written",
    "another kind: refused 23",
    "a second number: written",
    "a second number: refused 23",
    "a type code of a raw operand: refused 23",
    "one operand more: refused 23",
    "a buffer that fits: written",
    "a buffer that is one too short: refused 17",
    "a buffer that is one too long: written",
    "an empty buffer: refused 17",
    "opcode 0 at scale 1: refused 22",
    "opcode 1 at scale 1: refused 22",
    "opcode 0 at scale 2: written",
    "opcode 1 at scale 4: written",
    "opcode 21 at scale 1: written",
    "opcode 22 at scale 1: written",
    "scale 2: refused 21",
    "scale 4: refused 21",
    "a count of operands: refused 23",
    "one operand: refused 23",
    "operands behind the count: written",
    "again, rows.vec: written",
    "again, code.vec: written",
    "again, v8.vec: written",
];

#[cfg(test)]
mod tests {
    use super::*;

    /// The files in recorded/ are what the recordings give, every class has a case, and nothing that was decoded is
    /// refused.
    #[test]
    fn recorded_files_are_current() {
        let folder = Path::new(env!("CARGO_MANIFEST_DIR")).join("recorded");
        let recording = record(&folder).unwrap();
        assert_eq!(recording.classes.missing(&wanted()), Vec::<String>::new());
        for source in SOURCES {
            for number in [21, 22, 23, 17] {
                assert_eq!(
                    recording.classes.count(&format!("again, {source}: refused {number}")),
                    0
                );
            }
        }
        for (name, writer) in PARTS.iter().zip(&recording.writers) {
            assert!(std::fs::read(folder.join(name)).unwrap() == writer.out, "{name}");
            assert_eq!(vectors::replay(&writer.out), Ok(writer.calls), "{name}");
            assert!(writer.out.len() <= 1_048_576, "{name} is longer than the replay's buffer");
        }
    }
}
