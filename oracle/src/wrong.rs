//! Answers that are wrong on purpose: calls of right recordings, each with one thing changed in what is said. A
//! program that replays them must find a difference in every one, so that a comparison that leaves something out shows.

use crate::ask::*;
use crate::records::{Files, OLD_OPCODE_SIZE, OPCODES, OPCODE_SIZE};
use crate::vectors::{self, Recorded, Writer};
use std::collections::BTreeMap;
use std::path::Path;

/// A program that replays vectors: the functions that it asks, and the files that it is given.
pub struct Program {
    pub name: &'static str,
    functions: &'static [usize],
    files: &'static [&'static str],
    /// Those of real functions: of each the shortest calls are changed too, however long their tables are.
    real: &'static [&'static str],
}

pub const PROGRAMS: [Program; 3] = [
    Program {
        name: "replay",
        functions: &[
            RAW_AT,
            ARRAY_LEN,
            ARRAY_ELEM,
            BCA_RT_OFF,
            DECODE_SMI_BYTES,
            REG_NAME,
            RENDER_OPERAND,
            DECODE,
            SLOT_AT,
            TABLE_CHECK,
            STORE_CHECK,
            INSTRUCTION_TEXT,
            LAST_BYTES,
            SLOT_RECORDS,
            WRITE,
            TO_NEW,
            TO_OLD,
        ],
        files: &["rows.vec", "store.vec", "code.vec", "slots.vec", "write.vec", "convert.vec"],
        real: &[],
    },
    Program {
        name: "relist",
        functions: &[
            LISTING,
            SMI_SLOT,
            NUM_FIELD,
            JUMP_TARGET,
            JUMP_TABLE,
            LONG_LISTING,
            HEADER,
            JUMP_ENTRY,
        ],
        files: &[
            "rows.vec",
            "named.vec",
            "list.vec",
            "jump.vec",
            "entry.vec",
            "header.vec",
            "layout.vec",
            "caches.vec",
        ],
        real: &["caches.vec"],
    },
    Program {
        name: "rewalk",
        functions: &[WALK, WALK_CODE, WALK_LAST_BYTES, WALK_WITH, WALK_CODE_WITH],
        files: &[
            "walk-1.vec",
            "walk-2.vec",
            "walk-few.vec",
            "walk-caches.vec",
            "walk-handlers.vec",
            "walk-tries.vec",
        ],
        real: &["walk-caches.vec", "walk-tries.vec"],
    },
];

/// Calls whose files, code and answer are longer in all are left out; of real functions those whose answer is.
const LONGEST: usize = 12_000;

pub struct WrongRecording {
    pub writer: Writer,
    /// Wrong calls by function, and by the kind of the right answer.
    pub kinds: BTreeMap<(usize, String), usize>,
}

/// A call to be changed.
struct Chosen {
    weight: usize,
    number: usize,
    files: Files,
    code: Vec<u8>,
    handlers: Vec<u8>,
    call: Call,
    said: Vec<u8>,
}

/// From the recordings in a folder: for each function and each kind of answer the shortest call, with each thing
/// changed that its answer has.
pub fn record(program: &Program, folder: &Path) -> Result<WrongRecording, String> {
    let mut chosen: BTreeMap<(usize, String), Chosen> = BTreeMap::new();
    let mut number = 0;
    for file in program.files {
        let path = folder.join(file);
        let right = std::fs::read(&path).map_err(|e| format!("{}: {e}", path.display()))?;
        let real = program.real.contains(file).then_some(*file);
        vectors::each(&right, |recorded| {
            number += 1;
            choose(&mut chosen, program, real, number, recorded);
            Ok(())
        })?;
    }
    let mut out = WrongRecording { writer: Writer::sharing(), kinds: BTreeMap::new() };
    let mut by_number: BTreeMap<usize, Vec<(usize, String)>> = BTreeMap::new();
    for (key, call) in &chosen {
        by_number.entry(call.number).or_default().push(key.clone());
    }
    let mut files = Files::default();
    for keys in by_number.values() {
        let right = &chosen[&keys[0]];
        set(&mut out.writer, &mut files, right);
        for wrong in wrongs(right)? {
            out.writer.said(&right.call, &wrong);
            for key in keys {
                *out.kinds.entry(key.clone()).or_default() += 1;
            }
        }
    }
    Ok(out)
}

/// Keeps a call where it is the shortest of a kind, or of a kind in a recording of real functions.
fn choose(
    chosen: &mut BTreeMap<(usize, String), Chosen>,
    program: &Program,
    real: Option<&str>,
    number: usize,
    recorded: &Recorded,
) {
    let call = &recorded.call;
    let weight = weight(recorded);
    let long = if real.is_some() { recorded.said.len() } else { weight } > LONGEST;
    if !program.functions.contains(&call.function) || long {
        return;
    }
    for kind in kinds(recorded) {
        let kind = real.map(|file| format!("{kind} in {file}")).unwrap_or(kind);
        let key = (call.function, kind);
        if chosen.get(&key).is_some_and(|held| held.weight <= weight) {
            continue;
        }
        let held = Chosen {
            weight,
            number,
            files: recorded.files.clone(),
            code: recorded.code.to_vec(),
            handlers: recorded.handlers.to_vec(),
            call: call.clone(),
            said: recorded.said.to_vec(),
        };
        chosen.insert(key, held);
    }
}

/// Bytes of what a call is lent, and of what is said.
fn weight(recorded: &Recorded) -> usize {
    let lent = lent(&recorded.call);
    let files = (0..8).filter(|k| lent & 1 << k != 0).map(|k| recorded.files.body[k].len());
    let code = if lends_code(&recorded.call) { recorded.code.len() } else { 0 };
    let handlers = if lends_handlers(&recorded.call) { recorded.handlers.len() } else { 0 };
    files.sum::<usize>() + code + handlers + recorded.said.len()
}

/// Sets what a call is lent; the rest stays.
fn set(writer: &mut Writer, files: &mut Files, right: &Chosen) {
    let lent = lent(&right.call);
    for k in (0..8).filter(|k| lent & 1 << k != 0) {
        files.body[k] = right.files.body[k].clone();
    }
    writer.files(files);
    if lends_code(&right.call) {
        writer.code(&right.code);
    }
    if lends_handlers(&right.call) {
        writer.handlers(&right.handlers);
    }
}

fn number(said: &[u8], k: usize) -> u64 {
    u64::from_le_bytes(said[1 + 8 * k..9 + 8 * k].try_into().unwrap())
}

/// Which kinds of answers this is one of.
fn kinds(recorded: &Recorded) -> Vec<String> {
    let mut out = kinds_of(recorded.call.function, recorded.said);
    // Walks with records are also told apart by what is said without them.
    if lends_handlers(&recorded.call) && recorded.said[0] == 1 {
        let without = ask(recorded.files, recorded.code, &recorded.call).expect("it was asked");
        if vectors::said(&without) != recorded.said {
            out.extend(out.clone().into_iter().map(|kind| kind + ", otherwise without records"));
        }
    }
    out
}

fn kinds_of(function: usize, said: &[u8]) -> Vec<String> {
    match said[0] {
        0 => return vec!["nothing".into()],
        2 => return vec![format!("refused {}", number(said, 0))],
        3 => return vec!["end".into()],
        _ => {}
    }
    match function {
        ARRAY_ELEM | JUMP_ENTRY => vec![format!("kind {}", number(said, 0))],
        SLOT_AT => vec![format!("kind {}, inner {}", number(said, 0), number(said, 4))],
        JUMP_TABLE => vec![format!("{} entries", number(said, 0).min(2))],
        WALK | WALK_CODE | WALK_WITH | WALK_CODE_WITH => {
            let leaves = number(said, 0) == 1;
            let marks = said.len() - if leaves { 25 } else { 9 };
            let what = if leaves { "leaves" } else { "closed" };
            vec![format!("{what}, {} bytes of marks", marks.min(3))]
        }
        DECODE => {
            let count = number(said, 3) as usize;
            let operand = |k| format!("operand of kind {}", number(said, 4 + 3 * k));
            let mut out: Vec<String> = (0..count).map(operand).collect();
            out.push(format!("{count} operands"));
            out
        }
        SLOT_RECORDS => vec![format!("{} slots", (said.len() / 48).min(3))],
        WRITE => vec![format!("{} bytes", (said.len() - 1).min(4))],
        TO_NEW | TO_OLD => {
            let records = (said.len() - 1) / converted_size(function);
            vec![format!("{} records", records.min(3))]
        }
        LAST_BYTES | WALK_LAST_BYTES => {
            let runs = runs(&said[1..]);
            let mut out = vec![format!("{} runs", runs.len().min(4))];
            out.extend(runs.iter().map(|run| format!("a run of status {}", run.1[0])));
            out
        }
        _ => vec!["found".into()],
    }
}

/// What is said, with one thing changed, in each way; and what is said where no handler records are lent.
fn wrongs(right: &Chosen) -> Result<Vec<Vec<u8>>, String> {
    let said = &right.said[..];
    let mut out = vec![changed(said, 0, |status| (status + 1) % 4)];
    match (said[0], right.call.function) {
        (0 | 3, _) => {}
        (1, LISTING | LONG_LISTING | REG_NAME | RENDER_OPERAND | INSTRUCTION_TEXT | WRITE) => {
            out.extend([1, said.len() / 2, said.len() - 1].map(|at| flipped(said, at, 0)));
            out.push(said[..said.len() - 1].to_vec());
        }
        (1, WALK | WALK_CODE | WALK_WITH | WALK_CODE_WITH) => out.extend(wrong_walks(right)?),
        (1, LAST_BYTES | WALK_LAST_BYTES) => out.extend(wrong_runs(said)),
        (1, TO_NEW | TO_OLD) => out.extend(wrong_files(right)),
        (_, function) => {
            out.extend((0..said.len() / 8).flat_map(|k| wrong_number(said, k)));
            if said.len() > 8 {
                out.push(said[..said.len() - 8].to_vec());
            }
            if said == refused_0(19) {
                out.push(closed_empty());
            }
            if said[0] == 1 && function == JUMP_TABLE {
                out.extend(one_entry_fewer(said));
            }
            if said.len() > 48 && function == SLOT_RECORDS {
                out.push(said[..said.len() - 48].to_vec());
                out.push([&[1], &said[49..]].concat());
            }
        }
    }
    out.push([said, &[0]].concat());
    if lends_handlers(&right.call) {
        let without = vectors::said(&ask(&right.files, &right.code, &right.call)?);
        out.extend((without != said).then_some(without));
    }
    out.sort();
    out.dedup();
    Ok(out)
}

fn changed(said: &[u8], at: usize, by: impl Fn(u8) -> u8) -> Vec<u8> {
    let mut out = said.to_vec();
    out[at] = by(out[at]);
    out
}

fn flipped(said: &[u8], at: usize, bit: usize) -> Vec<u8> {
    changed(said, at, |byte| byte ^ 1 << bit)
}

/// Bytes of a record that a conversion gives.
fn converted_size(function: usize) -> usize {
    if function == TO_NEW {
        OPCODE_SIZE
    } else {
        OLD_OPCODE_SIZE
    }
}

/// In the first record, a middle one and the last: a byte of the name, of the operands, of the flow or of the zeros. One record
/// forgotten; two changed over; the file as it was lent; a refusal in its place.
fn wrong_files(right: &Chosen) -> Vec<Vec<u8>> {
    let said = &right.said[..];
    let size = converted_size(right.call.function);
    let records: Vec<&[u8]> = said[1..].chunks(size).collect();
    let count = records.len();
    let mut out = Vec::new();
    for record in [0, count / 2, count - 1] {
        let bytes = [0, 40, 41, 49, 50, 51, 52, 53, 54, size - 1];
        out.extend(bytes.map(|at| flipped(said, 1 + record * size + at, 0)));
        let fewer = [&records[..record], &records[record + 1..]].concat().concat();
        out.push([&[1], &fewer[..]].concat());
        let doubled = [&records[..=record], &records[record..]].concat().concat();
        out.push([&[1], &doubled[..]].concat());
    }
    let backward: Vec<&[u8]> = records.iter().rev().copied().collect();
    let written = |file: &[u8]| [&[1], file].concat();
    out.extend([written(&backward.concat()), written(&right.files.body[OPCODES])]);
    out.extend([3, 17, 26, 27].map(refused_0));
    out.push(said[..said.len() - 1].to_vec());
    out.retain(|wrong| wrong != said);
    out
}

/// The lowest bit of a number, and the highest.
fn wrong_number(said: &[u8], k: usize) -> [Vec<u8>; 2] {
    [flipped(said, 1 + 8 * k, 0), flipped(said, 8 + 8 * k, 7)]
}

/// The first entry is missing, or the last.
fn one_entry_fewer(said: &[u8]) -> Vec<Vec<u8>> {
    let Some(fewer) = number(said, 0).checked_sub(1) else {
        return Vec::new();
    };
    let head = [&[1][..], &fewer.to_le_bytes()].concat();
    let entries = &said[9..];
    [&entries[16..], &entries[..entries.len() - 16]].map(|kept| [&head[..], kept].concat()).to_vec()
}

/// A refusal at place 0.
fn refused_0(number: u64) -> Vec<u8> {
    [&[2][..], &number.to_le_bytes(), &[0; 8]].concat()
}

/// Closed, without a mark.
fn closed_empty() -> Vec<u8> {
    vec![1, 0, 0, 0, 0, 0, 0, 0, 0]
}

/// A number, a mark, a bit behind the marks, or eight marks missing; of empty code a mark where there is none, or a
/// refusal, 19 as before Wish 4, or 18.
fn wrong_walks(right: &Chosen) -> Result<Vec<Vec<u8>>, String> {
    let said = &right.said[..];
    let asked = ask_with(&right.files, &right.code, &right.handlers, &right.call)?;
    let Answer::Walked(walked) = asked else {
        return Err("a recorded walk is none".into());
    };
    let numbers = if number(said, 0) == 0 { 1 } else { 3 };
    let mut out: Vec<Vec<u8>> = (0..numbers).flat_map(|k| wrong_number(said, k)).collect();
    let count = walked.marks.len();
    if count == 0 {
        out.extend([[said, &[1]].concat(), refused_0(19), refused_0(18)]);
        return Ok(out);
    }
    let bits = 1 + 8 * numbers;
    let mut marks = vec![0, count / 2, count - 1];
    // Bits behind the last mark are 0.
    if count % 8 != 0 {
        marks.push(count);
    }
    out.extend(marks.iter().map(|mark| flipped(said, bits + mark / 8, mark % 8)));
    out.push(said[..said.len() - 1].to_vec());
    Ok(out)
}

/// In each of the first runs and in the last: its status, each number of its answer, a byte more; one answer taken by
/// the next run. The last run one shorter, or missing.
fn wrong_runs(said: &[u8]) -> Vec<Vec<u8>> {
    let runs = runs(&said[1..]);
    let last = runs.len() - 1;
    let mut out = Vec::new();
    for k in (0..last.min(5)).chain([last]) {
        let with = |wrong: Vec<u8>| {
            let mut runs = runs.clone();
            runs[k].1 = wrong;
            written(&runs)
        };
        let one = &runs[k].1;
        out.push(with(changed(one, 0, |status| (status + 1) % 4)));
        out.extend((1..one.len()).step_by(8).map(|at| with(flipped(one, at, 0))));
        out.push(with([&one[..], &[0]].concat()));
        if k < last && runs[k].0 > 1 {
            let mut runs = runs.clone();
            runs[k].0 -= 1;
            runs[k + 1].0 += 1;
            out.push(written(&runs));
        }
    }
    let mut fewer = runs.clone();
    fewer[last].0 -= 1;
    if fewer[last].0 > 0 {
        out.push(written(&fewer));
    }
    out.push(written(&runs[..last]));
    out
}

/// How many, and what is said.
type Run = (u16, Vec<u8>);

fn runs(mut rest: &[u8]) -> Vec<Run> {
    let mut out = Vec::new();
    while !rest.is_empty() {
        let [count, length] =
            [0, 2].map(|at| u16::from_le_bytes(rest[at..at + 2].try_into().unwrap()));
        let (said, behind) = rest[4..].split_at(length as usize);
        out.push((count, said.to_vec()));
        rest = behind;
    }
    out
}

fn written(runs: &[Run]) -> Vec<u8> {
    let mut out = vec![1];
    for (count, said) in runs {
        out.extend(count.to_le_bytes());
        out.extend((said.len() as u16).to_le_bytes());
        out.extend(said);
    }
    out
}

impl WrongRecording {
    /// A line for each function: its calls, and the kinds of answers that are changed.
    pub fn report(&self) -> String {
        let mut lines: BTreeMap<usize, Vec<String>> = BTreeMap::new();
        for (function, kind) in self.kinds.keys() {
            lines.entry(*function).or_default().push(kind.clone());
        }
        let line = |(function, kinds): (&usize, &Vec<String>)| {
            format!("{}: {}\n", FUNCTIONS[*function].name, kinds.join(", "))
        };
        lines.iter().map(line).collect()
    }
}

#[cfg(test)]
mod tests {
    use super::*;

    /// The files in recorded/ are what the recordings give, each function has its calls in them, and every call
    /// says something else than is so.
    #[test]
    fn recorded_files_are_current() {
        let folder = Path::new(env!("CARGO_MANIFEST_DIR")).join("recorded");
        for program in &PROGRAMS {
            let recording = record(program, &folder).unwrap();
            let recorded = folder.join(format!("wrong-{}.vec", program.name));
            assert!(std::fs::read(recorded).unwrap() == recording.writer.out, "{}", program.name);
            let calls = vectors::each(&recording.writer.out, |wrong| {
                let answer = wrong.asked()?;
                assert!(
                    vectors::said(&answer) != wrong.said,
                    "{}: item at {}",
                    program.name,
                    wrong.at
                );
                Ok(())
            });
            assert_eq!(calls, Ok(recording.writer.calls));
            for function in program.functions {
                let has = recording.kinds.keys().any(|(f, _)| f == function);
                assert!(has, "{}", FUNCTIONS[*function].name);
            }
        }
    }

    #[test]
    fn one_thing_is_changed() {
        let said = [&[1][..], &2u64.to_le_bytes(), &[7; 32]].concat();
        let fewer = one_entry_fewer(&said);
        let one = [&[1][..], &1u64.to_le_bytes(), &[7; 16]].concat();
        assert_eq!(fewer, [one.clone(), one]);
        let runs = [(255, vec![3]), (1, vec![1, 0, 0])];
        assert_eq!(runs.to_vec(), super::runs(&written(&runs)[1..]));
    }
}
