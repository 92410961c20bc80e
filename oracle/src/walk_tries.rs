//! Vectors of the walk over functions that V8 compiled, with V8's own handler tables. V8 leaves out code that nothing
//! leads to: so no walk leaves, and every instruction is reached, but for those that only the handler of an empty
//! entry leads to, or the entries of a switch that V8 has dropped.

use crate::ask::*;
use crate::caches::{exported, listed, Wanted};
use crate::handlers::{self, Handler};
use crate::port::{Port, STORE, TABLE};
use crate::records::*;
use crate::vectors::Writer;
use crate::walk_v8;
use crate::walks::{self, Outcome, Walked};
use jscd::serializer::Elem;
use std::collections::BTreeSet;
use std::path::Path;

pub struct TriesRecording {
    pub writer: Writer,
    pub functions: usize,
    /// Records, the functions that have one, and places that they name, each once in a function.
    pub records: usize,
    with_records: usize,
    pub handlers: usize,
    /// Entries whose start is their end: number 25 would refuse them as records.
    pub empty: usize,
    /// Instructions that are reached, and those that only an empty entry or a dropped switch leads to.
    reached: usize,
    beside: usize,
    /// What is not as V8's code must be, which is a defect.
    pub others: Vec<String>,
}

/// Functions whose finally always leaves: V8 drops the switch behind it and keeps what its entries lead to. Their distances
/// stay in the pool, counted from -1.
const DROPPED: [&str; 2] = ["-overruled", "-returned"];

/// The functions of a folder that export/cache wrote, by the handler tables that V8 printed; those without an entry are
/// left out.
pub fn record(folder: &Path, print: &Path) -> Result<TriesRecording, String> {
    let wanted = Wanted::new(print)?;
    let mut out = TriesRecording::new();
    for (name, files) in exported(folder)? {
        match wanted.handlers(&listed(&files)?) {
            Ok([]) => {}
            Ok(entries) => out.function(&name, &without_names(files), entries)?,
            Err(message) => out.others.push(format!("{name}: {message}")),
        }
    }
    Ok(out)
}

/// Tables with the names of no runtime function, which no walk reads: they are long.
fn without_names(mut files: Files) -> Files {
    files.body[RUNTIME].clear();
    files.body[INTRINSIC].clear();
    files
}

/// The functions of a folder of listings.
pub fn record_v8(folder: &Path) -> Result<TriesRecording, String> {
    let mut out = TriesRecording::new();
    for case in walk_v8::cases(folder)? {
        let files = without_names(case.files(folder)?);
        let name = format!("V8 {}, {} bytes", case.v8, case.code.len());
        out.function(&name, &files, &case.handlers)?;
    }
    Ok(out)
}

impl TriesRecording {
    fn new() -> TriesRecording {
        TriesRecording {
            writer: Writer::sharing(),
            functions: 0,
            records: 0,
            with_records: 0,
            handlers: 0,
            empty: 0,
            reached: 0,
            beside: 0,
            others: Vec::new(),
        }
    }

    /// The walk of object 0, and of the same code lent with its pool.
    fn function(&mut self, name: &str, files: &Files, entries: &[[u32; 3]]) -> Result<(), String> {
        let port = Port::new(files, TABLE | STORE)?;
        let code = port.code(0);
        let entries: Vec<Handler> =
            entries.iter().map(|[a, b, c]| Handler::new(*a, *b, *c)).collect();
        let (empty, records): (Vec<Handler>, Vec<Handler>) =
            entries.into_iter().partition(|entry| entry.start == entry.end);
        self.writer.files(files);
        self.writer.code(code);
        self.writer.handlers(&handlers::file(&records));
        let of_object = self.writer.call(&Call::new(WALK_WITH, &[65_536]))?;
        let lent = self.writer.call(&Call::new(WALK_CODE_WITH, &[0, code.len() as u64]))?;
        self.functions += 1;
        self.records += records.len();
        self.with_records += !records.is_empty() as usize;
        self.handlers += records.iter().map(|record| record.to).collect::<BTreeSet<_>>().len();
        self.empty += empty.len();
        match &of_object {
            Answer::Walked(walked) if walked.outcome == Outcome::Closed && of_object == lent => {
                let mut beside: Vec<usize> = empty.iter().map(|entry| entry.to as usize).collect();
                if DROPPED.iter().any(|end| name.ends_with(end)) {
                    beside.extend(dropped(&port));
                }
                if let Err(message) = self.all_reached(&port, code, walked, &records, beside) {
                    self.others.push(format!("{name}: {message}"));
                }
            }
            _ => self.others.push(format!("{name}: {of_object} as object 0, {lent} as lent code")),
        }
        Ok(())
    }

    /// Every instruction is marked, or is one that only these places lead to.
    fn all_reached(
        &mut self,
        port: &Port,
        code: &[u8],
        walked: &Walked,
        records: &[Handler],
        mut places: Vec<usize>,
    ) -> Result<(), String> {
        let listed = walks::listed(port, 0, code).map_err(|refusal| refusal.to_string())?;
        let steps = walks::all_steps(port, 0, &listed, records);
        let mut beside = BTreeSet::new();
        while let Some(at) = places.pop() {
            if steps.contains_key(&at) && !walked.marks[at] && beside.insert(at) {
                places.extend(steps[&at].iter().flatten());
            }
        }
        self.reached += walked.marks.iter().filter(|mark| **mark).count();
        self.beside += beside.len();
        let missed = steps.keys().find(|at| !walked.marks[**at] && !beside.contains(at));
        missed.map_or(Ok(()), |at| Err(format!("the instruction at {at} is not reached")))
    }

    pub fn report(&self) -> String {
        let mut out: String = self.others.iter().map(|other| format!("{other}\n")).collect();
        let TriesRecording { functions, records, with_records, handlers, empty, .. } = self;
        out += &format!("{functions} functions, {with_records} of them with {records} records of {handlers} handlers; ");
        out += &format!("{empty} empty entries are left out\n");
        let TriesRecording { reached, beside, others, .. } = self;
        out += &format!("{reached} instructions reached, {beside} that only an empty entry or a dropped switch leads to\n");
        out + &format!("{} not as V8's code must be\n", others.len())
    }
}

/// Where the entries of a dropped switch lead.
fn dropped(port: &Port) -> Vec<usize> {
    let Some(pool) = port.pool(0) else {
        return Vec::new();
    };
    let element = |k| match port.cache.array_elem(pool, k) {
        Some(Elem::Smi(distance)) => usize::try_from(distance - 1).ok(),
        _ => None,
    };
    (0..port.cache.array_len(pool)).filter_map(element).collect()
}

#[cfg(test)]
mod tests {
    use super::*;
    use crate::{sample, vectors};

    const TRIES: &[u8] = include_bytes!("../recorded/walk-tries.vec");
    const TRIES_V8: &[u8] = include_bytes!("../recorded/walk-tries-v8.vec");

    /// The walks are those recorded: all closed, and every handler reached.
    #[test]
    fn asked_again() {
        for (recorded, functions) in [(TRIES, 97), (TRIES_V8, 70)] {
            assert_eq!(vectors::replay(recorded), Ok(2 * functions));
            let each = vectors::each(recorded, |recorded| {
                let Answer::Walked(walked) = recorded.asked()? else {
                    return Err("refused".into());
                };
                assert_eq!(walked.outcome, Outcome::Closed);
                let records = handlers::records(recorded.handlers);
                assert!(records.iter().all(|record| walked.marks[record.to as usize]));
                Ok(())
            });
            assert!(each.is_ok());
        }
    }

    /// What is said of LdaZero, Return, LdaZero, Return with these entries.
    fn defects(entries: &[[u32; 3]]) -> (Vec<String>, [usize; 4]) {
        let files = sample::function(&[0x02, 0x0b, 0x02, 0x0b], 8, &[]);
        let mut out = TriesRecording::new();
        out.function("f", &files, entries).unwrap();
        (out.others, [out.records, out.empty, out.reached, out.beside])
    }

    /// An instruction that is not reached, and a walk that leaves, are defects; what only an empty entry leads to is none.
    #[test]
    fn what_is_a_defect() {
        assert_eq!(defects(&[[0, 1, 2]]), (vec![], [1, 0, 4, 0]));
        assert_eq!(defects(&[[1, 1, 2]]), (vec![], [0, 1, 2, 2]));
        let missed = |at| vec![format!("f: the instruction at {at} is not reached")];
        assert_eq!(defects(&[]), (missed(2), [0, 0, 2, 0]));
        assert_eq!(defects(&[[1, 2, 2]]).0, missed(2));
        assert_eq!(defects(&[[0, 1, 3]]).0, missed(2));
        assert_eq!(defects(&[[1, 1, 3]]).0, missed(2));
        let left = "f: leaves steps 1 from 0 as object 0, leaves steps 1 from 0 as lent code";
        assert_eq!(defects(&[[0, 1, 4]]).0, [left]);
    }

    /// The file in recorded/ is what the listings give, where they are beside the repository.
    #[test]
    fn recorded_file_is_current() {
        let folder = Path::new(env!("CARGO_MANIFEST_DIR")).join("../../shared/v8-listings");
        if folder.is_dir() {
            let recording = record_v8(&folder).unwrap();
            assert_eq!(recording.others, Vec::<String>::new());
            assert!(TRIES_V8 == recording.writer.out);
        }
    }
}
