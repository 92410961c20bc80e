//! Vectors of whole listings, from a seed: random functions, and the refusals.

use crate::ask::*;
use crate::classes::Classes;
use crate::codes;
use crate::decode;
use crate::faults::{self, Case};
use crate::flow_cases;
use crate::lists::{self, JUMPS, SWITCHES};
use crate::port::{Port, STORE, TABLE};
use crate::random::Random;
use crate::records::*;
use crate::sample;
use crate::vectors::Writer;

/// Random tables, stores for each table, and codes for each store.
const TABLES: usize = 48;
const STORES: usize = 6;
const CODES: usize = 7;
/// The same where opcodes have other flows than their names.
const FLOW_TABLES: usize = 8;
const FLOW_STORES: usize = 2;
/// Chosen opcodes of one listing.
const TOGETHER: usize = 24;

pub struct ListRecording {
    pub writer: Writer,
    pub classes: Classes,
}

pub fn record(seed: u64) -> Result<ListRecording, String> {
    let mut r = Random::new(seed);
    let mut out = ListRecording { writer: Writer::sharing(), classes: Classes::default() };
    out.faults()?;
    for (files, _) in lists::switches() {
        out.call(&files)?;
    }
    let pools = codes::pools(&mut r);
    for k in 0..TABLES {
        let table = lists::table(&mut r, &pools, k);
        for j in 0..STORES {
            let (ts, unit) = [(8, 0), (4, 8), (4, 4), (8, 8), (8, 4), (4, 0)][(j + k) % 6];
            out.random(&mut r, &table, ts, unit)?;
        }
    }
    out.flows()?;
    for k in 0..FLOW_TABLES {
        let mut table = lists::table(&mut r, &pools, k);
        flow_cases::change_flows(&mut r, &mut table);
        for j in 0..FLOW_STORES {
            let (ts, unit) = [(8, 0), (4, 8), (4, 4), (8, 8)][(j + k) % 4];
            out.random(&mut r, &table, ts, unit)?;
        }
    }
    Ok(out)
}

fn small(files: &Files) -> bool {
    files.body.iter().all(|b| b.len() < 2_000)
}

impl ListRecording {
    /// Asks, records and counts.
    fn call(&mut self, files: &Files) -> Result<(), String> {
        self.writer.files(files);
        let answer = self.writer.call(&Call::new(LISTING, &[]))?;
        self.classes.add(&classes(files, &answer)?);
        Ok(())
    }

    /// Flows at fault; chosen opcodes whose flow is not that of their name, and counts of such.
    fn flows(&mut self) -> Result<(), String> {
        self.tables(faults::flow_tables())?;
        for (k, chosen) in flow_cases::chosen().iter().enumerate() {
            let scales = [&[1, 2, 4][..], &[1], &[1, 2]][k];
            for scale in scales {
                for (_, code) in flow_cases::codes_of(chosen, *scale, TOGETHER) {
                    self.call(&chosen.function(&code))?;
                }
            }
        }
        flow_cases::counted(false).iter().try_for_each(|(files, _)| self.call(files))
    }

    /// The sample's function by some of these tables.
    fn tables(&mut self, cases: Vec<Case>) -> Result<(), String> {
        for case in cases.into_iter().filter(|case| small(&case.files)).step_by(5) {
            let mut files = case.files;
            for file in OBJECTS..=PAYLOAD {
                files.body[file] = sample::sample().body[file].clone();
            }
            self.call(&files)?;
        }
        Ok(())
    }

    /// The sample with a fault in its table, in its store, or in object 0.
    fn faults(&mut self) -> Result<(), String> {
        self.tables(faults::tables())?;
        let stores = faults::stores().into_iter().filter(|case| small(&case.files));
        for case in stores.step_by(4) {
            let mut files = sample::table();
            for file in OBJECTS..=PAYLOAD {
                files.body[file] = case.files.body[file].clone();
            }
            self.call(&files)?;
        }
        for kind in [0, 2] {
            let mut files = sample::sample();
            files.body[OBJECTS][0] = kind;
            self.call(&files)?;
        }
        let mut files = sample::sample();
        files.body[OBJECTS].clear();
        self.call(&files)
    }

    /// A store for a table, and listings of several codes in it.
    fn random(&mut self, r: &mut Random, table: &Files, ts: u32, unit: u32) -> Result<(), String> {
        let room = 12 + r.below(30) as usize;
        let shape = lists::shape(r, table, ts, unit, room);
        for _ in 0..CODES {
            let code = lists::code(r, table, &shape.pool);
            let files = shape.with(r, &code);
            self.call(&files)?;
        }
        Ok(())
    }
}

/// Which cases a listing is one of.
fn classes(files: &Files, answer: &Answer) -> Result<Vec<String>, String> {
    let text = match answer {
        Answer::Found { text, .. } => text,
        Answer::Refused(refusal) => return Ok(vec![format!("refused {}", refusal.number)]),
        _ => return Ok(vec!["no listing".into()]),
    };
    let mut out = vec![format!("tagged size {}, unit {}", files.layout(0), files.layout(1))];
    for value in 3..=11 {
        if files.layout(value) == ABSENT {
            out.push(format!("layout value {value} absent"));
        }
    }
    out.push(format!(
        "parameter count {}",
        if files.layout(12) == 1 { "direct" } else { "by size" }
    ));
    let lines: Vec<&str> = text.lines().collect();
    if lines[1].contains('-') {
        out.push("parameter count below zero".into());
    }
    match (lines[0], lines.len()) {
        ("Bytecode length: 0", _) => out.push("length 0".into()),
        (_, 6) => out.push("length without code".into()),
        _ => {}
    }
    let port = Port::new(files, TABLE | STORE)?;
    let listed = decode::all(&port, port.code(0)).map_err(|refusal| refusal.to_string())?;
    for (line, ins) in lines[6..].iter().zip(&listed) {
        match port.flow(ins).named {
            true => out.extend(line_classes(line)),
            false => out.extend(flow_cases::classes(&port, 0, ins)),
        }
    }
    out.sort();
    out.dedup();
    Ok(out)
}

/// By an instruction line: the name, a target or none, entries.
fn line_classes(line: &str) -> Vec<String> {
    let whole = line.split(' ').find(|word| {
        let name = word.split('.').next().unwrap_or_default();
        JUMPS.contains(&name) || SWITCHES.contains(&name)
    });
    let Some(whole) = whole else {
        return vec!["another instruction".into()];
    };
    let name = whole.split('.').next().unwrap_or_default();
    let prefixed = if whole == name { "" } else { ", prefixed" };
    if SWITCHES.contains(&name) {
        return vec![format!("{name}: {}{prefixed}", entries(line))];
    }
    let target = line.rsplit_once("(jscd @ ").map(|(_, rest)| rest.trim_end_matches(')'));
    match target.map(|t| t.parse::<u64>().unwrap_or_default()) {
        None => vec![format!("{}: no target", ending(name))],
        Some(t) => {
            let below = if t > i64::MAX as u64 { "below zero" } else { "not below zero" };
            vec![
                format!("{name}: a target"),
                format!("{}: a target {below}{prefixed}", ending(name)),
            ]
        }
    }
}

fn ending(name: &str) -> &str {
    match name {
        "JumpLoop" => "a loop",
        "JumpLoopConstant" => "a loop by the pool",
        _ if name.ends_with("Constant") => "a jump by the pool",
        _ => "a jump",
    }
}

fn entries(line: &str) -> &'static str {
    let Some((front, shown)) = line.split_once(" {") else {
        return "no table";
    };
    let shown = shown.matches(": @").count();
    // The entry count is the second operand of one switch and the third of the other.
    let numbers: Vec<&str> = front.split('[').skip(1).collect();
    let count = if front.contains("Smi") { numbers.get(1) } else { numbers.last() };
    let count = count.and_then(|n| n.split(']').next()?.parse::<usize>().ok()).unwrap_or(0);
    match shown {
        0 if count == 0 => "{ } of count 0",
        0 => "{ }, all skipped",
        n if n < count => "entries, some skipped",
        _ => "entries, all shown",
    }
}

/// Classes that must have a case.
pub fn wanted() -> Vec<String> {
    let mut out: Vec<String> = Vec::new();
    out.extend(
        [1, 2, 3, 26, 4, 5, 6, 7, 8, 9, 11, 12, 13, 14, 15, 16].map(|n| format!("refused {n}")),
    );
    for ts in [4, 8] {
        out.extend([0, 4, 8].map(|unit| format!("tagged size {ts}, unit {unit}")));
    }
    out.extend((3..=11).map(|value| format!("layout value {value} absent")));
    out.extend(["direct", "by size", "below zero"].map(|how| format!("parameter count {how}")));
    out.extend(["length 0", "length without code", "another instruction"].map(String::from));
    out.extend(JUMPS.map(|name| format!("{name}: a target")));
    for kind in ["a loop", "a loop by the pool", "a jump by the pool", "a jump"] {
        out.push(format!("{kind}: no target"));
        for below in ["below zero", "not below zero"] {
            out.push(format!("{kind}: a target {below}"));
            out.push(format!("{kind}: a target {below}, prefixed"));
        }
    }
    for name in SWITCHES {
        for kind in [
            "no table",
            "{ } of count 0",
            "{ }, all skipped",
            "entries, some skipped",
            "entries, all shown",
        ] {
            out.push(format!("{name}: {kind}"));
            out.push(format!("{name}: {kind}, prefixed"));
        }
    }
    out.extend(flow_cases::wanted());
    out
}

#[cfg(test)]
mod tests {
    use super::*;
    use crate::recording::SEED;
    use crate::vectors;

    /// The file in recorded/ is what the seed gives, and every class has a case.
    #[test]
    fn recorded_file_is_current() {
        let recording = record(SEED).unwrap();
        assert_eq!(recording.classes.missing(&wanted()), Vec::<String>::new());
        assert!(include_bytes!("../recorded/list.vec")[..] == recording.writer.out);
        assert_eq!(vectors::replay(&recording.writer.out), Ok(recording.writer.calls));
    }
}
