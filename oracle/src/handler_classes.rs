//! Which cases a recorded walk with handler records is one of, beside those of `walk_classes`.

use crate::ask::*;
use crate::checks::Refusal;
use crate::decode::plain;
use crate::flows::{Flow, ALWAYS, ENDS, MAYBE, SWITCHES};
use crate::handlers::{self, Handler, MOST, NEVER, SIZE};
use crate::port::{Port, STORE, TABLE};
use crate::records::Files;
use crate::walk_classes::{held, of_object, Asked};
use crate::walk_codes::NEAR;
use crate::walks::*;
use jscd::bytecode::Instr;
use std::collections::BTreeSet;

/// Records are compared with each other and with instructions only where there are few.
const FEW: usize = 64;

/// Names near those that never go to a handler.
pub const NEAR_NEVER: [&str; 3] = ["Retur", "SuspendGenerators", "Suspend"];

// ---- refusals ----

/// The number, with what else would be refused; of 24 and 25 how.
pub fn refused(
    files: &Files,
    lent: &[u8],
    file: &[u8],
    call: &Call,
    refusal: &Refusal,
) -> Result<Vec<String>, String> {
    let code = code_length(files, lent, call, refusal.number)?;
    let whole = handlers::records(file);
    let cut = file.len() % SIZE != 0 || whole.len() > MOST;
    let bad = whole.iter().any(|h| h.start >= h.end || code.is_some_and(|n| h.end as usize > n));
    let short = call.args.last() < code.map(|n| n as u64).as_ref();
    let number = refusal.number;
    let also = [(18, short), (24, cut), (25, bad)];
    let later = also.iter().filter(|(n, is)| *is && order(number) < order(*n));
    let mut out: Vec<String> =
        later.map(|(n, _)| format!("refused {number}, {n} as well")).collect();
    let empty = code == Some(0);
    out.extend(empty.then(|| format!("refused {number}, empty code")));
    match number {
        24 => out.extend(refused_24(file)),
        25 => out.extend(refused_25(&whole, refusal.place as usize, code.unwrap_or(0))),
        _ => {}
    }
    Ok(out)
}

/// The code's length, where it can be told: of object 0 behind the checks of table, store and object. With 19 it is
/// what the length field says.
fn code_length(
    files: &Files,
    lent: &[u8],
    call: &Call,
    number: u64,
) -> Result<Option<usize>, String> {
    Ok(match number {
        _ if !of_object(call) => Some(lent.len()),
        0..=9 | 26 => None,
        19 => Some(Port::new(files, TABLE | STORE)?.code_length(0) as usize),
        _ => Some(Port::new(files, TABLE | STORE)?.code(0).len()),
    })
}

/// 19 is before 18, 26 is met with 3, and the others are in the order of their numbers.
fn order(number: u64) -> u64 {
    match number {
        18 => 20,
        26 => 3,
        _ => number,
    }
}

fn refused_24(file: &[u8]) -> Vec<String> {
    held(&[
        ("refused 24, less than a record", file.len() < SIZE),
        ("refused 24, one byte too few", file.len() % SIZE == SIZE - 1),
        ("refused 24, one byte too many", file.len() % SIZE == 1),
        ("refused 24, 4097 records", file.len() == (MOST + 1) * SIZE),
        ("refused 24, 4096 records and a cut one", file.len() / SIZE == MOST),
    ])
}

fn refused_25(whole: &[Handler], place: usize, length: usize) -> Vec<String> {
    let Handler { start, end, .. } = whole[place];
    let at = match place {
        0 if whole.len() == 1 => "the only",
        0 => "the first",
        _ if place + 1 == whole.len() => "the last",
        _ => "a middle",
    };
    let how = match () {
        _ if start == end => "start is end",
        _ if start > end => "start above end",
        _ => "end beyond the code",
    };
    let bad = |h: &Handler| h.start >= h.end || h.end as usize > length;
    let mut out = vec![format!("refused 25 at {at} record, {how}")];
    out.extend(held(&[
        ("refused 25, a later record as well", whole[place + 1..].iter().any(bad)),
        ("refused 25, end one beyond the code", start < end && end as usize == length + 1),
        ("refused 25, end 4294967295", start < end && end == u32::MAX),
        (
            "refused 25, start is end and both beyond the code",
            start == end && end as usize > length,
        ),
    ]));
    out
}

// ---- answers ----

/// `without` are the steps that there are without records.
pub fn on_walk(asked: &Asked, without: &Steps) -> Vec<String> {
    let mut out = counted(asked.handlers.len());
    if asked.handlers.len() <= FEW {
        out.extend(of_records(&asked.handlers));
        for ins in asked.listed.iter().filter(|ins| asked.walked.marks[ins.offset]) {
            out.extend(of_bounds(&asked.handlers, ins));
            out.extend(of_several(&asked.handlers, ins));
        }
    }
    for (ins, (flow, _)) in asked.listed.iter().zip(&asked.flows) {
        if !asked.walked.marks[ins.offset] {
            continue;
        }
        out.extend(of_name(&asked.handlers, ins, flow));
        out.extend(asked.throws[ins.offset].map(|to| of_place(asked, ins, to)));
    }
    out.extend(of_answer(asked, &walk(without, asked.code.len())));
    match asked.walked.outcome {
        Outcome::Closed => out.extend(of_closed(asked)),
        Outcome::Leaves { steps, from } => out.extend(of_left(asked, without, steps, from)),
    }
    out.sort();
    out.dedup();
    out
}

fn counted(records: usize) -> Vec<String> {
    let count = match records {
        0 => "no record",
        1 => "one record",
        2..=9 => "several records",
        MOST => "4096 records",
        _ => "ten records or more",
    };
    vec![count.into()]
}

/// How any two records lie to each other, the earlier first.
fn of_records(handlers: &[Handler]) -> Vec<String> {
    let mut out = Vec::new();
    for (k, b) in handlers.iter().enumerate() {
        for a in &handlers[..k] {
            let within = |inner: &Handler, outer: &Handler| {
                outer.start <= inner.start && inner.end <= outer.end
            };
            let lie = match () {
                _ if (a.start, a.end) == (b.start, b.end) => "equal ranges",
                _ if within(b, a) => "a range within an earlier one",
                _ if within(a, b) => "a range around an earlier one",
                _ if a.end == b.start || b.end == a.start => "ranges that touch",
                _ if a.end < b.start || b.end < a.start => "ranges apart",
                _ => "ranges that overlap",
            };
            out.push(lie.to_string());
        }
    }
    out
}

/// How the bounds of records lie to an instruction that is reached.
fn of_bounds(handlers: &[Handler], ins: &Instr) -> Vec<String> {
    let at = ins.offset as u32;
    let mut out = Vec::new();
    for Handler { start, end, .. } in handlers {
        for (what, bound) in [("start", *start), ("end", *end)] {
            out.extend(held(&[
                (&format!("{what} at an instruction"), bound == at),
                (&format!("{what} one behind an instruction"), bound == at + 1),
                (&format!("{what} one before an instruction"), bound + 1 == at),
            ]));
        }
        if ins.scale > 1 {
            out.extend(held(&[
                ("a range of the prefix alone", *start == at && *end == at + 1),
                ("a range of the opcode byte behind a prefix", *start == at + 1 && *end == at + 2),
                ("a range that begins behind a prefix", *start == at + 1),
                ("a range that ends behind a prefix", *end == at + 1),
            ]));
        }
    }
    out
}

/// Several records that hold an instruction that is reached.
fn of_several(handlers: &[Handler], ins: &Instr) -> Vec<String> {
    let holding: Vec<&Handler> = handlers.iter().filter(|h| holds(h, ins)).collect();
    let [first, .., last] = holding[..] else {
        return Vec::new();
    };
    let (narrow, wide) = (last.end - last.start, first.end - first.start);
    held(&[
        ("two records hold an instruction", holding.len() == 2),
        ("three records or more hold an instruction", holding.len() > 2),
        ("the last that holds it leads elsewhere than the first", first.to != last.to),
        ("the last that holds it is narrower than the first", narrow < wide),
        ("the last that holds it is wider than the first", narrow > wide),
        ("a later record does not hold it", !std::ptr::eq(last, handlers.last().unwrap())),
    ])
}

fn holds(handler: &Handler, ins: &Instr) -> bool {
    (handler.start as usize) <= ins.offset && ins.offset < handler.end as usize
}

/// The name of an instruction that is reached and that a record holds.
fn of_name(handlers: &[Handler], ins: &Instr, flow: &Flow) -> Option<String> {
    handlers.iter().any(|h| holds(h, ins)).then(|| {
        if !flow.named {
            let never = NEVER.contains(&plain(ins));
            let name = if never { plain(ins) } else { "another name" };
            return format!("{name} by flow {} in a range", flow.kind);
        }
        let prefix = ["", "", " under Wide", "", " under ExtraWide"][ins.scale as usize];
        let told = named().any(|name| name == plain(ins));
        format!("{}{prefix} in a range", if told { plain(ins) } else { "another" })
    })
}

/// The names that are told apart.
pub fn named() -> impl Iterator<Item = &'static str> {
    ENDS.into_iter().chain(ALWAYS).chain(MAYBE).chain(SWITCHES).chain(NEAR).chain(NEAR_NEVER)
}

/// Where the handler of an instruction that is reached lies.
fn of_place(asked: &Asked, ins: &Instr, to: usize) -> String {
    let (at, end, length) = (ins.offset, ins.offset + ins.bytes.len(), asked.code.len());
    let listed = asked.steps.contains_key(&to);
    let place = match to {
        _ if to == at => "the instruction itself",
        _ if to > at && to < end => "a place inside the instruction",
        _ if to == length => "the code's end",
        _ if to == u32::MAX as usize => "4294967295",
        _ if to > length => "a place beyond the code",
        _ if !listed => "a place inside another instruction",
        0 => "0",
        _ if to == end => "the next instruction",
        _ if to < at => "an earlier instruction",
        _ => "a later instruction",
    };
    format!("a handler at {place}")
}

/// The answer beside that without records.
fn of_answer(asked: &Asked, without: &Walked) -> Vec<String> {
    let walked = asked.walked;
    let same = walked.outcome == without.outcome;
    let (mut fewer, mut lower) = (false, false);
    if let (Outcome::Leaves { steps: n, from: a }, Outcome::Leaves { steps: m, from: b }) =
        (walked.outcome, without.outcome)
    {
        (fewer, lower) = (n < m, n == m && a < b);
    }
    let closed = without.outcome == Outcome::Closed;
    held(&[
        ("as without records", walked == without),
        ("more is reached than without records", same && walked.marks != without.marks),
        ("leaves, closed without records", !same && closed),
        ("leaves in fewer steps than without records", fewer),
        ("leaves from a lower offset than without records", lower),
    ])
}

/// Closed, though a record names a place that is no instruction.
fn of_closed(asked: &Asked) -> Vec<String> {
    let reached = |ins: &&Instr| asked.walked.marks[ins.offset];
    let mut out = Vec::new();
    let nowhere = |h: &&Handler| !asked.steps.contains_key(&(h.to as usize));
    for handler in asked.handlers.iter().filter(nowhere) {
        let mut inside = asked.listed.iter().filter(reached).filter(|ins| holds(handler, ins));
        out.push(match inside.next() {
            None => "closed, what a bad handler is for is not reached",
            Some(ins) if asked.throws[ins.offset].is_none() => "closed, a bad handler of an end",
            Some(_) => "closed, another record is used in place of a bad one",
        });
    }
    let loops = asked.listed.iter().filter(reached);
    let back = loops.clone().any(|ins| asked.throws[ins.offset].is_some_and(|to| to <= ins.offset));
    out.extend(back.then_some("closed, a handler leads back"));
    out.into_iter().map(String::from).collect()
}

/// How the instructions leave that are left from at once: by a handler, or otherwise.
fn of_left(asked: &Asked, without: &Steps, steps: usize, from: usize) -> Vec<String> {
    let by_handler = |at: usize| asked.throws[at].is_some_and(|to| leaves(without, Some(to)));
    let otherwise = |at: usize| without[&at].iter().any(|step| leaves(without, *step));
    let (distances, _) = asked.queue(false);
    let near = |at: &&usize| distances[*at] + 1 == steps && asked.leaving(**at);
    let others: Vec<usize> =
        distances.keys().filter(near).copied().filter(|at| *at != from).collect();
    let mut out = held(&[
        ("leaves by a handler and by another step", by_handler(from) && otherwise(from)),
        (
            "leaves by a handler, a later one otherwise",
            by_handler(from) && !otherwise(from) && others.iter().any(|at| otherwise(*at)),
        ),
        (
            "leaves otherwise, a later one by a handler",
            otherwise(from) && !by_handler(from) && others.iter().any(|at| by_handler(*at)),
        ),
        (
            "leaves by handlers at several at once",
            by_handler(from) && others.iter().any(|at| by_handler(*at)),
        ),
    ]);
    if by_handler(from) && !otherwise(from) {
        out.push(match steps {
            1..=10 => format!("leaves by a handler in {steps} steps"),
            _ => "leaves by a handler in more than 10 steps".into(),
        });
    }
    let past = otherwise(from) && !reachable(without).contains(&from);
    out.extend(held(&[("leaves, past a handler", past)]));
    out
}

/// The offsets that any walk stands at.
fn reachable(steps: &Steps) -> BTreeSet<usize> {
    let mut out = BTreeSet::new();
    let mut left = vec![0];
    while let Some(at) = left.pop() {
        if steps.contains_key(&at) && out.insert(at) {
            left.extend(steps[&at].iter().flatten());
        }
    }
    out
}

// ---- what must have a case ----

const WANTED: [&str; 60] = [
    "no record",
    "one record",
    "several records",
    "ten records or more",
    "4096 records",
    "equal ranges",
    "a range within an earlier one",
    "a range around an earlier one",
    "ranges that touch",
    "ranges apart",
    "ranges that overlap",
    "start at an instruction",
    "start one behind an instruction",
    "start one before an instruction",
    "end at an instruction",
    "end one behind an instruction",
    "end one before an instruction",
    "a range of the prefix alone",
    "a range of the opcode byte behind a prefix",
    "a range that begins behind a prefix",
    "a range that ends behind a prefix",
    "two records hold an instruction",
    "three records or more hold an instruction",
    "the last that holds it leads elsewhere than the first",
    "the last that holds it is narrower than the first",
    "the last that holds it is wider than the first",
    "a later record does not hold it",
    "a handler at the instruction itself",
    "a handler at a place inside the instruction",
    "a handler at the code's end",
    "a handler at 4294967295",
    "a handler at a place beyond the code",
    "a handler at a place inside another instruction",
    "a handler at 0",
    "a handler at the next instruction",
    "a handler at an earlier instruction",
    "a handler at a later instruction",
    "as without records",
    "more is reached than without records",
    "leaves, closed without records",
    "leaves in fewer steps than without records",
    "leaves from a lower offset than without records",
    "closed, what a bad handler is for is not reached",
    "closed, a bad handler of an end",
    "closed, another record is used in place of a bad one",
    "closed, a handler leads back",
    "leaves by a handler and by another step",
    "leaves by a handler, a later one otherwise",
    "leaves otherwise, a later one by a handler",
    "leaves by handlers at several at once",
    "leaves by a handler in more than 10 steps",
    "leaves, past a handler",
    "leaves, the lowest is not the first in a queue",
    "closed, an instruction not reached would leave",
    "code of 65536 bytes",
    "empty code, no mark",
    "empty code, some marks",
    "more marks than bytes",
    "no object",
    "an object with a pool",
];

/// Of refusals that only the handlers give.
const REFUSED: [&str; 19] = [
    "refused 24, less than a record",
    "refused 24, one byte too few",
    "refused 24, one byte too many",
    "refused 24, 4097 records",
    "refused 24, 4096 records and a cut one",
    "refused 24, 25 as well",
    "refused 24, empty code",
    "refused 25, empty code",
    "refused 25, a later record as well",
    "refused 25, end one beyond the code",
    "refused 25, end 4294967295",
    "refused 25, start is end and both beyond the code",
    "refused 14, 18 as well",
    "refused 14, 24 as well",
    "refused 14, 25 as well",
    "refused 16, 24 as well",
    "refused 16, 25 as well",
    "refused 18, 24 as well",
    "refused 18, 25 as well",
];

/// Numbers before 24; 9 and 19 are those of an object's code, 10 that of lent code.
const BEFORE: [u64; 16] = [1, 2, 3, 26, 4, 5, 6, 7, 8, 11, 12, 13, 14, 15, 16, 18];

pub fn wanted() -> Vec<String> {
    let mut out: Vec<String> =
        WANTED.iter().chain(&REFUSED).map(|class| class.to_string()).collect();
    out.extend((1..=10).map(|n| format!("leaves by a handler in {n} steps")));
    for prefix in ["", " under Wide", " under ExtraWide"] {
        out.extend(named().chain(["another"]).map(|name| format!("{name}{prefix} in a range")));
    }
    for kind in 0..=5 {
        out.push(format!("another name by flow {kind} in a range"));
        if kind != 1 {
            out.extend(NEVER.map(|name| format!("{name} by flow {kind} in a range")));
        }
    }
    for at in ["the only", "the first", "a middle", "the last"] {
        for how in ["start is end", "start above end", "end beyond the code"] {
            out.push(format!("refused 25 at {at} record, {how}"));
        }
    }
    let mut out: Vec<String> = out.iter().map(|class| format!("walk_code_with: {class}")).collect();
    let of = |name: &str, numbers: &[u64]| -> Vec<String> {
        numbers.iter().map(|n| format!("{name}: refused {n}")).collect()
    };
    out.extend(of("walk_code_with", &BEFORE));
    out.extend(of("walk_with", &BEFORE));
    out.extend(of("walk_code_with", &[10, 24, 25]));
    out.extend(of("walk_with", &[9, 19, 24, 25]));
    for class in OF_OBJECTS {
        out.push(format!("walk_with: {class}"));
    }
    out
}

/// Of object 0.
const OF_OBJECTS: [&str; 14] = [
    "closed",
    "leaves",
    "no record",
    "one record",
    "several records",
    "empty code, its length is 0",
    "empty code, no length is found",
    "refused 19, 18 as well",
    "refused 19, 24 as well",
    "refused 19, 25 as well",
    "refused 18, 24 as well",
    "refused 18, 25 as well",
    "refused 24, 25 as well",
    "refused 25, empty code",
];
