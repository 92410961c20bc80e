//! Which cases a recorded walk is one of. Distances are worked out here once more, by a queue: an
//! answer that differs from them is an error.

use crate::ask::*;
use crate::decode::plain;
use crate::flow_cases;
use crate::flows::{Flow, ALWAYS, ENDS, MAYBE, SWITCHES, SWITCHES_ON};
use crate::handler_classes;
use crate::handlers::{self, Handler};
use crate::port::{Port, STORE, TABLE};
use crate::records::*;
use crate::switches;
use crate::walk_codes::NEAR;
use crate::walks::*;
use jscd::bytecode::Instr;
use std::collections::{BTreeMap, VecDeque};

/// What a walk was asked of.
pub struct Asked<'a> {
    pub listed: Vec<Instr>,
    pub steps: Steps,
    entries: Vec<Option<usize>>,
    /// What each instruction does, and the classes of those whose flow is not that of their name.
    pub flows: Vec<(Flow, Vec<String>)>,
    pub handlers: Vec<Handler>,
    /// By offset, where an instruction there would throw to; see `painted`.
    pub throws: Vec<Option<usize>>,
    pub code: &'a [u8],
    pub walked: &'a Walked,
}

/// The classes of a call and its answer.
pub fn classes(
    files: &Files,
    lent: &[u8],
    handlers: &[u8],
    call: &Call,
    answer: &Answer,
) -> Result<Vec<String>, String> {
    let name = FUNCTIONS[call.function].name;
    let marks = *call.args.last().unwrap();
    let handlers = if lends_handlers(call) { handlers } else { &[] };
    let mut kinds = match answer {
        Answer::Refused(refusal) => refused(lent, call, refusal.number, marks),
        Answer::Walked(walked) => on_walk(files, lent, handlers, call, walked)?,
        _ => return Err(format!("{call:?}: {answer}")),
    };
    if let (Answer::Refused(refusal), true) = (answer, lends_handlers(call)) {
        kinds.extend(handler_classes::refused(files, lent, handlers, call, refusal)?);
    }
    Ok(kinds.into_iter().map(|kind| format!("{name}: {kind}")).collect())
}

/// Whether the walk is that of object 0.
pub fn of_object(call: &Call) -> bool {
    matches!(call.function, WALK | WALK_WITH)
}

fn refused(lent: &[u8], call: &Call, number: u64, marks: u64) -> Vec<String> {
    let mut out = vec![format!("refused {number}")];
    let short = marks < lent.len() as u64 && !of_object(call);
    match number {
        10..=16 if short => out.push(format!("refused {number}, the marks too short as well")),
        18 | 19 if marks == 0 => out.push(format!("refused {number}, no mark")),
        19 if marks >= 65_536 => out.push("refused 19, as many marks as there may be".into()),
        18 if marks + 1 == lent.len() as u64 => out.push("refused 18, one mark too few".into()),
        _ => {}
    }
    out
}

fn on_walk(
    files: &Files,
    lent: &[u8],
    handlers: &[u8],
    call: &Call,
    walked: &Walked,
) -> Result<Vec<String>, String> {
    let object = if of_object(call) { 0 } else { call.args[0] };
    let store = if object == NO_OBJECT { 0 } else { STORE };
    let port = Port::new(files, TABLE | store)?;
    let function = if object == NO_OBJECT { port.without_pool() } else { object as usize };
    let code = if of_object(call) { port.code(0) } else { lent };
    let asked = Asked::new(&port, function, code, handlers, walked)?;
    let marks = *call.args.last().unwrap();
    let empty = code.is_empty();
    let length = if of_object(call) { port.length_field(0) } else { None };
    let mut out = held(&[
        ("empty code, no mark", empty && marks == 0),
        ("empty code, some marks", empty && marks > 0),
        ("empty code, its length is 0", empty && length.is_some()),
        ("empty code, no length is found", empty && of_object(call) && length.is_none()),
        ("empty code, no object", empty && object == NO_OBJECT),
        ("empty code, an object with a pool", empty && store != 0 && port.pool(function).is_some()),
        ("as many marks as bytes", marks == code.len() as u64),
        ("more marks than bytes", marks > code.len() as u64),
        ("no object", object == NO_OBJECT),
        ("an object with a pool", store != 0 && port.pool(function).is_some()),
        ("an object without a pool", store != 0 && port.pool(function).is_none()),
        ("tagged size 4", files.layout(0) == 4),
        ("code of 65536 bytes", code.len() == 65_536),
    ]);
    out.extend(asked.outcome()?);
    out.extend(asked.instructions());
    if lends_handlers(call) {
        let without = all_steps(&port, function, &asked.listed, &[]);
        out.extend(handler_classes::on_walk(&asked, &without));
    }
    Ok(out)
}

/// Names for the marks that hold.
pub fn held(marks: &[(&str, bool)]) -> Vec<String> {
    marks.iter().filter(|(_, is)| *is).map(|(mark, _)| mark.to_string()).collect()
}

/// Where an instruction would throw to, by offset: the records painted one over the other, so that the last stays.
fn painted(handlers: &[Handler], length: usize) -> Vec<Option<usize>> {
    let mut out = vec![None; length];
    for handler in handlers {
        out[handler.start as usize..handler.end as usize].fill(Some(handler.to as usize));
    }
    out
}

impl<'a> Asked<'a> {
    /// The steps to handlers are put behind the others here, not by `handlers::step`.
    fn new(
        port: &Port,
        function: usize,
        code: &'a [u8],
        handlers: &[u8],
        walked: &'a Walked,
    ) -> Result<Asked<'a>, String> {
        let listed = listed(port, function, code).map_err(|r| r.to_string())?;
        let handlers = handlers::records(handlers);
        let mut throws = painted(&handlers, code.len());
        let mut steps = all_steps(port, function, &listed, &[]);
        for ins in &listed {
            match plain(ins) {
                "Return" | "SuspendGenerator" => throws[ins.offset] = None,
                _ => steps.get_mut(&ins.offset).unwrap().extend(throws[ins.offset].map(Some)),
            }
        }
        let entries = |ins: &Instr| switches::entries(port, function, ins).map(|e| e.len());
        let entries = listed.iter().map(entries).collect();
        let flow = |ins: &Instr| (port.flow(ins), flow_cases::classes(port, function, ins));
        let flows = listed.iter().map(flow).collect();
        Ok(Asked { listed, steps, entries, flows, handlers, throws, code, walked })
    }
}

impl Asked<'_> {
    pub fn leaving(&self, at: usize) -> bool {
        self.steps[&at].iter().any(|step| leaves(&self.steps, *step))
    }

    /// Steps to each offset by a queue, and the first met that leaves; steps in their order or not.
    pub fn queue(&self, backward: bool) -> (BTreeMap<usize, usize>, Option<usize>) {
        // In empty code there is nowhere to stand.
        let start = (!self.code.is_empty()).then_some(0);
        let mut distances: BTreeMap<usize, usize> = start.map(|at| (at, 0)).into_iter().collect();
        let mut first = None;
        let mut queue = VecDeque::from_iter(start);
        while let Some(at) = queue.pop_front() {
            if first.is_none() && self.leaving(at) {
                first = Some(at);
            }
            let mut steps: Vec<usize> = self.steps[&at].iter().flatten().copied().collect();
            if backward {
                steps.reverse();
            }
            for to in steps {
                if self.steps.contains_key(&to) && !distances.contains_key(&to) {
                    distances.insert(to, distances[&at] + 1);
                    queue.push_back(to);
                }
            }
        }
        (distances, first)
    }

    fn outcome(&self) -> Result<Vec<String>, String> {
        let (distances, first) = self.queue(false);
        let (_, backward) = self.queue(true);
        let least = first.map(|at| distances[&at]);
        let ties: Vec<usize> = match least {
            Some(d) => {
                let as_near = distances.iter().filter(|(at, e)| **e == d && self.leaving(**at));
                as_near.map(|(at, _)| *at).collect()
            }
            None => Vec::new(),
        };
        let (outcome, below) = match least {
            None => (Outcome::Closed, usize::MAX),
            Some(d) => (Outcome::Leaves { steps: d + 1, from: ties[0] }, d + 1),
        };
        let mark = |at: usize| distances.get(&at).is_some_and(|d| *d < below);
        let marks: Vec<bool> = (0..self.code.len()).map(mark).collect();
        if (outcome, &marks) != (self.walked.outcome, &self.walked.marks) {
            return Err(format!("{:02x?}: a queue does not find {:?}", self.code, self.walked));
        }
        let unreached = self.steps.keys().filter(|at| !distances.contains_key(at));
        let way_back = |at: &usize| self.steps[at].iter().flatten().any(|to| to <= at);
        let mut out = match outcome {
            Outcome::Closed => held(&[
                ("closed", true),
                ("closed, an instruction not reached", unreached.clone().next().is_some()),
                (
                    "closed, an instruction not reached would leave",
                    unreached.clone().any(|at| self.leaving(*at)),
                ),
                ("closed, with a way back", distances.keys().any(way_back)),
                ("closed, 20 or more steps deep", distances.values().any(|d| *d >= 20)),
            ]),
            Outcome::Leaves { steps, from } => {
                let mut out = held(&[
                    ("leaves", true),
                    ("leaves, several at once", ties.len() > 1),
                    (
                        "leaves, the lowest is not the first in a queue",
                        first != Some(from) || backward != Some(from),
                    ),
                    (
                        "leaves, one is reached only in more steps",
                        distances.values().any(|d| *d >= below),
                    ),
                    (
                        "leaves, a lower one leaves in more steps",
                        distances.keys().any(|at| *at < from && self.leaving(*at)),
                    ),
                    (
                        "leaves, past a way back",
                        distances.keys().any(|at| mark(*at) && way_back(at)),
                    ),
                ]);
                out.push(match steps {
                    0..=20 => format!("leaves in {steps} steps"),
                    21..=40 => "leaves in 21 to 40 steps".into(),
                    _ => "leaves in more than 40 steps".into(),
                });
                out.extend(self.ways(from));
                out
            }
        };
        out.dedup();
        Ok(out)
    }

    /// How the instruction leaves.
    fn ways(&self, from: usize) -> Vec<String> {
        let ins = self.listed.iter().find(|ins| ins.offset == from).unwrap();
        let (end, length) = (from + ins.bytes.len(), self.code.len());
        let way = |step: &Step| match *step {
            None => "no target",
            Some(to) if to == length && to == end => "off the end",
            Some(to) if to == length => "a jump to the code's end",
            Some(to) if to > length && to as i64 >= 0 => "beyond the end",
            Some(to) if to > length => "below 0",
            Some(to) if to > from && to < end => "inside itself",
            Some(_) => "inside another instruction",
        };
        let steps = self.steps[&from].iter().filter(|step| leaves(&self.steps, **step));
        let mut out: Vec<String> = steps.map(|step| format!("leaves, {}", way(step))).collect();
        out.sort();
        out.dedup();
        out
    }

    /// What the instructions are that have a mark.
    fn instructions(&self) -> Vec<String> {
        let mut out = Vec::new();
        for ((ins, entries), (flow, classes)) in
            self.listed.iter().zip(&self.entries).zip(&self.flows)
        {
            if !self.walked.marks[ins.offset] {
                continue;
            }
            let name = plain(ins);
            let prefix = ["", "", " under Wide", "", " under ExtraWide"][ins.scale as usize];
            let listed = |step: &Step| !leaves(&self.steps, *step);
            if !flow.named {
                out.extend(classes.iter().cloned());
                let steps = &self.steps[&ins.offset];
                let taken = match flow.kind {
                    SWITCHES_ON => entries.unwrap_or(0),
                    _ => flow.jumps() as usize,
                };
                let to = |step: &Step| if listed(step) { "followed" } else { "leaves" };
                let steps = steps[..taken].iter().map(to);
                out.extend(steps.map(|to| format!("flow {}, {to}", flow.kind)));
                continue;
            }
            if ENDS.contains(&name) || NEAR.contains(&name) {
                out.push(format!("{name} reached"));
            } else if ALWAYS.contains(&name) || MAYBE.contains(&name) {
                let constant = if name.ends_with("Constant") { " by the pool" } else { "" };
                match self.steps[&ins.offset][0] {
                    None => out.push(format!("a jump{constant} without a target")),
                    step if listed(&step) => {
                        out.push(format!("{name} to an instruction"));
                        out.push(format!("a jump{constant} to an instruction{prefix}"));
                    }
                    _ => {}
                }
            } else if SWITCHES.contains(&name) {
                let shown = match entries {
                    None => "no table",
                    Some(0) => "no entries",
                    Some(1) => "one entry",
                    Some(4_096) => "4096 entries",
                    Some(_) => "several entries",
                };
                out.push(format!("{name}{prefix}, {shown}"));
                // Those of the entries; behind them stands the step to the next instruction.
                let steps = &self.steps[&ins.offset][..entries.unwrap_or(0)];
                let to = held(&[
                    ("an entry to an instruction", steps.iter().any(listed)),
                    ("an entry that leaves", !steps.iter().all(listed)),
                ]);
                out.extend(to.iter().map(|class| format!("{name}{prefix}, {class}")));
                let near = |behind: usize| {
                    let places = self.listed.iter().filter(|ins| ins.scale > 1);
                    places.map(|ins| Some(ins.offset + behind)).any(|at| steps.contains(&at))
                };
                out.extend(held(&[
                    ("an entry to a prefix byte", near(0)),
                    ("an entry to an opcode byte behind a prefix", near(1)),
                ]));
            }
        }
        out.sort();
        out.dedup();
        out
    }
}

/// Classes that must have a case, of walk_code.
const WANTED: [&str; 39] = [
    "empty code, no object",
    "empty code, an object with a pool",
    "as many marks as bytes",
    "more marks than bytes",
    "no object",
    "an object with a pool",
    "an object without a pool",
    "tagged size 4",
    "code of 65536 bytes",
    "closed",
    "closed, an instruction not reached",
    "closed, an instruction not reached would leave",
    "closed, with a way back",
    "closed, 20 or more steps deep",
    "leaves",
    "leaves, several at once",
    "leaves, the lowest is not the first in a queue",
    "leaves, one is reached only in more steps",
    "leaves, a lower one leaves in more steps",
    "leaves, past a way back",
    "leaves, no target",
    "leaves, off the end",
    "leaves, a jump to the code's end",
    "leaves, beyond the end",
    "leaves, below 0",
    "leaves, inside itself",
    "leaves, inside another instruction",
    "leaves in 21 to 40 steps",
    "leaves in more than 40 steps",
    "a jump to an instruction",
    "a jump to an instruction under Wide",
    "a jump to an instruction under ExtraWide",
    "a jump by the pool to an instruction",
    "a jump by the pool to an instruction under Wide",
    "a jump by the pool to an instruction under ExtraWide",
    "a jump without a target",
    "a jump by the pool without a target",
    "refused 18, no mark",
    "refused 18, one mark too few",
];

/// Classes that must have a case, of walk.
const OF_OBJECTS: [&str; 11] = [
    "closed",
    "leaves",
    "an object with a pool",
    "an object without a pool",
    "more marks than bytes",
    "tagged size 4",
    "empty code, its length is 0",
    "empty code, no length is found",
    "empty code, an object with a pool",
    "refused 19, no mark",
    "refused 19, as many marks as there may be",
];

/// Refusals of both functions; 9 and 19 are those of an object's code, 10 that of lent code.
const REFUSALS: [u64; 16] = [1, 2, 3, 26, 4, 5, 6, 7, 8, 11, 12, 13, 14, 15, 16, 18];

pub fn wanted() -> Vec<String> {
    let mut out: Vec<String> = WANTED.iter().map(|class| class.to_string()).collect();
    out.extend((1..=20).map(|n| format!("leaves in {n} steps")));
    out.extend(REFUSALS.iter().chain(&[10]).map(|n| format!("refused {n}")));
    out.extend((10..=16).map(|n| format!("refused {n}, the marks too short as well")));
    out.extend(ENDS.iter().chain(&NEAR).map(|name| format!("{name} reached")));
    out.extend(ALWAYS.iter().chain(&MAYBE).map(|name| format!("{name} to an instruction")));
    for name in SWITCHES {
        for prefix in ["", " under Wide", " under ExtraWide"] {
            for shown in ["no table", "no entries", "one entry", "several entries"] {
                out.push(format!("{name}{prefix}, {shown}"));
            }
            out.push(format!("{name}{prefix}, an entry to an instruction"));
            out.push(format!("{name}{prefix}, an entry that leaves"));
        }
    }
    out.push("SwitchOnSmiNoFeedback, 4096 entries".into());
    out.push("SwitchOnSmiNoFeedback under Wide, 4096 entries".into());
    out.extend(flow_cases::wanted());
    for kind in 2..=5 {
        out.extend(["followed", "leaves"].map(|to| format!("flow {kind}, {to}")));
    }
    out.push("an entry to a prefix byte".into());
    out.push("an entry to an opcode byte behind a prefix".into());
    let mut out: Vec<String> = out.iter().map(|class| format!("walk_code: {class}")).collect();
    out.extend(REFUSALS.iter().chain(&[9, 19]).map(|n| format!("walk: refused {n}")));
    out.extend(OF_OBJECTS.iter().map(|class| format!("walk: {class}")));
    for marks in ["no mark", "some marks"] {
        out.extend(["walk", "walk_code"].map(|name| format!("{name}: empty code, {marks}")));
    }
    out
}
