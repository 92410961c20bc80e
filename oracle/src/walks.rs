//! The walk check, written from document 01's section "Walks" and document 02's Wishes 4 (empty code), 5
//! (exception handlers, in `handlers`) and 6 (what an opcode does, in its record). The Rust has none: it
//! decodes and gives jump targets and switch entries (`flows` and `switches` those that it does not give),
//! and what the steps of an instruction are is said here.
//!
//! The sets of offsets reached in exactly 0, 1, 2, .. steps are worked out one after the other, as the
//! section defines them.

use crate::checks::{self, Refusal};
use crate::decode;
use crate::flows;
use crate::handlers::{self, Handler};
use crate::port::Port;
use crate::switches;
use jscd::bytecode::Instr;
use std::collections::{BTreeMap, BTreeSet};

#[derive(Debug, Clone, Copy, PartialEq, Eq)]
pub enum Outcome {
    Closed,
    /// The steps of a shortest walk that leaves, and the lowest offset that one leaves from.
    Leaves {
        steps: usize,
        from: usize,
    },
}

#[derive(Debug, Clone, PartialEq)]
pub struct Walked {
    pub outcome: Outcome,
    /// As many as the code has bytes.
    pub marks: Vec<bool>,
}

/// What a step leads to: a place, or there is no target.
pub type Step = Option<usize>;

/// The listed instructions by offset, each with its steps.
pub type Steps = BTreeMap<usize, Vec<Step>>;

/// The walk over the code of an object, a BytecodeArray, and the refusals from 9 on. By Wish 4 this is
/// the one place that gives 19: "exactly where it takes its code from an object whose length is positive
/// and no run holds that code". A length that is not found counts as 0.
pub fn check_object(
    port: &Port,
    function: usize,
    marks: u64,
    handlers: &[u8],
) -> Result<Walked, Refusal> {
    let length = port.code_length(function);
    checks::code_length(length)?;
    match port.code_part(function) {
        None if length > 0 => checks::refuse(19, 0),
        held => check(port, function, held.unwrap_or_default(), marks, handlers),
    }
}

/// The walk over code that the table's checks have passed, and the refusals from 10 on: `function` is
/// the object whose pool is meant, `marks` the length of the mark buffer, `handlers` the file of handler
/// records.
pub fn check(
    port: &Port,
    function: usize,
    code: &[u8],
    marks: u64,
    handlers: &[u8],
) -> Result<Walked, Refusal> {
    let listed = listed(port, function, code)?;
    if marks < code.len() as u64 {
        return checks::refuse(18, 0);
    }
    let handlers = handlers::checked(handlers, code.len())?;
    Ok(walk(&all_steps(port, function, &listed, &handlers), code.len()))
}

/// The listed instructions, after checks 10 to 16.
pub fn listed(port: &Port, function: usize, code: &[u8]) -> Result<Vec<Instr>, Refusal> {
    checks::lent_code(code)?;
    let listed = decode::all(port, code)?;
    for ins in &listed {
        checks::switch(port, function, ins)?;
    }
    Ok(listed)
}

/// The steps of each, and behind them the one to its handler, where it has one.
pub fn all_steps(port: &Port, function: usize, listed: &[Instr], handlers: &[Handler]) -> Steps {
    let all = |ins: &Instr| {
        let mut all = steps(port, function, ins);
        all.extend(handlers::step(handlers, ins).map(Some));
        (ins.offset, all)
    };
    listed.iter().map(all).collect()
}

fn steps(port: &Port, function: usize, ins: &Instr) -> Vec<Step> {
    let end = Some(ins.offset + ins.bytes.len());
    let target = || flows::target(port, function, ins);
    match port.flow(ins).kind {
        flows::ON => vec![end],
        flows::STOPS => Vec::new(),
        flows::JUMPS | flows::JUMPS_BACK => vec![target()],
        flows::BRANCHES => vec![target(), end],
        _ => {
            let entries = switches::entries(port, function, ins).unwrap_or_default();
            entries.into_iter().map(|(_, target)| Some(target)).chain([end]).collect()
        }
    }
}

/// A step with no target, or to a place where no listed instruction starts, leaves.
pub fn leaves(steps: &Steps, step: Step) -> bool {
    !step.is_some_and(|place| steps.contains_key(&place))
}

pub fn walk(steps: &Steps, length: usize) -> Walked {
    // `now` is what is reached in exactly `taken` steps, `reached` what is in at most that many. Wish 4:
    // in empty code no instruction stands at 0, and no walk can take a step.
    let mut now: BTreeSet<usize> = [0].into_iter().filter(|at| steps.contains_key(at)).collect();
    let mut reached = now.clone();
    let mut taken = 0;
    let outcome = loop {
        let from = now.iter().find(|at| steps[*at].iter().any(|step| leaves(steps, *step)));
        if let Some(from) = from {
            break Outcome::Leaves { steps: taken + 1, from: *from };
        }
        let next: BTreeSet<usize> =
            now.iter().flat_map(|at| &steps[at]).flatten().copied().collect();
        // Then a step from what is reached leads to what is reached, and none of them leaves.
        if next.is_subset(&reached) {
            break Outcome::Closed;
        }
        reached.extend(&next);
        now = next;
        taken += 1;
    };
    Walked { outcome, marks: (0..length).map(|at| reached.contains(&at)).collect() }
}

/// Marks as bits, 8 to a byte, the lowest bit first.
pub fn packed(marks: &[bool]) -> Vec<u8> {
    let byte = |marks: &[bool]| marks.iter().rev().fold(0, |byte, mark| byte << 1 | *mark as u8);
    marks.chunks(8).map(byte).collect()
}

#[cfg(test)]
mod tests {
    use super::*;
    use crate::ask::{ask, Answer, Call, JUMP_TARGET, NO_OBJECT, WALK, WALK_CODE};
    use crate::decode::plain;
    use crate::flows::{ALWAYS, ENDS, MAYBE, SWITCHES};
    use crate::port::{STORE, TABLE};
    use crate::random::Random;
    use crate::records::*;
    use crate::sample;

    /// What is said of code in object 0 with this pool, and of the same code lent.
    fn said(code: &[u8], pool: &[Option<i32>]) -> Answer {
        let files = sample::function(code, 8, pool);
        let marks = code.len() as u64;
        let answer = ask(&files, &[], &Call::new(WALK, &[marks])).unwrap();
        let lent = ask(&files, code, &Call::new(WALK_CODE, &[0, marks])).unwrap();
        assert_eq!(answer, lent);
        answer
    }

    fn on(code: &[u8]) -> String {
        said(code, &[]).to_string()
    }

    #[test]
    fn rows_of_document_01() {
        assert_eq!(on(&[0x05, 0x01]), "leaves steps 1 from 0");
        assert_eq!(on(&[0x00, 0x05, 0x03, 0x00, 0x02]), "leaves steps 2 from 4");
        assert_eq!(on(&[0x06, 0x02, 0x0b]), "closed");
        assert_eq!(on(&[0x05, 0x00]), "closed");
        assert_eq!(on(&[0x06, 0x03, 0x0b]), "leaves steps 1 from 0");
        let switch = said(&[0x09, 0x00, 0x02, 0x05, 0x0b], &[Some(4), None]);
        assert_eq!(switch.to_string(), "closed");
        assert_eq!(on(&[0x02, 0x01]), "refused 12 at 1");
        assert_eq!(on(&[0x00, 0x0c]), "refused 13 at 0");
        assert_eq!(on(&[0x0a, 0x05, 0x00, 0xfa]), "refused 15 at 4");
        assert_eq!(on(&[0x07, 0x03, 0x00]), "leaves steps 1 from 0");
        assert_eq!(on(&[0x03]), "refused 14 at 1");
        assert_eq!(on(&[]), "closed");
        assert_eq!(on(&[0x03, 0x05, 0x04, 0xfa, 0x0b]), "closed");
    }

    #[test]
    fn marks() {
        let marks = |code: &[u8], pool: &[Option<i32>]| match said(code, pool) {
            Answer::Walked(walked) => packed(&walked.marks),
            other => panic!("{other}"),
        };
        assert_eq!(marks(&[0x06, 0x02, 0x0b], &[]), [0b101]);
        // LdaZero at 2 is not reached.
        assert_eq!(marks(&[0x05, 0x03, 0x02, 0x0b], &[]), [0b1001]);
        // The first leaves in one step; what is reached in one step has no mark.
        assert_eq!(marks(&[0x06, 0x01, 0x02, 0x0b], &[]), [0b1]);
        assert_eq!(marks(&[0x00, 0x05, 0x03, 0x00, 0x02], &[]), [0b10001]);
        let code = [0x02, 0x02, 0x02, 0x02, 0x02, 0x02, 0x02, 0x02, 0x0b, 0x02];
        assert_eq!(marks(&code, &[]), [0xff, 0b01]);
    }

    #[test]
    fn order_of_refusals() {
        let walk = |files: &Files, code: &[u8], object, marks| {
            ask(files, code, &Call::new(WALK_CODE, &[object, marks])).unwrap().to_string()
        };
        let files = sample::function(&[], 8, &[Some(4)]);
        assert_eq!(walk(&files, &[0x02], 2, 0), "refused 8 at 0");
        assert_eq!(walk(&files, &[0x02; 65_537], 0, 0), "refused 10 at 0");
        assert_eq!(walk(&files, &[0x02, 0x03], 0, 0), "refused 14 at 2");
        assert_eq!(walk(&files, &[], 2, 0), "refused 8 at 0");
        assert_eq!(walk(&files, &[], 0, 0), "closed");
        assert_eq!(walk(&files, &[0x0b, 0x02], 0, 1), "refused 18 at 0");
        assert_eq!(walk(&files, &[0x0b, 0x02], 0, 2), "closed");
        // The count as an Imm: -1 is refused where there is a pool, before the buffer is looked at.
        let mut files = files;
        let switch = opcode_record("SwitchOnSmiNoFeedback", 0, &[10, 9, 9]);
        files.body[OPCODES][9 * OPCODE_SIZE..10 * OPCODE_SIZE].copy_from_slice(&switch);
        let code = [0x0b, 0x09, 0x00, 0xff, 0x00];
        assert_eq!(walk(&files, &code, 0, 0), "refused 16 at 1");
        assert_eq!(walk(&files, &code, NO_OBJECT, 0), "refused 18 at 0");
        assert_eq!(walk(&files, &code, NO_OBJECT, 5), "closed");
    }

    /// Wish 4: what is said of the sample's object with this length field, by the slots that it has.
    fn of_length(length: i32, slots: &[Slot], marks: u64) -> String {
        let mut files = sample::sample();
        files.body[PAYLOAD][4..8].copy_from_slice(&length.to_le_bytes());
        files.body[SLOTS] = slots.iter().flat_map(Slot::bytes).collect();
        files.body[OBJECTS][8] = slots.len() as u8;
        match ask(&files, &[], &Call::new(WALK, &[marks])).unwrap() {
            Answer::Walked(walked) => format!("{:?} {:?}", walked.outcome, walked.marks),
            other => other.to_string(),
        }
    }

    #[test]
    fn empty_code() {
        let run =
            |index, number, length| Slot { index, kind: 4, number, length, ..Slot::default() };
        let whole = [run(1, 0, 51)];
        let reference = [Slot { index: 1, kind: 3, ..Slot::default() }];
        for marks in [0, 1, 5, 65_536] {
            assert_eq!(of_length(0, &whole, marks), "Closed []");
            // No run has the length field, or a run that ends within it.
            assert_eq!(of_length(5, &[], marks), "Closed []");
            assert_eq!(of_length(5, &reference, marks), "Closed []");
            assert_eq!(of_length(5, &[run(1, 0, 7)], marks), "Closed []");
            // The length is found, and no run holds so many bytes behind the header.
            for length in [6, 65_536] {
                assert_eq!(of_length(length, &whole, marks), "refused 19 at 0");
            }
            assert_eq!(of_length(5, &[run(1, 0, 50)], marks), "refused 19 at 0");
            assert_eq!(of_length(1, &[run(1, 0, 8)], marks), "refused 19 at 0");
            // Two runs hold it together, and none alone.
            let parts = [run(1, 0, 48), run(7, 48, 3)];
            assert_eq!(of_length(5, &parts, marks), "refused 19 at 0");
            assert_eq!(of_length(65_537, &[run(1, 0, 8)], marks), "refused 9 at 0");
        }
        assert_eq!(of_length(5, &whole, 4), "refused 18 at 0");
    }

    /// The Rust has a target for each name of the two lists and for no other of V8's jumps.
    #[test]
    fn the_list_is_that_of_the_rust() {
        let target = |name: &str| {
            let mut files = sample::function(&[], 8, &[Some(3)]);
            files.body[OPCODES].extend(opcode_record(name, 0, &[10]));
            let call = Call::new(JUMP_TARGET, &[0, 0]);
            ask(&files, &[0x0c, 0x00], &call).unwrap() != Answer::Nothing
        };
        for name in ALWAYS.iter().chain(&MAYBE) {
            assert!(target(name), "{name}");
        }
        for name in ENDS.iter().chain(&SWITCHES).chain(&["JumpIfForInDone", "JumpIf", "Star"]) {
            assert!(!target(name), "{name}");
        }
        let published = include_str!("../jscd/src/disasm.rs");
        let from = published.find("match base {").unwrap();
        let list = &published[from..from + published[from..].find("_ => None").unwrap()];
        assert_eq!(list.matches("\"Jump").count(), ALWAYS.len() + MAYBE.len());
    }

    /// The same by distances, lowered until nothing changes.
    fn by_distances(steps: &Steps, length: usize) -> Walked {
        let starts = steps.keys().filter(|at| **at == 0);
        let mut distance: BTreeMap<usize, usize> = starts.map(|at| (*at, 0)).collect();
        loop {
            let before = distance.clone();
            for (at, d) in &before {
                for to in steps[at].iter().flatten().filter(|to| steps.contains_key(to)) {
                    let old = distance.get(to).copied().unwrap_or(usize::MAX);
                    distance.insert(*to, old.min(d + 1));
                }
            }
            if distance == before {
                break;
            }
        }
        let leaving = |at: &usize| steps[at].iter().any(|step| leaves(steps, *step));
        let shortest = distance.iter().filter(|(at, _)| leaving(at)).map(|(at, d)| (*d, *at)).min();
        let (outcome, below) = match shortest {
            None => (Outcome::Closed, usize::MAX),
            Some((d, from)) => (Outcome::Leaves { steps: d + 1, from }, d + 1),
        };
        let marks = (0..length).map(|at| distance.get(&at).is_some_and(|d| *d < below)).collect();
        Walked { outcome, marks }
    }

    /// Handler records of this code, as good ones are.
    fn some_handlers(r: &mut Random, length: u64) -> Vec<Handler> {
        let one = |r: &mut Random| {
            let start = r.below(length);
            let end = start + 1 + r.below(length - start);
            Handler::new(start as u32, end as u32, r.below(length + 2) as u32)
        };
        (0..r.below(4)).map(|_| one(r)).collect()
    }

    /// The steps with no records, and those to handlers put behind them: records painted one over the other.
    fn painted(port: &Port, listed: &[Instr], handlers: &[Handler], length: usize) -> Steps {
        let mut over = vec![None; length];
        for handler in handlers {
            over[handler.start as usize..handler.end as usize].fill(Some(handler.to as usize));
        }
        let mut steps = all_steps(port, 0, listed, &[]);
        for ins in listed.iter().filter(|ins| !matches!(plain(ins), "Return" | "SuspendGenerator"))
        {
            if over[ins.offset].is_some() {
                steps.get_mut(&ins.offset).unwrap().push(over[ins.offset]);
            }
        }
        steps
    }

    #[test]
    fn distances_say_the_same() {
        let mut files = sample::function(&[], 8, &[Some(4), None, Some(-3), Some(2)]);
        files.body[OPCODES].extend(opcode_record("Throw", 0, &[]));
        files.body[OPCODES].extend(opcode_record("SuspendGenerator", 0, &[]));
        let port = Port::new(&files, TABLE | STORE).unwrap();
        let mut r = Random::new(1);
        let mut counts = [0; 4];
        for k in 0..120_000 {
            let length = r.below(15);
            let code: Vec<u8> = (0..length).map(|_| r.below(14) as u8).collect();
            let Ok(listed) = listed(&port, 0, &code) else {
                continue;
            };
            let lent = k % 3 > 0 && length > 0;
            let handlers = if lent { some_handlers(&mut r, length) } else { Vec::new() };
            let steps = painted(&port, &listed, &handlers, code.len());
            let walked = check(&port, 0, &code, length, &handlers::file(&handlers)).unwrap();
            assert_eq!(walked, by_distances(&steps, code.len()), "{code:02x?} {handlers:?}");
            let closed = (walked.outcome == Outcome::Closed) as usize;
            counts[closed + 2 * !handlers.is_empty() as usize] += 1;
        }
        assert!(counts.iter().all(|n| *n > 500), "{counts:?}");
    }
}
