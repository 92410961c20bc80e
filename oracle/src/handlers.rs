//! Exception handlers, written from document 02's Wish 5: the records that a walk check is lent, numbers 24 and
//! 25, and where an instruction that throws goes.

use crate::checks::{self, Refusal};
use crate::decode::plain;
use crate::records::u32_at;
use jscd::bytecode::Instr;

/// Bytes of a record, and how many records there may be.
pub const SIZE: usize = 12;
pub const MOST: usize = 4_096;

/// "An instruction that ends a walk still has this step, except" these.
pub const NEVER: [&str; 2] = ["Return", "SuspendGenerator"];

/// A record: the offsets from `start` on and below `end` have their handler at `to`, which is not checked.
#[derive(Debug, Clone, Copy, PartialEq, Eq)]
pub struct Handler {
    pub start: u32,
    pub end: u32,
    pub to: u32,
}

impl Handler {
    pub fn new(start: u32, end: u32, to: u32) -> Handler {
        Handler { start, end, to }
    }

    fn read(record: &[u8]) -> Handler {
        Handler::new(u32_at(record, 0), u32_at(record, 4), u32_at(record, 8))
    }

    pub fn bytes(&self) -> [u8; SIZE] {
        let mut out = [0; SIZE];
        for (field, value) in out.chunks_exact_mut(4).zip([self.start, self.end, self.to]) {
            field.copy_from_slice(&value.to_le_bytes());
        }
        out
    }

    fn holds(&self, offset: usize) -> bool {
        (self.start as usize..self.end as usize).contains(&offset)
    }
}

/// Records as a file.
pub fn file(handlers: &[Handler]) -> Vec<u8> {
    handlers.iter().flat_map(Handler::bytes).collect()
}

/// The records of a file that has been checked.
pub fn records(file: &[u8]) -> Vec<Handler> {
    file.chunks_exact(SIZE).map(Handler::read).collect()
}

/// The records for code of this length: 24, not whole records or too many, then 25, the first whose start is not
/// below its end or whose end is beyond the code.
pub fn checked(file: &[u8], length: usize) -> Result<Vec<Handler>, Refusal> {
    if file.len() % SIZE != 0 || file.len() / SIZE > MOST {
        return checks::refuse(24, 0);
    }
    let handlers = records(file);
    let bad = |h: &Handler| h.start >= h.end || h.end as usize > length;
    match handlers.iter().position(bad) {
        Some(number) => checks::refuse(25, number),
        None => Ok(handlers),
    }
}

/// Where an instruction goes when it throws: "the last record that holds the offset is the one used". The offset
/// is that of its prefix where it has one, as in the listing.
pub fn step(handlers: &[Handler], ins: &Instr) -> Option<usize> {
    if NEVER.contains(&plain(ins)) {
        return None;
    }
    let last = handlers.iter().rev().find(|handler| handler.holds(ins.offset));
    last.map(|handler| handler.to as usize)
}

#[cfg(test)]
mod tests {
    use super::*;
    use crate::ask::{ask_with, Answer, Call, NO_OBJECT, WALK_CODE_WITH, WALK_WITH};
    use crate::flows::ENDS;
    use crate::records::*;
    use crate::sample;
    use crate::walks::{packed, Outcome};

    /// The sample's table, with the other ends from 0c on.
    fn table(mut files: Files) -> Files {
        for name in &ENDS[1..] {
            files.body[OPCODES].extend(opcode_record(name, 0, &[]));
        }
        files
    }

    /// What is said of code in object 0, and of the same code lent, without a pool.
    fn said(code: &[u8], handlers: &[(u32, u32, u32)]) -> Answer {
        let handlers: Vec<Handler> =
            handlers.iter().map(|(start, end, to)| Handler::new(*start, *end, *to)).collect();
        said_of(code, &file(&handlers), code.len() as u64)
    }

    fn said_of(code: &[u8], handlers: &[u8], marks: u64) -> Answer {
        let files = table(sample::function(code, 8, &[]));
        let of = |call: &Call| ask_with(&files, code, handlers, call).unwrap();
        let answer = of(&Call::new(WALK_WITH, &[marks]));
        assert_eq!(answer, of(&Call::new(WALK_CODE_WITH, &[0, marks])));
        assert_eq!(answer, of(&Call::new(WALK_CODE_WITH, &[NO_OBJECT, marks])));
        answer
    }

    fn on(code: &[u8], handlers: &[(u32, u32, u32)]) -> String {
        said(code, handlers).to_string()
    }

    fn marks(code: &[u8], handlers: &[(u32, u32, u32)]) -> Vec<u8> {
        match said(code, handlers) {
            Answer::Walked(walked) => packed(&walked.marks),
            other => panic!("{other}"),
        }
    }

    /// LdaZero, Return, LdaZero, Return.
    const CODE: [u8; 4] = [0x02, 0x0b, 0x02, 0x0b];

    #[test]
    fn a_step_to_the_handler() {
        assert_eq!(marks(&CODE, &[]), [0b0011]);
        assert_eq!(marks(&CODE, &[(0, 1, 2)]), [0b1111]);
        assert_eq!(on(&CODE, &[(0, 1, 2)]), "closed");
        // From start on and below end; Return has no such step.
        assert_eq!(marks(&CODE, &[(1, 2, 2)]), [0b0011]);
        assert_eq!(marks(&CODE, &[(0, 4, 0)]), [0b0011]);
        // It leaves where no instruction starts: at the end, beyond, inside one.
        for to in [4, 5, u32::MAX] {
            assert_eq!(on(&CODE, &[(0, 1, to)]), "leaves steps 1 from 0");
            assert_eq!(on(&CODE, &[(1, 2, to)]), "closed");
        }
        assert_eq!(on(&[0x03, 0x05, 0x0b], &[(0, 1, 1)]), "leaves steps 1 from 0");
        // What is not reached has no step.
        assert_eq!(on(&CODE, &[(2, 3, 9)]), "closed");
        assert_eq!(on(&CODE, &[(0, 1, 2), (2, 3, 9)]), "leaves steps 2 from 2");
    }

    #[test]
    fn the_last_record_is_used() {
        assert_eq!(on(&CODE, &[(0, 1, 9), (0, 1, 2)]), "closed");
        assert_eq!(on(&CODE, &[(0, 1, 2), (0, 1, 9)]), "leaves steps 1 from 0");
        assert_eq!(on(&CODE, &[(0, 1, 9), (0, 4, 2), (1, 2, 9)]), "closed");
    }

    /// The offset of an instruction is that of its prefix.
    #[test]
    fn under_a_prefix() {
        let codes: [&[u8]; 2] = [&[0x00, 0x03, 5, 0, 0x0b], &[0x01, 0x03, 5, 0, 0, 0, 0x0b]];
        for code in codes {
            let end = code.len() as u32 - 1;
            assert_eq!(on(code, &[(0, 1, 9)]), "leaves steps 1 from 0");
            assert_eq!(on(code, &[(1, end, 9)]), "closed");
            assert_eq!(on(code, &[(0, end, 1)]), "leaves steps 1 from 0");
        }
    }

    /// Ends have the step, but for two of them, at every scale.
    #[test]
    fn ends() {
        for (name, end) in ENDS.iter().zip(0x0b..) {
            for code in [&[end][..], &[0x00, end], &[0x01, end]] {
                let never = ["Return", "SuspendGenerator"].contains(name);
                let wanted = if never { "closed" } else { "leaves steps 1 from 0" };
                assert_eq!(on(code, &[(0, 1, 9)]), wanted, "{name}");
                assert_eq!(on(code, &[(0, 1, 0)]), "closed", "{name}");
            }
        }
    }

    /// Wish 6: by name the two never have the step, whatever their flow, and by flow an end of another name has it.
    #[test]
    fn by_name_alone() {
        for (name, kind) in ["Return", "SuspendGenerator", "Stop"]
            .iter()
            .flat_map(|name| (0..6).map(move |kind| (name, kind)))
        {
            let code = [0x0c, 0x02, 0x0b];
            let mut files = sample::function(&code, 8, &[]);
            files.body[OPCODES].extend(flow_record(name, 0, &[], [kind, 0, 0, 0]));
            let said = |to| {
                let call = Call::new(WALK_WITH, &[9]);
                let handlers = file(&[Handler::new(0, 1, to)]);
                match ask_with(&files, &[], &handlers, &call).unwrap() {
                    Answer::Walked(walked) => (walked.outcome, packed(&walked.marks)),
                    other => panic!("{other}"),
                }
            };
            // Of the jumps none has a target.
            let left = Outcome::Leaves { steps: 1, from: 0 };
            let jumps = matches!(kind, 2..=4);
            let closed = *name != "Stop" && !jumps;
            assert_eq!(said(9).0, if closed { Outcome::Closed } else { left }, "{name} {kind}");
            let marks = match kind {
                0 | 5 => 0b111,
                1 if *name == "Stop" => 0b101,
                _ => 0b001,
            };
            assert_eq!(said(2).1, [marks], "{name} {kind}");
        }
    }

    #[test]
    fn order_of_refusals() {
        let of = |code: &[u8], handlers: &[u8], marks| said_of(code, handlers, marks).to_string();
        let bad = file(&[Handler::new(0, 1, 0), Handler::new(1, 1, 0)]);
        assert_eq!(of(&CODE, &bad, 4), "refused 25 at 1");
        assert_eq!(of(&CODE, &bad[..23], 4), "refused 24 at 0");
        assert_eq!(of(&CODE, &bad[..23], 3), "refused 18 at 0");
        assert_eq!(of(&CODE, &bad, 3), "refused 18 at 0");
        assert_eq!(of(&[0x02, 0x03], &bad[..23], 0), "refused 14 at 2");
        assert_eq!(of(&CODE, &file(&[Handler::new(0, 5, 0)]), 4), "refused 25 at 0");
        assert_eq!(of(&CODE, &file(&[Handler::new(0, 4, 0)]), 4), "closed");
        assert_eq!(of(&CODE, &file(&[Handler::new(3, 2, 0)]), 4), "refused 25 at 0");
        let most = file(&[Handler::new(0, 1, 2); MOST]);
        assert_eq!(of(&CODE, &most, 4), "closed");
        assert_eq!(of(&CODE, &[&most[..], &most[..12]].concat(), 4), "refused 24 at 0");
        // In empty code each record is at fault.
        assert_eq!(of(&[], &[], 0), "closed");
        assert_eq!(of(&[], &[0; 12], 0), "refused 25 at 0");
        assert_eq!(of(&[], &file(&[Handler::new(0, 1, 0)]), 0), "refused 25 at 0");
        assert_eq!(of(&[], &[0; 11], 0), "refused 24 at 0");
    }
}
