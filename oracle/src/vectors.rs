//! Vector files: record files, lent code, handler records and calls with their answers (see FORMAT.md).

use crate::ask::{self, Answer, Call, DECODE_SMI_BYTES, FUNCTIONS};
use crate::records::Files;
use crate::walks::{packed, Outcome};

const CODE: u8 = 8;
const HANDLERS: u8 = 9;
const PART: u8 = 16;
const CALL: u8 = 32;

#[derive(Default)]
pub struct Writer {
    pub out: Vec<u8>,
    files: Files,
    code: Vec<u8>,
    handlers: Vec<u8>,
    pub calls: usize,
    shares: bool,
    /// Contents up to this length are not looked for.
    short: usize,
}

impl Writer {
    /// A writer that says contents which stand in the file already as a part of it.
    pub fn sharing() -> Writer {
        Writer { shares: true, short: 8, ..Writer::default() }
    }

    /// The same for contents above a length: looking for short ones takes long in a long file.
    pub fn sharing_above(short: usize) -> Writer {
        Writer { shares: true, short, ..Writer::default() }
    }

    fn item(&mut self, kind: u8, body: &[u8]) {
        self.out.push(kind);
        self.out.extend((body.len() as u32).to_le_bytes());
        self.out.extend(body);
    }

    /// Sets a record file, the code or the handlers, as contents or as a part, whichever is shorter.
    fn set(&mut self, kind: u8, body: &[u8]) {
        if self.shares && body.len() > self.short {
            if let Some(start) = self.out.windows(body.len()).position(|w| w == body) {
                let numbers = [start as u32, body.len() as u32];
                let part: Vec<u8> = numbers.iter().flat_map(|n| n.to_le_bytes()).collect();
                return self.item(PART + kind, &part);
            }
        }
        self.item(kind, body);
    }

    /// Sets the record files; those that stay as they are take no item.
    pub fn files(&mut self, files: &Files) {
        for k in 0..8 {
            if files.body[k] != self.files.body[k] {
                self.set(k as u8, &files.body[k]);
            }
        }
        self.files = files.clone();
    }

    pub fn code(&mut self, code: &[u8]) {
        if code != self.code {
            self.set(CODE, code);
            self.code = code.to_vec();
        }
    }

    /// Sets the handler records.
    pub fn handlers(&mut self, handlers: &[u8]) {
        if handlers != self.handlers {
            self.set(HANDLERS, handlers);
            self.handlers = handlers.to_vec();
        }
    }

    /// Asks the call on the files, code and handlers set last, and records the answer.
    pub fn call(&mut self, call: &Call) -> Result<Answer, String> {
        let answer = ask::ask_with(&self.files, &self.code, &self.handlers, call)?;
        self.given(call, &answer);
        Ok(answer)
    }

    /// Records a call with an answer that was not asked here.
    pub fn given(&mut self, call: &Call, answer: &Answer) {
        self.said(call, &said(answer));
    }

    /// Records a call with status and answer as they stand in the file: arguments, then these.
    pub fn said(&mut self, call: &Call, said: &[u8]) {
        let mut body: Vec<u8> = call.args.iter().flat_map(|a| a.to_le_bytes()).collect();
        body.extend(&call.bytes);
        body.extend(said);
        self.item(CALL + call.function as u8, &body);
        self.calls += 1;
    }
}

/// Status and answer.
pub fn said(answer: &Answer) -> Vec<u8> {
    let mut out = Vec::new();
    match answer {
        Answer::Nothing => out.push(0),
        Answer::Found { words, text } => {
            out.push(1);
            out.extend(words.iter().flat_map(|w| w.bits().to_le_bytes()));
            out.extend(text.as_bytes());
        }
        Answer::Refused(refusal) => {
            out.push(2);
            out.extend(refusal.number.to_le_bytes());
            out.extend(refusal.place.to_le_bytes());
        }
        Answer::End => out.push(3),
        Answer::Walked(walked) => {
            out.push(1);
            let numbers = match walked.outcome {
                Outcome::Closed => vec![0],
                Outcome::Leaves { steps, from } => vec![1, steps as u64, from as u64],
            };
            out.extend(numbers.into_iter().flat_map(u64::to_le_bytes));
            out.extend(packed(&walked.marks));
        }
        Answer::Each(answers) => {
            out.push(1);
            out.extend(runs(answers));
        }
        Answer::Written(bytes) => {
            out.push(1);
            out.extend(bytes);
        }
    }
    out
}

/// Runs of equal answers: how many, the length of what is said, and that.
fn runs(answers: &[Answer]) -> Vec<u8> {
    let mut out = Vec::new();
    for run in answers.chunk_by(|a, b| a == b) {
        let said = said(&run[0]);
        out.extend((run.len() as u16).to_le_bytes());
        out.extend((said.len() as u16).to_le_bytes());
        out.extend(said);
    }
    out
}

/// A call in a vector file.
pub struct Recorded<'a> {
    /// Where its item starts.
    pub at: usize,
    /// The files, the code and the handlers as they are then.
    pub files: &'a Files,
    pub code: &'a [u8],
    pub handlers: &'a [u8],
    pub call: Call,
    /// Status and answer.
    pub said: &'a [u8],
}

impl Recorded<'_> {
    /// What is said of it today.
    pub fn asked(&self) -> Result<Answer, String> {
        ask::ask_with(self.files, self.code, self.handlers, &self.call)
    }
}

/// Asks every call of a vector file again. Gives the number of calls, or the first that differs.
pub fn replay(vectors: &[u8]) -> Result<usize, String> {
    each(vectors, |recorded| {
        let answer = recorded.asked()?;
        if said(&answer) != recorded.said {
            let name = FUNCTIONS[recorded.call.function].name;
            let args = &recorded.call.args;
            return Err(format!("item at {}: {name} {args:?} is now {answer}", recorded.at));
        }
        Ok(())
    })
}

/// Hands over every call of a vector file. Gives the number of calls.
pub fn each(
    vectors: &[u8],
    mut take: impl FnMut(&Recorded) -> Result<(), String>,
) -> Result<usize, String> {
    let mut files = Files::default();
    let mut code = Vec::new();
    let mut handlers = Vec::new();
    let mut calls = 0;
    let mut rest = vectors;
    while !rest.is_empty() {
        let at = vectors.len() - rest.len();
        let (kind, body_was, behind) = split(rest).ok_or(format!("item at {at} is cut"))?;
        let (kind, body_was) = match kind {
            PART..CALL => {
                let part = part(&vectors[..at], body_was).ok_or(format!("bad part at {at}"))?;
                (kind - PART, part)
            }
            _ => (kind, body_was),
        };
        match kind {
            0..=7 => files.body[kind as usize] = body_was.to_vec(),
            CODE => code = body_was.to_vec(),
            HANDLERS => handlers = body_was.to_vec(),
            _ => {
                let call = arguments(kind, body_was).ok_or(format!("bad item at {at}"))?;
                let said = &body_was[8 * call.args.len() + call.bytes.len()..];
                let (files, code, handlers) = (&files, &code[..], &handlers[..]);
                take(&Recorded { at, files, code, handlers, call, said })?;
                calls += 1;
            }
        }
        rest = behind;
    }
    Ok(calls)
}

/// Kind and body of the first item, and what is behind it.
fn split(items: &[u8]) -> Option<(u8, &[u8], &[u8])> {
    let length = u32::from_le_bytes(items.get(1..5)?.try_into().ok()?) as usize;
    Some((items[0], items.get(5..5 + length)?, &items[5 + length..]))
}

/// A part of what stands before an item: start and length.
fn part<'a>(before: &'a [u8], body: &[u8]) -> Option<&'a [u8]> {
    let number = |at| Some(u32::from_le_bytes(body.get(at..at + 4)?.try_into().ok()?) as usize);
    before.get(number(0)?..)?.get(..number(4)?)
}

fn arguments(kind: u8, body: &[u8]) -> Option<Call> {
    let function = kind.checked_sub(CALL)? as usize;
    let count = FUNCTIONS.get(function)?.args.len();
    let words = body.get(..8 * count)?.chunks_exact(8);
    let args: Vec<u64> = words.map(|w| u64::from_le_bytes(w.try_into().unwrap())).collect();
    let held = if function == DECODE_SMI_BYTES { args[0] as usize } else { 0 };
    let bytes = body[8 * count..].get(..held)?.to_vec();
    Some(Call { function, args, bytes })
}

#[cfg(test)]
mod tests {
    use super::*;
    use crate::records::{OPCODES, OPCODE_SIZE};
    use crate::sample;

    #[test]
    fn a_changed_byte_is_seen() {
        let mut writer = Writer::default();
        writer.files(&sample::sample());
        writer.call(&Call::new(ask::LISTING, &[])).unwrap();
        writer.call(&Call::smi_bytes(&[2, 0, 0, 0])).unwrap();
        assert_eq!(replay(&writer.out), Ok(2));
        let last = writer.out.len() - 1;
        writer.out[last] ^= 1;
        assert!(replay(&writer.out).is_err());
        assert!(replay(&writer.out[..last]).is_err());
    }

    #[test]
    fn contents_that_stand_there_are_a_part() {
        let mut writer = Writer::sharing();
        writer.files(&sample::sample());
        let one_fewer = {
            let mut files = sample::sample();
            files.body[OPCODES].drain(..OPCODE_SIZE);
            files
        };
        let at = writer.out.len();
        writer.files(&one_fewer);
        let [low, high] = (11 * OPCODE_SIZE as u16).to_le_bytes();
        let (from, part) = (5 + OPCODE_SIZE as u8, [low, high, 0, 0]);
        assert_eq!(writer.out[at..at + 9], [16, 8, 0, 0, 0, from, 0, 0, 0]);
        assert_eq!(writer.out[at + 9..], part);
        writer.call(&Call::new(ask::TABLE_CHECK, &[])).unwrap();
        assert_eq!(replay(&writer.out), Ok(1));
    }

    #[test]
    fn form_of_an_item() {
        let mut writer = Writer::default();
        writer.call(&Call::smi_bytes(&[0xfe, 0xff, 0xff, 0xff])).unwrap();
        let mut wanted = vec![39, 21, 0, 0, 0, 4, 0, 0, 0, 0, 0, 0, 0, 0xfe, 0xff, 0xff, 0xff, 1];
        wanted.extend([0xff; 8]);
        assert_eq!(writer.out, wanted);
    }
}
