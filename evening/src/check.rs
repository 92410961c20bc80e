//! One function: its listing and its walk, by the archive.

use crate::answer::{Answer, Finding, Listing};
use crate::input::{Store, Table};
use jscd_capi::{Given, Refusal, Walked};
use std::alloc::{alloc_zeroed, Layout};
use std::path::Path;

/// The stack of a thread that checks: a walk takes up to 992,000 bytes of it.
pub const STACK: usize = 4 << 20;

/// Room for a listing at first. Most have it; it is kept between functions.
const ROOM: usize = 64 << 10;
/// More than document 01's longest listing: 13,107 switches of 4,096 entries, each of up to 36 characters, are 1.94 GB.
const MOST_ROOM: usize = 2 << 30;
/// No code is longer.
const MOST_CODE: usize = 65_536;
/// The lines of a listing's header.
const HEADER_LINES: usize = 6;
/// Bytes of a handler record.
const HANDLER: usize = 12;
/// The listing is too long for the buffer.
const TOO_LONG: u8 = 17;

/// What one thread needs, whatever the number of functions.
pub struct Checker {
    pub store: Store,
    listing: Vec<u8>,
    length: usize,
    marks: Vec<u8>,
}

impl Default for Checker {
    fn default() -> Checker {
        let (store, listing) = (Store::default(), zeros(ROOM).unwrap_or_default());
        Checker { store, listing, length: 0, marks: vec![0; MOST_CODE] }
    }
}

impl Checker {
    /// Reads a function, lists it and checks its walks. Its listing and marks are here until the next call.
    pub fn check(&mut self, table: &Table, folder: &Path) -> Finding {
        self.length = 0;
        if let Err(why) = self.store.read(folder) {
            return Finding { answer: Answer::Unreadable(why), listing: None, handlers: None };
        }
        if let Err(refusal) = self.list(table) {
            return Finding { answer: Answer::Refused(refusal), listing: None, handlers: None };
        }
        let answer = self.walk(table);
        let handlers = self.store.handlers().map(|records| records.len() / HANDLER);
        Finding { answer, listing: Some(counted(self.text())), handlers }
    }

    /// The listing; none where there is no answer to list.
    pub fn text(&self) -> &[u8] {
        &self.listing[..self.length]
    }

    /// For each offset of the code whether a walk comes by.
    pub fn marks(&self) -> &[u8] {
        &self.marks
    }

    /// Lists into a buffer that grows until the text fits. A large one is given back with the next function.
    fn list(&mut self, table: &Table) -> Result<(), Refusal> {
        let files = self.store.files(table);
        if self.listing.len() > 16 * ROOM {
            self.listing = zeros(ROOM).unwrap_or_default();
        }
        loop {
            match jscd_capi::list(&files, 0, &mut self.listing) {
                Ok(length) => self.length = length,
                Err(refusal) if refusal.number == TOO_LONG => {
                    let more = (4 * self.listing.len()).clamp(ROOM, MOST_ROOM);
                    if more > self.listing.len() {
                        self.listing = Vec::new();
                        self.listing = zeros(more).ok_or(refusal)?;
                        continue;
                    }
                    return Err(refusal);
                }
                Err(refusal) => return Err(refusal),
            }
            return Ok(());
        }
    }

    /// The walks, with the function's exception handlers, or without any where it has no file of them.
    fn walk(&mut self, table: &Table) -> Answer {
        self.marks.fill(0);
        let given = Given { handlers: self.store.handlers().unwrap_or_default() };
        match jscd_capi::walk_with(&self.store.files(table), 0, given, &mut self.marks) {
            Ok(Walked::Closed) => Answer::Closed,
            Ok(Walked::Leaves { steps, from }) => Answer::Leaves { steps, from },
            Err(refusal) => Answer::Refused(refusal),
        }
    }
}

/// Bytes of 0 which the system backs only where they are touched; None where it has no such room.
fn zeros(length: usize) -> Option<Vec<u8>> {
    let layout = Layout::array::<u8>(length).ok().filter(|layout| layout.size() > 0)?;
    // Safety: the layout is that of `length` bytes, not 0; a pointer that is not null owns them, and they are all 0.
    unsafe {
        let start = alloc_zeroed(layout);
        (!start.is_null()).then(|| Vec::from_raw_parts(start, length, length))
    }
}

/// What a listing says of its function.
fn counted(text: &[u8]) -> Listing {
    let lines = text.iter().filter(|byte| **byte == b'\n').count();
    let digits = text.strip_prefix(b"Bytecode length: ").unwrap_or_default();
    let digits = digits.iter().take_while(|byte| byte.is_ascii_digit());
    let code = digits.fold(0, |number, digit| 10 * number + usize::from(digit - b'0'));
    Listing { length: text.len(), code, instructions: lines.saturating_sub(HEADER_LINES) }
}
