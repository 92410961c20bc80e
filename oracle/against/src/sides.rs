//! One question put to both sides: our code through its archive, and the Rust with document 01's checks.

use jscd_capi as ours;
use oracle::ask::Answer;
use oracle::checks::{self, Refusal};
use oracle::convert;
use oracle::decode;
use oracle::port::{Port, TABLE};
use oracle::records::*;
use oracle::switches;
use oracle::walks::{self, Outcome};

/// What a side says.
#[derive(Debug, Clone, PartialEq)]
pub enum Said {
    Text(Vec<u8>),
    /// A converted file.
    Bytes(Vec<u8>),
    /// An instruction: opcode, scale, end, number of operands, and three numbers for each.
    Numbers(Vec<u64>),
    End,
    /// The walk check: steps and offset where a walk leaves, and the marks of the code.
    Walked(Option<(usize, usize)>, Vec<u8>),
    Refused(u64, u64),
    /// A refusal that wrote into its buffer, or an answer that wrote behind its length.
    Stray(String),
}

impl Said {
    /// The refusal's number, or 0.
    pub fn number(&self) -> usize {
        match self {
            Said::Refused(number, _) => *number as usize,
            _ => 0,
        }
    }

    /// How many marks a walk check gave.
    pub fn marks(&self) -> usize {
        match self {
            Said::Walked(_, marks) => marks.len(),
            _ => 0,
        }
    }

    /// Whether a listing shows an entry of a switch under a prefix.
    pub fn shows_prefixed(&self) -> bool {
        let Said::Text(text) = self else { return false };
        let text = String::from_utf8_lossy(text);
        text.lines()
            .any(|line| line.contains(" Switch") && line.contains("Wide ") && line.contains(": @"))
    }

    pub fn shown(&self) -> String {
        match self {
            Said::Text(text) => String::from_utf8_lossy(text).into_owned(),
            Said::Bytes(bytes) => format!("{bytes:02x?}"),
            Said::Numbers(numbers) => format!("{numbers:?}"),
            Said::End => "end".into(),
            Said::Walked(None, marks) => format!("closed, marks {marks:?}"),
            Said::Walked(Some((steps, from)), marks) => {
                format!("leaves steps {steps} from {from}, marks {marks:?}")
            }
            Said::Refused(number, place) => format!("refused {number} at {place}"),
            Said::Stray(what) => what.clone(),
        }
    }
}

impl From<Refusal> for Said {
    fn from(r: Refusal) -> Said {
        Said::Refused(r.number, r.place)
    }
}

impl From<ours::Refusal> for Said {
    fn from(r: ours::Refusal) -> Said {
        Said::Refused(r.number as u64, r.place as u64)
    }
}

/// A walk check with handler records: of object 0, or of lent code.
#[derive(Clone, Copy)]
pub struct Handled<'a> {
    pub files: &'a Files,
    pub lent: Option<LentCode<'a>>,
    /// How many marks there are.
    pub room: usize,
    pub handlers: &'a [u8],
}

#[derive(Clone, Copy)]
pub struct LentCode<'a> {
    pub code: &'a [u8],
    /// Whether object 0 lends its pool.
    pub pool: bool,
}

/// A buffer is filled with this before each call.
const FILLED: u8 = 0xa5;

/// Our side, with its buffer.
pub struct Ours {
    room: Vec<u8>,
    /// What the room is like before a call.
    before: Vec<u8>,
}

impl Ours {
    pub fn new() -> Ours {
        Ours { room: Vec::new(), before: Vec::new() }
    }

    /// The listing of object 0 into a buffer of so many bytes; what it did to the rest of the buffer is looked at.
    pub fn list(&mut self, files: &Files, room: usize) -> Said {
        let [opcodes, types, runtime, intrinsic, layout, objects, slots, payload] = &files.body;
        let lent =
            ours::Files { opcodes, types, runtime, intrinsic, layout, objects, slots, payload };
        if self.room.len() < room {
            self.room.resize(room, FILLED);
            self.before.resize(room, FILLED);
        }
        let out = &mut self.room[..room];
        let answer = ours::list(&lent, 0, out);
        let kept = *answer.as_ref().unwrap_or(&0);
        if kept > room || out[kept..] != self.before[kept..room] {
            self.room.fill(FILLED);
            return Said::Stray(format!("{answer:?}, and wrote elsewhere"));
        }
        match answer {
            Ok(length) => {
                let text = out[..length].to_vec();
                out[..length].fill(FILLED);
                Said::Text(text)
            }
            Err(refusal) => refusal.into(),
        }
    }

    /// The walks of object 0, with so many marks; of these the first `length` are the code's. What it did to the others is looked at.
    pub fn walk(&mut self, files: &Files, length: usize, room: usize) -> Said {
        let [opcodes, types, runtime, intrinsic, layout, objects, slots, payload] = &files.body;
        let lent =
            ours::Files { opcodes, types, runtime, intrinsic, layout, objects, slots, payload };
        let mut marks = vec![FILLED; room];
        marked(ours::walk(&lent, 0, &mut marks), marks, length)
    }

    /// The same with handler records.
    pub fn handled(&mut self, asked: Handled, length: usize) -> Said {
        let [opcodes, types, runtime, intrinsic, layout, objects, slots, payload] =
            &asked.files.body;
        let given = ours::Given { handlers: asked.handlers };
        let mut marks = vec![FILLED; asked.room];
        let answer = match asked.lent {
            Some(LentCode { code, pool }) => {
                let object = pool.then_some(0);
                let lent = ours::Lent { opcodes, types, layout, objects, slots, payload, object };
                ours::walk_code_with(&lent, code, given, &mut marks)
            }
            None => {
                let lent = ours::Files {
                    opcodes,
                    types,
                    runtime,
                    intrinsic,
                    layout,
                    objects,
                    slots,
                    payload,
                };
                ours::walk_with(&lent, 0, given, &mut marks)
            }
        };
        marked(answer, marks, length)
    }

    /// The opcodes converted, to records of 72 bytes or of 64, into a buffer of so many bytes.
    pub fn convert(&self, files: &Files, to_new: bool, room: usize) -> Said {
        let [opcodes, types, ..] = &files.body;
        let mut out = vec![FILLED; room];
        let answer = match to_new {
            true => ours::to_new(opcodes, types, &mut out),
            false => ours::to_old(opcodes, types, &mut out),
        };
        let kept = *answer.as_ref().unwrap_or(&0);
        if kept > room || out[kept..].iter().any(|byte| *byte != FILLED) {
            return Said::Stray(format!("{answer:?}, and wrote elsewhere"));
        }
        out.truncate(kept);
        match answer {
            Ok(_) => Said::Bytes(out),
            Err(refusal) => refusal.into(),
        }
    }

    pub fn decode(&self, files: &Files, code: &[u8], start: usize) -> Said {
        let [opcodes, types, _, _, layout, ..] = &files.body;
        match ours::decode(opcodes, types, layout, code, start) {
            Ok(None) => Said::End,
            Err(refusal) => refusal.into(),
            Ok(Some(instr)) => {
                let head = [instr.opcode as u64, instr.scale as u64, instr.end as u64];
                let mut out = head.to_vec();
                out.push(instr.operands.len() as u64);
                out.extend(instr.operands.iter().flat_map(numbers));
                Said::Numbers(out)
            }
        }
    }
}

/// What a walk check said, and its marks; those behind the code's are as they were.
fn marked(answer: Result<ours::Walked, ours::Refusal>, mut marks: Vec<u8>, length: usize) -> Said {
    let kept = if answer.is_ok() { length.min(marks.len()) } else { 0 };
    if marks[kept..].iter().any(|mark| *mark != FILLED) {
        return Said::Stray(format!("{answer:?}, and wrote elsewhere"));
    }
    marks.truncate(kept);
    match answer {
        Ok(ours::Walked::Closed) => Said::Walked(None, marks),
        Ok(ours::Walked::Leaves { steps, from }) => Said::Walked(Some((steps, from)), marks),
        Err(refusal) => refusal.into(),
    }
}

/// As in the oracle's vectors (FORMAT.md).
fn numbers(operand: &ours::Operand) -> [u64; 3] {
    match *operand {
        ours::Operand::Reg(i) => [0, i as i64 as u64, 0],
        ours::Operand::RegList { first, count } => [1, first as i64 as u64, count as u64],
        ours::Operand::Imm(v) => [2, v as u64, 0],
        ours::Operand::Idx(v) => [3, v as u64, 0],
        ours::Operand::Flag8(v) => [4, v as u64, 0],
        ours::Operand::Flag16(v) => [5, v as u64, 0],
        ours::Operand::RuntimeId(v) => [6, v as u64, 0],
        ours::Operand::IntrinsicId(v) => [7, v as u64, 0],
        ours::Operand::Raw { ty, value } => [8, ty as u64, value],
    }
}

/// The Rust's side. For each call it keeps the structures of the last table, which many cases share.
pub struct Rust {
    listing: Held,
    decoding: Held,
}

/// The Rust cannot be asked: two types of one name that differ (it finds a type by its name).
pub struct NotComparable;

/// A table, what its checks say, and its structures where they are good.
struct Held {
    table: Files,
    checked: Result<(), Refusal>,
    port: Option<Port<'static>>,
}

impl Held {
    fn new() -> Held {
        Held { table: Files::default(), checked: checks::refuse(1, 0), port: None }
    }

    /// Takes those files of a table that a call is lent.
    fn set(&mut self, files: &Files, lent: &[usize]) -> Result<(), NotComparable> {
        if lent.iter().all(|file| self.table.body[*file] == files.body[*file])
            && (self.checked.is_err() || self.port.is_some())
        {
            return Ok(());
        }
        for file in lent {
            self.table.body[*file].clone_from(&files.body[*file]);
        }
        self.port = None;
        self.checked = checks::table(&self.table, TABLE);
        if self.checked.is_ok() {
            let port = Port::new(&self.table, TABLE).map_err(|_| NotComparable)?;
            self.port = Some(port.with_store(&NO_STORE));
        }
        Ok(())
    }
}

impl Rust {
    pub fn new() -> Rust {
        Rust { listing: Held::new(), decoding: Held::new() }
    }

    /// The listing of object 0 into a buffer of so many bytes.
    pub fn list(&mut self, files: &Files, room: usize) -> Result<Said, NotComparable> {
        let held = &mut self.listing;
        held.set(files, &[OPCODES, TYPES, RUNTIME, INTRINSIC, LAYOUT])?;
        if let Err(refusal) = held.checked.and_then(|_| checks::store(files, usize::MAX)) {
            return Ok(refusal.into());
        }
        let port = held.port.take().expect("the table is good").with_store(files);
        let said = listing(&port, files, room);
        held.port = Some(port.with_store(&NO_STORE));
        Ok(said.unwrap_or_else(Said::from))
    }

    /// The walks of object 0, with so many marks: the check of `oracle::walks`, over the Rust's decoding, targets and entries, and
    /// `oracle::switches`.
    pub fn walk(&mut self, files: &Files, room: usize) -> Result<Said, NotComparable> {
        self.handled(Handled { files, lent: None, room, handlers: &[] })
    }

    /// The same with handler records, of object 0 or of lent code, which is lent no names.
    pub fn handled(&mut self, asked: Handled) -> Result<Said, NotComparable> {
        let files = asked.files;
        let (held, table): (&mut Held, &[usize]) = match asked.lent {
            None => (&mut self.listing, &[OPCODES, TYPES, RUNTIME, INTRINSIC, LAYOUT]),
            Some(_) => (&mut self.decoding, &[OPCODES, TYPES, LAYOUT]),
        };
        held.set(files, table)?;
        let store = asked.lent.is_none_or(|lent| lent.pool);
        let checked = match store {
            true => held.checked.and_then(|_| checks::store(files, usize::MAX)),
            false => held.checked,
        };
        if let Err(refusal) = checked {
            return Ok(refusal.into());
        }
        let with = if store { files } else { &NO_STORE };
        let port = held.port.take().expect("the table is good").with_store(with);
        let said = walked(&port, asked);
        held.port = Some(port.with_store(&NO_STORE));
        Ok(said.unwrap_or_else(Said::from))
    }

    /// Where the instructions of this code start, where it is decoded.
    pub fn starts(&mut self, files: &Files, code: &[u8]) -> Vec<u32> {
        let held = &mut self.decoding;
        if held.set(files, &[OPCODES, TYPES, LAYOUT]).is_err() || held.checked.is_err() {
            return Vec::new();
        }
        let listed = decode::all(held.port.as_ref().expect("the table is good"), code);
        listed.unwrap_or_default().iter().map(|ins| ins.offset as u32).collect()
    }

    /// The instruction at a place. The call is lent no names.
    pub fn decode(
        &mut self,
        files: &Files,
        code: &[u8],
        start: usize,
    ) -> Result<Said, NotComparable> {
        let held = &mut self.decoding;
        held.set(files, &[OPCODES, TYPES, LAYOUT])?;
        if let Err(refusal) = held.checked {
            return Ok(refusal.into());
        }
        let port = held.port.as_ref().expect("the table is good");
        Ok(match decode::checked(port, code, start as u64) {
            Err(refusal) => refusal.into(),
            Ok(None) => Said::End,
            Ok(Some(ins)) => match oracle::ask::instruction(files, &ins) {
                Answer::Found { words, .. } => {
                    Said::Numbers(words.iter().map(|w| w.bits()).collect())
                }
                other => unreachable!("{other:?}"),
            },
        })
    }
}

/// The conversions are not in the Rust: those of `oracle::convert`.
pub fn converted(files: &Files, to_new: bool, room: usize) -> Said {
    let answer = match to_new {
        true => convert::to_new(files, room as u64),
        false => convert::to_old(files, room as u64),
    };
    answer.map_or_else(Said::from, Said::Bytes)
}

static NO_STORE: Files = Files {
    body: [
        Vec::new(),
        Vec::new(),
        Vec::new(),
        Vec::new(),
        Vec::new(),
        Vec::new(),
        Vec::new(),
        Vec::new(),
    ],
};

/// Header and instruction lines of `render_sfi`, with the entries of switches under a prefix (`oracle::switches`), after rows 8, 9 and 11 to 17.
fn listing(port: &Port, files: &Files, room: usize) -> Result<Said, Refusal> {
    let function = checks::function(files, 0)?;
    checks::code_length(port.code_length(function))?;
    let listed = decode::all(port, port.code(function))?;
    for ins in &listed {
        checks::switch(port, function, ins)?;
    }
    let listing = switches::listing(port, &listed).expect("the code decodes");
    checks::output(listing.len(), room)?;
    Ok(Said::Text(listing.into_bytes()))
}

/// The walk check, after the rows of table and store.
fn walked(port: &Port, asked: Handled) -> Result<Said, Refusal> {
    let (room, handlers) = (asked.room as u64, asked.handlers);
    let walked = match asked.lent {
        None => {
            let function = checks::function(asked.files, 0)?;
            walks::check_object(port, function, room, handlers)?
        }
        Some(LentCode { code, pool: false }) => {
            walks::check(port, port.without_pool(), code, room, handlers)?
        }
        Some(LentCode { code, pool: true }) => {
            let function = checks::object(asked.files, 0)?;
            walks::check(port, function, code, room, handlers)?
        }
    };
    let left = match walked.outcome {
        Outcome::Closed => None,
        Outcome::Leaves { steps, from } => Some((steps, from)),
    };
    Ok(Said::Walked(left, walked.marks.iter().map(|mark| *mark as u8).collect()))
}
