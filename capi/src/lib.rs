//! Dojisun's proved functions for Rust, safe to call: the archive of crate `capi` behind slices and enums.
//!
//! Every function of the archive is defined for every input, so nothing is tested here. Rust's own rule that a `&mut` overlaps nothing
//! is all that the archive asks for.

#![forbid(improper_ctypes)]

use std::fmt;

/// Document 01's refusal: its number and its place.
#[derive(Debug, Clone, Copy, PartialEq, Eq, PartialOrd, Ord)]
pub struct Refusal {
    pub number: u8,
    pub place: usize,
}

impl fmt::Display for Refusal {
    fn fmt(&self, f: &mut fmt::Formatter) -> fmt::Result {
        write!(f, "refused {} at {}", self.number, self.place)
    }
}

impl std::error::Error for Refusal {}

/// Bytes of an opcode record; `to_new` makes such records from document 01's, which have 64.
pub const OPCODE_SIZE: usize = 72;
pub const OLD_OPCODE_SIZE: usize = 64;

/// The eight record files, in document 01's order. Opcode records have 72 bytes, here and wherever opcodes are lent.
#[derive(Debug, Clone, Copy)]
pub struct Files<'a> {
    pub opcodes: &'a [u8],
    pub types: &'a [u8],
    pub runtime: &'a [u8],
    pub intrinsic: &'a [u8],
    pub layout: &'a [u8],
    pub objects: &'a [u8],
    pub slots: &'a [u8],
    pub payload: &'a [u8],
}

#[derive(Debug, Clone, Copy, PartialEq, Eq)]
pub enum Operand {
    Reg(i32),
    RegList {
        first: i32,
        count: u32,
    },
    Imm(i64),
    Idx(u32),
    Flag8(u8),
    Flag16(u16),
    RuntimeId(u32),
    IntrinsicId(u32),
    /// Of type code `ty`, which is 17 or above.
    Raw {
        ty: u8,
        value: u64,
    },
}

#[derive(Debug, Clone, PartialEq, Eq)]
pub struct Instr {
    pub offset: usize,
    pub opcode: u8,
    /// 1, 2 (Wide) or 4 (ExtraWide).
    pub scale: u8,
    /// The place behind it.
    pub end: usize,
    pub operands: Vec<Operand>,
}

/// The listing of a BytecodeArray into `out`: its length. After a refusal `out` is as it was.
pub fn list(files: &Files, object: usize, out: &mut [u8]) -> Result<usize, Refusal> {
    let mut place = 0;
    let f = files;
    // Safety: each pointer and length is that of a live slice, `out` and `place` are borrowed as `&mut`.
    let number = unsafe {
        jscd_list(
            out.as_mut_ptr(),
            out.len(),
            f.opcodes.as_ptr(),
            f.opcodes.len(),
            f.types.as_ptr(),
            f.types.len(),
            f.runtime.as_ptr(),
            f.runtime.len(),
            f.intrinsic.as_ptr(),
            f.intrinsic.len(),
            f.layout.as_ptr(),
            f.layout.len(),
            f.objects.as_ptr(),
            f.objects.len(),
            f.slots.as_ptr(),
            f.slots.len(),
            f.payload.as_ptr(),
            f.payload.len(),
            object,
            &mut place,
        )
    };
    match number {
        DONE => Ok(place),
        _ => Err(Refusal { number, place }),
    }
}

/// What a walk check finds.
#[derive(Debug, Clone, Copy, PartialEq, Eq)]
pub enum Walked {
    /// No walk leaves.
    Closed,
    /// The steps of a shortest walk that leaves, and the lowest offset that one leaves from.
    Leaves { steps: usize, from: usize },
}

/// What is lent beside the files; later wishes add to it. The default is nothing.
#[derive(Debug, Default, Clone, Copy)]
pub struct Given<'a> {
    /// Exception handlers: records of 12 bytes, up to 4,096 of them, each start, end and handler offset.
    pub handlers: &'a [u8],
}

/// The walks through a BytecodeArray's code, with marks for the offsets that they come by: at least as many as the code has bytes. After a
/// refusal `marks` is as it was. Empty code is closed, without a mark; 19 is a length above 0 whose code no run holds.
pub fn walk(files: &Files, object: usize, marks: &mut [u8]) -> Result<Walked, Refusal> {
    let (mut steps, mut place) = (0, 0);
    let f = files;
    // Safety: as in `list`; `marks`, `steps` and `place` are borrowed as `&mut`.
    let number = unsafe {
        jscd_walk(
            marks.as_mut_ptr(),
            marks.len(),
            f.opcodes.as_ptr(),
            f.opcodes.len(),
            f.types.as_ptr(),
            f.types.len(),
            f.runtime.as_ptr(),
            f.runtime.len(),
            f.intrinsic.as_ptr(),
            f.intrinsic.len(),
            f.layout.as_ptr(),
            f.layout.len(),
            f.objects.as_ptr(),
            f.objects.len(),
            f.slots.as_ptr(),
            f.slots.len(),
            f.payload.as_ptr(),
            f.payload.len(),
            object,
            &mut steps,
            &mut place,
        )
    };
    walked(number, steps, place)
}

/// The same with what is lent beside the files: from an instruction that a handler's record holds, a walk may also go to the handler. 24 and 25
/// are faults of the records.
pub fn walk_with(
    files: &Files,
    object: usize,
    given: Given,
    marks: &mut [u8],
) -> Result<Walked, Refusal> {
    let (mut steps, mut place) = (0, 0);
    let f = files;
    // Safety: as in `walk`.
    let number = unsafe {
        jscd_walk_with(
            marks.as_mut_ptr(),
            marks.len(),
            f.opcodes.as_ptr(),
            f.opcodes.len(),
            f.types.as_ptr(),
            f.types.len(),
            f.runtime.as_ptr(),
            f.runtime.len(),
            f.intrinsic.as_ptr(),
            f.intrinsic.len(),
            f.layout.as_ptr(),
            f.layout.len(),
            f.objects.as_ptr(),
            f.objects.len(),
            f.slots.as_ptr(),
            f.slots.len(),
            f.payload.as_ptr(),
            f.payload.len(),
            object,
            given.handlers.as_ptr(),
            given.handlers.len(),
            &mut steps,
            &mut place,
        )
    };
    walked(number, steps, place)
}

/// The answer of a walk check.
fn walked(number: u8, steps: usize, place: usize) -> Result<Walked, Refusal> {
    match number {
        DONE => Ok(Walked::Closed),
        LEAVES => Ok(Walked::Leaves { steps, from: place }),
        _ => Err(Refusal { number, place }),
    }
}

/// The record files that code is lent with, and the object whose pool it uses, if one is lent: then objects, slots and payload are its store,
/// else they are not looked at.
#[derive(Debug, Clone, Copy)]
pub struct Lent<'a> {
    pub opcodes: &'a [u8],
    pub types: &'a [u8],
    pub layout: &'a [u8],
    pub objects: &'a [u8],
    pub slots: &'a [u8],
    pub payload: &'a [u8],
    pub object: Option<usize>,
}

impl Lent<'_> {
    /// Whether an object is lent, and its number.
    fn pool(&self) -> (u8, usize) {
        self.object.map_or((0, 0), |object| (1, object))
    }
}

/// The walks through lent code, with marks as for `walk`. Code of no bytes is closed.
pub fn walk_code(lent: &Lent, code: &[u8], marks: &mut [u8]) -> Result<Walked, Refusal> {
    let (mut steps, mut place) = (0, 0);
    let f = lent;
    let (has_object, object) = f.pool();
    // Safety: as in `walk`.
    let number = unsafe {
        jscd_walk_code(
            marks.as_mut_ptr(),
            marks.len(),
            code.as_ptr(),
            code.len(),
            f.opcodes.as_ptr(),
            f.opcodes.len(),
            f.types.as_ptr(),
            f.types.len(),
            f.layout.as_ptr(),
            f.layout.len(),
            f.objects.as_ptr(),
            f.objects.len(),
            f.slots.as_ptr(),
            f.slots.len(),
            f.payload.as_ptr(),
            f.payload.len(),
            has_object,
            object,
            &mut steps,
            &mut place,
        )
    };
    walked(number, steps, place)
}

/// The same with what is lent beside, as for `walk_with`.
pub fn walk_code_with(
    lent: &Lent,
    code: &[u8],
    given: Given,
    marks: &mut [u8],
) -> Result<Walked, Refusal> {
    let (mut steps, mut place) = (0, 0);
    let f = lent;
    let (has_object, object) = f.pool();
    // Safety: as in `walk`.
    let number = unsafe {
        jscd_walk_code_with(
            marks.as_mut_ptr(),
            marks.len(),
            code.as_ptr(),
            code.len(),
            f.opcodes.as_ptr(),
            f.opcodes.len(),
            f.types.as_ptr(),
            f.types.len(),
            f.layout.as_ptr(),
            f.layout.len(),
            f.objects.as_ptr(),
            f.objects.len(),
            f.slots.as_ptr(),
            f.slots.len(),
            f.payload.as_ptr(),
            f.payload.len(),
            has_object,
            object,
            given.handlers.as_ptr(),
            given.handlers.len(),
            &mut steps,
            &mut place,
        )
    };
    walked(number, steps, place)
}

/// The target of a jump.
#[derive(Debug, Clone, Copy, PartialEq, Eq)]
pub enum Target {
    /// Kept modulo 2^64.
    At(u64),
    /// No jump, or none whose target is known.
    Nothing,
    /// The place is the code's end.
    End,
}

/// The target of the jump at a place of lent code.
pub fn target(lent: &Lent, code: &[u8], at: usize) -> Result<Target, Refusal> {
    let mut place = 0;
    let mut values = [0; 2];
    let f = lent;
    let (has_object, object) = f.pool();
    // Safety: as in `list`; `values` has the length that the function writes.
    let number = unsafe {
        jscd_target(
            code.as_ptr(),
            code.len(),
            at,
            f.opcodes.as_ptr(),
            f.opcodes.len(),
            f.types.as_ptr(),
            f.types.len(),
            f.layout.as_ptr(),
            f.layout.len(),
            f.objects.as_ptr(),
            f.objects.len(),
            f.slots.as_ptr(),
            f.slots.len(),
            f.payload.as_ptr(),
            f.payload.len(),
            has_object,
            object,
            &mut place,
            &mut values,
        )
    };
    match (number, values) {
        (DONE, [FOUND, target]) => Ok(Target::At(target)),
        (DONE, _) => Ok(Target::Nothing),
        (END, _) => Ok(Target::End),
        _ => Err(Refusal { number, place }),
    }
}

/// An entry of a switch.
#[derive(Debug, Clone, Copy, PartialEq, Eq)]
pub enum Entry {
    Shown {
        case: i32,
        target: u64,
    },
    /// The entry's element is no small integer.
    Skipped,
    /// The table has no such entry.
    Beyond,
    /// No table.
    Nothing,
    /// The place is the code's end.
    End,
}

/// Entry `k`, from 0 on, of the switch at a place of lent code.
pub fn entry(lent: &Lent, code: &[u8], at: usize, k: usize) -> Result<Entry, Refusal> {
    let mut place = 0;
    let mut values = [0; 3];
    let f = lent;
    let (has_object, object) = f.pool();
    // Safety: as in `target`.
    let number = unsafe {
        jscd_entry(
            code.as_ptr(),
            code.len(),
            at,
            f.opcodes.as_ptr(),
            f.opcodes.len(),
            f.types.as_ptr(),
            f.types.len(),
            f.layout.as_ptr(),
            f.layout.len(),
            f.objects.as_ptr(),
            f.objects.len(),
            f.slots.as_ptr(),
            f.slots.len(),
            f.payload.as_ptr(),
            f.payload.len(),
            has_object,
            object,
            k,
            &mut place,
            &mut values,
        )
    };
    match (number, values) {
        (DONE, [FOUND, case, target]) => Ok(Entry::Shown { case: case as i32, target }),
        (DONE, [SKIPPED, ..]) => Ok(Entry::Skipped),
        (DONE, [BEYOND, ..]) => Ok(Entry::Beyond),
        (DONE, _) => Ok(Entry::Nothing),
        (END, _) => Ok(Entry::End),
        _ => Err(Refusal { number, place }),
    }
}

/// The instruction at a place of lent code; None at the code's end.
pub fn decode(
    opcodes: &[u8],
    types: &[u8],
    layout: &[u8],
    code: &[u8],
    start: usize,
) -> Result<Option<Instr>, Refusal> {
    let mut place = 0;
    let mut numbers = [0u64; NUMBERS];
    // Safety: as in `list`; `numbers` has the length that the function writes.
    let number = unsafe {
        jscd_decode(
            opcodes.as_ptr(),
            opcodes.len(),
            types.as_ptr(),
            types.len(),
            layout.as_ptr(),
            layout.len(),
            code.as_ptr(),
            code.len(),
            start,
            &mut place,
            &mut numbers,
        )
    };
    match number {
        DONE => Ok(Some(instr(start, &numbers))),
        END => Ok(None),
        _ => Err(Refusal { number, place }),
    }
}

/// The bytes of an instruction into `out`: how many. Its `offset` and `end` are not read. What is behind these bytes, and after a refusal all of
/// `out`, is as it was.
pub fn write(
    opcodes: &[u8],
    types: &[u8],
    layout: &[u8],
    instr: &Instr,
    out: &mut [u8],
) -> Result<usize, Refusal> {
    let mut place = 0;
    // Safety: as in `list`; `numbers` has the length that the function reads.
    let number = unsafe {
        jscd_write(
            out.as_mut_ptr(),
            out.len(),
            opcodes.as_ptr(),
            opcodes.len(),
            types.as_ptr(),
            types.len(),
            layout.as_ptr(),
            layout.len(),
            &numbers(instr),
            &mut place,
        )
    };
    match number {
        DONE => Ok(place),
        _ => Err(Refusal { number, place }),
    }
}

/// Opcode records of 72 bytes, as every other function takes them, from document 01's of 64, into `out`: how many bytes. What is behind these, and after a
/// refusal all of `out`, is as it was.
pub fn to_new(opcodes: &[u8], types: &[u8], out: &mut [u8]) -> Result<usize, Refusal> {
    let mut place = 0;
    // Safety: as in `list`.
    let number = unsafe {
        jscd_to_new(
            out.as_mut_ptr(),
            out.len(),
            opcodes.as_ptr(),
            opcodes.len(),
            types.as_ptr(),
            types.len(),
            &mut place,
        )
    };
    match number {
        DONE => Ok(place),
        _ => Err(Refusal { number, place }),
    }
}

/// The way back, into records of 64 bytes; 27 where a record's name stands for other bytes 50 to 53.
pub fn to_old(opcodes: &[u8], types: &[u8], out: &mut [u8]) -> Result<usize, Refusal> {
    let mut place = 0;
    // Safety: as in `list`.
    let number = unsafe {
        jscd_to_old(
            out.as_mut_ptr(),
            out.len(),
            opcodes.as_ptr(),
            opcodes.len(),
            types.as_ptr(),
            types.len(),
            &mut place,
        )
    };
    match number {
        DONE => Ok(place),
        _ => Err(Refusal { number, place }),
    }
}

/// Whether opcodes are a good file of 64-byte records, which `to_new` would convert: with no room it then says 17. Such a file is never a good one of
/// 72-byte records: where there is a second record its name begins among bytes that must be zero.
pub fn is_old(opcodes: &[u8], types: &[u8]) -> bool {
    to_new(opcodes, types, &mut []) == Err(Refusal { number: 17, place: 0 })
}

/// What to do about a file of which `is_old` is true, behind its name.
pub const OLD_RECORDS: &str =
    "has records of 64 bytes: jscd_convert new OPCODES TYPES makes records of 72";

const DONE: u8 = 0;
const END: u8 = 255;
const LEAVES: u8 = 254;
const NUMBERS: usize = 28;
const FOUND: u64 = 1;
const SKIPPED: u64 = 2;
const BEYOND: u64 = 3;

extern "C" {
    fn jscd_list(
        out: *mut u8,
        out_len: usize,
        opcodes: *const u8,
        opcodes_len: usize,
        types: *const u8,
        types_len: usize,
        runtime: *const u8,
        runtime_len: usize,
        intrinsic: *const u8,
        intrinsic_len: usize,
        layout: *const u8,
        layout_len: usize,
        objects: *const u8,
        objects_len: usize,
        slots: *const u8,
        slots_len: usize,
        payload: *const u8,
        payload_len: usize,
        object: usize,
        place: *mut usize,
    ) -> u8;

    fn jscd_walk(
        marks: *mut u8,
        marks_len: usize,
        opcodes: *const u8,
        opcodes_len: usize,
        types: *const u8,
        types_len: usize,
        runtime: *const u8,
        runtime_len: usize,
        intrinsic: *const u8,
        intrinsic_len: usize,
        layout: *const u8,
        layout_len: usize,
        objects: *const u8,
        objects_len: usize,
        slots: *const u8,
        slots_len: usize,
        payload: *const u8,
        payload_len: usize,
        object: usize,
        steps: *mut usize,
        place: *mut usize,
    ) -> u8;

    fn jscd_walk_with(
        marks: *mut u8,
        marks_len: usize,
        opcodes: *const u8,
        opcodes_len: usize,
        types: *const u8,
        types_len: usize,
        runtime: *const u8,
        runtime_len: usize,
        intrinsic: *const u8,
        intrinsic_len: usize,
        layout: *const u8,
        layout_len: usize,
        objects: *const u8,
        objects_len: usize,
        slots: *const u8,
        slots_len: usize,
        payload: *const u8,
        payload_len: usize,
        object: usize,
        handlers: *const u8,
        handlers_len: usize,
        steps: *mut usize,
        place: *mut usize,
    ) -> u8;

    fn jscd_walk_code(
        marks: *mut u8,
        marks_len: usize,
        code: *const u8,
        code_len: usize,
        opcodes: *const u8,
        opcodes_len: usize,
        types: *const u8,
        types_len: usize,
        layout: *const u8,
        layout_len: usize,
        objects: *const u8,
        objects_len: usize,
        slots: *const u8,
        slots_len: usize,
        payload: *const u8,
        payload_len: usize,
        lent: u8,
        object: usize,
        steps: *mut usize,
        place: *mut usize,
    ) -> u8;

    fn jscd_walk_code_with(
        marks: *mut u8,
        marks_len: usize,
        code: *const u8,
        code_len: usize,
        opcodes: *const u8,
        opcodes_len: usize,
        types: *const u8,
        types_len: usize,
        layout: *const u8,
        layout_len: usize,
        objects: *const u8,
        objects_len: usize,
        slots: *const u8,
        slots_len: usize,
        payload: *const u8,
        payload_len: usize,
        lent: u8,
        object: usize,
        handlers: *const u8,
        handlers_len: usize,
        steps: *mut usize,
        place: *mut usize,
    ) -> u8;

    fn jscd_target(
        code: *const u8,
        code_len: usize,
        at: usize,
        opcodes: *const u8,
        opcodes_len: usize,
        types: *const u8,
        types_len: usize,
        layout: *const u8,
        layout_len: usize,
        objects: *const u8,
        objects_len: usize,
        slots: *const u8,
        slots_len: usize,
        payload: *const u8,
        payload_len: usize,
        lent: u8,
        object: usize,
        place: *mut usize,
        values: *mut [u64; 2],
    ) -> u8;

    fn jscd_entry(
        code: *const u8,
        code_len: usize,
        at: usize,
        opcodes: *const u8,
        opcodes_len: usize,
        types: *const u8,
        types_len: usize,
        layout: *const u8,
        layout_len: usize,
        objects: *const u8,
        objects_len: usize,
        slots: *const u8,
        slots_len: usize,
        payload: *const u8,
        payload_len: usize,
        lent: u8,
        object: usize,
        k: usize,
        place: *mut usize,
        values: *mut [u64; 3],
    ) -> u8;

    fn jscd_decode(
        opcodes: *const u8,
        opcodes_len: usize,
        types: *const u8,
        types_len: usize,
        layout: *const u8,
        layout_len: usize,
        code: *const u8,
        code_len: usize,
        start: usize,
        place: *mut usize,
        numbers: *mut [u64; NUMBERS],
    ) -> u8;

    fn jscd_write(
        out: *mut u8,
        out_len: usize,
        opcodes: *const u8,
        opcodes_len: usize,
        types: *const u8,
        types_len: usize,
        layout: *const u8,
        layout_len: usize,
        numbers: *const [u64; NUMBERS],
        place: *mut usize,
    ) -> u8;

    fn jscd_to_new(
        out: *mut u8,
        out_len: usize,
        opcodes: *const u8,
        opcodes_len: usize,
        types: *const u8,
        types_len: usize,
        place: *mut usize,
    ) -> u8;

    fn jscd_to_old(
        out: *mut u8,
        out_len: usize,
        opcodes: *const u8,
        opcodes_len: usize,
        types: *const u8,
        types_len: usize,
        place: *mut usize,
    ) -> u8;
}

fn instr(offset: usize, numbers: &[u64; NUMBERS]) -> Instr {
    let used = numbers[3] as usize;
    Instr {
        offset,
        opcode: numbers[0] as u8,
        scale: numbers[1] as u8,
        end: numbers[2] as usize,
        operands: numbers[4..].chunks_exact(3).take(used).map(operand).collect(),
    }
}

fn operand(numbers: &[u64]) -> Operand {
    let (first, second) = (numbers[1], numbers[2]);
    match numbers[0] {
        1 => Operand::Reg(first as i32),
        2 => Operand::RegList { first: first as i32, count: second as u32 },
        3 => Operand::Imm(first as i64),
        4 => Operand::Idx(first as u32),
        5 => Operand::Flag8(first as u8),
        6 => Operand::Flag16(first as u16),
        7 => Operand::RuntimeId(first as u32),
        8 => Operand::IntrinsicId(first as u32),
        _ => Operand::Raw { ty: first as u8, value: second },
    }
}

/// An instruction's numbers. More than eight operands have no place there; their count alone is refused.
fn numbers(instr: &Instr) -> [u64; NUMBERS] {
    let mut out = [0; NUMBERS];
    let head = [instr.opcode as u64, instr.scale as u64, instr.end as u64];
    out[..3].copy_from_slice(&head);
    out[3] = instr.operands.len() as u64;
    for (place, operand) in out[4..].chunks_exact_mut(3).zip(&instr.operands) {
        place.copy_from_slice(&operand_numbers(operand));
    }
    out
}

/// Kind, first and second number; signed ones in two's complement.
fn operand_numbers(operand: &Operand) -> [u64; 3] {
    match *operand {
        Operand::Reg(index) => [1, index as u64, 0],
        Operand::RegList { first, count } => [2, first as u64, count.into()],
        Operand::Imm(value) => [3, value as u64, 0],
        Operand::Idx(value) => [4, value.into(), 0],
        Operand::Flag8(value) => [5, value.into(), 0],
        Operand::Flag16(value) => [6, value.into(), 0],
        Operand::RuntimeId(value) => [7, value.into(), 0],
        Operand::IntrinsicId(value) => [8, value.into(), 0],
        Operand::Raw { ty, value } => [9, ty.into(), value],
    }
}
