//! Document 01's record files of a function, from a `VersionTable` and a `CodeCache`.
//!
//! This file goes into jscd's `src/` as it is (README.md says how): it needs `tables`, `serializer` and `disasm` and uses what they make
//! public. `table` makes the five table files, `function` the three store files of one function, `handlers` its handler records, `all` these for
//! every function of a cache, `write_all` a folder of them.
//!
//! What the records cannot hold is an error that names it; nothing is written then.

use crate::disasm::Disassembler;
use crate::serializer::{CodeCache, ObjId, Raw, Ref, SlotValue};
use crate::tables::{BytecodeArrayLayout, OperandTypeInfo, VersionTable};
use std::collections::{BTreeMap, BTreeSet};
use std::path::Path;

pub const TABLE_FILES: [&str; 5] =
    ["opcodes.bin", "types.bin", "runtime.bin", "intrinsic.bin", "layout.bin"];
pub const STORE_FILES: [&str; 3] = ["objects.bin", "slots.bin", "payload.bin"];
/// The file of a function's handler records, beside those of its store.
pub const HANDLERS_FILE: &str = "handlers.bin";

/// The programs read files of up to so many bytes.
pub const MOST_FILE: usize = 65_536;
/// Bytes of an opcode record.
const OPCODE: usize = 72;
const MOST_INDEX: usize = 1_048_576;
const MOST_OPERANDS: usize = 8;
const MOST_CODE: usize = 65_536;
/// The walk check takes up to so many handler records.
const MOST_HANDLERS: usize = 4_096;
const ABSENT: u32 = u32::MAX;

/// The names of type records 0 to 16.
const TYPE_NAMES: [&str; 17] = [
    "Reg",
    "RegOut",
    "RegInOut",
    "RegPair",
    "RegOutPair",
    "RegOutTriple",
    "RegList",
    "RegOutList",
    "RegCount",
    "Imm",
    "Idx",
    "UImm",
    "NativeContextIndex",
    "Flag8",
    "Flag16",
    "RuntimeId",
    "IntrinsicId",
];

/// What an opcode does by its name (document 01), as bytes 50 to 53 of its record: the flow (1 ends, 2 jumps, 3 jumps or goes on, 4 jumps back, 5 switch), 1 where the
/// distance comes from the pool, the first operand that is used, 1 where a switch has a case base. Any other name is straight on, four zeros.
const FLOWS: [(&str, [u8; 4]); 37] = [
    ("Return", [1, 0, 0, 0]),
    ("SuspendGenerator", [1, 0, 0, 0]),
    ("Throw", [1, 0, 0, 0]),
    ("ReThrow", [1, 0, 0, 0]),
    ("Abort", [1, 0, 0, 0]),
    ("Jump", [2, 0, 0, 0]),
    ("JumpConstant", [2, 1, 0, 0]),
    ("JumpLoop", [4, 0, 0, 0]),
    ("JumpLoopConstant", [4, 1, 0, 0]),
    ("JumpIfTrue", [3, 0, 0, 0]),
    ("JumpIfTrueConstant", [3, 1, 0, 0]),
    ("JumpIfFalse", [3, 0, 0, 0]),
    ("JumpIfFalseConstant", [3, 1, 0, 0]),
    ("JumpIfToBooleanTrue", [3, 0, 0, 0]),
    ("JumpIfToBooleanTrueConstant", [3, 1, 0, 0]),
    ("JumpIfToBooleanFalse", [3, 0, 0, 0]),
    ("JumpIfToBooleanFalseConstant", [3, 1, 0, 0]),
    ("JumpIfNull", [3, 0, 0, 0]),
    ("JumpIfNullConstant", [3, 1, 0, 0]),
    ("JumpIfNotNull", [3, 0, 0, 0]),
    ("JumpIfNotNullConstant", [3, 1, 0, 0]),
    ("JumpIfUndefined", [3, 0, 0, 0]),
    ("JumpIfUndefinedConstant", [3, 1, 0, 0]),
    ("JumpIfUndefinedOrNull", [3, 0, 0, 0]),
    ("JumpIfUndefinedOrNullConstant", [3, 1, 0, 0]),
    ("JumpIfNotUndefined", [3, 0, 0, 0]),
    ("JumpIfNotUndefinedConstant", [3, 1, 0, 0]),
    ("JumpIfJSReceiver", [3, 0, 0, 0]),
    ("JumpIfJSReceiverConstant", [3, 1, 0, 0]),
    ("JumpIfNotHole", [3, 0, 0, 0]),
    ("JumpIfNotHoleConstant", [3, 1, 0, 0]),
    ("JumpIfReferenceError", [3, 0, 0, 0]),
    ("JumpIfReferenceErrorConstant", [3, 1, 0, 0]),
    ("JumpIfNotReferenceError", [3, 0, 0, 0]),
    ("JumpIfNotReferenceErrorConstant", [3, 1, 0, 0]),
    ("SwitchOnSmiNoFeedback", [5, 0, 0, 1]),
    ("SwitchOnGeneratorState", [5, 0, 1, 0]),
];

/// Layout values 3 to 11.
const FIELDS: [&str; 9] = [
    "constant_pool",
    "handler_table",
    "source_position_table",
    "length",
    "frame_size",
    "parameter_size",
    "osr_loop_nesting_level",
    "osr_urgency_and_install_target",
    "bytecode_age",
];

// ---- the table files ----

/// opcodes, types, runtime names, intrinsic names, layout.
pub fn table(table: &VersionTable) -> Result<[Vec<u8>; 5], String> {
    let types = types_of(table);
    Ok([
        opcodes(table, &types)?,
        type_records(table, &types)?,
        names("runtime function", &table.runtime_names, 1_024)?,
        names("intrinsic", &table.intrinsic_names, 256)?,
        layout(table)?,
    ])
}

/// The types by number: the 17 of the records, then all others that an opcode uses, by name.
fn types_of(table: &VersionTable) -> Vec<&str> {
    let used = table.bytecodes.iter().flat_map(|b| b.operands.iter().map(String::as_str));
    let other: BTreeSet<&str> = used.filter(|name| !TYPE_NAMES.contains(name)).collect();
    TYPE_NAMES.into_iter().chain(other).collect()
}

fn opcodes(table: &VersionTable, types: &[&str]) -> Result<Vec<u8>, String> {
    within("opcodes", table.bytecodes.len(), 1, 256)?;
    let mut out = Vec::new();
    for (k, def) in table.bytecodes.iter().enumerate() {
        let what = format!("opcode {k:#04x}");
        out.extend(name(&what, &def.name, 40)?);
        if def.operands.len() > MOST_OPERANDS {
            return Err(format!(
                "{what} ({}) has {} operands, more than 8",
                def.name,
                def.operands.len()
            ));
        }
        // Any other mark is none: the decoder knows these two.
        let prefix = match def.prefix.as_deref() {
            Some("Wide") => 1,
            Some("ExtraWide") => 2,
            _ => 0,
        };
        let mut rest = vec![prefix, def.operands.len() as u8];
        for operand in &def.operands {
            // `types_of` has every operand's type; that it is below 64 is tested with the type records.
            rest.push(types.iter().position(|t| t == operand).unwrap_or(0) as u8);
        }
        rest.resize(50 - 40, 0);
        rest.extend(flow(&def.name));
        rest.resize(OPCODE - 40, 0);
        out.extend(rest);
    }
    Ok(out)
}

fn flow(name: &str) -> [u8; 4] {
    FLOWS.iter().find(|(known, _)| *known == name).map_or([0; 4], |(_, bytes)| *bytes)
}

fn type_records(table: &VersionTable, types: &[&str]) -> Result<Vec<u8>, String> {
    within("operand types", types.len(), 17, 64)?;
    let mut out = Vec::new();
    for ty in types {
        out.extend(name("operand type", ty, 28)?);
        // A type that the table lacks reads as size 1, scalable, as in the decoder.
        out.extend(match table.operand_types.get(*ty) {
            None => [0; 4],
            Some(OperandTypeInfo { size: size @ (1 | 2), scalable }) => {
                [*size as u8, *scalable as u8, 1, 0]
            }
            Some(OperandTypeInfo { size: 4, scalable: false }) => [4, 0, 1, 0],
            Some(OperandTypeInfo { size, scalable }) => {
                let scales = if *scalable { "scalable" } else { "fixed" };
                return Err(format!(
                    "operand type {ty} has size {size}, {scales}: no record says that"
                ));
            }
        });
    }
    Ok(out)
}

fn names(what: &str, names: &[String], most: usize) -> Result<Vec<u8>, String> {
    within(&format!("{what} names"), names.len(), 0, most)?;
    let mut out = Vec::new();
    for (k, n) in names.iter().enumerate() {
        out.extend(name(&format!("{what} {k}"), n, 64)?);
    }
    Ok(out)
}

/// A name field: letters, digits and underscores, then zeros.
fn name(what: &str, name: &str, width: usize) -> Result<Vec<u8>, String> {
    let good = |b: u8| b.is_ascii_alphanumeric() || b == b'_';
    if name.is_empty() || name.len() > width {
        let length = name.len();
        return Err(format!("{what}: the name {name:?} has {length} bytes, not 1 to {width}"));
    }
    if let Some(c) = name.chars().find(|c| !c.is_ascii() || !good(*c as u8)) {
        return Err(format!("{what}: the name {name:?} has the character {c:?}"));
    }
    let mut out = name.as_bytes().to_vec();
    out.resize(width, 0);
    Ok(out)
}

fn within(what: &str, count: usize, least: usize, most: usize) -> Result<(), String> {
    match (least..=most).contains(&count) {
        true => Ok(()),
        false => Err(format!("{count} {what}, not {least} to {most}")),
    }
}

/// Twenty values. What the table lacks is written as `render_sfi` and `FamilyLayout` take it then.
fn layout(table: &VersionTable) -> Result<Vec<u8>, String> {
    let ts = table.tagged_size;
    if ts != 4 && ts != 8 {
        return Err(format!("tagged size {ts}, not 4 or 8"));
    }
    let unit = table.capture_tagged_size;
    if ![0, 4, 8].contains(&unit) {
        return Err(format!("capture unit {unit}, not 0, 4 or 8"));
    }
    let array = table.bytecode_array.clone();
    let array = array.unwrap_or_else(|| BytecodeArrayLayout::fallback(ts as usize));
    let mut values = vec![ts as u32, unit as u32, offset("header_size", array.header_size)?];
    for field in FIELDS {
        // Slots come from the table alone: without a layout they are 2, 3 and 4, as for an absent value.
        let slot = FIELDS[..3].contains(&field);
        values.push(match array.off(field) {
            Some(at) if !(slot && table.bytecode_array.is_none()) => offset(field, at)?,
            _ => ABSENT,
        });
    }
    values.push(table.parameter_count.is_some_and(|c| c.direct) as u32);
    let frame = crate::bytecode::FamilyLayout::from_table(table);
    let base = frame.param_base.unwrap_or(0);
    let signed =
        [frame.reg_file_start, frame.context_index, frame.closure_index, frame.first_param, base];
    values.extend(signed.map(|v| v as u32));
    values.extend([frame.param_base.is_some() as u32, 0]);
    Ok(values.iter().flat_map(|v| v.to_le_bytes()).collect())
}

fn offset(field: &str, at: usize) -> Result<u32, String> {
    match at {
        0..=65_535 => Ok(at as u32),
        _ => Err(format!("offset {at} of {field} in the BytecodeArray is above 65535")),
    }
}

// ---- the store files of a function ----

/// objects, slots, payload of a BytecodeArray: object 0, and its constant pool as object 1. References to any other object are
/// "other references", which the listing reads alike; the payload holds the runs of these two objects alone.
pub fn function(
    cache: &CodeCache,
    table: &VersionTable,
    bytecode_array: ObjId,
) -> Result<[Vec<u8>; 3], String> {
    if cache.tagged_size() != table.tagged_size as usize {
        let (is, says) = (cache.tagged_size(), table.tagged_size);
        return Err(format!("the cache has tagged size {is}, the table {says}"));
    }
    if !cache.objects.get(bytecode_array).is_some_and(|o| o.ty.is(table, "BytecodeArray")) {
        return Err(format!("object {bytecode_array} is no BytecodeArray"));
    }
    let layout = crate::bytecode::FamilyLayout::from_table(table);
    let pool_slot = Disassembler::new(cache, table, layout).bca_constant_pool_slot();
    let pool = cache
        .slot_at(bytecode_array, pool_slot)
        .and_then(|v| v.as_ref())
        .and_then(|r| cache.ref_object(r));
    let mut numbers = BTreeMap::from([(bytecode_array, 0)]);
    if let Some(pool) = pool {
        if pool >= cache.objects.len() {
            return Err(format!("the constant pool is object {pool}, which is not there"));
        }
        let next = numbers.len() as u32;
        numbers.entry(pool).or_insert(next);
    }
    let mut store = Store { cache, numbers, slots: Vec::new(), payload: Vec::new() };
    let mut objects = store.object(table, bytecode_array, Some(pool_slot))?;
    if let Some(pool) = pool.filter(|pool| *pool != bytecode_array) {
        objects.extend(store.object(table, pool, None)?);
    }
    let files = [objects, store.slots, store.payload];
    for (body, name) in files.iter().zip(STORE_FILES) {
        if body.len() > MOST_FILE {
            return Err(format!("{name} would have {} bytes, more than {MOST_FILE}", body.len()));
        }
    }
    Ok(files)
}

struct Store<'a, 'c> {
    cache: &'a CodeCache<'c>,
    /// The objects that are exported, with their numbers.
    numbers: BTreeMap<ObjId, u32>,
    slots: Vec<u8>,
    payload: Vec<u8>,
}

/// A value's kind, number or offset, and length.
type Value = (u8, u32, u32);

impl Store<'_, '_> {
    /// The record of an object, whose slots go behind those that are there. `through` is a slot where jscd looks through a weak
    /// reference.
    fn object(
        &mut self,
        table: &VersionTable,
        id: ObjId,
        through: Option<usize>,
    ) -> Result<Vec<u8>, String> {
        let object = self.cache.obj(id);
        let kind = match () {
            _ if object.ty.is(table, "BytecodeArray") => 1,
            _ if object.ty.is(table, "ByteArray") => 2,
            _ => 0,
        };
        let first = self.slots.len() / 24;
        let mut last = 0;
        let mut looked = false;
        for slot in &object.slots {
            if slot.index < last {
                return Err(format!("object {id}: slot {} comes after slot {last}", slot.index));
            }
            last = slot.index;
            // `slot_at` takes the first of equal indices.
            let here = through == Some(slot.index) && !looked;
            looked |= here;
            self.slot(id, slot.index, &slot.value, here)?;
        }
        let size = u32::try_from(object.byte_size)
            .map_err(|_| format!("object {id} has {} bytes", object.byte_size))?;
        let mut out = vec![kind, object.raw_len as u8, 0, 0];
        for field in [first as u32, object.slots.len() as u32, size] {
            out.extend(field.to_le_bytes());
        }
        Ok(out)
    }

    fn slot(
        &mut self,
        id: ObjId,
        index: usize,
        value: &SlotValue,
        through: bool,
    ) -> Result<(), String> {
        if index > MOST_INDEX {
            return Err(format!("object {id}: slot {index} is above {MOST_INDEX}"));
        }
        let (kind, inner, (number, length), count) = match value {
            SlotValue::Repeat(count, inner) => {
                if *count > MOST_INDEX {
                    return Err(format!("object {id}: slot {index} is repeated {count} times"));
                }
                let (kind, number, length) = self.value(id, inner)?;
                (5, kind, (number, length), *count as u32)
            }
            SlotValue::WeakRef(_) if through => {
                let (kind, number, length) = self.seen_through(id, value)?;
                (kind, 0, (number, length), 0)
            }
            _ => {
                let (kind, number, length) = self.value(id, value)?;
                (kind, 0, (number, length), 0)
            }
        };
        self.slots.extend((index as u32).to_le_bytes());
        self.slots.extend([kind, inner, 0, 0]);
        for field in [number, length, count, 0] {
            self.slots.extend(field.to_le_bytes());
        }
        Ok(())
    }

    /// A value that is not repeated. Elements and runs are read past everything that is neither a reference nor a run, a weak
    /// reference too; so that is "other". A repeat in a repeat holds no element, as a repeat of "other" holds none.
    fn value(&mut self, id: ObjId, value: &SlotValue) -> Result<Value, String> {
        Ok(match value {
            SlotValue::Ref(r) => self.reference(*r),
            SlotValue::Raw(raw) => self.run(id, *raw)?,
            _ => (0, 0, 0),
        })
    }

    /// The pool behind a weak (or protected) pointer, which jscd finds, and which no element of the pool is read through: the two may
    /// not be one object.
    fn seen_through(&mut self, id: ObjId, value: &SlotValue) -> Result<Value, String> {
        match value.as_ref() {
            Some(Ref::Object(pool)) if pool == id => {
                Err(format!("object {id} is its own constant pool, by a weak reference: no record reads as that"))
            }
            Some(r @ Ref::Object(_)) => Ok(self.reference(r)),
            _ => Ok((0, 0, 0)),
        }
    }

    fn reference(&self, r: Ref) -> Value {
        match r {
            Ref::Object(to) => match self.numbers.get(&to) {
                Some(number) => (1, *number, 0),
                None => (3, 0, 0),
            },
            Ref::Root(_) => (2, 0, 0),
            Ref::RoRef(..) | Ref::Attached(_) => (3, 0, 0),
        }
    }

    /// A run goes behind the payload.
    fn run(&mut self, id: ObjId, raw: Raw) -> Result<Value, String> {
        let end = raw.off.checked_add(raw.len);
        let Some(bytes) = end.and_then(|end| self.cache.payload().get(raw.off..end)) else {
            let (off, len) = (raw.off, raw.len);
            return Err(format!(
                "object {id}: a run of {len} bytes at {off} is not in the payload"
            ));
        };
        let at = self.payload.len() as u32;
        self.payload.extend(bytes);
        Ok((4, at, bytes.len() as u32))
    }
}

// ---- handlers ----

/// Handler records as the walk check is lent them, 12 bytes each: start, end, handler offset.
#[derive(Debug, Clone, Default, PartialEq, Eq)]
pub struct Handlers {
    pub records: Vec<u8>,
    /// Entries that have no record: their start is their end, so that no offset lies in them, and number 25 would refuse them.
    pub empty: usize,
}

impl Handlers {
    /// How many records there are.
    pub fn count(&self) -> usize {
        self.records.len() / HANDLER_RECORD
    }
}

/// Bytes of a handler record, and of an entry in V8's table: start, end, handler offset above the prediction, data.
const HANDLER_RECORD: usize = 12;
const HANDLER_ENTRY: usize = 16;

/// The handler records of a function, in the order of V8's table, whose last entry that holds an offset is the one that counts.
pub fn handlers(
    cache: &CodeCache,
    table: &VersionTable,
    bytecode_array: ObjId,
) -> Result<Handlers, String> {
    let Some(id) = handler_table(cache, table, bytecode_array)? else {
        return Ok(Handlers::default());
    };
    let shift = prediction_bits(table)?;
    let bytes = byte_array(cache, table, id)?;
    if bytes.len() % HANDLER_ENTRY != 0 {
        let length = bytes.len();
        return Err(format!(
            "the handler table, object {id}, has {length} bytes: no whole entries"
        ));
    }
    let code = code_length(cache, table, bytecode_array);
    let mut out = Handlers::default();
    for (k, entry) in bytes.chunks_exact(HANDLER_ENTRY).enumerate() {
        let word = |k: usize| u32::from_le_bytes([0, 1, 2, 3].map(|b| entry[4 * k + b]));
        let (start, end, handler) = (word(0), word(1), word(2) >> shift);
        if start > end || end as usize > code {
            return Err(format!("handler {k} is from {start} to {end}, in {code} bytes of code"));
        }
        match start == end {
            true => out.empty += 1,
            false => out.records.extend([start, end, handler].iter().flat_map(|w| w.to_le_bytes())),
        }
    }
    match out.count() > MOST_HANDLERS {
        true => Err(format!("{} handlers, more than {MOST_HANDLERS}", out.count())),
        false => Ok(out),
    }
}

/// The object that holds a function's handler table; None where that is the root of the empty one.
fn handler_table(
    cache: &CodeCache,
    table: &VersionTable,
    bytecode_array: ObjId,
) -> Result<Option<ObjId>, String> {
    let layout = crate::bytecode::FamilyLayout::from_table(table);
    let slot = Disassembler::new(cache, table, layout).bca_handler_table_slot();
    // Equal roots in a row are one repeat: the source positions, which follow, may be the same empty array.
    let value = match cache.unit_at(bytecode_array, slot * cache.tagged_size()) {
        Some(SlotValue::Repeat(_, inner)) => inner.as_ref().as_ref(),
        value => value.and_then(|v| v.as_ref()),
    };
    match value {
        Some(Ref::Object(id)) if id < cache.objects.len() => Ok(Some(id)),
        // No root has entries. Which one is the empty table is known of the same versions as the entries.
        Some(Ref::Root(_)) if prediction_bits(table).is_err() => Ok(None),
        Some(Ref::Root(number)) => match table.root_name(number).unwrap_or("without a name") {
            "EmptyByteArray" => Ok(None),
            name => Err(format!("the handler table is root {number} ({name}), no empty ByteArray")),
        },
        _ => Err(format!("slot {slot} of object {bytecode_array} holds no handler table")),
    }
}

/// So many low bits of an entry's third word are V8's prediction of what happens to the exception. Known are the versions whose entries were
/// compared with what V8 prints of them.
fn prediction_bits(table: &VersionTable) -> Result<u32, String> {
    let mut numbers = table.v8.split('.');
    match (numbers.next(), numbers.next()) {
        (Some("10"), Some("2")) | (Some("11"), Some("3")) => Ok(3),
        _ => Err(format!("how V8 {} writes a handler table is not known here", table.v8)),
    }
}

/// What a ByteArray holds. It has one run behind its map: its length, a small integer, and its bytes.
fn byte_array<'c>(
    cache: &CodeCache<'c>,
    table: &VersionTable,
    id: ObjId,
) -> Result<&'c [u8], String> {
    if !cache.obj(id).ty.is(table, "ByteArray") {
        return Err(format!("the handler table, object {id}, is no ByteArray"));
    }
    let Some(SlotValue::Raw(Raw { off, len, .. })) = cache.slot_at(id, 1) else {
        return Err(format!("the handler table, object {id}, has no run behind its map"));
    };
    let ts = cache.tagged_size();
    let held = || {
        let run = cache.payload().get(*off..off.checked_add(*len)?)?;
        let length = crate::serializer::decode_smi_bytes(run.get(..ts)?)?;
        run.get(ts..)?.get(..usize::try_from(length).ok()?)
    };
    held().ok_or_else(|| format!("the handler table, object {id}, has no run of its length"))
}

/// The length of the code that `render_sfi` finds: 0 where no run holds it.
fn code_length(cache: &CodeCache, table: &VersionTable, id: ObjId) -> usize {
    let ts = cache.tagged_size();
    let array = table.bytecode_array.clone();
    let array = array.unwrap_or_else(|| BytecodeArrayLayout::fallback(ts));
    let at = |offset: usize| cache.bca_rt_off(table, ts, id, offset);
    let length = cache.raw_at(id, array.off("length").map_or(ts, at), ts);
    let length = length.and_then(crate::serializer::decode_smi_bytes);
    let length = length.and_then(|n| usize::try_from(n).ok()).filter(|n| *n <= MOST_CODE);
    length.filter(|n| cache.raw_at(id, at(array.header_size), *n).is_some()).unwrap_or(0)
}

// ---- all functions ----

/// The SharedFunctionInfos that have bytecode, each with its BytecodeArray, found as `render_all` finds them.
pub fn functions(cache: &CodeCache, table: &VersionTable) -> Vec<(ObjId, ObjId)> {
    let layout = crate::bytecode::FamilyLayout::from_table(table);
    let slots = Disassembler::new(cache, table, layout).sfi_function_data_slots();
    let bytecode = |id: ObjId| {
        slots.iter().find_map(|slot| match cache.slot_at(id, *slot) {
            Some(SlotValue::Ref(Ref::Object(b))) => {
                cache.objects.get(*b).filter(|o| o.ty.is(table, "BytecodeArray")).map(|_| *b)
            }
            _ => None,
        })
    };
    shared(cache, table).filter_map(|id| bytecode(id).map(|b| (id, b))).collect()
}

/// All SharedFunctionInfos.
fn shared<'a>(cache: &'a CodeCache, table: &'a VersionTable) -> impl Iterator<Item = ObjId> + 'a {
    (0..cache.objects.len()).filter(|id| cache.obj(*id).ty.is(table, "SharedFunctionInfo"))
}

/// The files of a function, and the name of its folder.
pub struct Function {
    pub folder: String,
    pub store: [Vec<u8>; 3],
    pub handlers: Handlers,
}

/// The files of a cache: those of the table, those of each function, the functions left out with the reason, and how many there are that V8 had
/// not compiled.
pub struct All {
    pub table: [Vec<u8>; 5],
    pub functions: Vec<Function>,
    pub refused: Vec<(String, String)>,
    pub without: usize,
}

/// A function that the records cannot hold is left out and said; a table that they cannot hold is an error.
pub fn all(
    cache: &CodeCache,
    table: &VersionTable,
    name_of: impl Fn(ObjId) -> String,
) -> Result<All, String> {
    let found = functions(cache, table);
    let without = shared(cache, table).count() - found.len();
    let mut all =
        All { table: self::table(table)?, functions: Vec::new(), refused: Vec::new(), without };
    for (id, bytecode_array) in found {
        let folder = folder_name(id, &name_of(id));
        let store = function(cache, table, bytecode_array);
        match store.and_then(|store| Ok((store, handlers(cache, table, bytecode_array)?))) {
            Ok((store, handlers)) => all.functions.push(Function { folder, store, handlers }),
            Err(message) => all.refused.push((folder, message)),
        }
    }
    Ok(all)
}

impl All {
    /// Writes `out/table` and a folder for each function, `prefix` before its name.
    pub fn write(&self, out: &Path, prefix: &str) -> Result<(), String> {
        put(&out.join("table"), TABLE_FILES.into_iter().zip(&self.table))?;
        for Function { folder, store, handlers } in &self.functions {
            let handlers = (HANDLERS_FILE, &handlers.records);
            let files = STORE_FILES.into_iter().zip(store).chain([handlers]);
            put(&out.join(format!("{prefix}{folder}")), files)?;
        }
        Ok(())
    }

    /// How many handler records the functions have, and how many entries of V8's tables have none.
    pub fn handlers(&self) -> (usize, usize) {
        let all = || self.functions.iter().map(|function| &function.handlers);
        (all().map(Handlers::count).sum(), all().map(|handlers| handlers.empty).sum())
    }
}

/// What `write_all` did: the folders written, those left out with the reason, the handler records, and the entries that have none.
#[derive(Debug, Default)]
pub struct Written {
    pub functions: Vec<String>,
    pub refused: Vec<(String, String)>,
    pub handlers: usize,
    pub empty_handlers: usize,
}

/// Writes `out/table` and a folder for each function, `out/NUMBER-NAME`. All files are made before the first is written.
pub fn write_all(
    cache: &CodeCache,
    table: &VersionTable,
    name_of: impl Fn(ObjId) -> String,
    out: &Path,
) -> Result<Written, String> {
    let all = all(cache, table, name_of)?;
    all.write(out, "")?;
    let (handlers, empty_handlers) = all.handlers();
    let functions = all.functions.into_iter().map(|function| function.folder).collect();
    Ok(Written { functions, refused: all.refused, handlers, empty_handlers })
}

/// The object's number, so that no two are the same, and what of the name a file name can hold.
fn folder_name(id: ObjId, name: &str) -> String {
    let kept = name.chars().filter(|c| c.is_ascii_alphanumeric() || *c == '_' || *c == '$');
    let kept: String = kept.take(60).collect();
    match kept.is_empty() {
        true => format!("{id:06}"),
        false => format!("{id:06}-{kept}"),
    }
}

fn put<'a>(
    folder: &Path,
    files: impl IntoIterator<Item = (&'a str, &'a Vec<u8>)>,
) -> Result<(), String> {
    let fail = |path: &Path, e: std::io::Error| format!("{}: {e}", path.display());
    std::fs::create_dir_all(folder).map_err(|e| fail(folder, e))?;
    for (name, body) in files {
        let path = folder.join(name);
        std::fs::write(&path, body).map_err(|e| fail(&path, e))?;
    }
    Ok(())
}
