//! Record files as the Rust's own structures.

use crate::flows::Flow;
use crate::records::*;
use jscd::bytecode::{Decoder, FamilyLayout, Instr};
use jscd::disasm::Disassembler;
use jscd::header::HeaderLayout;
use jscd::serializer as ser;
use jscd::tables::*;
use std::collections::HashMap;

/// Files 0 to 4 and files 5 to 7, as sets of bits.
pub const TABLE: u8 = 0b0001_1111;
pub const STORE: u8 = 0b1110_0000;

pub fn bit(file: usize) -> u8 {
    1 << file
}

/// Stands behind the name of an opcode whose flow is not that of its name: the Rust goes by names, and is to find no flow there.
pub const NOT_BY_NAME: char = '!';

pub struct Port<'a> {
    pub table: VersionTable,
    pub cache: ser::CodeCache<'a>,
    objects: usize,
    /// By opcode.
    flows: Vec<Flow>,
}

impl<'a> Port<'a> {
    /// The files in `lent` have passed the checks. The others count as empty; tagged size is then 8.
    /// An error means that the Rust's structures cannot hold what the records say.
    pub fn new(files: &'a Files, lent: u8) -> Result<Port<'a>, String> {
        Port::of_function(files, lent, 0)
    }

    /// The same where every byte is an instruction of its own, so that the Rust writes the header of a function
    /// whatever its code is. No opcodes are lent.
    pub fn of_any_code(files: &'a Files, lent: u8, function: usize) -> Port<'a> {
        let mut port = Port::of_function(files, lent, function).expect("no types are lent");
        let any = |k| BytecodeDef {
            name: format!("Any{k}"),
            operands: Vec::new(),
            prefix: None,
            acc: String::new(),
        };
        port.table.bytecodes = (0..256).map(any).collect();
        port
    }

    /// The added SharedFunctionInfo is that of an object.
    fn of_function(files: &'a Files, lent: u8, function: usize) -> Result<Port<'a>, String> {
        let has = |file| lent & bit(file) != 0;
        let mut table = empty_table();
        let mut flows = Vec::new();
        if has(LAYOUT) {
            set_layout(&mut table, files);
        }
        if has(OPCODES) {
            table.operand_types = operand_types(files)?;
            table.bytecodes = files.all(OPCODES).map(|r| bytecode(files, Opcode(r))).collect();
            flows = files.all(OPCODES).map(|r| Flow::of(&Opcode(r))).collect();
        }
        for (file, names) in
            [(RUNTIME, &mut table.runtime_names), (INTRINSIC, &mut table.intrinsic_names)]
        {
            if has(file) {
                *names = files.all(file).map(name).collect();
            }
        }
        let mut objects = Vec::new();
        let mut payload: &[u8] = &[];
        if lent & STORE == STORE {
            objects.extend(files.all(OBJECTS).map(|r| object(files, Object::read(r))));
            payload = &files.body[PAYLOAD];
        }
        let count = objects.len();
        objects.extend(added(function));
        let cache = ser::CodeCache::open_new(payload, table.tagged_size as usize, objects);
        Ok(Port { table, cache, objects: count, flows })
    }

    /// The same table with the store of other files, which have passed the checks.
    pub fn with_store<'b>(self, files: &'b Files) -> Port<'b> {
        let mut objects: Vec<_> =
            files.all(OBJECTS).map(|r| object(files, Object::read(r))).collect();
        let count = objects.len();
        objects.extend(added(0));
        let ts = self.table.tagged_size as usize;
        let cache = ser::CodeCache::open_new(&files.body[PAYLOAD], ts, objects);
        Port { table: self.table, cache, objects: count, flows: self.flows }
    }

    /// What an instruction does, by its opcode's record.
    pub fn flow(&self, ins: &Instr) -> Flow {
        self.flows[ins.opcode as usize]
    }

    pub fn layout(&self) -> FamilyLayout {
        FamilyLayout::from_table(&self.table)
    }

    pub fn disassembler(&self) -> Disassembler<'_> {
        Disassembler::new(&self.cache, &self.table, self.layout())
    }

    pub fn decoder(&self, parameter_count: i32) -> Decoder<'_> {
        Decoder::new(&self.table, self.layout(), parameter_count)
    }

    /// The added SharedFunctionInfo.
    pub fn shared_function_info(&self) -> usize {
        self.objects
    }

    /// The added object that has no slots, and so no pool.
    pub fn without_pool(&self) -> usize {
        self.objects + 1
    }

    /// The pool of a function, found as the Rust finds it.
    pub fn pool(&self, function: usize) -> Option<usize> {
        self.cache
            .slot_at(function, self.disassembler().bca_constant_pool_slot())
            .and_then(|v| v.as_ref())
            .and_then(|r| self.cache.ref_object(r))
    }

    /// Offset of a part that the Rust lent back, within the payload.
    pub fn place(&self, part: &[u8]) -> u64 {
        (part.as_ptr() as usize - self.cache.payload().as_ptr() as usize) as u64
    }

    /// The code length of a function, as `render_sfi` reads it: 0 where there is none.
    pub fn code_length(&self, function: usize) -> i64 {
        self.length_field(function).unwrap_or(0)
    }

    /// Its code length field, where that is found.
    pub fn length_field(&self, function: usize) -> Option<i64> {
        let ts = self.table.tagged_size as usize;
        let layout = self.table.bytecode_array.as_ref().unwrap();
        let at = layout
            .off("length")
            .map(|o| self.cache.bca_rt_off(&self.table, ts, function, o))
            .unwrap_or(ts);
        self.cache.raw_at(function, at, ts).and_then(ser::decode_smi_bytes)
    }

    /// The code of a function, as `render_sfi` reads it; its length field is known to be good.
    pub fn code(&self, function: usize) -> &'a [u8] {
        self.code_part(function).unwrap_or_default()
    }

    /// The same, where the payload holds it.
    pub fn code_part(&self, function: usize) -> Option<&'a [u8]> {
        let ts = self.table.tagged_size as usize;
        let header = self.table.bytecode_array.as_ref().unwrap().header_size;
        let at = self.cache.bca_rt_off(&self.table, ts, function, header);
        self.cache.raw_at(function, at, self.code_length(function) as usize)
    }
}

fn empty_table() -> VersionTable {
    VersionTable {
        v8: String::new(),
        source_tag: String::new(),
        header: HeaderLayout::default(),
        hash: HashCfg { algorithm: String::new() },
        tagged_size: 8,
        capture_tagged_size: 0,
        bytecodes: Vec::new(),
        operand_types: HashMap::new(),
        roots: Vec::new(),
        roots_shift: 0,
        runtime_names: Vec::new(),
        intrinsic_names: Vec::new(),
        bytecode_array: None,
        frame: None,
        shared_function_info: None,
        scope_info: None,
        parameter_count: None,
        min_context_slots: 2,
        string_length_smi: false,
        string_length_offset: None,
        var_raw_advances: true,
        string_chars_offset: None,
        serialization: SerializationCfg::default(),
    }
}

/// Names of layout values 3 to 11.
const FIELDS: [&str; 9] = [
    "constant_pool",
    "handler_table",
    "source_position_table",
    "length",
    "frame_size",
    "parameter_size",
    "osr_loop_nesting_level",
    "osr_urgency_and_install_target",
    "bytecode_age",
];

fn set_layout(table: &mut VersionTable, files: &Files) {
    let signed = |value| files.layout(value) as i32;
    let mut fields = HashMap::new();
    for (k, field) in FIELDS.iter().enumerate() {
        let value = files.layout(3 + k);
        if value != ABSENT {
            fields.insert(field.to_string(), value as usize);
        }
    }
    table.tagged_size = files.layout(0) as u8;
    table.capture_tagged_size = files.layout(1) as usize;
    table.bytecode_array =
        Some(BytecodeArrayLayout { header_size: files.layout(2) as usize, fields });
    table.parameter_count = Some(ParameterCountCfg { direct: files.layout(12) == 1 });
    table.frame = Some(FrameLayout {
        reg_file_start: signed(13),
        context_index: signed(14),
        closure_index: signed(15),
        first_param: Some(signed(16)),
        last_param: None,
        param_base: (files.layout(18) == 1).then(|| signed(17)),
    });
}

/// The Rust looks a type up by its name: two records of one name must read alike.
fn operand_types(files: &Files) -> Result<HashMap<String, OperandTypeInfo>, String> {
    let mut seen: HashMap<String, (u32, bool)> = HashMap::new();
    let mut out = HashMap::new();
    for record in files.all(TYPES).map(Type) {
        let key = name(record.name());
        let present = record.present() == 1;
        let (size, scalable) = match present {
            true => (record.size() as u32, record.scalable() == 1),
            false => (1, true),
        };
        if *seen.entry(key.clone()).or_insert((size, scalable)) != (size, scalable) {
            return Err(format!("not comparable: types named {key} differ in size"));
        }
        if present {
            out.insert(key, OperandTypeInfo { size, scalable });
        }
    }
    Ok(out)
}

fn bytecode(files: &Files, record: Opcode) -> BytecodeDef {
    let codes = &record.codes()[..record.operands()];
    let mut name_given = name(record.name());
    if !Flow::of(&record).named {
        name_given.push(NOT_BY_NAME);
    }
    BytecodeDef {
        name: name_given,
        operands: codes
            .iter()
            .map(|c| name(Type(files.record(TYPES, *c as usize)).name()))
            .collect(),
        prefix: match record.prefix() {
            1 => Some("Wide".into()),
            2 => Some("ExtraWide".into()),
            _ => None,
        },
        acc: String::new(),
    }
}

fn object(files: &Files, record: Object) -> ser::Object {
    let slots = (0..record.count)
        .map(|k| slot(Slot::read(files.record(SLOTS, (record.first + k) as usize))));
    ser::Object {
        ty: match record.kind {
            1 => ser::Ty::Structural("BytecodeArray"),
            2 => ser::Ty::Structural("ByteArray"),
            _ => ser::Ty::Unknown,
        },
        byte_size: record.byte_size as usize,
        start_offset: 0,
        slots: slots.collect(),
        raw_len: record.raw_len == 1,
    }
}

pub fn slot(slot: Slot) -> ser::Slot {
    ser::Slot { index: slot.index as usize, value: slot_value(slot, slot.kind) }
}

fn slot_value(slot: Slot, kind: u8) -> ser::SlotValue {
    match kind {
        1 => ser::SlotValue::Ref(ser::Ref::Object(slot.number as usize)),
        2 => ser::SlotValue::Ref(ser::Ref::Root(0)),
        3 => ser::SlotValue::Ref(ser::Ref::Attached(0)),
        4 => ser::SlotValue::Raw(ser::Raw {
            off: slot.number as usize,
            len: slot.length as usize,
            advances: true,
        }),
        5 => ser::SlotValue::Repeat(slot.count as usize, Box::new(slot_value(slot, slot.inner))),
        _ => ser::SlotValue::ClearedWeak,
    }
}

/// Two objects behind those of the files: the SharedFunctionInfo of an object, and one without slots.
fn added(function: usize) -> [ser::Object; 2] {
    let object =
        |ty, slots| ser::Object { ty, byte_size: 0, start_offset: 0, slots, raw_len: false };
    let function_data =
        ser::Slot { index: 1, value: ser::SlotValue::Ref(ser::Ref::Object(function)) };
    [
        object(ser::Ty::Structural("SharedFunctionInfo"), vec![function_data]),
        object(ser::Ty::Unknown, Vec::new()),
    ]
}
