//! Document 01's eight record files, with document 02's opcode records: reading them, writing them, and their fields.

use crate::flows;
use std::path::Path;

pub const OPCODES: usize = 0;
pub const TYPES: usize = 1;
pub const RUNTIME: usize = 2;
pub const INTRINSIC: usize = 3;
pub const LAYOUT: usize = 4;
pub const OBJECTS: usize = 5;
pub const SLOTS: usize = 6;
pub const PAYLOAD: usize = 7;

pub const NAMES: [&str; 8] = [
    "opcodes.bin",
    "types.bin",
    "runtime.bin",
    "intrinsic.bin",
    "layout.bin",
    "objects.bin",
    "slots.bin",
    "payload.bin",
];

/// Bytes of an opcode record (document 02's Wish 6), and of one before (document 01).
pub const OPCODE_SIZE: usize = 72;
pub const OLD_OPCODE_SIZE: usize = 64;

/// Bytes of a record in each file.
pub const SIZES: [usize; 8] = [OPCODE_SIZE, 32, 64, 64, 80, 16, 24, 1];

/// A layout value that is not there.
pub const ABSENT: u32 = u32::MAX;

/// The names of type records 0 to 16.
pub const TYPE_NAMES: [&str; 17] = [
    "Reg",
    "RegOut",
    "RegInOut",
    "RegPair",
    "RegOutPair",
    "RegOutTriple",
    "RegList",
    "RegOutList",
    "RegCount",
    "Imm",
    "Idx",
    "UImm",
    "NativeContextIndex",
    "Flag8",
    "Flag16",
    "RuntimeId",
    "IntrinsicId",
];

#[derive(Debug, Clone, Default, PartialEq)]
pub struct Files {
    pub body: [Vec<u8>; 8],
}

impl Files {
    pub fn read(folder: &Path) -> Result<Files, String> {
        let mut files = Files::default();
        for (body, name) in files.body.iter_mut().zip(NAMES) {
            let path = folder.join(name);
            *body = std::fs::read(&path).map_err(|e| format!("{}: {e}", path.display()))?;
        }
        Ok(files)
    }

    pub fn write(&self, folder: &Path) -> Result<(), String> {
        std::fs::create_dir_all(folder).map_err(|e| format!("{}: {e}", folder.display()))?;
        for (body, name) in self.body.iter().zip(NAMES) {
            let path = folder.join(name);
            std::fs::write(&path, body).map_err(|e| format!("{}: {e}", path.display()))?;
        }
        Ok(())
    }

    /// How many whole records a file holds.
    pub fn count(&self, file: usize) -> usize {
        self.body[file].len() / SIZES[file]
    }

    pub fn record(&self, file: usize, number: usize) -> &[u8] {
        &self.body[file][number * SIZES[file]..][..SIZES[file]]
    }

    pub fn all(&self, file: usize) -> impl Iterator<Item = &[u8]> {
        self.body[file].chunks_exact(SIZES[file])
    }

    pub fn layout(&self, value: usize) -> u32 {
        u32_at(&self.body[LAYOUT], 4 * value)
    }
}

pub fn u32_at(bytes: &[u8], at: usize) -> u32 {
    u32::from_le_bytes(bytes[at..at + 4].try_into().unwrap())
}

/// A name field up to its first zero.
pub fn name(field: &[u8]) -> String {
    let end = field.iter().position(|b| *b == 0).unwrap_or(field.len());
    String::from_utf8_lossy(&field[..end]).into_owned()
}

/// Fields of an opcode record, or of one before Wish 6, which has no flow.
pub struct Opcode<'a>(pub &'a [u8]);

impl<'a> Opcode<'a> {
    pub fn name(&self) -> &'a [u8] {
        &self.0[..40]
    }
    pub fn prefix(&self) -> u8 {
        self.0[40]
    }
    pub fn operands(&self) -> usize {
        self.0[41] as usize
    }
    pub fn codes(&self) -> &'a [u8] {
        &self.0[42..50]
    }
    /// Bytes 50 to 53.
    pub fn flow(&self) -> Option<[u8; 4]> {
        (self.0.len() == OPCODE_SIZE).then(|| self.0[FLOW..FLOW + 4].try_into().unwrap())
    }
    /// The zeros.
    pub fn rest(&self) -> &'a [u8] {
        &self.0[if self.flow().is_some() { FLOW + 4 } else { FLOW }..]
    }
}

/// Where the flow stands in an opcode record.
pub const FLOW: usize = 50;

/// Fields of a type record.
pub struct Type<'a>(pub &'a [u8]);

impl<'a> Type<'a> {
    pub fn name(&self) -> &'a [u8] {
        &self.0[..28]
    }
    pub fn size(&self) -> u8 {
        self.0[28]
    }
    pub fn scalable(&self) -> u8 {
        self.0[29]
    }
    pub fn present(&self) -> u8 {
        self.0[30]
    }
    pub fn rest(&self) -> u8 {
        self.0[31]
    }
}

/// Fields of an object record.
#[derive(Debug, Clone, Copy, Default)]
pub struct Object {
    pub kind: u8,
    pub raw_len: u8,
    pub first: u32,
    pub count: u32,
    pub byte_size: u32,
}

impl Object {
    pub fn read(record: &[u8]) -> Object {
        Object {
            kind: record[0],
            raw_len: record[1],
            first: u32_at(record, 4),
            count: u32_at(record, 8),
            byte_size: u32_at(record, 12),
        }
    }

    pub fn bytes(&self) -> Vec<u8> {
        let mut out = vec![self.kind, self.raw_len, 0, 0];
        for field in [self.first, self.count, self.byte_size] {
            out.extend(field.to_le_bytes());
        }
        out
    }
}

/// Fields of a slot record; `number` is an object number or a payload offset.
#[derive(Debug, Clone, Copy, Default)]
pub struct Slot {
    pub index: u32,
    pub kind: u8,
    pub inner: u8,
    pub number: u32,
    pub length: u32,
    pub count: u32,
}

impl Slot {
    pub fn read(record: &[u8]) -> Slot {
        Slot {
            index: u32_at(record, 0),
            kind: record[4],
            inner: record[5],
            number: u32_at(record, 8),
            length: u32_at(record, 12),
            count: u32_at(record, 16),
        }
    }

    pub fn bytes(&self) -> Vec<u8> {
        let mut out = self.index.to_le_bytes().to_vec();
        out.extend([self.kind, self.inner, 0, 0]);
        for field in [self.number, self.length, self.count, 0] {
            out.extend(field.to_le_bytes());
        }
        out
    }
}

fn padded(name: &str, width: usize) -> Vec<u8> {
    let mut out = name.as_bytes().to_vec();
    out.resize(width, 0);
    out
}

/// An opcode record with the flow of its name.
pub fn opcode_record(name: &str, prefix: u8, codes: &[u8]) -> Vec<u8> {
    flow_record(name, prefix, codes, flows::of_name(name))
}

/// An opcode record with this flow.
pub fn flow_record(name: &str, prefix: u8, codes: &[u8], flow: [u8; 4]) -> Vec<u8> {
    let mut out = padded(name, 40);
    out.extend([prefix, codes.len() as u8]);
    out.extend(codes);
    out.resize(FLOW, 0);
    out.extend(flow);
    out.resize(OPCODE_SIZE, 0);
    out
}

/// A type record that is present.
pub fn type_record(name: &str, size: u8, scalable: bool) -> Vec<u8> {
    let mut out = padded(name, 28);
    out.extend([size, scalable as u8, 1, 0]);
    out
}

pub fn name_record(name: &str) -> Vec<u8> {
    padded(name, 64)
}

pub fn layout_record(values: &[i64; 20]) -> Vec<u8> {
    values.iter().flat_map(|v| (*v as u32).to_le_bytes()).collect()
}
