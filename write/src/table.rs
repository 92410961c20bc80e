//! The record files of a table, as the export writes them, and the names in them.

use jscd_capi::{is_old, Files, Refusal, OLD_RECORDS, OPCODE_SIZE as OPCODE};
use std::path::Path;

pub const NAMES: [&str; 5] =
    ["opcodes.bin", "types.bin", "runtime.bin", "intrinsic.bin", "layout.bin"];

const TYPE: usize = 32;
const NAME: usize = 64;

/// The refusal of an object that is not there.
const NO_OBJECT: u8 = 8;

/// Type codes of lists, and of the count that stands behind them.
const LISTS: [u8; 2] = [6, 7];
const REG_COUNT: u8 = 8;

#[derive(Debug, Clone)]
pub struct Table {
    pub opcodes: Vec<u8>,
    pub types: Vec<u8>,
    pub runtime: Vec<u8>,
    pub intrinsic: Vec<u8>,
    pub layout: Vec<u8>,
}

impl Table {
    /// The five files of a folder; an error names the file. Opcode records of 64 bytes, of an older export, are told.
    pub fn read(folder: &Path) -> Result<Table, String> {
        let read = |name| {
            let path = folder.join(name);
            std::fs::read(&path).map_err(|e| format!("cannot read {}: {e}", path.display()))
        };
        let [opcodes, types, runtime, intrinsic, layout] = NAMES.map(read);
        let table = Table {
            opcodes: opcodes?,
            types: types?,
            runtime: runtime?,
            intrinsic: intrinsic?,
            layout: layout?,
        };
        if is_old(&table.opcodes, &table.types) {
            return Err(format!("{} {OLD_RECORDS}", folder.join(NAMES[0]).display()));
        }
        Ok(table)
    }

    /// Refusals 1 to 5 and 26. A listing makes these checks of all five files first; without any object it goes no further than 8.
    pub fn check(&self) -> Result<(), Refusal> {
        let Table { opcodes, types, runtime, intrinsic, layout } = self;
        let [objects, slots, payload] = [&[][..]; 3];
        let files = Files { opcodes, types, runtime, intrinsic, layout, objects, slots, payload };
        match jscd_capi::list(&files, 0, &mut []) {
            Err(refusal) if refusal.number != NO_OBJECT => Err(refusal),
            _ => Ok(()),
        }
    }

    /// The opcodes of a name, the lowest first.
    pub fn opcodes_named<'a>(&'a self, name: &'a str) -> impl Iterator<Item = u8> + 'a {
        let named = move |record: &[u8]| name_in(&record[..40]) == name;
        let numbered = self.opcodes.chunks_exact(OPCODE).enumerate();
        numbered.filter(move |(_, record)| named(record)).map(|(number, _)| number as u8)
    }

    pub fn opcode_name(&self, opcode: u8) -> Option<&str> {
        let record = self.opcodes.chunks_exact(OPCODE).nth(opcode.into())?;
        Some(name_in(&record[..40]))
    }

    /// The type codes that take an operand: a RegCount right behind a list takes none.
    pub fn operand_types(&self, opcode: u8) -> Vec<u8> {
        let record = &self.opcodes[OPCODE * opcode as usize..][..OPCODE];
        let codes = &record[42..42 + record[41] as usize];
        let counts = |k: usize| codes[k] == REG_COUNT && k > 0 && LISTS.contains(&codes[k - 1]);
        (0..codes.len()).filter(|k| !counts(*k)).map(|k| codes[k]).collect()
    }

    pub fn type_name(&self, code: u8) -> &str {
        name_in(&self.types[TYPE * code as usize..][..28])
    }

    /// A signed value of the layout.
    pub fn layout(&self, value: usize) -> i32 {
        i32::from_le_bytes(self.layout[4 * value..][..4].try_into().expect("four bytes"))
    }
}

/// The name of a runtime or intrinsic function, where it has a record.
pub fn function_name(file: &[u8], number: u32) -> Option<&str> {
    file.chunks_exact(NAME).nth(number as usize).map(name_in)
}

/// The lowest number of a function of that name.
pub fn function_named(file: &[u8], name: &str) -> Option<u32> {
    file.chunks_exact(NAME).position(|record| name_in(record) == name).map(|number| number as u32)
}

/// A name up to its first zero; a checked table has letters, digits and underscores there.
fn name_in(field: &[u8]) -> &str {
    let end = field.iter().position(|b| *b == 0).unwrap_or(field.len());
    std::str::from_utf8(&field[..end]).unwrap_or_default()
}
