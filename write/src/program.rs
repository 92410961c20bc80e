//! Lines in, bytes out; or what is wrong with which line.

use crate::lines::{self, Line, Text};
use crate::operands::Reading;
use crate::registers::Registers;
use crate::table::Table;
use jscd_capi::{Instr, Operand, Refusal};
use std::fmt;

/// Longer than any instruction.
const ROOM: usize = 256;

/// What is wrong with a line.
#[derive(Debug, PartialEq)]
pub struct Fault {
    /// From 1 on.
    pub number: usize,
    pub line: String,
    pub why: String,
}

impl fmt::Display for Fault {
    fn fmt(&self, f: &mut fmt::Formatter) -> fmt::Result {
        write!(f, "line {}: {}: {}", self.number, self.line.trim(), self.why)
    }
}

/// The bytes of each instruction line, or every fault. `parameters` holds until a header line says another number.
pub fn written(
    table: &Table,
    mut parameters: Option<i32>,
    text: &str,
) -> Result<Vec<Vec<u8>>, Vec<Fault>> {
    let (mut out, mut faults) = (Vec::new(), Vec::new());
    let is_name = |name: &str| table.opcodes_named(name).next().is_some();
    for (k, line) in text.lines().enumerate() {
        let said = lines::parse(line, is_name).and_then(|parsed| match parsed {
            Line::Blank => Ok(()),
            Line::Parameters(count) => {
                parameters = Some(count);
                Ok(())
            }
            Line::Instruction(text) => {
                out.push(instruction(table, parameters, &text)?);
                Ok(())
            }
        });
        if let Err(why) = said {
            faults.push(Fault { number: k + 1, line: line.into(), why });
        }
    }
    match faults.is_empty() {
        true => Ok(out),
        false => Err(faults),
    }
}

/// The bytes of one instruction. Bytes that its line carries decide what the text leaves open, and are tested.
fn instruction(table: &Table, parameters: Option<i32>, text: &Text) -> Result<Vec<u8>, String> {
    let reading = Reading { table, registers: Registers::new(table, parameters) };
    let carried = text.bytes.as_ref().and_then(|bytes| decoded(table, bytes));
    let instr = read(&reading, text, carried.as_ref())?;
    let bytes = write(table, &instr).map_err(|refusal| told(table, &instr, refusal))?;
    match &text.bytes {
        Some(carried) if *carried != bytes => {
            Err(format!("the line has the bytes {}, and its text is {}", hex(carried), hex(&bytes)))
        }
        _ => Ok(bytes),
    }
}

/// The instruction that bytes are, where they are just one.
fn decoded(table: &Table, bytes: &[u8]) -> Option<Instr> {
    let Table { opcodes, types, layout, .. } = table;
    let instr = jscd_capi::decode(opcodes, types, layout, bytes, 0).ok()??;
    (instr.end == bytes.len()).then_some(instr)
}

/// The numbers that a text stands for.
fn read(reading: &Reading, text: &Text, carried: Option<&Instr>) -> Result<Instr, String> {
    let (table, name) = (reading.table, text.name);
    let same_name = |instr: &&Instr| table.opcode_name(instr.opcode) == Some(name);
    let carried = carried.filter(|instr| instr.scale == text.scale).filter(same_name);
    let opcode = carried.map(|instr| instr.opcode).or_else(|| table.opcodes_named(name).next());
    let opcode = opcode.ok_or_else(|| format!("no opcode is named {name}"))?;
    let types = table.operand_types(opcode);
    let (wanted, given) = (types.len(), text.operands.len());
    if wanted != given {
        return Err(format!("of operands {name} has {wanted}, and {given} stand there"));
    }
    let mut operands = Vec::new();
    for (k, (code, text)) in types.into_iter().zip(&text.operands).enumerate() {
        let here = carried.and_then(|instr| instr.operands.get(k));
        operands.push(
            operand(reading, code, text, here).map_err(|e| format!("operand {}: {e}", k + 1))?,
        );
    }
    Ok(Instr { offset: 0, opcode, scale: text.scale, end: 0, operands })
}

/// The operand that the line's bytes have, where it is printed so; else what the text stands for.
fn operand(
    reading: &Reading,
    code: u8,
    text: &str,
    carried: Option<&Operand>,
) -> Result<Operand, String> {
    match carried {
        Some(operand) if reading.text(operand).as_deref() == Some(text) => Ok(*operand),
        _ => reading.operand(code, text),
    }
}

fn write(table: &Table, instr: &Instr) -> Result<Vec<u8>, Refusal> {
    let mut out = [0; ROOM];
    let Table { opcodes, types, layout, .. } = table;
    let length = jscd_capi::write(opcodes, types, layout, instr, &mut out)?;
    Ok(out[..length].to_vec())
}

/// A refusal in words; where an operand is too large, the prefix with which it would fit.
fn told(table: &Table, instr: &Instr, refusal: Refusal) -> String {
    let number = refusal.number;
    let words = meaning(number);
    let wider = [(2, ".Wide"), (4, ".ExtraWide")].into_iter().find(|(scale, _)| {
        let instr = Instr { scale: *scale, ..instr.clone() };
        number == 23 && write(table, &instr).is_ok()
    });
    match wider {
        Some((_, suffix)) => format!("refused {number}: {words}; with {suffix} it would"),
        None => format!("refused {number}: {words}"),
    }
}

/// What a refusal of a table or of an instruction means.
pub fn meaning(number: u8) -> &'static str {
    match number {
        1 => "a file is not whole records, or has too few or too many",
        2 => "a record's name is malformed",
        3 => "an opcode record is bad",
        4 => "a type record is bad",
        5 => "a layout value is out of its range",
        17 => "the instruction is too long",
        21 => "the table has no opcode for that prefix",
        22 => "a prefix cannot stand alone",
        23 => "an operand does not fit: at its width it would not read back as it is",
        26 => "an opcode record's bytes 50 to 53, which say what the opcode does, are out of range",
        _ => "no reason is known",
    }
}

/// Bytes as a listing has them.
pub fn hex(bytes: &[u8]) -> String {
    bytes.iter().map(|byte| format!("{byte:02x}")).collect::<Vec<_>>().join(" ")
}
