//! The Rust's decoder, with its errors as document 01's numbers 11 to 15.

use crate::checks::{self, Refusal};
use crate::port::{Port, NOT_BY_NAME};
use jscd::bytecode::Instr;

/// The longest instruction: prefix, opcode, eight lists of 8 bytes and a count of 8.
const LONGEST: usize = 2 + 8 * 16;

/// All instructions of the code.
pub fn all(port: &Port, code: &[u8]) -> Result<Vec<Instr>, Refusal> {
    let mut listed = port.decoder(0).decode(code).map_err(|e| refusal(&e, code.len(), 0))?;
    listed.iter_mut().for_each(|ins| own_name(port, ins));
    Ok(listed)
}

/// The name as it is in the record.
fn own_name(port: &Port, ins: &mut Instr) {
    if !port.flow(ins).named {
        ins.name.retain(|c| c != NOT_BY_NAME);
    }
}

/// The instruction at a place, which is not beyond the end; None at the end.
///
/// The Rust decodes whole code, so this takes the shortest part that it decodes as one instruction.
pub fn one(port: &Port, code: &[u8], place: usize) -> Result<Option<Instr>, Refusal> {
    if place == code.len() {
        return Ok(None);
    }
    let decoder = port.decoder(0);
    for end in place + 1..=code.len().min(place + LONGEST) {
        if let Ok(mut list) = decoder.decode(&code[place..end]) {
            assert_eq!(list.len(), 1);
            let mut ins = list.remove(0);
            ins.offset = place;
            own_name(port, &mut ins);
            return Ok(Some(ins));
        }
    }
    match decoder.decode(&code[place..]) {
        Err(e) => Err(refusal(&e, code.len(), place)),
        Ok(_) => unreachable!("no instruction is longer than {LONGEST} bytes"),
    }
}

/// The plain name: names hold no dot, so what is behind one is `Wide` or `ExtraWide`.
pub fn plain(ins: &Instr) -> &str {
    ins.name.split('.').next().unwrap_or_default()
}

/// The checks of lent code and a start place, and then the instruction there.
pub fn checked(port: &Port, code: &[u8], place: u64) -> Result<Option<Instr>, Refusal> {
    checks::lent_code(code)?;
    one(port, code, checks::start(code, place)?)
}

/// `begin` is where the decoded part begins in code of this length.
/// The Rust gives no place for a prefix at the end: it is the last byte.
fn refusal(error: &str, length: usize, begin: usize) -> Refusal {
    let told = error.rsplit_once(" at ").and_then(|(_, n)| n.parse::<usize>().ok());
    let (number, place) = match told {
        None if error == "truncated Wide prefix" => (11, length - 1),
        None if error == "truncated ExtraWide prefix" => (12, length - 1),
        Some(n) if error.starts_with("opcode ") => (13, begin + n),
        Some(n) if error.starts_with("truncated operand ") => (14, begin + n),
        Some(n) if error.starts_with("truncated RegCount of ") => (15, begin + n),
        _ => panic!("unknown error of the decoder: {error}"),
    };
    Refusal { number, place: place as u64 }
}

#[cfg(test)]
mod tests {
    use super::*;
    use crate::checks::refuse;
    use crate::port::TABLE;
    use crate::records::*;
    use crate::sample;

    fn refused(files: &Files, code: &[u8], place: u64) -> Refusal {
        let port = Port::new(files, TABLE).unwrap();
        checked(&port, code, place).unwrap_err()
    }

    #[test]
    fn every_number() {
        let files = sample::table();
        for (code, place, number, at) in [
            (&[0x02, 0x00][..], 1, 11, 1),
            (&[0x02, 0x01], 1, 12, 1),
            (&[0x02, 0x00, 0x0c], 1, 13, 1),
            (&[0x02, 0x03], 1, 14, 2),
            (&[0x02, 0x01, 0x03, 1, 2, 3], 1, 14, 3),
            (&[0x02, 0x0a, 5, 0, 0xfa], 1, 15, 5),
            (&[0x02], 2, 20, 2),
        ] {
            let wanted = refuse::<()>(number, at).unwrap_err();
            assert_eq!(refused(&files, code, place), wanted, "{code:02x?}");
        }
    }

    #[test]
    fn a_count_as_an_operand_is_14() {
        let mut files = sample::table();
        files.body[OPCODES].extend(opcode_record("Counted", 0, &[8]));
        assert_eq!(refused(&files, &[0x0c], 0), refuse::<()>(14, 1).unwrap_err());
    }

    #[test]
    fn an_instruction_within_code() {
        let files = sample::table();
        let port = Port::new(&files, TABLE).unwrap();
        let ins = one(&port, &[0x02, 0x00, 0x03, 0x80, 0x01, 0x0b], 1).unwrap().unwrap();
        assert_eq!((ins.offset, ins.bytes.len(), ins.scale), (1, 4, 2));
        assert!(one(&port, &[0x02], 1).unwrap().is_none());
    }
}
