//! Every P row and every other row of document 01, as the Rust answers it.

use crate::ask::*;
use crate::checks;
use crate::decode;
use crate::port::{Port, STORE, TABLE};
use crate::records::Files;
use crate::sample;
use crate::vectors::Writer;

/// What document 01 says of a row, in its words, and how the Rust is asked for the same.
enum Says {
    /// The whole listing of the sample.
    Listing,
    /// No instruction is decoded.
    NoInstruction,
    /// The first instruction's operands.
    Operands(&'static str),
    /// The first instruction's name and operands.
    Line(&'static str),
    /// Number and place.
    Refused(&'static str),
    Target(&'static str),
    Entries(&'static str),
    Parameters(&'static str),
    /// The Rust has no walk check: the row comes from document 01.
    Walk(&'static str),
}

struct Row {
    name: &'static str,
    code: &'static [u8],
    parameter_size: i32,
    pool: &'static [Option<i32>],
    says: Says,
}

const fn row(name: &'static str, code: &'static [u8], says: Says) -> Row {
    Row { name, code, parameter_size: 8, pool: &[], says }
}

const fn switch(says: Says) -> Row {
    let code = &[0x09, 0x00, 0x02, 0x05, 0x0b];
    Row { name: "other", code, parameter_size: 8, pool: &[Some(4), None], says }
}

const SAMPLE_CODE: &[u8] = &[0x03, 0x05, 0x04, 0xfa, 0x0b];

const ROWS: [Row; 19] = [
    row("sample", SAMPLE_CODE, Says::Listing),
    row("P1", &[], Says::NoInstruction),
    row("P2", &[0x03, 0xff], Says::Operands("[-1]")),
    row("P3", &[0x00, 0x03, 0x80, 0x01], Says::Line("LdaSmi.Wide [384]")),
    row("P4", &[0x01, 0x03, 0x00, 0x00, 0x00, 0x80], Says::Operands("[-2147483648]")),
    row("P5", &[0x02, 0x01], Says::Refused("12 at 1")),
    row("P6", &[0x00, 0x0c], Says::Refused("13 at 0")),
    row("P7", &[0x0a, 0x05, 0x00, 0xfa, 0x02], Says::Operands("[5], r0-r1")),
    row("P8", &[0x0a, 0x05, 0x00, 0xfa], Says::Refused("15 at 4")),
    row("P9", &[0x07, 0x03, 0x00], Says::Target("18446744073709551613")),
    row("P10", &[0x05, 0x01], Says::Walk("leaves steps 1 from 0")),
    row("P11", &[0x00, 0x05, 0x03, 0x00, 0x02], Says::Walk("leaves steps 2 from 4")),
    row("P12", &[0x06, 0x02, 0x0b], Says::Walk("closed")),
    row("other", &[0x03], Says::Refused("14 at 1")),
    row("other", &[0x05, 0x00], Says::Walk("closed")),
    row("other", &[0x06, 0x03, 0x0b], Says::Walk("leaves steps 1 from 0")),
    switch(Says::Entries("{ 5: @4 }")),
    switch(Says::Walk("closed")),
    Row { parameter_size: -9, ..row("other", &[0x0b], Says::Parameters("Parameter count -1")) },
];

impl Row {
    fn files(&self) -> Files {
        match self.says {
            Says::Listing => sample::sample(),
            _ => sample::function(self.code, self.parameter_size, self.pool),
        }
    }

    /// What document 01 says.
    fn wanted(&self) -> &'static str {
        match self.says {
            Says::Listing => sample::LISTING,
            Says::NoInstruction => "no instruction",
            Says::Operands(s) | Says::Line(s) | Says::Refused(s) | Says::Target(s) => s,
            Says::Entries(s) | Says::Parameters(s) | Says::Walk(s) => s,
        }
    }

    /// What the Rust says to the same question.
    fn said(&self) -> Option<String> {
        let files = self.files();
        let answer = |call| ask(&files, self.code, &call).unwrap().to_string();
        let listing = answer(Call::new(LISTING, &[]));
        Some(match self.says {
            Says::Listing => listing,
            Says::NoInstruction if listing.lines().count() == 6 => "no instruction".into(),
            Says::NoInstruction => listing,
            Says::Operands(_) => instruction(&files, self.code).1,
            Says::Line(_) => {
                let (name, operands) = instruction(&files, self.code);
                format!("{name} {operands}")
            }
            Says::Refused(_) => listing.trim_start_matches("refused ").into(),
            Says::Target(_) => answer(Call::new(JUMP_TARGET, &[0, 0])),
            Says::Entries(_) => {
                let line = listing.lines().nth(6).unwrap_or_default();
                line[line.find('{').unwrap_or(line.len())..].into()
            }
            Says::Parameters(_) => listing.lines().nth(1).unwrap_or_default().into(),
            Says::Walk(_) => return None,
        })
    }
}

/// Name and operands of the only instruction, decoded and written by the Rust.
fn instruction(files: &Files, code: &[u8]) -> (String, String) {
    let port = Port::new(files, TABLE | STORE).unwrap();
    match decode::all(&port, code).as_deref() {
        Ok([ins]) => {
            let decoder = port.decoder(1);
            let operands = ins.operands.iter().map(|o| decoder.render_operand(o));
            (ins.name.clone(), operands.collect::<Vec<_>>().join(", "))
        }
        other => (format!("{other:?}"), String::new()),
    }
}

/// A table of the rows, and whether the Rust says the same wherever it can be asked.
pub fn report() -> (String, bool) {
    let mut out = format!("{:<7} {:<18} {:<26} {}\n", "row", "code", "01 says", "the Rust says");
    let mut same = true;
    for row in &ROWS {
        let hex: Vec<String> = row.code.iter().map(|b| format!("{b:02x}")).collect();
        let (said, verdict) = match row.said() {
            None => ("-".into(), "from 01"),
            Some(said) if said == row.wanted() => (said, "same"),
            Some(said) => (said, "DIFFERS"),
        };
        same &= verdict != "DIFFERS";
        let (hex, wanted) = (hex.join(" "), shown(row.wanted()));
        let said = shown(&said);
        out += &format!("{:<7} {hex:<18} {wanted:<26} {said:<26} {verdict}\n", row.name);
    }
    (out, same)
}

/// A text of several lines takes too much room.
fn shown(text: &str) -> String {
    match text.lines().count() {
        0 | 1 => text.into(),
        n => format!("a listing of {n} lines"),
    }
}

/// The rows as vectors: each row's store, its code, and calls of every function on them.
/// A walk row on the switch would repeat the row before it.
pub fn record() -> Result<Writer, String> {
    let mut writer = Writer::default();
    for row in ROWS.iter().filter(|r| r.pool.is_empty() || matches!(r.says, Says::Entries(_))) {
        writer.files(&row.files());
        writer.code(row.code);
        for function in [TABLE_CHECK, STORE_CHECK, LISTING, MAX_REGISTER] {
            writer.call(&Call::new(function, &[]))?;
        }
        on_instructions(&mut writer, row)?;
        if matches!(row.says, Says::Listing | Says::Entries(_)) {
            on_objects(&mut writer)?;
        }
    }
    writer.files(&sample::sample());
    for index in -12i64..4 {
        writer.call(&Call::new(REG_NAME, &[index as u64, 3]))?;
    }
    for bytes in SMI_BYTES {
        writer.call(&Call::smi_bytes(bytes))?;
    }
    Ok(writer)
}

const SMI_BYTES: [&[u8]; 8] = [
    &[],
    &[0, 0],
    &[2, 0, 0, 0],
    &[1, 0, 0, 0],
    &[0, 0, 0, 0x80],
    &[0, 0, 0, 0, 5, 0, 0, 0],
    &[0, 0, 0, 0, 0xff, 0xff, 0xff, 0xff],
    &[1, 0, 0, 0, 5, 0, 0, 0],
];

/// Each place of the code and one beyond its end; each operand and one beyond the last.
fn on_instructions(writer: &mut Writer, row: &Row) -> Result<(), String> {
    for place in 0..row.code.len() as u64 + 2 {
        let decoded = writer.call(&Call::new(DECODE, &[place]))?;
        for object in [0, NO_OBJECT] {
            writer.call(&Call::new(JUMP_TARGET, &[object, place]))?;
            writer.call(&Call::new(JUMP_TABLE, &[object, place]))?;
        }
        let operands = match decoded {
            Answer::Found { words, .. } => words[3].bits(),
            _ => 0,
        };
        for operand in 0..=operands {
            writer.call(&Call::new(RENDER_OPERAND, &[place, operand, 1]))?;
        }
    }
    Ok(())
}

/// Small reads of each object and of one that is not there.
fn on_objects(writer: &mut Writer) -> Result<(), String> {
    let above = u32::MAX as u64 + 1;
    for object in 0..3 {
        writer.call(&Call::new(ARRAY_LEN, &[object]))?;
        for number in [0, 1, 2, 3, 4, 5, above] {
            writer.call(&Call::new(SLOT_AT, &[object, number]))?;
            writer.call(&Call::new(ARRAY_ELEM, &[object, number]))?;
            writer.call(&Call::new(SMI_SLOT, &[object, number]))?;
            writer.call(&Call::new(NUM_FIELD, &[object, number, 0]))?;
            writer.call(&Call::new(NUM_FIELD, &[object, number, 1]))?;
        }
        for offset in [0, 8, 40, 44, 53, 54, checks::MOST_CODE as u64] {
            writer.call(&Call::new(BCA_RT_OFF, &[object, offset]))?;
            for length in [0, 1, 4, 8, above] {
                writer.call(&Call::new(RAW_AT, &[object, offset, length]))?;
            }
        }
    }
    Ok(())
}

#[cfg(test)]
mod tests {
    use super::*;
    use crate::vectors;

    #[test]
    fn the_rust_agrees_with_every_row() {
        let (table, same) = report();
        assert!(same, "{table}");
    }

    /// The files in recorded/ are what is recorded today.
    #[test]
    fn recorded_files_are_current() {
        let vectors = record().unwrap();
        assert!(include_bytes!("../recorded/rows.vec")[..] == vectors.out);
        assert_eq!(include_str!("../recorded/rows.txt"), report().0);
        assert_eq!(vectors::replay(&vectors.out), Ok(vectors.calls));
    }
}
