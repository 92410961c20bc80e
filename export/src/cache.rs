//! A code cache as V8 writes it: the header is checked, the table of its V8 found, the payload parsed by jscd's parser, and the record
//! files of its functions made. Nothing is written here; what is wrong is an error that says what and where.

use crate::bytecode::FamilyLayout;
use crate::disasm::Disassembler;
use crate::export::{self, All};
use crate::header::{is_code_cache, Header};
use crate::serializer;
use crate::version::{self, Found};
use std::panic::{catch_unwind, AssertUnwindSafe};

/// The record files of a cache, and what its header says.
pub struct Cache {
    pub header: Header,
    pub v8: String,
    pub node: String,
    pub all: All,
}

pub fn read(data: &[u8]) -> Result<Cache, String> {
    let (header, Found { table, node }) = checked(data)?;
    let payload = header.payload(data);
    let made = guarded(|| {
        let cache = serializer::parse(payload, &table)?;
        let layout = FamilyLayout::from_table(&table);
        let names = Disassembler::new(&cache, &table, layout);
        export::all(&cache, &table, |id| names.sfi_name(id))
    });
    let v8 = table.v8;
    match made {
        Ok(all) if all.functions.is_empty() && all.refused.is_empty() => {
            Err("no function of it has bytecode".into())
        }
        Ok(all) => Ok(Cache { header, v8, node, all }),
        Err(why) => {
            Err(format!("the payload is damaged, or of a V8 {v8} that the table is not for: {why}"))
        }
    }
}

/// The parser is jscd's; where it does not foresee what a damaged cache has, it may stop.
fn guarded<T>(work: impl FnOnce() -> Result<T, String>) -> Result<T, String> {
    catch_unwind(AssertUnwindSafe(work)).unwrap_or_else(|_| Err("jscd's parser stopped".into()))
}

/// The header, and the table of its V8. What V8 itself tests is tested in its order, but for the flags of the process that made the cache
/// and the source, of which nothing is known here.
pub fn checked(data: &[u8]) -> Result<(Header, Found), String> {
    let word =
        |at: usize| data.get(at..at + 4).map(|b| u32::from_le_bytes([b[0], b[1], b[2], b[3]]));
    let (Some(magic), Some(hash)) = (word(0), word(4)) else {
        return Err(format!("{} bytes are no header", data.len()));
    };
    if !is_code_cache(data) {
        return Err(format!(
            "magic {magic:#010x} is not 0xc0de....: no code cache, or a compressed one, which must be unpacked first"
        ));
    }
    let found = version::table_of(hash)?;
    let header = Header::parse_with(data, &found.table.header)?;
    let (said, is) = (header.payload_length as usize, data.len() - header.payload_offset);
    if said != is {
        return Err(format!("the header says {said} bytes of payload, and {is} follow it"));
    }
    let sum = checksum(header.payload(data));
    // V8 writes 0 where it makes no checksum, which is what it does unless it is asked to.
    if header.checksum != 0 && header.checksum != sum {
        return Err(format!(
            "the header says checksum {:#010x}, and the payload has {sum:#010x}",
            header.checksum
        ));
    }
    Ok((header, found))
}

/// Adler-32 that starts from 0, as V8 asks zlib for it.
pub fn checksum(payload: &[u8]) -> u32 {
    const PRIME: u32 = 65_521;
    let (mut low, mut high) = (0, 0);
    for byte in payload {
        low = (low + *byte as u32) % PRIME;
        high = (high + low) % PRIME;
    }
    high << 16 | low
}

#[cfg(test)]
mod tests {
    use super::*;

    #[test]
    fn a_stop_is_an_error() {
        let none: [u8; 0] = [];
        let stopped = guarded(|| Ok(none[std::hint::black_box(3)]));
        assert_eq!(stopped, Err("jscd's parser stopped".into()));
        assert_eq!(guarded(|| Ok(3)), Ok(3));
    }
}
