//! Lists the function whose eight record files are in a folder, and checks its walks, with its exception handlers where there is a handlers.bin. Opcode records of
//! 64 bytes, of an older export, are converted.
//!   cargo run --example list ../crates/jscd_list/data

use jscd_capi::{is_old, list, to_new, walk_with, Files, Given, Walked};
use jscd_capi::{OLD_OPCODE_SIZE, OPCODE_SIZE};
use std::io::ErrorKind;
use std::path::Path;

const NAMES: [&str; 8] =
    ["opcodes", "types", "runtime", "intrinsic", "layout", "objects", "slots", "payload"];

fn main() -> Result<(), Box<dyn std::error::Error>> {
    let folder = std::env::args().nth(1).ok_or("usage: list FOLDER")?;
    let read = |name| std::fs::read(Path::new(&folder).join(format!("{name}.bin")));
    let mut files = NAMES.into_iter().map(read).collect::<Result<Vec<_>, _>>()?;
    if is_old(&files[0], &files[1]) {
        let mut new = vec![0; files[0].len() / OLD_OPCODE_SIZE * OPCODE_SIZE];
        to_new(&files[0], &files[1], &mut new)?;
        files[0] = new;
    }
    let [opcodes, types, runtime, intrinsic, layout, objects, slots, payload] = &files[..] else {
        unreachable!("there are eight names")
    };
    let files = Files { opcodes, types, runtime, intrinsic, layout, objects, slots, payload };
    let mut out = vec![0; 65_536];
    let length = list(&files, 0, &mut out)?;
    print!("{}", std::str::from_utf8(&out[..length])?);
    let handlers = match read("handlers") {
        Err(e) if e.kind() == ErrorKind::NotFound => Vec::new(),
        read => read?,
    };
    match walk_with(&files, 0, Given { handlers: &handlers }, &mut out)? {
        Walked::Closed => println!("closed"),
        Walked::Leaves { steps, from } => println!("leaves steps {steps} from {from}"),
    }
    Ok(())
}
