//! What an opcode does, by bytes 50 to 53 of its record (document 02's Wish 6), and the bytes that document 01's names give. The Rust goes
//! by names: where the bytes are those of the name it is asked for targets and tables, and elsewhere they are read here and in `switches`,
//! over the Rust's decoded operands and its `array_elem`.

use crate::port::Port;
use crate::records::Opcode;
use jscd::bytecode::{Instr, Operand};
use jscd::serializer::Elem;

/// Values of byte 50.
pub const ON: u8 = 0;
pub const STOPS: u8 = 1;
pub const JUMPS: u8 = 2;
pub const BRANCHES: u8 = 3;
pub const JUMPS_BACK: u8 = 4;
pub const SWITCHES_ON: u8 = 5;

/// The greatest value of each of the four bytes.
pub const MOST: [u8; 4] = [SWITCHES_ON, 1, 7, 1];

/// Names that end a walk.
pub const ENDS: [&str; 5] = ["Return", "SuspendGenerator", "Throw", "ReThrow", "Abort"];

/// Names that go to the target alone.
pub const ALWAYS: [&str; 4] = ["Jump", "JumpConstant", "JumpLoop", "JumpLoopConstant"];

/// The other names in the list of `jump_target`.
pub const MAYBE: [&str; 26] = [
    "JumpIfTrue",
    "JumpIfTrueConstant",
    "JumpIfFalse",
    "JumpIfFalseConstant",
    "JumpIfToBooleanTrue",
    "JumpIfToBooleanTrueConstant",
    "JumpIfToBooleanFalse",
    "JumpIfToBooleanFalseConstant",
    "JumpIfNull",
    "JumpIfNullConstant",
    "JumpIfNotNull",
    "JumpIfNotNullConstant",
    "JumpIfUndefined",
    "JumpIfUndefinedConstant",
    "JumpIfUndefinedOrNull",
    "JumpIfUndefinedOrNullConstant",
    "JumpIfNotUndefined",
    "JumpIfNotUndefinedConstant",
    "JumpIfJSReceiver",
    "JumpIfJSReceiverConstant",
    "JumpIfNotHole",
    "JumpIfNotHoleConstant",
    "JumpIfReferenceError",
    "JumpIfReferenceErrorConstant",
    "JumpIfNotReferenceError",
    "JumpIfNotReferenceErrorConstant",
];

pub const SWITCHES: [&str; 2] = ["SwitchOnSmiNoFeedback", "SwitchOnGeneratorState"];

/// The four bytes that a name gives: document 01's sections "Targets, slots and counts" and "Walks", with unused bytes 0.
pub fn of_name(name: &str) -> [u8; 4] {
    let pool = name.ends_with("Constant") as u8;
    match name {
        "JumpLoop" | "JumpLoopConstant" => [JUMPS_BACK, pool, 0, 0],
        _ if ALWAYS.contains(&name) => [JUMPS, pool, 0, 0],
        _ if MAYBE.contains(&name) => [BRANCHES, pool, 0, 0],
        _ if ENDS.contains(&name) => [STOPS, 0, 0, 0],
        // Table, length and case base; behind a register table and length.
        "SwitchOnSmiNoFeedback" => [SWITCHES_ON, 0, 0, 1],
        "SwitchOnGeneratorState" => [SWITCHES_ON, 0, 1, 0],
        _ => [ON, 0, 0, 0],
    }
}

/// Number 26: each byte by itself.
pub fn is_good(flow: [u8; 4]) -> bool {
    flow.iter().zip(MOST).all(|(byte, most)| *byte <= most)
}

/// A good record's four bytes.
#[derive(Debug, Clone, Copy, PartialEq, Eq)]
pub struct Flow {
    pub kind: u8,
    /// Whether the distance comes from the pool.
    pub pool: bool,
    /// The first decoded operand used.
    pub first: usize,
    /// Whether a switch has a case base.
    pub base: bool,
    /// Whether the bytes are those of the name.
    pub named: bool,
}

impl Flow {
    pub fn of(record: &Opcode) -> Flow {
        let bytes = record.flow().unwrap_or_default();
        let [kind, pool, first, base] = bytes;
        let named = of_name(&crate::records::name(record.name())) == bytes;
        Flow { kind, pool: pool == 1, first: first as usize, base: base == 1, named }
    }

    /// Whether it has a target.
    pub fn jumps(&self) -> bool {
        matches!(self.kind, JUMPS | BRANCHES | JUMPS_BACK)
    }
}

/// Where a jump leads. `function` is the object whose pool is meant.
pub fn target(port: &Port, function: usize, ins: &Instr) -> Option<usize> {
    match port.flow(ins).named {
        true => port.disassembler().open_jump_target(function, ins),
        false => by_bytes(port, function, ins),
    }
}

/// The distance is the operand, or the pool's element of that number; it counts from the opcode byte behind any prefix, and flow 4 goes
/// back by it. Which kinds of operands are taken is document 01's.
fn by_bytes(port: &Port, function: usize, ins: &Instr) -> Option<usize> {
    let flow = port.flow(ins);
    if !flow.jumps() {
        return None;
    }
    let distance = match (ins.operands.get(flow.first)?, flow.pool) {
        (Operand::Idx(element), true) => {
            match port.cache.array_elem(port.pool(function)?, *element as usize)? {
                Elem::Smi(distance) => distance,
                _ => return None,
            }
        }
        (Operand::Idx(distance), false) => *distance as i64,
        (Operand::Imm(distance), false) => *distance,
        _ => return None,
    };
    let here = ins.offset as i64 + (ins.scale > 1) as i64;
    let to = match flow.kind {
        JUMPS_BACK => here.wrapping_sub(distance),
        _ => here.wrapping_add(distance),
    };
    Some(to as usize)
}

#[cfg(test)]
mod tests {
    use super::*;
    use crate::decode;
    use crate::port::{STORE, TABLE};
    use crate::random::Random;
    use crate::records::*;
    use crate::sample;

    /// The bytes of every name that has a flow, as documents 01 and 02 say them.
    const GIVEN: [(&str, [u8; 4]); 13] = [
        ("Return", [1, 0, 0, 0]),
        ("SuspendGenerator", [1, 0, 0, 0]),
        ("Throw", [1, 0, 0, 0]),
        ("ReThrow", [1, 0, 0, 0]),
        ("Abort", [1, 0, 0, 0]),
        ("Jump", [2, 0, 0, 0]),
        ("JumpConstant", [2, 1, 0, 0]),
        ("JumpLoop", [4, 0, 0, 0]),
        ("JumpLoopConstant", [4, 1, 0, 0]),
        ("SwitchOnSmiNoFeedback", [5, 0, 0, 1]),
        ("SwitchOnGeneratorState", [5, 0, 1, 0]),
        ("LdaConstant", [0, 0, 0, 0]),
        ("JumpIfForInDone", [0, 0, 0, 0]),
    ];

    #[test]
    fn names() {
        for (name, bytes) in GIVEN {
            assert_eq!(of_name(name), bytes, "{name}");
        }
        // The others in the list of the Rust's `jump_target`.
        let conditions = [
            "True",
            "False",
            "ToBooleanTrue",
            "ToBooleanFalse",
            "Null",
            "NotNull",
            "Undefined",
            "UndefinedOrNull",
            "NotUndefined",
            "JSReceiver",
            "NotHole",
            "ReferenceError",
            "NotReferenceError",
        ];
        assert_eq!(2 * conditions.len(), MAYBE.len());
        for condition in conditions {
            assert_eq!(of_name(&format!("JumpIf{condition}")), [3, 0, 0, 0], "{condition}");
            assert_eq!(of_name(&format!("JumpIf{condition}Constant")), [3, 1, 0, 0]);
            assert_eq!(of_name(&format!("jumpIf{condition}")), [0; 4]);
        }
    }

    #[test]
    fn each_byte_by_itself() {
        assert!(is_good([0, 0, 0, 0]) && is_good([5, 1, 7, 1]) && is_good([0, 1, 7, 1]));
        for flow in [[6, 0, 0, 0], [0, 2, 0, 0], [0, 0, 8, 0], [0, 0, 0, 2], [255, 1, 7, 1]] {
            assert!(!is_good(flow), "{flow:?}");
        }
    }

    /// On the flows of names the own reading is what the Rust says, at each scale.
    #[test]
    fn as_the_rust_by_names() {
        let mut r = Random::new(1);
        let mut found = [0; 2];
        let pool = [Some(4), None, Some(-1), Some(i32::MIN), Some(i32::MAX), Some(0)];
        for name in ALWAYS.iter().chain(&MAYBE).chain(&ENDS).chain(&SWITCHES).chain(&["Star"]) {
            let mut files = sample::function(&[], 8, &pool);
            for code in [9, 10, 11, 0, 13] {
                files.body[OPCODES].extend(opcode_record(name, 0, &[code, 9]));
            }
            files.body[OPCODES].extend(opcode_record(name, 0, &[]));
            let port = Port::new(&files, TABLE | STORE).unwrap();
            for _ in 0..400 {
                let scale = *r.pick(&[1, 2, 4]);
                let mut code = vec![scale as u8 / 4; (scale > 1) as usize];
                code.push(0x0c + r.below(6) as u8);
                for _ in 0..2 {
                    let number = if r.once_in(2) { r.next() } else { r.below(9) };
                    code.extend(&number.to_le_bytes()[..scale]);
                }
                let Ok(Some(ins)) = decode::one(&port, &code, 0) else {
                    panic!("{code:02x?}");
                };
                assert!(port.flow(&ins).named);
                let rust = port.disassembler().open_jump_target(0, &ins);
                assert_eq!(by_bytes(&port, 0, &ins), rust, "{name} {code:02x?}");
                found[rust.is_some() as usize] += 1;
            }
        }
        assert!(found.iter().all(|n| *n > 2_000), "{found:?}");
    }
}
