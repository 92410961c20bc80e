//! Tables of switches. The Rust compares the whole name, so that a switch under a prefix has no table there; V8's iterator follows
//! tables at every scale, and Wish 1 holds such a line to V8. This is the one place where entries are the oracle's own reading, of V8's
//! sources (`by_v8`), over the Rust's decoded operands and its `array_elem`; those of an opcode whose flow is not that of its name
//! (Wish 6) too. Of every other instruction the Rust is asked.

use crate::flows::{self, SWITCHES_ON};
use crate::port::{Port, NOT_BY_NAME};
use jscd::bytecode::{Instr, Operand};
use jscd::serializer::Elem;

/// Case numbers and targets of the entries that are shown.
pub type Entries = Vec<(i32, usize)>;

/// What the operands of a switch say, where they are of the right kinds.
pub struct Table {
    start: u32,
    pub count: i64,
    /// Which operand is the count.
    pub count_at: usize,
    base: i64,
}

/// At any scale, of the instructions whose flow is 5: table, length and, where there is one, case base are the operands from the first
/// used on.
pub fn table(port: &Port, ins: &Instr) -> Option<Table> {
    let index = |k: usize| match ins.operands.get(k)? {
        Operand::Idx(v) => Some(*v),
        _ => None,
    };
    let number = |k: usize| match ins.operands.get(k)? {
        Operand::Imm(v) => Some(*v),
        _ => index(k).map(i64::from),
    };
    let flow = port.flow(ins);
    if flow.kind != SWITCHES_ON {
        return None;
    }
    let count_at = flow.first + 1;
    let base = if flow.base { number(flow.first + 2)? } else { 0 };
    Some(Table { start: index(flow.first)?, count: number(count_at)?, count_at, base })
}

/// The table of an instruction whose count has passed number 16; none where it has no table. `function` is the object whose pool is meant.
pub fn entries(port: &Port, function: usize, ins: &Instr) -> Option<Entries> {
    match (ins.scale, port.flow(ins).named) {
        (1, true) => port.disassembler().open_jump_table(function, ins),
        _ => by_v8(port, function, ins),
    }
}

/// BytecodeArrayIterator::GetJumpTableTargetOffsets: the elements from table_start on, table_size of them, with case values from
/// case_value_base on. What is no small integer is passed over, and the case value counts on (UpdateAndAdvanceToValid). A target is
/// GetAbsoluteOffset of the element: current_offset + relative_offset + prefix_size. Which kinds of operands are taken, and that
/// numbers wrap, is document 01's.
fn by_v8(port: &Port, function: usize, ins: &Instr) -> Option<Entries> {
    let table = table(port, ins)?;
    let pool = port.pool(function)?;
    let prefix_size = if ins.scale > 1 { 1 } else { 0 };
    let entry = |k: i64| {
        let Some(Elem::Smi(relative_offset)) =
            port.cache.array_elem(pool, table.start as usize + k as usize)
        else {
            return None;
        };
        let target = (ins.offset as i64).wrapping_add(relative_offset).wrapping_add(prefix_size);
        Some((table.base.wrapping_add(k) as i32, target as usize))
    };
    Some((0..table.count).filter_map(entry).collect())
}

/// Lines of a listing before those of the instructions.
const HEADER: usize = 6;

/// The listing of object 0, whose instructions are `listed`: header and lines of `render_sfi`, and in the line of a switch under a prefix
/// the entries too, as `render_sfi` writes them of other switches. Where the flow is not that of the name, `render_sfi` knows the name as
/// none and writes neither target nor entries: they are added here. An error is the Rust's.
pub fn listing(port: &Port, listed: &[Instr]) -> Result<String, String> {
    let mut whole = String::new();
    port.disassembler().open_render_sfi(port.shared_function_info(), "", &mut whole)?;
    let lines = whole.lines().skip(1).take_while(|line| !line.starts_with("Constant pool"));
    let mut out = String::with_capacity(whole.len());
    for (k, line) in lines.enumerate() {
        match k.checked_sub(HEADER).and_then(|k| listed.get(k)) {
            Some(ins) if !port.flow(ins).named => {
                out += &line.replacen(NOT_BY_NAME, "", 1);
                let target = flows::target(port, 0, ins);
                out += &target.map_or(String::new(), |to| format!(" (jscd @ {to})"));
                out += &entries(port, 0, ins).map_or(String::new(), shown);
            }
            Some(ins) if ins.scale > 1 => {
                out += line;
                out += &entries(port, 0, ins).map_or(String::new(), shown);
            }
            _ => out += line,
        }
        out.push('\n');
    }
    Ok(out)
}

fn shown(entries: Entries) -> String {
    let entries: Vec<String> = entries.iter().map(|(case, to)| format!(" {case}: @{to}")).collect();
    format!(" {{{} }}", entries.join(","))
}

#[cfg(test)]
mod tests {
    use super::*;
    use crate::decode::{self, plain};
    use crate::port::{STORE, TABLE};
    use crate::random::Random;
    use crate::records::*;
    use crate::sample;

    /// A function with the generator's switch as opcode 0c, and its instructions.
    fn with(code: &[u8], pool: &[Option<i32>], asked: impl Fn(&Port, &[Instr])) {
        let mut files = sample::function(code, 8, pool);
        files.body[OPCODES].extend(opcode_record("SwitchOnGeneratorState", 0, &[0, 10, 11]));
        let port = Port::new(&files, TABLE | STORE).unwrap();
        asked(&port, &decode::all(&port, code).unwrap());
    }

    const POOL: [Option<i32>; 3] = [Some(9), None, Some(-1)];

    /// Both names under both prefixes: distances count from behind the prefix, and a case that is skipped is counted.
    #[test]
    fn prefixed() {
        let extra = |opcode: u8, numbers: [u32; 3]| {
            let operands = numbers.iter().flat_map(|n| n.to_le_bytes());
            [1, opcode].into_iter().chain(operands).chain([0x0b]).collect::<Vec<u8>>()
        };
        let cases: [(Vec<u8>, &[(i32, usize)]); 6] = [
            (vec![0, 9, 0, 0, 3, 0, 5, 0, 0x0b], &[(5, 10), (7, 0)]),
            (vec![0, 9, 0, 0, 0, 0, 5, 0, 0x0b], &[]),
            (vec![0, 0x0c, 0xfa, 0xff, 0, 0, 3, 0, 0x0b], &[(0, 10), (2, 0)]),
            (extra(9, [0, 3, i32::MAX as u32]), &[(i32::MAX, 10), (i32::MIN + 1, 0)]),
            (extra(9, [2, 1, -7i32 as u32]), &[(-7, 0)]),
            (extra(0x0c, [-6i32 as u32, 0, 3]), &[(0, 10), (2, 0)]),
        ];
        for (code, wanted) in &cases {
            with(code, &POOL, |port, listed| {
                assert_eq!(port.disassembler().open_jump_table(0, &listed[0]), None);
                assert_eq!(entries(port, 0, &listed[0]).as_deref(), Some(*wanted), "{code:02x?}");
            });
            with(code, &[], |port, listed| assert_eq!(entries(port, 0, &listed[0]), None));
        }
    }

    /// The own reading is the Rust's of unprefixed switches, and of prefixed ones what the Rust says where the suffix is taken from the name.
    #[test]
    fn as_the_rust_with_the_plain_name() {
        let mut r = Random::new(1);
        let mut seen = [0; 3];
        for _ in 0..20_000 {
            let scale = *r.pick(&[1, 2, 4]);
            let mut code = vec![[0xff, 0xff, 0, 0xff, 1][scale]; (scale > 1) as usize];
            code.push(*r.pick(&[9, 0x0c]));
            for most in [8, 8, 8] {
                let number = if r.once_in(4) { r.next() } else { r.below(most) };
                code.extend(&number.to_le_bytes()[..scale]);
            }
            let pool: Vec<Option<i32>> =
                (0..r.below(9)).map(|_| (!r.once_in(3)).then(|| r.next() as i32)).collect();
            with(&code, &pool, |port, listed| {
                let few = table(port, &listed[0]).is_some_and(|table| table.count <= 300);
                if few {
                    let plain = Instr { name: plain(&listed[0]).into(), ..listed[0].clone() };
                    let rust = port.disassembler().open_jump_table(0, &plain);
                    assert_eq!(by_v8(port, 0, &listed[0]), rust, "{code:02x?}");
                }
            });
            seen[scale / 2] += 1;
        }
        assert!(seen.iter().all(|n| *n > 5_000), "{seen:?}");
    }

    /// Only the line of the prefixed switch is another than the Rust's.
    #[test]
    fn lines() {
        let code = [9, 0, 3, 5, 0, 9, 0, 0, 3, 0, 5, 0, 0, 9, 0, 0, 0, 0, 5, 0, 0x0b];
        with(&code, &POOL, |port, listed| {
            let lines: Vec<String> =
                self::listing(port, listed).unwrap().lines().map(String::from).collect();
            let entries: Vec<&str> =
                lines[6..].iter().map(|l| l.split_once(" {").map_or("", |l| l.1)).collect();
            assert_eq!(
                entries,
                [" 5: @9, 7: @18446744073709551615 }", " 5: @14, 7: @4 }", " }", ""]
            );
        });
    }
}
