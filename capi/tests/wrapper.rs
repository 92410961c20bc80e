//! The wrapper on document 01's sample, whose files are in the listing program's data folder.

use jscd_capi::{decode, entry, is_old, list, target, to_new, to_old};
use jscd_capi::{walk, walk_code, walk_code_with, walk_with, write};
use jscd_capi::{Entry, Files, Given, Instr, Lent, Operand, Refusal, Target, Walked};
use jscd_capi::{OLD_OPCODE_SIZE, OPCODE_SIZE};
use std::path::Path;

fn file(name: &str) -> Vec<u8> {
    let data = Path::new(env!("CARGO_MANIFEST_DIR")).join("../crates/jscd_list/data");
    std::fs::read(data.join(name)).unwrap()
}

struct Sample {
    files: Vec<Vec<u8>>,
}

impl Sample {
    fn new() -> Sample {
        let names =
            ["opcodes", "types", "runtime", "intrinsic", "layout", "objects", "slots", "payload"];
        Sample { files: names.iter().map(|name| file(&format!("{name}.bin"))).collect() }
    }

    /// The sample with code of 5 bytes in place of its own.
    fn with_code(code: [u8; 5]) -> Sample {
        let mut sample = Sample::new();
        let payload = sample.files.last_mut().unwrap();
        let at = payload.len() - code.len();
        payload[at..].copy_from_slice(&code);
        sample
    }

    fn lent(&self) -> Files<'_> {
        let [opcodes, types, runtime, intrinsic, layout, objects, slots, payload] = &self.files[..]
        else {
            unreachable!()
        };
        Files { opcodes, types, runtime, intrinsic, layout, objects, slots, payload }
    }

    /// Its tables for lent code, with no object.
    fn alone(&self) -> Lent<'_> {
        let Files { opcodes, types, layout, .. } = self.lent();
        Lent { opcodes, types, layout, objects: &[], slots: &[], payload: &[], object: None }
    }
}

/// The records of a store: an object, here of any kind, whose pool is object 1, and that one, with two elements: the small integer 4 and a
/// reference, as in document 01's row `09 00 02 05 0b`.
struct Pool {
    objects: Vec<u8>,
    slots: Vec<u8>,
    payload: Vec<u8>,
}

impl Pool {
    fn new() -> Pool {
        let number = |n: u32| n.to_le_bytes();
        let object = |first: u32, count: u32| {
            [vec![0; 4], number(first).to_vec(), number(count).to_vec(), vec![0; 4]].concat()
        };
        let slot = |index: u32, kind: u8, at: u32, len: u32| {
            let head = [number(index).to_vec(), vec![kind, 0, 0, 0]].concat();
            [head, number(at).to_vec(), number(len).to_vec(), vec![0; 8]].concat()
        };
        Pool {
            objects: [object(0, 1), object(1, 2)].concat(),
            slots: [slot(2, 1, 1, 0), slot(2, 4, 0, 8), slot(3, 1, 0, 0)].concat(),
            payload: vec![0, 0, 0, 0, 4, 0, 0, 0],
        }
    }

    fn lent<'a>(&'a self, sample: &'a Sample, object: usize) -> Lent<'a> {
        let Pool { objects, slots, payload } = self;
        Lent { objects, slots, payload, object: Some(object), ..sample.alone() }
    }
}

#[test]
fn the_sample_is_listed() {
    let sample = Sample::new();
    let mut out = vec![7; 65_536];
    let length = list(&sample.lent(), 0, &mut out).unwrap();
    let printed =
        std::fs::read(Path::new(env!("CARGO_MANIFEST_DIR")).join("../crates/jscd_list/stdout"));
    assert_eq!(out[..length], printed.unwrap());
    assert!(out[length..].iter().all(|b| *b == 7));
}

/// A buffer of exactly the listing's length fits; one byte less is number 17, and is as it was.
#[test]
fn a_refusal_leaves_the_buffer() {
    let sample = Sample::new();
    let length = list(&sample.lent(), 0, &mut vec![0; 65_536]).unwrap();
    assert_eq!(list(&sample.lent(), 0, &mut vec![0; length]), Ok(length));
    let mut short = vec![7; length - 1];
    assert_eq!(list(&sample.lent(), 0, &mut short), Err(Refusal { number: 17, place: 0 }));
    assert!(short.iter().all(|b| *b == 7));
    let none = Err(Refusal { number: 8, place: 0 });
    assert_eq!(list(&sample.lent(), 1, &mut []), none);
    assert_eq!(list(&sample.lent(), usize::MAX, &mut []), none);
}

/// Document 01's rows: `03 ff`, `00 03 80 01`, `0a 05 00 fa 02`, `0a 05 00 fa`, `02 01`; the end, and beyond it.
#[test]
fn instructions() {
    let sample = Sample::new();
    let f = sample.lent();
    let at = |code: &[u8], start| decode(f.opcodes, f.types, f.layout, code, start);
    let instr = at(&[0x03, 0xff], 0).unwrap().unwrap();
    assert_eq!((instr.opcode, instr.scale, instr.end), (3, 1, 2));
    assert_eq!(instr.operands, [Operand::Imm(-1)]);
    let instr = at(&[0x00, 0x03, 0x80, 0x01], 0).unwrap().unwrap();
    assert_eq!((instr.scale, instr.end, instr.operands), (2, 4, vec![Operand::Imm(384)]));
    let instr = at(&[0x0a, 0x05, 0x00, 0xfa, 0x02], 0).unwrap().unwrap();
    assert_eq!(instr.operands, [Operand::RuntimeId(5), Operand::RegList { first: 0, count: 2 }]);
    assert_eq!(at(&[0x0a, 0x05, 0x00, 0xfa], 0), Err(Refusal { number: 15, place: 4 }));
    assert_eq!(at(&[0x02, 0x01], 1), Err(Refusal { number: 12, place: 1 }));
    assert_eq!(at(&[0x02], 1), Ok(None));
    assert_eq!(at(&[0x02], 2), Err(Refusal { number: 20, place: 2 }));
}

/// An instruction to be written; where it stands is not read.
fn instr(opcode: u8, scale: u8, operands: &[Operand]) -> Instr {
    Instr { offset: 9, opcode, scale, end: 7, operands: operands.to_vec() }
}

/// Document 01's rows `03 ff`, `00 03 80 01`, `01 03 00 00 00 80`, `0a 05 00 fa 02`, and a prefix behind a prefix. What is behind the bytes is
/// as it was.
#[test]
fn instructions_are_written() {
    let sample = Sample::new();
    let f = sample.lent();
    let call = [Operand::RuntimeId(5), Operand::RegList { first: 0, count: 2 }];
    for (instr, bytes) in [
        (instr(3, 1, &[Operand::Imm(-1)]), &[0x03, 0xff][..]),
        (instr(3, 2, &[Operand::Imm(384)]), &[0x00, 0x03, 0x80, 0x01]),
        (instr(3, 4, &[Operand::Imm(-2147483648)]), &[0x01, 0x03, 0x00, 0x00, 0x00, 0x80]),
        (instr(10, 1, &call), &[0x0a, 0x05, 0x00, 0xfa, 0x02]),
        (instr(0, 2, &[]), &[0x00, 0x00]),
        (instr(11, 1, &[]), &[0x0b]),
    ] {
        let mut out = [7; 8];
        assert_eq!(write(f.opcodes, f.types, f.layout, &instr, &mut out), Ok(bytes.len()));
        assert_eq!(out[..bytes.len()], *bytes);
        assert!(out[bytes.len()..].iter().all(|b| *b == 7));
        let short = &mut out[..bytes.len() - 1];
        let refused = Err(Refusal { number: 17, place: 0 });
        assert_eq!(write(f.opcodes, f.types, f.layout, &instr, short), refused);
    }
}

/// Each refusal, also with faults of later rows; the buffer is as it was.
#[test]
fn what_cannot_be_written() {
    let sample = Sample::new();
    let f = sample.lent();
    let imm = [Operand::Imm(5)];
    let list = |count| [Operand::RuntimeId(5), Operand::RegList { first: 0, count }];
    for (number, instr) in [
        (21, instr(99, 3, &imm)),
        (21, instr(3, 0, &imm)),
        (22, instr(12, 1, &imm)),
        (22, instr(0, 1, &imm)),
        (22, instr(1, 1, &[])),
        (23, instr(3, 1, &[])),
        (23, instr(3, 1, &[imm[0]; 2])),
        (23, instr(3, 1, &[imm[0]; 9])),
        (23, instr(3, 1, &[Operand::Imm(128)])),
        (23, instr(3, 4, &[Operand::Imm(1 << 31)])),
        (23, instr(3, 1, &[Operand::Idx(5)])),
        (23, instr(3, 1, &[Operand::Raw { ty: 9, value: 5 }])),
        (23, instr(10, 1, &list(256))),
        (23, instr(4, 1, &[Operand::Reg(123)])),
        (17, instr(10, 1, &list(255))),
    ] {
        let mut out = [7; 4];
        let said = write(f.opcodes, f.types, f.layout, &instr, &mut out);
        assert_eq!(said, Err(Refusal { number, place: 0 }), "{instr:?}");
        assert_eq!(out, [7; 4]);
    }
    let fault = write(&f.opcodes[1..], f.types, f.layout, &instr(3, 3, &imm), &mut []);
    assert_eq!(fault, Err(Refusal { number: 1, place: 0 }));
    let layout = [&[5], &f.layout[1..]].concat();
    let fault = write(f.opcodes, f.types, &layout, &instr(3, 3, &imm), &mut []);
    assert_eq!(fault, Err(Refusal { number: 5, place: 0 }));
}

/// Every code of three bytes whose first is an opcode: what is decoded at its start is written as these bytes.
#[test]
fn what_is_decoded_is_written_again() {
    let sample = Sample::new();
    let f = sample.lent();
    let mut again = 0;
    for code in (0u32..13 << 16).step_by(3).map(u32::to_be_bytes) {
        let Ok(Some(instr)) = decode(f.opcodes, f.types, f.layout, &code[1..], 0) else {
            continue;
        };
        let mut out = [7; 4];
        assert_eq!(write(f.opcodes, f.types, f.layout, &instr, &mut out), Ok(instr.end));
        assert_eq!(out[..instr.end], code[1..][..instr.end]);
        again += 1;
    }
    assert!(again > 100_000, "{again}");
}

/// Document 01's sample; its P11, `00 05 03 00 02`; its P12, `06 02 0b`, with two instructions behind it that no walk comes by. What is
/// behind the code's marks is as it was.
#[test]
fn walks() {
    let mut marks = [7; 6];
    assert_eq!(walk(&Sample::new().lent(), 0, &mut marks), Ok(Walked::Closed));
    assert_eq!(marks, [1, 0, 1, 0, 1, 7]);
    let sample = Sample::with_code([0x00, 0x05, 0x03, 0x00, 0x02]);
    let leaves = Walked::Leaves { steps: 2, from: 4 };
    assert_eq!(walk(&sample.lent(), 0, &mut marks), Ok(leaves));
    assert_eq!(marks, [1, 0, 0, 0, 1, 7]);
    let sample = Sample::with_code([0x06, 0x02, 0x0b, 0x02, 0x02]);
    assert_eq!(walk(&sample.lent(), 0, &mut marks), Ok(Walked::Closed));
    assert_eq!(marks, [1, 0, 1, 0, 0, 7]);
}

/// Marks too few by one, an object that is not there, and code that ends in an operand; the marks are as they were.
#[test]
fn a_refusal_leaves_the_marks() {
    let sample = Sample::new();
    let mut marks = [7; 5];
    assert_eq!(walk(&sample.lent(), 0, &mut marks[..4]), Err(Refusal { number: 18, place: 0 }));
    assert_eq!(walk(&sample.lent(), 1, &mut marks), Err(Refusal { number: 8, place: 0 }));
    let cut = Sample::with_code([0x02, 0x02, 0x02, 0x02, 0x03]);
    assert_eq!(walk(&cut.lent(), 0, &mut marks), Err(Refusal { number: 14, place: 5 }));
    assert_eq!(marks, [7; 5]);
    assert_eq!(walk(&sample.lent(), 0, &mut marks), Ok(Walked::Closed));
}

/// Document 01's rows on lent code: P10 `05 01`, P11 `00 05 03 00 02`, P12 `06 02 0b`, `06 03 0b`; marks too few, an object that is not there. What is behind the code's marks is as it was, and all of them after a refusal.
#[test]
fn walks_of_lent_code() {
    let sample = Sample::new();
    let mut marks = [7; 6];
    let leaves = |steps, from| Ok(Walked::Leaves { steps, from });
    assert_eq!(walk_code(&sample.alone(), &[0x05, 0x01], &mut marks), leaves(1, 0));
    assert_eq!(marks, [1, 0, 7, 7, 7, 7]);
    let code = [0x00, 0x05, 0x03, 0x00, 0x02];
    assert_eq!(walk_code(&sample.alone(), &code, &mut marks), leaves(2, 4));
    assert_eq!(marks, [1, 0, 0, 0, 1, 7]);
    assert_eq!(walk_code(&sample.alone(), &[0x06, 0x02, 0x0b], &mut marks), Ok(Walked::Closed));
    assert_eq!(marks, [1, 0, 1, 0, 1, 7]);
    assert_eq!(walk_code(&sample.alone(), &[0x06, 0x03, 0x0b], &mut marks), leaves(1, 0));
    let kept = marks;
    let refused = |number| Err(Refusal { number, place: 0 });
    assert_eq!(walk_code(&sample.alone(), &code, &mut marks[..4]), refused(18));
    let pool = Pool::new();
    assert_eq!(walk_code(&pool.lent(&sample, 2), &code, &mut marks), refused(8));
    assert_eq!(marks, kept);
}

/// The sample with this length field, in a run of so many bytes.
fn with_length(length: i32, run: u8) -> Sample {
    let mut sample = Sample::new();
    sample.files[7][4..8].copy_from_slice(&length.to_le_bytes());
    sample.files[6][12] = run;
    sample
}

/// Wish 4. An object's code is empty where its length field is 0, or is not found: the run ends within it, or there is no slot. It is closed
/// with any marks, and all of them are as they were.
#[test]
fn empty_code_of_an_object() {
    let mut no_slot = Sample::new();
    no_slot.files[5][8] = 0;
    for sample in [with_length(0, 51), with_length(0, 8), with_length(5, 7), no_slot] {
        let mut marks = [7; 6];
        for room in [0, 1, 6] {
            assert_eq!(walk(&sample.lent(), 0, &mut marks[..room]), Ok(Walked::Closed));
        }
        assert_eq!(marks, [7; 6]);
    }
}

/// Wish 4. A positive length whose code no run holds is 19, before 18, and behind 8 and 9.
#[test]
fn a_length_that_no_run_holds() {
    let refused = |number| Err(Refusal { number, place: 0 });
    for (length, run) in [(1, 8), (5, 50), (6, 51), (65_536, 51)] {
        let sample = with_length(length, run);
        let mut marks = [7; 6];
        for room in [0, 1, 6] {
            assert_eq!(walk(&sample.lent(), 0, &mut marks[..room]), refused(19));
        }
        assert_eq!(walk(&sample.lent(), 1, &mut marks), refused(8));
        assert_eq!(marks, [7; 6]);
    }
    assert_eq!(walk(&with_length(65_537, 51).lent(), 0, &mut []), refused(9));
    assert_eq!(walk(&with_length(-1, 51).lent(), 0, &mut []), refused(9));
}

/// Wish 4. Lent code of no bytes is closed, with an object's pool and without one; the table and the object are looked at all the same.
#[test]
fn empty_lent_code() {
    let (sample, pool) = (Sample::new(), Pool::new());
    let mut marks = [7; 6];
    for lent in [sample.alone(), pool.lent(&sample, 0), pool.lent(&sample, 1)] {
        for room in [0, 1, 6] {
            assert_eq!(walk_code(&lent, &[], &mut marks[..room]), Ok(Walked::Closed));
        }
    }
    let refused = |number| Err(Refusal { number, place: 0 });
    assert_eq!(walk_code(&pool.lent(&sample, 2), &[], &mut marks), refused(8));
    let none = Lent { opcodes: &[], ..sample.alone() };
    assert_eq!(walk_code(&none, &[], &mut marks), refused(1));
    assert_eq!(marks, [7; 6]);
}

/// Handler records: start, end, handler offset.
fn handlers(records: &[[u32; 3]]) -> Vec<u8> {
    records.iter().flatten().flat_map(|number| number.to_le_bytes()).collect()
}

/// The first byte of an opcode record that says what the opcode does.
const FLOW: usize = 50;

/// The sample's table and, behind it, 0c Throw, 0d ReThrow, 0e Abort and 0f SuspendGenerator, none with an operand.
fn with_ends() -> Sample {
    let mut sample = Sample::new();
    for name in ["Throw", "ReThrow", "Abort", "SuspendGenerator"] {
        let start = sample.files[0].len();
        sample.files[0].extend(name.as_bytes());
        sample.files[0].resize(start + OPCODE_SIZE, 0);
        sample.files[0][start + FLOW] = 1;
    }
    sample
}

/// The answer for lent code with these handlers, and its marks.
fn handled(code: &[u8], records: &[[u32; 3]]) -> (Result<Walked, Refusal>, Vec<u8>) {
    let (sample, records) = (with_ends(), handlers(records));
    let mut marks = vec![7; code.len()];
    let given = Given { handlers: &records };
    (walk_code_with(&sample.alone(), code, given, &mut marks), marks)
}

const CLOSED: Result<Walked, Refusal> = Ok(Walked::Closed);

fn leaves(steps: usize, from: usize) -> Result<Walked, Refusal> {
    Ok(Walked::Leaves { steps, from })
}

/// Wish 5. `02 0b 02 0b` is closed; with a handler where an instruction starts that one is reached, with another the walk leaves.
#[test]
fn a_handler_is_a_step() {
    let code = [0x02, 0x0b, 0x02, 0x0b];
    assert_eq!(handled(&code, &[]), (CLOSED, vec![1, 1, 0, 0]));
    assert_eq!(handled(&code, &[[0, 1, 2]]), (CLOSED, vec![1, 1, 1, 1]));
    assert_eq!(handled(&code, &[[0, 4, 3]]), (CLOSED, vec![1, 1, 0, 1]));
    for handler in [4, 5, u32::MAX] {
        assert_eq!(handled(&code, &[[0, 1, handler]]), (leaves(1, 0), vec![1, 0, 0, 0]));
    }
    // A step of two: to the handler, and from there off the end. A shorter way is found first.
    let code = [0x02, 0x02, 0x02, 0x0b, 0x02];
    assert_eq!(handled(&code, &[[0, 1, 4]]), (leaves(2, 4), vec![1, 1, 0, 0, 1]));
    assert_eq!(handled(&code, &[[0, 1, 4], [1, 2, 9]]), (leaves(2, 1), vec![1, 1, 0, 0, 1]));
    // What no walk comes by has no step.
    assert_eq!(handled(&code, &[[4, 5, 9]]), (CLOSED, vec![1, 1, 1, 1, 0]));
}

/// Wish 5. Throw, ReThrow and Abort end a walk and have the step; Return and SuspendGenerator have not, with a prefix neither.
#[test]
fn what_ends_a_walk() {
    for end in [0x0c, 0x0d, 0x0e] {
        assert_eq!(handled(&[end, 0x0b], &[]), (CLOSED, vec![1, 0]));
        assert_eq!(handled(&[end, 0x0b], &[[0, 1, 1]]), (CLOSED, vec![1, 1]));
        assert_eq!(handled(&[end, 0x0b], &[[0, 1, 2]]), (leaves(1, 0), vec![1, 0]));
        assert_eq!(handled(&[0x00, end], &[[0, 1, 1]]), (leaves(1, 0), vec![1, 0]));
    }
    for end in [0x0b, 0x0f] {
        assert_eq!(handled(&[end, 0x0b], &[[0, 1, 9]]), (CLOSED, vec![1, 0]));
        assert_eq!(handled(&[0x00, end, 0x0b], &[[0, 3, 9]]), (CLOSED, vec![1, 0, 0]));
    }
}

/// Wish 5. The last record that holds the offset counts, and a prefix's offset is its instruction's.
#[test]
fn the_record_that_counts() {
    let code = [0x02, 0x0b];
    assert_eq!(handled(&code, &[[0, 2, 9], [0, 1, 1]]).0, CLOSED);
    assert_eq!(handled(&code, &[[0, 1, 1], [0, 2, 9]]).0, leaves(1, 0));
    assert_eq!(handled(&code, &[[0, 1, 9], [1, 2, 9]]).0, leaves(1, 0));
    assert_eq!(handled(&code, &[[1, 2, 9]]).0, CLOSED);
    // `00 03 80 01`, LdaSmi.Wide.
    let code = [0x00, 0x03, 0x80, 0x01, 0x0b];
    assert_eq!(handled(&code, &[[0, 1, 9]]).0, leaves(1, 0));
    assert_eq!(handled(&code, &[[1, 5, 9]]).0, CLOSED);
}

/// Wish 5. Numbers 24 and 25, behind 18 and what comes before it; the marks are as they were.
#[test]
fn handlers_that_are_refused() {
    let sample = Sample::new();
    let code = [0x02, 0x0b];
    let said = |records: &[u8], room: usize| {
        let mut marks = [7; 3];
        let given = Given { handlers: records };
        let said = walk_code_with(&sample.alone(), &code, given, &mut marks[..room]);
        assert!(said.is_ok() || marks == [7; 3]);
        said
    };
    let refused = |number, place| Err(Refusal { number, place });
    let whole = handlers(&[[0, 1, 1]]);
    assert_eq!(said(&whole.repeat(4_096), 3), CLOSED);
    assert_eq!(said(&whole.repeat(4_097), 3), refused(24, 0));
    for length in [1, 11, 13, 23] {
        assert_eq!(said(&whole.repeat(2)[..length], 3), refused(24, 0));
    }
    for bad in [[0, 0, 1], [1, 0, 1], [2, 2, 1], [0, 3, 1], [0, u32::MAX, 1], [u32::MAX, 1, 1]] {
        assert_eq!(said(&handlers(&[bad]), 3), refused(25, 0));
        assert_eq!(said(&handlers(&[[0, 2, 1], bad, [9, 9, 9]]), 3), refused(25, 1));
    }
    // 18, 24, 25.
    assert_eq!(said(&[7; 5], 1), refused(18, 0));
    assert_eq!(said(&[7; 25], 2), refused(24, 0));
    let none = Lent { opcodes: &[], ..sample.alone() };
    assert_eq!(walk_code_with(&none, &code, Given { handlers: &[7] }, &mut []), refused(1, 0));
    // In empty code every record ends beyond the code.
    let empty =
        |records: &[u8]| walk_code_with(&sample.alone(), &[], Given { handlers: records }, &mut []);
    assert_eq!((empty(&[]), empty(&whole), empty(&[7])), (CLOSED, refused(25, 0), refused(24, 0)));
}

/// Wish 5. The handlers of an object's code; where none are given the answer is that of the walk without.
#[test]
fn handlers_of_an_object() {
    let sample = Sample::with_code([0x02, 0x0b, 0x02, 0x02, 0x0b]);
    let with = |records: &[u8], marks: &mut [u8]| {
        walk_with(&sample.lent(), 0, Given { handlers: records }, marks)
    };
    let mut marks = [7; 6];
    assert_eq!(with(&handlers(&[[0, 1, 3]]), &mut marks), CLOSED);
    assert_eq!(marks, [1, 1, 0, 1, 1, 7]);
    assert_eq!(with(&handlers(&[[0, 1, 5]]), &mut marks), leaves(1, 0));
    assert_eq!(marks, [1, 0, 0, 0, 0, 7]);
    let kept = marks;
    let refused = |number, place| Err(Refusal { number, place });
    assert_eq!(with(&handlers(&[[0, 1, 1], [4, 6, 0]]), &mut marks), refused(25, 1));
    assert_eq!(with(&[0; 13], &mut marks), refused(24, 0));
    assert_eq!(with(&[0; 13], &mut marks[..4]), refused(18, 0));
    let held = with_length(6, 51);
    assert_eq!(walk_with(&held.lent(), 0, Given { handlers: &[7] }, &mut []), refused(19, 0));
    assert_eq!(walk_with(&held.lent(), 1, Given { handlers: &[7] }, &mut []), refused(8, 0));
    assert_eq!(marks, kept);
    for sample in [Sample::new(), with_length(0, 51), sample] {
        let (mut with, mut without) = ([7; 6], [7; 6]);
        let said = walk_with(&sample.lent(), 0, Given::default(), &mut with);
        assert_eq!(said, walk(&sample.lent(), 0, &mut without));
        assert_eq!(with, without);
    }
}

/// Document 01's row `09 00 02 05 0b`: with the pool that the object has, `{ 5: @4 }` and closed; without an object no table.
#[test]
fn a_switch_in_lent_code() {
    let (sample, pool) = (Sample::new(), Pool::new());
    let (with, without) = (pool.lent(&sample, 0), sample.alone());
    let code = [0x09, 0x00, 0x02, 0x05, 0x0b];
    assert_eq!(entry(&with, &code, 0, 0), Ok(Entry::Shown { case: 5, target: 4 }));
    assert_eq!(entry(&with, &code, 0, 1), Ok(Entry::Skipped));
    assert_eq!(entry(&with, &code, 0, 2), Ok(Entry::Beyond));
    assert_eq!(entry(&with, &code, 4, 0), Ok(Entry::Nothing));
    assert_eq!(entry(&without, &code, 0, 0), Ok(Entry::Nothing));
    assert_eq!(entry(&with, &code, 5, 0), Ok(Entry::End));
    assert_eq!(entry(&with, &code, 6, 0), Err(Refusal { number: 20, place: 6 }));
    let negative = [0x09, 0x00, 0x02, 0xfe, 0x0b];
    assert_eq!(entry(&with, &negative, 0, 0), Ok(Entry::Shown { case: -2, target: 4 }));
    let mut marks = [7; 5];
    assert_eq!(walk_code(&with, &code, &mut marks), Ok(Walked::Closed));
    assert_eq!(marks, [1, 0, 0, 0, 1]);
}

/// Document 01's P9, `07 03 00`; a jump by the pool, with and without one; no jump; the end, beyond it, an operand that is cut.
#[test]
fn targets() {
    let (sample, pool) = (Sample::new(), Pool::new());
    let (with, without) = (pool.lent(&sample, 0), sample.alone());
    assert_eq!(target(&without, &[0x07, 0x03, 0x00], 0), Ok(Target::At(18446744073709551613)));
    let code = [0x08, 0x00, 0x02];
    assert_eq!(target(&with, &code, 0), Ok(Target::At(4)));
    assert_eq!(target(&without, &code, 0), Ok(Target::Nothing));
    assert_eq!(target(&with, &code, 2), Ok(Target::Nothing));
    assert_eq!(target(&with, &code, 3), Ok(Target::End));
    assert_eq!(target(&with, &code, 4), Err(Refusal { number: 20, place: 4 }));
    assert_eq!(target(&with, &[0x08], 0), Err(Refusal { number: 14, place: 1 }));
    assert_eq!(target(&pool.lent(&sample, 2), &code, 0), Err(Refusal { number: 8, place: 0 }));
}

/// Bytes 50 to 53 of the sample's opcodes, 00 Wide to 0b Return.
const FLOWS: [[u8; 4]; 12] = [
    [0, 0, 0, 0],
    [0, 0, 0, 0],
    [0, 0, 0, 0],
    [0, 0, 0, 0],
    [0, 0, 0, 0],
    [2, 0, 0, 0],
    [3, 0, 0, 0],
    [4, 0, 0, 0],
    [2, 1, 0, 0],
    [5, 0, 0, 1],
    [0, 0, 0, 0],
    [1, 0, 0, 0],
];

/// The sample's opcodes in records of 64 bytes, as document 01 has them.
fn old_opcodes() -> Vec<u8> {
    let old = |record: &[u8]| [&record[..FLOW], &[0; OLD_OPCODE_SIZE - FLOW]].concat();
    file("opcodes.bin").chunks_exact(OPCODE_SIZE).flat_map(old).collect()
}

/// The sample's opcodes with one byte changed in each of some records.
fn changed(changes: &[(usize, usize, u8)]) -> Vec<u8> {
    let mut opcodes = file("opcodes.bin");
    for (record, at, byte) in changes {
        opcodes[record * OPCODE_SIZE + at] = *byte;
    }
    opcodes
}

/// Wish 6. From 64-byte records to 72, by names, and back; what is behind the bytes is as it was.
#[test]
fn records_are_converted() {
    let (old, new, types) = (old_opcodes(), file("opcodes.bin"), file("types.bin"));
    assert_eq!((old.len(), new.len()), (12 * 64, 12 * 72));
    let mut out = [7; 1_000];
    assert_eq!(to_new(&old, &types, &mut out), Ok(new.len()));
    assert_eq!(out[..new.len()], new);
    assert!(out[new.len()..].iter().all(|b| *b == 7));
    for (k, (record, flow)) in new.chunks_exact(OPCODE_SIZE).zip(FLOWS).enumerate() {
        assert_eq!(record[FLOW..54], flow, "{k}");
        assert_eq!((&record[..FLOW], &record[54..]), (&old[64 * k..][..FLOW], &[0; 18][..]));
    }
    let mut out = [7; 1_000];
    assert_eq!(to_old(&new, &types, &mut out), Ok(old.len()));
    assert_eq!(out[..old.len()], old);
    assert!(out[old.len()..].iter().all(|b| *b == 7));
}

/// Wish 6. 26 by each of the four bytes, judged by itself: behind 3 of its own record, before 3 of a later one and before 4; also where the flow uses
/// no operand. A buffer is as it was.
#[test]
fn flow_bytes_that_are_refused() {
    let types = file("types.bin");
    let mut out = [7; 1_000];
    let mut said = |changes: &[(usize, usize, u8)]| {
        let opcodes = changed(changes);
        let said = to_old(&opcodes, &types, &mut out);
        let sample = Sample::new();
        let files = Files { opcodes: &opcodes, ..sample.lent() };
        let listed = list(&files, 0, &mut [0; 1_000]).map(|_| 0);
        assert!(said.is_err() && out == [7; 1_000]);
        (said.unwrap_err(), listed)
    };
    let refused = |number, place| {
        let refusal = Refusal { number, place };
        (refusal, Err(refusal))
    };
    for record in [0, 6, 11] {
        for (at, byte) in [(50, 6), (51, 2), (52, 8), (53, 2), (50, 255)] {
            assert_eq!(said(&[(record, at, byte)]), refused(26, record));
        }
        for at in 54..72 {
            assert_eq!(said(&[(record, at, 1), (record, 50, 6)]), refused(3, record));
        }
    }
    assert_eq!(said(&[(2, 50, 6), (3, 40, 3)]), refused(26, 2));
    assert_eq!(said(&[(2, 40, 3), (3, 50, 6)]), refused(3, 2));
    assert_eq!(said(&[(2, 50, 6), (3, 0, b'.')]), refused(2, 3));
    let mut bad = file("types.bin");
    bad[28] = 3;
    let opcodes = changed(&[(11, 50, 6)]);
    assert_eq!(to_old(&opcodes, &bad, &mut []), Err(Refusal { number: 26, place: 11 }));
}

/// Wish 6. 27 at the lowest record whose name stands for other bytes, behind 4 and before 17; such a table is good for every other call.
#[test]
fn no_way_back() {
    let types = file("types.bin");
    let mut bad = types.clone();
    bad[28] = 3;
    let refused = |number, place| Err(Refusal { number, place });
    // LdaZero that ends, a Jump that goes on, another operand, a switch without base, or with its distances from the pool.
    for change in [(2, 50, 1), (5, 50, 3), (0, 52, 7), (9, 53, 0), (9, 51, 1), (8, 51, 0)] {
        let opcodes = changed(&[change, (11, 50, 0)]);
        let mut out = [7; 1_000];
        assert_eq!(to_old(&opcodes, &types, &mut out), refused(27, change.0));
        assert_eq!(out, [7; 1_000]);
        assert_eq!(to_old(&opcodes, &types, &mut []), refused(27, change.0));
        assert_eq!(to_old(&opcodes, &bad, &mut out), refused(4, 0));
        let sample = Sample::new();
        assert!(list(&Files { opcodes: &opcodes, ..sample.lent() }, 0, &mut out).is_ok());
    }
}

/// Wish 6. A buffer that is one byte short is 17 and as it was; each way takes its own records alone.
#[test]
fn conversions_that_are_refused() {
    let (old, new, types) = (old_opcodes(), file("opcodes.bin"), file("types.bin"));
    let refused = |number, place| Err(Refusal { number, place });
    for (one, opcodes, length) in [(to_new as Conversion, &old, 864), (to_old, &new, 768)] {
        let mut out = [7; 864];
        assert_eq!(one(opcodes, &types, &mut out[..length - 1]), refused(17, 0));
        assert_eq!(one(opcodes, &types, &mut []), refused(17, 0));
        assert_eq!(one(&opcodes[1..], &types, &mut out), refused(1, 0));
        assert_eq!(one(&[], &types, &mut out), refused(1, 0));
        assert_eq!(one(opcodes, &types[1..], &mut out), refused(1, 0));
        assert_eq!(out, [7; 864]);
        assert_eq!(one(opcodes, &types, &mut out[..length]), Ok(length));
    }
    // 12 records of 64 bytes are no whole records of 72, and 12 of 72 are none of 64.
    assert_eq!(to_old(&old, &types, &mut [0; 864]), refused(1, 0));
    assert_eq!(to_new(&new, &types, &mut [0; 864]), refused(1, 0));
    // Nine of 64 bytes are eight of 72; the second record's name then begins among the first one's zeros.
    let nine = &old[..9 * 64];
    assert!(matches!(to_old(nine, &types, &mut [0; 864]), Err(Refusal { number: 2 | 3, .. })));
    assert!(is_old(&old, &types) && is_old(nine, &types) && is_old(&old[..64], &types));
    assert!(!is_old(&new, &types) && !is_old(&old[1..], &types) && !is_old(&old, &[]));
}

type Conversion = fn(&[u8], &[u8], &mut [u8]) -> Result<usize, Refusal>;

/// Wish 6. What an opcode does is in its bytes: LdaZero that ends, a Jump that goes on or may, a Return that goes on, JumpLoop by another operand. By name alone
/// Return has no step into a handler.
#[test]
fn bytes_instead_of_names() {
    let mut marks = [7; 6];
    let mut walked = |changes: &[(usize, usize, u8)], code: &[u8], records: &[[u32; 3]]| {
        let (sample, opcodes) = (Sample::new(), changed(changes));
        let lent = Lent { opcodes: &opcodes, ..sample.alone() };
        let records = handlers(records);
        walk_code_with(&lent, code, Given { handlers: &records }, &mut marks)
    };
    assert_eq!(walked(&[], &[0x02], &[]), leaves(1, 0));
    assert_eq!(walked(&[(2, 50, 1)], &[0x02], &[]), CLOSED);
    assert_eq!(walked(&[], &[0x05, 0x02, 0x0b], &[]), CLOSED);
    assert_eq!(walked(&[(5, 50, 0)], &[0x05, 0x09, 0x0b], &[]), CLOSED);
    assert_eq!(walked(&[(5, 50, 3)], &[0x05, 0x03, 0x02, 0x0b], &[]), CLOSED);
    assert_eq!(walked(&[(11, 50, 0)], &[0x0b], &[]), leaves(1, 0));
    // Return goes on, and has no handler step.
    assert_eq!(walked(&[(11, 50, 0)], &[0x0b, 0x02], &[[0, 1, 9]]), leaves(2, 1));
    assert_eq!(walked(&[], &[0x02, 0x0b], &[[0, 1, 9]]), leaves(1, 0));
    let (sample, second) = (Sample::new(), changed(&[(7, 52, 1)]));
    let lent = Lent { opcodes: &second, ..sample.alone() };
    assert_eq!(target(&lent, &[0x02, 0x02, 0x07, 0x09, 0x02], 2), Ok(Target::At(0)));
    assert_eq!(target(&sample.alone(), &[0x02, 0x02, 0x07, 0x02, 0x09], 2), Ok(Target::At(0)));
    let beyond = changed(&[(7, 52, 7)]);
    let lent = Lent { opcodes: &beyond, ..sample.alone() };
    assert_eq!(target(&lent, &[0x07, 0x00, 0x00], 0), Ok(Target::Nothing));
}
