//! The program as it is called, on document 01's sample table.

use jscd_capi::OPCODE_SIZE;
use std::io::Write;
use std::path::{Path, PathBuf};
use std::process::{Command, Stdio};

fn sample() -> PathBuf {
    Path::new(env!("CARGO_MANIFEST_DIR")).join("../crates/jscd_list/data")
}

/// An empty folder of a test's own.
fn folder(name: &str) -> PathBuf {
    let folder = Path::new(env!("CARGO_TARGET_TMPDIR")).join(name);
    let _ = std::fs::remove_dir_all(&folder);
    std::fs::create_dir_all(&folder).unwrap();
    folder
}

/// A copy of the sample's table.
fn table(name: &str) -> PathBuf {
    let folder = folder(name);
    for file in jscd_write::table::NAMES {
        std::fs::copy(sample().join(file), folder.join(file)).unwrap();
    }
    folder
}

fn append(file: PathBuf, more: &[u8]) {
    let held = std::fs::read(&file).unwrap();
    std::fs::write(file, [&held, more].concat()).unwrap();
}

fn opcode(name: &str, codes: &[u8]) -> Vec<u8> {
    let mut out = name.as_bytes().to_vec();
    out.resize(41, 0);
    out.push(codes.len() as u8);
    out.extend(codes);
    out.resize(OPCODE_SIZE, 0);
    out
}

/// Status, standard output and standard error of a call with these lines as standard input.
fn call(args: &[&str], lines: &str) -> (i32, String, String) {
    let mut program = Command::new(env!("CARGO_BIN_EXE_jscd_write"))
        .args(args)
        .stdin(Stdio::piped())
        .stdout(Stdio::piped())
        .stderr(Stdio::piped())
        .spawn()
        .unwrap();
    // A program that refuses its arguments reads nothing.
    let _ = program.stdin.take().unwrap().write_all(lines.as_bytes());
    let done = program.wait_with_output().unwrap();
    let text = |bytes| String::from_utf8(bytes).unwrap();
    (done.status.code().unwrap(), text(done.stdout), text(done.stderr))
}

/// Lines that are written, by a table.
fn writes(table: &Path, args: &[&str], lines: &str) -> String {
    let args = [&[table.to_str().unwrap()], args].concat();
    let (status, out, errors) = call(&args, lines);
    assert_eq!((status, errors.as_str()), (0, ""), "{lines}");
    out
}

/// Lines that are refused, by the sample's table: nothing is written, and this is told.
fn refuses(lines: &str, wanted: &str) {
    let (status, out, errors) = call(&[sample().to_str().unwrap()], lines);
    assert_eq!((status, out.as_str(), errors.as_str()), (1, "", wanted), "{lines}");
}

#[test]
fn the_sample_is_written() {
    let listing = sample().join("../stdout");
    let out = writes(&sample(), &[listing.to_str().unwrap()], "");
    assert_eq!(out, "03 05\n04 fa\n0b\n");
    let lines = "LdaSmi.Wide [384]\nLdaSmi.ExtraWide [-2147483648] ; the least\n\nStar a0\nStar <this>\nStar <context>\n";
    let bytes = "00 03 80 01\n01 03 00 00 00 80\n04 03\n04 02\n04 ff\n";
    assert_eq!(writes(&sample(), &["-"], lines), bytes);
    let lines = "CallRuntime [5], r0-r1\nCallRuntime [5], r3:0\nJumpIfTrue [2] (jscd @ 2)\nSwitchOnSmiNoFeedback [0], [2], [5] { 5: @4 }\n";
    let bytes = "0a 05 00 fa 02\n0a 05 00 f7 00\n06 02\n09 00 02 05\n";
    assert_eq!(writes(&sample(), &[], lines), bytes);
    assert_eq!(writes(&sample(), &[], "; nothing\n"), "");
}

/// `r0-r0` is the list of one register; the line's bytes can say that it is empty.
#[test]
fn an_empty_list() {
    assert_eq!(writes(&sample(), &[], "CallRuntime [5], r0-r0"), "0a 05 00 fa 01\n");
    for bytes in ["0a 05 00 fa 00", "0a 05 00 17 00", "0a 05 00 fa 01"] {
        let line = format!("           @    7 : {bytes}     CallRuntime [5], r0-r0");
        assert_eq!(writes(&sample(), &[], &line), format!("{bytes}\n"));
    }
}

#[test]
fn lines_that_are_refused() {
    for (lines, wanted) in [
        ("Ldar r0", "jscd_write: line 1: Ldar r0: no opcode is named Ldar\n"),
        ("Return\n\n Star r0, r1\n", "jscd_write: line 3: Star r0, r1: of operands Star has 1, and 2 stand there\n"),
        ("Star", "jscd_write: line 1: Star: of operands Star has 1, and 0 stand there\n"),
        ("LdaSmi.Narrow [5]", "jscd_write: line 1: LdaSmi.Narrow [5]: expected .Wide or .ExtraWide behind LdaSmi, not .Narrow\n"),
        ("Wide", "jscd_write: line 1: Wide: refused 22: a prefix cannot stand alone\n"),
        ("LdaSmi 5", "jscd_write: line 1: LdaSmi 5: operand 1: expected a number, [5] or [-5], not 5\n"),
        ("Jump [-1]", "jscd_write: line 1: Jump [-1]: operand 1: expected a number, [5], from 0 to 4294967295, not [-1]\n"),
    ] {
        refuses(lines, wanted);
    }
    for register in ["r-1", "r01", "x0", "<that>", "", "a4294967296"] {
        let line = format!("Star {register},");
        let (status, ..) = call(&[sample().to_str().unwrap()], &line);
        assert_eq!(status, 1, "{line}");
    }
    let why = "operand 1: expected a register: r0, a0, <this>, <context> or <closure>, not r-1";
    refuses("Star r-1", &format!("jscd_write: line 1: Star r-1: {why}\n"));
    let why = "operand 2: r2-r1 ends before it begins; none from r0 on is r0:0";
    refuses(
        "CallRuntime [5], r2-r1",
        &format!("jscd_write: line 1: CallRuntime [5], r2-r1: {why}\n"),
    );
}

#[test]
fn operands_that_do_not_fit() {
    let why = "refused 23: an operand does not fit: at its width it would not read back as it is";
    for (line, more) in [
        ("LdaSmi [384]", "; with .Wide it would"),
        ("LdaSmi.Wide [-32769]", "; with .ExtraWide it would"),
        ("LdaSmi.ExtraWide [2147483648]", ""),
        ("Star r123", "; with .Wide it would"),
        ("CallRuntime [65536], r0-r1", ""),
    ] {
        refuses(line, &format!("jscd_write: line 1: {line}: {why}{more}\n"));
    }
}

/// Every bad line is told, and no line is written.
#[test]
fn bytes_that_differ() {
    let lines =
        "@ 0 : 03 06   LdaSmi [5]\nReturn\n@ 0 : 00 03 05 00   LdaSmi [5]\n@ 0 : 03   LdaSmi [5]\n";
    let (status, out, errors) = call(&[sample().to_str().unwrap()], lines);
    assert_eq!((status, out.as_str()), (1, ""));
    let told: Vec<&str> = errors.lines().collect();
    let first = "jscd_write: line 1: @ 0 : 03 06   LdaSmi [5]: the line has the bytes 03 06, and its text is 03 05";
    assert_eq!((told[0], told.len()), (first, 3));
}

/// Two opcodes of one name: the first, but where the line's bytes say the other.
#[test]
fn opcodes_of_one_name() {
    let table = table("one_name");
    append(table.join("opcodes.bin"), &opcode("Star", &[1]));
    append(table.join("opcodes.bin"), &opcode("Call", &[15, 16, 14]));
    assert_eq!(writes(&table, &[], "Star r0"), "04 fa\n");
    assert_eq!(writes(&table, &[], "@ 0 : 0c fa  Star r0"), "0c fa\n");
    let mut name = b"Abort".to_vec();
    name.resize(64, 0);
    append(table.join("runtime.bin"), &name);
    append(table.join("intrinsic.bin"), &name);
    let again = "0d 00 00 00 05\n0d 00 00 00 05\n0d 01 00 02 05\n";
    let lines = "Call [Abort], [_Abort], #5\nCall [0], [0], #5\nCall [1], [_intrinsic2], #5";
    assert_eq!(writes(&table, &[], lines), again);
}

/// Where the layout has a base for parameters, their names depend on how many there are.
#[test]
fn parameters() {
    let table = table("parameters");
    let mut layout = std::fs::read(table.join("layout.bin")).unwrap();
    layout[4 * 17..][..4].copy_from_slice(&(-6i32).to_le_bytes());
    layout[4 * 18] = 1;
    std::fs::write(table.join("layout.bin"), layout).unwrap();
    assert_eq!(writes(&table, &["--parameters", "2"], "Star <this>\nStar a0"), "04 02\n04 01\n");
    assert_eq!(writes(&table, &[], "Parameter count 1\nStar <this>"), "04 01\n");
    let (status, _, errors) = call(&[table.to_str().unwrap()], "Star a0");
    assert!(status == 1 && errors.contains("--parameters N"), "{errors}");
}

/// A file is written whole; where a line is refused, or the folder is missing, there is none.
#[test]
fn into_a_file() {
    let folder = folder("into_a_file");
    let sample = sample();
    let file = folder.join("code");
    let args = [sample.to_str().unwrap(), "-", "-o", file.to_str().unwrap()];
    assert_eq!(
        call(&args, "LdaSmi [5]\nReturn\nFoo"),
        (1, "".into(), "jscd_write: line 3: Foo: no opcode is named Foo\n".into())
    );
    assert_eq!(std::fs::read_dir(&folder).unwrap().count(), 0);
    assert_eq!(call(&args, "LdaSmi [5]\nReturn\n"), (0, "".into(), "".into()));
    assert_eq!(std::fs::read(&file).unwrap(), [0x03, 0x05, 0x0b]);
    assert_eq!(std::fs::read_dir(&folder).unwrap().count(), 1);
    let missing = folder.join("missing/code");
    let (status, _, errors) = call(&[args[0], "-o", missing.to_str().unwrap()], "Return");
    assert!(status == 2 && errors.starts_with("jscd_write: cannot write "), "{errors}");
}

#[test]
fn files_and_usage() {
    let sample = sample();
    let sample = sample.to_str().unwrap();
    let usage =
        "jscd_write: usage: jscd_write TABLE_FOLDER [LINES_FILE|-] [-o FILE] [--parameters N]\n";
    for args in [
        &[][..],
        &[sample, "-", "more"],
        &[sample, "-o"],
        &[sample, "--parameters", "x"],
        &[sample, "-x"],
        &[sample, "-o", "a", "-o", "b"],
    ] {
        assert_eq!(call(args, ""), (2, "".into(), usage.into()), "{args:?}");
    }
    let (status, _, errors) = call(&[sample, "missing"], "");
    assert!(status == 2 && errors.starts_with("jscd_write: cannot read missing: "), "{errors}");
    let table = table("a_missing_file");
    std::fs::remove_file(table.join("intrinsic.bin")).unwrap();
    let (status, _, errors) = call(&[table.to_str().unwrap()], "Return");
    assert!(status == 2 && errors.contains("intrinsic.bin: "), "{errors}");
    std::fs::write(table.join("intrinsic.bin"), [b'-'; 64]).unwrap();
    let (status, _, errors) = call(&[table.to_str().unwrap()], "Return");
    assert!(
        status == 2 && errors.ends_with("is refused 2 at 0: a record's name is malformed\n"),
        "{errors}"
    );
}

/// Wish 6. A table whose opcode records have 64 bytes, as an older export wrote them, and one that has a flow of 6.
#[test]
fn tables_of_opcodes() {
    let table = table("of_opcodes");
    let file = table.join("opcodes.bin");
    let new = std::fs::read(&file).unwrap();
    let old = |record: &[u8]| [&record[..50], &[0; 14]].concat();
    let old: Vec<u8> = new.chunks_exact(OPCODE_SIZE).flat_map(old).collect();
    std::fs::write(&file, old).unwrap();
    let told = format!(
        "jscd_write: {} has records of 64 bytes: jscd_convert new OPCODES TYPES makes records of 72\n",
        file.display()
    );
    assert_eq!(call(&[table.to_str().unwrap()], "Return"), (2, "".into(), told));
    let mut bad = new.clone();
    bad[5 * OPCODE_SIZE + 50] = 6;
    std::fs::write(&file, bad).unwrap();
    let (status, out, errors) = call(&[table.to_str().unwrap()], "Return");
    assert!(
        status == 2 && out.is_empty() && errors.contains("is refused 26 at 5: an opcode record's"),
        "{errors}"
    );
    // What an opcode does is not written.
    let mut other = new;
    other[5 * OPCODE_SIZE + 50] = 0;
    std::fs::write(&file, other).unwrap();
    assert_eq!(writes(&table, &[], "Jump [2]"), "05 02\n");
}
