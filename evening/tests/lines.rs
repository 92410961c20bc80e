//! What is told and listed of functions that are as they should be, or refused.

mod folder;

use folder::*;
use std::path::Path;

/// A function for each answer, with document 01's `03`, P10 and P12.
fn each(name: &str) -> std::path::PathBuf {
    let input = input(name);
    put(&input, "cut", &[0x03]);
    put(&input, "jumps", &[0x05, 0x01]);
    put(&input, "left or right", &[0x06, 0x02, 0x0b]);
    put(&input, "sample", SAMPLE);
    std::fs::create_dir(input.join("missing")).unwrap();
    std::fs::write(input.join("no folder"), "").unwrap();
    input
}

#[test]
fn lines_and_listings() {
    let input = each("lines");
    let [from, to] = both(&input);
    let missing = from.join("missing/objects.bin");
    let lines = format!(
        "cut refused 14 at 1\njumps leaves steps 1 from 0\nleft or right closed\nmissing unreadable: {}: No such file or directory\nsample closed\n",
        missing.display()
    );
    for jobs in ["-j1", "-j3", "-j1024"] {
        let (status, out, errors) = call([Path::new(jobs), &from, &to]);
        assert_eq!((status, out.as_str()), (1, lines.as_str()));
        let counts = "batch: 5 functions: 2 closed, 1 leave, 1 refused, 1 unreadable; ";
        assert!(errors.starts_with(counts) && errors.lines().count() == 1, "{errors}");
        assert!(errors.ends_with(" functions a second\n"), "{errors}");
        assert_eq!(std::fs::read(to.join("sample.txt")).unwrap(), sample_listing());
        assert_eq!(names(&to), ["jumps.txt", "left or right.txt", "sample.txt"]);
    }
}

#[test]
fn lines_of_json() {
    let input = each("json");
    put(&input, "say \"hi\"\n\\", SAMPLE);
    put(&input, bytes(b"\xff"), SAMPLE);
    let [from, to] = both(&input);
    let (status, out, _) = call([Path::new("--json"), &from, &to]);
    let path = from.join("missing/objects.bin");
    let why = format!("{}: No such file or directory", path.display());
    let lines = [
        r#"{"name":"cut","answer":"refused","steps":null,"from":null,"refusal":{"number":14,"place":1},"unreadable":null,"listing":null,"code":null,"instructions":null,"handlers":null}"#.to_string(),
        r#"{"name":"jumps","answer":"leaves","steps":1,"from":0,"refusal":null,"unreadable":null,"listing":163,"code":2,"instructions":1,"handlers":0}"#.into(),
        r#"{"name":"left or right","answer":"closed","steps":null,"from":null,"refusal":null,"unreadable":null,"listing":215,"code":3,"instructions":2,"handlers":0}"#.into(),
        format!(r#"{{"name":"missing","answer":"unreadable","steps":null,"from":null,"refusal":null,"unreadable":"{why}","listing":null,"code":null,"instructions":null,"handlers":null}}"#),
        r#"{"name":"sample","answer":"closed","steps":null,"from":null,"refusal":null,"unreadable":null,"listing":247,"code":5,"instructions":3,"handlers":0}"#.into(),
        r#"{"name":"say \"hi\"\u000a\\","answer":"closed","steps":null,"from":null,"refusal":null,"unreadable":null,"listing":247,"code":5,"instructions":3,"handlers":0}"#.into(),
        "{\"name\":\"\u{fffd}\",\"name_bytes\":\"ff\",\"answer\":\"closed\",\"steps\":null,\"from\":null,\"refusal\":null,\"unreadable\":null,\"listing\":247,\"code\":5,\"instructions\":3,\"handlers\":0}".into(),
    ];
    assert_eq!(status, 1);
    assert_eq!(out.lines().collect::<Vec<_>>(), lines);
    for (name, length) in [("jumps.txt", 163), ("left or right.txt", 215), ("sample.txt", 247)] {
        assert_eq!(std::fs::metadata(to.join(name)).unwrap().len(), length);
    }
}

#[test]
fn all_closed() {
    let input = input("closed");
    put(&input, "sample", SAMPLE);
    let (status, out, _) = call(both(&input));
    assert_eq!((status, out.as_str()), (0, "sample closed\n"));
}

/// What the gate runs the two programs on: the walk's answer stands in its recorded output. With a handler it is another.
#[test]
fn the_programs_own_functions() {
    let input = input("programs");
    for program in ["jscd_list", "jscd_walk"] {
        let data = crates(program).join("data");
        put_files(
            &input.join(program),
            &STORE,
            &STORE.map(|file| std::fs::read(data.join(file)).unwrap()),
        );
    }
    let answer = std::fs::read_to_string(crates("jscd_walk/stdout")).unwrap();
    let (_, out, _) = call(both(&input));
    assert_eq!(out, format!("jscd_list closed\njscd_walk {answer}"));
    let handlers = "handlers.bin";
    std::fs::copy(crates("jscd_walk/data").join(handlers), input.join("jscd_walk").join(handlers))
        .unwrap();
    let (_, out, _) = call(both(&input));
    assert_eq!(out, "jscd_list closed\njscd_walk leaves steps 1 from 0\n");
}

/// Empty code is closed, and its listing is the header. A length that no run holds is the walk check's 19, and is listed likewise.
#[test]
fn code_that_is_not_there() {
    let input = input("empty");
    put(&input, "empty", &[]);
    let payload = put(&input, "not held", SAMPLE).join("payload.bin");
    let mut bytes = std::fs::read(&payload).unwrap();
    bytes[4] = 11;
    std::fs::write(&payload, bytes).unwrap();
    let [from, to] = both(&input);
    let (status, out, _) = call([&from, &to]);
    assert_eq!((status, out.as_str()), (1, "empty closed\nnot held refused 19 at 0\n"));
    for (name, length) in [("empty.txt", 0), ("not held.txt", 11)] {
        let text = std::fs::read_to_string(to.join(name)).unwrap();
        assert!(text.starts_with(&format!("Bytecode length: {length}\n")), "{text}");
        assert_eq!(text.lines().count(), 6);
    }
}

/// Document 01's largest code: 65,535 LdaZero and a Return. Its listing has 2.5 MB, and is listed and walked all the same.
#[test]
fn a_listing_longer_than_64_kib() {
    let input = input("long");
    let mut code = vec![0x02; 65_536];
    put(&input, "falls off", &code);
    code[65_535] = 0x0b;
    put(&input, "long", &code);
    put(&input, "short", SAMPLE);
    put(&input, "two files", SAMPLE);
    let [from, to] = both(&input);
    let (status, out, _) = call([Path::new("-j1"), &from, &to]);
    let lines =
        "falls off leaves steps 65536 from 65535\nlong closed\nshort closed\ntwo files closed\n";
    assert_eq!((status, out.as_str()), (1, lines));
    let text = std::fs::read_to_string(to.join("long.txt")).unwrap();
    assert_eq!(text.lines().count(), 6 + 65_536);
    assert!(text.ends_with("           @ 65535 : 0b                 Return\n"));
    assert_eq!(std::fs::read(to.join("short.txt")).unwrap(), sample_listing());
}

/// A file that is longer than document 01 lets it be is refused, and read no further.
#[test]
fn files_that_are_too_long() {
    let input = input("too long");
    let lengths = [65_536 * 16 + 16, 1_048_576 * 24 + 24, 1 << 40];
    for (file, length) in STORE.iter().zip(lengths) {
        let folder = put(&input, file, SAMPLE);
        let opened = std::fs::File::options().write(true).open(folder.join(file)).unwrap();
        opened.set_len(length).unwrap();
    }
    let (_, out, _) = call(both(&input));
    assert_eq!(
        out,
        "objects.bin refused 6 at 0\npayload.bin refused 6 at 0\nslots.bin refused 6 at 0\n"
    );
}

/// A table that is refused is refused for each function.
#[test]
fn a_table_that_is_refused() {
    let input = input("bad table");
    put(&input, "sample", SAMPLE);
    std::fs::write(input.join("table/layout.bin"), "short").unwrap();
    let (status, out, _) = call(both(&input));
    assert_eq!((status, out.as_str()), (1, "sample refused 1 at 0\n"));
}

/// Wish 6. So is one with an opcode that does what no number of bytes 50 to 53 means.
#[test]
fn a_flow_that_is_refused() {
    let input = input("bad flow");
    put(&input, "sample", SAMPLE);
    let file = input.join("table/opcodes.bin");
    let mut opcodes = std::fs::read(&file).unwrap();
    opcodes[3 * 72 + 50] = 6;
    std::fs::write(&file, opcodes).unwrap();
    let [from, to] = both(&input);
    let page = to.join("index.html");
    let (status, out, _) = call([Path::new("--html"), &page, &from, &to]);
    assert_eq!((status, out.as_str()), (1, "sample refused 26 at 3\n"));
    let page = std::fs::read_to_string(page).unwrap();
    assert!(
        page.contains("<p>In the opcode record of that number one of bytes 50 to 53"),
        "{page}"
    );
}

/// Wish 6. The bytes decide, not the name: a LdaZero that ends.
#[test]
fn an_opcode_that_ends() {
    let input = input("ends");
    put(&input, "zero", &[0x02]);
    let file = input.join("table/opcodes.bin");
    assert_eq!(call(both(&input)).1, "zero leaves steps 1 from 0\n");
    let mut opcodes = std::fs::read(&file).unwrap();
    opcodes[2 * 72 + 50] = 1;
    std::fs::write(&file, opcodes).unwrap();
    assert_eq!(call(both(&input)).1, "zero closed\n");
}

/// The sample's opcodes in records of 64 bytes, as an older export wrote them: it is told what to do, and nothing is done. The same records cut are refused like
/// any other file.
#[test]
fn a_table_of_an_older_export() {
    let input = input("old table");
    put(&input, "sample", SAMPLE);
    let file = input.join("table/opcodes.bin");
    let new = std::fs::read(&file).unwrap();
    let old: Vec<u8> =
        new.chunks_exact(72).flat_map(|record| [&record[..50], &[0; 14]].concat()).collect();
    let [from, to] = both(&input);
    // Nine records of 64 bytes are as long as eight of 72.
    for length in [64, 9 * 64, old.len()] {
        std::fs::write(&file, &old[..length]).unwrap();
        let told = "has records of 64 bytes: jscd_convert new OPCODES TYPES makes records of 72";
        let told = format!("batch: {} {told}\n", file.display());
        assert_eq!(call([&from, &to]), (2, "".into(), told));
        assert!(!to.exists());
    }
    std::fs::write(&file, &old[1..]).unwrap();
    let (status, out, _) = call([&from, &to]);
    assert_eq!((status, out.as_str()), (1, "sample refused 1 at 0\n"));
    std::fs::write(&file, &new).unwrap();
    assert_eq!(call([&from, &to]).1, "sample closed\n");
}
