//! Functions of real code caches: the folder that export/cache wrote, beside what V8 printed while it compiled the same files. Each exported
//! function is to be listed as V8 printed one, and each that V8 printed is to be exported.

use crate::ask::{Answer, Call, LISTING, LONG_LISTING, LONG_OUTPUT, WALK, WALK_CODE};
use crate::checks::{self, refuse, PROGRAM_OUTPUT};
use crate::convert;
use crate::decode;
use crate::port::{Port, STORE, TABLE};
use crate::printed::{self, Printed};
use crate::records::*;
use crate::switches;
use crate::vectors::Writer;
use crate::walks::Outcome;
use std::collections::BTreeMap;
use std::path::Path;

/// The functions of a folder that export/cache wrote, by name, each with the table's files.
pub fn exported(folder: &Path) -> Result<Vec<(String, Files)>, String> {
    let read = |path: &Path| std::fs::read(path).map_err(|e| format!("{}: {e}", path.display()));
    let mut table = Files::default();
    for file in OPCODES..=LAYOUT {
        table.body[file] = read(&folder.join("table").join(NAMES[file]))?;
    }
    let table = convert::loaded(table);
    let entries = std::fs::read_dir(folder).map_err(|e| format!("{}: {e}", folder.display()))?;
    let names = entries.filter_map(|e| e.ok()?.file_name().into_string().ok());
    let mut names: Vec<String> = names.filter(|name| name != "table").collect();
    names.sort();
    let mut out = Vec::new();
    for name in names {
        let mut files = table.clone();
        for file in OBJECTS..=PAYLOAD {
            files.body[file] = read(&folder.join(&name).join(NAMES[file]))?;
        }
        out.push((name, files));
    }
    Ok(out)
}

/// What V8 printed, by the text that is to be listed; a listing may have been printed more than once.
pub struct Wanted {
    left: BTreeMap<String, Vec<Text>>,
}

/// A printed function.
struct Text {
    printed: Printed,
    /// Lines of switches under a prefix, whose entries V8 prints and the Rust does not.
    prefixed: usize,
    /// Lines of a call by a number for which V8 has a name: the number is not compared.
    named: usize,
}

impl Wanted {
    pub fn new(print: &Path) -> Result<Wanted, String> {
        let bytes = std::fs::read(print).map_err(|e| format!("{}: {e}", print.display()))?;
        let functions = printed::functions(&String::from_utf8_lossy(&bytes));
        let functions = functions.map_err(|e| format!("{}: {e}", print.display()))?;
        let mut left: BTreeMap<String, Vec<Text>> = BTreeMap::new();
        for printed in functions {
            let prefixed = printed.listing.lines().filter(|line| prefixed_switch(line)).count();
            let named = printed.listing.lines().filter(|line| by_number(line).is_some()).count();
            let key = compared(&printed.listing);
            left.entry(key).or_default().push(Text { printed, prefixed, named });
        }
        Ok(Wanted { left })
    }

    /// Takes out a function that is listed so.
    fn take(&mut self, listing: &str) -> Option<Text> {
        let key = compared(listing);
        let texts = self.left.get_mut(&key)?;
        let text = texts.pop();
        if texts.is_empty() {
            self.left.remove(&key);
        }
        text
    }

    /// The handler table of the functions that are listed so, or why there is none.
    pub fn handlers(&self, listing: &str) -> Result<&[[u32; 3]], &'static str> {
        let texts = self.left.get(&compared(listing)).ok_or("V8 printed no such listing")?;
        let first = &texts[0].printed.handlers;
        match texts.iter().all(|text| text.printed.handlers == *first) {
            true => Ok(first),
            false => Err("V8 printed two such listings with other handler tables"),
        }
    }

    /// A function that is left and has the same code.
    fn of_code(&self, listing: &str) -> Option<&Text> {
        self.left.values().flatten().find(|text| code(&text.printed.listing) == code(listing))
    }
}

/// A listing without what is not compared.
fn compared(listing: &str) -> String {
    listing.lines().map(|line| by_number(line).unwrap_or(line.into()) + "\n").collect()
}

fn prefixed_switch(line: &str) -> bool {
    line.contains(" Switch") && line.contains("Wide ")
}

/// CallJSRuntime without its number: V8 prints a name for it (NativeContextIndex), jscd and document 01 the number.
fn by_number(line: &str) -> Option<String> {
    let (before, rest) = line.split_once(" CallJSRuntime [")?;
    let (_, behind) = rest.split_once(']')?;
    Some(format!("{before} CallJSRuntime []{behind}"))
}

/// Offsets and bytes of a listing's lines.
fn code(listing: &str) -> Vec<&str> {
    let bytes = |line: &'_ str| line.find(|c: char| c.is_ascii_uppercase());
    listing
        .lines()
        .skip(6)
        .map(|line| line[..bytes(line).unwrap_or(line.len())].trim_end())
        .collect()
}

/// The first line where two listings part.
fn parting(ours: &str, v8: &str) -> String {
    let pair = ours.lines().zip(v8.lines()).find(|(a, b)| a != b);
    let (a, b) = pair.unwrap_or(("(one ends)", "(one ends)"));
    format!("listed   {}\n  V8     {}", a.trim(), b.trim())
}

// ---- comparing what the programs said ----

#[derive(Default)]
pub struct Comparison {
    functions: usize,
    lines: usize,
    same: usize,
    prefixed: usize,
    named: usize,
    long: usize,
    closed: usize,
    pub differences: Vec<String>,
}

/// `listings` and `answers` are what batch wrote for the folder: a listing for each function, and a line that says its walk.
pub fn compare(
    folder: &Path,
    print: &Path,
    listings: &Path,
    answers: &Path,
) -> Result<Comparison, String> {
    let said =
        std::fs::read_to_string(answers).map_err(|e| format!("{}: {e}", answers.display()))?;
    let said: BTreeMap<&str, &str> = said.lines().filter_map(|line| line.split_once(' ')).collect();
    let mut wanted = Wanted::new(print)?;
    let mut out = Comparison::default();
    let mut others = Vec::new();
    for (name, _) in exported(folder)? {
        out.functions += 1;
        match said.get(name.as_str()) {
            Some(&"closed") => out.closed += 1,
            answer => out.differences.push(format!("{name}: not closed: {answer:?}")),
        }
        if said.get(name.as_str()).is_some_and(|answer| answer.starts_with("refused ")) {
            continue;
        }
        let path = listings.join(format!("{name}.txt"));
        let listing =
            std::fs::read_to_string(&path).map_err(|e| format!("{}: {e}", path.display()))?;
        match wanted.take(&listing) {
            Some(text) => out.matched(&text),
            None => others.push((name, listing)),
        }
    }
    for (name, listing) in others {
        out.differences.push(match wanted.of_code(&listing) {
            Some(text) => format!("{name}: {}", parting(&listing, &text.printed.listing)),
            None => format!("{name}: V8 printed no such code"),
        });
    }
    for text in wanted.left.values().flatten() {
        out.differences
            .push(format!("{}: V8 printed it, and it is not listed so", text.printed.name));
    }
    Ok(out)
}

impl Comparison {
    fn matched(&mut self, text: &Text) {
        self.lines += text.printed.listing.lines().count() - 6;
        self.same += 1;
        self.long += (text.printed.listing.len() > PROGRAM_OUTPUT) as usize;
        self.prefixed += text.prefixed;
        self.named += text.named;
    }

    pub fn report(&self) -> String {
        let Comparison { functions, lines, same, prefixed, named, long, closed, .. } = self;
        let mut out = self.differences.join("\n");
        out += if self.differences.is_empty() { "" } else { "\n" };
        out += &format!("{functions} functions: {same} listed as V8 printed them, {lines} lines, {prefixed} of them switches under a prefix; ");
        out += &format!("{long} listings are longer than jscd_list's {PROGRAM_OUTPUT} bytes\n");
        out += &format!("not compared in these lines: the numbers of {named} CallJSRuntime\n");
        out + &format!("{closed} walks closed; {} differences\n", self.differences.len())
    }
}

// ---- recording ----

pub struct Recording {
    /// Listings, with V8's text.
    pub lists: Writer,
    /// Walks of object 0 and of its code.
    pub walks: Writer,
    pub functions: usize,
    lines: usize,
    /// Functions with a switch under a prefix, and lines of such.
    prefixed: [usize; 2],
    reached: usize,
    /// Functions with lines that are not compared: they are not recorded.
    later: Vec<String>,
    pub differences: Vec<String>,
}

/// Vectors of each function that is listed as V8 printed it, by the Rust and, in the lines of switches under a prefix, by the
/// oracle's own reading (`switches`); a function that is listed otherwise is a difference.
pub fn record(folder: &Path, print: &Path) -> Result<Recording, String> {
    let mut wanted = Wanted::new(print)?;
    let mut out = Recording {
        lists: Writer::sharing(),
        walks: Writer::sharing(),
        functions: 0,
        lines: 0,
        prefixed: [0; 2],
        reached: 0,
        later: Vec::new(),
        differences: Vec::new(),
    };
    for (name, files) in exported(folder)? {
        let rust = listed(&files)?;
        match wanted.take(&rust) {
            Some(text) if text.named > 0 => out.later.push(name),
            Some(text) => out.function(&name, &files, &text)?,
            None => out.differences.push(match wanted.of_code(&rust) {
                Some(text) => format!("{name}: {}", parting(&rust, &text.printed.listing)),
                None => format!("{name}: V8 printed no such code"),
            }),
        }
    }
    for text in wanted.left.values().flatten() {
        out.differences
            .push(format!("{}: V8 printed it, and it is not recorded", text.printed.name));
    }
    Ok(out)
}

/// The listing, of whatever length.
pub fn listed(files: &Files) -> Result<String, String> {
    let good = checks::table(files, TABLE).and_then(|_| checks::store(files, checks::PROGRAM_FILE));
    good.and_then(|_| checks::function(files, 0)).map_err(|refusal| refusal.to_string())?;
    let port = Port::new(files, TABLE | STORE)?;
    let listed = decode::all(&port, port.code(0)).map_err(|refusal| refusal.to_string())?;
    switches::listing(&port, &listed)
}

impl Recording {
    fn function(&mut self, name: &str, files: &Files, text: &Text) -> Result<(), String> {
        let listing = &text.printed.listing;
        self.functions += 1;
        self.lines += listing.lines().count() - 6;
        self.prefixed[0] += (text.prefixed > 0) as usize;
        self.prefixed[1] += text.prefixed;
        self.lists.files(files);
        let text = Answer::Found { words: Vec::new(), text: listing.clone() };
        if listing.len() <= PROGRAM_OUTPUT {
            self.lists.given(&Call::new(LISTING, &[]), &text);
        } else {
            let refusal = refuse::<()>(17, 0).unwrap_err();
            self.lists.given(&Call::new(LISTING, &[]), &Answer::Refused(refusal));
            if listing.len() <= LONG_OUTPUT {
                self.lists.given(&Call::new(LONG_LISTING, &[]), &text);
            }
        }
        let code = Port::new(files, TABLE | STORE)?.code(0).to_vec();
        self.walks.files(files);
        self.walks.code(&code);
        let of_object = self.walks.call(&Call::new(WALK, &[65_536]))?;
        let lent = self.walks.call(&Call::new(WALK_CODE, &[0, code.len() as u64]))?;
        match &of_object {
            Answer::Walked(walked) if walked.outcome == Outcome::Closed && of_object == lent => {
                self.reached += walked.marks.iter().filter(|mark| **mark).count();
            }
            _ => self
                .differences
                .push(format!("{name}: {of_object} as object 0, {lent} as lent code")),
        }
        Ok(())
    }

    pub fn report(&self) -> String {
        let Recording { functions, lines, prefixed, reached, later, .. } = self;
        let mut out = self.differences.join("\n");
        out += if self.differences.is_empty() { "" } else { "\n" };
        out += &format!("{functions} functions, {lines} lines, {reached} of their instructions reached by walks, all closed\n");
        out += &format!(
            "{} of these lines, in {} functions, are switches under a prefix\n",
            prefixed[1], prefixed[0]
        );
        out +=
            &format!("not recorded, since lines of theirs are not compared: {}\n", later.join(" "));
        out + &format!("{} differences\n", self.differences.len())
    }
}

#[cfg(test)]
mod tests {
    use super::*;
    use crate::{sample, vectors};

    /// The Rust lists every recorded function as V8 printed it, and the walks are those recorded.
    #[test]
    fn asked_again() {
        let lists = vectors::replay(include_bytes!("../recorded/caches.vec")).unwrap();
        let walks = vectors::replay(include_bytes!("../recorded/walk-caches.vec")).unwrap();
        // One listing is refused as too long for the program, and recorded once more in a longer buffer.
        assert!(lists > 60 && walks == 2 * (lists - 1));
    }

    /// A folder as export/cache and batch write them, of functions with these codes, and what V8 might have printed of them.
    struct Folder(std::path::PathBuf);

    impl Folder {
        fn new(name: &str, codes: &[&[u8]], print: impl Fn(String) -> String) -> Folder {
            let folder = Path::new(env!("CARGO_MANIFEST_DIR")).join("target/caches").join(name);
            let _ = std::fs::remove_dir_all(&folder);
            let mut printed = String::from("files begin\n");
            for (k, code) in codes.iter().enumerate() {
                let files = sample::function(code, 8, &[Some(4), None]);
                for file in 0..8 {
                    let of = if file <= LAYOUT { "table".into() } else { format!("f{k}") };
                    let to = folder.join("exported").join(of);
                    std::fs::create_dir_all(&to).unwrap();
                    std::fs::write(to.join(NAMES[file]), &files.body[file]).unwrap();
                }
                let listing = listed(&files).unwrap();
                std::fs::create_dir_all(folder.join("listings")).unwrap();
                std::fs::write(folder.join(format!("listings/f{k}.txt")), &listing).unwrap();
                printed += &print(as_v8(k, &listing));
            }
            std::fs::write(folder.join("printed"), printed + "files end\n").unwrap();
            let answers: String = (0..codes.len()).map(|k| format!("f{k} closed\n")).collect();
            std::fs::write(folder.join("answers"), answers).unwrap();
            Folder(folder)
        }

        fn compared(&self) -> Comparison {
            let [exported, printed, listings, answers] =
                ["exported", "printed", "listings", "answers"].map(|name| self.0.join(name));
            compare(&exported, &printed, &listings, &answers).unwrap()
        }

        fn recorded(&self) -> Recording {
            record(&self.0.join("exported"), &self.0.join("printed")).unwrap()
        }
    }

    /// A listing as V8 prints it.
    fn as_v8(k: usize, listing: &str) -> String {
        let head =
            format!("[generated bytecode for function: f{k} (0x12 <SharedFunctionInfo f{k}>)]\n");
        let lines = listing.replace("Bytecode Age", "Bytecode age").replace(" @ ", " 0x12 @ ");
        head + &lines.replace("(jscd 0x12 @", "(0x12 @") + "Constant pool (size = 0)\n"
    }

    const RETURN: &[u8] = &[0x02, 0x0b];
    const JUMP: &[u8] = &[0x06, 0x03, 0x02, 0x0b];

    #[test]
    fn no_difference() {
        let folder = Folder::new("same", &[RETURN, JUMP, RETURN], |print| print);
        let found = folder.compared();
        assert_eq!(found.differences, Vec::<String>::new());
        assert_eq!((found.functions, found.same, found.lines, found.closed), (3, 3, 7, 3));
        let recorded = folder.recorded();
        assert_eq!(recorded.differences, Vec::<String>::new());
        assert_eq!((recorded.functions, recorded.lines, recorded.reached), (3, 7, 7));
        assert_eq!(vectors::replay(&recorded.lists.out), Ok(3));
        assert_eq!(vectors::replay(&recorded.walks.out), Ok(6));
    }

    /// A line, a header number, a function that was not printed and one that was not exported, each is a difference.
    #[test]
    fn differences() {
        let target = |print: String| print.replace("@ 3)", "@ 4)");
        let found = Folder::new("line", &[RETURN, JUMP], target).compared();
        assert_eq!(found.differences.len(), 2);
        let line = "f1: listed   @    0 : 06 03              JumpIfTrue [3] (jscd @ 3)\n  V8     @    0 : 06 03              JumpIfTrue [3] (jscd @ 4)";
        assert_eq!(found.differences, [line, "f1: V8 printed it, and it is not listed so"]);
        let folder = Folder::new("line", &[RETURN, JUMP], target);
        assert_eq!(folder.recorded().functions, 1);
        assert_eq!(folder.recorded().differences.len(), 2);
        let count = |print: String| print.replace("Register count 1", "Register count 2");
        let found = Folder::new("count", &[RETURN], count).compared();
        assert!(
            found.differences[0].contains("listed   Register count 1"),
            "{:?}",
            found.differences
        );
        let none = |print: String| if print.contains(": f1 ") { String::new() } else { print };
        let found = Folder::new("none", &[RETURN, JUMP], none).compared();
        assert_eq!(found.differences, ["f1: V8 printed no such code"]);
        let folder = Folder::new("fewer", &[RETURN, JUMP], |print| print);
        std::fs::remove_dir_all(folder.0.join("exported/f1")).unwrap();
        assert_eq!(folder.compared().differences, ["f1: V8 printed it, and it is not listed so"]);
    }

    /// A walk that is not closed, and a listing that is refused.
    #[test]
    fn answers() {
        let folder = Folder::new("answers", &[RETURN, JUMP], |print| print);
        std::fs::write(folder.0.join("answers"), "f0 closed\nf1 leaves steps 1 from 0\n").unwrap();
        assert_eq!(
            folder.compared().differences,
            ["f1: not closed: Some(\"leaves steps 1 from 0\")"]
        );
        std::fs::write(folder.0.join("answers"), "f0 closed\nf1 refused 17 at 0\n").unwrap();
        let found = folder.compared().differences;
        assert_eq!(found[0], "f1: not closed: Some(\"refused 17 at 0\")");
        assert_eq!(found[1], "f1: V8 printed it, and it is not listed so");
    }

    /// The entries of a switch, plain and under a prefix: another target, or none, is a difference.
    #[test]
    fn entries() {
        let plain: &[u8] = &[0x09, 0x00, 0x02, 0x05, 0x0b];
        // The pool's 4 counted from behind the prefix.
        let wide: &[u8] = &[0x00, 0x09, 0x00, 0x00, 0x02, 0x00, 0x05, 0x00, 0x0b];
        for (code, shown, prefixed) in [(plain, "{ 5: @4 }", 0), (wide, "{ 5: @5 }", 1)] {
            let name = if prefixed == 1 { "wide" } else { "plain" };
            let found = Folder::new(name, &[code], |print| print).compared();
            assert_eq!((found.differences.len(), found.prefixed), (0, prefixed));
            let other = |print: String| {
                assert!(print.contains(shown));
                print.replace(shown, "{ 5: @3 }")
            };
            let none = |print: String| print.replace(&format!(" {shown}"), "");
            assert_eq!(Folder::new(name, &[code], other).compared().differences.len(), 2);
            let folder = Folder::new(name, &[code], none);
            assert_eq!(folder.compared().differences.len(), 2);
            assert_eq!((folder.recorded().functions, folder.recorded().differences.len()), (0, 2));
        }
    }

    /// What is not compared, and nothing beside it.
    #[test]
    fn lines_not_compared() {
        let line = "           @    0 : 67 08 fa 01        CallJSRuntime [reflect_apply], r0-r0";
        let ours = "           @    0 : 67 08 fa 01        CallJSRuntime [8], r0-r0";
        assert_eq!(compared(line), compared(ours));
        assert_ne!(compared(line), compared(&ours.replace("r0-r0", "r0-r1")));
    }
}
