//! The functions as one page for a browser: the most serious first, each with its listing, whose targets are links.
//!
//! Each thread appends its functions' parts to a nameless file; at the end they are copied together. So the page needs no memory of its own
//! for a function.

use crate::answer::{shown, Answer, Finding, Kind, KINDS};
use crate::check::Checker;
use crate::input::shown_path;
use crate::interrupt::Part;
use crate::output::folder_of;
use std::fs::File;
use std::io::{self, BufWriter, Seek, Write};
use std::ops::Range;
use std::os::unix::fs::FileExt;
use std::path::{Path, PathBuf};

/// So many functions of a kind are open when the page is, unless they are closed ones.
const MOST_OPEN: usize = 20;

const STYLE: &str = include_str!("page.css");

/// Where the part of a function lies: in which thread's file, from where on, how long.
#[derive(Debug, Clone, Copy)]
pub struct Fragment {
    thread: usize,
    start: u64,
    length: u64,
}

/// The page's file, and the threads' files.
pub struct Page {
    file: PathBuf,
    part: Part,
    parts: Vec<File>,
}

impl Page {
    pub fn new(file: &Path, threads: usize) -> io::Result<Page> {
        let part = Part::new(folder_of(file));
        let parts = (0..threads).map(|_| part.nameless()).collect::<io::Result<_>>()?;
        Ok(Page { file: file.into(), part, parts })
    }

    pub fn file(&self) -> &Path {
        &self.file
    }

    /// Appends a function to its thread's file.
    pub fn put(
        &self,
        thread: usize,
        number: usize,
        name: &[u8],
        finding: &Finding,
        checker: &Checker,
    ) -> io::Result<Fragment> {
        let mut part = &self.parts[thread];
        let start = part.stream_position()?;
        let mut out = BufWriter::new(part);
        put_function(&mut out, number, name, finding, checker)?;
        out.flush()?;
        Ok(Fragment { thread, start, length: part.stream_position()? - start })
    }

    /// Writes the page of these functions, which are sorted by kind.
    pub fn join(&self, input: &Path, functions: &[(Kind, usize, Fragment)]) -> io::Result<()> {
        self.part.whole(&self.file, |file| {
            let mut out = BufWriter::new(file);
            let of = |kind| functions.iter().filter(move |(held, ..)| *held == kind);
            put_head(&mut out, input, KINDS.map(|kind| of(kind).count()))?;
            for kind in KINDS.into_iter().filter(|kind| of(*kind).count() > 0) {
                let (word, title) = (kind.word(), title(kind));
                writeln!(out, "<h2 id={word}>{title}</h2>")?;
                let opens = kind != Kind::Closed && of(kind).count() <= MOST_OPEN;
                for (_, _, fragment) in of(kind) {
                    out.write_all(if opens { b"<details open" } else { b"<details" })?;
                    self.copy(fragment, &mut out)?;
                }
            }
            out.write_all(b"</body></html>\n")?;
            out.flush()
        })
    }

    fn copy(&self, fragment: &Fragment, out: &mut impl Write) -> io::Result<()> {
        let mut buffer = [0; 64 << 10];
        let mut done = 0;
        while done < fragment.length {
            let length = (fragment.length - done).min(buffer.len() as u64) as usize;
            let part = &mut buffer[..length];
            self.parts[fragment.thread].read_exact_at(part, fragment.start + done)?;
            out.write_all(part)?;
            done += length as u64;
        }
        Ok(())
    }
}

fn title(kind: Kind) -> &'static str {
    match kind {
        Kind::Refused => "Refused",
        Kind::Unreadable => "Unreadable",
        Kind::Leaves => "Leaving",
        Kind::Closed => "Closed",
    }
}

/// The page asks nothing of a network and runs nothing: its policy forbids both.
fn put_head(out: &mut impl Write, input: &Path, counts: [usize; 4]) -> io::Result<()> {
    let input = escaped(&shown_path(input));
    writeln!(out, "<!doctype html>\n<html lang=en><head><meta charset=utf-8>")?;
    writeln!(out, "<meta http-equiv=Content-Security-Policy content=\"default-src 'none'; style-src 'unsafe-inline'\">")?;
    writeln!(out, "<meta name=viewport content=\"width=device-width\"><title>{input}</title>")?;
    writeln!(out, "<style>\n{STYLE}</style></head><body>\n<h1>{input}</h1>\n<nav>")?;
    for (kind, count) in KINDS.into_iter().zip(counts).filter(|(_, count)| *count > 0) {
        let (word, title) = (kind.word(), title(kind));
        writeln!(out, "<a class={word} href=#{word}><b>{count}</b> {title}</a>")?;
    }
    out.write_all(LEGEND.as_bytes())
}

const LEGEND: &str = "</nav>
<p>Click a function for its listing; targets are links to their lines. \
<span class=u>Grey lines</span> are reached by no walk, \
<span class=x>the marked line</span> is where the shortest walk leaves, and \
<s>a target</s> is underlined where no instruction starts. \
Walks enter exception handlers, unless a function has no handlers.bin.</p>
";

/// A function's element, from behind its `<details` on, so that the page can say whether it is open.
fn put_function(
    out: &mut impl Write,
    number: usize,
    name: &[u8],
    finding: &Finding,
    checker: &Checker,
) -> io::Result<()> {
    let (word, name) = (finding.kind().word(), escaped(&shown(name)));
    let answer = match &finding.answer {
        Answer::Unreadable(_) => "unreadable".to_string(),
        answer => answer.to_string(),
    };
    write!(out, " class={word}><summary><b>{name}</b> <i>{answer}</i>")?;
    if let Some(listing) = finding.listing {
        let (code, instructions) = (listing.code, listing.instructions);
        write!(out, " <small>{code} bytes, {instructions} instructions")?;
        if let Some(handlers) = finding.handlers.filter(|handlers| *handlers > 0) {
            write!(out, ", {handlers} handlers")?;
        }
        out.write_all(b"</small>")?;
    }
    out.write_all(b"</summary>\n")?;
    let lines = Lines::of(number, finding, checker);
    put_words(out, &lines, &finding.answer)?;
    if finding.lacks_handlers() {
        out.write_all(NO_HANDLERS.as_bytes())?;
    }
    if finding.listing.is_some() {
        out.write_all(b"<pre>")?;
        for line in lines.text.split_inclusive(|byte| *byte == b'\n') {
            lines.put(out, line)?;
        }
        out.write_all(b"</pre>\n")?;
    }
    out.write_all(b"</details>\n")
}

const NO_HANDLERS: &str =
    "<p>It has no handlers.bin: walks enter no exception handler of it.</p>\n";

/// What is found, in words.
fn put_words(out: &mut impl Write, lines: &Lines, answer: &Answer) -> io::Result<()> {
    let (function, grey) = (lines.function, lines.grey());
    match answer {
        Answer::Closed if grey == 0 => writeln!(out, "<p>No walk leaves.</p>"),
        Answer::Closed => {
            let lines = if grey == 1 { "1 instruction" } else { &format!("{grey} instructions") };
            writeln!(out, "<p>No walk leaves, and none reaches {lines}.</p>")
        }
        Answer::Leaves { steps, from } => {
            let link = format!("<a href=#f{function}-{from}>{from}</a>");
            let steps = if *steps == 1 { "1 step" } else { &format!("{steps} steps") };
            let pale = "<span class=v>Pale lines</span> are not reached in fewer";
            writeln!(out, "<p>A walk of {steps} leaves from {link}, none of fewer. {pale}.</p>")
        }
        Answer::Refused(refusal) => writeln!(out, "<p>{}.</p>", meaning(refusal.number)),
        Answer::Unreadable(why) => writeln!(out, "<p>{}</p>", escaped(why)),
    }
}

/// What a refusal of a function means (docs/RULES.md).
fn meaning(number: u8) -> &'static str {
    match number {
        1 => "A table file is not whole records, or has too few or too many",
        2 => "The table has a malformed name, in the record of that number",
        3 => "The table has a bad opcode record of that number",
        4 => "The table has a bad type record of that number",
        5 => "The layout has a value out of its range, of that number",
        6 => "A file of the function is not whole records, or too long",
        7 => "An object record or a slot record is bad, of that number",
        8 => "Object 0 is not there, or is no BytecodeArray",
        9 => "The code's length is below 0 or above 65,536",
        11 => "The code ends behind a Wide prefix at that place",
        12 => "The code ends behind an ExtraWide prefix at that place",
        13 => "The instruction at that place has an opcode that the table has not",
        14 => "The code ends within the operand at that place",
        15 => "The code ends within the count of a register list at that place",
        16 => "The switch at that place has fewer than 0 or more than 4,096 entries",
        17 => "The listing is longer than there is room for",
        19 => "The code has a length, and no run holds it",
        24 => "handlers.bin is not whole records, or has more than 4,096",
        25 => "In the handler record of that number the start is not below the end, or the end is beyond the code",
        26 => "In the opcode record of that number one of bytes 50 to 53, which say what the opcode does, is out of its range",
        _ => "No reason is known",
    }
}

/// A line starts here; one is a target, or is left from; a walk comes by.
const STARTS: u8 = 1;
const NAMED: u8 = 2;
const REACHED: u8 = 4;

/// A function's lines, and for each offset what there is of it.
struct Lines<'a> {
    function: usize,
    text: &'a [u8],
    places: Vec<u8>,
    from: Option<usize>,
    /// Without an answer to the walks nothing is known of what they reach.
    walked: bool,
}

impl<'a> Lines<'a> {
    fn of(function: usize, finding: &Finding, checker: &'a Checker) -> Lines<'a> {
        let code = finding.listing.map_or(0, |listing| listing.code);
        let from = match finding.answer {
            Answer::Leaves { from, .. } => Some(from),
            _ => None,
        };
        let walked = matches!(finding.answer, Answer::Closed | Answer::Leaves { .. });
        let (text, places) = (checker.text(), vec![0; code]);
        let mut lines = Lines { function, text, places, from, walked };
        for line in lines.text.split(|byte| *byte == b'\n') {
            let Some((offset, text)) = instruction(line) else { continue };
            let reached = checker.marks().get(offset).is_some_and(|mark| *mark != 0);
            lines.note(offset as u64, if reached { STARTS | REACHED } else { STARTS });
            for (_, target) in targets(&line[text..]) {
                lines.note(target, NAMED);
            }
        }
        lines.note(from.map_or(u64::MAX, |from| from as u64), NAMED);
        lines
    }

    fn note(&mut self, offset: u64, what: u8) {
        if let Some(place) = usize::try_from(offset).ok().and_then(|at| self.places.get_mut(at)) {
            *place |= what;
        }
    }

    fn is(&self, offset: u64, what: u8) -> bool {
        let place = usize::try_from(offset).ok().and_then(|at| self.places.get(at));
        place.is_some_and(|place| place & what != 0)
    }

    /// How many instructions no walk reaches.
    fn grey(&self) -> usize {
        self.places.iter().filter(|place| *place & (STARTS | REACHED) == STARTS).count()
    }

    fn put(&self, out: &mut impl Write, line: &[u8]) -> io::Result<()> {
        let Some((offset, text)) = instruction(line) else { return put_escaped(out, line) };
        let line = line.strip_suffix(b"\n").unwrap_or(line);
        let at = offset as u64;
        let (leaves, reached) = (self.from == Some(offset), self.is(at, REACHED));
        let class = match (leaves, reached, self.from) {
            (true, ..) => " class=x",
            (_, true, _) => "",
            _ if !self.walked => "",
            // Longer walks may reach it.
            (.., Some(_)) => " class=v",
            (.., None) => " class=u",
        };
        let id = match self.is(at, NAMED) {
            true => format!(" id=f{}-{offset}", self.function),
            false => String::new(),
        };
        let plain = class.is_empty() && id.is_empty();
        if !plain {
            write!(out, "<span{id}{class}>")?;
        }
        out.write_all(&line[..text])?;
        self.put_text(out, &line[text..])?;
        let end = if plain {
            "\n"
        } else if leaves {
            " &larr; leaves</span>\n"
        } else {
            "</span>\n"
        };
        out.write_all(end.as_bytes())
    }

    /// What stands behind the offset: each target that is a line's start is a link to it.
    fn put_text(&self, out: &mut impl Write, text: &[u8]) -> io::Result<()> {
        let mut done = 0;
        for (place, target) in targets(text) {
            put_escaped(out, &text[done..place.start])?;
            match self.is(target, STARTS) {
                true => write!(out, "<a href=#f{}-{target}>{target}</a>", self.function)?,
                false => write!(out, "<s>{target}</s>")?,
            }
            done = place.end;
        }
        put_escaped(out, &text[done..])
    }
}

/// The offset of an instruction's line, and where the line goes on behind it.
fn instruction(line: &[u8]) -> Option<(usize, usize)> {
    let at = line.iter().position(|byte| *byte != b' ').filter(|at| line[*at] == b'@')?;
    let (_, offset) =
        targets(&line[at..]).next().map(|(place, number)| (place, number as usize))?;
    let colon = line[at..].windows(3).position(|three| three == b" : ")?;
    Some((offset, at + colon))
}

/// The numbers behind each `@`, with any blanks between: where they stand, and what they are.
fn targets(text: &[u8]) -> impl Iterator<Item = (Range<usize>, u64)> + '_ {
    let signs = (0..text.len()).filter(|at| text[*at] == b'@');
    signs.filter_map(|at| {
        let blanks = text[at + 1..].iter().take_while(|byte| **byte == b' ').count();
        let start = at + 1 + blanks;
        let length = text[start..].iter().take_while(|byte| byte.is_ascii_digit()).count();
        let digits = std::str::from_utf8(&text[start..start + length]).ok()?;
        Some((start..start + length, digits.parse().ok()?))
    })
}

fn escaped(text: &str) -> String {
    let mut out = Vec::new();
    let _ = put_escaped(&mut out, text.as_bytes());
    String::from_utf8(out).unwrap_or_default()
}

/// Text as a page has it, also within quotation marks.
fn put_escaped(out: &mut impl Write, text: &[u8]) -> io::Result<()> {
    for part in text.split_inclusive(|byte| b"&<>\"'".contains(byte)) {
        let (last, rest) = part.split_last().expect("a part has a byte");
        let entity: &[u8] = match last {
            b'&' => b"&amp;",
            b'<' => b"&lt;",
            b'>' => b"&gt;",
            b'"' => b"&quot;",
            b'\'' => b"&#39;",
            _ => {
                out.write_all(part)?;
                continue;
            }
        };
        out.write_all(rest)?;
        out.write_all(entity)?;
    }
    Ok(())
}
