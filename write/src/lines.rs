//! What stands in a line.

/// A line, without its comment.
#[derive(Debug, PartialEq)]
pub enum Line<'a> {
    /// Nothing, or a header line that is not needed.
    Blank,
    /// The header line `Parameter count N`.
    Parameters(i32),
    Instruction(Text<'a>),
}

/// An instruction's text.
#[derive(Debug, PartialEq)]
pub struct Text<'a> {
    /// The bytes that the line carries, if it does.
    pub bytes: Option<Vec<u8>>,
    /// The plain name, and its scale: 1, 2 (.Wide) or 4 (.ExtraWide).
    pub name: &'a str,
    pub scale: u8,
    pub operands: Vec<&'a str>,
}

/// Header lines of a listing that are passed over.
const HEADERS: [&str; 5] = [
    "Bytecode length: ",
    "Register count ",
    "Frame size ",
    "OSR nesting level: ",
    "Bytecode Age: ",
];

/// The parts of a line. `is_name` says whether there is an opcode of a name.
pub fn parse<'a>(line: &'a str, is_name: impl Fn(&str) -> bool) -> Result<Line<'a>, String> {
    let line = line.split(';').next().unwrap_or_default().trim();
    if line.is_empty() || HEADERS.iter().any(|header| is_header(line, header)) {
        return Ok(Line::Blank);
    }
    if is_header(line, "Parameter count ") {
        let count = line.rsplit(' ').next().and_then(|n| n.parse().ok());
        return count.map(Line::Parameters).ok_or("expected a number of parameters".into());
    }
    let (bytes, text) = match behind_place(line) {
        Some(rest) => bytes_in(rest, is_name),
        None => (None, line),
    };
    instruction(bytes, text).map(Line::Instruction)
}

/// Words and a number, as a listing's header has them.
fn is_header(line: &str, words: &str) -> bool {
    line.strip_prefix(words).is_some_and(|rest| rest.trim().parse::<i64>().is_ok())
}

/// The first word, and what is behind it.
fn word(text: &str) -> (&str, &str) {
    let text = text.trim_start();
    text.split_at(text.find(char::is_whitespace).unwrap_or(text.len()))
}

/// What is behind `@ 12 :`, before which V8 has a source position and an address (`7 S> 0x1f0`). None where a line does
/// not begin so.
fn behind_place(line: &str) -> Option<&str> {
    let digits = |word: &str| !word.is_empty() && word.bytes().all(|b| b.is_ascii_digit());
    let mut rest = line;
    loop {
        let (first, behind) = word(rest);
        match first {
            "@" => {
                let (place, behind) = word(behind);
                let (colon, behind) = word(behind);
                return (digits(place) && colon == ":").then_some(behind);
            }
            "S>" | "E>" => {}
            _ if digits(first) || first.starts_with("0x") => {}
            _ => return None,
        }
        rest = behind;
    }
}

/// The bytes at the start of a text, each two digits, and what is behind them. Where this begins with no opcode's name
/// but the last two digits are one, they are the name.
fn bytes_in(text: &str, is_name: impl Fn(&str) -> bool) -> (Option<Vec<u8>>, &str) {
    let (mut bytes, mut rest, mut last) = (Vec::new(), text.trim_start(), text);
    while let Some((byte, behind)) = first_byte(rest) {
        bytes.push(byte);
        (last, rest) = (rest, behind.trim_start());
    }
    let stem = |text| is_name(word(text).0.split('.').next().unwrap_or_default());
    if !bytes.is_empty() && !stem(rest) && stem(last) {
        bytes.pop();
        rest = last;
    }
    ((!bytes.is_empty()).then_some(bytes), rest)
}

/// Two digits at the start of a text, and what is behind them.
fn first_byte(text: &str) -> Option<(u8, &str)> {
    let (first, behind) = word(text);
    let is_digit = |b: u8| matches!(b, b'0'..=b'9' | b'a'..=b'f');
    let two = first.len() == 2 && first.bytes().all(is_digit);
    two.then(|| u8::from_str_radix(first, 16).map(|byte| (byte, behind)).ok()).flatten()
}

/// Name, operands, and what follows from them: a target in `(..)`, entries in `{ .. }`, which are not looked at.
fn instruction(bytes: Option<Vec<u8>>, text: &str) -> Result<Text<'_>, String> {
    let (whole, rest) = word(text);
    let (name, scale) = match whole.split_once('.') {
        None => (whole, 1),
        Some((name, "Wide")) => (name, 2),
        Some((name, "ExtraWide")) => (name, 4),
        Some((name, other)) => {
            return Err(format!("expected .Wide or .ExtraWide behind {name}, not .{other}"));
        }
    };
    let (listed, tail) = rest.split_at(rest.find(['(', '{']).unwrap_or(rest.len()));
    if !is_tail(tail.trim()) {
        return Err(format!("expected (..) or {{ .. }} behind the operands, not {tail}"));
    }
    let listed = listed.trim();
    let operands = match listed.is_empty() {
        true => Vec::new(),
        false => listed.split(',').map(str::trim).collect(),
    };
    Ok(Text { bytes, name, scale, operands })
}

/// A target, entries, or nothing.
fn is_tail(text: &str) -> bool {
    let closed = |open, close| text.starts_with(open) && text.find(close) == Some(text.len() - 1);
    text.is_empty() || closed('(', ')') || closed('{', '}')
}

#[cfg(test)]
mod tests {
    use super::*;

    fn read(line: &str) -> Result<Line<'_>, String> {
        parse(line, |name| matches!(name, "LdaSmi" | "Return" | "fa"))
    }

    fn text<'a>(bytes: &[u8], name: &'a str, scale: u8, operands: &[&'a str]) -> Line<'a> {
        let bytes = (!bytes.is_empty()).then(|| bytes.to_vec());
        Line::Instruction(Text { bytes, name, scale, operands: operands.to_vec() })
    }

    #[test]
    fn with_and_without_bytes() {
        let listed = "           @    0 : 03 05              LdaSmi [5]";
        assert_eq!(read(listed), Ok(text(&[3, 5], "LdaSmi", 1, &["[5]"])));
        let v8 = "   12 S> 0x3a5f0 @    0 : 00 03 80 01   LdaSmi.Wide [384] ; a comment";
        assert_eq!(read(v8), Ok(text(&[0, 3, 0x80, 1], "LdaSmi", 2, &["[384]"])));
        assert_eq!(read("@ 4 : Return"), Ok(text(&[], "Return", 1, &[])));
        assert_eq!(
            read("\tA.ExtraWide r0,[1] ,  #2\r"),
            Ok(text(&[], "A", 4, &["r0", "[1]", "#2"]))
        );
    }

    #[test]
    fn a_name_of_two_digits() {
        assert_eq!(read("@ 0 : 0b fa"), Ok(text(&[0x0b], "fa", 1, &[])));
        assert_eq!(read("@ 0 : 0b fa [5]"), Ok(text(&[0x0b], "fa", 1, &["[5]"])));
        assert_eq!(read("@ 0 : 0b fa Return"), Ok(text(&[0x0b, 0xfa], "Return", 1, &[])));
    }

    #[test]
    fn tails() {
        assert_eq!(read("J [2] (jscd @ 4)"), Ok(text(&[], "J", 1, &["[2]"])));
        assert_eq!(read("S [0], [1] { 5: @4, 6: @9 }"), Ok(text(&[], "S", 1, &["[0]", "[1]"])));
        assert_eq!(read("S { }"), Ok(text(&[], "S", 1, &[])));
        assert!(read("J [2] (jscd @ 4").is_err());
        assert!(read("J [2] (jscd @ 4) [3]").is_err());
    }

    #[test]
    fn other_lines() {
        for blank in
            ["", "   ", "; all of it", "Bytecode length: 5", "Bytecode Age: 0", "Frame size 8"]
        {
            assert_eq!(read(blank), Ok(Line::Blank), "{blank}");
        }
        assert_eq!(read("Parameter count -1"), Ok(Line::Parameters(-1)));
        assert!(read("Parameter count 99999999999").is_err());
        assert!(read("LdaSmi.Narrow [5]").is_err());
    }
}
