//! What is found of a function, and how it is told: as a line, and as JSON.

use jscd_capi::Refusal;
use std::fmt::{self, Write};

#[derive(Debug, Clone, PartialEq)]
pub enum Answer {
    Closed,
    Leaves { steps: usize, from: usize },
    Refused(Refusal),
    Unreadable(String),
}

impl fmt::Display for Answer {
    fn fmt(&self, f: &mut fmt::Formatter) -> fmt::Result {
        match self {
            Answer::Closed => f.write_str("closed"),
            Answer::Leaves { steps, from } => write!(f, "leaves steps {steps} from {from}"),
            Answer::Refused(refusal) => refusal.fmt(f),
            Answer::Unreadable(why) => write!(f, "unreadable: {why}"),
        }
    }
}

/// Kinds of answers, the most serious first.
#[derive(Debug, Clone, Copy, PartialEq, Eq, PartialOrd, Ord)]
pub enum Kind {
    Refused,
    Unreadable,
    Leaves,
    Closed,
}

pub const KINDS: [Kind; 4] = [Kind::Refused, Kind::Unreadable, Kind::Leaves, Kind::Closed];

impl Kind {
    pub fn word(self) -> &'static str {
        match self {
            Kind::Refused => "refused",
            Kind::Unreadable => "unreadable",
            Kind::Leaves => "leaves",
            Kind::Closed => "closed",
        }
    }
}

/// What a listing says: its own length, and its function's bytes of code and instructions.
#[derive(Debug, Clone, Copy, PartialEq)]
pub struct Listing {
    pub length: usize,
    pub code: usize,
    pub instructions: usize,
}

/// A listing is there unless the answer is a refusal of it, or unreadable.
#[derive(Debug, Clone, PartialEq)]
pub struct Finding {
    pub answer: Answer,
    pub listing: Option<Listing>,
    /// How many handler records the walk check was lent; None where the function has no file of them, or no listing.
    pub handlers: Option<usize>,
}

impl Finding {
    pub fn kind(&self) -> Kind {
        match self.answer {
            Answer::Closed => Kind::Closed,
            Answer::Leaves { .. } => Kind::Leaves,
            Answer::Refused(_) => Kind::Refused,
            Answer::Unreadable(_) => Kind::Unreadable,
        }
    }

    /// Whether its walks were looked at without its handlers, of which there is no file.
    pub fn lacks_handlers(&self) -> bool {
        self.listing.is_some() && self.handlers.is_none()
    }

    pub fn line(&self, name: &[u8]) -> String {
        format!("{} {}\n", shown(name), self.answer)
    }

    /// One object on one line; what is not there is null.
    pub fn json(&self, name: &[u8]) -> String {
        let mut out = format!("{{\"name\":{}", json_text(&String::from_utf8_lossy(name)));
        if std::str::from_utf8(name).is_err() {
            let digits: String = name.iter().map(|byte| format!("{byte:02x}")).collect();
            let _ = write!(out, ",\"name_bytes\":\"{digits}\"");
        }
        let (mut walk, mut refusal, mut why) = (None, "null".to_string(), "null".to_string());
        match &self.answer {
            Answer::Closed => {}
            Answer::Leaves { steps, from } => walk = Some((*steps, *from)),
            Answer::Refused(Refusal { number, place }) => {
                refusal = format!("{{\"number\":{number},\"place\":{place}}}");
            }
            Answer::Unreadable(text) => why = json_text(text),
        }
        let number = |number: Option<usize>| number.map_or("null".into(), |n| n.to_string());
        let (steps, from) = (number(walk.map(|w| w.0)), number(walk.map(|w| w.1)));
        let listing = number(self.listing.map(|l| l.length));
        let code = number(self.listing.map(|l| l.code));
        let instructions = number(self.listing.map(|l| l.instructions));
        let handlers = number(self.handlers);
        let answer = self.kind().word();
        let _ = write!(out, ",\"answer\":\"{answer}\",\"steps\":{steps},\"from\":{from}");
        let _ = write!(out, ",\"refusal\":{refusal},\"unreadable\":{why},\"listing\":{listing}");
        let _ = write!(out, ",\"code\":{code},\"instructions\":{instructions}");
        let _ = writeln!(out, ",\"handlers\":{handlers}}}");
        out
    }
}

/// A text as JSON has it.
fn json_text(text: &str) -> String {
    let mut out = String::from("\"");
    for c in text.chars() {
        match c {
            '"' | '\\' => out.extend(['\\', c]),
            '\u{0}'..='\u{1f}' | '\u{7f}'..='\u{9f}' | '\u{2028}' | '\u{2029}' => {
                let _ = write!(out, "\\u{:04x}", u32::from(c));
            }
            _ => out.push(c),
        }
    }
    out + "\""
}

/// A name as it is; where it has a control character, is not UTF-8 or begins with `"`, in quotation marks and with `\`, so that a line
/// stays a line and no two names look alike.
pub fn shown(name: &[u8]) -> String {
    if let Ok(text) = std::str::from_utf8(name) {
        if !text.starts_with('"') && !text.chars().any(char::is_control) {
            return text.into();
        }
    }
    let mut out = String::from("\"");
    for chunk in name.utf8_chunks() {
        for c in chunk.valid().chars() {
            match c {
                '"' | '\\' => out.extend(['\\', c]),
                '\n' => out.push_str("\\n"),
                '\r' => out.push_str("\\r"),
                '\t' => out.push_str("\\t"),
                _ if c.is_control() => {
                    let _ = write!(out, "\\u{{{:x}}}", u32::from(c));
                }
                _ => out.push(c),
            }
        }
        for byte in chunk.invalid() {
            let _ = write!(out, "\\x{byte:02x}");
        }
    }
    out + "\""
}
