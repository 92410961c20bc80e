//! Which cases a recorded call is one of. The walk here only names cases: answers come from `ask`.

use crate::ask::*;
use crate::records::*;
use std::collections::BTreeMap;

/// How often each class occurred.
#[derive(Default)]
pub struct Classes {
    counts: BTreeMap<String, usize>,
}

impl Classes {
    pub fn add(&mut self, classes: &[String]) {
        for class in classes {
            *self.counts.entry(class.clone()).or_default() += 1;
        }
    }

    pub fn count(&self, class: &str) -> usize {
        self.counts.get(class).copied().unwrap_or(0)
    }

    /// A line for each class.
    pub fn report(&self) -> String {
        self.counts.iter().map(|(class, count)| format!("{count:>6} {class}\n")).collect()
    }

    /// Those of the wanted classes that have no case, which is a defect.
    pub fn missing(&self, wanted: &[String]) -> Vec<String> {
        wanted.iter().filter(|class| self.count(class) == 0).cloned().collect()
    }
}

pub fn wanted() -> Vec<String> {
    WANTED.map(String::from).to_vec()
}

/// Classes that must have a case, beside those that `faults` names.
const WANTED: [&str; 107] = [
    "raw_at: found in the first slot looked at",
    "raw_at: found further down",
    "raw_at: found past a slot of kind other",
    "raw_at: found past a slot of the same index",
    "raw_at: found past a slot exactly 4 below",
    "raw_at: found in a slot more than 4 below",
    "raw_at: found, length 0 at the end of a run",
    "raw_at: found, an empty run",
    "raw_at: found, up to the payload's end",
    "raw_at: nothing, no slot left",
    "raw_at: nothing, stopped with slots left",
    "raw_at: nothing, the stop hides a run",
    "raw_at: nothing, the offset is above 32 bits",
    "raw_at: nothing, the length is above 32 bits",
    "raw_at: nothing, offset and length are 4294967295",
    "raw_at: refused 6",
    "raw_at: refused 7",
    "raw_at: refused 8, the first number without an object",
    "raw_at: refused 8, a number between",
    "raw_at: refused 8, the last number",
    "array_elem: found in the first slot looked at",
    "array_elem: found further down",
    "array_elem: found past a slot of kind other",
    "array_elem: found past a slot of the same index",
    "array_elem: found past a slot exactly 4 below",
    "array_elem: found in a slot more than 4 below",
    "array_elem: object",
    "array_elem: root",
    "array_elem: other reference",
    "array_elem: small integer in a run",
    "array_elem: bytes in a run",
    "array_elem: repeat of other, nothing",
    "array_elem: repeat of an object",
    "array_elem: repeat of a root",
    "array_elem: repeat of an other reference",
    "array_elem: repeat of a small integer",
    "array_elem: repeat of bytes",
    "array_elem: repeat of an empty run",
    "array_elem: repeat of a run shorter than the tagged size",
    "array_elem: repeat of a run longer than the tagged size",
    "array_elem: repeat of 4 bytes, a small integer where the tagged size is 8",
    "array_elem: first of a repeat",
    "array_elem: last of a repeat",
    "array_elem: nothing, no slot left",
    "array_elem: nothing, stopped with slots left",
    "array_elem: nothing, the stop hides an element",
    "array_elem: nothing, the index is above 32 bits",
    "array_elem: refused 6",
    "array_elem: refused 7",
    "array_elem: refused 8, the first number without an object",
    "array_elem: refused 8, a number between",
    "array_elem: refused 8, the last number",
    "array_len: small integer, agrees by tagged size",
    "array_len: small integer, agrees by 8 alone",
    "array_len: plain, agrees by tagged size",
    "array_len: plain, agrees by 8 alone",
    "array_len: plain, by the mark",
    "array_len: small integer, agrees with nothing",
    "array_len: negative, cut to the bound",
    "array_len: cut to the bound",
    "array_len: a field that is no small integer, 0",
    "array_len: no field, 0",
    "array_len: refused 6",
    "array_len: refused 7",
    "array_len: refused 8, the first number without an object",
    "array_len: refused 8, a number between",
    "array_len: refused 8, the last number",
    "bca_rt_off: the units agree",
    "bca_rt_off: at the last run",
    "bca_rt_off: behind the last run",
    "bca_rt_off: before the last run",
    "bca_rt_off: a run last, a repeat of a run behind it",
    "bca_rt_off: no run",
    "bca_rt_off: above 32 bits",
    "bca_rt_off: refused 6",
    "bca_rt_off: refused 7",
    "bca_rt_off: refused 8, the first number without an object",
    "bca_rt_off: refused 8, a number between",
    "bca_rt_off: refused 8, the last number",
    "slot_at: other",
    "slot_at: object",
    "slot_at: root",
    "slot_at: other reference",
    "slot_at: run",
    "slot_at: repeat of other",
    "slot_at: repeat of object",
    "slot_at: repeat of root",
    "slot_at: repeat of other reference",
    "slot_at: repeat of run",
    "slot_at: the first of equal indices",
    "slot_at: nothing",
    "slot_at: nothing, above 32 bits",
    "slot_at: refused 6",
    "slot_at: refused 7",
    "slot_at: refused 8, the first number without an object",
    "slot_at: refused 8, a number between",
    "slot_at: refused 8, the last number",
    "decode_smi_bytes: 8 bytes",
    "decode_smi_bytes: 4 bytes",
    "decode_smi_bytes: negative",
    "decode_smi_bytes: nothing",
    "tagged size 4, unit 0",
    "tagged size 4, unit 4",
    "tagged size 4, unit 8",
    "tagged size 8, unit 0",
    "tagged size 8, unit 4",
    "tagged size 8, unit 8",
];

const KINDS: [&str; 6] = ["other", "object", "root", "other reference", "run", "repeat"];
const MOST: u64 = u32::MAX as u64;

/// The classes of a call and its answer. An error: the answer is not what the walk here finds.
pub fn classes(files: &Files, call: &Call, answer: &Answer) -> Result<Vec<String>, String> {
    let name = FUNCTIONS[call.function].name;
    if let Answer::Refused(refusal) = answer {
        let which = match refusal.number {
            8 if call.args[0] == files.count(OBJECTS) as u64 => {
                ", the first number without an object"
            }
            8 if call.args[0] == u64::MAX => ", the last number",
            8 => ", a number between",
            _ => "",
        };
        return Ok(vec![format!("{name}: refused {}{which}", refusal.number)]);
    }
    let kinds = match call.function {
        RAW_AT => raw_at(files, call, answer)?,
        ARRAY_LEN => array_len(files, call),
        ARRAY_ELEM => array_elem(files, call, answer)?,
        BCA_RT_OFF => bca_rt_off(files, call, answer),
        DECODE_SMI_BYTES => smi_bytes(call, answer),
        SLOT_AT => slot_at(files, call, answer),
        _ => vec!["passed".to_string()],
    };
    Ok(kinds.into_iter().map(|k| format!("{name}: {k}")).collect())
}

fn tagged_size(files: &Files) -> u64 {
    files.layout(0) as u64
}

fn object(files: &Files, call: &Call) -> Object {
    Object::read(files.record(OBJECTS, call.args[0] as usize))
}

/// The slots of an object that is there.
pub fn slots(files: &Files, object: Object) -> Vec<Slot> {
    let number = |k| (object.first + k) as usize;
    (0..object.count).map(|k| Slot::read(files.record(SLOTS, number(k)))).collect()
}

/// A walk downward: the slots passed over, and the one that decides, if any.
struct Walk {
    passed: Vec<Slot>,
    found: Option<Slot>,
    left: usize,
}

fn walk(slots: &[Slot], want: u64, stops: bool, decides: &dyn Fn(&Slot) -> bool) -> Walk {
    let start = slots.iter().filter(|s| s.index as u64 <= want).count();
    let mut passed = Vec::new();
    for k in (0..start).rev() {
        let slot = slots[k];
        if decides(&slot) {
            return Walk { passed, found: Some(slot), left: k };
        }
        passed.push(slot);
        if stops && slot.index as u64 + 4 < want {
            return Walk { passed, found: None, left: k };
        }
    }
    Walk { passed, found: None, left: 0 }
}

/// How a walk went; `hidden` is what the stop hid.
fn ways(slots: &[Slot], want: u64, decides: &dyn Fn(&Slot) -> bool, hidden: &str) -> Vec<String> {
    let Walk { passed, found, left } = walk(slots, want, true, decides);
    let mut out: Vec<String> = Vec::new();
    let Some(slot) = found else {
        if left == 0 {
            out.push("nothing, no slot left".into());
        } else {
            out.push("nothing, stopped with slots left".into());
            if walk(slots, want, false, decides).found.is_some() {
                out.push(format!("nothing, the stop hides {hidden}"));
            }
        }
        return out;
    };
    out.push(match passed.len() {
        0 => "found in the first slot looked at".into(),
        _ => "found further down".into(),
    });
    let marks = [
        ("found past a slot of kind other", passed.iter().any(|s| s.kind == 0)),
        ("found past a slot of the same index", passed.iter().any(|s| s.index == slot.index)),
        ("found past a slot exactly 4 below", passed.iter().any(|s| s.index as u64 + 4 == want)),
        ("found in a slot more than 4 below", slot.index as u64 + 4 < want),
    ];
    out.extend(marks.into_iter().filter(|(_, is)| *is).map(|(mark, _)| mark.into()));
    out
}

fn same(is_found: bool, answer: &Answer, call: &Call) -> Result<(), String> {
    match is_found == matches!(answer, Answer::Found { .. }) {
        true => Ok(()),
        false => Err(format!("{call:?}: the walk of `classes` does not find {answer}")),
    }
}

fn raw_at(files: &Files, call: &Call, answer: &Answer) -> Result<Vec<String>, String> {
    let (off, length) = (call.args[1], call.args[2]);
    if off > MOST {
        return Ok(vec!["nothing, the offset is above 32 bits".into()]);
    }
    if length > MOST {
        return Ok(vec!["nothing, the length is above 32 bits".into()]);
    }
    let ts = tagged_size(files);
    let end = |s: &Slot| s.index as u64 * ts + s.length as u64;
    let holds = |s: &Slot| s.kind == 4 && off >= s.index as u64 * ts && off + length <= end(s);
    let slots = slots(files, object(files, call));
    let found = walk(&slots, off / ts, true, &holds).found;
    same(found.is_some(), answer, call)?;
    let mut out = ways(&slots, off / ts, &holds, "a run");
    if off == MOST && length == MOST {
        out.push("nothing, offset and length are 4294967295".into());
    }
    if let Some(slot) = found {
        let payload = files.body[PAYLOAD].len() as u64;
        let marks = [
            ("found, length 0 at the end of a run", length == 0 && off == end(&slot)),
            ("found, an empty run", slot.length == 0),
            (
                "found, up to the payload's end",
                off + length == end(&slot) && slot.number as u64 + slot.length as u64 == payload,
            ),
        ];
        out.extend(marks.into_iter().filter(|(_, is)| *is).map(|(mark, _)| mark.into()));
    }
    Ok(out)
}

fn array_elem(files: &Files, call: &Call, answer: &Answer) -> Result<Vec<String>, String> {
    if call.args[1] > MOST {
        return Ok(vec!["nothing, the index is above 32 bits".into()]);
    }
    let (ts, want) = (tagged_size(files), call.args[1] + 2);
    let decides = |s: &Slot| match s.kind {
        1..=3 => s.index as u64 == want,
        4 => (want - s.index as u64 + 1) * ts <= s.length as u64,
        5 => want - (s.index as u64) < s.count as u64,
        _ => false,
    };
    let slots = slots(files, object(files, call));
    let found = walk(&slots, want, true, &decides).found;
    let is_other = found.is_some_and(|s| s.kind == 5 && s.inner == 0);
    same(found.is_some() && !is_other, answer, call)?;
    let mut out = ways(&slots, want, &decides, "an element");
    if let Some(slot) = found {
        out.extend(element(&slot, answer, want, ts).into_iter().map(String::from));
    }
    Ok(out)
}

/// What an element is, and by which slot.
fn element(slot: &Slot, answer: &Answer, want: u64, ts: u64) -> Vec<&'static str> {
    let kind = match answer {
        Answer::Found { words, .. } => words[0].bits() as usize,
        _ => 5,
    };
    if slot.kind != 5 {
        let plain =
            ["object", "root", "other reference", "small integer in a run", "bytes in a run"];
        return vec![plain[kind]];
    }
    let repeat = [
        "repeat of an object",
        "repeat of a root",
        "repeat of an other reference",
        "repeat of a small integer",
        "repeat of bytes",
        "repeat of other, nothing",
    ];
    let length = slot.length as u64;
    let marks = [
        ("first of a repeat", want == slot.index as u64),
        ("last of a repeat", want + 1 == slot.index as u64 + slot.count as u64),
        ("repeat of an empty run", slot.inner == 4 && length == 0),
        ("repeat of a run shorter than the tagged size", slot.inner == 4 && length < ts),
        ("repeat of a run longer than the tagged size", slot.inner == 4 && length > ts),
        (
            "repeat of 4 bytes, a small integer where the tagged size is 8",
            slot.inner == 4 && length == 4 && ts == 8 && kind == 3,
        ),
    ];
    let marks = marks.into_iter().filter(|(_, is)| *is).map(|(mark, _)| mark);
    std::iter::once(repeat[kind]).chain(marks).collect()
}

/// The bytes of a field, as the walk here finds them.
fn field(files: &Files, slots: &[Slot], off: u64, length: u64) -> Option<Vec<u8>> {
    let ts = tagged_size(files);
    let end = |s: &Slot| s.index as u64 * ts + s.length as u64;
    let holds = |s: &Slot| s.kind == 4 && off >= s.index as u64 * ts && off + length <= end(s);
    let slot = walk(slots, off / ts, true, &holds).found?;
    let at = slot.number as usize + (off - slot.index as u64 * ts) as usize;
    Some(files.body[PAYLOAD][at..at + length as usize].to_vec())
}

fn array_len(files: &Files, call: &Call) -> Vec<String> {
    let (ts, object) = (tagged_size(files), object(files, call));
    let slots = slots(files, object);
    let room = (object.byte_size as u64).saturating_sub(2 * ts);
    let most = files.body[PAYLOAD].len() as u64 / ts + 2;
    let plain = field(files, &slots, ts, 4).map_or(0, |d| u32_at(&d, 0) as u64);
    let bytes = field(files, &slots, ts, ts);
    let small = bytes.as_ref().and_then(|d| match d.len() {
        8 => (u32_at(d, 0) == 0).then(|| u32_at(d, 4) as i32 as i64),
        _ => (d[0] % 2 == 0).then(|| (u32_at(d, 0) as i32 >> 1) as i64),
    });
    let agrees = |n: u64| (n == room / ts, n == room / 8);
    let (class, n) = match (small, agrees(small.unwrap_or(-1) as u64), agrees(plain)) {
        (Some(v), (true, _), _) => ("small integer, agrees by tagged size", v as u64),
        (Some(v), (_, true), _) => ("small integer, agrees by 8 alone", v as u64),
        (_, _, (true, _)) => ("plain, agrees by tagged size", plain),
        (_, _, (_, true)) => ("plain, agrees by 8 alone", plain),
        _ if object.raw_len == 1 => ("plain, by the mark", plain),
        (Some(v), ..) => ("small integer, agrees with nothing", v as u64),
        _ if bytes.is_some() => ("a field that is no small integer, 0", 0),
        _ => ("no field, 0", 0),
    };
    let mut out = vec![class.to_string()];
    if n > most {
        let negative = (n as i64) < 0;
        out.push(if negative { "negative, cut to the bound" } else { "cut to the bound" }.into());
    }
    out
}

fn bca_rt_off(files: &Files, call: &Call, answer: &Answer) -> Vec<String> {
    let ts = tagged_size(files);
    let unit = if files.layout(1) == 0 { 8 } else { files.layout(1) as u64 };
    let slots = slots(files, object(files, call));
    let last = slots.iter().rposition(|s| s.kind == 4);
    let mut out: Vec<String> = Vec::new();
    out.push(match last {
        _ if ts == unit => "the units agree".into(),
        None => "no run".into(),
        Some(k) => match call.args[1].cmp(&(slots[k].index as u64 * unit)) {
            std::cmp::Ordering::Less => "before the last run".into(),
            std::cmp::Ordering::Equal => "at the last run".into(),
            std::cmp::Ordering::Greater => "behind the last run".into(),
        },
    });
    let behind = |k: usize| slots[k + 1..].iter().any(|s| s.kind == 5 && s.inner == 4);
    if ts != unit && last.is_some_and(behind) {
        out.push("a run last, a repeat of a run behind it".into());
    }
    if matches!(answer, Answer::Found { words, .. } if words[0].bits() > MOST) {
        out.push("above 32 bits".into());
    }
    out
}

fn smi_bytes(call: &Call, answer: &Answer) -> Vec<String> {
    match answer {
        Answer::Found { words, .. } => {
            let mut out = vec![format!("{} bytes", call.bytes.len())];
            if (words[0].bits() as i64) < 0 {
                out.push("negative".into());
            }
            out
        }
        _ => vec!["nothing".into()],
    }
}

fn slot_at(files: &Files, call: &Call, answer: &Answer) -> Vec<String> {
    let Answer::Found { words, .. } = answer else {
        let above = if call.args[1] > MOST { ", above 32 bits" } else { "" };
        return vec![format!("nothing{above}")];
    };
    let number = |k: usize| words[k].bits() as usize;
    let mut out = vec![match number(0) {
        5 => format!("repeat of {}", KINDS[number(4)]),
        kind => KINDS[kind].into(),
    }];
    let slots = slots(files, object(files, call));
    if slots.iter().filter(|s| s.index as u64 == call.args[1]).count() > 1 {
        out.push("the first of equal indices".into());
    }
    out
}
