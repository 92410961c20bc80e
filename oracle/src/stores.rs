//! Random stores, good by rows 6 and 7, and calls at and around their boundaries.

use crate::ask::*;
use crate::classes::slots;
use crate::random::Random;
use crate::records::*;
use crate::sample;

/// The sample's layout record with another tagged size and unit.
pub fn layout(ts: u32, unit: u32) -> Vec<u8> {
    let mut record = sample::table().body[LAYOUT].clone();
    record[..4].copy_from_slice(&ts.to_le_bytes());
    record[4..8].copy_from_slice(&unit.to_le_bytes());
    record
}

/// A layout and a store of 1 to 6 objects.
pub fn store(r: &mut Random, ts: u32, unit: u32) -> Files {
    let count = 1 + r.below(6) as u32;
    let mut maker = Maker { payload: payload(r), r, ts, count, slots: Vec::new() };
    let mut objects = Vec::new();
    while objects.len() < count as usize {
        let object = maker.object(&objects);
        objects.push(object);
    }
    // Slots that no object has may fall.
    if maker.r.once_in(4) {
        let slot = maker.slot(0);
        maker.slots.push(slot);
    }
    let mut files = Files::default();
    files.body[LAYOUT] = layout(ts, unit);
    files.body[OBJECTS] = objects.iter().flat_map(Object::bytes).collect();
    files.body[SLOTS] = maker.slots.iter().flat_map(Slot::bytes).collect();
    files.body[PAYLOAD] = maker.payload;
    files
}

/// Small integers of both sizes, and bytes that are none.
fn payload(r: &mut Random) -> Vec<u8> {
    let mut out = Vec::new();
    for _ in 0..4 + r.below(12) {
        let number = *r.pick(&[0i32, 1, 2, 3, 5, 9, -1, -7, i32::MIN, i32::MAX]);
        match r.below(6) {
            0 | 1 => {
                out.extend([0; 4]);
                out.extend(number.to_le_bytes());
            }
            2 => out.extend(number.wrapping_mul(2).to_le_bytes()),
            3 => out.extend(number.to_le_bytes()),
            4 => out.extend(r.bytes(8)),
            _ => {
                let some = 1 + r.below(4) as usize;
                out.extend(r.bytes(some));
            }
        }
    }
    out
}

struct Maker<'a> {
    r: &'a mut Random,
    ts: u32,
    count: u32,
    slots: Vec<Slot>,
    payload: Vec<u8>,
}

impl Maker<'_> {
    fn object(&mut self, before: &[Object]) -> Object {
        let kind = self.r.below(3) as u8;
        let raw_len = self.r.once_in(4) as u8;
        let byte_size = self.r.below(120) as u32;
        let object = Object { kind, raw_len, byte_size, ..Object::default() };
        match self.r.below(12) {
            // No slots, wherever the first would be.
            0 => {
                let first = *self.r.pick(&[0, 7, u32::MAX]);
                Object { first, ..object }
            }
            // Some slots of an earlier object.
            1 if !before.is_empty() => {
                let of = *self.r.pick(before);
                let skipped = self.r.below(of.count as u64 + 1) as u32;
                let count = self.r.below((of.count - skipped) as u64 + 1) as u32;
                let first = if of.count == 0 { 0 } else { of.first + skipped };
                Object { first, count, ..object }
            }
            2..=4 => self.array(object),
            5..=6 => self.far(object),
            _ => self.any(object),
        }
    }

    /// A long run, and slots above its start that lie about as far below its end as the stop reaches.
    fn far(&mut self, object: Object) -> Object {
        let first = self.slots.len() as u32;
        let mut index = self.r.below(3) as u32;
        let length = (12 * self.ts).min(self.payload.len() as u32);
        self.slots.push(Slot { index, kind: 4, length, ..Slot::default() });
        for _ in 0..1 + self.r.below(2) {
            index += 1 + self.r.below(4) as u32;
            let slot = self.slot(index);
            self.slots.push(slot);
        }
        let count = self.slots.len() as u32 - first;
        Object { first, count, ..object }
    }

    /// Slots of all kinds.
    fn any(&mut self, object: Object) -> Object {
        let first = self.slots.len() as u32;
        let count = 1 + self.r.below(7) as u32;
        let mut index = *self.r.pick(&[0, 0, 1, 2, 3, 5, 1_000, 1_048_540]);
        for _ in 0..count {
            let slot = self.slot(index);
            self.slots.push(slot);
            index += *self.r.pick(&[0, 0, 1, 1, 1, 2, 3, 4, 5, 5]);
        }
        Object { first, count, ..object }
    }

    /// A length field and elements behind it.
    fn array(&mut self, object: Object) -> Object {
        let first = self.slots.len() as u32;
        let n = *self.r.pick(&[0i32, 1, 2, 3, 4, 5, 7, 300, -2]);
        let number = self.payload.len() as u32;
        let field = match self.r.below(3) {
            0 => n.to_le_bytes().to_vec(),
            _ if self.ts == 8 => [[0; 4], n.to_le_bytes()].concat(),
            _ => n.wrapping_mul(2).to_le_bytes().to_vec(),
        };
        self.payload.extend(field);
        // A run that ends in the field, or one slot more.
        let more = self.r.below(3) as u32 * 4;
        self.payload.extend(vec![0; more as usize]);
        let length = self.payload.len() as u32 - number;
        self.slots.push(Slot { index: 1, kind: 4, number, length, ..Slot::default() });
        let mut index = 2;
        for _ in 0..self.r.below(5) {
            let slot = self.slot(index);
            self.slots.push(slot);
            index += *self.r.pick(&[0, 1, 1, 1, 2, 4]);
        }
        let unit = *self.r.pick(&[self.ts, 8, 8, 3]);
        let byte_size = 2 * self.ts + n.unsigned_abs() * unit;
        let count = self.slots.len() as u32 - first;
        Object { first, count, byte_size, ..object }
    }

    fn slot(&mut self, index: u32) -> Slot {
        let kind = *self.r.pick(&[0, 0, 1, 2, 3, 4, 4, 4, 5, 5, 5]);
        let slot = Slot { index: index.min(1_048_576), kind, ..Slot::default() };
        if kind != 5 {
            return self.value(slot, kind);
        }
        let count = *self.r.pick(&[0, 1, 2, 3, 4, 6, 9, 40, 1_048_576]);
        let inner = *self.r.pick(&[0, 1, 2, 3, 4, 4]);
        self.value(Slot { inner, count, ..slot }, inner)
    }

    /// The number and length of a value of this kind.
    fn value(&mut self, slot: Slot, kind: u8) -> Slot {
        match kind {
            1 => Slot { number: self.r.below(self.count as u64) as u32, ..slot },
            4 => self.run(slot),
            _ => slot,
        }
    }

    /// A run in the payload, often at its end. What is repeated is rather short.
    fn run(&mut self, slot: Slot) -> Slot {
        let (most, ts) = (self.payload.len() as u32, self.ts);
        let long = [0, 1, 4, ts - 1, ts, ts, ts + 1, 2 * ts, 3 * ts, 5 * ts, 7 * ts];
        let short = [0, 1, 4, 4, ts, ts, ts + 1, 3 * ts];
        let length = if slot.kind == 4 { *self.r.pick(&long) } else { *self.r.pick(&short) };
        let length = length.min(most);
        let last = most - length;
        let number = match self.r.below(4) {
            0 => last,
            _ => (self.r.below(last as u64 + 1) as u32) & !3,
        };
        Slot { number, length, ..slot }
    }
}

/// Numbers at the ends of what a number can be.
const ENDS: [u64; 4] = [0, u32::MAX as u64, u32::MAX as u64 + 1, u64::MAX];

/// The check and each length.
pub fn whole(files: &Files) -> Vec<Call> {
    let lengths = (0..files.count(OBJECTS) as u64).map(|object| Call::new(ARRAY_LEN, &[object]));
    std::iter::once(Call::new(STORE_CHECK, &[])).chain(lengths).collect()
}

/// Calls of the other small reads on a store, at and around each boundary.
pub fn calls(files: &Files) -> Vec<Call> {
    let mut out = Vec::new();
    let objects = files.count(OBJECTS) as u64;
    for object in [objects, 1 << 32, u64::MAX] {
        out.push(Call::new(ARRAY_LEN, &[object]));
        out.push(Call::new(RAW_AT, &[object, 0, 0]));
        out.push(Call::new(ARRAY_ELEM, &[object, 0]));
        out.push(Call::new(BCA_RT_OFF, &[object, 0]));
        out.push(Call::new(SLOT_AT, &[object, 0]));
    }
    for object in 0..objects {
        let record = Object::read(files.record(OBJECTS, object as usize));
        for slot in slots(files, record) {
            out.extend(at_slot(files, object, &slot));
        }
        for number in ENDS {
            out.push(Call::new(SLOT_AT, &[object, number]));
            out.push(Call::new(ARRAY_ELEM, &[object, number]));
            out.extend(ENDS.map(|length| Call::new(RAW_AT, &[object, number, length])));
        }
        out.extend([0, 9, u32::MAX as u64].map(|off| Call::new(BCA_RT_OFF, &[object, off])));
    }
    out
}

/// Each number, the one below and the one above.
fn around(numbers: &[u64]) -> Vec<u64> {
    let mut out: Vec<u64> =
        numbers.iter().flat_map(|n| [n.wrapping_sub(1), *n, n.wrapping_add(1)]).collect();
    out.sort();
    out.dedup();
    out
}

fn at_slot(files: &Files, object: u64, slot: &Slot) -> Vec<Call> {
    let ts = files.layout(0) as u64;
    let unit = if files.layout(1) == 0 { 8 } else { files.layout(1) as u64 };
    let index = slot.index as u64;
    let start = index * ts;
    let size = match slot.kind {
        4 => slot.length as u64,
        5 => slot.count as u64 * ts,
        _ => ts,
    };
    let mut out = Vec::new();
    // The last offsets that the stop lets pass, and the first that it does not.
    let passing = (index + 4) * ts;
    for off in around(&[start, start + size / 2, start + size, passing, passing + ts]) {
        let left = (start + size).wrapping_sub(off);
        let mut lengths = around(&[left]);
        lengths.extend([0, 1, 4, ts]);
        out.extend(lengths.into_iter().map(|length| Call::new(RAW_AT, &[object, off, length])));
    }
    let elements = [index, index + size / ts, index + 4, index + 5].map(|n| n.wrapping_sub(2));
    out.extend(around(&elements).into_iter().map(|n| Call::new(ARRAY_ELEM, &[object, n])));
    out.extend(around(&[index]).into_iter().map(|n| Call::new(SLOT_AT, &[object, n])));
    let offsets = around(&[index * unit]).into_iter().filter(|off| *off <= u32::MAX as u64);
    out.extend(offsets.map(|off| Call::new(BCA_RT_OFF, &[object, off])));
    out
}

/// Bytes for decode_smi_bytes: every length up to 9 and 16, small integers and others.
pub fn smi_bytes(r: &mut Random) -> Vec<Call> {
    let mut out: Vec<Call> = (0..=9).map(|n| Call::smi_bytes(&vec![0; n])).collect();
    out.push(Call::smi_bytes(&[0; 16]));
    for value in [0u32, 1, 2, 3, 0x7fff_fffe, 0x7fff_ffff, 0x8000_0000, 0xffff_fffe, 0xffff_ffff] {
        let bytes = value.to_le_bytes();
        out.push(Call::smi_bytes(&bytes));
        for low in [0u32, 1, 0x8000_0000] {
            out.push(Call::smi_bytes(&[low.to_le_bytes(), bytes].concat()));
        }
    }
    for length in [4, 4, 4, 4, 8, 8, 8, 8, 3, 5, 7, 9] {
        out.push(Call::smi_bytes(&r.bytes(length)));
    }
    out
}
