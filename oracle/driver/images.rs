//! Images: as the Rust writes them, in other forms that it takes, with something wrong, and damaged.
use crate::random::Random;

pub struct Entry {
    pub fabric: u8,
    pub endpoint: u16,
    pub group: u16,
    pub scene: u8,
    pub time: u32,
    pub fields: Vec<u8>,
}

pub struct Record {
    pub fabric: u8,
    pub endpoint: u16,
    pub group: u16,
    pub scene: u8,
    pub valid: bool,
}

const STRUCTURE: u8 = 0x15;
const ARRAY: u8 = 0x16;
const END: u8 = 0x18;
const CONTEXT: u8 = 1;

// ---- as the Rust writes them

/// The width of a number, as a power of two.
pub fn width_of(value: u64) -> u8 {
    match value {
        0..=0xFF => 0,
        0x100..=0xFFFF => 1,
        0x1_0000..=0xFFFF_FFFF => 2,
        _ => 3,
    }
}

fn put_width(out: &mut Vec<u8>, value: u64, width: u8) {
    out.extend(&value.to_le_bytes()[..1 << width]);
}

pub fn put_number(out: &mut Vec<u8>, tag: u8, value: u64, width: u8) {
    out.extend([0x24 + width, tag]);
    put_width(out, value, width);
}

fn put_smallest(out: &mut Vec<u8>, tag: u8, value: u64) {
    put_number(out, tag, value, width_of(value));
}

/// The image of a table, by the TLV appendix.
pub fn canonical(entries: &[Entry], records: &[Record]) -> Vec<u8> {
    let mut out = vec![STRUCTURE, 0x36, 0];
    for e in entries {
        out.push(STRUCTURE);
        for (tag, value) in [e.fabric.into(), e.endpoint.into(), e.group.into(), e.scene.into(), e.time.into()].iter().enumerate() {
            put_smallest(&mut out, tag as u8, *value);
        }
        out.extend([0x30, 5, e.fields.len() as u8]);
        out.extend(&e.fields);
        out.push(END);
    }
    out.extend([END, 0x36, 1]);
    for r in records {
        out.push(STRUCTURE);
        for (tag, value) in [r.fabric.into(), r.endpoint.into(), r.group.into(), r.scene.into()].iter().enumerate() {
            put_smallest(&mut out, tag as u8, *value);
        }
        out.extend([0x28 + r.valid as u8, 4, END]);
    }
    out.extend([END, END]);
    out
}

// ---- any element

/// A control byte and a tag of any form.
pub fn put_head(random: &mut Random, out: &mut Vec<u8>, kind: u8, tag: Option<u8>) {
    if let Some(tag) = tag {
        return out.extend([CONTEXT << 5 | kind, tag]);
    }
    let form = random.pick(&[0, 0, 0, 1, 1, 2, 3, 4, 5, 6, 7]);
    out.push(form << 5 | kind);
    if form == CONTEXT {
        // A number that no member has, or now and then one that it may have.
        out.push(if random.percent(90) { 6 + random.below(250) as u8 } else { random.below(6) as u8 });
    } else {
        out.extend(random.bytes([0, 1, 2, 4, 2, 4, 6, 8][form as usize]));
    }
}

fn put_string(random: &mut Random, out: &mut Vec<u8>, base: u8, tag: Option<u8>) {
    let width = random.pick(&[0, 0, 0, 1, 2, 3]);
    let length = random.pick(&[0, 1, 2, 5, 20]);
    put_head(random, out, base + width, tag);
    put_width(out, length, width);
    out.extend(random.bytes(length as usize));
}

fn put_container(random: &mut Random, out: &mut Vec<u8>, tag: Option<u8>, depth: usize) {
    let kind = random.pick(&[0x15, 0x16, 0x17]);
    put_head(random, out, kind, tag);
    for _ in 0..random.below(3) {
        put_any(random, out, None, depth + 1);
    }
    out.push(END);
}

/// Containers in containers.
fn put_deep(random: &mut Random, out: &mut Vec<u8>, tag: Option<u8>) {
    let depth = random.pick(&[15, 16, 17, 40, 300]);
    let kind = random.pick(&[0x15, 0x16, 0x17]);
    put_head(random, out, kind, tag);
    for _ in 0..depth {
        out.push(random.pick(&[0x15, 0x16, 0x17]));
    }
    out.extend(vec![END; depth + 1]);
}

/// An element of any type, under a context tag or under any.
pub fn put_any(random: &mut Random, out: &mut Vec<u8>, tag: Option<u8>, depth: usize) {
    match random.below(20) {
        0..8 => {
            let kind = random.below(8) as u8;
            put_head(random, out, kind, tag);
            out.extend(random.bytes(1 << (kind % 4)));
        }
        8..10 => {
            let kind = random.pick(&[8, 9, 20]);
            put_head(random, out, kind, tag);
        }
        10 => {
            put_head(random, out, 10, tag);
            out.extend(random.bytes(4));
        }
        11 => {
            put_head(random, out, 11, tag);
            out.extend(random.bytes(8));
        }
        12..14 => put_string(random, out, 12, tag),
        14..16 => put_string(random, out, 16, tag),
        16 if depth == 0 && random.percent(20) => put_deep(random, out, tag),
        _ if depth < 4 => put_container(random, out, tag, depth),
        _ => put_head(random, out, 8, tag),
    }
}

// ---- other forms

/// How far an image is from what the Rust writes.
#[derive(Clone, Copy)]
struct Form {
    /// In so many of a hundred places something stands otherwise than the Rust writes it, but so that it takes it.
    lax: usize,
    /// In so many of a thousand places something is wrong.
    wrong: usize,
}

struct Writer<'a> {
    random: &'a mut Random,
    form: Form,
}

impl Writer<'_> {
    fn lax(&mut self) -> bool {
        self.form.lax > 0 && self.random.percent(self.form.lax)
    }

    fn wrong(&mut self) -> bool {
        self.form.wrong > 0 && self.random.below(1000) < self.form.wrong
    }

    /// A number of a type of at most this width.
    fn number(&mut self, tag: u8, value: u64, most: u8) -> Vec<u8> {
        let mut out = Vec::new();
        if self.wrong() {
            if self.random.percent(50) {
                put_number(&mut out, tag, value, (most + 1).min(3));
            } else {
                put_any(self.random, &mut out, Some(tag), 0);
            }
            return out;
        }
        let smallest = width_of(value);
        let width = if self.lax() { smallest + self.random.below((most - smallest + 1) as usize) as u8 } else { smallest };
        put_number(&mut out, tag, value, width);
        out
    }

    fn octets(&mut self, tag: u8, bytes: &[u8]) -> Vec<u8> {
        let width = if self.lax() { self.random.below(4) as u8 } else { 0 };
        let base = if self.wrong() { 12 } else { 16 };
        let mut out = vec![0x20 + base + width, tag];
        put_width(&mut out, bytes.len() as u64, width);
        out.extend(bytes);
        out
    }

    /// Members, in their order or in another, with others among them, one of them again, or one of them missing.
    fn members(&mut self, mut members: Vec<Vec<u8>>, tags: u8) -> Vec<u8> {
        if self.wrong() {
            let at = self.random.below(members.len());
            members.remove(at);
        }
        if self.lax() {
            for at in (1..members.len()).rev() {
                let other = self.random.below(at + 1);
                members.swap(at, other);
            }
        }
        if self.lax() {
            let mut other = Vec::new();
            put_any(self.random, &mut other, None, 0);
            let at = self.random.below(members.len() + 1);
            members.insert(at, other);
        }
        if self.lax() {
            let mut again = Vec::new();
            let tag = self.random.below(tags as usize) as u8;
            put_any(self.random, &mut again, Some(tag), 0);
            members.push(again);
        }
        members.concat()
    }

    fn structure(&mut self, members: Vec<Vec<u8>>, tags: u8) -> Vec<u8> {
        let mut out = Vec::new();
        let kind = if self.wrong() { self.random.pick(&[ARRAY, 0x17]) } else { STRUCTURE };
        if self.lax() {
            put_head(self.random, &mut out, kind, None);
        } else {
            out.push(kind);
        }
        out.extend(self.members(members, tags));
        out.push(END);
        out
    }

    fn key(&mut self, fabric: u8, endpoint: u16, group: u16, scene: u8) -> Vec<Vec<u8>> {
        let fabric = if self.wrong() { 0 } else { fabric };
        vec![
            self.number(0, fabric.into(), 0),
            self.number(1, endpoint.into(), 1),
            self.number(2, group.into(), 1),
            self.number(3, scene.into(), 0),
        ]
    }

    fn entry(&mut self, e: &Entry) -> Vec<u8> {
        let mut members = self.key(e.fabric, e.endpoint, e.group, e.scene);
        members.push(self.number(4, e.time.into(), 2));
        members.push(self.octets(5, &e.fields));
        self.structure(members, 6)
    }

    fn record(&mut self, r: &Record) -> Vec<u8> {
        let mut members = self.key(r.fabric, r.endpoint, r.group, r.scene);
        members.push(vec![0x28 + r.valid as u8, 4]);
        self.structure(members, 5)
    }

    fn array(&mut self, tag: u8, held: Vec<u8>) -> Vec<u8> {
        let kind = if self.wrong() { self.random.pick(&[STRUCTURE, 0x17]) } else { ARRAY };
        let mut out = vec![CONTEXT << 5 | kind, tag];
        out.extend(held);
        out.push(END);
        out
    }

    fn image(&mut self, entries: &[Entry], records: &[Record]) -> Vec<u8> {
        let entries: Vec<u8> = entries.iter().flat_map(|e| self.entry(e)).collect();
        let records: Vec<u8> = records.iter().flat_map(|r| self.record(r)).collect();
        let arrays = vec![self.array(0, entries), self.array(1, records)];
        let mut out = self.structure(arrays, 2);
        if self.lax() {
            out.pop();
        } else if self.lax() {
            let rubbish = self.random.pick(&[1, 2, 9]);
            out.extend(self.random.bytes(rubbish));
        }
        out
    }
}

/// An image with a part missing, changed, moved or twice.
pub fn damaged(random: &mut Random, mut bytes: Vec<u8>) -> Vec<u8> {
    for _ in 0..random.pick(&[1, 1, 1, 2]) {
        if bytes.is_empty() {
            return bytes;
        }
        let at = random.below(bytes.len());
        let to = (at + 1 + random.below(24)).min(bytes.len());
        match random.below(8) {
            0 => bytes.truncate(at),
            1 => bytes[at] = random.byte(),
            2 => bytes[at] ^= 1 << random.below(8),
            3 => {
                bytes.remove(at);
            }
            4 => bytes.insert(at, random.byte()),
            5 => bytes.insert(at, random.pick(&[0x18, 0x15, 0x16, 0x38, 0x19, 0x33, 0xE4])),
            6 => {
                let part: Vec<u8> = bytes.drain(at..to).collect();
                let back = random.below(bytes.len() + 1);
                bytes.splice(back..back, part);
            }
            _ => {
                let part = bytes[at..to].to_vec();
                bytes.splice(at..at, part);
            }
        }
    }
    bytes
}

/// Lengths of 2, 4 and 8 bytes that are far too large, where the first string stands.
fn overlong(random: &mut Random, mut bytes: Vec<u8>) -> Vec<u8> {
    if let Some(at) = bytes.windows(2).position(|w| w == [0x30, 5]) {
        let width = random.pick(&[1, 2, 3]);
        bytes[at] = 0x30 + width;
        let length = random.pick(&[u64::MAX, u64::MAX - 1, 1 << 63, 1 << 32, 0xFFFF_FFFF, 0xFFFF, 129]);
        let mut word = Vec::new();
        put_width(&mut word, length, width);
        bytes.splice(at + 2..at + 3, word);
    }
    bytes
}

/// An image of some entries and records.
pub fn image(random: &mut Random, entries: &[Entry], records: &[Record]) -> Vec<u8> {
    match random.below(100) {
        0..25 => canonical(entries, records),
        25..70 => {
            let form = Form { lax: random.pick(&[2, 10, 40]), wrong: 0 };
            Writer { random, form }.image(entries, records)
        }
        70..80 => {
            let form = Form { lax: random.pick(&[0, 10, 40]), wrong: random.pick(&[10, 40, 100]) };
            Writer { random, form }.image(entries, records)
        }
        80..83 => {
            let bytes = canonical(entries, records);
            overlong(random, bytes)
        }
        _ => {
            let form = Form { lax: random.pick(&[0, 10]), wrong: 0 };
            let bytes = Writer { random, form }.image(entries, records);
            damaged(random, bytes)
        }
    }
}
