//! Field bytes: proper lists of sets, damaged ones, and bytes of the lengths at which something changes.
use crate::random::Random;

const END: u8 = 0x18;
const STRUCTURE: u8 = 0x15;
const ARRAY_TAG_1: [u8; 2] = [0x36, 0x01];
const STRING_TAG_1: [u8; 2] = [0x30, 0x01];

pub struct Fields {
    pub bytes: Vec<u8>,
    /// How many pairs a proper list has.
    pub pairs: Option<usize>,
}

/// An unsigned number of 1, 2 or 4 bytes under a context tag.
fn put_number(random: &mut Random, out: &mut Vec<u8>, tag: u8) {
    let width = random.pick(&[0, 0, 0, 1, 2]);
    out.extend([0x24 + width, tag]);
    out.extend(random.bytes(1 << width));
}

fn put_pair(random: &mut Random, out: &mut Vec<u8>) {
    out.push(STRUCTURE);
    if random.percent(20) {
        put_number(random, out, 1);
        put_number(random, out, 0);
    } else {
        put_number(random, out, 0);
        if random.percent(70) {
            put_number(random, out, 1);
        }
    }
    out.push(END);
}

fn put_list(random: &mut Random, out: &mut Vec<u8>) -> usize {
    let pairs = random.pick(&[0, 1, 1, 1, 2, 3]);
    out.extend(ARRAY_TAG_1);
    for _ in 0..pairs {
        put_pair(random, out);
    }
    out.push(END);
    pairs
}

/// A set, its members in either order, now and then with a further one.
fn put_set(random: &mut Random, out: &mut Vec<u8>) -> usize {
    out.push(STRUCTURE);
    let list_first = random.percent(15);
    let mut pairs = 0;
    if list_first {
        pairs = put_list(random, out);
    }
    put_number(random, out, 0);
    if random.percent(10) {
        put_number(random, out, 9);
    }
    if !list_first {
        pairs = put_list(random, out);
    }
    out.push(END);
    pairs
}

/// Some sets, without the 0x18 behind the last one.
fn sets(random: &mut Random) -> Fields {
    let count = random.pick(&[0, 1, 1, 1, 1, 2, 2, 3]);
    let mut bytes = Vec::new();
    let mut pairs = 0;
    for _ in 0..count {
        pairs += put_set(random, &mut bytes);
    }
    Fields { bytes, pairs: Some(pairs) }
}

/// One set of a wanted length of at least 16, without the 0x18 behind it: a string fills it up.
pub fn set_of(random: &mut Random, length: usize) -> Fields {
    let fill = length - 16;
    let mut bytes = vec![STRUCTURE, 0x24, 0x00, random.byte()];
    bytes.extend(ARRAY_TAG_1);
    bytes.extend([STRUCTURE, 0x24, 0x00, random.byte()]);
    bytes.extend(STRING_TAG_1);
    bytes.push(fill as u8);
    bytes.extend(random.bytes(fill));
    bytes.extend([END, END, END]);
    Fields { bytes, pairs: Some(1) }
}

pub fn closed(mut fields: Fields) -> Fields {
    fields.bytes.push(END);
    fields
}

/// A proper list with one byte changed, missing or added.
fn damaged(random: &mut Random) -> Fields {
    let mut bytes = closed(sets(random)).bytes;
    let at = random.below(bytes.len());
    match random.below(3) {
        0 => bytes[at] = random.byte(),
        1 => {
            bytes.remove(at);
        }
        _ => bytes.insert(at, random.byte()),
    }
    Fields { bytes, pairs: None }
}

fn unread(bytes: Vec<u8>) -> Fields {
    Fields { bytes, pairs: None }
}

/// What an add brings.
pub fn added(random: &mut Random) -> Fields {
    match random.below(100) {
        0..8 => unread(Vec::new()),
        8..60 => closed(sets(random)),
        60..66 => {
            let length = random.pick(&[126, 127, 128]);
            closed(set_of(random, length))
        }
        66..74 => unread(vec![END; random.pick(&[1, 1, 126, 127, 128, 129])]),
        74..86 => {
            let length = random.pick(&[1, 1, 1, 2, 3, 5, 20, 127, 128, 129, 200]);
            unread(random.bytes(length))
        }
        _ => damaged(random),
    }
}

/// What a store captures.
pub fn captured(random: &mut Random) -> Vec<u8> {
    match random.below(100) {
        0..8 => Vec::new(),
        8..72 => sets(random).bytes,
        72..80 => {
            let length = random.pick(&[126, 127, 128]);
            set_of(random, length).bytes
        }
        80..92 => {
            let length = random.pick(&[1, 1, 2, 20, 126, 127, 128, 129, 200]);
            random.bytes(length)
        }
        _ => damaged(random).bytes,
    }
}

/// What an entry that is written as it stands holds.
pub fn held(random: &mut Random) -> Vec<u8> {
    let mut bytes = added(random).bytes;
    bytes.truncate(128);
    bytes
}

pub fn hex(bytes: &[u8]) -> String {
    if bytes.is_empty() {
        return "-".into();
    }
    bytes.iter().map(|b| format!("{b:02X}")).collect()
}
