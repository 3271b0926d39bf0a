//! The second driver: adds by raw field bytes, which both sides read. It is one of its own since the compiler makes one `add` of the Rust's
//! slower where there is another.
use crate::dm::clusters::scenes::ExtensionFieldSetStruct;
use crate::ffi::{self, tested, unchecked, Cursor, LentMut, Outcome, State};
use crate::ours::YES;
use crate::requests::SceneKey;
use crate::rows::{Plan, Row, Side, TIME};
use crate::tlv::{TLVArray, TLVElement};

pub const TITLE: &str = "Raw field bytes: ours and the published Rust";

pub const ABOUT: &str = "
Each cell has the cost of our tested add, of our owner's add and of the Rust's, and the ratios of the first two to the last. An add overwrites
the scene in the middle, or on an empty table makes a new one. Its field bytes are one set, whose pairs all sides read and answer with yes: an
attribute number each, without a value, with one of a byte, or with one of a byte in three structures. Ours, as a host does it: the reader is
asked until it is done, then the add with a byte for each pair. The Rust: its handler, which walks the request's array by the published TLV code.
All else is as in the first driver, but the scenes of the tables have 14 field bytes.";

/// An array of field sets as a request has it: what we take begins behind the control byte and the tag.
pub type Fields = &'static [u8];

pub const FILL: Fields = &ONE;

pub type FieldSets<'a> = TLVArray<'a, ExtensionFieldSetStruct<'a>>;

pub fn sets(array: Fields) -> FieldSets<'static> {
    TLVArray::new_unchecked(TLVElement::new(array))
}

// What the reader yields, by the header's numbers.
const CLUSTER: u8 = 1;
const ATTRIBUTE: u8 = 2;

pub fn add<const TESTED: bool>(state: State, lent: LentMut<'_>, key: SceneKey, array: Fields) -> Outcome {
    let bytes = &array[2..];
    let mut pairs = [0; 25];
    let mut count = 0;
    let mut item = ffi::next_item(bytes, Cursor { pair: 0, left: 0, set: 0 });
    while let CLUSTER | ATTRIBUTE = item.kind {
        if item.kind == ATTRIBUTE {
            pairs[count] = YES;
            count += 1;
        }
        item = ffi::next_item(bytes, item.cursor);
    }
    if TESTED {
        return tested::add_read(state, lent, key, TIME, YES, &pairs[..count], bytes);
    }
    // SAFETY: the table begins empty, and only calls write it.
    unsafe { unchecked::add_read(state, lent, key, TIME, YES, &pairs[..count], bytes) }
}

/// Writes bytes at a position: the position behind them.
const fn put(bytes: &mut [u8], at: usize, part: &[u8]) -> usize {
    let mut i = 0;
    while i < part.len() {
        bytes[at + i] = part[i];
        i += 1;
    }
    at + part.len()
}

/// The array of one set of cluster 6, whose pairs have this value each: 8 bytes stand in front of the pairs, and 3 ends behind them.
const fn array<const LEN: usize>(value: &[u8]) -> [u8; LEN] {
    let mut bytes = [0x18; LEN];
    let mut at = put(&mut bytes, 0, &[0x36, 4, 0x15, 0x24, 0, 6, 0x36, 1]);
    let mut attribute = 0;
    while at + 3 < LEN {
        at = put(&mut bytes, at, &[0x15, 0x24, 0, attribute]);
        at = put(&mut bytes, at, value) + 1;
        attribute += 1;
    }
    bytes
}

static ONE: [u8; 11 + 5] = array(&[]);
static EIGHT: [u8; 11 + 8 * 5] = array(&[]);
static MOST: [u8; 11 + 23 * 5] = array(&[]);
static VALUES: [u8; 11 + 8 * 8] = array(&[0x24, 1, 7]);
static NESTED: [u8; 11 + 7 * 17] = array(&[0x35, 1, 0x35, 1, 0x35, 1, 0x24, 1, 7, 0x18, 0x18, 0x18]);

pub fn rows<S: Side>() -> Vec<Row<S>> {
    let row = |name, call| Row { name, writes: true, image: false, call };
    vec![
        row("add, overwrite, 1 pair", |s: &mut S, p: Plan| s.add(p.middle(), &ONE)),
        row("add, overwrite, 8 pairs", |s, p| s.add(p.middle(), &EIGHT)),
        row("add, overwrite, 23 pairs", |s, p| s.add(p.middle(), &MOST)),
        row("add, overwrite, 8 pairs with values", |s, p| s.add(p.middle(), &VALUES)),
        row("add, overwrite, 7 pairs with nested values", |s, p| s.add(p.middle(), &NESTED)),
    ]
}
