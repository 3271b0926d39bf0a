//! Field bytes for the reader: lists of sets in every form, with one thing wrong, and damaged.
use crate::fields;
use crate::images::{damaged, put_any, put_head, put_number, width_of};
use crate::random::Random;
use crate::strict::*;

const STRUCTURE: u8 = 0x15;
const ARRAY: u8 = 0x16;
const LIST: u8 = 0x17;
const END: u8 = 0x18;

struct Writer<'a> {
    random: &'a mut Random,
    /// What is wrong, in some of the places where it can be.
    wrong: Option<Reason>,
    /// In so many of a hundred places something stands otherwise than in a plain list.
    varied: usize,
    /// So many of a hundred numbers are written in 8 bytes.
    wide: usize,
}

impl Writer<'_> {
    fn varies(&mut self) -> bool {
        self.random.percent(self.varied)
    }

    fn errs(&mut self, reason: Reason) -> bool {
        self.wrong == Some(reason) && self.random.percent(50)
    }

    /// An element of any type under a context tag.
    fn any(&mut self, tag: u8) -> Vec<u8> {
        let mut out = Vec::new();
        put_any(self.random, &mut out, Some(tag), 0);
        out
    }

    /// A cluster or an attribute.
    fn number(&mut self, tag: u8) -> Vec<u8> {
        if self.errs(NUMBER_KIND) {
            return self.any(tag);
        }
        let mut out = Vec::new();
        if self.errs(LARGE) {
            let value = self.random.pick(&[1 << 32, 1 << 32, (1 << 32) + 6, 1 << 63, u64::MAX]);
            put_number(&mut out, tag, value, 3);
            return out;
        }
        let value = match self.random.below(10) {
            0..6 => self.random.below(10) as u32,
            6..8 => self.random.pick(&[0, 255, 256, 768, 65535, 65536, u32::MAX]),
            _ => self.random.next() as u32,
        };
        let mut width = width_of(value.into());
        if self.random.percent(self.wide) {
            width = 3;
        } else if self.varies() {
            width += self.random.below(3 - usize::from(width)) as u8;
        }
        put_number(&mut out, tag, value.into(), width);
        out
    }

    /// Containers in containers, to a depth around the largest.
    fn nested(&mut self, tag: Option<u8>) -> Vec<u8> {
        let depth = if self.errs(DEEP) { self.random.pick(&[17, 17, 18, 40]) } else { self.random.pick(&[2, 15, 16]) };
        let mut out = Vec::new();
        for level in 0..depth {
            let kind = self.random.pick(&[STRUCTURE, ARRAY, LIST]);
            if level == 0 {
                put_head(self.random, &mut out, kind, tag);
            } else if self.varies() {
                put_head(self.random, &mut out, kind, None);
            } else {
                out.push(kind);
            }
        }
        if self.varies() {
            // Under a tag that means something in a set, but not here.
            out.extend([0x24, self.random.below(2) as u8, 7]);
        }
        out.extend(vec![END; depth]);
        out
    }

    /// A member that is skipped, or what cannot be.
    fn other(&mut self) -> Vec<u8> {
        let mut out = Vec::new();
        if self.errs(RESERVED) {
            let kind = 25 + self.random.below(7) as u8;
            put_head(self.random, &mut out, kind, None);
        } else if self.errs(END_TAG) {
            out.extend([0x20 + END, self.random.byte()]);
        } else if self.errs(CUT) {
            // A length that is far too large.
            let (kind, length) = (self.random.pick(&[12, 16]), self.random.pick(&[u64::MAX, 1 << 63, 0xFFFF_FFFF]));
            put_head(self.random, &mut out, kind + 3, Some(2));
            out.extend(length.to_le_bytes());
        } else if self.wrong == Some(DEEP) || self.random.percent(10) {
            return self.nested(Some(2));
        } else {
            put_any(self.random, &mut out, None, 0);
            if out[0] / 32 == 1 && out[1] < 2 {
                out[1] += 2;
            }
        }
        out
    }

    /// Members in their order or in another, now and then with a further one.
    fn members(&mut self, mut members: Vec<Vec<u8>>) -> Vec<u8> {
        let inside = [RESERVED, END_TAG, CUT, DEEP].contains(&self.wrong.unwrap_or(""));
        if self.varies() || (inside && self.random.percent(40)) {
            let at = self.random.below(members.len() + 1);
            let other = self.other();
            members.insert(at, other);
        }
        if self.varies() {
            members.reverse();
        }
        members.concat()
    }

    /// A set or a pair.
    fn structure(&mut self, members: Vec<Vec<u8>>, tagged: Reason, otherwise: Reason) -> Vec<u8> {
        let mut out = Vec::new();
        if self.errs(otherwise) {
            if self.random.percent(50) {
                put_any(self.random, &mut out, None, 0);
                return out;
            }
            out.push(self.random.pick(&[ARRAY, LIST]));
        } else if self.errs(tagged) {
            let form = self.random.pick(&[1, 1, 1, 2, 3, 4, 5, 6, 7]);
            out.push(form << 5 | STRUCTURE);
            out.extend(self.random.bytes([0, 1, 2, 4, 2, 4, 6, 8][form as usize]));
        } else {
            out.push(STRUCTURE);
        }
        out.extend(self.members(members));
        out.push(END);
        out
    }

    fn pair(&mut self) -> Vec<u8> {
        let mut members = Vec::new();
        if !self.errs(NO_ATTRIBUTE) {
            members.push(self.number(0));
        }
        if self.errs(TWO_ATTRIBUTES) {
            members.push(self.number(0));
        }
        if self.random.percent(70) {
            let deep = self.wrong == Some(DEEP) || self.random.percent(3);
            members.push(if deep { self.nested(Some(1)) } else { self.any(1) });
        }
        self.structure(members, PAIR_TAG, PAIR_KIND)
    }

    fn pairs(&mut self) -> Vec<u8> {
        if self.errs(LIST_VALUE) {
            return self.any(1);
        }
        let kind = if self.errs(LIST_KIND) { self.random.pick(&[STRUCTURE, LIST]) } else { ARRAY };
        let mut out = vec![0x20 + kind, 1];
        for _ in 0..self.random.pick(&[0, 1, 1, 1, 2, 3, 3, 8]) {
            out.extend(self.pair());
        }
        out.push(END);
        out
    }

    fn set(&mut self) -> Vec<u8> {
        let mut members = Vec::new();
        if !self.errs(NO_CLUSTER) {
            members.push(self.number(0));
        }
        if self.errs(TWO_CLUSTERS) {
            members.push(self.number(0));
        }
        if !self.errs(NO_LIST) {
            members.push(self.pairs());
        }
        if self.errs(TWO_LISTS) {
            members.push(self.pairs());
        }
        self.structure(members, SET_TAG, SET_KIND)
    }

    fn list(&mut self) -> Vec<u8> {
        let mut out = Vec::new();
        for _ in 0..self.random.pick(&[0, 1, 1, 1, 1, 1, 2, 2, 2, 3, 3, 9]) {
            out.extend(self.set());
        }
        if self.errs(END_TAG) {
            out.extend([0x20 + END, self.random.byte()]);
        }
        out.push(END);
        if self.errs(CUT) {
            let length = if self.random.percent(40) { out.len() - 1 } else { self.random.below(out.len()) };
            out.truncate(length);
        }
        if self.errs(BEHIND) {
            let count = self.random.pick(&[1, 1, 2, 9]);
            let behind = if self.random.percent(50) { vec![END; count] } else { self.random.bytes(count) };
            out.extend(behind);
        }
        out
    }
}

/// A list, plain or varied, with one kind of thing wrong or none.
fn list(random: &mut Random, wrong: Option<Reason>) -> Vec<u8> {
    let (varied, wide) = (random.pick(&[0, 10, 40]), random.pick(&[0, 0, 0, 0, 0, 0, 0, 30]));
    Writer { random, wrong, varied, wide }.list()
}

/// Field bytes of any kind.
pub fn field_bytes(random: &mut Random) -> Vec<u8> {
    match random.below(100) {
        0..6 => fields::added(random).bytes,
        6..10 => {
            let length = random.pick(&[126, 127, 127, 128, 200]);
            fields::closed(fields::set_of(random, length)).bytes
        }
        10..45 => list(random, None),
        45..82 => {
            let wrong = random.pick(&REASONS);
            list(random, Some(wrong))
        }
        _ => {
            let bytes = list(random, None);
            damaged(random, bytes)
        }
    }
}
