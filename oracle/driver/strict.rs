//! The sets of field bytes, read strictly: a reading of its own, which says besides why bytes are refused.

/// Why field bytes are refused: the first reason on the way from the first byte to the last.
pub type Reason = &'static str;

pub const SET_TAG: Reason = "set with a tag";
pub const SET_KIND: Reason = "set that is no structure";
pub const PAIR_TAG: Reason = "pair with a tag";
pub const PAIR_KIND: Reason = "pair that is no structure";
pub const NO_CLUSTER: Reason = "set without cluster";
pub const TWO_CLUSTERS: Reason = "set with two clusters";
pub const NO_LIST: Reason = "set without list of pairs";
pub const TWO_LISTS: Reason = "set with two lists of pairs";
pub const LIST_KIND: Reason = "pairs in a structure or list";
pub const LIST_VALUE: Reason = "pairs in no container";
pub const NO_ATTRIBUTE: Reason = "pair without attribute";
pub const TWO_ATTRIBUTES: Reason = "pair with two attributes";
pub const NUMBER_KIND: Reason = "number that is not unsigned";
pub const LARGE: Reason = "number of 2^32 or above";
pub const DEEP: Reason = "skipped value deeper than 16";
pub const RESERVED: Reason = "reserved element type";
pub const END_TAG: Reason = "end with a tag";
pub const CUT: Reason = "bytes end too early";
pub const BEHIND: Reason = "bytes behind the last end";

pub const REASONS: [Reason; 19] = [
    SET_TAG,
    SET_KIND,
    PAIR_TAG,
    PAIR_KIND,
    NO_CLUSTER,
    TWO_CLUSTERS,
    NO_LIST,
    TWO_LISTS,
    LIST_KIND,
    LIST_VALUE,
    NO_ATTRIBUTE,
    TWO_ATTRIBUTES,
    NUMBER_KIND,
    LARGE,
    DEEP,
    RESERVED,
    END_TAG,
    CUT,
    BEHIND,
];

/// The reasons that the Rust does not know: it may take such bytes as they are.
pub const LAX: [Reason; 7] = [SET_TAG, PAIR_TAG, TWO_CLUSTERS, TWO_LISTS, TWO_ATTRIBUTES, LIST_KIND, DEEP];

const MOST_DEPTH: usize = 16;

/// A cluster or an attribute, and whether it is written in 8 bytes.
#[derive(Clone, Copy)]
pub struct Number {
    pub value: u32,
    pub wide: bool,
}

pub struct Set {
    pub cluster: Number,
    pub attributes: Vec<Number>,
}

/// The type of an element, whether it has a tag, and that tag if it is a context tag.
struct Head {
    kind: u8,
    tagged: bool,
    context: Option<u8>,
}

impl Head {
    fn is_end(&self) -> bool {
        self.kind == 24
    }
}

/// What has not been read yet.
struct Reader<'a>(&'a [u8]);

impl<'a> Reader<'a> {
    fn take(&mut self, count: u64) -> Result<&'a [u8], Reason> {
        let count = usize::try_from(count).ok().filter(|count| *count <= self.0.len()).ok_or(CUT)?;
        let (taken, rest) = self.0.split_at(count);
        self.0 = rest;
        Ok(taken)
    }

    fn number(&mut self, width: u64) -> Result<u64, Reason> {
        Ok(self.take(width)?.iter().rev().fold(0, |value, byte| value << 8 | u64::from(*byte)))
    }

    fn head(&mut self) -> Result<Head, Reason> {
        let control = self.take(1)?[0];
        let (kind, form) = (control % 32, control / 32);
        if kind > 24 {
            return Err(RESERVED);
        }
        if kind == 24 && form != 0 {
            return Err(END_TAG);
        }
        let tag = self.take([0, 1, 2, 4, 2, 4, 6, 8][usize::from(form)])?;
        Ok(Head { kind, tagged: form != 0, context: tag.first().copied().filter(|_| form == 1) })
    }

    /// Skips a value of a type, with whatever it holds.
    fn skip(&mut self, kind: u8, depth: usize) -> Result<(), Reason> {
        let length = match kind {
            0..=7 => 1 << (kind % 4),
            10 => 4,
            11 => 8,
            12..=19 => self.number(1 << (kind % 4))?,
            21..=23 => return self.skip_members(depth.checked_sub(1).ok_or(DEEP)?),
            _ => 0,
        };
        self.take(length).map(|_| ())
    }

    fn skip_members(&mut self, depth: usize) -> Result<(), Reason> {
        loop {
            let head = self.head()?;
            if head.is_end() {
                return Ok(());
            }
            self.skip(head.kind, depth)?;
        }
    }

    /// A cluster or an attribute.
    fn value(&mut self, kind: u8) -> Result<Number, Reason> {
        if !(4..=7).contains(&kind) {
            return Err(NUMBER_KIND);
        }
        let value = self.number(1 << (kind % 4))?;
        Ok(Number { value: u32::try_from(value).map_err(|_| LARGE)?, wide: kind == 7 })
    }

    fn pair(&mut self) -> Result<Number, Reason> {
        let mut attribute = None;
        loop {
            let head = self.head()?;
            match head.context {
                _ if head.is_end() => return attribute.ok_or(NO_ATTRIBUTE),
                Some(0) if attribute.is_some() => return Err(TWO_ATTRIBUTES),
                Some(0) => attribute = Some(self.value(head.kind)?),
                _ => self.skip(head.kind, MOST_DEPTH)?,
            }
        }
    }

    fn pairs(&mut self, kind: u8) -> Result<Vec<Number>, Reason> {
        match kind {
            22 => {}
            21 | 23 => return Err(LIST_KIND),
            _ => return Err(LIST_VALUE),
        }
        let mut attributes = Vec::new();
        loop {
            let head = self.head()?;
            match (head.kind, head.tagged) {
                _ if head.is_end() => return Ok(attributes),
                (21, false) => attributes.push(self.pair()?),
                (21, true) => return Err(PAIR_TAG),
                _ => return Err(PAIR_KIND),
            }
        }
    }

    fn set(&mut self) -> Result<Set, Reason> {
        let (mut cluster, mut attributes) = (None, None);
        loop {
            let head = self.head()?;
            match head.context {
                _ if head.is_end() => break,
                Some(0) if cluster.is_some() => return Err(TWO_CLUSTERS),
                Some(0) => cluster = Some(self.value(head.kind)?),
                Some(1) if attributes.is_some() => return Err(TWO_LISTS),
                Some(1) => attributes = Some(self.pairs(head.kind)?),
                _ => self.skip(head.kind, MOST_DEPTH)?,
            }
        }
        Ok(Set { cluster: cluster.ok_or(NO_CLUSTER)?, attributes: attributes.ok_or(NO_LIST)? })
    }

    fn sets(&mut self) -> Result<Vec<Set>, Reason> {
        let mut sets = Vec::new();
        loop {
            let head = self.head()?;
            match (head.kind, head.tagged) {
                _ if head.is_end() => return Ok(sets),
                (21, false) => sets.push(self.set()?),
                (21, true) => return Err(SET_TAG),
                _ => return Err(SET_KIND),
            }
        }
    }
}

/// The sets of field bytes. No bytes are no sets.
pub fn sets(bytes: &[u8]) -> Result<Vec<Set>, Reason> {
    let mut reader = Reader(bytes);
    if bytes.is_empty() {
        return Ok(Vec::new());
    }
    let sets = reader.sets()?;
    if reader.0.is_empty() {
        Ok(sets)
    } else {
        Err(BEHIND)
    }
}
