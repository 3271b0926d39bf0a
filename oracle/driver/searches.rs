//! Stores by how many key words they held against the wanted one: whether the oracle told it as the table says, and what was met.
use std::collections::BTreeMap;

use crate::tally::Call;

// ---- what has to be met

const EMPTY: &str = "0 for a new key, table empty";
const NEW: &str = "the entry count for a new key, table not empty";
const FIRST: &str = "1 for a first match at position 0";
const LATER: &str = "first match at a later position";
const LAST: &str = "first match at the last position of several";
const WIDE: &str = "more than 255";
const REPEATED: &str = "first match of a key that is in the table more than once";
/// Refused where a search would count: the table holds the key, or is full.
const EARLY_KNOWN: &str = "0 at 85, 87 or F2, key in the table";
const LONG_KNOWN: &str = "0 at F3, key in the table";
const EARLY_FULL: &str = "0 at 85, 87, F1 or F2, table full";
const LONG_FULL: &str = "0 at F3, table full";
const NO_PLACE: &str = "0 at 89, table full";
#[rustfmt::skip]
const CASES: [&str; 12] = [
    EMPTY, NEW, FIRST, LATER, LAST, WIDE, REPEATED, EARLY_KNOWN, LONG_KNOWN, EARLY_FULL, LONG_FULL, NO_PLACE,
];

// ---- a store in its table

/// The table before a store: its size and entries, the position of the wanted key's first match, and how many there are.
struct Search {
    size: usize,
    entries: usize,
    first: Option<usize>,
    matches: usize,
}

impl Search {
    /// Of a store on a table that was dumped before.
    fn of(call: &Call<'_>, size: usize, table: &[u8]) -> Self {
        let key = format!(" e {} {} {} {} ", call.word(1), call.word(2), call.word(3), call.word(4));
        let mut search = Self { size, entries: 0, first: None, matches: 0 };
        for line in String::from_utf8_lossy(table).lines().filter(|line| line.starts_with(" e ")) {
            if line.starts_with(&key) {
                search.first = search.first.or(Some(search.entries));
                search.matches += 1;
            }
            search.entries += 1;
        }
        search
    }

    /// Document 02, Q-6: "the first match's position, from 0, plus 1, or the entry count without one, and 0 at any refusal".
    fn count(&self, status: &str) -> usize {
        match self.first {
            _ if status != "00" => 0,
            Some(position) => position + 1,
            None => self.entries,
        }
    }

    fn taken(&self) -> Vec<&'static str> {
        let mut met = vec![match self.first {
            None if self.entries == 0 => EMPTY,
            None => NEW,
            Some(0) => FIRST,
            Some(_) => LATER,
        }];
        if self.entries > 1 && self.first == Some(self.entries - 1) {
            met.push(LAST);
        }
        if self.count("00") > 255 {
            met.push(WIDE);
        }
        if self.matches > 1 {
            met.push(REPEATED);
        }
        met
    }

    fn refused(&self, status: &str) -> Vec<&'static str> {
        let (known, full) = match status {
            "89" => (None, NO_PLACE),
            "F3" => (Some(LONG_KNOWN), LONG_FULL),
            _ => (Some(EARLY_KNOWN), EARLY_FULL),
        };
        let is_full = 0 < self.size && self.entries == self.size;
        known.filter(|_| self.first.is_some()).into_iter().chain(is_full.then_some(full)).collect()
    }
}

// ---- the counts

#[derive(Default)]
pub struct Searches(BTreeMap<&'static str, u64>);

impl Searches {
    /// Counts a call that is a store, on a table that was dumped before. What the oracle told must be what the dump says.
    pub fn count(&mut self, call: &Call<'_>, size: usize, table: &[u8]) -> Result<(), String> {
        if call.letter() != "S" {
            return Ok(());
        }
        let (search, status, told) = (Search::of(call, size, table), call.said(1), call.said(6));
        let count = search.count(status);
        if told != count.to_string() {
            return Err(format!("key words held by a store: the oracle wrote {told:?}, by the dump before it is {count}"));
        }
        let met = if status == "00" { search.taken() } else { search.refused(status) };
        met.into_iter().for_each(|what| *self.0.entry(what).or_default() += 1);
        Ok(())
    }

    fn met(&self, what: &str) -> u64 {
        *self.0.get(what).unwrap_or(&0)
    }

    /// What was met less often than this. In share mode repeated keys are not asked for: they are rare there, since a load that
    /// brings them is refused.
    pub fn missing(&self, often: u64, in_share_mode: bool) -> Vec<String> {
        let wanted = CASES.iter().filter(|what| !(in_share_mode && **what == REPEATED));
        let few = wanted.filter(|what| self.met(what) < often);
        few.map(|what| format!("S {what}: {}", self.met(what))).collect()
    }

    pub fn print(&self) {
        println!("stores by how many key words they held against the wanted one");
        for what in CASES {
            println!("  {what:<68} {:>9}", self.met(what));
        }
    }
}
