//! What was met of share mode: calls of fabrics at their share, above it and in full tables, and modes that are none of it.
use std::collections::BTreeMap;

use crate::run::{made, SHARE};
use crate::tally::Call;

// ---- what has to be met

/// An add with listed pairs, an add whose pairs the Rust finds itself, and a store: by each of them all of `WRITES`.
const WRITING: [&str; 3] = ["A", "B", "S"];
const REFUSED: &str = "new key, only the share refuses it";
const FULL_SHARE_LEFT: &str = "new key, table full, share left";
const FULL_NO_SHARE: &str = "new key, table full, no share left";
const LAST: &str = "new key, taken as the last of a share";
const KNOWN_NO_ROOM: &str = "known key, written without room, table not full";
const KNOWN_FULL: &str = "known key, written in a full table";
const WRITES: [&str; 6] = [REFUSED, FULL_SHARE_LEFT, FULL_NO_SHARE, LAST, KNOWN_NO_ROOM, KNOWN_FULL];

/// By place: N itself.
const SIZES: [&str; 4] = ["calls, N 0", "calls, N 1", "calls, N 2", "calls, N 3"];
const COPY_ONE: &str = "C of one scene: 89";
const COPY_GROUP: &str = "C of a group: 89 before any copy";
const COPY_MIDWAY: &str = "C of a group: 89 midway";
const FREED_BY_REMOVE: &str = "R that frees room where there was none";
const FREED_BY_ALL: &str = "X that frees room where there was none";
const FREED_BY_FABRIC: &str = "F that frees room where there was none";
const ABOVE_LOADED: &str = "calls of a fabric above its share, by a load";
const ABOVE_RAW: &str = "calls of a fabric above its share, by raw lines";
const ABOVE_REFUSED: &str = "only the share refuses, fabric above its share by a load";
const ABOVE_WRITTEN: &str = "known key written, fabric above its share by a load";
/// From N 509 on a share is above 253, the cap of what is reported.
const LARGE_REFUSED: &str = "only the share refuses, N above 508";
const LARGE_TAKEN: &str = "new key taken, fabric with 253 scenes or more";
const ODD_REFUSED: &str = "only the share refuses, modes odd and not 1";
const PLAIN_TAKEN: &str = "not in share mode: new key taken where the share would refuse it";
const MODES: [&str; 4] = ["calls, modes 1", "calls, modes odd and not 1", "calls, modes even", "calls, no modes given"];
#[rustfmt::skip]
const OTHERS: [&str; 14] = [
    COPY_ONE, COPY_GROUP, COPY_MIDWAY, FREED_BY_REMOVE, FREED_BY_ALL, FREED_BY_FABRIC, ABOVE_LOADED, ABOVE_RAW, ABOVE_REFUSED,
    ABOVE_WRITTEN, LARGE_REFUSED, LARGE_TAKEN, ODD_REFUSED, PLAIN_TAKEN,
];

/// All of these, in the order in which they are printed.
fn wanted() -> Vec<String> {
    let writes = WRITES.iter().flat_map(|what| WRITING.map(|letter| format!("{letter}: {what}")));
    writes.chain(OTHERS.iter().chain(&SIZES).chain(&MODES).map(|what| what.to_string())).collect()
}

// ---- a call in its table

/// The table before a call, and how many of its entries are of the caller's fabric.
struct Caller {
    size: usize,
    entries: usize,
    used: usize,
}

impl Caller {
    /// Of a call that names a fabric, on a table that was dumped before.
    fn of(call: &Call<'_>, size: usize, table: &[u8]) -> Option<Self> {
        if !call.line.starts_with(['A', 'B', 'S', 'V', 'R', 'X', 'C', 'L', 'M', 'I', 'F']) {
            return None;
        }
        let dump = String::from_utf8_lossy(table);
        let used = dump.lines().filter(|line| fabric_of(line) == Some(call.word(1))).count();
        Some(Self { size, entries: call.before.entries, used })
    }

    fn share(&self) -> usize {
        self.size.saturating_sub(1) / 2
    }

    fn is_full(&self) -> bool {
        self.entries == self.size
    }

    fn has_room(&self) -> bool {
        self.used < self.share() && !self.is_full()
    }

    fn is_above(&self) -> bool {
        self.share() < self.used
    }

    /// After so many of the fabric's entries went.
    fn without(&self, gone: usize) -> Self {
        Self { size: self.size, entries: self.entries - gone, used: self.used - gone }
    }
}

/// The fabric of an entry's line in a dump.
fn fabric_of(line: &str) -> Option<&str> {
    line.strip_prefix(" e ").and_then(|words| words.split(' ').next())
}

fn is_write(call: &Call<'_>) -> bool {
    WRITING.iter().any(|letter| call.line.starts_with(letter))
}

fn is_refused(call: &Call<'_>) -> bool {
    call.answer.ends_with(SHARE)
}

/// What an add or a store has met.
fn written(call: &Call<'_>, caller: &Caller) -> Option<&'static str> {
    if !is_write(call) {
        return None;
    }
    let too_long = call.letter() == "A" && call.word(8).len() > 256;
    match call.said(1) {
        "89" if is_refused(call) => Some(REFUSED),
        "89" if too_long => None,
        "89" if caller.used < caller.share() => Some(FULL_SHARE_LEFT),
        "89" => Some(FULL_NO_SHARE),
        "00" if call.grew() => (caller.used + 1 == caller.share()).then_some(LAST),
        "00" if caller.is_full() => Some(KNOWN_FULL),
        "00" if !caller.has_room() => Some(KNOWN_NO_ROOM),
        _ => None,
    }
}

fn copied(call: &Call<'_>) -> Option<&'static str> {
    match (call.letter(), call.said(1)) {
        ("C", "89") if !call.whole() => Some(COPY_ONE),
        ("C", "89") if call.grew() => Some(COPY_MIDWAY),
        ("C", "89") => Some(COPY_GROUP),
        _ => None,
    }
}

fn freed(call: &Call<'_>, caller: &Caller) -> Option<&'static str> {
    let what = match call.letter() {
        "R" => FREED_BY_REMOVE,
        "X" => FREED_BY_ALL,
        "F" => FREED_BY_FABRIC,
        _ => return None,
    };
    let after = caller.without(call.before.entries - call.after.entries);
    (!caller.has_room() && after.has_room()).then_some(what)
}

/// What a call of a fabric above its share has met.
fn above(call: &Call<'_>, loaded: bool) -> Vec<&'static str> {
    if !loaded {
        return vec![ABOVE_RAW];
    }
    let mut met = vec![ABOVE_LOADED];
    if is_refused(call) {
        met.push(ABOVE_REFUSED);
    }
    if is_write(call) && call.said(1) == "00" {
        met.push(ABOVE_WRITTEN);
    }
    met
}

// ---- the counts

#[derive(Default)]
pub struct Bounds {
    counts: BTreeMap<String, u64>,
    size: usize,
    modes: Option<u8>,
    /// Whether an image was loaded: it has replaced what stood there before.
    loaded: bool,
}

impl Bounds {
    pub fn start(&mut self, script: &[String]) {
        (self.size, self.modes) = made(script);
        self.loaded = false;
    }

    fn meet(&mut self, what: &str) {
        *self.counts.entry(what.to_string()).or_default() += 1;
    }

    /// Counts a call on a table that was dumped before.
    pub fn count(&mut self, call: &Call<'_>, table: &[u8]) {
        let is_odd = |modes: u8| modes % 2 == 1;
        self.meet(match self.modes {
            Some(1) => MODES[0],
            Some(modes) if is_odd(modes) => MODES[1],
            Some(_) => MODES[2],
            None => MODES[3],
        });
        if let Some(caller) = Caller::of(call, self.size, table) {
            if self.modes.is_some_and(is_odd) {
                self.count_shared(call, &caller);
            } else if is_write(call) && call.grew() && !caller.has_room() {
                self.meet(PLAIN_TAKEN);
            }
        }
        self.loaded |= call.letter() == "G" && call.said(1) == "00";
    }

    /// Counts a call of a fabric in share mode.
    fn count_shared(&mut self, call: &Call<'_>, caller: &Caller) {
        if let Some(what) = written(call, caller) {
            self.meet(&format!("{}: {what}", &call.line[..1]));
        }
        let mut met: Vec<&str> = copied(call).into_iter().chain(freed(call, caller)).collect();
        met.extend(SIZES.get(self.size));
        if caller.is_above() {
            met.extend(above(call, self.loaded));
        }
        if is_refused(call) && self.size > 508 {
            met.push(LARGE_REFUSED);
        }
        if is_refused(call) && self.modes != Some(1) {
            met.push(ODD_REFUSED);
        }
        if is_write(call) && call.grew() && caller.used >= 253 {
            met.push(LARGE_TAKEN);
        }
        met.into_iter().for_each(|what| self.meet(what));
    }

    fn met(&self, what: &str) -> u64 {
        *self.counts.get(what).unwrap_or(&0)
    }

    /// What was met less often than this.
    pub fn missing(&self, often: u64) -> Vec<String> {
        let few = wanted().into_iter().filter(|what| self.met(what) < often);
        few.map(|what| format!("{what}: {}", self.met(&what))).collect()
    }

    pub fn print(&self) {
        println!("share mode: adds (A; B where the Rust finds the pairs itself), stores (S), and other calls");
        for what in wanted() {
            println!("  {what:<68} {:>9}", self.met(&what));
        }
    }
}
