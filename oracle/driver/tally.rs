//! What was compared: calls by kind and answer.
use std::collections::BTreeMap;

use crate::bounds::Bounds;
use crate::fields::hex;
use crate::images::{canonical, Entry, Record};
use crate::run::{made, SHARE};
use crate::searches::Searches;

/// Entries, records and version behind an answer.
#[derive(Clone, Copy, Default)]
pub struct Counts {
    pub entries: usize,
    pub records: usize,
    pub version: u32,
}

impl Counts {
    /// Of an answer line; of an empty table for any other line.
    pub fn read(answer: &str) -> Self {
        let mut words = answer.split(' ').skip(3);
        let mut number = || words.next().and_then(|word| word.parse::<u64>().ok()).unwrap_or(0);
        Self { entries: number() as usize, records: number() as usize, version: number() as u32 }
    }

    /// The answer to an image that 9 refuses, from this table.
    pub fn refused(&self) -> String {
        format!("G F9 0 {} {} {}", self.entries, self.records, self.version)
    }
}

/// A call, the oracle's answer to it, and the table behind it.
pub struct Call<'a> {
    pub line: &'a str,
    pub answer: &'a str,
    pub before: Counts,
    pub after: Counts,
    pub dump: &'a [u8],
}

impl Call<'_> {
    pub fn word(&self, at: usize) -> &str {
        self.line.split(' ').nth(at).unwrap_or("")
    }

    pub fn said(&self, at: usize) -> &str {
        self.answer.split(' ').nth(at).unwrap_or("")
    }

    /// A membership answer is consulted unless the group is 0.
    fn consulted(&self, group: usize, member: usize, answer: &str) -> bool {
        self.word(group) != "0" && self.word(member) == answer
    }

    pub fn grew(&self) -> bool {
        self.before.entries < self.after.entries
    }

    /// Whether the list of records was full, so that the fabric's new record was dropped.
    fn dropped(&self, size: usize) -> bool {
        let record = format!("\n r {} ", self.word(1));
        self.after.records == size && !self.dump.windows(record.len()).any(|w| w == record.as_bytes())
    }

    /// What tells answers of the same status apart.
    fn cause(&self, size: usize) -> &'static str {
        let either = |test: bool, yes: &'static str, no: &'static str| if test { yes } else { no };
        match (self.letter(), self.said(1)) {
            ("A", "00") => either(self.grew(), "new scene", "known scene"),
            ("A", "85") => either(self.consulted(3, 6, "0"), "membership", "attribute not scenable"),
            ("A", "87") => either(matches!(self.word(4), "0" | "255"), "scene", "time"),
            ("A" | "S", "89") if self.answer.ends_with(SHARE) => "only the share",
            ("A", "89") => either(self.word(8).len() > 256, "fields too long", "table full"),
            ("S", "00") if self.dropped(size) => "record dropped",
            ("S", "00") => either(self.grew(), "new scene", "known scene"),
            ("L", "00") => either(self.dropped(size), "record dropped", "recalled"),
            ("L", "F4") => either(self.answer.ends_with("UNREADABLE"), "fields unreadable", "apply failed"),
            ("V", "00") => either(self.answer.ends_with(" -"), "no fields", "fields"),
            ("M", "00") => either(self.answer.ends_with(" -"), "empty list", "list"),
            ("I", "00") => either(self.answer.ends_with(" none"), "nothing", "row"),
            ("X" | "F", "00") => either(self.said(2) == "1", "something went", "nothing went"),
            ("G", "00") if self.word(1) == "!" => "image of this table",
            ("G", "00") if self.word(1) == "-" => "no bytes",
            ("G", "00") => either(self.is_canonical(), "as the Rust writes it", "written otherwise"),
            ("T", "00") => either(self.before.version != self.after.version, "records changed", "no record changed"),
            ("C", "00") if self.whole() => either(self.grew(), "group, new scenes", "group, known scenes"),
            ("C", "00") => either(self.grew(), "new scene", "known scene"),
            ("C", "85") => either(self.consulted(4, 8, "0"), "source group", "target group"),
            ("C", "F2") => either(self.consulted(4, 8, "2"), "source group", "target group"),
            ("C", "89") => either(self.grew(), "midway of a group", "before any copy"),
            _ => "",
        }
    }

    /// Whether the image that was loaded is the one that the table behind it would be saved as.
    fn is_canonical(&self) -> bool {
        let (entries, records) = standing(self.dump);
        self.word(1) == hex(&canonical(&entries, &records))
    }

    /// Whether a copy is of a whole group.
    pub fn whole(&self) -> bool {
        self.word(3).parse::<u8>().is_ok_and(|mode| mode % 2 == 1)
    }

    pub fn letter(&self) -> &'static str {
        const LETTERS: [&str; 17] = ["A", "S", "V", "R", "X", "C", "L", "M", "I", "T", "F", "Z", "U", "W", "E", "P", "G"];
        let letter = if self.line.starts_with('B') { "A" } else { &self.line[..1] };
        LETTERS.iter().copied().find(|l| *l == letter).unwrap_or("?")
    }
}

/// The entries and the records of a dump.
fn standing(dump: &[u8]) -> (Vec<Entry>, Vec<Record>) {
    let (mut entries, mut records) = (Vec::new(), Vec::new());
    for line in String::from_utf8_lossy(dump).lines() {
        let words: Vec<&str> = line.split_ascii_whitespace().collect();
        let number = |at: usize| words.get(at).and_then(|word| word.parse::<u64>().ok()).unwrap_or(0);
        let (fabric, endpoint, group, scene) = (number(1) as u8, number(2) as u16, number(3) as u16, number(4) as u8);
        match words.first() {
            Some(&"e") => {
                let fields = words.get(6).map_or(Vec::new(), |word| unhex(word));
                entries.push(Entry { fabric, endpoint, group, scene, time: number(5) as u32, fields });
            }
            Some(&"r") => records.push(Record { fabric, endpoint, group, scene, valid: number(5) == 1 }),
            _ => {}
        }
    }
    (entries, records)
}

fn unhex(word: &str) -> Vec<u8> {
    word.as_bytes().chunks_exact(2).map(|p| u8::from_str_radix(&String::from_utf8_lossy(p), 16).unwrap_or(0)).collect()
}

/// Every answer that can occur in a sound table, by letter, status and cause.
#[rustfmt::skip]
pub const ANSWERS: &[(&str, &str)] = &[
    ("A", "00 new scene"), ("A", "00 known scene"), ("A", "85 membership"), ("A", "85 attribute not scenable"),
    ("A", "87 scene"), ("A", "87 time"), ("A", "89 fields too long"), ("A", "89 table full"), ("A", "F1"),
    ("A", "F2"), ("A", "F7"),
    ("S", "00 new scene"), ("S", "00 known scene"), ("S", "00 record dropped"), ("S", "85"), ("S", "87"), ("S", "89"),
    ("S", "F1"), ("S", "F2"), ("S", "F3"),
    ("V", "00 fields"), ("V", "00 no fields"), ("V", "85"), ("V", "87"), ("V", "8B"), ("V", "F1"), ("V", "F2"),
    ("R", "00"), ("R", "85"), ("R", "87"), ("R", "8B"), ("R", "F1"), ("R", "F2"),
    ("X", "00 something went"), ("X", "00 nothing went"), ("X", "85"), ("X", "F1"), ("X", "F2"),
    ("C", "00 new scene"), ("C", "00 known scene"), ("C", "00 group, new scenes"), ("C", "00 group, known scenes"),
    ("C", "85 source group"), ("C", "85 target group"), ("C", "87"), ("C", "89 before any copy"),
    ("C", "89 midway of a group"), ("C", "8B"), ("C", "F1"), ("C", "F2 source group"), ("C", "F2 target group"),
    ("L", "00 recalled"), ("L", "00 record dropped"), ("L", "85"), ("L", "87"), ("L", "8B"), ("L", "F1"), ("L", "F2"),
    ("L", "F4 apply failed"), ("L", "F4 fields unreadable"),
    ("M", "00 list"), ("M", "00 empty list"), ("M", "85"), ("M", "F1"), ("M", "F2"),
    ("I", "00 row"), ("I", "00 nothing"), ("I", "F1"), ("I", "F5"),
    ("T", "00 records changed"), ("T", "00 no record changed"),
    ("F", "00 something went"), ("F", "00 nothing went"), ("F", "F1"),
    ("Z", "00"), ("U", "00"), ("W", "00"), ("E", "00"),
    ("P", "00"),
    ("G", "00 as the Rust writes it"), ("G", "00 written otherwise"), ("G", "00 image of this table"), ("G", "00 no bytes"),
    ("G", "F9"), ("G", "F10"),
];

const LENGTHS: [usize; 7] = [0, 1, 126, 127, 128, 129, 200];

/// The numbers that are cut: the letter of the call, the word of its answer, what it is. Those about 253 and 255 are counted.
const CUT: [(&str, usize, &str); 3] = [("M", 6, "M remaining"), ("I", 10, "I remaining"), ("I", 6, "I count")];
const ABOUT: std::ops::RangeInclusive<u64> = 251..=255;

#[derive(Default)]
pub struct Tally {
    pub scripts: u64,
    pub calls: u64,
    pub images: u64,
    answers: BTreeMap<(&'static str, String), u64>,
    by_size: BTreeMap<usize, u64>,
    lengths: BTreeMap<(char, usize), u64>,
    cut: BTreeMap<(&'static str, u64), u64>,
    others: BTreeMap<&'static str, u64>,
    size: usize,
    raw: bool,
    pub searches: Searches,
    /// What was met in share mode, where that is asked for.
    pub bounds: Option<Bounds>,
}

impl Tally {
    pub fn start(&mut self, script: &[String]) {
        self.scripts += 1;
        self.size = made(script).0;
        self.raw = script.iter().any(|line| line.starts_with(['e', 'r']));
        if let Some(bounds) = &mut self.bounds {
            bounds.start(script);
        }
    }

    fn other(&mut self, what: &'static str) {
        *self.others.entry(what).or_default() += 1;
    }

    /// Counts a call on a table that was dumped before. What the oracle told of a store must be what the dump says.
    pub fn count(&mut self, call: &Call<'_>, table: &[u8]) -> Result<(), String> {
        if call.answer.ends_with(" NOSET") {
            self.other("recalls not compared: apply failed, but there was no set to apply");
            return Ok(());
        }
        self.calls += 1;
        self.images += (call.letter() == "G") as u64;
        *self.answers.entry(answer_of(call, self.size)).or_default() += 1;
        *self.by_size.entry(self.size).or_default() += 1;
        self.count_lengths(call);
        self.count_cut(call);
        self.count_others(call);
        if let Some(bounds) = &mut self.bounds {
            bounds.count(call, table);
        }
        self.searches.count(call, self.size, table)
    }

    /// Adds and stores by the length of the bytes that they bring.
    fn count_lengths(&mut self, call: &Call<'_>) {
        let (letter, at) = match call.letter() {
            "A" => ('A', 8),
            "S" => ('S', 6),
            _ => return,
        };
        let word = call.word(at);
        let length = if word == "-" { 0 } else { word.len() / 2 };
        if LENGTHS.contains(&length) {
            *self.lengths.entry((letter, length)).or_default() += 1;
        }
    }

    /// Numbers of the Rust about 253 and 255, where they are cut.
    fn count_cut(&mut self, call: &Call<'_>) {
        for (_, at, what) in CUT.iter().filter(|cut| cut.0 == call.letter()) {
            if let Some(number) = call.said(*at).parse().ok().filter(|number| ABOUT.contains(number)) {
                *self.cut.entry((what, number)).or_default() += 1;
            }
        }
    }

    fn count_others(&mut self, call: &Call<'_>) {
        self.other(if self.raw { "calls on tables set up by raw lines" } else { "calls on tables reached from empty" });
        if call.before.entries == self.size {
            self.other("calls on a full table");
        }
        if call.before.records == self.size {
            self.other("calls with a full list of records");
        }
        if call.after.version < call.before.version {
            self.other("calls in which the version wrapped");
        }
        if call.letter() == "P" {
            let (entries, records) = standing(call.dump);
            self.other(if call.said(6) == hex(&canonical(&entries, &records)) {
                "images saved that are what the TLV appendix says of the table"
            } else {
                "images saved that are not what the TLV appendix says of the table"
            });
        }
        if call.line.starts_with('B') {
            self.other("adds whose pairs the published code found in the fields");
        }
        if call.letter() == "L" && !matches!(call.said(6), "" | "-") {
            self.other(match call.word(6) {
                "-" | "null" => "recalls: time given to apply, without override",
                _ => "recalls: time given to apply, with override",
            });
        }
    }

    /// The answers that were met less often than wanted.
    pub fn missing(&self, wanted: u64) -> Vec<String> {
        let met =
            |(letter, answer): &(&'static str, &str)| *self.answers.get(&(*letter, answer.to_string())).unwrap_or(&0);
        let few = ANSWERS.iter().filter(|answer| met(answer) < wanted);
        few.map(|answer| format!("{} {}: {}", answer.0, answer.1, met(answer))).collect()
    }

    /// The numbers about 253 and 255 that were met less often than wanted.
    pub fn missing_cut(&self, wanted: u64) -> Vec<String> {
        let cut = CUT.iter().flat_map(|&(_, _, what)| ABOUT.map(move |number| (what, number)));
        let met = |number: &(&'static str, u64)| *self.cut.get(number).unwrap_or(&0);
        let few = cut.filter(|number| met(number) < wanted);
        few.map(|number| format!("{} {}: {}", number.0, number.1, met(&number))).collect()
    }

    pub fn print(&self) {
        println!("calls by letter and answer");
        let order = |letter: &str| ANSWERS.iter().position(|a| a.0 == letter).unwrap_or(usize::MAX);
        let mut answers: Vec<_> = self.answers.iter().collect();
        answers.sort_by_key(|((letter, answer), _)| (order(letter), answer.clone()));
        for ((letter, answer), count) in answers {
            println!("  {letter} {answer:<28} {count:>9}");
        }
        println!("calls by size of the table");
        for (size, count) in &self.by_size {
            println!("  N {size:<28} {count:>9}");
        }
        println!("adds (A) and stores (S) by length of the bytes they bring");
        for ((letter, length), count) in &self.lengths {
            println!("  {letter} {length:<28} {count:>9}");
        }
        println!("the Rust's remaining capacities and info's counts, about 253 and 255");
        for ((what, number), count) in &self.cut {
            println!("  {what:<11} {number:<18} {count:>9}");
        }
        println!("further counts");
        for (what, count) in &self.others {
            println!("  {what:<68} {count:>9}");
        }
        self.searches.print();
        if let Some(bounds) = &self.bounds {
            bounds.print();
        }
    }
}

/// Letter, status and cause.
pub fn answer_of(call: &Call<'_>, size: usize) -> (&'static str, String) {
    let answer = format!("{} {}", call.said(1), call.cause(size));
    (call.letter(), answer.trim_end().to_string())
}
