//! What was found of field bytes: adds by their answer, and by reason where one side alone takes the bytes.
use std::collections::BTreeMap;

use crate::strict::{Reason, LAX, REASONS};

/// What the Rust does with bytes that our reader refuses.
pub const TAKES: &str = "takes them";
pub const STOPS: &str = "ends at a pair: 85 or F7";
pub const OTHER_BYTES: &str = "takes other bytes: RAWDIFF";
pub const NO_FIELDS: &str = "adds without fields: EFSNONE";
pub const PANICS: &str = "panics";
pub const REFUSES: &str = "refuses them: ERR";

/// The answers on which both agree, by status and cause.
#[rustfmt::skip]
const ALIKE: [&str; 11] = [
    "00 new scene", "00 known scene", "85 attribute not scenable", "85 membership", "87 scene", "87 time",
    "89 fields too long", "89 table full", "F1", "F2", "F7",
];

pub const MORE_DIGITS: &str = "more pair digits than pairs";
pub const FEWER_DIGITS: &str = "fewer pair digits than pairs";
pub const WIDE: &str = "number in 8 bytes";

/// Longer examples, in hexadecimal digits, are not printed.
const LONGEST: usize = 96;

/// One side alone takes the bytes: why, and what the Rust does.
type Case = (Reason, String);

/// How often, and the shortest field bytes.
#[derive(Default)]
struct Found {
    count: u64,
    shortest: Option<String>,
}

#[derive(Default)]
pub struct Findings {
    pub inputs: u64,
    /// Adds whose bytes both took, and the pairs that were the same in both.
    pub taken: u64,
    pub pairs: u64,
    alike: BTreeMap<String, u64>,
    ours_alone: BTreeMap<Case, Found>,
    refused: BTreeMap<Case, Found>,
    digits: BTreeMap<Case, Found>,
}

fn note(cases: &mut BTreeMap<Case, Found>, case: Case, bytes: &str) {
    let found = cases.entry(case).or_default();
    found.count += 1;
    if found.shortest.as_ref().is_none_or(|shortest| bytes.len() < shortest.len()) {
        found.shortest = Some(bytes.into());
    }
}

fn print_cases(heading: &str, cases: &BTreeMap<Case, Found>) {
    println!("{heading}");
    for ((reason, rust), found) in cases {
        let shortest = found.shortest.as_deref().unwrap_or("");
        let length = format!("({} bytes)", shortest.len() / 2);
        let example = if shortest.len() > LONGEST { &length } else { shortest };
        println!("  {reason:<30} {rust:<30} {:>9}  {example}", found.count);
    }
}

impl Findings {
    pub fn alike(&mut self, answer: String) {
        *self.alike.entry(answer).or_default() += 1;
    }

    /// Our reader takes the bytes, and the Rust does not.
    pub fn ours_alone(&mut self, reason: Reason, status: &str, bytes: &str) {
        note(&mut self.ours_alone, (reason, status.into()), bytes);
    }

    pub fn refused(&mut self, reason: Reason, rust: &str, bytes: &str) {
        note(&mut self.refused, (reason, rust.into()), bytes);
    }

    /// Our reader takes the bytes, but the pair digits are not as many as the pairs.
    pub fn digits(&mut self, reason: Reason, status: &str, bytes: &str) {
        note(&mut self.digits, (reason, status.into()), bytes);
    }

    fn met(&self, reason: Reason, rust: Option<&str>) -> u64 {
        let all = self.ours_alone.iter().chain(&self.refused).chain(&self.digits);
        let of_this = all.filter(|(case, _)| case.0 == reason && rust.is_none_or(|rust| rust == case.1));
        of_this.map(|(_, found)| found.count).sum()
    }

    /// The answers and reasons that were met less often than wanted.
    pub fn missing(&self, wanted: u64) -> Vec<String> {
        let mut counts: Vec<(String, u64)> = Vec::new();
        counts.extend(ALIKE.map(|answer| (answer.to_string(), *self.alike.get(answer).unwrap_or(&0))));
        counts.extend([WIDE, MORE_DIGITS, FEWER_DIGITS].map(|reason| (reason.to_string(), self.met(reason, None))));
        counts.extend(REASONS.map(|reason| (reason.to_string(), self.met(reason, None))));
        counts.extend(LAX.map(|reason| (format!("{reason}, the Rust {TAKES}"), self.met(reason, Some(TAKES)))));
        counts.retain(|(_, count)| *count < wanted);
        counts.iter().map(|(what, count)| format!("{what}: {count}")).collect()
    }

    pub fn print(&self) {
        println!("adds answered alike, by answer");
        for (answer, count) in &self.alike {
            println!("  {answer:<30} {count:>9}");
        }
        print_cases("field bytes that our reader takes and the Rust does not, and its answer", &self.ours_alone);
        print_cases("F11 for the pair digits alone, and the Rust's answer (missing digits are 2)", &self.digits);
        print_cases("field bytes that our reader refuses, by the first reason, and what the Rust does", &self.refused);
    }
}
