//! Field bytes, given to the reader of our program and to the walk of the published Rust.
use std::time::Instant;

use crate::fields::hex;
use crate::findings::*;
use crate::lists::field_bytes;
use crate::random::Random;
use crate::run::{run, text, Lines};
use crate::shrink::Programs;
use crate::strict::{sets, Reason, Set, LAX};
use crate::tally::{answer_of, Call, Counts};

/// So many field bytes go to a process.
const BATCH: u64 = 4_000;
/// Where the Rust panics on a list of pairs that is no container.
const PANIC_AT: &str = "at=container.rs:94";

/// An add on a table of its own: what one program refuses and the other takes does not tell on later calls.
struct Case {
    size: usize,
    /// The lines that set the table up. The last one is followed by a dump.
    table: Vec<String>,
    add: String,
    bytes: String,
    digits: String,
    /// Whether a test that comes before the fields decides.
    early: bool,
    sets: Result<Vec<Set>, Reason>,
}

/// Fabric, group, scene, time and membership of an add, and whether they decide it.
struct Request {
    fabric: u8,
    group: u16,
    scene: u8,
    time: u32,
    member: u8,
    early: bool,
}

fn request(random: &mut Random) -> Request {
    let (scene, time) = (1 + random.below(254) as u8, random.pick(&[0, 1, 1000, 59_999_999, 60_000_000]));
    let group = random.pick(&[0, 0, 0, 1]);
    let usual = Request { fabric: 1, group, scene, time, member: 1, early: false };
    match random.below(100) {
        0 => Request { fabric: 0, early: true, ..usual },
        1 => Request { scene: random.pick(&[0, 255]), early: true, ..usual },
        2 => Request { time: random.pick(&[60_000_001, u32::MAX]), early: true, ..usual },
        3 => Request { group: 1, member: 0, early: true, ..usual },
        4 => Request { group: 1, member: 2, early: true, ..usual },
        _ => usual,
    }
}

/// A small table, often full, often with the scene that is added, or with a record of it.
fn table(random: &mut Random, size: usize, request: &Request) -> Vec<String> {
    let mut lines = vec![format!("N {size}")];
    let group = request.group;
    for at in 0..random.below(size.min(3) + 1) {
        let scene = if at == 0 && random.percent(50) { request.scene } else { random.byte() };
        lines.push(format!("e 1 1 {group} {scene} {} {}", random.below(9), random.pick(&["-", "18", "1818"])));
    }
    if size > 0 && random.percent(30) {
        lines.push(format!("r 1 1 {group} {} 1", request.scene));
    }
    lines.push(format!("K {}", random.pick(&[0, 0, 7, u32::MAX])));
    lines
}

/// Mostly as many digits as there are pairs, mostly 1 and 2.
fn pair_digits(random: &mut Random, pairs: Option<usize>) -> String {
    let pairs = pairs.unwrap_or_else(|| random.below(4));
    let count = match random.below(100) {
        0..3 => pairs + 1,
        3..6 => pairs.saturating_sub(1),
        _ => pairs,
    };
    let mut digits: Vec<char> = (0..count).map(|_| random.pick(&['1', '2'])).collect();
    for _ in 0..random.pick(&[0, 0, 0, 0, 0, 0, 0, 0, 1, 2]).min(count) {
        digits[random.below(count)] = random.pick(&['0', '0', '3', '9']);
    }
    digits.into_iter().collect()
}

impl Case {
    fn new(seed: u64, index: u64) -> Self {
        let random = &mut Random::new(seed, index);
        let bytes = field_bytes(random);
        let sets = sets(&bytes);
        let size = random.pick(&[0, 1, 1, 2, 2, 3, 8, 16]);
        let request = request(random);
        let table = table(random, size, &request);
        let pairs = sets.as_ref().ok().map(|sets| sets.iter().map(|set| set.attributes.len()).sum());
        let digits = pair_digits(random, pairs);
        let word = if digits.is_empty() { "-" } else { &digits };
        let Request { fabric, group, scene, time, member, early } = request;
        let bytes = hex(&bytes);
        let add = format!("B {fabric} 1 {group} {scene} {time} {member} {word} {bytes}");
        Self { size, table, add, bytes, digits, early, sets }
    }

    /// The add, and on the same table again the one with listed pairs, which looks at no field bytes.
    fn oracle_script(&self) -> Vec<String> {
        let listed = format!("A{}", &self.add[1..]);
        [&self.table[..], &[self.add.clone()], &self.table[..], &[listed]].concat()
    }

    /// The same lines, and the sets before the add.
    fn our_script(&self) -> Vec<String> {
        [&self.table[..], &[format!("Y {}", self.bytes), self.add.clone()]].concat()
    }

    /// What our program answers to Y, in a table with these counts.
    fn expected_sets(&self, counts: &str) -> String {
        let Ok(sets) = &self.sets else {
            return format!("Y F11 0 {counts}");
        };
        let words = sets.iter().map(|set| {
            let attributes: Vec<String> = set.attributes.iter().map(|a| a.value.to_string()).collect();
            format!("{}:{}", set.cluster.value, or_none(attributes.join(",")))
        });
        format!("Y 00 0 {counts} {}", or_none(words.collect::<Vec<_>>().join(" ")))
    }
}

fn or_none(words: String) -> String {
    if words.is_empty() {
        return "-".into();
    }
    words
}

/// The pairs of some sets as the oracle tells them, and how many stand before the first number in 8 bytes.
fn pairs_of(sets: &[Set]) -> (Vec<String>, Option<usize>) {
    let (mut pairs, mut readable) = (Vec::new(), None);
    for set in sets {
        if set.cluster.wide {
            readable = readable.or(Some(pairs.len()));
        }
        for attribute in &set.attributes {
            if attribute.wide {
                readable = readable.or(Some(pairs.len()));
            }
            pairs.push(format!("{}:{}", set.cluster.value, attribute.value));
        }
    }
    (pairs, readable)
}

/// What both programs answered to an add, with the tables before and behind it.
struct Answers<'a> {
    before: &'a [u8],
    oracle: &'a str,
    oracle_after: &'a [u8],
    /// The oracle's answer to the add with listed pairs.
    listed: &'a str,
    listed_after: &'a [u8],
    ours: &'a str,
    ours_after: &'a [u8],
}

impl Answers<'_> {
    fn status(&self) -> &str {
        self.oracle.split(' ').nth(1).unwrap_or("")
    }

    fn has_mark(&self, mark: &str) -> bool {
        self.oracle.split(' ').skip(6).any(|word| word == mark)
    }

    fn asked(&self) -> &str {
        self.oracle.split(' ').find_map(|word| word.strip_prefix("asked=")).unwrap_or("")
    }

    /// The counts of the table before, as words.
    fn counts(&self) -> String {
        Lines(self.before).take().and_then(|line| line.strip_prefix("D ")).unwrap_or("").into()
    }

    /// Equal answers and tables, and these pairs asked about.
    fn are_alike(&self, pairs: &[String]) -> bool {
        let head: Vec<&str> = self.oracle.split(' ').take(6).collect();
        let asked = self.asked() == or_none(pairs.join(","));
        asked && head.join(" ") == self.ours && self.oracle_after == self.ours_after
    }

    /// Whether our program decides as the Rust does with listed pairs.
    fn ours_as_listed(&self) -> bool {
        self.listed.get(1..) == self.ours.get(1..) && self.ours.starts_with('B') && self.listed_after == self.ours_after
    }

    /// Whether our program answers 11 and leaves everything.
    fn ours_refuses(&self) -> bool {
        self.ours == format!("B F11 0 {}", self.counts()) && self.ours_after == self.before
    }

    /// Whether the Rust refuses with this status and leaves everything.
    fn rust_refuses(&self, status: &str) -> bool {
        self.status() == status && self.oracle_after == self.before
    }

    /// What the Rust does with bytes that our reader refuses; none if it is something that is not known of it.
    fn outcome(&self, reason: Reason) -> Option<&'static str> {
        let (status, left) = (self.status(), self.oracle_after == self.before);
        match status {
            "PANIC" => (left && self.has_mark(PANIC_AT)).then_some(PANICS),
            "85" | "F7" => left.then_some(STOPS),
            "00" | "89" if self.has_mark("EFSNONE") => (self.asked() == "-").then_some(NO_FIELDS),
            "00" | "89" if self.has_mark("RAWDIFF") => Some(OTHER_BYTES),
            "00" | "89" => LAX.contains(&reason).then_some(TAKES),
            _ => (left && status.starts_with("ERR:")).then_some(REFUSES),
        }
    }
}

/// Takes what both programs wrote to a case, and compares all but the answers to the add.
fn answers<'a>(case: &Case, oracle: &mut Lines<'a>, ours: &mut Lines<'a>) -> Result<Answers<'a>, String> {
    for line in &case.table {
        let (theirs, own) = (oracle.take(), ours.take());
        if theirs.is_none() || theirs != own {
            return Err(format!("answers to {line}: oracle {theirs:?}, ours {own:?}"));
        }
    }
    let before = oracle.take_dump();
    if before.is_empty() || before != ours.take_dump() {
        return Err("tables before the add".into());
    }
    let read = ours.take().unwrap_or("");
    let unchanged = ours.take_dump() == before;
    let (own, ours_after) = (ours.take().unwrap_or(""), ours.take_dump());
    let (answer, oracle_after) = (oracle.take().unwrap_or(""), oracle.take_dump());
    case.table.iter().for_each(|_| {
        oracle.take();
    });
    oracle.take_dump();
    let (listed, listed_after) = (oracle.take().unwrap_or(""), oracle.take_dump());
    let answers = Answers { before, oracle: answer, oracle_after, listed, listed_after, ours: own, ours_after };
    let expected = case.expected_sets(&answers.counts());
    if read != expected || !unchanged {
        return Err(format!("sets: expected {expected:?}, ours {read:?}, table unchanged: {unchanged}"));
    }
    Ok(answers)
}

/// Counts an add whose answers are the same.
fn count_alike(case: &Case, answers: &Answers<'_>, findings: &mut Findings) {
    let before = Counts::read(&format!("B 00 0 {}", answers.counts()));
    let after = Counts::read(answers.oracle);
    let call = Call { line: &case.add, answer: answers.oracle, before, after, dump: answers.oracle_after };
    findings.alike(answer_of(&call, case.size).1);
}

/// An add whose field bytes our reader takes. Says whether the answers are as they must be.
fn judge_taken(case: &Case, sets: &[Set], answers: &Answers<'_>, findings: &mut Findings) -> bool {
    let (pairs, readable) = pairs_of(sets);
    if case.digits.len() != pairs.len() {
        let reason = if case.digits.len() > pairs.len() { MORE_DIGITS } else { FEWER_DIGITS };
        findings.digits(reason, answers.status(), &case.bytes);
        return answers.ours_refuses();
    }
    // The first digit other than 1 and 2 ends the walk, unless a number that the Rust refuses comes before it.
    let end = case.digits.find(|digit| digit != '1' && digit != '2').map(|at| at + 1);
    if let Some(readable) = readable.filter(|readable| end.is_none_or(|end| end > *readable)) {
        findings.ours_alone(WIDE, answers.status(), &case.bytes);
        let asked = answers.asked() == or_none(pairs[..readable].join(","));
        return asked && answers.rust_refuses("ERR:TLVTypeMismatch") && answers.ours_as_listed();
    }
    let asked = &pairs[..end.unwrap_or(pairs.len())];
    findings.taken += 1;
    findings.pairs += asked.len() as u64;
    count_alike(case, answers, findings);
    let marked = answers.has_mark("EFSNONE") || answers.has_mark("RAWDIFF");
    !marked && answers.are_alike(asked) && answers.ours_as_listed()
}

/// Counts an add. Says whether the answers are as they must be.
fn judge(case: &Case, answers: &Answers<'_>, findings: &mut Findings) -> bool {
    findings.inputs += 1;
    match &case.sets {
        _ if case.early => {
            count_alike(case, answers, findings);
            answers.are_alike(&[])
        }
        Ok(sets) => judge_taken(case, sets, answers, findings),
        Err(reason) => {
            let outcome = answers.outcome(reason);
            findings.refused(reason, outcome.unwrap_or("unknown"), &case.bytes);
            outcome.is_some() && answers.ours_refuses()
        }
    }
}

/// Compares what both programs wrote to a case.
fn compare_case<'a>(
    case: &Case,
    oracle: &mut Lines<'a>,
    ours: &mut Lines<'a>,
    findings: &mut Findings,
) -> Result<(), String> {
    let answers = answers(case, oracle, ours)?;
    if judge(case, &answers, findings) {
        return Ok(());
    }
    let reading = case.sets.as_ref().err().unwrap_or(&"a list of sets");
    Err(format!("{reading}: oracle {:?}, ours {:?}, or the tables behind", answers.oracle, answers.ours))
}

fn report(programs: &Programs, seed: u64, index: u64, case: &Case, what: &str) -> ! {
    println!("DIFFERENCE: seed {seed}, field bytes {index}: {what}");
    for (name, program, script) in
        [("oracle", &programs.oracle, case.oracle_script()), ("ours", &programs.ours, case.our_script())]
    {
        let script = text(&script);
        println!("as given to {name}:\n{}", crate::indented(script.as_bytes()));
        let wrote = run(program, script).unwrap_or_else(|what| what.into_bytes());
        println!("{name}:\n{}", crate::indented(&wrote));
    }
    std::process::exit(1)
}

/// Runs a batch on both programs at once.
fn run_both(programs: &Programs, cases: &[Case]) -> Result<(Vec<u8>, Vec<u8>), String> {
    let theirs: String = cases.iter().map(|case| text(&case.oracle_script())).collect();
    let own: String = cases.iter().map(|case| text(&case.our_script())).collect();
    std::thread::scope(|scope| {
        let oracle = scope.spawn(|| run(&programs.oracle, theirs));
        let ours = run(&programs.ours, own)?;
        Ok((oracle.join().map_err(|_| "the oracle's thread")??, ours))
    })
}

/// Compares so many field bytes. Says which answers and reasons were met too rarely.
pub fn compare(programs: &Programs, seed: u64, wanted: u64, often: u64) -> Vec<String> {
    let start = Instant::now();
    let mut findings = Findings::default();
    while findings.inputs < wanted {
        let first = findings.inputs;
        let cases: Vec<Case> = (first..first + BATCH).map(|index| Case::new(seed, index)).collect();
        let (theirs, own) = run_both(programs, &cases).unwrap_or_else(|what| crate::fail(&what));
        let (mut oracle, mut ours) = (Lines(&theirs), Lines(&own));
        for (case, index) in cases.iter().zip(first..) {
            if let Err(what) = compare_case(case, &mut oracle, &mut ours, &mut findings) {
                report(programs, seed, index, case, &what);
            }
        }
        if !oracle.0.is_empty() || !ours.0.is_empty() {
            crate::fail("a program wrote more than it was asked for");
        }
    }
    findings.print();
    let Findings { inputs, taken, pairs, .. } = findings;
    let seconds = start.elapsed().as_secs();
    println!("seed {seed}: {inputs} field bytes, {taken} of them taken by both with {pairs} pairs, no difference, {seconds} s");
    findings.missing(often)
}
