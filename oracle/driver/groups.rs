//! Scripts on memberships that our program holds itself (document 02, Q-7). The Rust has no such list: it is given the answers of the one kept here,
//! a remove all for a leave that is not refused, and an event that does nothing for what is decided by the memberships alone.
use std::collections::BTreeMap;

use crate::compare::{our_answer, our_script};
use crate::generate;
use crate::random::Random;
use crate::run::{self, is_dumped, is_raw, Lines};
use crate::shrink::Programs;
use crate::tally::{Call, Counts, Tally};

/// Fabric, endpoint and group.
type Membership = (u8, u16, u16);

const MOST: usize = 256;
/// An event of the Rust that does nothing.
const NOTHING: &str = "E";
/// About so many lines go to a process.
const BATCH: usize = 8_000;

/// The list, in order.
#[derive(Clone, Default)]
struct Held(Vec<Membership>);

impl Held {
    /// No for group 0, whatever was written as it stands.
    fn has(&self, wanted: Membership) -> bool {
        wanted.2 != 0 && self.0.contains(&wanted)
    }

    fn lines(&self) -> String {
        self.0.iter().map(|(fabric, endpoint, group)| format!(" m {fabric} {endpoint} {group}\n")).collect()
    }
}

fn number(words: &[&str], at: usize) -> u64 {
    words.get(at).and_then(|word| word.parse().ok()).unwrap_or(0)
}

fn named(words: &[&str], group: usize) -> Membership {
    (number(words, 1) as u8, number(words, 2) as u16, number(words, group) as u16)
}

/// Where the memberships of a call stand, each behind the word of its group.
fn member_words(letter: &str) -> &'static [(usize, usize)] {
    match letter {
        "A" | "B" => &[(6, 3)],
        "S" | "V" | "R" | "L" => &[(5, 3)],
        "X" | "M" => &[(4, 3)],
        "C" => &[(8, 4), (9, 6)],
        _ => &[],
    }
}

/// What a line comes to: the line for the Rust, what our program has to say if the memberships decide it alone, the list behind it, and what to
/// count it as.
struct Step {
    rust: String,
    said: Option<(&'static str, &'static str)>,
    held: Held,
    kind: Option<String>,
}

/// A join, a question or a membership as it stands.
fn alone(letter: &str, wanted: Membership, held: &mut Held) -> ((&'static str, &'static str), String) {
    let (known, full) = (held.has(wanted), held.0.len() == MOST);
    let answer = match letter {
        "m" if wanted.0 == 0 || full => ("F6", ""),
        _ if wanted.0 == 0 => ("F1", ""),
        "H" => ("00", if known { " 1" } else { " 0" }),
        "J" if wanted.2 == 0 => ("87", ""),
        "J" if !known && full => ("F12", ""),
        _ => ("00", ""),
    };
    let cause = match (letter, answer.0) {
        ("J", "00") if known => if full { " existing, all taken" } else { " existing" },
        ("J", "00") => " new",
        ("H", "00") if wanted.2 == 0 => " group 0",
        ("m", "00") if wanted.2 == 0 => " group 0",
        ("m", "00") if known => " repeated",
        _ => "",
    };
    if answer.0 == "00" && (letter == "m" || (letter == "J" && !known)) {
        held.0.push(wanted);
    }
    (answer, format!("{letter} {}{}{cause}", answer.0, answer.1))
}

/// A leave: refused, or what a remove all is to the Rust.
fn leave(line: &str, wanted: Membership, held: &mut Held) -> Step {
    let refused = match wanted {
        (0, ..) => Some("F1"),
        (_, _, 0) => Some("87"),
        _ if !held.has(wanted) => Some("8B"),
        _ => None,
    };
    let rust = if refused.is_some() { NOTHING.into() } else { format!("X{} 1", &line[1..]) };
    let repeated = held.0.iter().filter(|had| **had == wanted).count() > 1;
    if refused.is_none() {
        held.0.retain(|had| *had != wanted);
    }
    let kind = format!("Q {}", refused.unwrap_or(if repeated { "00 repeated" } else { "00" }));
    Step { rust, said: refused.map(|status| (status, "")), held: held.clone(), kind: Some(kind) }
}

/// A call in which the list answers for the memberships.
fn asked(words: &[&str], held: &Held) -> (String, String) {
    let (mut line, mut answers) = (words.to_vec(), words[0].replace('B', "A") + " ?");
    for (at, group) in member_words(words[0]) {
        let wanted = named(words, *group);
        line[*at] = if held.has(wanted) { "1" } else { "0" };
        answers += match wanted.2 {
            0 => " group 0",
            _ => if line[*at] == "1" { " yes" } else { " no" },
        };
    }
    (line.join(" "), answers)
}

fn steps(script: &[String]) -> Vec<Step> {
    let mut held = Held::default();
    let mut all = Vec::new();
    for line in script {
        let words: Vec<&str> = line.split(' ').collect();
        let had = held.0.len();
        let step = match words[0] {
            letter @ ("J" | "H" | "m") => {
                let (said, kind) = alone(letter, named(&words, 3), &mut held);
                Step { rust: NOTHING.into(), said: Some(said), held: held.clone(), kind: Some(kind) }
            }
            "Q" => leave(line, named(&words, 3), &mut held),
            letter => {
                match letter {
                    "N" | "Z" => held.0.clear(),
                    "F" => held.0.retain(|(fabric, ..)| *fabric as u64 != number(&words, 1)),
                    _ => {}
                }
                let (rust, kind) = if line.contains('?') { asked(&words, &held) } else { (line.clone(), String::new()) };
                let dropped = matches!(letter, "F" | "Z") && held.0.len() < had;
                let kind = if dropped { format!("{letter} with memberships") } else { kind };
                let kept = matches!(letter, "U" | "G") && had > 0;
                let kind = if kept { format!("{letter} with memberships") } else { kind };
                Step { rust, said: None, held: held.clone(), kind: Some(kind).filter(|kind| !kind.is_empty()) }
            }
        };
        all.push(step);
    }
    all
}

/// The script for our program: as ever, with the question marks and the calls on memberships.
fn ours(script: &[String], steps: &[Step], oracle: &mut Lines<'_>) -> Vec<String> {
    let rust: Vec<String> = steps.iter().map(|step| step.rust.clone()).collect();
    let told = our_script(&rust, oracle);
    let line = |(line, told): (&String, String)| {
        if line.starts_with(['J', 'Q', 'H', 'm']) {
            return line.clone();
        }
        let mut words: Vec<&str> = told.split(' ').collect();
        if line.contains('?') {
            member_words(words[0]).iter().for_each(|(at, _)| words[*at] = "?");
        }
        words.join(" ")
    };
    script.iter().zip(told).map(line).collect()
}

/// What our program has to write, by the oracle's answer to the line for the Rust.
fn expected(line: &str, step: &Step, answer: &str) -> String {
    match step.said {
        Some((status, tail)) => format!("{} {status} 0{}{tail}", &line[..1], answer.strip_prefix("E 00 0").unwrap_or(" ?")),
        None if line.starts_with('Q') => format!("Q{}", answer.strip_prefix('X').unwrap_or(" ?")),
        None => our_answer(&step.rust, answer),
    }
}

/// What was met, by call and answer.
type Met = BTreeMap<String, u64>;

/// A leave that was refused though the group has scenes, one that found some, and a removal of memberships alone.
fn cause(line: &str, kind: &str, answer: &str, table: &[u8]) -> String {
    let mark = answer.split(' ').nth(2) == Some("1");
    if kind == "Q 8B" {
        let scene = format!("\n e {} ", &line[2..]);
        let there = table.windows(scene.len()).any(|part| part == scene.as_bytes());
        return format!("{kind} {}", if there { "scenes stay" } else { "no scene" });
    }
    if kind.starts_with("Q 00") || kind.starts_with("F ") {
        return format!("{kind}, {}", if mark { "saved" } else { "not saved" });
    }
    kind.to_string()
}

/// Compares one script.
fn compare(script: &[String], oracle: &mut Lines<'_>, ours: &mut Lines<'_>, tally: &mut Tally, met: &mut Met) -> Result<(), String> {
    let steps = steps(script);
    let rust: Vec<String> = steps.iter().map(|step| step.rust.clone()).collect();
    let (mut before, mut table): (Counts, &[u8]) = (Counts::default(), &[]);
    tally.start(&rust);
    for (at, (line, step)) in script.iter().zip(&steps).enumerate() {
        oracle.take_refusal(&step.rust);
        let answer = oracle.take().unwrap_or("");
        let (wanted, wrote) = (expected(line, step, answer), ours.take().unwrap_or(""));
        if wanted != wrote {
            return Err(format!("line {}: {line}\nwanted {wanted:?}, ours {wrote:?}", at + 1));
        }
        let dump = if is_dumped(&rust, at) { oracle.take_dump() } else { &[] };
        let mut whole = dump.to_vec();
        if !dump.is_empty() {
            whole.extend(step.held.lines().bytes());
        }
        if is_dumped(&rust, at) && whole != ours.take_dump() {
            return Err(format!("line {}: {line}\ntables", at + 1));
        }
        let after = Counts::read(answer);
        if let Some(kind) = &step.kind {
            *met.entry(cause(line, kind, answer, table)).or_default() += 1;
        }
        if step.said.is_some() {
            // A membership as it stands is no call.
            tally.calls += u64::from(!line.starts_with('m'));
        } else if !is_raw(&step.rust) {
            tally.count(&Call { line: &step.rust, answer, before, after, dump }, table)?;
        }
        (before, table) = (after, dump);
    }
    Ok(())
}

/// Runs scripts on both programs, and compares.
fn compare_all(programs: &Programs, scripts: &[Vec<String>], tally: &mut Tally, met: &mut Met) -> Result<(), (usize, String)> {
    let failed = |what: String| (0, what);
    let rust: Vec<Vec<String>> = scripts.iter().map(|script| steps(script).into_iter().map(|step| step.rust).collect()).collect();
    let text: String = rust.iter().map(|script| run::rust_text(script)).collect();
    let oracle_wrote = run::run(&programs.oracle, text).map_err(failed)?;
    let mut lines = Lines(&oracle_wrote);
    let told: String = scripts.iter().map(|script| run::text(&ours(script, &steps(script), &mut lines))).collect();
    let ours_wrote = run::run(&programs.ours, told).map_err(failed)?;
    let (mut oracle, mut ours) = (Lines(&oracle_wrote), Lines(&ours_wrote));
    for (at, script) in scripts.iter().enumerate() {
        compare(script, &mut oracle, &mut ours, tally, met).map_err(|what| (at, what))?;
    }
    Ok(())
}

/// Leaves out lines as long as a difference stays, and prints what is left.
fn report(programs: &Programs, mut script: Vec<String>, what: &str) {
    let differs = |script: &[String]| compare_all(programs, &[script.to_vec()], &mut Tally::default(), &mut Met::new()).err();
    for at in (1..script.len()).rev() {
        let mut shorter = script.clone();
        shorter.remove(at);
        if differs(&shorter).is_some() {
            script = shorter;
        }
    }
    let what = differs(&script).map_or(what.to_string(), |found| found.1);
    println!("DIFFERENCE: {what}\nsmallest script found:");
    script.iter().for_each(|line| println!("  {line}"));
}

/// The groups that a script's calls name.
fn groups(script: &[String]) -> Vec<Membership> {
    let mut all = vec![(1, 1, 1)];
    for line in script.iter().filter(|line| !is_raw(line)) {
        let words: Vec<&str> = line.split(' ').collect();
        all.extend(member_words(words[0]).iter().map(|(_, group)| named(&words, *group)));
    }
    all
}

/// A call on memberships, mostly of groups that the script names.
fn call(random: &mut Random, groups: &[Membership]) -> String {
    let letter = random.pick(&['J', 'J', 'J', 'J', 'J', 'Q', 'Q', 'Q', 'H', 'H', 'H', 'm']);
    let (mut fabric, endpoint, mut group) = random.pick(groups);
    match random.below(20) {
        0 => fabric = 0,
        1 => group = 0,
        2 => group = random.next() as u16,
        _ => {}
    }
    format!("{letter} {fabric} {endpoint} {group}")
}

/// Memberships before the first call: nearly all places taken, some as they stand, or joins of the groups that are named.
fn start(random: &mut Random, groups: &[Membership], long: bool, script: &mut Vec<String>) {
    match random.below(12) {
        0 if !long => {
            for i in 0..MOST - random.below(4) {
                script.push(format!("m {} {} {}", 200 + i % 3, i / 3, 1 + i % 7));
            }
        }
        1 | 2 => (0..1 + random.below(6)).for_each(|_| {
            let (fabric, endpoint, group) = random.pick(groups);
            let line = format!("m {} {endpoint} {}", fabric.max(1), if random.percent(20) { 0 } else { group });
            script.extend(vec![line; 1 + random.below(3)]);
        }),
        3..8 => groups.iter().take(20).for_each(|(fabric, endpoint, group)| script.push(format!("J {fabric} {endpoint} {group}"))),
        _ => {}
    }
}

/// Script number `index` of a seed: any script, with question marks and with calls on memberships.
fn script(seed: u64, index: u64) -> Vec<String> {
    let base = generate::script(seed, index);
    let mut random = Random::new(seed ^ 0x6772_6F75_7073, index);
    let (groups, long) = (groups(&base), base.len() > 120);
    let raw = base.iter().take_while(|line| is_raw(line)).count();
    let mut script = base[..raw].to_vec();
    start(&mut random, &groups, long, &mut script);
    for line in &base[raw..] {
        if random.percent(if long { 10 } else { 30 }) {
            script.push(call(&mut random, &groups));
        }
        let mut words: Vec<&str> = line.split(' ').collect();
        if random.percent(80) {
            member_words(words[0]).iter().for_each(|(at, _)| words[*at] = "?");
        }
        script.push(words.join(" "));
    }
    script
}

#[rustfmt::skip]
const WANTED: &[&str] = &[
    "J F1", "J 87", "J F12", "J 00 new", "J 00 existing", "J 00 existing, all taken", "H F1", "H 00 1", "H 00 0", "H 00 0 group 0",
    "m F6", "m 00", "m 00 group 0", "m 00 repeated", "Q F1", "Q 87", "Q 8B no scene", "Q 8B scenes stay", "Q 00, saved", "Q 00, not saved",
    "Q 00 repeated, saved", "Q 00 repeated, not saved", "F with memberships, saved", "F with memberships, not saved", "Z with memberships",
    "U with memberships", "A ? yes", "A ? no", "A ? group 0", "S ? yes", "S ? no", "S ? group 0", "V ? yes", "V ? no", "V ? group 0", "R ? yes",
    "R ? no", "R ? group 0", "X ? yes", "X ? no", "X ? group 0", "L ? yes", "L ? no", "L ? group 0", "M ? yes", "M ? no", "M ? group 0",
    "C ? yes yes", "C ? yes no", "C ? no yes", "C ? no no", "C ? group 0 yes", "C ? yes group 0", "C ? no group 0", "C ? group 0 group 0",
];

/// Compares so many calls. What was met too rarely, or none if something differs.
pub fn differential(programs: &Programs, seed: u64, calls: u64, wanted: u64) -> Option<Vec<String>> {
    let (mut tally, mut met, mut first) = (Tally::default(), Met::new(), 0);
    while tally.calls < calls {
        let (mut scripts, mut cost) = (Vec::new(), 0);
        while cost < BATCH {
            let script = script(seed, first + scripts.len() as u64);
            cost += if script.len() > 100 { 10 * script.len() / 8 } else { script.len() };
            scripts.push(script);
        }
        if let Err((at, what)) = compare_all(programs, &scripts, &mut tally, &mut met) {
            println!("seed {seed}, script {}", first + at as u64);
            report(programs, scripts[at].clone(), &what);
            return None;
        }
        first += scripts.len() as u64;
    }
    tally.print();
    println!("calls on memberships, and calls in which they answer");
    met.iter().for_each(|(what, count)| println!("  {what:<38} {count:>9}"));
    println!("seed {seed}: {} calls in {} scripts, no difference", tally.calls, tally.scripts);
    let few = WANTED.iter().filter(|what| met.get(**what).is_none_or(|count| *count < wanted));
    Some(few.map(|what| what.to_string()).collect())
}
