//! A fixed list of the oracle's answers, to be replayed where there is no Rust.
use std::collections::{BTreeMap, BTreeSet};

use crate::compare::{our_answer, our_script};
use crate::generate;
use crate::run::{is_dumped, is_raw, run, rust_line, rust_text, Lines};
use crate::tally::{answer_of, Call, Counts, ANSWERS};

/// Small tables that are taken as they come, the lines that such a script may have, and how often each answer is to be
/// met.
const TABLES: usize = 120;
const LINES: usize = 40;
const WANTED: u64 = 12;
/// The sizes of the large tables: one that is set up as it stands, and one that is reached from empty.
const SET_UP: [usize; 4] = [255, 256, 513, 1024];
const GROWN: [usize; 2] = [509, 1024];

type Answers = BTreeSet<(&'static str, String)>;

/// The answers of a script.
fn answers(script: &[String], oracle: &mut Lines<'_>) -> Answers {
    let size = script[0][2..].parse().unwrap_or(0);
    let mut before = Counts::default();
    let mut met = Answers::new();
    for (at, line) in script.iter().enumerate() {
        oracle.take_refusal(line);
        let answer = oracle.take().unwrap_or("");
        let dump = if is_dumped(script, at) { oracle.take_dump() } else { &[] };
        let after = Counts::read(answer);
        if !is_raw(line) {
            met.insert(answer_of(&Call { line, answer, before, after, dump }, size));
        }
        before = after;
    }
    met
}

/// What has been chosen so far.
#[derive(Default)]
struct Choice {
    /// Scripts for our program.
    scripts: Vec<Vec<String>>,
    small: usize,
    met: BTreeMap<(&'static str, String), u64>,
    set_up: Vec<usize>,
    grown: Vec<usize>,
}

impl Choice {
    fn rare(&self, answer: &(&'static str, String)) -> bool {
        *self.met.get(answer).unwrap_or(&0) < WANTED
    }

    fn is_complete(&self) -> bool {
        let met = ANSWERS.iter().all(|(letter, answer)| !self.rare(&(*letter, answer.to_string())));
        met && self.small >= TABLES && self.set_up.is_empty() && self.grown.is_empty()
    }

    /// Whether a script is one of the large tables that are still wanted.
    fn takes_large(&mut self, script: &[String]) -> bool {
        let size: usize = script[0][2..].parse().unwrap_or(0);
        let raw = script.iter().filter(|line| line.starts_with('e')).count();
        if 0 < raw && raw < size / 2 {
            return false;
        }
        let wanted = if raw > 0 { &mut self.set_up } else { &mut self.grown };
        let position = wanted.iter().position(|s| *s == size);
        position.map(|at| wanted.remove(at)).is_some()
    }

    fn takes_small(&mut self, script: &[String], met: &Answers) -> bool {
        let taken = script.len() <= LINES && (self.small < TABLES || met.iter().any(|answer| self.rare(answer)));
        self.small += taken as usize;
        taken
    }

    fn consider(&mut self, script: &[String], wrote: &mut Lines<'_>) {
        let met = answers(script, &mut wrote.clone());
        let ours = our_script(script, wrote);
        if self.takes_small(script, &met) || self.takes_large(script) {
            met.into_iter().for_each(|answer| *self.met.entry(answer).or_default() += 1);
            self.scripts.push(ours);
        }
    }
}

fn choose(oracle: &str, seed: u64) -> Result<Vec<Vec<String>>, String> {
    let mut choice = Choice { set_up: SET_UP.to_vec(), grown: GROWN.to_vec(), ..Choice::default() };
    for batch in 0..200 {
        let scripts: Vec<_> = (0..200).map(|i| generate::script(seed, 200 * batch + i)).collect();
        let wrote = run(oracle, scripts.iter().map(|script| rust_text(script)).collect())?;
        let mut lines = Lines(&wrote);
        for script in &scripts {
            choice.consider(script, &mut lines);
        }
        if choice.is_complete() {
            return Ok(choice.scripts);
        }
    }
    Err("this seed does not meet every answer often enough".into())
}

/// The oracle's answers to a script, as our program writes them.
fn answered(script: &[String], lines: &mut Lines<'_>, out: &mut String) -> Result<(), String> {
    for line in script {
        lines.take_refusal(line);
        let answer = lines.take().ok_or("the oracle ended early")?;
        if answer.ends_with(" NOSET") || answer.starts_with('?') {
            return Err(format!("no answer to compare: {answer}"));
        }
        out.push_str(&our_answer(line, answer));
        out.push('\n');
    }
    out.push_str(&String::from_utf8_lossy(lines.take_dump()));
    Ok(())
}

/// Writes the chosen scripts, with a dump at the end of each table, and the oracle's answers to exactly these.
pub fn record(oracle: &str, seed: u64, stdin: &str, stdout: &str) -> Result<(), String> {
    let scripts = choose(oracle, seed)?;
    let calls: usize = scripts.iter().map(|script| script.iter().filter(|line| !is_raw(line)).count()).sum();
    let mut input = format!(
        "# {calls} calls on {} tables, chosen from the scripts of seed {seed} so that every answer of every call is met.\n\
         # Made by oracle/record. The answers in stdout are those of the published Rust, in the words of this program,\n\
         # where a remaining capacity is at most 253 and a store's line ends with its count of key words.\n",
        scripts.len()
    );
    for script in &scripts {
        input.push_str(&script.join("\n"));
        input.push_str("\nD\n");
    }
    let wrote = run(oracle, input.lines().map(|line| rust_line(line) + "\n").collect())?;
    let mut lines = Lines(&wrote);
    let mut output = String::new();
    for script in &scripts {
        answered(script, &mut lines, &mut output)?;
    }
    std::fs::write(stdin, &input).map_err(|e| format!("{stdin}: {e}"))?;
    std::fs::write(stdout, &output).map_err(|e| format!("{stdout}: {e}"))?;
    println!("{calls} calls on {} tables, {} bytes", scripts.len(), input.len() + output.len());
    Ok(())
}
