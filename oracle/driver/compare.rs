//! What our program is given and what it has to write, by the oracle's answers.
use crate::run::{is_dumped, is_raw, Lines, NO_BYTES, SHARE};
use crate::tally::{Call, Counts, Tally};

/// The first difference: the line of the script, and what differs.
pub struct Difference {
    pub at: usize,
    pub what: String,
}

/// The line for our program. Field bytes that the Rust could not read count as apply failed. Where apply was to fail
/// and there was no set to apply, the Rust's recall succeeded: the call is not compared, and our program is told
/// "applied", so that the tables stay the same.
fn our_line(line: &str, answer: &str) -> String {
    if let Some(words) = line.strip_prefix('B') {
        return format!("A{words}");
    }
    if line.starts_with('L') {
        let words = &line[..line.len() - 1];
        if answer.ends_with(" UNREADABLE") {
            return format!("{words}0");
        }
        if answer.ends_with(" NOSET") {
            return format!("{words}1");
        }
    }
    line.to_string()
}

/// The script for our program.
pub fn our_script(script: &[String], oracle: &mut Lines<'_>) -> Vec<String> {
    let mut ours = Vec::with_capacity(script.len());
    let mut image = "-";
    for (at, line) in script.iter().enumerate() {
        oracle.take_refusal(line);
        let answer = oracle.take().unwrap_or("");
        if line == "P" {
            image = answer.rsplit(' ').next().unwrap_or("-");
        }
        // Our program is given the image that the Rust wrote.
        ours.push(if line == "G !" { format!("G {image}") } else { our_line(line, answer) });
        if is_dumped(script, at) {
            oracle.take_dump();
        }
    }
    ours
}

/// The words of a recall's answer: the time that `apply` was given, or else the override or the entry's own time, and
/// the fields.
fn recalled<'a>(line: &'a str, words: &[&'a str]) -> Vec<&'a str> {
    let mut answer = words[..6].to_vec();
    if let [given, _sets, stored, fields] = words[6..] {
        let requested = line.split(' ').nth(6).unwrap_or("-");
        let unapplied = if requested == "-" || requested == "null" { stored } else { requested };
        answer.extend([if given == "-" { unapplied } else { given }, fields]);
    }
    answer
}

/// The Rust's remaining capacity, if the answer has one, becomes the smaller of it and 253 (document 02, Q-4).
fn report(remaining: Option<&mut &str>) {
    if let Some(word) = remaining {
        if word.parse().is_ok_and(|number: u64| 253 < number) {
            *word = "253";
        }
    }
}

/// The oracle's answer as our program writes it.
pub fn our_answer(line: &str, answer: &str) -> String {
    let answer = answer.strip_suffix(SHARE).unwrap_or(answer);
    let mut words: Vec<&str> = answer.split(' ').collect();
    match words[0] {
        "B" => {
            words[0] = "A";
            words.retain(|word| !word.starts_with("asked="));
        }
        "L" => {
            words.retain(|word| *word != "UNREADABLE" && *word != "NOSET");
            words = recalled(line, &words);
        }
        "I" => report(words.get_mut(10)),
        "M" => {
            report(words.get_mut(6));
            if words.last() == Some(&"-") {
                words.pop();
            }
            return words.join(" ").replace(',', " ");
        }
        "U" if line == NO_BYTES => words[0] = "G",
        _ => return answer.to_string(),
    }
    words.join(" ")
}

/// The oracle's answer to a line, on a table with these counts, if our program wrote the same.
fn same_answer<'a>(
    line: &str,
    before: &Counts,
    oracle: &mut Lines<'a>,
    ours: &mut Lines<'_>,
) -> Result<&'a str, String> {
    let refusal = oracle.take_refusal(line);
    if refusal.is_some_and(|said| said != before.refused()) {
        return Err(format!("no bytes: the oracle wrote {refusal:?}, where it was to refuse them and to change nothing"));
    }
    let answer = oracle.take().ok_or("the oracle wrote no answer")?;
    let expected = our_answer(line, answer);
    let ours_answer = ours.take().ok_or("our program wrote no answer")?;
    if answer.starts_with('?') || expected != ours_answer {
        return Err(format!("answers: oracle {expected:?}, ours {ours_answer:?}"));
    }
    Ok(answer)
}

/// Compares the answers to one script, and counts them.
pub fn compare(
    script: &[String],
    oracle: &mut Lines<'_>,
    ours: &mut Lines<'_>,
    tally: &mut Tally,
) -> Result<(), Difference> {
    let mut before = Counts::default();
    let mut table: &[u8] = &[];
    tally.start(script);
    for (at, line) in script.iter().enumerate() {
        let differ = |what: String| Difference { at, what };
        let answer = same_answer(line, &before, oracle, ours).map_err(differ)?;
        let dumped = is_dumped(script, at);
        let dump = if dumped { oracle.take_dump() } else { &[] };
        if dumped && dump != ours.take_dump() {
            return Err(differ("tables".into()));
        }
        let after = Counts::read(answer);
        if !is_raw(line) {
            tally.count(&Call { line, answer, before, after, dump }, table).map_err(differ)?;
        }
        (before, table) = (after, dump);
    }
    Ok(())
}
