//! Reads a script from standard input and writes the answers to standard output.
use std::cell::RefCell;
use std::io::{BufRead, BufWriter, Write};
use std::panic::{catch_unwind, AssertUnwindSafe};

use crate::script;
use crate::table::{table, Answer, AnyTable};

thread_local! {
    /// Where the last panic was.
    static PANICKED: RefCell<String> = const { RefCell::new(String::new()) };
}

fn note_panics() {
    std::panic::set_hook(Box::new(|panic| {
        let at = panic
            .location()
            .map_or(String::new(), |l| format!("{}:{}", l.file().rsplit('/').next().unwrap_or("?"), l.line()));
        if at.starts_with("table.rs") || at.starts_with("hosts.rs") {
            eprintln!("oracle: {panic}");
        }
        PANICKED.set(at);
    }));
}

fn options() {
    for word in std::env::args().skip(1) {
        match word.as_str() {
            "--nullable-reduced" => crate::tlv::oracle::reduce_nullable(),
            "--ordered" => crate::tlv::oracle::read_in_order(),
            other => {
                eprintln!("oracle: unknown option {other}; known: --nullable-reduced, --ordered");
                std::process::exit(2);
            }
        }
    }
}

fn run(table: &dyn AnyTable, call: &script::Call) -> Answer {
    catch_unwind(AssertUnwindSafe(|| table.run(call))).unwrap_or_else(|_| Answer {
        status: "PANIC".into(),
        marks: vec![format!("at={}", PANICKED.take())],
        ..Answer::default()
    })
}

fn write_answer(out: &mut impl Write, letter: &str, answer: &Answer, table: &dyn AnyTable) -> std::io::Result<()> {
    if !answer.lines.is_empty() {
        return answer.lines.iter().try_for_each(|line| writeln!(out, "{line}"));
    }
    let (entries, records, version) = table.counts();
    write!(out, "{letter} {} {} {entries} {records} {version}", answer.status, answer.save as u8)?;
    for word in answer.values.iter().chain(&answer.marks) {
        write!(out, " {word}")?;
    }
    writeln!(out)
}

/// The table of a line `N size [modes]`, by the words behind its letter.
fn made<'a>(mut words: impl Iterator<Item = &'a str>) -> Option<Box<dyn AnyTable>> {
    let size = words.next()?.parse().ok()?;
    let modes = words.next().map_or(Some(0), |word| word.parse().ok())?;
    if words.next().is_some() {
        return None;
    }
    table(size, modes)
}

/// Runs one line. A line that is not understood is answered by `?` and why.
fn run_line(out: &mut impl Write, current: &mut Option<Box<dyn AnyTable>>, line: &str) -> std::io::Result<()> {
    let mut words = line.split_ascii_whitespace();
    let Some(letter) = words.next().filter(|word| !word.starts_with('#')) else {
        return Ok(());
    };
    if letter == "N" {
        *current = made(words);
        return match current {
            Some(_) => writeln!(out, "{}", line.trim()),
            None => writeln!(out, "? no size that is built in, or no modes: {line}"),
        };
    }
    match (current, script::read(line)) {
        (None, _) => writeln!(out, "? no table: {line}"),
        (_, Err(why)) => writeln!(out, "? {why}: {line}"),
        (Some(table), Ok(call)) => {
            let answer = run(table.as_ref(), &call);
            write_answer(out, letter, &answer, table.as_ref())
        }
    }
}

pub fn main() {
    options();
    note_panics();
    let mut out = BufWriter::with_capacity(1 << 16, std::io::stdout().lock());
    let mut current = None;
    for line in std::io::stdin().lock().lines() {
        run_line(&mut out, &mut current, &line.unwrap()).unwrap();
    }
    out.flush().unwrap();
}
