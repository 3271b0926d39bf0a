//! Runs scripts: what each program is given, and what it writes.
use std::io::{Read, Write};
use std::process::{Command, Stdio};

/// Runs a program on an input to its end.
pub fn run(program: &str, input: String) -> Result<Vec<u8>, String> {
    run_with(program, &[], input)
}

pub fn run_with(program: &str, options: &[&str], input: String) -> Result<Vec<u8>, String> {
    let child = Command::new(program).args(options).stdin(Stdio::piped()).stdout(Stdio::piped()).spawn();
    let mut child = child.map_err(|e| format!("{program}: {e}"))?;
    let mut stdin = child.stdin.take().unwrap();
    // A program that ends early closes its input: what it wrote until then is compared.
    let writer = std::thread::spawn(move || stdin.write_all(input.as_bytes()).is_ok());
    let mut output = Vec::new();
    let read = child.stdout.take().unwrap().read_to_end(&mut output);
    read.map_err(|e| format!("{program}: {e}"))?;
    writer.join().unwrap();
    child.wait().map_err(|e| format!("{program}: {e}"))?;
    Ok(output)
}

/// What stands behind the oracle's answer to an add or a store that only the share refuses: the oracle has decided it, and not
/// the Rust.
pub const SHARE: &str = " SHARE";

/// The size of a script's table, and its modes if they are given.
pub fn made(script: &[String]) -> (usize, Option<u8>) {
    let mut words = script[0].split(' ').skip(1);
    let size = words.next().and_then(|word| word.parse().ok()).unwrap_or(0);
    (size, words.next().and_then(|word| word.parse().ok()))
}

/// Whether a line builds a table up as it stands, and is no call.
pub fn is_raw(line: &str) -> bool {
    line.starts_with(['N', 'K', 'e', 'r'])
}

/// Whether the table is dumped behind a line: behind every call, and where a raw table is complete.
pub fn is_dumped(script: &[String], at: usize) -> bool {
    let last_raw = script.get(at + 1).is_none_or(|next| !is_raw(next));
    !is_raw(&script[at]) || (last_raw && !script[at].starts_with('N'))
}

/// A load of no bytes: a startup with nothing saved for our program. The Rust refuses it, and is given such a startup behind it.
pub const NO_BYTES: &str = "G -";
const STARTUP: &str = "U";

/// A line as the Rust is given it.
pub fn rust_line(line: &str) -> String {
    if line == NO_BYTES { format!("{line}\n{STARTUP}") } else { line.to_string() }
}

fn dumped(script: &[String], line_of: impl Fn(&str) -> String) -> String {
    let mut text = String::new();
    for (at, line) in script.iter().enumerate() {
        text.push_str(&line_of(line));
        text.push_str(if is_dumped(script, at) { "\nD\n" } else { "\n" });
    }
    text
}

/// The script with its dumps.
pub fn text(script: &[String]) -> String {
    dumped(script, str::to_string)
}

/// The same for the Rust.
pub fn rust_text(script: &[String]) -> String {
    dumped(script, rust_line)
}

/// Lines of an output, taken one by one.
#[derive(Clone, Copy)]
pub struct Lines<'a>(pub &'a [u8]);

impl<'a> Lines<'a> {
    /// The next line without its end, or none.
    pub fn take(&mut self) -> Option<&'a str> {
        let end = self.0.iter().position(|b| *b == b'\n')?;
        let (line, rest) = self.0.split_at(end);
        self.0 = &rest[1..];
        Some(std::str::from_utf8(line).unwrap_or("(no text)"))
    }

    /// What the Rust said to an image of no bytes itself, which stands before its answer to the startup.
    pub fn take_refusal(&mut self, line: &str) -> Option<&'a str> {
        if line == NO_BYTES { self.take() } else { None }
    }

    /// The lines of a dump: `D` and the lines behind it that start with a blank.
    pub fn take_dump(&mut self) -> &'a [u8] {
        let all = self.0;
        if all.first() != Some(&b'D') {
            return &[];
        }
        loop {
            let Some(end) = self.0.iter().position(|b| *b == b'\n') else {
                break;
            };
            self.0 = &self.0[end + 1..];
            if self.0.first() != Some(&b' ') {
                break;
            }
        }
        &all[..all.len() - self.0.len()]
    }
}
