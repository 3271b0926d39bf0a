//! The driver of differential runs: gives the same scripts to the oracle and to our program, and compares.
mod bounds;
mod compare;
mod fields;
mod findings;
mod generate;
mod groups;
mod images;
mod lists;
mod random;
mod reader;
mod record;
mod run;
mod searches;
mod shares;
mod shrink;
mod sizes;
mod strict;
mod tally;

use std::process::exit;
use std::sync::mpsc::{sync_channel, Receiver};
use std::time::Instant;

use bounds::Bounds;
use compare::Difference;
use run::Lines;
use shrink::Programs;
use tally::Tally;

/// From so many calls on, every answer must have been met a hundred times.
const COMPLETE: u64 = 200_000;
const WANTED: u64 = 100;
/// About so many calls go to a process.
const BATCH: usize = 8_000;

fn fail(what: &str) -> ! {
    eprintln!("differential: {what}");
    exit(1)
}

/// Scripts, what the oracle wrote, and the scripts for our program.
struct Batch {
    first: u64,
    scripts: Vec<Vec<String>>,
    ours: Vec<Vec<String>>,
    oracle_wrote: Vec<u8>,
}

/// The text of scripts, as one of the programs is given it.
fn joined(scripts: &[Vec<String>], text: fn(&[String]) -> String) -> String {
    scripts.iter().map(|script| text(script)).collect()
}

/// What makes the script of a seed and an index: any, one of images, or one in share mode.
type Scripts = fn(u64, u64) -> Vec<String>;

/// The scripts of a seed from an index on. A large table counts for more calls: its dumps are long.
fn scripts_from(make: Scripts, seed: u64, first: u64) -> Vec<Vec<String>> {
    let mut scripts = Vec::new();
    let mut cost = 0;
    while cost < BATCH {
        let script = make(seed, first + scripts.len() as u64);
        cost += if script.len() > 100 { 10 * script.len() / 8 } else { script.len() };
        scripts.push(script);
    }
    scripts
}

fn asked(oracle: &str, make: Scripts, seed: u64, first: u64) -> Result<Batch, String> {
    let scripts = scripts_from(make, seed, first);
    let oracle_wrote = run::run(oracle, joined(&scripts, run::rust_text))?;
    let mut lines = Lines(&oracle_wrote);
    let ours = scripts.iter().map(|script| compare::our_script(script, &mut lines)).collect();
    Ok(Batch { first, scripts, ours, oracle_wrote })
}

/// Batches, made by a second thread while our program runs.
fn batches(oracle: String, make: Scripts, seed: u64) -> Receiver<Result<Batch, String>> {
    let (send, receive) = sync_channel(1);
    std::thread::spawn(move || {
        let mut first = 0;
        loop {
            let batch = asked(&oracle, make, seed, first);
            first += batch.as_ref().map_or(0, |b| b.scripts.len() as u64);
            if send.send(batch).is_err() {
                return;
            }
        }
    });
    receive
}

fn indented(text: &[u8]) -> String {
    String::from_utf8_lossy(text).lines().map(|line| format!("  {line}\n")).collect()
}

fn report(programs: &Programs, seed: u64, index: u64, script: &[String], found: &Difference) -> ! {
    println!("DIFFERENCE: seed {seed}, script {index}, line {}: {}", found.at + 1, found.what);
    let small = programs.shrink(script.to_vec(), found);
    match programs.pair(&small) {
        Err(what) => println!("{what}"),
        Ok(pair) => {
            let what = pair.difference.map_or("no longer found in a run of its own".into(), |d| d.what);
            println!("smallest script found ({what}):\n{}", indented(run::rust_text(&small).as_bytes()));
            println!("as given to our program:\n{}", indented(run::text(&pair.ours).as_bytes()));
            println!("oracle:\n{}", indented(&pair.oracle_wrote));
            println!("ours:\n{}", indented(&pair.ours_wrote));
        }
    }
    exit(1)
}

fn compare_batch(programs: &Programs, seed: u64, batch: &Batch, tally: &mut Tally) {
    let ours_wrote = run::run(&programs.ours, joined(&batch.ours, run::text)).unwrap_or_else(|what| fail(&what));
    let (mut oracle, mut ours) = (Lines(&batch.oracle_wrote), Lines(&ours_wrote));
    for (i, script) in batch.scripts.iter().enumerate() {
        if let Err(found) = compare::compare(script, &mut oracle, &mut ours, tally) {
            report(programs, seed, batch.first + i as u64, script, &found);
        }
    }
    if !oracle.0.is_empty() || !ours.0.is_empty() {
        fail("a program wrote more than it was asked for");
    }
}

/// Whether every answer was met often enough, by those that were not.
fn complete(missing: &[String], calls: u64) -> bool {
    if missing.is_empty() {
        println!("every answer of every call was met at least {WANTED} times");
        return true;
    }
    println!("answers met fewer than {WANTED} times:");
    missing.iter().for_each(|answer| println!("  {answer}"));
    if calls < COMPLETE {
        println!("note: with fewer than {COMPLETE} calls that is no failure");
    }
    calls < COMPLETE
}

/// What a run compares.
#[derive(Clone, Copy, PartialEq)]
enum Kind {
    Calls,
    Images,
    Share,
}

impl Kind {
    fn make(self) -> Scripts {
        match self {
            Kind::Calls => generate::script,
            Kind::Images => generate::images,
            Kind::Share => shares::script,
        }
    }

    /// What was met too rarely.
    fn missing(self, tally: &Tally) -> Vec<String> {
        let mut missing = tally.missing(WANTED);
        missing.extend(tally.searches.missing(WANTED, self == Kind::Share));
        match self {
            Kind::Calls => missing.extend(tally.missing_cut(WANTED)),
            Kind::Images => missing.retain(|answer| answer.starts_with(['P', 'G'])),
            Kind::Share => missing.extend(tally.bounds.iter().flat_map(|bounds| bounds.missing(WANTED))),
        }
        missing
    }
}

/// Compares so many calls, or so many images.
fn differential(programs: &Programs, seed: u64, wanted: u64, kind: Kind) -> bool {
    let start = Instant::now();
    let mut tally = Tally::default();
    if kind == Kind::Share {
        tally.bounds = Some(Bounds::default());
    }
    let batches = batches(programs.oracle.clone(), kind.make(), seed);
    while wanted > if kind == Kind::Images { tally.images } else { tally.calls } {
        match batches.recv() {
            Ok(Ok(batch)) => compare_batch(programs, seed, &batch, &mut tally),
            Ok(Err(what)) => fail(&what),
            Err(_) => fail("no further scripts"),
        }
    }
    tally.print();
    let seconds = start.elapsed().as_secs();
    let Tally { calls, images: loads, scripts, .. } = &tally;
    println!("seed {seed}: {calls} calls in {scripts} scripts, {loads} of them loads of an image, no difference, {seconds} s");
    complete(&kind.missing(&tally), wanted)
}

/// Counts the images that the Rust takes with the members of a record in any order, and not with them in the order of their
/// tags: the derive that decides this is not at hand.
fn orders(oracle: &str, seed: u64, wanted: u64) -> Result<(), String> {
    let (mut images, mut taken, mut refused, mut index) = (0, 0, 0, 0);
    while images < wanted {
        let mut text = String::new();
        for _ in 0..200 {
            let script = generate::images(seed, index);
            // Each image on a table of its own.
            for image in script.iter().filter(|line| line.starts_with("G ") && *line != "G !") {
                text.push_str(&format!("{}\n{image}\n", script[0]));
            }
            index += 1;
        }
        let any = run::run(oracle, text.clone())?;
        let ordered = run::run_with(oracle, &["--ordered"], text)?;
        let status = |line: &str| line.split(' ').nth(1).unwrap_or("").to_string();
        let (mut any, mut ordered) = (Lines(&any), Lines(&ordered));
        while let (Some(a), Some(o)) = (any.take(), ordered.take()) {
            if a.starts_with('G') {
                images += 1;
                taken += (status(a) == "00") as u64;
                refused += (status(a) != status(o)) as u64;
            }
        }
    }
    println!("seed {seed}: {images} images, {taken} of them taken with a record's members in any order, {refused} answered otherwise in order");
    Ok(())
}

fn number(words: &[String], at: usize, name: &str) -> u64 {
    words.get(at).and_then(|word| word.parse().ok()).unwrap_or_else(|| fail(&format!("{name} is a number")))
}

fn main() {
    let words: Vec<String> = std::env::args().skip(1).collect();
    let word = |at: usize| words.get(at).cloned().unwrap_or_default();
    let done = match word(0).as_str() {
        "compare" => {
            let programs = Programs { oracle: word(1), ours: word(2) };
            let (seed, calls) = (number(&words, 3, "seed"), number(&words, 4, "calls"));
            match word(5).as_str() {
                "fields" => complete(&reader::compare(&programs, seed, calls, WANTED), calls),
                "images" => differential(&programs, seed, calls, Kind::Images),
                "share" => differential(&programs, seed, calls, Kind::Share),
                "groups" => groups::differential(&programs, seed, calls, WANTED).is_some_and(|missing| complete(&missing, calls)),
                _ => differential(&programs, seed, calls, Kind::Calls),
            }
        }
        "orders" => match orders(&word(1), number(&words, 2, "seed"), number(&words, 3, "images")) {
            Ok(()) => true,
            Err(what) => fail(&what),
        },
        "record" => match record::record(&word(1), number(&words, 2, "seed"), &word(3), &word(4)) {
            Ok(()) => true,
            Err(what) => fail(&what),
        },
        _ => fail("usage: driver compare ORACLE OURS SEED CALLS [images | share | fields | groups], driver orders ORACLE SEED IMAGES, or driver record ORACLE SEED STDIN STDOUT"),
    };
    exit(if done { 0 } else { 1 })
}
