//! The smallest script that still shows a difference.
use crate::compare::{compare, our_script, Difference};
use crate::run::{made, run, rust_text, text, Lines};
use crate::sizes::{LARGE, SMALL};
use crate::tally::Tally;

pub struct Programs {
    pub oracle: String,
    pub ours: String,
}

/// A script on both programs.
pub struct Pair {
    pub ours: Vec<String>,
    pub oracle_wrote: Vec<u8>,
    pub ours_wrote: Vec<u8>,
    pub difference: Option<Difference>,
}

impl Programs {
    pub fn pair(&self, script: &[String]) -> Result<Pair, String> {
        let oracle_wrote = run(&self.oracle, rust_text(script))?;
        let ours = our_script(script, &mut Lines(&oracle_wrote));
        let ours_wrote = run(&self.ours, text(&ours))?;
        let (mut oracle_lines, mut our_lines) = (Lines(&oracle_wrote), Lines(&ours_wrote));
        let difference = compare(script, &mut oracle_lines, &mut our_lines, &mut Tally::default()).err();
        Ok(Pair { ours, oracle_wrote, ours_wrote, difference })
    }

    fn differs(&self, script: &[String]) -> bool {
        self.pair(script).is_ok_and(|pair| pair.difference.is_some())
    }

    /// Leaves out lines, in ever smaller parts, as long as the difference stays; the first line, N, is kept.
    fn without_lines(&self, mut script: Vec<String>) -> Vec<String> {
        let mut part = script.len().div_ceil(2).max(1);
        loop {
            let mut from = 1;
            while from < script.len() {
                let to = (from + part).min(script.len());
                let shorter = [&script[..from], &script[to..]].concat();
                if self.differs(&shorter) {
                    script = shorter;
                } else {
                    from = to;
                }
            }
            if part == 1 {
                return script;
            }
            part = part.div_ceil(2);
        }
    }

    /// Replaces the bytes of a line by none, as long as the difference stays.
    fn without_bytes(&self, mut script: Vec<String>) -> Vec<String> {
        for at in 0..script.len() {
            let Some((words, bytes)) = script[at].rsplit_once(' ') else {
                continue;
            };
            if script[at].starts_with(['A', 'B', 'S', 'e', 'G']) && bytes != "-" {
                let mut simpler = script.clone();
                simpler[at] = format!("{words} -");
                if self.differs(&simpler) {
                    script = simpler;
                }
            }
        }
        script
    }

    /// Takes the first table that still shows the difference, out of some that are made otherwise.
    fn with_table(&self, script: Vec<String>, tables: impl Iterator<Item = (usize, Option<u8>)>) -> Vec<String> {
        for (size, modes) in tables {
            let mut other = script.clone();
            other[0] = format!("N {size}") + &modes.map_or(String::new(), |modes| format!(" {modes}"));
            if self.differs(&other) {
                return other;
            }
        }
        script
    }

    /// Takes the smallest table that still shows the difference, without modes or else with 1 where that does.
    fn with_smaller_table(&self, script: Vec<String>) -> Vec<String> {
        let (size, modes) = made(&script);
        let mut smaller: Vec<usize> = SMALL.iter().chain(&LARGE).copied().filter(|s| *s < size).collect();
        smaller.sort();
        smaller.dedup();
        let script = self.with_table(script, smaller.into_iter().map(|size| (size, modes)));
        let (size, modes) = made(&script);
        let plainer = [None, Some(1)].into_iter().take_while(|plain| *plain != modes);
        self.with_table(script, plainer.map(|modes| (size, modes)))
    }

    /// Shortens a script until no line can be left out.
    pub fn shrink(&self, mut script: Vec<String>, difference: &Difference) -> Vec<String> {
        script.truncate(difference.at + 1);
        if !self.differs(&script) {
            return script;
        }
        loop {
            let shorter = self.without_bytes(self.with_smaller_table(self.without_lines(script.clone())));
            if shorter == script {
                return script;
            }
            script = shorter;
        }
    }
}
