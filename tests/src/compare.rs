//! The library's answer to sizing beside the second reader's, and a tally of
//! refusals. Replay, the wire report and routing have their own, in `replay`,
//! `wire_report` and `routing`.

pub mod replay;
mod report;
pub mod routing;
mod tally;
pub mod wire_report;

use std::collections::HashSet;
use std::fmt;

use crate::library::{self, SizingResult};
use crate::sizing::{self, Sizing};

/// A job on which the two answers differ.
#[derive(Debug)]
pub struct Difference {
    pub kind: &'static str,
    pub job: Vec<u8>,
    pub expected: SizingResult,
    pub given: SizingResult,
}

/// Asks this sizing and the second one. The expected answer, or the difference.
pub fn ask_both(
    sizing: Sizing,
    kind: &'static str,
    job: &[u8],
) -> Result<SizingResult, Difference> {
    let expected = sizing::expected(job);
    let given = sizing(job);
    if expected == given {
        return Ok(expected);
    }
    Err(Difference {
        kind,
        job: job.to_vec(),
        expected,
        given,
    })
}

/// Asks both and fails with a report where they differ.
pub fn check(kind: &'static str, job: &[u8]) -> SizingResult {
    ask_both(library::sizing, kind, job).unwrap_or_else(|difference| panic!("{difference}"))
}

impl fmt::Display for Difference {
    fn fmt(&self, f: &mut fmt::Formatter) -> fmt::Result {
        writeln!(f, "the answers differ on a job: {}", self.kind)?;
        writeln!(f, "  expected {:?}", self.expected)?;
        writeln!(f, "  given    {:?}", self.given)?;
        report::write_bytes(f, "job", &self.job)
    }
}

/// How often each refusal was met, at which places, and where the two differed.
#[derive(Default)]
pub struct Tally {
    pub jobs: u64,
    pub good: u64,
    pub hits: [u64; 12],
    pub places: [HashSet<u64>; 12],
    pub differences: u64,
    pub shortest: Option<Difference>,
}

impl Tally {
    pub fn ask(&mut self, kind: &'static str, job: &[u8]) {
        self.ask_of(library::sizing, kind, job);
    }

    /// Another sizing than the library's own.
    pub fn ask_of(&mut self, sizing: Sizing, kind: &'static str, job: &[u8]) {
        self.jobs += 1;
        match ask_both(sizing, kind, job) {
            Ok(answer) if answer.refusal == 0 => self.good += 1,
            Ok(answer) => {
                self.hits[answer.refusal as usize] += 1;
                self.places[answer.refusal as usize].insert(answer.place);
            }
            Err(difference) => self.keep(difference),
        }
    }

    /// Of all differences the one with the shortest job is kept for the report.
    fn keep(&mut self, difference: Difference) {
        self.differences += 1;
        let shorter = |kept: &Difference| difference.job.len() < kept.job.len();
        if self.shortest.as_ref().is_none_or(shorter) {
            self.shortest = Some(difference);
        }
    }

    /// Adds what another tally has met.
    pub fn merge(&mut self, other: Tally) {
        self.jobs += other.jobs;
        self.good += other.good;
        for (number, places) in other.places.into_iter().enumerate() {
            self.hits[number] += other.hits[number];
            self.places[number].extend(places);
        }
        let counted = self.differences + other.differences;
        if let Some(difference) = other.shortest {
            self.keep(difference);
        }
        self.differences = counted;
    }

    /// Fails where the two have differed.
    pub fn assert_same(&self) {
        if let Some(difference) = &self.shortest {
            let (count, jobs) = (self.differences, self.jobs);
            panic!("{count} of {jobs} jobs; the shortest:\n{difference}");
        }
    }
}

impl fmt::Display for Tally {
    fn fmt(&self, f: &mut fmt::Formatter) -> fmt::Result {
        writeln!(f, "{} jobs, {} of them good", self.jobs, self.good)?;
        writeln!(f, "refusal      hits    places")?;
        for number in 1..self.hits.len() {
            let (hits, places) = (self.hits[number], self.places[number].len());
            writeln!(f, "{number:7} {hits:9} {places:9}")?;
        }
        Ok(())
    }
}
