//! The reports that the call is lent beside a pair of job and plan: of zeros, too short and
//! longer than the counts, filled up to 2^64 − 1 and past it.

use crate::compare::replay::Case;
use crate::compare::wire_report::Comparison;
use crate::library::ReplayResult;
use crate::pairs::Asked;
use crate::plan::unpack;
use crate::random::Random;
use crate::reader::read;
use crate::report::{of_kind, worth, Kind, COUNTS};
use crate::seen::Seen;

/// Beside a report of zeros, an accepted plan is asked about with so many others, and a
/// refused one with so many.
const WHERE_ACCEPTED: u32 = 6;
const WHERE_REFUSED: u32 = 1;

/// Numbers beyond the counts are so many at most.
const MOST_BEYOND: u32 = 40;

impl Asked for Comparison {
    /// A report of zeros has room for each plan, so its answer is replay's, and it ends as
    /// the plan's counts. By these the other reports are filled.
    fn ask_pair(&mut self, case: &Case, random: &mut Random, seen: &mut Seen) -> ReplayResult {
        let replayed = self.ask(case, &[0; COUNTS]);
        let counts = self.expected().report.clone();
        let mut times = WHERE_REFUSED;
        if replayed.refusal == 0 {
            let job = read(case.job).expect("replay has read it");
            assert_eq!(worth(&job, &counts), replayed.cost, "{}", case.kind);
            assert_eq!(of_kind(&counts, Kind::Added), replayed.added);
            assert_eq!(of_kind(&counts, Kind::Penalised), replayed.penalties);
            seen.counted(&job, &unpack(&job, case.plan), &counts);
            times = WHERE_ACCEPTED;
        }
        for _ in 0..times {
            let found = any_report(&counts, random);
            let result = self.ask(case, &found);
            seen.reported(&replayed, &result, &found, &counts);
            if result.refusal != 0 {
                assert_eq!(self.expected().report, found, "the report as it was");
            }
        }
        replayed
    }

    fn map_left(&self) -> &[u16] {
        &self.expected().map
    }
}

/// A report for a plan with these counts, of any length and filled in any way.
pub fn any_report(counts: &[u64], random: &mut Random) -> Vec<u64> {
    let mut report = match random.between(0, 5) {
        0 => (0..COUNTS).map(|_| random.draw() >> 1).collect(),
        1 => (0..COUNTS).map(|_| any_number(random)).collect(),
        2 => full(counts),
        _ => past_full(counts, random),
    };
    let length = any_length(random);
    report.resize_with(length.max(COUNTS), || any_number(random));
    report.truncate(length);
    report
}

fn any_length(random: &mut Random) -> usize {
    let most = COUNTS as u32;
    let length = match random.between(0, 9) {
        0 => 0,
        1 => most - 1,
        2 => random.between(0, most - 1),
        3 => most + 1,
        4 => most + random.between(1, MOST_BEYOND),
        _ => most,
    };
    length as usize
}

fn any_number(random: &mut Random) -> u64 {
    match random.between(0, 3) {
        0 => 0,
        1 => u64::MAX - u64::from(random.between(0, 20)),
        _ => random.draw(),
    }
}

/// The counts fill each number up to 2^64 − 1.
fn full(counts: &[u64]) -> Vec<u64> {
    counts.iter().map(|count| u64::MAX - count).collect()
}

/// Some counts pass 2^64 − 1, often by one; the others fill their number, or it is low.
fn past_full(counts: &[u64], random: &mut Random) -> Vec<u64> {
    let mut report = full(counts);
    if random.one_in(2) {
        report.iter_mut().for_each(|number| *number >>= 1);
    }
    let places: Vec<usize> = (0..COUNTS).filter(|place| counts[*place] > 0).collect();
    if !places.is_empty() {
        for _ in 0..random.between(1, 3) {
            let place = *random.pick(&places);
            let over = random.edgy(1, counts[place] as u32);
            report[place] = u64::MAX - counts[place] + u64::from(over);
        }
    }
    report
}
