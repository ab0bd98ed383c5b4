//! A wire report beside the second one: its answer and the whole of its three slices.

use std::fmt;

use super::replay::Case;
use super::report::{write_apart, write_bytes, Apart};
use super::tally::{self, Tally};
use crate::library::{ReplayResult, REPORT};
use crate::report::{report, Report};

/// What map and work hold before a call; no answer puts it there.
const MAP_FILL: u16 = 0x96D2;
const WORK_FILL: u64 = 0x96D2_5A1E_C369_A5E1;

/// What a wire report has answered, and the slices that it has left.
#[derive(Default)]
pub struct Answer {
    pub result: ReplayResult,
    pub map: Vec<u16>,
    pub work: Vec<u64>,
    pub report: Vec<u64>,
}

impl Answer {
    fn ask(&mut self, call: Report, case: &Case, found: &[u64]) {
        self.map.clear();
        self.map.resize(case.map_len, MAP_FILL);
        self.work.clear();
        self.work.resize(case.work_len, WORK_FILL);
        self.report.clear();
        self.report.extend(found);
        let (map, work, report) = (&mut self.map, &mut self.work, &mut self.report);
        self.result = call(case.job, case.plan, map, work, report);
    }
}

/// Asks both and keeps the tally. Its slices are used again and again.
pub struct Comparison {
    call: Report,
    expected: Answer,
    given: Answer,
    pub tally: Tally<Difference>,
}

impl Comparison {
    /// This wire report against the second one.
    pub fn of(call: Report) -> Self {
        Comparison {
            call,
            expected: Answer::default(),
            given: Answer::default(),
            tally: Tally::default(),
        }
    }

    /// The expected answer where the report is found so; a difference goes to the tally.
    pub fn ask(&mut self, case: &Case, found: &[u64]) -> ReplayResult {
        self.expected.ask(report, case, found);
        self.given.ask(self.call, case, found);
        let result = self.expected.result;
        self.tally.count(result.refusal, result.place);
        if let Some(difference) = self.difference(case, found) {
            self.tally.keep(difference);
        }
        result
    }

    /// What the second wire report has answered and left.
    pub fn expected(&self) -> &Answer {
        &self.expected
    }

    fn difference(&self, case: &Case, found: &[u64]) -> Option<Difference> {
        let (expected, given) = (&self.expected, &self.given);
        let map = Apart::of(&expected.map, &given.map);
        let work = Apart::of(&expected.work, &given.work);
        let report = Apart::of(&expected.report, &given.report);
        let same_slices = map.is_none() && work.is_none() && report.is_none();
        if same_slices && expected.result == given.result {
            return None;
        }
        Some(Difference {
            kind: case.kind,
            job: case.job.to_vec(),
            plan: case.plan.to_vec(),
            found: found.to_vec(),
            expected: expected.result,
            given: given.result,
            map,
            work,
            report,
        })
    }
}

/// Asks the library and the second wire report and fails where they differ. What both have
/// answered and left.
pub fn check(case: &Case, found: &[u64]) -> Answer {
    let mut comparison = Comparison::of(REPORT);
    comparison.ask(case, found);
    comparison.tally.assert_same();
    comparison.given
}

/// A job, a plan and a report on which the two answers differ.
pub struct Difference {
    kind: &'static str,
    job: Vec<u8>,
    plan: Vec<u8>,
    found: Vec<u64>,
    expected: ReplayResult,
    given: ReplayResult,
    map: Option<Apart<u16>>,
    work: Option<Apart<u64>>,
    report: Option<Apart<u64>>,
}

impl tally::Difference for Difference {
    fn bytes(&self) -> usize {
        self.job.len() + self.plan.len()
    }
}

impl fmt::Display for Difference {
    fn fmt(&self, f: &mut fmt::Formatter) -> fmt::Result {
        writeln!(f, "the answers differ on a report: {}", self.kind)?;
        writeln!(f, "  expected {:?}", self.expected)?;
        writeln!(f, "  given    {:?}", self.given)?;
        write_apart(f, "map", &self.map)?;
        write_apart(f, "work", &self.work)?;
        write_apart(f, "report", &self.report)?;
        writeln!(f, "  report before: {:?}", self.found)?;
        write_bytes(f, "job", &self.job)?;
        write_bytes(f, "plan", &self.plan)
    }
}
