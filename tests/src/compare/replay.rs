//! A replay beside the second one: its answer and the whole of both slices.

use std::fmt;

use super::report::{write_apart, write_bytes, Apart};
use super::tally::{self, Tally};
use crate::library::{ReplayResult, REPLAY};
use crate::replay::{replay, Replay};

/// What the slices hold before a call; no answer puts it there.
const MAP_FILL: u16 = 0xA5C3;
const WORK_FILL: u64 = 0xA5C3_96E1_5A3C_691E;

/// What a replay is called with.
#[derive(Clone, Copy)]
pub struct Case<'a> {
    pub kind: &'static str,
    pub job: &'a [u8],
    pub plan: &'a [u8],
    pub map_len: usize,
    pub work_len: usize,
}

/// What a replay has answered, and the slices that it has left.
#[derive(Default)]
struct Answer {
    result: ReplayResult,
    map: Vec<u16>,
    work: Vec<u64>,
}

impl Answer {
    fn ask(&mut self, replay: Replay, case: &Case) {
        self.map.clear();
        self.map.resize(case.map_len, MAP_FILL);
        self.work.clear();
        self.work.resize(case.work_len, WORK_FILL);
        self.result = replay(case.job, case.plan, &mut self.map, &mut self.work);
    }
}

/// Asks both and keeps the tally. Its slices are used again and again.
pub struct Comparison {
    replay: Replay,
    expected: Answer,
    given: Answer,
    pub tally: Tally<Difference>,
}

impl Comparison {
    /// This replay against the second one.
    pub fn of(replay: Replay) -> Self {
        Comparison {
            replay,
            expected: Answer::default(),
            given: Answer::default(),
            tally: Tally::default(),
        }
    }

    /// The expected answer; a difference goes to the tally.
    pub fn ask(&mut self, case: &Case) -> ReplayResult {
        self.expected.ask(replay, case);
        self.given.ask(self.replay, case);
        let result = self.expected.result;
        self.tally.count(result.refusal, result.place);
        if let Some(difference) = self.difference(case) {
            self.tally.keep(difference);
        }
        result
    }

    /// The map slice that the second replay has left.
    pub fn expected_map(&self) -> &[u16] {
        &self.expected.map
    }

    fn difference(&self, case: &Case) -> Option<Difference> {
        let (expected, given) = (&self.expected, &self.given);
        let map = Apart::of(&expected.map, &given.map);
        let work = Apart::of(&expected.work, &given.work);
        if map.is_none() && work.is_none() && expected.result == given.result {
            return None;
        }
        Some(Difference {
            kind: case.kind,
            job: case.job.to_vec(),
            plan: case.plan.to_vec(),
            expected: expected.result,
            given: given.result,
            map,
            work,
        })
    }
}

/// Asks the library and the second replay and fails with a report where they differ. The answer,
/// and the map that is left.
pub fn check(job: &[u8], plan: &[u8], map_len: usize, work_len: usize) -> (ReplayResult, Vec<u16>) {
    let mut comparison = Comparison::of(REPLAY);
    let result = comparison.ask(&Case {
        kind: "by hand",
        job,
        plan,
        map_len,
        work_len,
    });
    comparison.tally.assert_same();
    (result, comparison.expected.map)
}

/// A pair of job and plan on which the two answers differ.
pub struct Difference {
    kind: &'static str,
    job: Vec<u8>,
    plan: Vec<u8>,
    expected: ReplayResult,
    given: ReplayResult,
    map: Option<Apart<u16>>,
    work: Option<Apart<u64>>,
}

impl tally::Difference for Difference {
    fn bytes(&self) -> usize {
        self.job.len() + self.plan.len()
    }
}

impl fmt::Display for Difference {
    fn fmt(&self, f: &mut fmt::Formatter) -> fmt::Result {
        writeln!(f, "the answers differ on a plan: {}", self.kind)?;
        writeln!(f, "  expected {:?}", self.expected)?;
        writeln!(f, "  given    {:?}", self.given)?;
        write_apart(f, "map", &self.map)?;
        write_apart(f, "work", &self.work)?;
        write_bytes(f, "job", &self.job)?;
        write_bytes(f, "plan", &self.plan)
    }
}
