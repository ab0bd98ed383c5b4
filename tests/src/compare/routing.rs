//! A routing beside the second one: its answer, the whole of its three slices, and
//! what replay says of its plan.

use std::fmt;

use super::report::{write_apart, write_bytes, Apart};
use super::tally::{self, Tally};
use crate::library::{ReplayResult, RoutingResult};
use crate::replay::Replay;
use crate::routing::{routing, Routing};

/// What map and work hold before a call; no answer puts it there.
const MAP_FILL: u16 = 0xC35A;
const WORK_FILL: u64 = 0xC35A_69E1_A5C3_961E;

/// What the plan holds before a call, by index: any byte may stand in a plan, so
/// neighbours differ.
fn plan_fill(index: usize) -> u8 {
    (index * 37 + 181) as u8
}

/// What a routing is called with.
#[derive(Clone, Copy)]
pub struct Case<'a> {
    pub kind: &'static str,
    pub job: &'a [u8],
    pub map_len: usize,
    pub work_len: usize,
    pub plan_len: usize,
}

/// What a routing has answered, and the slices that it has left.
#[derive(Default)]
struct Answer {
    result: RoutingResult,
    map: Vec<u16>,
    work: Vec<u64>,
    plan: Vec<u8>,
}

impl Answer {
    fn ask(&mut self, routing: Routing, case: &Case) {
        refill(&mut self.map, case.map_len, MAP_FILL);
        refill(&mut self.work, case.work_len, WORK_FILL);
        self.plan.clear();
        self.plan.extend((0..case.plan_len).map(plan_fill));
        let (map, work, plan) = (&mut self.map, &mut self.work, &mut self.plan);
        self.result = routing(case.job, map, work, plan);
    }
}

fn refill<T: Clone>(slice: &mut Vec<T>, length: usize, fill: T) {
    slice.clear();
    slice.resize(length, fill);
}

/// Asks both and keeps the tally. Its slices are used again and again.
pub struct Comparison {
    routing: Routing,
    replay: Replay,
    expected: Answer,
    given: Answer,
    replayed: Replayed,
    pub tally: Tally<Difference>,
}

/// What replay has answered to a returned plan, and its slices.
#[derive(Default)]
struct Replayed {
    result: ReplayResult,
    map: Vec<u16>,
    work: Vec<u64>,
}

impl Comparison {
    /// This routing against the second one, its plans through this replay.
    pub fn of(routing: Routing, replay: Replay) -> Self {
        Comparison {
            routing,
            replay,
            expected: Answer::default(),
            given: Answer::default(),
            replayed: Replayed::default(),
            tally: Tally::default(),
        }
    }

    /// The expected answer; a difference goes to the tally.
    pub fn ask(&mut self, case: &Case) -> RoutingResult {
        self.expected.ask(routing, case);
        self.given.ask(self.routing, case);
        let result = self.expected.result;
        self.tally.count(result.refusal, result.place);
        if let Some(difference) = self.difference(case) {
            self.tally.keep(difference);
        }
        result
    }

    /// The plan slice that the second routing has left.
    pub fn expected_plan(&self) -> &[u8] {
        &self.expected.plan
    }

    fn difference(&mut self, case: &Case) -> Option<Difference> {
        let replay = self.replay_given(case);
        let (expected, given) = (&self.expected, &self.given);
        let map = Apart::of(&expected.map, &given.map);
        let work = Apart::of(&expected.work, &given.work);
        let plan = Apart::of(&expected.plan, &given.plan);
        let same_slices = map.is_none() && work.is_none() && plan.is_none();
        if same_slices && replay.is_none() && expected.result == given.result {
            return None;
        }
        Some(Difference {
            kind: case.kind,
            job: case.job.to_vec(),
            expected: expected.result,
            given: given.result,
            map,
            work,
            plan,
            replay,
        })
    }

    /// Puts a returned plan through replay, which must give the map and the totals
    /// that came with it. What it gives, where it does not.
    fn replay_given(&mut self, case: &Case) -> Option<ReplayResult> {
        let (given, replayed) = (&self.given, &mut self.replayed);
        if given.result.refusal != 0 {
            return None;
        }
        refill(&mut replayed.map, case.map_len, MAP_FILL);
        refill(&mut replayed.work, case.work_len, WORK_FILL);
        let bytes = (given.result.bytes as usize).min(case.plan_len);
        let plan = &given.plan[..bytes];
        let (map, work) = (&mut replayed.map, &mut replayed.work);
        replayed.result = (self.replay)(case.job, plan, map, work);
        let same = replayed.result == given.result.replayed() && replayed.map == given.map;
        (!same).then_some(replayed.result)
    }
}

/// A job on which the two answers differ, or whose plan replay does not confirm.
pub struct Difference {
    kind: &'static str,
    job: Vec<u8>,
    expected: RoutingResult,
    given: RoutingResult,
    map: Option<Apart<u16>>,
    work: Option<Apart<u64>>,
    plan: Option<Apart<u8>>,
    replay: Option<ReplayResult>,
}

impl tally::Difference for Difference {
    fn bytes(&self) -> usize {
        self.job.len()
    }
}

impl fmt::Display for Difference {
    fn fmt(&self, f: &mut fmt::Formatter) -> fmt::Result {
        writeln!(f, "the answers differ on a job: {}", self.kind)?;
        writeln!(f, "  expected {:?}", self.expected)?;
        writeln!(f, "  given    {:?}", self.given)?;
        write_apart(f, "map", &self.map)?;
        write_apart(f, "work", &self.work)?;
        write_apart(f, "plan", &self.plan)?;
        if let Some(replay) = &self.replay {
            writeln!(f, "  replay of the given plan: {replay:?}, or another map")?;
        }
        write_bytes(f, "job", &self.job)
    }
}
