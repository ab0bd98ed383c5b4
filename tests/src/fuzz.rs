//! Rounds of the command `fuzz`. Each makes a job from its seed and asks every call
//! about it, on guarded slices: good and damaged, with plans good and damaged, with
//! slices around their needs, and with reports of all fillings.

use std::fmt;

use crate::compare::{replay, wire_report, Tally};
use crate::damage::{aimed, blind};
use crate::generate::large::large_job;
use crate::generate::routable::{any_routable_job, quick_routable_job};
use crate::guarded;
use crate::job::Job;
use crate::lent::Lent;
use crate::pairs::Pairs;
use crate::random::Random;

/// Every so many rounds a job is one of more than 8,192 vertices.
const LARGE_EVERY: u32 = 2_000;

/// Every so many rounds a job is one of any size.
const ANY_EVERY: u32 = 20;

/// What the rounds have asked, by call.
pub struct Fuzz {
    sizing: Tally,
    routing: Lent,
    replay: Pairs<replay::Comparison>,
    report: Pairs<wire_report::Comparison>,
    rounds: u64,
}

impl Default for Fuzz {
    fn default() -> Self {
        Fuzz {
            sizing: Tally::default(),
            routing: Lent::of(guarded::routing, guarded::replay, 0),
            replay: Pairs::of(guarded::replay, 0),
            report: Pairs::of_report(guarded::report, 0),
            rounds: 0,
        }
    }
}

impl Fuzz {
    /// All calls about the job of this seed.
    pub fn round(&mut self, seed: u64) {
        let random = &mut Random::new(seed);
        let job = job(random);
        self.rounds += 1;
        self.ask_sizing(&job, random);
        self.routing.ask_all(random.draw(), &job);
        self.replay.ask_all(random.draw(), &job);
        self.report.ask_all(random.draw(), &job);
    }

    pub fn rounds(&self) -> u64 {
        self.rounds
    }

    fn ask_sizing(&mut self, job: &Job, random: &mut Random) {
        let mut ask = |kind, job: &[u8]| self.sizing.ask_of(guarded::sizing, kind, job);
        let good = job.pack();
        ask("good", &good);
        for number in aimed::RULES {
            if let Some(bad) = aimed::aimed(number, job, random) {
                ask("one rule broken", &bad.bytes);
            }
        }
        for (kind, damage) in blind::ALL {
            let mut bytes = good.clone();
            damage(&mut bytes, random);
            ask(kind, &bytes);
        }
        if random.one_in(100) {
            let mut bytes = Vec::new();
            aimed::too_long(&good, &mut bytes, random);
            ask("too long", &bytes);
        }
    }

    /// Fails with a report where there was a difference.
    pub fn assert_same(&self) {
        self.sizing.assert_same();
        self.routing.comparison.tally.assert_same();
        self.replay.comparison.tally.assert_same();
        self.report.comparison.tally.assert_same();
    }
}

fn job(random: &mut Random) -> Job {
    if random.one_in(LARGE_EVERY) {
        large_job(random.between(0, 23), random)
    } else if random.one_in(ANY_EVERY) {
        any_routable_job(random)
    } else {
        quick_routable_job(random)
    }
}

impl fmt::Display for Fuzz {
    fn fmt(&self, f: &mut fmt::Formatter) -> fmt::Result {
        let (routing, replay, report) = (&self.routing, &self.replay, &self.report);
        writeln!(f, "sizing: {}", self.sizing)?;
        writeln!(f, "routing: {}{}", routing.comparison.tally, routing.seen)?;
        writeln!(f, "replay: {}{}", replay.comparison.tally, replay.seen)?;
        write!(f, "report: {}{}", report.comparison.tally, report.seen)
    }
}
