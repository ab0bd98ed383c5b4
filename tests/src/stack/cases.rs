//! Jobs, plans and reports that take the calls down all their ways: every refusal, vias
//! with extensions and penalties, joins and none.

use crate::damage::aimed;
use crate::damage::plan::{LegalPlan, AIMED};
use crate::generate::routable::{routable_job, Size};
use crate::job::Job;
use crate::largest::largest_job;
use crate::marked;
use crate::plan::pack;
use crate::random::Random;
use crate::report::COUNTS;
use crate::router::route;
use crate::rules::board::Board;
use crate::wander::wandering_plan;

const SEED: u64 = 17;
const JOBS: u32 = 20;

/// What a call is made with. The slices are as long as a good job needs.
#[derive(Clone)]
pub struct Case {
    pub job: Vec<u8>,
    pub plan: Vec<u8>,
    pub map: Vec<u16>,
    pub work: Vec<u64>,
    pub report: Vec<u64>,
}

pub fn cases() -> Vec<Case> {
    let random = &mut Random::new(SEED);
    let mut cases = Vec::new();
    for (_, job) in marked::all() {
        add_job(&job, &mut cases, random);
    }
    for _ in 0..JOBS {
        add_job(&routable_job(Size::Small, random), &mut cases, random);
    }
    cases.push(Case {
        job: largest_job(random).pack(),
        ..cases[0].clone()
    });
    cases
}

/// A job with its cheapest plan and a wandering one, with damaged plans, damaged,
/// with slices that are short, and with a report that is full.
fn add_job(job: &Job, cases: &mut Vec<Case>, random: &mut Random) {
    let board = Board::new(job);
    let wandering = wandering_plan(&board, random).records;
    let legal = LegalPlan {
        board: &board,
        records: &wandering,
    };
    let good = Case {
        job: job.pack(),
        plan: pack(&route(&board).records),
        map: vec![0; board.vertices()],
        work: vec![0; board.work_need()],
        report: vec![0; COUNTS],
    };
    let damaged = AIMED.iter().filter_map(|(_, damage)| damage(legal, random));
    let mut plans: Vec<Vec<u8>> = damaged.map(|aimed| aimed.bytes).collect();
    plans.push(pack(&wandering));
    for plan in plans {
        cases.push(Case {
            plan,
            ..good.clone()
        });
    }
    for number in aimed::RULES {
        if let Some(bad) = aimed::aimed(number, job, random) {
            cases.push(Case {
                job: bad.bytes,
                ..good.clone()
            });
        }
    }
    add_slices(&good, cases);
    cases.push(good);
}

fn add_slices(good: &Case, cases: &mut Vec<Case>) {
    cases.push(Case {
        map: Vec::new(),
        ..good.clone()
    });
    cases.push(Case {
        work: Vec::new(),
        ..good.clone()
    });
    for report in [Vec::new(), vec![u64::MAX; COUNTS]] {
        cases.push(Case {
            report,
            ..good.clone()
        });
    }
}
