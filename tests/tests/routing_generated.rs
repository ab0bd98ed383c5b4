//! Generated jobs, good and damaged, with slices of many lengths: the library's
//! routing against the second one, by answer, plan, map and work slice, and each plan
//! through the library's replay.
//!
//! `cargo test --release -- --nocapture` shows what came up and how often.

use std::time::{Duration, Instant};

use maizespell_tests::generate::large::large_job;
use maizespell_tests::generate::routable::{quick_routable_job, routable_job, Size};
use maizespell_tests::lent::Lent;
use maizespell_tests::library::{REPLAY, ROUTING};
use maizespell_tests::random::Random;
use maizespell_tests::reader::RETIRED;

const SEED: u64 = 20_205;
const JOBS: u32 = 20_000;
const TIME: Duration = Duration::from_secs(120);

const LARGE_SEED: u64 = 8_193;
const LARGE_JOBS: u32 = 24;
const LARGE_TIME: Duration = Duration::from_secs(180);

const SHORT_SEED: u64 = 14;
const SHORT_JOBS: u32 = 60;

/// Each kind of job comes up at least so often.
const LEAST: u64 = 50;

#[test]
fn generated_jobs_get_the_answer_of_the_second_routing() {
    let begin = Instant::now();
    let mut lent = Lent::of(ROUTING, REPLAY, SEED);
    lent.ask_jobs(JOBS, quick_routable_job);
    let time = begin.elapsed();
    let (tally, seen) = (&lent.comparison.tally, &lent.seen);
    println!("{seen}{tally}{JOBS} jobs in {time:?}");
    tally.assert_same();
    seen.assert_all_kinds(LEAST);
    seen.assert_outside_and_taken(500);
    for slice in ["map", "work", "plan"] {
        seen.assert_often(&format!("slice: {slice} exact"), 1_000);
        seen.assert_often(&format!("slice: {slice} longer"), 1_000);
    }
    assert_eq!(tally.hits[RETIRED], 0);
    for number in (0..=14).filter(|number| *number != RETIRED) {
        assert!(tally.hits[number] >= 50, "number {number} is rare");
    }
    for number in [2, 5, 6, 8, 9, 10, 11, 12, 13, 14] {
        assert!(tally.places[number].len() >= 20, "few places of {number}");
    }
    assert!(time < TIME, "{JOBS} jobs in {time:?}");
}

#[test]
fn large_jobs_get_the_answer_of_the_second_routing() {
    let begin = Instant::now();
    let mut random = Random::new(LARGE_SEED);
    let mut lent = Lent::of(ROUTING, REPLAY, LARGE_SEED);
    for number in 0..LARGE_JOBS {
        let job = large_job(number, &mut random);
        assert!(job.grid().vertices() > 8_192);
        lent.ask_job(&job, |_, _| {});
    }
    let time = begin.elapsed();
    let (tally, seen) = (&lent.comparison.tally, &lent.seen);
    println!("{seen}{tally}{LARGE_JOBS} large jobs in {time:?}");
    tally.assert_same();
    seen.assert_often("routed: joins", 30);
    seen.assert_often("routed: added steps", 1);
    seen.assert_often("job: longest M 15", 4);
    assert!(time < LARGE_TIME, "{LARGE_JOBS} large jobs in {time:?}");
}

#[test]
fn every_short_plan_gets_the_need() {
    let mut random = Random::new(SHORT_SEED);
    let mut lent = Lent::of(ROUTING, REPLAY, SHORT_SEED);
    for _ in 0..SHORT_JOBS {
        let job = routable_job(Size::Tiny, &mut random);
        lent.ask_job(&job, Lent::ask_every_short_plan);
    }
    println!("{}", lent.comparison.tally);
    lent.comparison.tally.assert_same();
    assert!(lent.comparison.tally.hits[14] >= 1_000, "few short plans");
}
