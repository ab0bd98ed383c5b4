//! Generated jobs with their plans, good and damaged, and reports of many lengths: the
//! library's wire report against the second one, by answer, map, work slice and report.
//! And lists of plans over one report.
//!
//! `cargo test --release -- --nocapture` shows what came up and how often.

use std::time::Instant;

use maizespell_tests::compare::wire_report::Comparison;
use maizespell_tests::damage::plan::shuffled::shuffled;
use maizespell_tests::generate::routable::{any_routable_job, deep_routable_job};
use maizespell_tests::guarded;
use maizespell_tests::job::Job;
use maizespell_tests::library::{ReplayResult, REPORT};
use maizespell_tests::pairs::Pairs;
use maizespell_tests::plan::pack;
use maizespell_tests::random::Random;
use maizespell_tests::reader::RETIRED;
use maizespell_tests::report::COUNTS;
use maizespell_tests::rules::board::Board;
use maizespell_tests::wander::wandering_plan;

const SEED: u64 = 48_019;
const JOBS: u32 = 3_000;
const DEEP_JOBS: u32 = 1_500;

const GUARDED_SEED: u64 = 4_096;
const GUARDED_JOBS: u32 = 300;

const LIST_SEED: u64 = 64;
const LISTS: u32 = 100;
const PLANS: u32 = 30;

/// Each thing of note comes up at least so often.
const LEAST: u64 = 50;

fn show(pairs: &Pairs<Comparison>, begin: Instant) {
    let (tally, seen) = (&pairs.comparison.tally, &pairs.seen);
    println!("{seen}{tally}in {:?}", begin.elapsed());
    tally.assert_same();
}

#[test]
fn generated_plans_get_the_report_of_the_second_one() {
    let begin = Instant::now();
    let mut pairs = Pairs::of_report(REPORT, SEED);
    pairs.ask_jobs(JOBS, any_routable_job);
    pairs.ask_jobs(DEEP_JOBS, deep_routable_job);
    show(&pairs, begin);
    let tally = &pairs.comparison.tally;
    assert_eq!((tally.hits[RETIRED], tally.hits[14]), (0, 0));
    for number in (1..=19).filter(|number| ![RETIRED, 14].contains(number)) {
        let least = if number == 1 { 10 } else { 100 };
        assert!(tally.hits[number] >= least, "refusal {number} is rare");
    }
    for number in [0, 12, 13, 15, 16, 17, 18, 19] {
        assert!(tally.hits[number] >= 1_000, "number {number} is rare");
    }
    assert_eq!(tally.places[19].len(), 9, "8 layers, and short reports");
    pairs.seen.assert_reports(LEAST);
    pairs.seen.assert_outside_and_taken(500);
}

/// The slices lie against pages that cannot be touched.
#[test]
fn generated_plans_keep_within_their_slices() {
    let begin = Instant::now();
    let mut pairs = Pairs::of_report(guarded::report, GUARDED_SEED);
    pairs.ask_jobs(GUARDED_JOBS, any_routable_job);
    pairs.ask_jobs(GUARDED_JOBS, deep_routable_job);
    show(&pairs, begin);
    for number in [0, 12, 13, 15, 16, 17, 18, 19] {
        let hits = pairs.comparison.tally.hits[number];
        assert!(hits >= 500, "number {number} is rare");
    }
}

/// The library's answer, on slices that are as long as the job needs.
fn reported(job: &Job, plan: &[u8], report: &mut [u64]) -> ReplayResult {
    let board = Board::new(job);
    let mut map = vec![0; board.vertices()];
    let mut work = vec![0; board.work_need()];
    REPORT(&job.pack(), plan, &mut map, &mut work, report)
}

/// A plan that wanders, one in four of them damaged.
fn any_plan(job: &Job, random: &mut Random) -> Vec<u8> {
    let records = wandering_plan(&Board::new(job), random).records;
    let damaged = random.one_in(4).then(|| shuffled(&records, random));
    damaged.flatten().unwrap_or_else(|| pack(&records))
}

/// Each number is 0, or one in ten of them so high that some plans are too much.
fn begin(random: &mut Random) -> [u64; COUNTS] {
    [0; COUNTS].map(|_| match random.between(0, 9) {
        0 => u64::MAX - u64::from(random.between(0, 300)),
        _ => 0,
    })
}

/// "The report over a list of plans is what it held before plus the sum over the records of those
/// accepted." What a plan adds is told by a report of zeros.
#[test]
fn lists_of_plans_add_up() {
    let random = &mut Random::new(LIST_SEED);
    let mut hits = [0; 20];
    for _ in 0..LISTS {
        let mut report = begin(random);
        let mut sums = report.map(u128::from);
        for _ in 0..PLANS {
            let job = any_routable_job(random);
            let plan = any_plan(&job, random);
            let mut counts = [0; COUNTS];
            reported(&job, &plan, &mut counts);
            let result = reported(&job, &plan, &mut report);
            hits[result.refusal as usize] += 1;
            if result.refusal == 0 {
                let sum = |(sum, count): (&mut u128, u64)| *sum += u128::from(count);
                sums.iter_mut().zip(counts).for_each(sum);
            }
        }
        assert_eq!(report.map(u128::from), sums);
    }
    println!("lists of plans: answers 0 to 19: {hits:?}");
    for number in [0, 17, 19] {
        assert!(hits[number] >= 50, "number {number} is rare");
    }
}
