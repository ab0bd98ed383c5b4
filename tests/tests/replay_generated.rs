//! Generated jobs with their plans, good and damaged: the library's replay against
//! the second one, by answer, map and work slice.
//!
//! `cargo test --release -- --nocapture` shows how often each kind of pair and each
//! number came up.

use std::time::Instant;

use maizespell_tests::damage::plan::AIMED;
use maizespell_tests::generate::routable::any_routable_job;
use maizespell_tests::library::REPLAY;
use maizespell_tests::pairs::Pairs;
use maizespell_tests::reader::RETIRED;
use maizespell_tests::rules::view::Cause;

const SEED: u64 = 90_210;
const JOBS: u32 = 2_000;

#[test]
fn generated_plans_get_the_answer_of_the_second_replay() {
    let begin = Instant::now();
    let mut pairs = Pairs::of(REPLAY, SEED);
    pairs.ask_jobs(JOBS, any_routable_job);
    let (tally, seen) = (&pairs.comparison.tally, &pairs.seen);
    println!("{seen}{tally}in {:?}", begin.elapsed());
    tally.assert_same();
    assert!(tally.asked >= 20_000);
    assert_eq!(tally.hits[RETIRED], 0);
    for number in (1..=18).filter(|number| ![RETIRED, 14].contains(number)) {
        let least = if number == 1 { 10 } else { 100 };
        assert!(tally.hits[number] >= least, "refusal {number} is rare");
    }
    for number in [0, 12, 13, 15, 16, 17, 18] {
        assert!(tally.hits[number] >= 1_000, "number {number} is rare");
    }
    for number in [12, 13, 15, 16, 17, 18] {
        let places = tally.places[number].len();
        assert!(places >= 100, "few places of {number}");
    }
    seen.assert_extensions(50);
    seen.assert_boxes(50);
    seen.assert_one_pin(50);
    seen.assert_outside_and_taken(150);
    for (kind, _) in AIMED {
        seen.assert_often(kind, 500);
    }
    for cause in Cause::ALL {
        seen.assert_often(cause.name(), 50);
    }
}
