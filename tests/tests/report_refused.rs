//! Both forms of 19, by hand: counts that pass 2^64 − 1 and reports that are short, what is left
//! after them, and that replay's own numbers come first. And plans over one report.

use maizespell_tests::compare::replay::{self, Case};
use maizespell_tests::compare::wire_report::{check, Answer};
use maizespell_tests::damage::aimed;
use maizespell_tests::grid::vertex;
use maizespell_tests::job::Job;
use maizespell_tests::library::ReplayResult;
use maizespell_tests::marked;
use maizespell_tests::plan::{pack, Record};
use maizespell_tests::random::Random;
use maizespell_tests::reader::Refusal;
use maizespell_tests::replay::refused;
use maizespell_tests::report::every_kind::{self, counts};
use maizespell_tests::report::{COUNTS, KINDS};
use maizespell_tests::rules::board::Board;
use maizespell_tests::rules::moves::Move::High;

const MOST: u64 = u64::MAX;

fn refusal(number: u64, place: u64) -> ReplayResult {
    refused(Refusal { number, place })
}

/// With slices of two numbers more than the job needs.
fn asked(job: &Job, plan: &[u8], found: &[u64]) -> Answer {
    let board = Board::new(job);
    let case = Case {
        kind: "by hand",
        job: &job.pack(),
        plan,
        map_len: board.vertices() + 2,
        work_len: board.work_need() + 2,
    };
    check(&case, found)
}

/// The answer to the plan of every kind.
fn asked_every_kind(found: &[u64]) -> Answer {
    asked(&every_kind::job(), &pack(&every_kind::plan()), found)
}

/// 19 at this place, with the report as it was and map and work as after replay.
fn assert_over(found: &[u64], place: u64) {
    let answer = asked_every_kind(found);
    assert_eq!(answer.result, refusal(19, place));
    assert_eq!(answer.report, found);
    let accepted = asked_every_kind(&[0; COUNTS]);
    assert_eq!(accepted.result.refusal, 0);
    assert_eq!(answer.map, accepted.map);
    assert_eq!(answer.work, accepted.work);
}

#[test]
fn map_and_work_are_as_after_replay() {
    let job = every_kind::job();
    let (need, plan) = (Board::new(&job).work_need(), pack(&every_kind::plan()));
    for found in [vec![], vec![MOST; COUNTS]] {
        let answer = asked_every_kind(&found);
        assert_eq!(answer.result.refusal, 19);
        let (replayed, map) = replay::check(&job.pack(), &plan, answer.map.len(), need);
        assert_eq!(replayed.refusal, 0);
        assert_eq!(answer.map[..96], map[..96]);
        assert_eq!(answer.map[8..16], [2, 2, 2, 0, 0, 0, 0, 0]);
        assert!(answer.work[..need].iter().all(|number| *number == 0));
        assert!(answer.work[need..].iter().all(|number| *number != 0));
    }
}

/// Each number of the report alone. What the job has no layer for gains nothing and is never
/// too full.
#[test]
fn each_count_fills_its_number_and_not_one_more() {
    for (index, count) in counts(&every_kind::LAYERS).into_iter().enumerate() {
        let mut found = [0; COUNTS];
        found[index] = MOST - count;
        let answer = asked_every_kind(&found);
        assert_eq!(answer.result.refusal, 0, "number {index}");
        assert_eq!(answer.report[index], MOST);
        if count > 0 {
            found[index] += 1;
            assert_over(&found, (index / KINDS) as u64);
            found[index] = MOST;
            assert_over(&found, (index / KINDS) as u64);
        }
    }
}

/// Numbers that are too full, two at a time, where all others are low and where all others are
/// just filled.
#[test]
fn the_lowest_layer_is_named() {
    let full = counts(&every_kind::LAYERS).map(|count| MOST - count);
    let answer = asked_every_kind(&full);
    assert_eq!(answer.result.refusal, 0);
    assert_eq!(answer.report, [MOST; COUNTS]);
    assert_over(&answer.report, 0);
    for (over, layer) in [([1, 12], 0), ([7, 12], 1), ([11, 6], 1), ([16, 12], 2)] {
        for mut found in [[5; COUNTS], full] {
            over.iter().for_each(|index| found[*index] = MOST);
            assert_over(&found, layer);
        }
    }
}

#[test]
fn a_short_report_comes_before_its_numbers() {
    for length in 0..COUNTS {
        for number in [0, 7, MOST] {
            assert_over(&vec![number; length], 8);
        }
    }
    assert_over(&[MOST; COUNTS], 0);
    assert_over(&[MOST; COUNTS + 1], 0);
}

/// The answer is replay's and the report as it was, however short or full.
fn assert_turned_back(job: &[u8], plan: &[u8], lengths: (usize, usize), expected: ReplayResult) {
    let (map_len, work_len) = lengths;
    let case = Case {
        kind: "by hand",
        job,
        plan,
        map_len,
        work_len,
    };
    for length in [0, 1, 47, 48, 49] {
        for number in [0, MOST] {
            let found = vec![number; length];
            let answer = check(&case, &found);
            assert_eq!(answer.result, expected);
            assert_eq!(answer.report, found);
        }
    }
}

#[test]
fn replay_s_numbers_come_first() {
    let (job, start) = (marked::a().pack(), vertex(0, 0, 0));
    let plan = |start, moves, cost| pack(&[Record::of(start, &[High; 3][..moves], cost)]);
    let good = plan(start, 3, 3);
    let off_tree = plan(vertex(0, 0, 1), 2, 2);
    let (ends_early, dearer) = (plan(start, 2, 2), plan(start, 3, 4));
    let turned_back = [
        (&good[..10], (64, 1_024), refusal(15, 46)),
        (&off_tree, (64, 1_024), refusal(16, 1)),
        (&ends_early, (64, 1_024), refusal(17, 42)),
        (&dearer, (64, 1_024), refusal(18, 46)),
        (&good, (63, 1_024), refusal(12, 64)),
        (&good, (64, 1_023), refusal(13, 1_024)),
    ];
    for (plan, lengths, expected) in turned_back {
        assert_turned_back(&job, plan, lengths, expected);
    }
}

#[test]
fn the_job_s_numbers_come_first() {
    let random = &mut Random::new(1_904);
    let (good, plan) = (every_kind::job(), pack(&every_kind::plan()));
    let mut broken = 0;
    for number in aimed::RULES {
        if let Some(bad) = aimed::aimed(number, &good, random) {
            assert_turned_back(&bad.bytes, &plan, (96, 1_536), refused(bad.refusal));
            broken += 1;
        }
    }
    assert!(broken >= 8, "{broken} rules broken");
    let mut bytes = Vec::new();
    let refusal = aimed::too_long(&good.pack(), &mut bytes, random);
    assert_turned_back(&bytes, &plan, (96, 1_536), refused(refusal));
}

/// A's plan of three steps, the same at a wrong cost, none, and the plan of every kind: which
/// of them fit hangs on what those before have added.
#[test]
fn a_list_of_plans_adds_what_is_accepted() {
    let a = |cost| pack(&[Record::of(vertex(0, 0, 0), &[High; 3], cost)]);
    let (every_kind, plan) = (every_kind::job(), pack(&every_kind::plan()));
    let mut report = vec![7; COUNTS + 1];
    (report[0], report[6]) = (MOST - 5, MOST - 4);
    let mut expected = report.clone();
    let mut ask = |job: &Job, plan: &[u8]| {
        let answer = asked(job, plan, &report);
        report = answer.report;
        (answer.result.refusal, answer.result.place)
    };
    assert_eq!(ask(&every_kind, &plan), (0, 0));
    assert_eq!(ask(&marked::a(), &a(4)), (18, 46));
    assert_eq!(ask(&every_kind, &plan), (19, 1));
    assert_eq!(ask(&marked::a(), &[0]), (0, 0));
    assert_eq!(ask(&marked::a(), &a(3)), (0, 0));
    assert_eq!(ask(&marked::a(), &a(3)), (19, 0));
    assert_eq!(ask(&every_kind, &plan), (19, 0));
    let once = counts(&every_kind::LAYERS);
    expected.iter_mut().zip(once).for_each(|(sum, n)| *sum += n);
    expected[0] += 3;
    assert_eq!(report, expected);
}
