//! Replay of plans written by hand, each with its answer: every number from 12 on
//! at every kind of place, and what is left in the slices.

use maizespell_tests::compare::replay::check;
use maizespell_tests::grid::{vertex, Vertex};
use maizespell_tests::job::Job;
use maizespell_tests::joining::Totals;
use maizespell_tests::library::ReplayResult;
use maizespell_tests::marked;
use maizespell_tests::plan::{pack, Record};
use maizespell_tests::reader::Refusal;
use maizespell_tests::replay::{refused, succeeded};
use maizespell_tests::rules::moves::Move::{self, Down, High, Low, Up};

/// A's plan, from the specification: flag at bit 0, start at 1, count at 20, moves at
/// 40, 42 and 44, cost at 46, and two bits of fill from 86 on.
const A: [u8; 11] = [
    0x80, 0x00, 0x00, 0x00, 0x03, 0x54, 0x00, 0x00, 0x00, 0x00, 0x0C,
];

/// With slices that are long enough for every marked job.
fn answer(job: &Job, plan: &[u8]) -> ReplayResult {
    check(&job.pack(), plan, 200, 2_000).0
}

fn refusal(number: u64, place: u64) -> ReplayResult {
    refused(Refusal { number, place })
}

fn success(cost: u64, added: u64, penalties: u64, joined: u64) -> ReplayResult {
    succeeded(Totals::of(cost, added, penalties, joined))
}

/// The answer to job A with one join.
fn answer_to_a(start: Vertex, moves: &[Move], cost: u64) -> ReplayResult {
    answer(&marked::a(), &pack(&[Record::of(start, moves, cost)]))
}

#[test]
fn a_good_plan_gives_map_and_totals() {
    let (result, map) = check(&marked::a().pack(), &A, 66, 1_030);
    assert_eq!(result, success(3, 0, 0, 1));
    assert_eq!(map[..4], [1, 1, 1, 1]);
    assert_eq!(map[4..64], [0; 60]);
    assert!(map[64..].iter().all(|code| *code > 257), "as found");
}

#[test]
fn no_record_ends_the_net_unexamined() {
    let (result, map) = check(&marked::a().pack(), &[0x00], 64, 1_024);
    assert_eq!(result, success(0, 0, 0, 0));
    assert_eq!(map[..5], [1, 0, 0, 1, 0]);
    assert_eq!(map[5..], [0; 59]);
}

#[test]
fn short_slices_are_refused_with_the_need() {
    let job = marked::a().pack();
    for plan in [&A[..], &[0xFF]] {
        assert_eq!(check(&job, plan, 63, 1_024).0, refusal(12, 64));
        assert_eq!(check(&job, plan, 0, 0).0, refusal(12, 64));
        assert_eq!(check(&job, plan, 64, 1_023).0, refusal(13, 1_024));
        assert_eq!(check(&job, plan, 64, 0).0, refusal(13, 1_024));
    }
    let (_, map) = check(&job, &A, 64, 1_023);
    assert!(map.iter().all(|code| *code > 257), "as found");
}

#[test]
fn the_job_comes_before_slices_and_plan() {
    let mut job = marked::a().pack();
    job.push(0);
    assert_eq!(check(&job, &[], 0, 0).0, refusal(11, 206));
    assert_eq!(check(&[], &A, 0, 0).0, refusal(2, 0));
}

#[test]
fn groups_that_are_not_whole() {
    let places = [0, 1, 1, 1, 1, 40, 46, 46, 46, 46, 46];
    for (length, place) in places.into_iter().enumerate() {
        assert_eq!(answer(&marked::a(), &A[..length]), refusal(15, place));
    }
}

#[test]
fn a_wrong_tail() {
    for bit in [1, 2, 3] {
        let mut plan = A;
        plan[10] |= bit;
        assert_eq!(answer(&marked::a(), &plan), refusal(15, 86));
    }
    let mut plan = A.to_vec();
    plan.push(0);
    assert_eq!(answer(&marked::a(), &plan), refusal(15, 86));
    assert_eq!(answer(&marked::a(), &[0x40]), refusal(15, 1));
    assert_eq!(answer(&marked::a(), &[0x00, 0x00]), refusal(15, 1));
}

#[test]
fn a_refused_plan_leaves_zeros() {
    let (result, map) = check(&marked::a().pack(), &A[..10], 66, 1_030);
    assert_eq!(result, refusal(15, 46));
    assert_eq!(map[..64], [0; 64]);
    assert!(map[64..].iter().all(|code| *code > 257), "as found");
}

#[test]
fn a_start_off_the_tree() {
    let moves = [High, High, High];
    for start in [vertex(0, 0, 1), vertex(0, 0, 3), vertex(1, 0, 0)] {
        assert_eq!(answer_to_a(start, &moves, 3), refusal(16, 1));
    }
    for start in [vertex(2, 0, 0), vertex(0, 4, 0), vertex(0, 0, 8)] {
        assert_eq!(answer_to_a(start, &moves, 3), refusal(16, 1));
    }
    assert_eq!(answer_to_a(vertex(7, 255, 255), &[], 3), refusal(16, 1));
}

#[test]
fn a_count_of_0() {
    assert_eq!(answer_to_a(vertex(0, 0, 0), &[], 0), refusal(17, 20));
}

#[test]
fn moves_that_are_not_legal() {
    let start = vertex(0, 0, 0);
    assert_eq!(answer_to_a(start, &[Low], 1), refusal(17, 40));
    assert_eq!(answer_to_a(start, &[Down], 1), refusal(17, 40));
    assert_eq!(answer_to_a(start, &[Up, Up], 1), refusal(17, 42));
    assert_eq!(answer_to_a(start, &[High, Low], 1), refusal(17, 42));
    let to_and_fro = [Up, High, Low];
    assert_eq!(answer_to_a(start, &to_and_fro, 1), refusal(17, 44));
}

#[test]
fn a_pin_entered_early_or_not_at_all() {
    let start = vertex(0, 0, 0);
    assert_eq!(answer_to_a(start, &[High; 2], 2), refusal(17, 42));
    assert_eq!(answer_to_a(start, &[High; 4], 4), refusal(17, 44));
    let mut plan = pack(&[Record::of(start, &[High; 8], 8)]);
    plan.truncate(6);
    assert_eq!(answer(&marked::a(), &plan), refusal(17, 44));
}

#[test]
fn a_cost_that_differs() {
    for cost in [0, 2, 4, (1 << 32) + 3, (1 << 40) - 1] {
        let result = answer_to_a(vertex(0, 0, 0), &[High; 3], cost);
        assert_eq!(result, refusal(18, 46));
    }
}

/// Around by the far row: every segment is long enough, and no move is taken back.
#[test]
fn a_dearer_join_is_replayed() {
    let mut moves = vec![Up, High, High, High, Down, High, High, High];
    moves.extend([Up, Low, Low, Low, Down]);
    let result = answer_to_a(vertex(0, 0, 0), &moves, 17);
    assert_eq!(result, success(17, 0, 0, 1));
}

/// Without net 1's wire net 2 pays no short.
#[test]
fn a_later_net_sees_what_the_plan_has_laid() {
    let net_1 = Record::of(vertex(1, 0, 0), &[High, High], 2);
    let net_2 = |cost| Record::of(vertex(0, 1, 0), &[Up, Up], cost);
    let k = marked::k();
    let after = |first: &Record, cost| answer(&k, &pack(&[first.clone(), net_2(cost)]));
    assert_eq!(after(&net_1, 74), success(76, 0, 1, 2));
    assert_eq!(after(&net_1, 54), refusal(18, 84 + 44));
    assert_eq!(after(&Record::NoJoin, 54), success(54, 0, 1, 1));
    assert_eq!(after(&Record::NoJoin, 74), refusal(18, 1 + 44));
    let l = pack(&[net_1, net_2(74)]);
    assert_eq!(answer(&marked::l(), &l), refusal(17, 84 + 40));
}

/// B's extension covers a third pin, which stays unjoined, and a start on the
/// extension is refused.
#[test]
fn an_extension_joins_nothing() {
    let mut job = marked::b();
    job.nets[0].pins.push(vertex(1, 3, 3));
    let b = Record::of(vertex(0, 0, 0), &[High, High, High, Up, High, Down], 10);
    let one_join = pack(&[b.clone(), Record::NoJoin]);
    assert_eq!(answer(&job, &one_join), success(10, 2, 0, 0));
    let from = |start, moves: &[Move], cost| {
        let plan = [b.clone(), Record::of(start, moves, cost)];
        answer(&job, &pack(&plan))
    };
    assert_eq!(from(vertex(1, 2, 3), &[High], 1), refusal(16, 92 + 1));
    let result = from(vertex(1, 1, 3), &[High, High], 2);
    assert_eq!(result, success(12, 2, 0, 1));
}

#[test]
fn a_job_without_nets_has_an_empty_plan() {
    let mut job = marked::a();
    job.nets.clear();
    assert_eq!(answer(&job, &[]), success(0, 0, 0, 0));
    assert_eq!(answer(&job, &[0x00]), refusal(15, 0));
    assert_eq!(answer(&job, &A), refusal(15, 0));
}
