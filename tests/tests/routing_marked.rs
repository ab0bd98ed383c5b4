//! Routing of the thirteen marked jobs: the results of "Routes by hand", and the answer
//! of the second routing to the last bit.

use maizespell_tests::job::Job;
use maizespell_tests::lent::Lent;
use maizespell_tests::library::{REPLAY, ROUTING};
use maizespell_tests::marked;
use maizespell_tests::marked::by_hand::{A_PLAN, COSTS, TOTALS};
use maizespell_tests::plan::{pack, Record};
use maizespell_tests::routing::routed_by;
use maizespell_tests::rules::moves::Move::{self, Down, High, Up};

/// The cost of each join, or None where there is none.
fn costs(job: &Job) -> Vec<Option<u64>> {
    let cost = |record: &Record| record.join().map(|join| join.cost);
    let routed = routed_by(ROUTING, job);
    routed.records.iter().map(cost).collect()
}

/// The moves of the first join.
fn moves(job: &Job) -> Vec<Move> {
    let routed = routed_by(ROUTING, job);
    let join = routed.records[0].join().expect("a join");
    join.moves.clone()
}

#[test]
fn marked_jobs_have_the_costs_found_by_hand() {
    for ((letter, job), (_, by_hand)) in marked::all().into_iter().zip(COSTS) {
        assert_eq!(costs(&job), by_hand, "job {letter}");
    }
}

#[test]
fn marked_jobs_have_the_totals_found_by_hand() {
    for ((letter, job), (_, by_hand)) in marked::all().into_iter().zip(TOTALS) {
        let joined = routed_by(ROUTING, &job).joined;
        assert_eq!(joined.totals, by_hand, "job {letter}");
    }
}

#[test]
fn a_has_the_plan_of_the_specification() {
    let routed = routed_by(ROUTING, &marked::a());
    assert_eq!(pack(&routed.records), A_PLAN);
}

#[test]
fn b_and_h_have_the_moves_of_the_specification() {
    assert_eq!(moves(&marked::b()), [High, High, High, Up, High, Down]);
    assert_eq!(moves(&marked::h()), [Up, High, Up]);
}

/// With every length of every slice that is too short.
#[test]
fn marked_jobs_get_the_answer_of_the_second_routing() {
    let mut lent = Lent::of(ROUTING, REPLAY, 1);
    for (_, job) in marked::all() {
        lent.ask_job(&job, |lent, exact| {
            lent.ask_every_short_plan(exact);
            lent.ask_every_short_map_and_work(exact);
        });
    }
    println!("{}{}", lent.seen, lent.comparison.tally);
    lent.comparison.tally.assert_same();
}
