//! The second router's joins of any length against another search: costs to go,
//! relaxed over all places until nothing changes, and the first join by them.

use std::convert::Infallible;

use maizespell_tests::generate::routable::{routable_job, Size};
use maizespell_tests::job::Job;
use maizespell_tests::joining::join_nets;
use maizespell_tests::plan::Record;
use maizespell_tests::random::Random;
use maizespell_tests::router::to_go::CostToGo;
use maizespell_tests::router::{route, walk};
use maizespell_tests::rules::board::Board;

const SEED: u64 = 2_718;
const JOBS: u32 = 600;

/// The moves of the longest join.
fn check_job(job: &Job) -> usize {
    let board = Board::new(job);
    let routed = route(&board);
    let mut records = routed.records.iter();
    let joined = join_nets(&board, |net| {
        let join = CostToGo::relaxed(&board, net).first_join();
        let record = records.next().and_then(Record::join);
        assert_eq!(record, join.as_ref(), "in {job:?}");
        Ok::<_, Infallible>(join.map(|join| walk(&board, net, &join)))
    });
    assert_eq!(joined, Ok(routed.joined));
    let joins = routed.records.iter().filter_map(Record::join);
    joins.map(|join| join.moves.len()).max().unwrap_or(0)
}

#[test]
fn joins_are_those_of_relaxed_costs() {
    let mut random = Random::new(SEED);
    let lengths: Vec<usize> = (0..JOBS)
        .map(|_| check_job(&routable_job(Size::Small, &mut random)))
        .collect();
    let long = lengths.iter().filter(|length| **length > 9).count();
    println!("{JOBS} jobs, {long} of them with a join of more than 9 moves");
    assert!(long >= 50, "few long joins");
}
