//! The library's routing on tiny grids: no list of moves up to a length is cheaper
//! than a record, or as cheap and earlier in the specification's order, and there is none
//! where the record says so.

use maizespell_tests::brute::Checked;
use maizespell_tests::generate::routable::{routable_job, Size};
use maizespell_tests::library::ROUTING;
use maizespell_tests::marked;
use maizespell_tests::random::Random;
use maizespell_tests::routing::routed_by;
use maizespell_tests::rules::board::Board;
use maizespell_tests::seen::Seen;

const SEED: u64 = 31_415;
const JOBS: u32 = 10_000;

/// Every list of so many moves is looked at.
const MOST_MOVES: usize = 9;

/// Each kind of extension, and of what a box says, comes up at least so often.
const LEAST: u64 = 20;

#[test]
fn records_come_first_among_all_short_routes() {
    let mut random = Random::new(SEED);
    let mut checked = Checked::by(MOST_MOVES);
    let mut seen = Seen::default();
    for _ in 0..JOBS {
        let job = routable_job(Size::Tiny, &mut random);
        let board = Board::new(&job);
        let routed = routed_by(ROUTING, &job);
        checked.check(&job, &routed);
        seen.routed(&board, &routed);
    }
    println!("{seen}{checked:#?}");
    checked.assert_many();
    seen.assert_extensions(LEAST);
    seen.assert_boxes(LEAST);
    seen.assert_outside_and_taken(100);
}

#[test]
fn marked_records_come_first_among_all_short_routes() {
    let mut checked = Checked::by(MOST_MOVES);
    for (_, job) in marked::all() {
        checked.check(&job, &routed_by(ROUTING, &job));
    }
    println!("{checked:#?}");
    assert_eq!((checked.joins, checked.none), (14, 3));
}
