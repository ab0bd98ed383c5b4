//! The second router on tiny grids: each join comes first in the specification's order
//! among all routes of some moves, and what it leaves is what the joins make when
//! they are judged as whole lists of moves.

use maizespell_tests::brute::Checked;
use maizespell_tests::generate::routable::{routable_job, Size};
use maizespell_tests::random::Random;
use maizespell_tests::router::route;
use maizespell_tests::rules::board::Board;
use maizespell_tests::seen::Seen;

const SEED: u64 = 4_711;
const JOBS: u32 = 10_000;

/// Every route of so many moves is looked at.
const MOST_MOVES: usize = 9;

/// Each kind of extension, and of what a box says, comes up at least so often.
const LEAST: u64 = 20;

#[test]
fn joins_come_first_among_all_short_routes() {
    let mut random = Random::new(SEED);
    let mut checked = Checked::by(MOST_MOVES);
    let mut seen = Seen::default();
    for _ in 0..JOBS {
        let job = routable_job(Size::Tiny, &mut random);
        let board = Board::new(&job);
        let routed = route(&board);
        checked.check(&job, &routed);
        seen.routed(&board, &routed);
    }
    println!("{seen}{checked:#?}");
    checked.assert_many();
    seen.assert_extensions(LEAST);
    seen.assert_boxes(LEAST);
    seen.assert_outside_and_taken(100);
}
