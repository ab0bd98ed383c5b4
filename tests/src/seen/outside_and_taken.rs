//! What came up of vertices that are outside the guide and taken.

use super::Seen;
use crate::joining::{NetAtHand, Walk};
use crate::plan::Record;
use crate::router::follow;
use crate::rules::board::Board;
use crate::rules::moves::Move;
use crate::rules::view::Cause;

/// Moves of joins into them.
const ENTERED: &str = "outside and taken: entered";
const GUIDE_COSTS: &str = "outside and taken: entered, guide penalty above 0";
const SHORT_FREE: &str = "outside and taken: entered, short penalty 0";

/// Moves from a tree or a join that may not enter them.
const GUIDE_CLOSED: &str = "outside and taken: closed by the guide penalty alone";
const SHORT_CLOSED: &str = "outside and taken: closed by the short penalty";

impl Seen {
    /// What a legal plan has of them: moves of its joins, and moves beside.
    pub fn outside_and_taken(&mut self, board: &Board, records: &[Record]) {
        follow(board, records, |net, walk| {
            let entered = walk.map_or(&[][..], Walk::entered);
            self.entered(board, net, entered);
            for (what, cause) in [
                (GUIDE_CLOSED, Cause::GuideClosedTaken),
                (SHORT_CLOSED, Cause::ShortClosedOutside),
            ] {
                let from = net.tree().iter().chain(entered);
                let closed = from.map(|vertex| closed_beside(board, net, *vertex, cause));
                self.note(what, closed.sum());
            }
        });
    }

    fn entered(&mut self, board: &Board, net: &NetAtHand, entered: &[usize]) {
        let both = entered.iter().filter(|v| net.view.outside_and_taken(**v));
        let times = both.count() as u64;
        self.note(ENTERED, times);
        if board.job.guide_penalty > 0 {
            self.note(GUIDE_COSTS, times);
        }
        if board.job.short_penalty == 0 {
            self.note(SHORT_FREE, times);
        }
    }

    /// Fails where one of these came up less often than this.
    pub fn assert_outside_and_taken(&self, least: u64) {
        [ENTERED, GUIDE_COSTS, SHORT_FREE, GUIDE_CLOSED, SHORT_CLOSED]
            .iter()
            .for_each(|what| self.assert_often(what, least));
    }
}

/// How many moves from a vertex are forbidden for this cause.
fn closed_beside(board: &Board, net: &NetAtHand, vertex: usize, cause: Cause) -> u64 {
    let entered = |by: Move| board.neighbours.entered(vertex, by);
    let beside = Move::ALL.into_iter().filter_map(entered);
    let closed = beside.filter(|to| net.view.penalty(*to) == Err(cause));
    closed.count() as u64
}
