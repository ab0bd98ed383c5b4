//! A router with a fault that the specification warns of: its search keeps one bound for each
//! vertex, and not for each place. The tests hold it against a router that is right.

use std::cmp::Reverse;
use std::collections::BinaryHeap;

use crate::joining::NetAtHand;
use crate::plan::Join;
use crate::rules::board::Board;
use crate::rules::moves::Move;
use crate::rules::segment::Segment;
use crate::rules::step::Place;

/// A route from the tree, in the order in which routes are settled: by cost, start and moves.
#[derive(Debug, PartialEq, Eq, PartialOrd, Ord)]
struct Route {
    cost: u64,
    start: usize,
    moves: Vec<Move>,
    vertex: usize,
    segment_code: u32,
}

impl Route {
    fn start(start: usize) -> Self {
        Route {
            cost: 0,
            start,
            moves: Vec::new(),
            vertex: start,
            segment_code: Segment::START.code(),
        }
    }

    /// None where the move is not legal.
    fn longer(&self, net: &NetAtHand, by: Move) -> Option<Route> {
        let place = Place {
            vertex: self.vertex,
            segment: Segment::coded(self.segment_code),
        };
        let step = net.view.step(place, by).ok()?;
        Some(Route {
            cost: self.cost + step.cost(),
            start: self.start,
            moves: [&self.moves[..], &[by]].concat(),
            vertex: step.to.vertex,
            segment_code: step.to.segment.code(),
        })
    }
}

/// The join that it takes for the cheapest. The first route to a vertex shuts out every other,
/// whatever segments they have come by.
pub fn join(board: &Board, net: &NetAtHand) -> Option<Join> {
    let mut settled = vec![false; board.vertices()];
    let starts = net.tree().iter().map(|start| Route::start(*start));
    let mut open: BinaryHeap<_> = starts.map(Reverse).collect();
    while let Some(Reverse(route)) = open.pop() {
        if settled[route.vertex] {
            continue;
        }
        settled[route.vertex] = true;
        if net.unjoined(route.vertex) {
            return Some(Join {
                start: board.job.grid().numbered(route.start as u32),
                moves: route.moves,
                cost: route.cost,
            });
        }
        let longer = Move::ALL.iter().filter_map(|by| route.longer(net, *by));
        open.extend(longer.map(Reverse));
    }
    None
}
