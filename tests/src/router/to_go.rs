//! Costs to go: the least cost from each place to an unjoined pin, relaxed over all
//! places until nothing changes. The second router does without; its joins are held
//! against the first join by these costs, and the marked tables of costs are these.

use crate::joining::NetAtHand;
use crate::plan::Join;
use crate::rules::board::Board;
use crate::rules::moves::Move;
use crate::rules::segment::Segment;
use crate::rules::step::Place;

/// By vertex and segment; None where no pin can be reached.
pub struct CostToGo<'a> {
    board: &'a Board<'a>,
    net: &'a NetAtHand<'a>,
    costs: Vec<Option<u64>>,
}

impl<'a> CostToGo<'a> {
    pub fn relaxed(board: &'a Board<'a>, net: &'a NetAtHand<'a>) -> Self {
        let costs = vec![None; board.vertices() * board.segments()];
        let mut to_go = CostToGo { board, net, costs };
        while to_go.pass() {}
        to_go
    }

    /// Relaxes every place once; whether anything has changed.
    fn pass(&mut self) -> bool {
        let mut changed = false;
        for number in 0..self.costs.len() {
            let from = Place {
                vertex: number / self.board.segments(),
                segment: Segment::coded((number % self.board.segments()) as u32),
            };
            let least = Move::ALL.iter().filter_map(|by| self.by(from, *by)).min();
            if least != self.costs[number] {
                self.costs[number] = least;
                changed = true;
            }
        }
        changed
    }

    /// From a place; 0 at an unjoined pin.
    pub fn of(&self, place: Place) -> Option<u64> {
        if self.net.unjoined(place.vertex) {
            return Some(0);
        }
        self.costs[place.vertex * self.board.segments() + place.segment.code() as usize]
    }

    /// The cost to go by this move.
    fn by(&self, from: Place, by: Move) -> Option<u64> {
        let step = self.net.view.step(from, by).ok()?;
        Some(step.cost() + self.of(step.to)?)
    }

    /// The cheapest from the lowest start, each time by the lowest move.
    pub fn first_join(&self) -> Option<Join> {
        let starts = self.net.tree().iter().copied();
        let costs = starts.filter_map(|start| Some((self.of(Place::start(start))?, start)));
        let (cost, start) = costs.min()?;
        let mut moves = Vec::new();
        let mut place = Place::start(start);
        while !self.net.unjoined(place.vertex) {
            let keeps = |by: &Move| self.by(place, *by) == self.of(place);
            let by = Move::ALL.into_iter().find(keeps)?;
            place = self.net.view.step(place, by).ok()?.to;
            moves.push(by);
        }
        Some(Join {
            start: self.board.job.grid().numbered(start as u32),
            moves,
            cost,
        })
    }
}
