//! The cheapest join of the net at hand: Dijkstra over places.
//!
//! Costs are found forward, from every vertex of the tree at once. Ties are then
//! settled on the cheapest routes alone: the places that lie on one are found
//! from the pins backwards, and the join is walked from the lowest such start,
//! each time by the lowest move that stays on a cheapest route.
//!
//! Every move costs at least 1, so costs grow along a route, and once a pin's
//! cost is known every lower cost in the table is final.

use std::cmp::Reverse;
use std::collections::BinaryHeap;

use crate::joining::NetAtHand;
use crate::plan::Join;
use crate::router::left::Left;
use crate::rules::board::Board;
use crate::rules::moves::Move;
use crate::rules::segment::Segment;
use crate::rules::step::{Place, Step};

/// The cost of a place that was not reached.
const UNREACHED: u64 = u64::MAX;

/// Low bits of a heap entry, which hold the place; its cost stands above them.
/// There are at most 16,384 × 32 = 2^19 places, and a cheapest route costs less
/// than 2^18 for each.
const PLACE_BITS: u32 = 19;

/// Tables with one entry a place, numbered by vertex, then segment.
pub struct Search<'a> {
    board: &'a Board<'a>,
    /// Low bits of a place's number, which hold its segment.
    segment_bits: u32,
    cost: Vec<u64>,
    on_cheapest: Vec<bool>,
    reached: Vec<u32>,
    heap: BinaryHeap<Reverse<u64>>,
}

impl<'a> Search<'a> {
    pub fn new(board: &'a Board<'a>) -> Self {
        let segment_bits = board.segments().next_power_of_two().trailing_zeros();
        let places = board.vertices() << segment_bits;
        assert!(places <= 1 << PLACE_BITS);
        Search {
            board,
            segment_bits,
            cost: vec![UNREACHED; places],
            on_cheapest: vec![false; places],
            reached: Vec::new(),
            heap: BinaryHeap::new(),
        }
    }

    /// After a search, how many places the library settles for the same join: those
    /// whose cost with 7/8 of what is left at least is below the join's, and all
    /// that can be reached where there is none.
    pub fn settled(&self, join: Option<&Join>, left: &Left) -> u64 {
        let within = |number: &&u32| {
            let number = **number as usize;
            let left = left.from(number >> self.segment_bits);
            join.is_none_or(|join| 16 * self.cost[number] + 15 * left < 16 * join.cost)
        };
        self.reached.iter().filter(within).count() as u64
    }

    /// "The cheapest is taken; among equals the lowest start vertex, then the
    /// move list that comes first by move number."
    pub fn cheapest(&mut self, net: &NetAtHand) -> Option<Join> {
        self.forget();
        let cost = self.reach_a_pin(net)?;
        self.trace_back(net, cost);
        Some(self.walk_first(net, cost))
    }

    fn number(&self, place: Place) -> usize {
        place.vertex << self.segment_bits | place.segment.code() as usize
    }

    fn numbered(&self, number: usize) -> Place {
        let vertex = number >> self.segment_bits;
        let code = number - (vertex << self.segment_bits);
        Place {
            vertex,
            segment: Segment::coded(code as u32),
        }
    }

    /// Clears what the last join has left in the tables.
    fn forget(&mut self) {
        for number in self.reached.drain(..) {
            self.cost[number as usize] = UNREACHED;
            self.on_cheapest[number as usize] = false;
        }
        self.heap.clear();
    }

    fn reach(&mut self, number: usize, cost: u64) {
        if cost >= self.cost[number] {
            return;
        }
        if self.cost[number] == UNREACHED {
            self.reached.push(number as u32);
        }
        self.cost[number] = cost;
        self.heap.push(Reverse(cost << PLACE_BITS | number as u64));
    }

    /// The cost of the cheapest join. No route goes on from an unjoined pin.
    fn reach_a_pin(&mut self, net: &NetAtHand) -> Option<u64> {
        for vertex in net.tree() {
            self.reach(self.number(Place::start(*vertex)), 0);
        }
        while let Some(Reverse(entry)) = self.heap.pop() {
            let cost = entry >> PLACE_BITS;
            let number = (entry & ((1 << PLACE_BITS) - 1)) as usize;
            if cost > self.cost[number] {
                continue;
            }
            let from = self.numbered(number);
            if net.unjoined(from.vertex) {
                return Some(cost);
            }
            for by in Move::ALL {
                if let Ok(step) = net.view.step(from, by) {
                    self.reach(self.number(step.to), cost + step.cost());
                }
            }
        }
        None
    }

    /// Finds each place that lies on a route of this cost, the cheapest.
    fn trace_back(&mut self, net: &NetAtHand, cost: u64) {
        let mut open: Vec<usize> = Vec::new();
        for number in &self.reached {
            let number = *number as usize;
            if self.cost[number] == cost && net.unjoined(number >> self.segment_bits) {
                self.on_cheapest[number] = true;
                open.push(number);
            }
        }
        while let Some(number) = open.pop() {
            for by in Move::ALL {
                self.trace_before(net, number, by, &mut open);
            }
        }
    }

    /// Finds the places from which this move leads to one on a cheapest route as cheaply as
    /// that can be reached.
    fn trace_before(&mut self, net: &NetAtHand, to: usize, by: Move, open: &mut Vec<usize>) {
        let vertex = to >> self.segment_bits;
        let Some(before) = self.board.neighbours.entered(vertex, by.opposite()) else {
            return;
        };
        let first = before << self.segment_bits;
        for number in first..first + self.board.segments() {
            if self.cost[number] >= self.cost[to] || self.on_cheapest[number] {
                continue;
            }
            let Ok(step) = net.view.step(self.numbered(number), by) else {
                continue;
            };
            if self.number(step.to) == to && self.keeps_cost(number, &step) {
                self.on_cheapest[number] = true;
                open.push(number);
            }
        }
    }

    /// Whether the step reaches its place at the place's least cost.
    fn keeps_cost(&self, from: usize, step: &Step) -> bool {
        self.cost[from] + step.cost() == self.cost[self.number(step.to)]
    }

    /// The join that comes first among the cheapest routes.
    fn walk_first(&self, net: &NetAtHand, cost: u64) -> Join {
        let starts = net.tree().iter().copied();
        let on_one = |vertex: &usize| self.on_cheapest[self.number(Place::start(*vertex))];
        let start = starts.filter(on_one).min().expect("a route has a start");
        let mut moves = Vec::new();
        let mut place = Place::start(start);
        while !net.unjoined(place.vertex) {
            let (by, step) = self.lowest_move_on(net, place);
            moves.push(by);
            place = step.to;
        }
        Join {
            start: self.board.job.grid().numbered(start as u32),
            moves,
            cost,
        }
    }

    fn lowest_move_on(&self, net: &NetAtHand, from: Place) -> (Move, Step) {
        let number = self.number(from);
        for by in Move::ALL {
            if let Ok(step) = net.view.step(from, by) {
                if self.on_cheapest[self.number(step.to)] && self.keeps_cost(number, &step) {
                    return (by, step);
                }
            }
        }
        panic!("a place on a cheapest route leads to a pin");
    }
}
