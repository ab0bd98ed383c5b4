//! What is left at least from a vertex to the nearest unjoined pin: the pins lie in
//! a box, and each row, column or layer off it costs at least the cheapest wire or
//! via. It tells how many places the library's search settles; the second router
//! does without.

use std::ops::RangeInclusive;

use crate::grid::Grid;
use crate::joining::NetAtHand;
use crate::rules::board::Board;

pub struct Left {
    grid: Grid,
    layers: RangeInclusive<u32>,
    rows: RangeInclusive<u32>,
    columns: RangeInclusive<u32>,
    wire: u64,
    via: u64,
}

impl Left {
    pub fn of(board: &Board, net: &NetAtHand) -> Self {
        let grid = board.job.grid();
        let pins: Vec<_> = (0..board.vertices())
            .filter(|vertex| net.unjoined(*vertex))
            .map(|vertex| grid.numbered(vertex as u32))
            .collect();
        let layers = &board.job.layers;
        let below_top = &layers[..layers.len() - 1];
        Left {
            grid,
            layers: range(pins.iter().map(|pin| pin.layer)),
            rows: range(pins.iter().map(|pin| pin.row)),
            columns: range(pins.iter().map(|pin| pin.column)),
            wire: cheapest(layers.iter().map(|layer| layer.wire_price)),
            via: cheapest(below_top.iter().map(|layer| layer.via_price)),
        }
    }

    pub fn from(&self, vertex: usize) -> u64 {
        let v = self.grid.numbered(vertex as u32);
        let steps = off(v.row, &self.rows) + off(v.column, &self.columns);
        self.wire * steps + self.via * off(v.layer, &self.layers)
    }
}

/// From the least to the greatest of some numbers.
fn range(numbers: impl Iterator<Item = u32> + Clone) -> RangeInclusive<u32> {
    let least = numbers.clone().min().expect("a search has a goal");
    least..=numbers.max().expect("a search has a goal")
}

fn cheapest(prices: impl Iterator<Item = u32>) -> u64 {
    u64::from(prices.min().unwrap_or(0))
}

/// How far a number is from a range.
fn off(at: u32, range: &RangeInclusive<u32>) -> u64 {
    let below = range.start().saturating_sub(at);
    u64::from(below.max(at.saturating_sub(*range.end())))
}
