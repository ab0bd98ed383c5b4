//! Random good jobs that are worth routing: grids small enough to search often,
//! prices so close that routes tie, and nets that get in each other's way, at times by a crossing
//! outside a guide.

use std::mem::swap;

use super::crossing::crossing;
use super::{free_vertices, good_job, layers, penalty, some_nets, some_obstacles};
use crate::grid::{vertex, Grid, Vertex, MOST_LAYERS};
use crate::job::{GuideBox, Job, Layer, Net, Obstacle, CLOSED, MOST_PINS};
use crate::random::Random;

/// One job in so many has nets that cross on a narrow grid.
const CROSSED_EVERY: u32 = 5;

#[derive(Clone, Copy, Debug, PartialEq, Eq)]
pub enum Size {
    /// Small enough for every route of some moves.
    Tiny,
    Small,
    Medium,
}

/// A job of any size: small and medium ones, and at times one of all shapes, with
/// no more nets than can be routed soon.
pub fn any_routable_job(random: &mut Random) -> Job {
    match random.between(0, 99) {
        0..=4 => routable_job(Size::Tiny, random),
        5..=79 => routable_job(Size::Small, random),
        80..=97 => routable_job(Size::Medium, random),
        _ => {
            let mut job = good_job(random);
            job.nets.truncate(random.index(6));
            job
        }
    }
}

/// A job as `any_routable_job` makes it, but most often so small that thousands
/// are routed in a second.
pub fn quick_routable_job(random: &mut Random) -> Job {
    match random.between(0, 399) {
        0..=339 => routable_job(Size::Tiny, random),
        340..=398 => routable_job(Size::Small, random),
        _ => routable_job(Size::Medium, random),
    }
}

/// A small job of all layers, which are rarely as many.
pub fn deep_routable_job(random: &mut Random) -> Job {
    loop {
        let job = routable_job(Size::Small, random);
        if job.layers.len() == MOST_LAYERS as usize {
            return job;
        }
    }
}

pub fn routable_job(size: Size, random: &mut Random) -> Job {
    let (grid, obstacles, nets) = if random.one_in(CROSSED_EVERY) {
        let (grid, nets) = crossing(most_layers(size), random);
        (grid, Vec::new(), nets)
    } else {
        let grid = grid(size, random);
        let obstacles = obstacles(&grid, random);
        let nets = nets(size, &grid, &obstacles, random);
        (grid, obstacles, nets)
    };
    let close = !random.one_in(4);
    Job {
        guide_penalty: priced(close, 12, random),
        short_penalty: priced(close, 12, random),
        layers: if close {
            close_layers(size, grid.layers, random)
        } else {
            layers(grid.layers, random)
        },
        obstacles,
        nets,
        ..Job::on(&grid)
    }
}

fn most_layers(size: Size) -> u32 {
    match size {
        Size::Tiny => 4,
        Size::Small | Size::Medium => MOST_LAYERS,
    }
}

fn grid(size: Size, random: &mut Random) -> Grid {
    let (most_rows, most_columns, most_vertices) = match size {
        Size::Tiny => (5, 5, 36),
        Size::Small => (10, 10, 200),
        Size::Medium => (32, 32, 1_500),
    };
    let layers = if random.one_in(3) {
        random.edgy(1, most_layers(size))
    } else {
        random.between(2, 4)
    };
    let columns = random.edgy(1, most_columns.min(most_vertices / layers));
    let rows = random.edgy(1, most_rows.min(most_vertices / (layers * columns)));
    Grid {
        layers,
        rows,
        columns,
        direction: random.between(0, 1),
    }
}

/// A penalty that is closed at times and else, where prices are close, low.
pub(super) fn priced(close: bool, most: u32, random: &mut Random) -> u32 {
    if !close {
        return penalty(random);
    }
    if random.one_in(4) {
        return CLOSED;
    }
    random.edgy(0, most)
}

pub(super) fn close_layers(size: Size, count: u32, random: &mut Random) -> Vec<Layer> {
    let longest = match size {
        Size::Tiny => random.between(1, 4),
        _ => *random.pick(&[2, 3, 5, 15]),
    };
    let most_price = random.between(1, 4);
    let layer = |number| Layer {
        wire_price: random.between(1, most_price),
        via_price: if number + 1 == count {
            0
        } else {
            random.between(1, most_price)
        },
        min_length: random.edgy(1, longest),
        area_penalty: priced(true, 20, random),
    };
    (0..count).map(layer).collect()
}

fn obstacles(grid: &Grid, random: &mut Random) -> Vec<Obstacle> {
    let count = match random.between(0, 4) {
        0 | 1 => 0,
        2 | 3 => random.between(1, 3),
        _ => random.between(1, grid.vertices().div_ceil(8)),
    };
    some_obstacles(count, grid, random)
}

fn nets(size: Size, grid: &Grid, obstacles: &[Obstacle], random: &mut Random) -> Vec<Net> {
    let most_nets = match size {
        Size::Tiny => 3,
        Size::Small => 6,
        Size::Medium => 10,
    };
    let count = if random.one_in(20) {
        0
    } else {
        random.between(1, most_nets)
    };
    let most_pins = match random.between(0, 5) {
        0..=2 => 2,
        3 | 4 => 4,
        _ => MOST_PINS,
    };
    let mut free = free_vertices(grid, obstacles);
    let mut nets = some_nets(count, most_pins, &mut free, grid, random);
    for net in &mut nets {
        if net.pins.len() > 1 && random.one_in(2) {
            stack(net, &mut free, random);
        }
        if !net.boxes.is_empty() && !random.one_in(4) {
            net.boxes[0] = box_around(&net.pins, grid, random);
        }
    }
    nets
}

/// Puts the second pin two layers or more off the first and at most one row and one column
/// aside, if a vertex there is free: between them a route has segments that are short.
fn stack(net: &mut Net, free: &mut [Vertex], random: &mut Random) {
    let first = net.pins[0];
    let near = |v: &&mut Vertex| {
        let aside = v
            .row
            .abs_diff(first.row)
            .max(v.column.abs_diff(first.column));
        v.layer.abs_diff(first.layer) >= 2 && aside <= 1
    };
    let mut places: Vec<&mut Vertex> = free.iter_mut().filter(near).collect();
    if !places.is_empty() {
        let place = random.index(places.len());
        swap(&mut net.pins[1], places[place]);
    }
}

/// A box with all pins, grown a little at some of its sides.
pub(super) fn box_around(pins: &[Vertex], grid: &Grid, random: &mut Random) -> GuideBox {
    let mut range = |of: fn(&Vertex) -> u32, end: u32| {
        let low = pins.iter().map(of).min().expect("a net has pins");
        let high = pins.iter().map(of).max().expect("a net has pins");
        let low = low.saturating_sub(random.between(0, 1));
        (low, (high + random.between(0, 1)).min(end - 1))
    };
    let layers = range(|pin| pin.layer, grid.layers);
    let rows = range(|pin| pin.row, grid.rows);
    let columns = range(|pin| pin.column, grid.columns);
    GuideBox {
        low: vertex(layers.0, rows.0, columns.0),
        high: vertex(layers.1, rows.1, columns.1),
    }
}

#[cfg(test)]
mod tests {
    use super::*;

    const JOBS: usize = 2_000;

    fn assert_some(jobs: &[Job], what: &str, has: impl Fn(&Job) -> bool) {
        assert!(jobs.iter().any(has), "no generated job has {what}");
    }

    fn jobs() -> Vec<Job> {
        let mut random = Random::new(9);
        (0..JOBS).map(|_| any_routable_job(&mut random)).collect()
    }

    #[test]
    fn all_layers_directions_and_lengths_come_up() {
        let jobs = jobs();
        for layers in 1..=MOST_LAYERS as usize {
            for direction in 0..=1 {
                assert_some(&jobs, "these layers and this direction", |job| {
                    job.layers.len() == layers && job.direction == direction
                });
            }
        }
        for length in 1..=15 {
            assert_some(&jobs, "this M", |job| job.largest_min_length() == length);
        }
        for pins in 1..=MOST_PINS {
            assert_some(&jobs, "a net of so many pins", |job| {
                job.nets.iter().any(|net| net.pins.len() == pins)
            });
        }
    }

    #[test]
    fn penalties_are_open_and_closed_in_every_way() {
        let jobs = jobs();
        for (guide, short, area) in (0..8).map(|n| (n & 1 == 0, n & 2 == 0, n & 4 == 0)) {
            assert_some(&jobs, "these penalties closed", |job| {
                let areas = job.layers.iter().map(|layer| layer.area_penalty);
                (job.guide_penalty == CLOSED) == guide
                    && (job.short_penalty == CLOSED) == short
                    && areas.into_iter().any(|price| price == CLOSED) == area
                    && job.nets.len() > 1
            });
        }
    }
}
