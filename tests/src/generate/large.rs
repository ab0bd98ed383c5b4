//! Jobs of more than 8,192 vertices, on grids of many shapes, with a few nets.

use super::routable::{close_layers, priced, Size};
use super::{free_vertices, layers, some_nets, some_obstacles};
use crate::grid::Grid;
use crate::job::Job;
use crate::random::Random;

/// Layers, rows and columns.
const SHAPES: [(u32, u32, u32); 12] = [
    (1, 128, 128),
    (2, 256, 32),
    (3, 53, 53),
    (4, 64, 64),
    (2, 90, 91),
    (5, 57, 57),
    (6, 8, 256),
    (2, 64, 65),
    (3, 73, 74),
    (7, 48, 48),
    (4, 16, 256),
    (8, 45, 45),
];

/// M is at most this on all but every so many jobs, which have the longest.
const SHORT_M: u32 = 4;
const LONG_M: u32 = 15;
const LONG_M_EVERY: u32 = 5;

/// The job of this number: shapes in turn, then again in the other direction.
pub fn large_job(number: u32, random: &mut Random) -> Job {
    let (layers_count, rows, columns) = SHAPES[number as usize % SHAPES.len()];
    let grid = Grid {
        layers: layers_count,
        rows,
        columns,
        direction: (number / SHAPES.len() as u32) % 2,
    };
    let close = !random.one_in(4);
    let obstacles = some_obstacles(random.between(0, 400), &grid, random);
    let mut free = free_vertices(&grid, &obstacles);
    let mut layers = if close {
        close_layers(Size::Medium, grid.layers, random)
    } else {
        layers(grid.layers, random)
    };
    if number.is_multiple_of(LONG_M_EVERY) {
        layers[0].min_length = LONG_M;
    } else {
        for layer in &mut layers {
            layer.min_length = layer.min_length.min(SHORT_M);
        }
    }
    let nets = random.between(1, 3);
    Job {
        guide_penalty: priced(close, 12, random),
        short_penalty: priced(close, 12, random),
        layers,
        obstacles,
        nets: some_nets(nets, 3, &mut free, &grid, random),
        ..Job::on(&grid)
    }
}

#[cfg(test)]
mod tests {
    use super::*;
    use crate::reader::read;

    #[test]
    fn large_jobs_are_good_and_large() {
        let mut random = Random::new(2);
        for number in 0..2 * SHAPES.len() as u32 {
            let job = large_job(number, &mut random);
            assert!(job.grid().vertices() > 8_192);
            assert_eq!(read(&job.pack()), Ok(job));
        }
    }
}
