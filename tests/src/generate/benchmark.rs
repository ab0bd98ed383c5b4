//! The six jobs of the benchmark. Each is the same in every run.

use super::free_vertices;
use super::routable::box_around;
use crate::grid::{Grid, Vertex};
use crate::job::{Job, Layer, Net};
use crate::random::Random;

const SEED: u64 = 64_640;

/// Rows and columns from one pin to the next of a local net, at most.
const LOCAL: u32 = 6;

/// Pins lie on the lowest layers, as those of cells do.
const PIN_LAYERS: u32 = 2;

/// All six, each with its name.
pub fn all() -> [(&'static str, Job); 6] {
    [
        ("4 x 64 x 64, 255 local nets", local_nets()),
        ("4 x 64 x 64, 255 nets anywhere", nets_anywhere()),
        ("8 x 45 x 45, M 15", long_segments()),
        ("2 x 8 x 16", small_grid()),
        ("8 x 45 x 45, M 9, 255 local nets", local_long_segments()),
        ("2 x 90 x 90, M 9, 255 nets anywhere", two_layers()),
    ]
}

pub fn local_nets() -> Job {
    job(4, (64, 64), 3, 255, Some(LOCAL))
}

pub fn nets_anywhere() -> Job {
    job(4, (64, 64), 3, 255, None)
}

pub fn long_segments() -> Job {
    job(8, (45, 45), 15, 24, None)
}

pub fn small_grid() -> Job {
    job(2, (8, 16), 3, 10, None)
}

pub fn local_long_segments() -> Job {
    job(8, (45, 45), 9, 255, Some(LOCAL))
}

pub fn two_layers() -> Job {
    job(2, (90, 90), 9, 255, None)
}

/// A job with nets of two or three pins. Local nets have a guide.
fn job(layers: u32, lines: (u32, u32), min_length: u32, nets: u32, local: Option<u32>) -> Job {
    let random = &mut Random::new(SEED);
    let grid = Grid {
        layers,
        rows: lines.0,
        columns: lines.1,
        direction: 0,
    };
    let mut free = free_vertices(&grid, &[]);
    free.retain(|v| v.layer < PIN_LAYERS);
    let net = |_| {
        let pins = pins(&mut free, local, random);
        let guide = local.map(|_| box_around(&pins, &grid, random));
        Net {
            pins,
            boxes: guide.into_iter().collect(),
        }
    };
    Job {
        guide_penalty: 10,
        short_penalty: 40,
        nets: (0..nets).map(net).collect(),
        layers: (1..=layers)
            .map(|count| layer(count == layers, min_length))
            .collect(),
        ..Job::on(&grid)
    }
}

fn layer(top: bool, min_length: u32) -> Layer {
    Layer {
        wire_price: 2,
        via_price: if top { 0 } else { 3 },
        min_length,
        area_penalty: 30,
    }
}

/// Two or three of the free vertices, which are taken away; near the first where
/// the net is local.
fn pins(free: &mut Vec<Vertex>, local: Option<u32>, random: &mut Random) -> Vec<Vertex> {
    let first = free.swap_remove(random.index(free.len()));
    let near = |v: &Vertex| match local {
        Some(most) => {
            v.row
                .abs_diff(first.row)
                .max(v.column.abs_diff(first.column))
                <= most
        }
        None => true,
    };
    let mut pins = vec![first];
    for _ in 0..random.between(1, 2) {
        let choices: Vec<usize> = (0..free.len()).filter(|at| near(&free[*at])).collect();
        pins.push(free.swap_remove(*random.pick(&choices)));
    }
    pins
}

#[cfg(test)]
mod tests {
    use super::*;
    use crate::reader::read;

    #[test]
    fn the_six_jobs_are_good() {
        let sizes = all().map(|(_, job)| {
            assert_eq!(read(&job.pack()).as_ref(), Ok(&job));
            (job.grid().vertices(), job.largest_min_length())
        });
        assert_eq!(
            sizes,
            [
                (16_384, 3),
                (16_384, 3),
                (16_200, 15),
                (256, 3),
                (16_200, 9),
                (16_200, 9)
            ]
        );
        let nets = all().map(|(_, job)| job.nets.len());
        assert_eq!(nets, [255, 255, 24, 10, 255, 255]);
    }
}
