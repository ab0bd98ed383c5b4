//! Random good jobs, of all shapes.
//!
//! Ends of ranges come up often: grids of one vertex and of 16,384, obstacles
//! that end at the grid's end, prices 1 and 1,023, closed penalties, M 1 and 15.
//! Jobs that are meant for routing are in `routable`, with nets that cross from
//! `crossing`, and, with most vertices, in `large`; those of the benchmark in
//! `benchmark`.

pub mod benchmark;
mod crossing;
pub mod large;
pub mod routable;

use crate::grid::{vertex, Grid, Vertex, MOST_COLUMNS, MOST_LAYERS, MOST_ROWS, MOST_VERTICES};
use crate::job::{GuideBox, Job, Layer, Net, Obstacle, CLOSED, MOST_BOXES, MOST_PINS};
use crate::random::Random;

/// One net in so many has one pin.
const ONE_PIN_EVERY: u32 = 6;

pub fn good_job(random: &mut Random) -> Job {
    let grid = grid(random);
    let obstacles = obstacles(&grid, random);
    let nets = nets(&grid, &obstacles, random);
    Job {
        guide_penalty: penalty(random),
        short_penalty: penalty(random),
        layers: layers(grid.layers, random),
        obstacles,
        nets,
        ..Job::on(&grid)
    }
}

fn grid(random: &mut Random) -> Grid {
    let layers = random.edgy(1, MOST_LAYERS);
    let columns = match random.between(0, 5) {
        0 => 1,
        1 => random.between(1, 4),
        2 | 3 => random.between(2, 20),
        _ => random.edgy(1, MOST_COLUMNS),
    };
    let most_rows = MOST_ROWS.min(MOST_VERTICES / (layers * columns));
    let rows = match random.between(0, 5) {
        0 => 1,
        1 => random.between(1, most_rows.min(4)),
        2 | 3 => random.between(1, most_rows.min(20)),
        _ => random.edgy(1, most_rows),
    };
    Grid {
        layers,
        rows,
        columns,
        direction: random.between(0, 1),
    }
}

fn penalty(random: &mut Random) -> u32 {
    random.edgy(0, CLOSED)
}

fn layers(count: u32, random: &mut Random) -> Vec<Layer> {
    let layer = |number| Layer {
        wire_price: random.edgy(1, 1023),
        via_price: if number + 1 == count {
            0
        } else {
            random.edgy(1, 1023)
        },
        min_length: random.edgy(1, 15),
        area_penalty: penalty(random),
    };
    (0..count).map(layer).collect()
}

fn any_vertex(grid: &Grid, random: &mut Random) -> Vertex {
    vertex(
        random.edgy(0, grid.layers - 1),
        random.edgy(0, grid.rows - 1),
        random.edgy(0, grid.columns - 1),
    )
}

fn obstacles(grid: &Grid, random: &mut Random) -> Vec<Obstacle> {
    let count = match random.between(0, 19) {
        0..=4 => 0,
        5..=11 => random.between(1, 4),
        12..=18 => random.between(5, 30),
        _ => random.between(31, 300),
    };
    some_obstacles(count, grid, random)
}

fn some_obstacles(count: u32, grid: &Grid, random: &mut Random) -> Vec<Obstacle> {
    let mut obstacles: Vec<Obstacle> = Vec::new();
    for _ in 0..count {
        let start = if !obstacles.is_empty() && random.one_in(4) {
            vertex_under(grid, &obstacles, random)
        } else {
            any_vertex(grid, random)
        };
        let longest = grid.track_left(start);
        let run = if random.one_in(3) {
            random.edgy(1, longest)
        } else {
            random.edgy(1, longest.min(6))
        };
        obstacles.push(Obstacle { start, run });
    }
    obstacles
}

/// A vertex that one of the obstacles covers.
pub fn vertex_under(grid: &Grid, obstacles: &[Obstacle], random: &mut Random) -> Vertex {
    let obstacle = random.pick(obstacles);
    grid.along(obstacle.start, random.edgy(0, obstacle.run - 1))
}

/// The vertices that no obstacle covers.
fn free_vertices(grid: &Grid, obstacles: &[Obstacle]) -> Vec<Vertex> {
    let mut covered = vec![false; grid.vertices() as usize];
    for obstacle in obstacles {
        for step in 0..obstacle.run {
            covered[grid.number(grid.along(obstacle.start, step))] = true;
        }
    }
    let free = |number: &u32| !covered[*number as usize];
    let numbers = (0..grid.vertices()).filter(free);
    numbers.map(|number| grid.numbered(number)).collect()
}

fn nets(grid: &Grid, obstacles: &[Obstacle], random: &mut Random) -> Vec<Net> {
    let count = match random.between(0, 39) {
        0..=3 => 0,
        4..=15 => 1,
        16..=35 => random.between(2, 6),
        36..=38 => random.between(7, 25),
        _ => random.between(26, 255),
    };
    let mut free = free_vertices(grid, obstacles);
    some_nets(count, MOST_PINS, &mut free, grid, random)
}

/// As many nets as the free vertices have room for; their pins are taken away.
fn some_nets(
    count: u32,
    most_pins: usize,
    free: &mut Vec<Vertex>,
    grid: &Grid,
    random: &mut Random,
) -> Vec<Net> {
    let mut nets = Vec::new();
    while nets.len() < count as usize && !free.is_empty() {
        let most = free.len().min(most_pins) as u32;
        let pins = if most == 1 || random.one_in(ONE_PIN_EVERY) {
            1
        } else {
            random.edgy(2, most)
        };
        let pins = (0..pins).map(|_| free.swap_remove(random.index(free.len())));
        let pins = pins.collect();
        let boxes = boxes(grid, random);
        nets.push(Net { pins, boxes });
    }
    nets
}

fn boxes(grid: &Grid, random: &mut Random) -> Vec<GuideBox> {
    let count = match random.between(0, 9) {
        0..=3 => 0,
        4..=7 => random.between(1, 3),
        _ => random.edgy(0, MOST_BOXES as u32),
    };
    (0..count).map(|_| guide_box(grid, random)).collect()
}

fn guide_box(grid: &Grid, random: &mut Random) -> GuideBox {
    let low = any_vertex(grid, random);
    let high = vertex(
        random.edgy(low.layer, grid.layers - 1),
        random.edgy(low.row, grid.rows - 1),
        random.edgy(low.column, grid.columns - 1),
    );
    GuideBox { low, high }
}

#[cfg(test)]
mod tests {
    use super::*;

    const JOBS: usize = 4_000;

    fn assert_some(jobs: &[Job], what: &str, has: impl Fn(&Job) -> bool) {
        assert!(jobs.iter().any(has), "no generated job has {what}");
    }

    fn two_obstacles_overlap(job: &Job) -> bool {
        let runs: u32 = job.obstacles.iter().map(|obstacle| obstacle.run).sum();
        let grid = job.grid();
        let free = free_vertices(&grid, &job.obstacles).len() as u32;
        runs > grid.vertices() - free
    }

    fn obstacle_of_several_rows(job: &Job) -> bool {
        let grid = job.grid();
        let several = |o: &Obstacle| o.run > 1 && !grid.step_changes_column(o.start.layer);
        job.obstacles.iter().any(several)
    }

    #[test]
    fn all_shapes_come_up() {
        let mut random = Random::new(7);
        let jobs: Vec<Job> = (0..JOBS).map(|_| good_job(&mut random)).collect();
        for layers in 1..=8 {
            for direction in 0..=1 {
                assert_some(&jobs, "these layers and this direction", |job| {
                    job.layers.len() == layers && job.direction == direction
                });
            }
        }
        assert_some(&jobs, "one vertex", |job| job.grid().vertices() == 1);
        assert_some(&jobs, "all vertices", |job| {
            job.grid().vertices() == MOST_VERTICES
        });
        assert_some(&jobs, "256 columns", |job| job.columns == MOST_COLUMNS);
        assert_some(&jobs, "256 rows", |job| job.rows == MOST_ROWS);
    }

    #[test]
    fn all_kinds_of_content_come_up() {
        let mut random = Random::new(8);
        let jobs: Vec<Job> = (0..JOBS).map(|_| good_job(&mut random)).collect();
        let nets: Vec<&Net> = jobs.iter().flat_map(|job| &job.nets).collect();
        for pins in 1..=MOST_PINS {
            assert!(nets.iter().any(|net| net.pins.len() == pins));
        }
        for boxes in 0..=MOST_BOXES {
            assert!(nets.iter().any(|net| net.boxes.len() == boxes));
        }
        assert_some(&jobs, "no nets", |job| job.nets.is_empty());
        assert_some(&jobs, "nets of one pin alone", |job| {
            job.nets.len() > 1 && job.one_pin_nets() == job.nets.len()
        });
        assert_some(&jobs, "many nets", |job| job.nets.len() > 200);
        assert_some(&jobs, "no obstacles", |job| job.obstacles.is_empty());
        assert_some(&jobs, "overlapping obstacles", two_obstacles_overlap);
        assert_some(&jobs, "an obstacle over rows", obstacle_of_several_rows);
        assert_some(&jobs, "a closed short", |job| job.short_penalty == CLOSED);
    }
}
