//! A good job of the largest size: every count at its highest.

use crate::grid::{vertex, Grid, Vertex};
use crate::job::{
    GuideBox, Job, Layer, Net, Obstacle, CLOSED, MOST_BOXES, MOST_NETS, MOST_OBSTACLES, MOST_PINS,
};
use crate::random::Random;

const GRID: Grid = Grid {
    layers: 8,
    rows: 32,
    columns: 64,
    direction: 1,
};

/// Obstacles lie below this layer and pins on it or above.
const PIN_LAYER: u32 = 6;

pub fn largest_job(random: &mut Random) -> Job {
    let mut obstacles = Vec::new();
    for _ in 0..MOST_OBSTACLES {
        obstacles.push(obstacle(random));
    }
    Job {
        guide_penalty: CLOSED,
        short_penalty: CLOSED,
        layers: (0..GRID.layers).map(layer).collect(),
        obstacles,
        nets: (0..MOST_NETS).map(net).collect(),
        ..Job::on(&GRID)
    }
}

fn layer(number: u32) -> Layer {
    Layer {
        wire_price: 1023,
        via_price: if number + 1 == GRID.layers { 0 } else { 1023 },
        min_length: 15,
        area_penalty: CLOSED,
    }
}

fn obstacle(random: &mut Random) -> Obstacle {
    let start = vertex(
        random.between(0, PIN_LAYER - 1),
        random.between(0, GRID.rows - 1),
        random.between(0, GRID.columns - 1),
    );
    let run = random.between(1, GRID.track_left(start));
    Obstacle { start, run }
}

/// Pins fill the free layers from their first vertex on.
fn pin(number: usize) -> Vertex {
    let first = GRID.number(vertex(PIN_LAYER, 0, 0));
    GRID.numbered((first + number) as u32)
}

fn net(number: usize) -> Net {
    let whole_grid = GuideBox {
        low: vertex(0, 0, 0),
        high: vertex(GRID.layers - 1, GRID.rows - 1, GRID.columns - 1),
    };
    let first = number * MOST_PINS;
    Net {
        pins: (first..first + MOST_PINS).map(pin).collect(),
        boxes: vec![whole_grid; MOST_BOXES],
    }
}
