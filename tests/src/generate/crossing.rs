//! Nets that cross as those of job N do: the first along a track, the second between the layers
//! below and above it, with a guide that leaves the track out. The grid is narrow, so that there
//! is little room to go around.

use super::{free_vertices, some_nets};
use crate::grid::{vertex, Grid, Vertex};
use crate::job::{GuideBox, Net};
use crate::random::Random;

/// The grid and its nets, at times with a third net; there are no obstacles.
pub(super) fn crossing(most_layers: u32, random: &mut Random) -> (Grid, Vec<Net>) {
    let layers = if random.one_in(3) {
        random.edgy(3, most_layers)
    } else {
        random.between(3, 4)
    };
    let layer = random.between(1, layers - 2);
    let (grid, track) = grid(layer, layers, random);
    let at = grid.along(track, random.between(1, grid.track_left(track) - 2));
    let along = Net {
        pins: along(&grid, track, at, random),
        boxes: Vec::new(),
    };
    let stack = [layer - 1, layer + 1];
    let across = Net {
        pins: stack.map(|layer| Vertex { layer, ..at }).to_vec(),
        boxes: guide(&grid, stack, random),
    };
    let mut free = free_vertices(&grid, &[]);
    free.retain(|v| !along.pins.contains(v) && !across.pins.contains(v));
    let others = random.between(0, 1);
    let mut nets = some_nets(others, 2, &mut free, &grid, random);
    nets.splice(0..0, [along, across]);
    (grid, nets)
}

/// A grid of one or two long tracks on this layer, and the first vertex of one of them.
fn grid(layer: u32, layers: u32, random: &mut Random) -> (Grid, Vertex) {
    let (length, tracks) = (random.between(3, 4), random.between(1, 2));
    let aside = random.between(0, tracks - 1);
    let square = Grid {
        layers,
        rows: length,
        columns: length,
        direction: random.between(0, 1),
    };
    if square.step_changes_column(layer) {
        let rows = tracks;
        (Grid { rows, ..square }, vertex(layer, aside, 0))
    } else {
        let columns = tracks;
        (Grid { columns, ..square }, vertex(layer, 0, aside))
    }
}

/// A pin on the track at either side of the crossing.
fn along(grid: &Grid, track: Vertex, at: Vertex, random: &mut Random) -> Vec<Vertex> {
    let low = grid.track_left(track) - grid.track_left(at);
    let high = grid.track_left(at) - 1;
    vec![
        grid.along(track, random.between(0, low - 1)),
        grid.along(at, random.between(1, high)),
    ]
}

/// The first of two layers, often with the second.
fn guide(grid: &Grid, layers: [u32; 2], random: &mut Random) -> Vec<GuideBox> {
    let whole = |layer| GuideBox {
        low: vertex(layer, 0, 0),
        high: vertex(layer, grid.rows - 1, grid.columns - 1),
    };
    let mut boxes = layers.map(whole).to_vec();
    if random.one_in(4) {
        boxes.pop();
    }
    boxes
}

#[cfg(test)]
mod tests {
    use super::*;

    #[test]
    fn the_second_net_crosses_the_first_outside_its_guide() {
        let mut random = Random::new(14);
        for most_layers in (3..=8).cycle().take(2_000) {
            let (grid, nets) = crossing(most_layers, &mut random);
            let (along, across) = (&nets[0], &nets[1]);
            let layer = along.pins[0].layer;
            let at = Vertex {
                layer,
                ..across.pins[0]
            };
            let between = grid.track_left(along.pins[1]) + 1..grid.track_left(along.pins[0]);
            assert!(between.contains(&grid.track_left(at)));
            let stack = [layer - 1, layer + 1].map(|layer| Vertex { layer, ..at });
            assert_eq!(across.pins, stack);
            assert!(stack.iter().all(|pin| grid.holds(*pin)));
            let outside = |guide: &GuideBox| guide.outside_by(at).is_some();
            assert!(across.boxes.iter().all(outside));
        }
    }
}
