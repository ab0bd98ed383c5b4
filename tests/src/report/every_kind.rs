//! A small job and a plan that has every kind of count, reckoned by hand.

use super::{COUNTS, KINDS};
use crate::grid::{vertex, Vertex};
use crate::job::{GuideBox, Job, Net};
use crate::marked::{plain, plain_layers};
use crate::plan::Record;
use crate::rules::moves::Move::{Down, High, Low, Up};

/// Of layers 0, 1 and 2: wire steps, vias, added steps, penalised segments, guide entries and
/// short entries.
pub const LAYERS: [[u64; KINDS]; 3] = [[2, 3, 0, 0, 0, 0], [4, 1, 2, 1, 2, 1], [3, 0, 0, 0, 1, 0]];

/// Three layers with wires at 1, 3 and 5, vias at 2 and 7, area penalties of 50, 60 and 70. Net
/// 2 is inside its guide on layers 0 and 2 up to column 4, net 3 on layer 0 up to there.
pub fn job() -> Job {
    let mut job = plain(&[]);
    job.layers = plain_layers(3);
    for (layer, (wire, via, area)) in [(1, 2, 50), (3, 7, 60), (5, 0, 70)].iter().enumerate() {
        job.layers[layer].wire_price = *wire;
        job.layers[layer].via_price = *via;
        job.layers[layer].area_penalty = *area;
    }
    let below = (vertex(0, 0, 0), vertex(0, 3, 4));
    let above = (vertex(2, 0, 0), vertex(2, 3, 4));
    job.nets = vec![
        net(&[vertex(1, 0, 2), vertex(1, 3, 2)], &[]),
        net(&[vertex(0, 1, 0), vertex(2, 1, 5)], &[below, above]),
        net(&[vertex(0, 3, 4), vertex(0, 2, 4)], &[below]),
    ];
    job
}

/// A net with these pins, and boxes from one vertex to another.
pub fn net(pins: &[Vertex], boxes: &[(Vertex, Vertex)]) -> Net {
    let guide = |(low, high): &(Vertex, Vertex)| GuideBox {
        low: *low,
        high: *high,
    };
    Net {
        pins: pins.to_vec(),
        boxes: boxes.iter().map(guide).collect(),
    }
}

/// Net 1 steps along layer 1. Net 2 crosses it: the vertex that it enters there is taken and
/// outside, which is a short entry only, and the fresh segment has no room between net 1's wires;
/// the pin that it ends at is outside too. Net 3 walks outside, on layer 1: its segment of one
/// step is lengthened by two.
pub fn plan() -> Vec<Record> {
    let net_2 = [High, High, Up, Up, High, High, High];
    let cost_2 = (1 + 1) + (2 + 20) + (7 + 60) + (5 + 5) + (5 + 10);
    let cost_3 = (2 + 10) + (3 + 10) + (2 + 6);
    vec![
        Record::of(vertex(1, 0, 2), &[High, High, High], 9),
        Record::of(vertex(0, 1, 0), &net_2, cost_2),
        Record::of(vertex(0, 3, 4), &[Up, Low, Down], cost_3),
    ]
}

/// The 48 counts of layers from 0 on; the others have none.
pub fn counts(layers: &[[u64; KINDS]]) -> [u64; COUNTS] {
    let mut counts = [0; COUNTS];
    counts[..KINDS * layers.len()].copy_from_slice(layers.as_flattened());
    counts
}
