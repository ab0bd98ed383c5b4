//! Damage with an aim: a good job breaks one rule, at a place chosen at random.
//!
//! Each function changes the job and gives the place that the refusal must
//! name, or None where the job has no such thing to break. Refusals 1, 2 and 11
//! are about the bytes, not the data; their functions give the changed bytes.

use crate::generate::vertex_under;
use crate::grid::{Grid, Vertex, MOST_COLUMNS, MOST_LAYERS, MOST_ROWS, MOST_VERTICES};
use crate::job::{GuideBox, Job, EDITION};
use crate::places::{MIN_LENGTH, VIA_PRICE, WIRE_PRICE};
use crate::random::Random;
use crate::reader::{Refusal, MOST_BYTES};

/// Bytes that must be refused so.
pub struct Aimed {
    pub bytes: Vec<u8>,
    pub refusal: Refusal,
}

/// The numbers of the rules about the job's data.
pub const DATA_RULES: [u64; 7] = [3, 4, 5, 6, 8, 9, 10];

/// All numbers that `aimed` aims at.
pub const RULES: [u64; 9] = [2, 3, 4, 5, 6, 8, 9, 10, 11];

/// A copy of the good job that breaks the rule of this number.
pub fn aimed(number: u64, good: &Job, random: &mut Random) -> Option<Aimed> {
    let (bytes, place) = match number {
        2 => cut_group(good, random),
        11 => spoil_tail(good, random),
        _ => {
            let mut job = good.clone();
            let place = break_rule(number, &mut job, random)?;
            (job.pack(), place)
        }
    };
    let refusal = Refusal { number, place };
    Some(Aimed { bytes, refusal })
}

/// Breaks a rule about the job's data.
pub fn break_rule(number: u64, job: &mut Job, random: &mut Random) -> Option<u64> {
    match number {
        3 => Some(other_edition(job, random)),
        4 => Some(too_many_vertices(job, random)),
        5 => Some(layer_line(job, random)),
        6 => obstacle_outside(job, random),
        8 => pin_outside_or_on_obstacle(job, random),
        9 => pin_on_earlier_pin(job, random),
        10 => guide_box(job, random),
        _ => panic!("refusal {number} is not about the job's data"),
    }
}

/// 1: the job's bytes at the front of a buffer that is over the limit.
pub fn too_long(good: &[u8], buffer: &mut Vec<u8>, random: &mut Random) -> Refusal {
    buffer.resize(MOST_BYTES + random.edgy(1, 1_000) as usize, 0);
    buffer[..good.len()].copy_from_slice(good);
    let (number, place) = (1, 0);
    Refusal { number, place }
}

/// 2: the bytes end within a chosen group.
fn cut_group(good: &Job, random: &mut Random) -> (Vec<u8>, u64) {
    let mut bytes = good.pack();
    let (place, width) = *random.pick(&good.groups());
    let fewest = place.div_ceil(8);
    let most = (place + width - 1) / 8;
    bytes.truncate(random.edgy(fewest as u32, most as u32) as usize);
    (bytes, place)
}

/// 3: any edition but 1.
fn other_edition(job: &mut Job, random: &mut Random) -> u64 {
    job.edition = (EDITION + random.between(1, 15)) % 16;
    0
}

/// 4: columns and rows grow until the vertices are too many, often by one line.
fn too_many_vertices(job: &mut Job, random: &mut Random) -> u64 {
    let layers = job.layers.len() as u32;
    let fewest_columns = MOST_VERTICES / (layers * MOST_ROWS) + 1;
    job.columns = random.edgy(job.columns.max(fewest_columns), MOST_COLUMNS);
    let fewest_rows = MOST_VERTICES / (layers * job.columns) + 1;
    job.rows = random.edgy(job.rows.max(fewest_rows), MOST_ROWS);
    8
}

/// 5: a price or length of a chosen layer.
fn layer_line(job: &mut Job, random: &mut Random) -> u64 {
    let number = random.index(job.layers.len());
    let top = number + 1 == job.layers.len();
    let place = job.layer_place(number);
    let layer = &mut job.layers[number];
    match random.between(0, 2) {
        0 => {
            layer.wire_price = 0;
            place + WIRE_PRICE
        }
        1 => {
            layer.via_price = if top { random.edgy(1, 1023) } else { 0 };
            place + VIA_PRICE
        }
        _ => {
            layer.min_length = 0;
            place + MIN_LENGTH
        }
    }
}

/// 6: a chosen obstacle starts outside or runs out of the grid.
fn obstacle_outside(job: &mut Job, random: &mut Random) -> Option<u64> {
    let grid = job.grid();
    if job.obstacles.is_empty() {
        return None;
    }
    let number = random.index(job.obstacles.len());
    let obstacle = &mut job.obstacles[number];
    let left = grid.track_left(obstacle.start);
    if left < 256 && random.one_in(2) {
        obstacle.run = random.edgy(left + 1, 256);
    } else {
        obstacle.start = outside(&grid, obstacle.start, random)?;
    }
    Some(job.obstacle_place(number))
}

/// The vertex with its layer, row or column moved past the grid's end, often by
/// one; None where the grid fills every field.
pub fn outside(grid: &Grid, inside: Vertex, random: &mut Random) -> Option<Vertex> {
    let mut choices = Vec::new();
    if grid.layers < MOST_LAYERS {
        let layer = random.edgy(grid.layers, MOST_LAYERS - 1);
        choices.push(Vertex { layer, ..inside });
    }
    if grid.rows < MOST_ROWS {
        let row = random.edgy(grid.rows, MOST_ROWS - 1);
        choices.push(Vertex { row, ..inside });
    }
    if grid.columns < MOST_COLUMNS {
        let column = random.edgy(grid.columns, MOST_COLUMNS - 1);
        choices.push(Vertex { column, ..inside });
    }
    (!choices.is_empty()).then(|| *random.pick(&choices))
}

/// Net and pin numbers of every pin, in reading order.
fn pins(job: &Job) -> Vec<(usize, usize)> {
    let mut pins = Vec::new();
    for (net, data) in job.nets.iter().enumerate() {
        pins.extend((0..data.pins.len()).map(|pin| (net, pin)));
    }
    pins
}

/// 8: a chosen pin goes outside or under an obstacle.
fn pin_outside_or_on_obstacle(job: &mut Job, random: &mut Random) -> Option<u64> {
    if job.nets.is_empty() {
        return None;
    }
    let grid = job.grid();
    let (net, pin) = *random.pick(&pins(job));
    let moved = if !job.obstacles.is_empty() && random.one_in(2) {
        vertex_under(&grid, &job.obstacles, random)
    } else {
        outside(&grid, job.nets[net].pins[pin], random)?
    };
    job.nets[net].pins[pin] = moved;
    Some(job.pin_place(net, pin))
}

/// 9: a chosen pin goes to an earlier pin, of its own net or another.
fn pin_on_earlier_pin(job: &mut Job, random: &mut Random) -> Option<u64> {
    let pins = pins(job);
    if pins.len() < 2 {
        return None;
    }
    let later = random.edgy(1, pins.len() as u32 - 1) as usize;
    let earlier = random.edgy(0, later as u32 - 1) as usize;
    let (net, pin) = pins[later];
    let (earlier_net, earlier_pin) = pins[earlier];
    job.nets[net].pins[pin] = job.nets[earlier_net].pins[earlier_pin];
    Some(job.pin_place(net, pin))
}

/// 10: a chosen box has an end outside, or its low above its high.
fn guide_box(job: &mut Job, random: &mut Random) -> Option<u64> {
    let grid = job.grid();
    let with_boxes: Vec<usize> = (0..job.nets.len())
        .filter(|net| !job.nets[*net].boxes.is_empty())
        .collect();
    if with_boxes.is_empty() {
        return None;
    }
    let net = *random.pick(&with_boxes);
    let number = random.index(job.nets[net].boxes.len());
    let place = job.box_place(net, number);
    let guide = &mut job.nets[net].boxes[number];
    match random.between(0, 4) {
        0 => guide.high = outside(&grid, guide.high, random)?,
        1 => guide.low = outside(&grid, guide.low, random)?,
        2 | 3 if guide.low != guide.high => *guide = crossed(*guide, random),
        _ => {
            guide.high = outside(&grid, guide.high, random)?;
            guide.low = guide.high;
        }
    }
    Some(place)
}

/// The box with low above high in one of layer, row and column.
fn crossed(guide: GuideBox, random: &mut Random) -> GuideBox {
    let GuideBox { low, high } = guide;
    let mut choices = vec![guide; 3];
    (choices[0].low.layer, choices[0].high.layer) = (high.layer, low.layer);
    (choices[1].low.row, choices[1].high.row) = (high.row, low.row);
    (choices[2].low.column, choices[2].high.column) = (high.column, low.column);
    choices.retain(|choice| *choice != guide);
    *random.pick(&choices)
}

/// 11: a tail bit is set, where there is one, or bytes follow.
fn spoil_tail(good: &Job, random: &mut Random) -> (Vec<u8>, u64) {
    let mut bytes = good.pack();
    let place = good.end_place();
    let tail_bits = bytes.len() as u32 * 8 - place as u32;
    if tail_bits > 0 && random.one_in(2) {
        let last = bytes.len() - 1;
        bytes[last] |= 1 << random.edgy(0, tail_bits - 1);
    } else {
        let byte = if random.one_in(2) { 0 } else { random.byte() };
        let longer = bytes.len() + random.edgy(1, 20) as usize;
        bytes.resize(longer, byte);
    }
    (bytes, place)
}
