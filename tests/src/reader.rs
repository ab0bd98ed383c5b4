//! The second reader: a job's bytes to its data, or the first broken rule.
//!
//! Groups are read in the specification's order. A group that is not whole is
//! refused by 2 before its rules are tried; then its rules come in the order of
//! the specification's table.

use crate::bits::BitReader;
use crate::grid::{vertex, Grid, Vertex, MOST_VERTICES};
use crate::job::{GuideBox, Job, Layer, Net, Obstacle, EDITION};

/// Bytes that a job may have at most.
pub const MOST_BYTES: usize = 262_144;

/// "Number 7 is retired."
pub const RETIRED: usize = 7;

/// A refusal from 1 to 11 and the bit position that it names.
#[derive(Clone, Copy, Debug, PartialEq, Eq)]
pub struct Refusal {
    pub number: u64,
    pub place: u64,
}

/// The head's counts, and its job with no lines read yet.
struct Head {
    job: Job,
    layers: u32,
    obstacles: u32,
    nets: u32,
}

/// What stands on the grid so far, by vertex.
struct Occupied {
    grid: Grid,
    obstacle: Vec<bool>,
    pin: Vec<bool>,
}

pub fn read(bytes: &[u8]) -> Result<Job, Refusal> {
    if bytes.len() > MOST_BYTES {
        return refuse(1, 0);
    }
    let mut bits = BitReader::new(bytes);
    let head = read_head(&mut bits)?;
    let mut job = head.job;
    for layer in 0..head.layers {
        let top = layer + 1 == head.layers;
        job.layers.push(read_layer(&mut bits, top)?);
    }
    let mut occupied = Occupied::bare(job.grid());
    for _ in 0..head.obstacles {
        job.obstacles.push(read_obstacle(&mut bits, &mut occupied)?);
    }
    for _ in 0..head.nets {
        job.nets.push(read_net(&mut bits, &mut occupied)?);
    }
    read_tail(&mut bits)?;
    Ok(job)
}

impl Occupied {
    fn bare(grid: Grid) -> Self {
        let bare = vec![false; grid.vertices() as usize];
        Occupied {
            grid,
            obstacle: bare.clone(),
            pin: bare,
        }
    }
}

fn refuse<T>(number: u64, place: u64) -> Result<T, Refusal> {
    Err(Refusal { number, place })
}

/// The first bit of a group that is whole.
fn whole(bits: &BitReader, width: usize) -> Result<u64, Refusal> {
    if bits.left() < width {
        return refuse(2, bits.position());
    }
    Ok(bits.position())
}

fn read_head(bits: &mut BitReader) -> Result<Head, Refusal> {
    whole(bits, 80)?;
    let edition = bits.take(4);
    let direction = bits.take(1);
    let layers = bits.take(3) + 1;
    let job = Job {
        edition,
        direction,
        columns: bits.take(8) + 1,
        rows: bits.take(8) + 1,
        guide_penalty: bits.take(16),
        short_penalty: bits.take(16),
        layers: Vec::new(),
        obstacles: Vec::new(),
        nets: Vec::new(),
    };
    let nets = bits.take(8);
    let obstacles = bits.take(16);
    if job.edition != EDITION {
        return refuse(3, 0);
    }
    if layers * job.rows * job.columns > MOST_VERTICES {
        return refuse(4, 8);
    }
    Ok(Head {
        job,
        layers,
        obstacles,
        nets,
    })
}

fn read_layer(bits: &mut BitReader, top: bool) -> Result<Layer, Refusal> {
    let wire_place = whole(bits, 40)?;
    let wire_price = bits.take(10);
    let via_place = bits.position();
    let via_price = bits.take(10);
    let min_length_place = bits.position();
    let min_length = bits.take(4);
    let area_penalty = bits.take(16);
    if wire_price == 0 {
        return refuse(5, wire_place);
    }
    if (via_price == 0) != top {
        return refuse(5, via_place);
    }
    if min_length == 0 {
        return refuse(5, min_length_place);
    }
    Ok(Layer {
        wire_price,
        via_price,
        min_length,
        area_penalty,
    })
}

pub fn read_vertex(bits: &mut BitReader) -> Vertex {
    let layer = bits.take(3);
    let row = bits.take(8);
    let column = bits.take(8);
    vertex(layer, row, column)
}

fn read_obstacle(bits: &mut BitReader, occupied: &mut Occupied) -> Result<Obstacle, Refusal> {
    let place = whole(bits, 27)?;
    let start = read_vertex(bits);
    let run = bits.take(8) + 1;
    for step in 0..run {
        let covered = occupied.grid.along(start, step);
        if !occupied.grid.holds(covered) {
            return refuse(6, place);
        }
        occupied.obstacle[occupied.grid.number(covered)] = true;
    }
    Ok(Obstacle { start, run })
}

fn read_net(bits: &mut BitReader, occupied: &mut Occupied) -> Result<Net, Refusal> {
    whole(bits, 8)?;
    let pins = bits.take(4) + 1;
    let boxes = bits.take(4);
    let mut net = Net {
        pins: Vec::new(),
        boxes: Vec::new(),
    };
    for _ in 0..pins {
        net.pins.push(read_pin(bits, occupied)?);
    }
    for _ in 0..boxes {
        net.boxes.push(read_box(bits, &occupied.grid)?);
    }
    Ok(net)
}

fn read_pin(bits: &mut BitReader, occupied: &mut Occupied) -> Result<Vertex, Refusal> {
    let place = whole(bits, 19)?;
    let pin = read_vertex(bits);
    if !occupied.grid.holds(pin) || occupied.obstacle[occupied.grid.number(pin)] {
        return refuse(8, place);
    }
    if occupied.pin[occupied.grid.number(pin)] {
        return refuse(9, place);
    }
    occupied.pin[occupied.grid.number(pin)] = true;
    Ok(pin)
}

fn read_box(bits: &mut BitReader, grid: &Grid) -> Result<GuideBox, Refusal> {
    let place = whole(bits, 38)?;
    let layers = (bits.take(3), bits.take(3));
    let rows = (bits.take(8), bits.take(8));
    let columns = (bits.take(8), bits.take(8));
    let low = vertex(layers.0, rows.0, columns.0);
    let high = vertex(layers.1, rows.1, columns.1);
    if low.layer > high.layer || low.row > high.row || low.column > high.column {
        return refuse(10, place);
    }
    if !grid.holds(low) || !grid.holds(high) {
        return refuse(10, place);
    }
    Ok(GuideBox { low, high })
}

/// "Zero bits fill the last byte and nothing follows."
fn read_tail(bits: &mut BitReader) -> Result<(), Refusal> {
    let place = bits.position();
    if bits.left() >= 8 {
        return refuse(11, place);
    }
    if bits.take(bits.left()) != 0 {
        return refuse(11, place);
    }
    Ok(())
}
