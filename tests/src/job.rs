//! A job as data, and its bytes.
//!
//! Nothing is judged here: a job that breaks a rule packs like any other, as
//! long as its numbers fit their fields.

use crate::bits::BitWriter;
use crate::grid::{Grid, Vertex};

/// The edition that the specification describes.
pub const EDITION: u32 = 1;

/// The closed price, which forbids what it prices.
pub const CLOSED: u32 = 65_535;

/// What the counts of a job can say at most.
pub const MOST_NETS: usize = 255;
pub const MOST_OBSTACLES: usize = 65_535;
pub const MOST_PINS: usize = 16;
pub const MOST_BOXES: usize = 15;

#[derive(Clone, Copy, Debug, PartialEq, Eq)]
pub struct Layer {
    pub wire_price: u32,
    pub via_price: u32,
    pub min_length: u32,
    pub area_penalty: u32,
}

/// Runs high along its track, `run` vertices long.
#[derive(Clone, Copy, Debug, PartialEq, Eq)]
pub struct Obstacle {
    pub start: Vertex,
    pub run: u32,
}

/// A box of the net's guide; both ends are inside.
#[derive(Clone, Copy, Debug, PartialEq, Eq)]
pub struct GuideBox {
    pub low: Vertex,
    pub high: Vertex,
}

#[derive(Clone, Debug, PartialEq, Eq)]
pub struct Net {
    pub pins: Vec<Vertex>,
    pub boxes: Vec<GuideBox>,
}

#[derive(Clone, Debug, PartialEq, Eq)]
pub struct Job {
    pub edition: u32,
    pub direction: u32,
    pub columns: u32,
    pub rows: u32,
    pub guide_penalty: u32,
    pub short_penalty: u32,
    pub layers: Vec<Layer>,
    pub obstacles: Vec<Obstacle>,
    pub nets: Vec<Net>,
}

impl Job {
    /// A job on a grid, without layers, prices, obstacles and nets.
    pub fn on(grid: &Grid) -> Self {
        Job {
            edition: EDITION,
            direction: grid.direction,
            columns: grid.columns,
            rows: grid.rows,
            guide_penalty: 0,
            short_penalty: 0,
            layers: Vec::new(),
            obstacles: Vec::new(),
            nets: Vec::new(),
        }
    }

    pub fn grid(&self) -> Grid {
        Grid {
            layers: self.layers.len() as u32,
            rows: self.rows,
            columns: self.columns,
            direction: self.direction,
        }
    }

    /// How many nets have one pin, which is none to join.
    pub fn one_pin_nets(&self) -> usize {
        self.nets.iter().filter(|net| net.pins.len() == 1).count()
    }

    pub fn largest_min_length(&self) -> u32 {
        let lengths = self.layers.iter().map(|layer| layer.min_length);
        lengths.max().expect("a job has a layer")
    }

    pub fn pack(&self) -> Vec<u8> {
        let mut bits = BitWriter::default();
        self.put_head(&mut bits);
        for layer in &self.layers {
            put_layer(&mut bits, layer);
        }
        for obstacle in &self.obstacles {
            put_vertex(&mut bits, obstacle.start);
            bits.put(obstacle.run - 1, 8);
        }
        for net in &self.nets {
            put_net(&mut bits, net);
        }
        bits.into_bytes()
    }

    fn put_head(&self, bits: &mut BitWriter) {
        bits.put(self.edition, 4);
        bits.put(self.direction, 1);
        bits.put(self.layers.len() as u32 - 1, 3);
        bits.put(self.columns - 1, 8);
        bits.put(self.rows - 1, 8);
        bits.put(self.guide_penalty, 16);
        bits.put(self.short_penalty, 16);
        bits.put(self.nets.len() as u32, 8);
        bits.put(self.obstacles.len() as u32, 16);
    }
}

fn put_layer(bits: &mut BitWriter, layer: &Layer) {
    bits.put(layer.wire_price, 10);
    bits.put(layer.via_price, 10);
    bits.put(layer.min_length, 4);
    bits.put(layer.area_penalty, 16);
}

fn put_net(bits: &mut BitWriter, net: &Net) {
    bits.put(net.pins.len() as u32 - 1, 4);
    bits.put(net.boxes.len() as u32, 4);
    for pin in &net.pins {
        put_vertex(bits, *pin);
    }
    for guide in &net.boxes {
        put_box(bits, guide);
    }
}

pub fn put_vertex(bits: &mut BitWriter, v: Vertex) {
    bits.put(v.layer, 3);
    bits.put(v.row, 8);
    bits.put(v.column, 8);
}

fn put_box(bits: &mut BitWriter, guide: &GuideBox) {
    bits.put(guide.low.layer, 3);
    bits.put(guide.high.layer, 3);
    bits.put(guide.low.row, 8);
    bits.put(guide.high.row, 8);
    bits.put(guide.low.column, 8);
    bits.put(guide.high.column, 8);
}
