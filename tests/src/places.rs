//! Where the groups of a job stand, in bits, counted from its data.
//!
//! The second reader does not use this: it counts while it reads.

use crate::job::{Job, Net};

pub const HEAD: u64 = 80;
pub const LAYER_LINE: u64 = 40;
pub const OBSTACLE: u64 = 27;
pub const NET_HEAD: u64 = 8;
pub const PIN: u64 = 19;
pub const BOX: u64 = 38;

/// The fields of a layer line that have a rule, from the line's first bit.
pub const WIRE_PRICE: u64 = 0;
pub const VIA_PRICE: u64 = 10;
pub const MIN_LENGTH: u64 = 20;

impl Job {
    pub fn layer_place(&self, layer: usize) -> u64 {
        HEAD + LAYER_LINE * layer as u64
    }

    pub fn obstacle_place(&self, obstacle: usize) -> u64 {
        self.layer_place(self.layers.len()) + OBSTACLE * obstacle as u64
    }

    fn net_place(&self, net: usize) -> u64 {
        let before = &self.nets[..net];
        self.obstacle_place(self.obstacles.len()) + before.iter().map(net_bits).sum::<u64>()
    }

    pub fn pin_place(&self, net: usize, pin: usize) -> u64 {
        self.net_place(net) + NET_HEAD + PIN * pin as u64
    }

    pub fn box_place(&self, net: usize, guide: usize) -> u64 {
        self.pin_place(net, self.nets[net].pins.len()) + BOX * guide as u64
    }

    /// The bit after the last field.
    pub fn end_place(&self) -> u64 {
        self.net_place(self.nets.len())
    }

    /// First bit and width of every group, in reading order.
    pub fn groups(&self) -> Vec<(u64, u64)> {
        let mut widths = vec![HEAD];
        widths.extend(self.layers.iter().map(|_| LAYER_LINE));
        widths.extend(self.obstacles.iter().map(|_| OBSTACLE));
        for net in &self.nets {
            widths.push(NET_HEAD);
            widths.extend(net.pins.iter().map(|_| PIN));
            widths.extend(net.boxes.iter().map(|_| BOX));
        }
        let mut place = 0;
        let mut groups = Vec::with_capacity(widths.len());
        for width in widths {
            groups.push((place, width));
            place += width;
        }
        groups
    }
}

fn net_bits(net: &Net) -> u64 {
    NET_HEAD + PIN * net.pins.len() as u64 + BOX * net.boxes.len() as u64
}
