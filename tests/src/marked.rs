//! The thirteen marked jobs, A to L and N, of "Routes by hand", in the specification's words.

pub mod by_hand;
pub mod costs;

use crate::grid::{vertex, Vertex};
use crate::job::{GuideBox, Job, Layer, Net, CLOSED, EDITION};

/// "Plain job: 8 columns, 4 rows, two layers, direction 0, wire 1, via 2, M 3,
/// area 50, guide 10, short 20."
pub fn plain(nets: &[&[Vertex]]) -> Job {
    let net = |pins: &&[Vertex]| Net {
        pins: pins.to_vec(),
        boxes: Vec::new(),
    };
    Job {
        edition: EDITION,
        direction: 0,
        columns: 8,
        rows: 4,
        guide_penalty: 10,
        short_penalty: 20,
        layers: plain_layers(2),
        obstacles: Vec::new(),
        nets: nets.iter().map(net).collect(),
    }
}

/// Layer lines of the plain job; the via price of the top layer is 0.
pub fn plain_layers(count: usize) -> Vec<Layer> {
    let mut layers = vec![
        Layer {
            wire_price: 1,
            via_price: 2,
            min_length: 3,
            area_penalty: 50,
        };
        count
    ];
    layers[count - 1].via_price = 0;
    layers
}

fn area_closed(mut job: Job) -> Job {
    for layer in &mut job.layers {
        layer.area_penalty = CLOSED;
    }
    job
}

pub fn a() -> Job {
    plain(&[&[vertex(0, 0, 0), vertex(0, 0, 3)]])
}

pub fn b() -> Job {
    plain(&[&[vertex(0, 0, 0), vertex(0, 1, 3)]])
}

pub fn c() -> Job {
    Job { rows: 2, ..b() }
}

pub fn d() -> Job {
    area_closed(c())
}

pub fn e() -> Job {
    Job {
        layers: plain_layers(3),
        ..plain(&[&[vertex(0, 0, 0), vertex(2, 0, 0)]])
    }
}

pub fn f() -> Job {
    Job { rows: 3, ..e() }
}

pub fn g() -> Job {
    area_closed(f())
}

pub fn h() -> Job {
    Job {
        layers: plain_layers(3),
        rows: 5,
        ..plain(&[&[vertex(0, 3, 3), vertex(2, 4, 3)]])
    }
}

pub fn i() -> Job {
    plain(&[&[vertex(0, 0, 0), vertex(0, 0, 3), vertex(0, 1, 1)]])
}

pub fn j() -> Job {
    let mut job = a();
    job.nets[0].boxes.push(GuideBox {
        low: vertex(0, 0, 0),
        high: vertex(0, 0, 2),
    });
    job
}

pub fn k() -> Job {
    let net_1 = [vertex(1, 0, 0), vertex(1, 2, 0)];
    let net_2 = [vertex(0, 1, 0), vertex(2, 1, 0)];
    Job {
        columns: 1,
        layers: plain_layers(3),
        ..plain(&[&net_1, &net_2])
    }
}

pub fn l() -> Job {
    Job {
        short_penalty: CLOSED,
        ..k()
    }
}

pub fn n() -> Job {
    let mut job = k();
    job.nets[1].boxes.push(GuideBox {
        low: vertex(0, 0, 0),
        high: vertex(0, 3, 0),
    });
    job
}

/// All thirteen, each with its letter.
pub fn all() -> [(char, Job); 13] {
    [
        ('A', a()),
        ('B', b()),
        ('C', c()),
        ('D', d()),
        ('E', e()),
        ('F', f()),
        ('G', g()),
        ('H', h()),
        ('I', i()),
        ('J', j()),
        ('K', k()),
        ('L', l()),
        ('N', n()),
    ]
}

#[cfg(test)]
mod tests {
    use super::*;
    use crate::reader::read;

    #[test]
    fn job_a_packs_to_the_bytes_of_the_specification() {
        let bytes = [
            0x11, 0x07, 0x03, 0x00, 0x0A, 0x00, 0x14, 0x01, 0x00, 0x00, 0x00, 0x40, 0x23, 0x00,
            0x32, 0x00, 0x40, 0x03, 0x00, 0x32, 0x10, 0x00, 0x00, 0x00, 0x00, 0x0C,
        ];
        assert_eq!(a().pack(), bytes);
    }

    #[test]
    fn every_marked_job_is_read_back() {
        for (letter, job) in all() {
            assert_eq!(read(&job.pack()), Ok(job), "job {letter}");
        }
    }
}
