//! What the program is run on: jobs within its limits, at them and past them, bad
//! jobs, and bytes that are no job.

use super::{within_limits, INPUT_BYTES, MIN_LENGTH};
use crate::damage::{aimed, blind};
use crate::generate::benchmark;
use crate::generate::routable::{routable_job, Size};
use crate::grid::{vertex, Vertex};
use crate::job::{GuideBox, Job, Obstacle};
use crate::largest::largest_job;
use crate::marked;
use crate::random::Random;

/// Bytes for standard input, and what they are.
pub struct Input {
    pub kind: String,
    pub bytes: Vec<u8>,
}

impl Input {
    fn of(kind: impl Into<String>, bytes: Vec<u8>) -> Self {
        Input {
            kind: kind.into(),
            bytes,
        }
    }
}

/// Generated jobs within the limits, each good, with one rule broken, and with
/// damage that has no aim.
pub fn generated(jobs: u32, seed: u64) -> Vec<Input> {
    let random = &mut Random::new(seed);
    let mut inputs = Vec::new();
    for _ in 0..jobs {
        let job = job_within_limits(random);
        inputs.push(Input::of("generated", job.pack()));
        let number = *random.pick(&aimed::RULES);
        if let Some(bad) = aimed::aimed(number, &job, random) {
            inputs.push(Input::of(format!("rule {number} broken"), bad.bytes));
        }
        let mut flipped = job.pack();
        blind::flip_bits(&mut flipped, random);
        inputs.push(Input::of("bits flipped", flipped));
    }
    inputs
}

fn job_within_limits(random: &mut Random) -> Job {
    loop {
        let size = *random.pick(&[Size::Tiny, Size::Small]);
        let job = routable_job(size, random);
        if within_limits(&job) {
            return job;
        }
    }
}

/// The marked jobs, and each limit with the first thing past it.
pub fn edges() -> Vec<Input> {
    let mut inputs = Vec::new();
    for (letter, job) in marked::all() {
        inputs.push(Input::of(format!("marked {letter}"), job.pack()));
    }
    inputs.push(Input::of("no bytes", Vec::new()));
    inputs.push(Input::of("one byte", vec![0x11]));
    inputs.push(Input::of("no nets", marked::plain(&[]).pack()));
    inputs.push(Input::of("nets of one pin", nets_of_one_pin().pack()));
    inputs.push(Input::of("256 vertices", benchmark::small_grid().pack()));
    for (rows, columns) in [(8, 16), (16, 8), (128, 1), (129, 1), (9, 15), (3, 43)] {
        let job = Job {
            rows,
            columns,
            ..marked::plain(&[&pins_at_the_ends(rows, columns)])
        };
        inputs.push(Input::of(format!("2 by {rows} by {columns}"), job.pack()));
    }
    for min_length in [MIN_LENGTH, MIN_LENGTH + 1, 15] {
        let mut job = marked::b();
        job.layers[1].min_length = min_length;
        inputs.push(Input::of(format!("M {min_length}"), job.pack()));
    }
    inputs.extend(past_limits_and_refused());
    inputs.extend(long_inputs());
    inputs
}

fn nets_of_one_pin() -> Job {
    marked::plain(&[&[vertex(0, 0, 0)], &[vertex(1, 3, 7)]])
}

fn pins_at_the_ends(rows: u32, columns: u32) -> [Vertex; 2] {
    [vertex(0, 0, 0), vertex(1, rows - 1, columns - 1)]
}

/// "A refused job is refused even past the limits."
fn past_limits_and_refused() -> Vec<Input> {
    let random = &mut Random::new(5);
    let mut large = Job {
        rows: 40,
        columns: 40,
        ..marked::j()
    };
    large.layers[0].min_length = 15;
    large.obstacles.push(Obstacle {
        start: vertex(1, 3, 3),
        run: 2,
    });
    let mut inputs = vec![Input::of("large", large.pack())];
    for number in aimed::RULES {
        let bad = aimed::aimed(number, &large, random).expect("all can be broken");
        let kind = format!("large, rule {number} broken");
        inputs.push(Input::of(kind, bad.bytes));
    }
    inputs
}

/// Around 65,536 bytes, and over the 262,144 of rule 1.
fn long_inputs() -> Vec<Input> {
    let mut inputs = Vec::new();
    for bytes in [INPUT_BYTES - 1, INPUT_BYTES, INPUT_BYTES + 1] {
        let good = good_job_of_bytes(bytes);
        inputs.push(Input::of(format!("good job of {bytes} bytes"), good));
        inputs.push(Input::of(format!("{bytes} zeros"), vec![0; bytes]));
        let mut longer = marked::a().pack();
        longer.resize(bytes, 0);
        inputs.push(Input::of(format!("A with zeros, {bytes} bytes"), longer));
    }
    let largest = largest_job(&mut Random::new(1)).pack();
    inputs.push(Input::of("largest job", largest));
    inputs.push(Input::of("300,000 zeros", vec![0; 300_000]));
    inputs
}

/// Job A with obstacles on its last vertex, one over another, and boxes around it
/// until it has so many bytes.
fn good_job_of_bytes(bytes: usize) -> Vec<u8> {
    let (box_bits, obstacle_bits) = (38, 27);
    let mut job = marked::a();
    let bits = 80 + 2 * 40 + 8 + 2 * 19;
    let fits = |boxes: &usize| (8 * bytes - bits - box_bits * boxes) % obstacle_bits < 8;
    let boxes = (0..15).find(fits).expect("some count fits");
    let obstacles = (8 * bytes - bits - box_bits * boxes) / obstacle_bits;
    let all = GuideBox {
        low: vertex(0, 0, 0),
        high: vertex(1, 3, 7),
    };
    job.nets[0].boxes = vec![all; boxes];
    job.obstacles = vec![
        Obstacle {
            start: vertex(1, 3, 7),
            run: 1,
        };
        obstacles
    ];
    let packed = job.pack();
    assert_eq!(packed.len(), bytes);
    packed
}
