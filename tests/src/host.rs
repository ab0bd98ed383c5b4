//! The second host: a job's bytes to what `examples/host` writes.

use std::fmt::Write;

use crate::grid::vertex;
use crate::job::Job;
use crate::marked::{plain, plain_layers};
use crate::plan::pack;
use crate::reader::{read, Refusal};
use crate::router::route;
use crate::rules::board::Board;
use crate::rules::metal::{BARE, OBSTACLE, SEVERAL};

/// Totals and map of a good job, or its refusal.
pub fn written(job: &[u8]) -> Result<String, Refusal> {
    let job = read(job)?;
    let board = Board::new(&job);
    let routed = route(&board);
    let totals = routed.joined.totals;
    let numbers = [
        ("vertices", board.vertices() as u64),
        ("work numbers", board.work_need() as u64),
        ("plan bytes", pack(&routed.records).len() as u64),
        ("cost", totals.cost),
        ("added steps", totals.added),
        ("penalised segments", totals.penalties),
        ("nets fully joined", totals.joined),
    ];
    let mut text = String::new();
    for (name, number) in numbers {
        writeln!(text, "{name} {number}").expect("a string");
    }
    let (rows, columns) = (job.rows as usize, job.columns as usize);
    for (layer, codes) in routed.joined.map.chunks(rows * columns).enumerate() {
        writeln!(text, "layer {layer}").expect("a string");
        text.extend(codes.chunks(columns).map(row));
    }
    Ok(text)
}

/// A job whose nets all run along the one row of the top layer, since each other's pins
/// are in their way below: its plan is longer than the host's guess.
pub fn crowded() -> Job {
    let (nets, columns) = (40, 256);
    let pins = |net| [vertex(0, 0, net), vertex(0, 0, columns - 1 - net)];
    let pins: Vec<_> = (0..nets).map(pins).collect();
    let pins: Vec<_> = pins.iter().map(|pins| &pins[..]).collect();
    Job {
        rows: 1,
        columns,
        short_penalty: 0,
        layers: plain_layers(3),
        ..plain(&pins)
    }
}

/// The bytes that a plan of a job has at most, by the header.
pub fn most_plan_bytes(job: &Job) -> usize {
    let joins: usize = job.nets.iter().map(|net| net.pins.len() - 1).sum();
    let work = Board::new(job).work_need();
    (joins * (work + 78)).div_ceil(8)
}

fn row(codes: &[u16]) -> String {
    let signs = codes.iter().map(|code| format!("{:>4}", sign(*code)));
    signs.collect::<String>() + "\n"
}

fn sign(code: u16) -> String {
    match code {
        BARE => ".".to_string(),
        SEVERAL => "*".to_string(),
        OBSTACLE => "#".to_string(),
        net => net.to_string(),
    }
}
