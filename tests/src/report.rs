//! The second wire report: replay, and where it accepts, the plan's counts added to the
//! report.
//!
//! Replay comes first, whole. The counts are then made from the records themselves, walked
//! once more.

pub mod every_kind;

use std::convert::Infallible;

use crate::grid::MOST_LAYERS;
use crate::job::{Job, Layer};
use crate::joining::{join_nets, NetAtHand, Walk};
use crate::library::ReplayResult;
use crate::plan::{unpack, Join, Record};
use crate::reader::{read, Refusal};
use crate::replay::{refused, replay};
use crate::router::walk;
use crate::rules::board::Board;
use crate::rules::moves::Move;

/// What a host can call: job, plan, map, work and report.
pub type Report = fn(&[u8], &[u8], &mut [u16], &mut [u64], &mut [u64]) -> ReplayResult;

/// "In this order: wire steps, vias to the layer above passed either way, added steps,
/// penalised segments, guide and short entries."
#[derive(Clone, Copy, Debug, PartialEq, Eq)]
pub enum Kind {
    Steps,
    Vias,
    Added,
    Penalised,
    Guide,
    Short,
}

impl Kind {
    pub const ALL: [Kind; KINDS] = [
        Kind::Steps,
        Kind::Vias,
        Kind::Added,
        Kind::Penalised,
        Kind::Guide,
        Kind::Short,
    ];

    pub fn name(self) -> &'static str {
        match self {
            Kind::Steps => "wire steps",
            Kind::Vias => "vias",
            Kind::Added => "added steps",
            Kind::Penalised => "penalised segments",
            Kind::Guide => "guide entries",
            Kind::Short => "short entries",
        }
    }

    /// What one of it costs.
    fn price(self, job: &Job, layer: &Layer) -> u32 {
        match self {
            Kind::Steps | Kind::Added => layer.wire_price,
            Kind::Vias => layer.via_price,
            Kind::Penalised => layer.area_penalty,
            Kind::Guide => job.guide_penalty,
            Kind::Short => job.short_penalty,
        }
    }
}

/// How many kinds of counts a layer has.
pub const KINDS: usize = 6;

/// "Its 48 counts for eight layers."
pub const COUNTS: usize = KINDS * MOST_LAYERS as usize;

/// The place of 19 where the report is short.
pub const SHORT_REPORT: u64 = 8;

/// What a plan adds to a report.
#[derive(Clone, Debug, PartialEq, Eq)]
pub struct Counts(pub [u64; COUNTS]);

/// The call, with the counts of the specification.
pub fn report(
    job: &[u8],
    plan: &[u8],
    map: &mut [u16],
    work: &mut [u64],
    report: &mut [u64],
) -> ReplayResult {
    report_by(Counts::of, job, plan, map, work, report)
}

/// "Number 19 comes after replay's numbers. A plan that replay turns back adds nothing."
pub fn report_by(
    count: impl FnOnce(&Board, &[Record]) -> Counts,
    job: &[u8],
    plan: &[u8],
    map: &mut [u16],
    work: &mut [u64],
    report: &mut [u64],
) -> ReplayResult {
    let result = replay(job, plan, map, work);
    if result.refusal != 0 {
        return result;
    }
    let job = read(job).expect("replay has read it");
    let counts = count(&Board::new(&job), &unpack(&job, plan));
    match sums(report, &counts) {
        Ok(sums) => {
            report[..COUNTS].copy_from_slice(&sums);
            result
        }
        Err(refusal) => refused(refusal),
    }
}

/// "First with place 8 when the report lacks its 48 counts for eight layers, else, when a
/// plan would take a count past 2^64 − 1, with the lowest such layer as its place."
fn sums(report: &[u64], counts: &Counts) -> Result<[u64; COUNTS], Refusal> {
    let refusal = |place| Refusal { number: 19, place };
    let found = report.first_chunk().ok_or(refusal(SHORT_REPORT))?;
    let mut sums: [u64; COUNTS] = *found;
    for (index, sum) in sums.iter_mut().enumerate() {
        let layer = (index / KINDS) as u64;
        *sum = sum.checked_add(counts.0[index]).ok_or(refusal(layer))?;
    }
    Ok(sums)
}

/// "Counts times that job's prices." What the job has no layer for must be 0.
pub fn worth(job: &Job, counts: &[u64]) -> u64 {
    let (held, beyond) = counts.split_at(KINDS * job.layers.len());
    assert!(beyond.iter().all(|count| *count == 0), "no such layer");
    let layers = job.layers.iter().zip(held.chunks(KINDS));
    let worth = |(layer, counts): (&Layer, &[u64])| {
        let prices = Kind::ALL.map(|kind| u64::from(kind.price(job, layer)));
        let each = prices
            .iter()
            .zip(counts)
            .map(|(price, count)| price * count);
        each.sum::<u64>()
    };
    layers.map(worth).sum()
}

/// The counts of a kind over all layers.
pub fn of_kind(counts: &[u64], kind: Kind) -> u64 {
    counts.iter().skip(kind as usize).step_by(KINDS).sum()
}

impl Counts {
    /// The counts of records that replay accepts: of each join against what stands before it.
    pub fn of(board: &Board, records: &[Record]) -> Self {
        let mut counts = Counts([0; COUNTS]);
        let mut records = records.iter();
        let joined = join_nets(board, |net| {
            let join = records.next().and_then(Record::join);
            let walked = join.map(|join| {
                let walk = walk(board, net, join);
                counts.add_ways(board.job, join, &walk);
                counts.add_overheads(board.job, &walk);
                counts.add_entries(board.job, net, &walk);
                walk
            });
            Ok::<_, Infallible>(walked)
        });
        let Ok(_) = joined;
        counts
    }

    /// The number at this layer, of this kind.
    pub fn at(&mut self, layer: u32, kind: Kind) -> &mut u64 {
        &mut self.0[KINDS * layer as usize + kind as usize]
    }

    /// Wire steps by the layer of the step, vias by the lower of their two layers.
    fn add_ways(&mut self, job: &Job, join: &Join, walk: &Walk) {
        for (by, entered) in join.moves.iter().zip(walk.entered()) {
            let layer = layer(job, *entered);
            let count = match by {
                Move::Low | Move::High => self.at(layer, Kind::Steps),
                Move::Down => self.at(layer, Kind::Vias),
                Move::Up => self.at(layer - 1, Kind::Vias),
            };
            *count += 1;
        }
    }

    /// By the layer of the segment, which is the one that the via leaves.
    fn add_overheads(&mut self, job: &Job, walk: &Walk) {
        for extension in walk.extensions() {
            let layer = layer(job, extension.from.vertex);
            *self.at(layer, Kind::Added) += u64::from(extension.steps());
        }
        for last in walk.penalised() {
            *self.at(layer(job, *last), Kind::Penalised) += 1;
        }
    }

    /// "Guide and short entries (by the layer entered)", whatever the penalties are. What is
    /// outside the guide and taken is "a short entry only".
    fn add_entries(&mut self, job: &Job, net: &NetAtHand, walk: &Walk) {
        for entered in walk.entered() {
            let kind = if net.view.taken(*entered) {
                Kind::Short
            } else if net.view.outside(*entered) {
                Kind::Guide
            } else {
                continue;
            };
            *self.at(layer(job, *entered), kind) += 1;
        }
    }
}

fn layer(job: &Job, vertex: usize) -> u32 {
    job.grid().numbered(vertex as u32).layer
}
