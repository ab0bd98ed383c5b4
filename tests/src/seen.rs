//! How often each kind of case, and each thing of note in jobs, came up.

mod outside_and_taken;
mod reports;

use std::collections::BTreeMap;
use std::fmt;

use crate::guide::Axis;
use crate::job::{Job, CLOSED};
use crate::joining::Walk;
use crate::plan::Record;
use crate::router::{follow, Routed};
use crate::rules::board::Board;
use crate::rules::metal::SEVERAL;
use crate::rules::segment::Segment;
use crate::rules::step::Extension;

#[derive(Default)]
pub struct Seen {
    counts: BTreeMap<String, u64>,
}

impl Seen {
    pub fn note(&mut self, what: impl Into<String>, times: u64) {
        *self.counts.entry(what.into()).or_default() += times;
    }

    pub fn count(&self, what: &str) -> u64 {
        self.counts.get(what).copied().unwrap_or(0)
    }

    /// Fails where something came up less often than this.
    pub fn assert_often(&self, what: &str, least: u64) {
        let count = self.count(what);
        assert!(count >= least, "rare, {count} times: {what}");
    }

    /// What a job has of note: its grid, its longest M, its penalties, its nets.
    pub fn job(&mut self, job: &Job) {
        self.note(layers(job.layers.len()), 1);
        self.note(direction(job.direction), 1);
        self.note(longest(job.largest_min_length()), 1);
        let area = job.layers.iter().any(|layer| layer.area_penalty == CLOSED);
        let guide = job.guide_penalty == CLOSED;
        let short = job.short_penalty == CLOSED;
        self.note(closed(guide, short, area), 1);
        self.note("job: with obstacles", u64::from(!job.obstacles.is_empty()));
        self.note("job: several nets", u64::from(job.nets.len() > 1));
        for (index, net) in job.nets.iter().enumerate() {
            self.note(pins(net.pins.len()), 1);
            self.note("net: with boxes", u64::from(!net.boxes.is_empty()));
            if net.pins.len() == 1 {
                self.note(one_pin(index, job.nets.len()), 1);
                self.note(ONE_PIN_WITH_BOXES, u64::from(!net.boxes.is_empty()));
            }
        }
        let (one_pin, nets) = (job.one_pin_nets(), job.nets.len());
        self.note(ONE_PIN_EACH, u64::from(one_pin > 0 && one_pin == nets));
    }

    /// What a routed job has of note.
    pub fn routed(&mut self, board: &Board, routed: &Routed) {
        let moves = |record: &Record| record.join().map(|join| join.moves.len());
        let moves: Vec<usize> = routed.records.iter().filter_map(moves).collect();
        let joins = moves.len();
        let totals = &routed.joined.totals;
        let shared = routed.joined.map.contains(&SEVERAL);
        self.note("routed: jobs", 1);
        self.note("routed: joins", joins as u64);
        self.note("routed: moves", moves.iter().sum::<usize>() as u64);
        self.note("routed: none", (routed.records.len() - joins) as u64);
        self.note("routed: nets joined", totals.joined);
        self.note("routed: added steps", totals.added);
        self.note("routed: penalised segments", totals.penalties);
        self.note("routed: jobs with shorts", u64::from(shared));
        follow(board, &routed.records, |net, walk| {
            let Some(walk) = walk else { return };
            for extension in walk.extensions() {
                self.note(laid(extension), 1);
            }
            self.boxes(board.job, net.number(), walk);
        });
        self.outside_and_taken(board, &routed.records);
    }

    /// What each of a net's boxes says of each vertex that a walk enters.
    fn boxes(&mut self, job: &Job, net: u16, walk: &Walk) {
        let grid = job.grid();
        for number in walk.entered() {
            let at = grid.numbered(*number as u32);
            for guide in &job.nets[net as usize - 1].boxes {
                self.note(verdict(guide.outside_by(at)), 1);
            }
        }
    }

    /// Fails where an extension of some kind came up less often than this.
    pub fn assert_extensions(&self, least: u64) {
        LAID.iter().for_each(|what| self.assert_often(what, least));
    }

    /// Fails where some axis of a box said no, or none did, less often than this.
    pub fn assert_boxes(&self, least: u64) {
        VERDICTS
            .iter()
            .for_each(|what| self.assert_often(what, least));
    }

    /// Fails where a kind of net of one pin came up less often than this.
    pub fn assert_one_pin(&self, least: u64) {
        let more = [ONE_PIN_WITH_BOXES, ONE_PIN_EACH];
        let kinds = ONE_PIN.iter().chain(&more);
        kinds.for_each(|what| self.assert_often(what, least));
    }

    /// Fails where a kind of job that routing must be tried on came up less often
    /// than this: each number of layers and of pins, each longest M, both directions,
    /// and each penalty open and closed beside every other.
    pub fn assert_all_kinds(&self, least: u64) {
        (1..=8).for_each(|count| self.assert_often(&layers(count), least));
        (0..=1).for_each(|number| self.assert_often(&direction(number), least));
        (1..=15).for_each(|length| self.assert_often(&longest(length), least));
        (1..=16).for_each(|count| self.assert_often(&pins(count), least));
        for (guide, short, area) in (0..8).map(|n| (n & 1 == 0, n & 2 == 0, n & 4 == 0)) {
            self.assert_often(&closed(guide, short, area), least);
        }
        let more = [
            "job: with obstacles",
            "job: several nets",
            "net: with boxes",
            "routed: none",
            "routed: added steps",
            "routed: penalised segments",
            "routed: jobs with shorts",
        ];
        more.iter().for_each(|what| self.assert_often(what, least));
        self.assert_extensions(least);
        self.assert_boxes(least);
        self.assert_one_pin(least);
    }
}

/// What a box says of a vertex.
const VERDICTS: [&str; 4] = [
    "box: inside",
    "box: outside by the layer",
    "box: outside by the row",
    "box: outside by the column",
];

fn verdict(outside_by: Option<Axis>) -> &'static str {
    match outside_by {
        None => VERDICTS[0],
        Some(Axis::Layer) => VERDICTS[1],
        Some(Axis::Row) => VERDICTS[2],
        Some(Axis::Column) => VERDICTS[3],
    }
}

/// Where a net of one pin stands among the nets of its job.
const ONE_PIN: [&str; 4] = [
    "one pin: the only net",
    "one pin: the first net of several",
    "one pin: the last net of several",
    "one pin: a net between others",
];

const ONE_PIN_WITH_BOXES: &str = "one pin: with boxes";
const ONE_PIN_EACH: &str = "one pin: every net of the job";

fn one_pin(index: usize, nets: usize) -> &'static str {
    match (index == 0, index + 1 == nets) {
        (true, true) => ONE_PIN[0],
        (true, false) => ONE_PIN[1],
        (false, true) => ONE_PIN[2],
        (false, false) => ONE_PIN[3],
    }
}

/// The ends at which an extension is laid, of a running segment and of a fresh one.
const LAID: [&str; 6] = [
    "extension: running, leaving end",
    "extension: running, starting end",
    "extension: running, both ends",
    "extension: fresh, high",
    "extension: fresh, low",
    "extension: fresh, high and low",
];

fn laid(extension: &Extension) -> &'static str {
    let fresh = extension.from.segment == Segment::Fresh;
    let ends = match (extension.leaving, extension.starting) {
        (_, 0) => 0,
        (0, _) => 1,
        _ => 2,
    };
    LAID[usize::from(fresh) * 3 + ends]
}

fn layers(count: usize) -> String {
    format!("job: {count} layers")
}

fn direction(number: u32) -> String {
    format!("job: direction {number}")
}

fn longest(length: u32) -> String {
    format!("job: longest M {length:2}")
}

fn pins(count: usize) -> String {
    format!("net: {count:2} pins")
}

fn closed(guide: bool, short: bool, area: bool) -> String {
    let mut names = vec![("guide", guide), ("short", short), ("area", area)];
    names.retain(|(_, closed)| *closed);
    if names.is_empty() {
        names.push(("none", false));
    }
    let names: Vec<&str> = names.into_iter().map(|(name, _)| name).collect();
    format!("job: closed: {}", names.join(", "))
}

impl fmt::Display for Seen {
    fn fmt(&self, f: &mut fmt::Formatter) -> fmt::Result {
        for (what, count) in &self.counts {
            writeln!(f, "{count:9} {what}")?;
        }
        Ok(())
    }
}
