//! What came up in wire reports: the counts of accepted plans, and how reports were answered.

use super::Seen;
use crate::grid::MOST_LAYERS;
use crate::job::Job;
use crate::library::ReplayResult;
use crate::plan::Record;
use crate::report::{of_kind, Kind, COUNTS, KINDS, SHORT_REPORT};
use crate::rules::moves::Move;

const VIA_DOWN: &str = "report: vias passed down";
const VIA_UP: &str = "report: vias passed up";
const FREE_GUIDE: &str = "report: guide entries at penalty 0";
const FREE_SHORT: &str = "report: short entries at penalty 0";
const NO_RECORD: &str = "report: records of none";

/// How a report was answered.
const ACCEPTED: &str = "report: accepted";
const FILLED: &str = "report: accepted, a count then at 2^64 - 1";
const LONGER: &str = "report: accepted, longer than its counts";
const FULL_BEFORE: &str = "report: accepted, 2^64 - 1 where nothing is added";
const TURNED_BACK: &str = "report: turned back by replay";
const TURNED_BACK_SHORT: &str = "report: turned back by replay, report short";
const EMPTY: &str = "report: 19, report of 0";
const ONE_SHORT: &str = "report: 19, report of 47";
const BETWEEN: &str = "report: 19, report of 1 to 46";
const SHORT_AND_OVER: &str = "report: 19, report short and a count past 2^64 - 1";
const SEVERAL_LAYERS: &str = "report: 19, counts of several layers";
const LOWER_FITS: &str = "report: 19, counts of a lower layer fit";

impl Seen {
    /// What an accepted plan adds: how often each kind at each layer, and more of note.
    pub fn counted(&mut self, job: &Job, records: &[Record], counts: &[u64]) {
        for (layer, counts) in counts.chunks(KINDS).enumerate() {
            for (kind, count) in Kind::ALL.into_iter().zip(counts) {
                self.note(kind_at(layer, kind), *count);
            }
        }
        if job.guide_penalty == 0 {
            self.note(FREE_GUIDE, of_kind(counts, Kind::Guide));
        }
        if job.short_penalty == 0 {
            self.note(FREE_SHORT, of_kind(counts, Kind::Short));
        }
        for record in records {
            let Some(join) = record.join() else {
                self.note(NO_RECORD, 1);
                continue;
            };
            let passed = |by: Move| join.moves.iter().filter(|made| **made == by).count();
            self.note(VIA_DOWN, passed(Move::Down) as u64);
            self.note(VIA_UP, passed(Move::Up) as u64);
        }
    }

    /// How a report was answered where replay answers so and the plan has these counts.
    pub fn reported(
        &mut self,
        replayed: &ReplayResult,
        answer: &ReplayResult,
        found: &[u64],
        counts: &[u64],
    ) {
        let short = found.len() < COUNTS;
        if replayed.refusal != 0 {
            assert_eq!(answer, replayed, "replay's numbers come first");
            self.note(TURNED_BACK, 1);
            self.note(TURNED_BACK_SHORT, u64::from(short));
        } else if short {
            assert_eq!((answer.refusal, answer.place), (19, SHORT_REPORT));
            self.note(short_by(found.len()), 1);
            self.note(SHORT_AND_OVER, u64::from(!over(found, counts).is_empty()));
        } else if answer.refusal == 0 {
            self.accepted(found, counts);
        } else {
            self.passed(answer.place as usize, &over(found, counts), counts);
        }
    }

    fn accepted(&mut self, found: &[u64], counts: &[u64]) {
        let mut numbers = found.iter().zip(counts);
        let filled = numbers.any(|(found, count)| *count > 0 && found + count == u64::MAX);
        self.note(ACCEPTED, 1);
        self.note(FILLED, u64::from(filled));
        self.note(FULL_BEFORE, u64::from(found[..COUNTS].contains(&u64::MAX)));
        self.note(LONGER, u64::from(found.len() > COUNTS));
    }

    /// 19 at this layer, by the counts at these places.
    fn passed(&mut self, layer: usize, over: &[usize], counts: &[u64]) {
        let (lowest, highest) = (over[0] / KINDS, over[over.len() - 1] / KINDS);
        assert_eq!(layer, lowest, "the lowest layer is named");
        self.note(over_at(layer), 1);
        for place in over {
            self.note(over_by(Kind::ALL[place % KINDS]), 1);
        }
        self.note(SEVERAL_LAYERS, u64::from(lowest < highest));
        let fits = counts[..KINDS * layer].iter().any(|count| *count > 0);
        self.note(LOWER_FITS, u64::from(fits));
    }

    /// Fails where something of wire reports came up less often than this. Nothing is above
    /// the highest layer, so it has no vias.
    pub fn assert_reports(&self, least: u64) {
        let layers = MOST_LAYERS as usize;
        for layer in 0..layers {
            for kind in Kind::ALL {
                if layer + 1 < layers || kind != Kind::Vias {
                    self.assert_often(&kind_at(layer, kind), least);
                }
            }
            self.assert_often(&over_at(layer), least);
        }
        for kind in Kind::ALL {
            self.assert_often(&over_by(kind), least);
        }
        let counted = [VIA_DOWN, VIA_UP, FREE_GUIDE, FREE_SHORT, NO_RECORD];
        let accepted = [ACCEPTED, FILLED, FULL_BEFORE, LONGER];
        let turned_back = [TURNED_BACK, TURNED_BACK_SHORT];
        let short = [EMPTY, ONE_SHORT, BETWEEN, SHORT_AND_OVER];
        let over = [SEVERAL_LAYERS, LOWER_FITS];
        let all = counted.iter().chain(&accepted).chain(&turned_back);
        all.chain(&short)
            .chain(&over)
            .for_each(|what| self.assert_often(what, least));
    }
}

fn kind_at(layer: usize, kind: Kind) -> String {
    format!("report: layer {layer}, {}", kind.name())
}

fn short_by(length: usize) -> &'static str {
    match length {
        0 => EMPTY,
        47 => ONE_SHORT,
        _ => BETWEEN,
    }
}

fn over_at(layer: usize) -> String {
    format!("report: 19 at layer {layer}")
}

fn over_by(kind: Kind) -> String {
    format!("report: 19 by {}", kind.name())
}

/// The places at which a report holds too much for these counts.
fn over(found: &[u64], counts: &[u64]) -> Vec<usize> {
    let numbers = found.iter().zip(counts).enumerate();
    let over = numbers.filter(|(_, (found, count))| found.checked_add(**count).is_none());
    over.map(|(place, _)| place).collect()
}
