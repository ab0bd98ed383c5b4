//! The comparison itself: a wire report with one small fault is found out.

use maizespell_tests::generate::routable::any_routable_job;
use maizespell_tests::joining::Walk;
use maizespell_tests::library::ReplayResult;
use maizespell_tests::pairs::Pairs;
use maizespell_tests::plan::Record;
use maizespell_tests::reader::{read, Refusal};
use maizespell_tests::replay::{refused, replay};
use maizespell_tests::report::{report, report_by, Counts, Kind, Report, COUNTS};
use maizespell_tests::router::follow;
use maizespell_tests::rules::board::Board;

const SEED: u64 = 20;
const JOBS: u32 = 100;

/// The second wire report with other counts.
fn miscounted(
    change: fn(&Board, &[Record], &mut Counts),
    job: &[u8],
    plan: &[u8],
    map: &mut [u16],
    work: &mut [u64],
    found: &mut [u64],
) -> ReplayResult {
    let count = |board: &Board, records: &[Record]| {
        let mut counts = Counts::of(board, records);
        change(board, records, &mut counts);
        counts
    };
    report_by(count, job, plan, map, work, found)
}

/// Counts of a kind go from each layer to the one above.
fn lift(counts: &mut Counts, kind: Kind) {
    for layer in (1..8).rev() {
        *counts.at(layer, kind) = *counts.at(layer - 1, kind);
    }
    *counts.at(0, kind) = 0;
}

fn leave_out(counts: &mut Counts, kind: Kind) {
    (0..8).for_each(|layer| *counts.at(layer, kind) = 0);
}

/// The layer of each entry of a vertex that is outside the guide and taken.
fn outside_and_taken(board: &Board, records: &[Record]) -> Vec<u32> {
    let grid = board.job.grid();
    let mut layers = Vec::new();
    follow(board, records, |net, walk| {
        let entered = walk.map_or(&[][..], Walk::entered).iter();
        let both = entered.filter(|vertex| net.view.outside_and_taken(**vertex));
        layers.extend(both.map(|vertex| grid.numbered(*vertex as u32).layer));
    });
    layers
}

/// The call with one change of the counts.
macro_rules! miscounted {
    ($change:expr) => {
        |job, plan, map, work, found| miscounted($change, job, plan, map, work, found)
    };
}

/// The second wire report with a fault in what it counts.
const MISCOUNTED: [(&str, Report); 11] = [
    (
        "one step more",
        miscounted!(|_, _, counts| *counts.at(0, Kind::Steps) += 1),
    ),
    (
        "steps a layer above",
        miscounted!(|_, _, counts| lift(counts, Kind::Steps)),
    ),
    (
        "vias a layer above",
        miscounted!(|_, _, counts| lift(counts, Kind::Vias)),
    ),
    (
        "added steps a layer above",
        miscounted!(|_, _, counts| lift(counts, Kind::Added)),
    ),
    (
        "penalised segments left out",
        miscounted!(|_, _, counts| leave_out(counts, Kind::Penalised)),
    ),
    (
        "guide entries a layer above",
        miscounted!(|_, _, counts| lift(counts, Kind::Guide)),
    ),
    (
        "short entries a layer above",
        miscounted!(|_, _, counts| lift(counts, Kind::Short)),
    ),
    (
        "no guide entry at penalty 0",
        miscounted!(|board, _, counts| if board.job.guide_penalty == 0 {
            leave_out(counts, Kind::Guide)
        }),
    ),
    (
        "no short entry at penalty 0",
        miscounted!(|board, _, counts| if board.job.short_penalty == 0 {
            leave_out(counts, Kind::Short)
        }),
    ),
    (
        "guide entry too where taken",
        miscounted!(|board, records, counts| {
            for layer in outside_and_taken(board, records) {
                *counts.at(layer, Kind::Guide) += 1;
            }
        }),
    ),
    (
        "guide entry alone where taken",
        miscounted!(|board, records, counts| {
            for layer in outside_and_taken(board, records) {
                *counts.at(layer, Kind::Guide) += 1;
                *counts.at(layer, Kind::Short) -= 1;
            }
        }),
    ),
];

fn is_19(result: &ReplayResult) -> bool {
    result.refusal == 19
}

/// The second wire report with a fault in what it answers or leaves.
const MISLEFT: [(&str, Report); 9] = [
    ("19 before replay", |job, plan, map, work, found| {
        if found.len() < COUNTS {
            let (number, place) = (19, 8);
            return refused(Refusal { number, place });
        }
        report(job, plan, map, work, found)
    }),
    (
        "lower counts added before 19",
        |job, plan, map, work, found| {
            let mut counts = vec![0; COUNTS];
            let result = report(job, plan, map, work, found);
            if is_19(&result) && found.len() >= COUNTS {
                report(job, plan, map, work, &mut counts);
                let fits = |(sum, count): (&mut u64, u64)| {
                    *sum = sum.checked_add(count)?;
                    Some(())
                };
                let _ = found.iter_mut().zip(counts).try_for_each(fits);
            }
            result
        },
    ),
    ("sums around 2^64", |job, plan, map, work, found| {
        let mut counts = vec![0; COUNTS];
        let mut result = report(job, plan, map, work, found);
        if is_19(&result) && found.len() >= COUNTS {
            result = report(job, plan, map, work, &mut counts);
            let sums = found.iter_mut().zip(counts);
            sums.for_each(|(sum, count)| *sum = sum.wrapping_add(count));
        }
        result
    }),
    (
        "number named in place of its layer",
        |job, plan, map, work, found| {
            let mut result = report(job, plan, map, work, found);
            result.place *= 1 + 5 * u64::from(is_19(&result) && result.place < 8);
            result
        },
    ),
    (
        "full numbers before a short report",
        |job, plan, map, work, found| {
            let mut result = report(job, plan, map, work, found);
            if is_19(&result) && found.first() == Some(&u64::MAX) {
                result.place = 0;
            }
            result
        },
    ),
    ("totals after 19", |job, plan, map, work, found| {
        let mut result = report(job, plan, map, work, found);
        if is_19(&result) {
            result.cost = replay(job, plan, map, work).cost;
        }
        result
    }),
    ("map zero after 19", |job, plan, map, work, found| {
        let result = report(job, plan, map, work, found);
        if let (true, Ok(job)) = (is_19(&result), read(job)) {
            map[..job.grid().vertices() as usize].fill(0);
        }
        result
    }),
    (
        "report zero beyond its counts",
        |job, plan, map, work, found| {
            let result = report(job, plan, map, work, found);
            if let (0, Some(beyond)) = (result.refusal, found.get_mut(COUNTS)) {
                *beyond = 0;
            }
            result
        },
    ),
    ("a refused plan counts", |job, plan, map, work, found| {
        let result = report(job, plan, map, work, found);
        if let (18, Some(first)) = (result.refusal, found.first_mut()) {
            *first = first.wrapping_add(1);
        }
        result
    }),
];

fn differences(report: Report) -> u64 {
    let mut pairs = Pairs::of_report(report, SEED);
    pairs.ask_jobs(JOBS, any_routable_job);
    pairs.comparison.tally.differences
}

#[test]
fn every_fault_is_found_out() {
    for (fault, report) in MISCOUNTED.into_iter().chain(MISLEFT) {
        assert!(differences(report) > 0, "not found out: {fault}");
    }
}

#[test]
fn the_second_wire_report_agrees_with_itself() {
    assert_eq!(differences(report), 0);
}
