//! Vertices that are outside the guide and taken, by hand: the short penalty alone is added, a
//! closed penalty of either kind closes them, and the wire report counts a short entry.
//!
//! The jobs are made from N: net 2 goes up from layer 0 to layer 2, across net 1's wire on layer 1.

use maizespell_tests::compare::replay::{self, Case};
use maizespell_tests::compare::wire_report;
use maizespell_tests::grid::{vertex, Vertex};
use maizespell_tests::job::{GuideBox, Job, CLOSED};
use maizespell_tests::joining::Totals;
use maizespell_tests::library::{ReplayResult, ROUTING};
use maizespell_tests::marked;
use maizespell_tests::plan::{pack, Record};
use maizespell_tests::reader::Refusal;
use maizespell_tests::replay::{refused, succeeded};
use maizespell_tests::report::every_kind::counts;
use maizespell_tests::report::{worth, COUNTS, KINDS};
use maizespell_tests::router::route;
use maizespell_tests::routing::routed_by;
use maizespell_tests::rules::board::Board;
use maizespell_tests::rules::moves::Move::{self, High, Low, Up};

/// The highest penalty that isn't closed.
const HIGHEST: u32 = CLOSED - 1;

const NET_2: Vertex = vertex(0, 1, 0);

fn priced(guide_penalty: u32, short_penalty: u32, job: Job) -> Job {
    Job {
        guide_penalty,
        short_penalty,
        ..job
    }
}

/// As N, with a second box: the whole of layer 2. Of net 2's way the crossing alone is outside.
fn inside_but_for_the_crossing() -> Job {
    let mut job = marked::n();
    job.nets[1].boxes.push(GuideBox {
        low: vertex(2, 0, 0),
        high: vertex(2, job.rows - 1, job.columns - 1),
    });
    job
}

/// As that, with a second column, which is free, and no area penalty. Layers 0 and 2 are inside.
fn with_a_way_around() -> Job {
    let mut job = inside_but_for_the_crossing();
    job.columns = 2;
    for guide in &mut job.nets[1].boxes {
        guide.high.column = 1;
    }
    for layer in &mut job.layers {
        layer.area_penalty = 0;
    }
    job
}

fn plan(net_2: Record) -> [Record; 2] {
    [Record::of(vertex(1, 0, 0), &[High, High], 2), net_2]
}

fn across(cost: u64) -> [Record; 2] {
    plan(Record::of(NET_2, &[Up, Up], cost))
}

fn replayed(job: &Job, records: &[Record]) -> ReplayResult {
    let board = Board::new(job);
    let (vertices, work) = (board.vertices(), board.work_need());
    replay::check(&job.pack(), &pack(records), vertices, work).0
}

/// The library and the second router route so, and replay accepts it.
fn assert_routed(job: &Job, records: &[Record]) {
    assert_eq!(routed_by(ROUTING, job).records, records);
    assert_eq!(route(&Board::new(job)).records, records);
    assert_eq!(replayed(job, records).refusal, 0);
}

/// Net 2 is routed by these moves at this cost.
fn assert_net_2(job: &Job, moves: &[Move], cost: u64) {
    assert_routed(job, &plan(Record::of(NET_2, moves, cost)));
}

/// Net 2 has no route, and replay refuses its way across at the first move.
fn assert_closed(job: &Job) {
    assert_routed(job, &plan(Record::NoJoin));
    let (number, place) = (17, 84 + 40);
    let result = replayed(job, &across(84));
    assert_eq!(result, refused(Refusal { number, place }));
}

#[test]
fn the_short_penalty_alone_is_added() {
    let job = marked::n();
    assert_net_2(&job, &[Up, Up], (2 + 20) + (2 + 50 + 10));
    let result = replayed(&job, &across(84));
    assert_eq!(result, succeeded(Totals::of(86, 0, 1, 2)));
    let (number, place) = (18, 84 + 44);
    for cost in [94, 74] {
        let result = replayed(&job, &across(cost));
        assert_eq!(result, refused(Refusal { number, place }));
    }
}

#[test]
fn either_closed_penalty_closes_the_vertex() {
    for job in [marked::n(), inside_but_for_the_crossing()] {
        assert_closed(&priced(CLOSED, 20, job.clone()));
        assert_closed(&priced(CLOSED, 0, job.clone()));
        assert_closed(&priced(10, CLOSED, job.clone()));
        assert_closed(&priced(0, CLOSED, job.clone()));
        assert_closed(&priced(CLOSED, CLOSED, job));
    }
}

/// The pin of N is outside and free and pays the guide penalty; the crossing of K is inside and
/// taken and pays the short one.
#[test]
fn the_highest_guide_penalty_is_not_added() {
    let job = inside_but_for_the_crossing();
    assert_net_2(&priced(HIGHEST, 0, job.clone()), &[Up, Up], 2 + (2 + 50));
    let highest = u64::from(HIGHEST);
    let both = priced(HIGHEST, HIGHEST, job);
    assert_net_2(&both, &[Up, Up], (2 + highest) + (2 + 50));
    let n = priced(HIGHEST, 0, marked::n());
    assert_net_2(&n, &[Up, Up], 2 + (2 + 50 + highest));
    let k = priced(0, HIGHEST, marked::k());
    assert_net_2(&k, &[Up, Up], (2 + highest) + (2 + 50));
}

/// Across costs 2 + short + 2. Around by column 1 costs 1, 2 + guide, 2 with 3 added steps, and 1:
/// at equal costs it is taken, since high comes before up.
#[test]
fn the_cheaper_penalty_decides_between_across_and_around() {
    let job = |guide, short| priced(guide, short, with_a_way_around());
    let around = [High, Up, Up, Low];
    assert_net_2(&job(HIGHEST, 20), &[Up, Up], 24);
    assert_net_2(&job(HIGHEST, 0), &[Up, Up], 4);
    assert_net_2(&job(16, 20), &[Up, Up], 24);
    assert_net_2(&job(15, 20), &around, 24);
    assert_net_2(&job(14, 20), &around, 23);
    assert_net_2(&job(0, 20), &around, 9);
    assert_net_2(&job(0, CLOSED), &around, 9);
    assert_net_2(&job(HIGHEST, CLOSED), &around, 9 + u64::from(HIGHEST));
    assert_routed(&job(CLOSED, 20), &plan(Record::NoJoin));
}

/// The plan of net 2's way across at this cost adds these counts, which are worth the plan's cost.
fn assert_counted(job: &Job, cost: u64, layers: &[[u64; KINDS]]) {
    let board = Board::new(job);
    let case = Case {
        kind: "by hand",
        job: &job.pack(),
        plan: &pack(&across(cost)),
        map_len: board.vertices(),
        work_len: board.work_need(),
    };
    let answer = wire_report::check(&case, &[0; COUNTS]);
    assert_eq!(answer.result, succeeded(Totals::of(2 + cost, 0, 1, 2)));
    assert_eq!(answer.report, counts(layers));
    assert_eq!(worth(job, &answer.report), 2 + cost);
}

/// One via at layer 0; two wire steps, one via, one penalised segment and one short entry at layer
/// 1; the pin on layer 2 is a guide entry.
const COUNTED: [[u64; KINDS]; 3] = [[0, 1, 0, 0, 0, 0], [2, 1, 0, 1, 0, 1], [0, 0, 0, 0, 1, 0]];

/// With net 1's two steps: 1 × 2 + 2 × 1 + 1 × 2 + 1 × 50 + 1 × 20 + 1 × 10 = 86.
#[test]
fn such_an_entry_is_a_short_entry_only() {
    assert_counted(&marked::n(), 86 - 2, &COUNTED);
    let inside = inside_but_for_the_crossing();
    assert_counted(&inside, 86 - 2 - 10, &COUNTED[..2]);
}

#[test]
fn such_an_entry_counts_at_penalty_0() {
    let n = |guide, short| priced(guide, short, marked::n());
    assert_counted(&n(0, 0), 54, &COUNTED);
    assert_counted(&n(10, 0), 54 + 10, &COUNTED);
    assert_counted(&n(0, 20), 54 + 20, &COUNTED);
}
