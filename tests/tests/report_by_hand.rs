//! Wire reports of small plans, reckoned by hand: what each adds, layer by layer.

use maizespell_tests::compare::replay::Case;
use maizespell_tests::compare::wire_report::{check, Answer};
use maizespell_tests::grid::vertex;
use maizespell_tests::job::Job;
use maizespell_tests::joining::Totals;
use maizespell_tests::library::ReplayResult;
use maizespell_tests::marked::{self, plain, plain_layers};
use maizespell_tests::plan::{pack, Record};
use maizespell_tests::replay::succeeded;
use maizespell_tests::report::every_kind::{self, counts, net};
use maizespell_tests::report::{worth, COUNTS, KINDS};
use maizespell_tests::rules::board::Board;
use maizespell_tests::rules::moves::Move::{Down, High, Up};

/// In slices that are as long as the job needs.
fn asked(job: &Job, plan: &[u8], found: &[u64]) -> Answer {
    let board = Board::new(job);
    let case = Case {
        kind: "by hand",
        job: &job.pack(),
        plan,
        map_len: board.vertices(),
        work_len: board.work_need(),
    };
    check(&case, found)
}

/// The plan is accepted and adds this, to a report of zeros and to a longer one of other
/// numbers; times the prices it is the plan's cost.
fn assert_adds(job: &Job, records: &[Record], layers: &[[u64; KINDS]]) -> ReplayResult {
    let plan = pack(records);
    let counts = counts(layers);
    let answer = asked(job, &plan, &[0; COUNTS]);
    assert_eq!(answer.result.refusal, 0);
    assert_eq!(answer.report, counts);
    assert_eq!(worth(job, &counts), answer.result.cost);
    let mut found = [1_000; COUNTS + 3];
    found[COUNTS..].fill(u64::MAX);
    let answer = asked(job, &plan, &found);
    assert_eq!(answer.result.refusal, 0);
    found.iter_mut().zip(counts).for_each(|(sum, n)| *sum += n);
    assert_eq!(answer.report, found);
    answer.result
}

#[test]
fn every_kind_is_counted_at_its_layer() {
    let (job, plan) = (every_kind::job(), every_kind::plan());
    let result = assert_adds(&job, &plan, &every_kind::LAYERS);
    assert_eq!(result, succeeded(Totals::of(158, 2, 1, 3)));
}

/// Net 2 has a guide entry and a short entry, net 3 two guide entries.
#[test]
fn entries_count_at_penalty_0() {
    let mut job = every_kind::job();
    job.guide_penalty = 0;
    job.short_penalty = 0;
    let mut plan = every_kind::plan();
    for (record, less) in plan.iter_mut().zip([0, 30, 20]) {
        let Record::Join(join) = record else {
            panic!("every record is a join");
        };
        join.cost -= less;
    }
    let result = assert_adds(&job, &plan, &every_kind::LAYERS);
    assert_eq!(result.cost, 158 - 50);
}

#[test]
fn without_boxes_there_is_no_guide_entry() {
    let net_1 = Record::of(vertex(1, 0, 0), &[High, High], 2);
    let net_2 = Record::of(vertex(0, 1, 0), &[Up, Up], 74);
    let k = [[0, 1, 0, 0, 0, 0], [2, 1, 0, 1, 0, 1]];
    assert_adds(&marked::k(), &[net_1, net_2], &k);
}

#[test]
fn a_start_outside_is_no_guide_entry() {
    let mut job = marked::a();
    let guide = (vertex(0, 0, 1), vertex(0, 0, 3));
    job.nets = vec![net(&[vertex(0, 0, 0), vertex(0, 0, 3)], &[guide])];
    let join = Record::of(vertex(0, 0, 0), &[High; 3], 3);
    assert_adds(&job, &[join], &[[3, 0, 0, 0, 0, 0]]);
}

/// As K, with longer wires: net 2 enters net 1's wire twice and is penalised there, and its
/// second join starts on that wire.
#[test]
fn a_start_that_is_taken_is_no_short_entry() {
    let mut job = marked::k();
    job.nets = vec![
        net(&[vertex(1, 0, 0), vertex(1, 3, 0)], &[]),
        net(&[vertex(0, 1, 0), vertex(0, 2, 0), vertex(2, 1, 0)], &[]),
    ];
    let plan = [
        Record::of(vertex(1, 0, 0), &[High; 3], 3),
        Record::of(vertex(0, 1, 0), &[Up, High, Down], 22 + 21 + 52),
        Record::of(vertex(1, 1, 0), &[Up], 2),
    ];
    assert_adds(&job, &plan, &[[0, 2, 0, 0, 0, 0], [4, 1, 0, 1, 0, 2]]);
}

/// Up through eight layers and a step on the last. Each segment between is lengthened by one.
#[test]
fn the_highest_layer_has_the_last_counts() {
    let mut job = plain(&[&[vertex(0, 0, 0), vertex(7, 1, 0)]]);
    job.layers = plain_layers(8);
    job.layers.iter_mut().for_each(|layer| layer.min_length = 1);
    let moves = [Up, Up, Up, Up, Up, Up, Up, High];
    let join = Record::of(vertex(0, 0, 0), &moves, 7 * 2 + 6 + 1);
    let mut layers = [[0, 1, 1, 0, 0, 0]; 8];
    layers[0] = [0, 1, 0, 0, 0, 0];
    layers[7] = [1, 0, 0, 0, 0, 0];
    assert_adds(&job, &[join], &layers);
}

/// Down again: each via counts at the layer below it, each added step at the layer above.
#[test]
fn the_way_down_counts_at_the_same_layers() {
    let mut job = plain(&[&[vertex(7, 0, 0), vertex(0, 0, 1)]]);
    job.layers = plain_layers(8);
    job.layers.iter_mut().for_each(|layer| layer.min_length = 1);
    let moves = [Down, Down, Down, Down, Down, Down, Down, High];
    let join = Record::of(vertex(7, 0, 0), &moves, 7 * 2 + 6 + 1);
    let mut layers = [[0, 1, 1, 0, 0, 0]; 8];
    layers[0] = [1, 1, 0, 0, 0, 0];
    layers[7] = [0; KINDS];
    assert_adds(&job, &[join], &layers);
}

#[test]
fn a_record_of_none_adds_nothing() {
    assert_adds(&marked::a(), &[Record::NoJoin], &[]);
    let full = [u64::MAX; COUNTS];
    let answer = asked(&marked::a(), &pack(&[Record::NoJoin]), &full);
    assert_eq!(answer.result.refusal, 0);
    assert_eq!(answer.report, full);
}

#[test]
fn a_job_without_nets_adds_nothing() {
    let mut job = marked::a();
    job.nets.clear();
    assert_adds(&job, &[], &[]);
}
