//! The second router on the thirteen marked jobs, with the results of "Routes by
//! hand", and what must not come out of the specification's traps.

use maizespell_tests::grid::{vertex, Vertex};
use maizespell_tests::job::{Job, CLOSED};
use maizespell_tests::joining::Joined;
use maizespell_tests::marked;
use maizespell_tests::marked::by_hand::{A_PLAN, COSTS, TOTALS};
use maizespell_tests::plan::{pack, Record};
use maizespell_tests::replay::read_plan;
use maizespell_tests::router::{route, Routed};
use maizespell_tests::rules::board::Board;
use maizespell_tests::rules::metal::{BARE, SEVERAL};
use maizespell_tests::rules::moves::Move::{self, Down, High, Up};

fn routed(job: &Job) -> Routed {
    route(&Board::new(job))
}

/// The cost of each join, or None where there is none.
fn costs(job: &Job) -> Vec<Option<u64>> {
    let cost = |record: &Record| record.join().map(|join| join.cost);
    routed(job).records.iter().map(cost).collect()
}

/// Start and moves of the only join.
fn only_join(job: &Job) -> (Vertex, Vec<Move>) {
    let routed = routed(job);
    let [Record::Join(join)] = &routed.records[..] else {
        panic!("one join is expected, not {:?}", routed.records);
    };
    (join.start, join.moves.clone())
}

/// The map's code at a vertex.
fn code(job: &Job, joined: &Joined, v: Vertex) -> u16 {
    joined.map[job.grid().number(v)]
}

#[test]
fn marked_jobs_have_the_costs_found_by_hand() {
    for ((letter, job), (_, by_hand)) in marked::all().into_iter().zip(COSTS) {
        assert_eq!(costs(&job), by_hand, "job {letter}");
    }
}

#[test]
fn plans_of_marked_jobs_are_replayed() {
    for (letter, job) in marked::all() {
        let board = Board::new(&job);
        let routed = route(&board);
        let replayed = read_plan(&board, &pack(&routed.records));
        assert_eq!(replayed, Ok(routed.joined), "job {letter}");
    }
}

#[test]
fn a_has_the_plan_of_the_specification() {
    assert_eq!(pack(&routed(&marked::a()).records), A_PLAN);
}

#[test]
fn b_and_h_have_the_moves_of_the_specification() {
    let b = vec![High, High, High, Up, High, Down];
    assert_eq!(only_join(&marked::b()), (vertex(0, 0, 0), b));
    let h = vec![Up, High, Up];
    assert_eq!(only_join(&marked::h()), (vertex(0, 3, 3), h));
}

#[test]
fn marked_jobs_have_the_totals_found_by_hand() {
    for ((letter, job), (_, by_hand)) in marked::all().into_iter().zip(TOTALS) {
        assert_eq!(routed(&job).joined.totals, by_hand, "job {letter}");
    }
}

/// B's only overhead is that of its middle segment: one step, two added.
#[test]
fn b_lays_its_extension_beyond_the_middle_segment() {
    let job = marked::b();
    let joined = routed(&job).joined;
    let column = [0, 1, 2, 3].map(|row| code(&job, &joined, vertex(1, row, 3)));
    assert_eq!(column, [1, 1, 1, 1]);
    assert_eq!(joined.map.iter().filter(|code| **code != BARE).count(), 9);
}

#[test]
fn k_shares_one_vertex_and_l_none() {
    let job = marked::k();
    let joined = routed(&job).joined;
    let codes = [0, 1, 2].map(|layer| code(&job, &joined, vertex(layer, 1, 0)));
    assert_eq!(codes, [2, SEVERAL, 2]);
    let job = marked::l();
    let joined = routed(&job).joined;
    let codes = [0, 1, 2].map(|layer| code(&job, &joined, vertex(layer, 1, 0)));
    assert_eq!(codes, [2, 1, 2]);
}

/// Job K's grid. Net 1 steps once on layer 1 and lays its extension over rows 2
/// and 3; net 2 must pass through row 2 of that layer.
fn across_an_extension(short_penalty: u32) -> Job {
    let mut job = Job {
        short_penalty,
        ..marked::k()
    };
    job.nets[0].pins = vec![vertex(0, 0, 0), vertex(0, 1, 0)];
    job.nets[1].pins = vec![vertex(0, 2, 0), vertex(2, 2, 0)];
    job
}

#[test]
fn a_later_net_pays_for_crossing_an_extension() {
    assert_eq!(costs(&across_an_extension(20)), [Some(7), Some(74)]);
    assert_eq!(costs(&across_an_extension(CLOSED)), [Some(7), None]);
}
