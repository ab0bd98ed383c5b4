//! Where extensions are laid and when there is no room for one, by the library's routing and
//! replay: plans, maps and totals reckoned by hand.
//!
//! Most jobs are towers: one column and three layers. Layers 0 and 2 have tracks of one vertex,
//! and layer 1 a track of all rows, so a net from layer 0 to layer 2 goes up, along the rows
//! and up. Wires cost 1 and vias 2, a penalised segment 50, and a short 20.

use maizespell_tests::compare::replay;
use maizespell_tests::grid::{vertex, Vertex};
use maizespell_tests::job::{GuideBox, Job, Obstacle, CLOSED};
use maizespell_tests::joining::Totals;
use maizespell_tests::library::{ReplayResult, ROUTING};
use maizespell_tests::marked::{plain, plain_layers};
use maizespell_tests::plan::{pack, Record};
use maizespell_tests::reader::Refusal;
use maizespell_tests::replay::{refused, succeeded};
use maizespell_tests::routing::routed_by;
use maizespell_tests::rules::board::Board;
use maizespell_tests::rules::moves::Move::{self, High, Low, Up};

/// A tower of so many rows, with this M on layer 1.
fn tower(rows: u32, min_length: u32, nets: &[&[Vertex]]) -> Job {
    let mut job = Job {
        columns: 1,
        rows,
        layers: plain_layers(3),
        ..plain(nets)
    };
    job.layers[1].min_length = min_length;
    job
}

/// The pins of a net that goes up through layer 1, from one row to another.
fn through(from: u32, to: u32) -> [Vertex; 2] {
    [vertex(0, from, 0), vertex(2, to, 0)]
}

/// The pins of a net that keeps a row of layer 1 for itself and has no metal on other rows.
fn pin_at(row: u32) -> [Vertex; 2] {
    [vertex(0, row, 0), vertex(1, row, 0)]
}

/// What the library answers to a plan, and the rows of layer 1 in its map; the second replay
/// must answer the same.
fn replayed(job: &Job, records: &[Record]) -> (ReplayResult, Vec<u16>) {
    let board = Board::new(job);
    let rows = job.rows as usize;
    let (vertices, work) = (board.vertices(), board.work_need());
    let (result, map) = replay::check(&job.pack(), &pack(records), vertices, work);
    (result, map[rows..2 * rows].to_vec())
}

/// Routing makes these records, and both calls end with these rows of layer 1 and these totals.
fn check(job: &Job, records: &[Record], layer_1: &[u16], totals: Totals) {
    let rows = job.rows as usize;
    let routed = routed_by(ROUTING, job);
    assert_eq!(routed.records, records);
    assert_eq!(routed.joined.map[rows..2 * rows], *layer_1);
    assert_eq!(routed.joined.totals, totals);
    let answer = (succeeded(totals), layer_1.to_vec());
    assert_eq!(replayed(job, records), answer);
}

#[test]
fn the_rest_is_laid_at_the_starting_end() {
    let job = tower(8, 6, &[&through(4, 6)]);
    let up = Record::of(vertex(0, 4, 0), &[Up, High, High, Up], 10);
    check(
        &job,
        &[up],
        &[0, 1, 1, 1, 1, 1, 1, 1],
        Totals::of(10, 4, 0, 1),
    );
    let job = tower(8, 6, &[&through(3, 1)]);
    let up = Record::of(vertex(0, 3, 0), &[Up, Low, Low, Up], 10);
    check(
        &job,
        &[up],
        &[1, 1, 1, 1, 1, 1, 1, 0],
        Totals::of(10, 4, 0, 1),
    );
}

#[test]
fn all_is_laid_at_the_starting_end_where_the_leaving_end_has_no_room() {
    let job = tower(5, 3, &[&through(3, 4)]);
    let up = Record::of(vertex(0, 3, 0), &[Up, High, Up], 7);
    check(&job, &[up], &[0, 1, 1, 1, 1], Totals::of(7, 2, 0, 1));
    let job = tower(5, 3, &[&through(1, 0)]);
    let up = Record::of(vertex(0, 1, 0), &[Up, Low, Up], 7);
    check(&job, &[up], &[1, 1, 1, 1, 0], Totals::of(7, 2, 0, 1));
}

#[test]
fn nothing_is_behind_a_segment_that_starts_at_the_end_of_its_track() {
    let up = |cost| Record::of(vertex(0, 0, 0), &[Up, High, Up], cost);
    let job = tower(4, 3, &[&through(0, 1)]);
    check(&job, &[up(7)], &[1, 1, 1, 1], Totals::of(7, 2, 0, 1));
    let job = tower(3, 3, &[&through(0, 1)]);
    check(&job, &[up(55)], &[1, 1, 0], Totals::of(55, 0, 1, 1));
    let job = tower(3, 3, &[&through(2, 1)]);
    let down = Record::of(vertex(0, 2, 0), &[Up, Low, Up], 55);
    check(&job, &[down], &[0, 1, 1], Totals::of(55, 0, 1, 1));
}

#[test]
fn a_fresh_segment_takes_high_then_low() {
    let check_at = |row, layer_1| {
        let up = Record::of(vertex(0, row, 0), &[Up, Up], 7);
        let job = tower(6, 3, &[&through(row, row)]);
        check(&job, &[up], layer_1, Totals::of(7, 3, 0, 1));
    };
    check_at(1, &[0, 1, 1, 1, 1, 0]);
    check_at(3, &[0, 0, 1, 1, 1, 1]);
    check_at(4, &[0, 0, 1, 1, 1, 1]);
    check_at(5, &[0, 0, 1, 1, 1, 1]);
    let job = tower(3, 3, &[&through(1, 1)]);
    let up = Record::of(vertex(0, 1, 0), &[Up, Up], 54);
    check(&job, &[up], &[0, 1, 0], Totals::of(54, 0, 1, 1));
}

/// Two nets, each with one join from its first pin: moves and cost.
fn check_two(
    nets: [[Vertex; 2]; 2],
    joins: [(&[Move], u64); 2],
    layer_1: &[u16],
    (added, penalties): (u64, u64),
) {
    let job = tower(8, 3, &[&nets[0], &nets[1]]);
    let made = |net: usize| Record::of(nets[net][0], joins[net].0, joins[net].1);
    let cost = joins[0].1 + joins[1].1;
    let totals = Totals::of(cost, added, penalties, 2);
    check(&job, &[made(0), made(1)], layer_1, totals);
}

/// One step and two owed, beyond row 1 or beyond row 6; another net's pin is just past them or
/// the second of them.
#[test]
fn another_pin_stops_the_count_at_either_end() {
    let check_beside = |from, pin, cost, layer_1: &[u16], laid| {
        let nets = [through(from, from + 1), pin_at(pin)];
        check_two(nets, [(&[Up, High, Up], cost), (&[Up], 2)], layer_1, laid);
    };
    check_beside(0, 4, 7, &[1, 1, 1, 1, 2, 0, 0, 0], (2, 0));
    check_beside(0, 3, 55, &[1, 1, 0, 2, 0, 0, 0, 0], (0, 1));
    check_beside(6, 3, 7, &[0, 0, 0, 2, 1, 1, 1, 1], (2, 0));
    check_beside(6, 4, 55, &[0, 0, 0, 0, 2, 0, 1, 1], (0, 1));
}

/// The same with metal: net 1 goes straight up and lays three rows high.
#[test]
fn other_metal_stops_the_count_at_either_end() {
    let check_beside = |from, other, cost, layer_1: &[u16], laid| {
        let nets = [through(other, other), through(from, from + 1)];
        let joins: [(&[Move], u64); 2] = [(&[Up, Up], 7), (&[Up, High, Up], cost)];
        check_two(nets, joins, layer_1, laid);
    };
    check_beside(0, 4, 7, &[2, 2, 2, 2, 1, 1, 1, 1], (5, 0));
    check_beside(0, 3, 55, &[2, 2, 0, 1, 1, 1, 1, 0], (3, 1));
    check_beside(6, 0, 7, &[1, 1, 1, 1, 2, 2, 2, 2], (5, 0));
    check_beside(6, 1, 55, &[0, 1, 1, 1, 1, 0, 2, 2], (3, 1));
}

/// What lies beyond an obstacle is not counted, and the other end is.
#[test]
fn each_end_stops_at_its_own_first_vertex_that_is_not_clear() {
    let check_beside = |obstacle, min_length, cost, layer_1: &[u16], added: u64| {
        let mut job = tower(10, min_length, &[&through(4, 5)]);
        job.obstacles.push(Obstacle {
            start: vertex(1, obstacle, 0),
            run: 1,
        });
        let up = Record::of(vertex(0, 4, 0), &[Up, High, Up], cost);
        let penalties = u64::from(added == 0);
        check(&job, &[up], layer_1, Totals::of(cost, added, penalties, 1));
    };
    check_beside(7, 5, 9, &[0, 1, 1, 1, 1, 1, 1, 257, 0, 0], 4);
    check_beside(7, 6, 10, &[1, 1, 1, 1, 1, 1, 1, 257, 0, 0], 5);
    check_beside(7, 7, 55, &[0, 0, 0, 0, 1, 1, 0, 257, 0, 0], 0);
    check_beside(2, 6, 10, &[0, 0, 257, 1, 1, 1, 1, 1, 1, 1], 5);
    check_beside(2, 7, 55, &[0, 0, 257, 0, 1, 1, 0, 0, 0, 0], 0);
}

/// Row 2 is outside the guide, so the pin there is joined last. It is metal of the net from
/// the beginning, and the extension of the first join goes over it.
#[test]
fn an_own_pin_behind_is_clear_and_stays_unjoined() {
    let mut job = tower(
        5,
        3,
        &[&[vertex(0, 3, 0), vertex(2, 4, 0), vertex(1, 2, 0)]],
    );
    job.nets[0].boxes.push(GuideBox {
        low: vertex(0, 3, 0),
        high: vertex(2, 4, 0),
    });
    let records = [
        Record::of(vertex(0, 3, 0), &[Up, High, Up], 7),
        Record::of(vertex(1, 3, 0), &[Low], 11),
    ];
    check(&job, &records, &[0, 1, 1, 1, 1], Totals::of(18, 2, 0, 1));
}

/// The third join owes two: row 0 is beyond its last vertex, and row 3, metal of its own net,
/// beyond its first. Where net 1 has laid its extension over row 3 too, that is not clear.
#[test]
fn own_metal_behind_is_clear_unless_another_net_covers_it() {
    let pins = [vertex(0, 2, 0), vertex(2, 3, 0), vertex(2, 1, 0)];
    let job = tower(7, 3, &[&through(6, 6), &pins]);
    let high = |cost| Record::of(pins[0], &[Up, High, Up], cost);
    let low = |cost| Record::of(pins[0], &[Up, Low, Up], cost);
    let alone = replayed(&job, &[Record::NoJoin, high(7), low(7)]);
    let layer_1 = vec![2, 2, 2, 2, 2, 2, 0];
    assert_eq!(alone, (succeeded(Totals::of(14, 4, 0, 1)), layer_1));
    let other = Record::of(vertex(0, 6, 0), &[Up, Up], 7);
    let covered = replayed(&job, &[other, high(27), low(55)]);
    let layer_1 = vec![2, 2, 2, 256, 1, 1, 1];
    assert_eq!(covered, (succeeded(Totals::of(89, 5, 1, 2)), layer_1));
}

#[test]
fn a_closed_area_penalty_forbids_where_both_ends_are_too_short() {
    let closed = |rows| {
        let mut job = tower(rows, 3, &[&through(1, 2)]);
        for layer in &mut job.layers {
            layer.area_penalty = CLOSED;
        }
        job
    };
    let up = Record::of(vertex(0, 1, 0), &[Up, High, Up], 7);
    check(
        &closed(4),
        &[up.clone()],
        &[1, 1, 1, 1],
        Totals::of(7, 2, 0, 1),
    );
    check(
        &closed(3),
        &[Record::NoJoin],
        &[0, 0, 0],
        Totals::of(0, 0, 0, 0),
    );
    let third_move = Refusal {
        number: 17,
        place: 44,
    };
    assert_eq!(replayed(&closed(3), &[up]).0, refused(third_move));
}
