//! Nets of one pin: no record, fully joined, the pin on the map and in the way of others. Plans,
//! maps and totals reckoned by hand, by routing and through replay; and such nets damaged.
//!
//! The jobs are plain: 4 rows and 8 columns, wires cost 1, vias 2, a penalised segment 50, M is 3.

use maizespell_tests::compare;
use maizespell_tests::compare::replay;
use maizespell_tests::grid::{vertex, Grid, Vertex};
use maizespell_tests::job::{GuideBox, Job, Obstacle, MOST_NETS};
use maizespell_tests::joining::Totals;
use maizespell_tests::library;
use maizespell_tests::marked::{plain, plain_layers};
use maizespell_tests::plan::{pack, Record};
use maizespell_tests::reader::Refusal;
use maizespell_tests::replay::{refused, succeeded};
use maizespell_tests::routing::{self, routed_by};
use maizespell_tests::rules::board::Board;
use maizespell_tests::rules::moves::Move::{Down, High, Low, Up};
use maizespell_tests::sizing;

/// Routing makes these records, and both calls end with these totals and with a map that is bare
/// but for these vertices.
fn check(job: &Job, records: &[Record], totals: Totals, metal: &[(Vertex, u16)]) {
    let board = Board::new(job);
    let mut map = vec![0; board.vertices()];
    for (at, code) in metal {
        map[job.grid().number(*at)] = *code;
    }
    let routed = routed_by(library::ROUTING, job);
    assert_eq!(routed.records, records);
    assert_eq!(routed.joined.totals, totals);
    assert_eq!(routed.joined.map, map);
    let plan = pack(records);
    let (result, left) = replay::check(&job.pack(), &plan, board.vertices(), board.work_need());
    assert_eq!(result, succeeded(totals));
    assert_eq!(left, map);
}

/// The pins of job A's net.
const A: [Vertex; 2] = [vertex(0, 0, 0), vertex(0, 0, 3)];

/// Vertices out of its way.
const SPARE: [Vertex; 3] = [vertex(0, 2, 1), vertex(1, 3, 7), vertex(0, 3, 0)];

/// Vertices that are metal of this net alone.
fn metal(net: u16, vertices: &[Vertex]) -> Vec<(Vertex, u16)> {
    vertices.iter().map(|at| (*at, net)).collect()
}

#[test]
fn first_last_and_between() {
    let near = [vertex(0, 1, 6), vertex(0, 1, 7)];
    let job = plain(&[&SPARE[..1], &A, &SPARE[1..2], &near, &SPARE[2..]]);
    let records = [
        Record::of(A[0], &[High, High, High], 3),
        Record::of(near[0], &[High], 1),
    ];
    let wire = [0, 1, 2, 3].map(|column| vertex(0, 0, column));
    let metal = [
        metal(1, &SPARE[..1]),
        metal(2, &wire),
        metal(3, &SPARE[1..2]),
        metal(4, &near),
        metal(5, &SPARE[2..]),
    ];
    check(&job, &records, Totals::of(4, 0, 0, 5), &metal.concat());
}

/// On one layer no join leads from row to row.
#[test]
fn beside_a_net_that_stays_open() {
    let open = [vertex(0, 0, 0), vertex(0, 1, 0)];
    let job = Job {
        layers: plain_layers(1),
        ..plain(&[&SPARE[..1], &open, &SPARE[2..]])
    };
    let metal = [
        metal(1, &SPARE[..1]),
        metal(2, &open),
        metal(3, &SPARE[2..]),
    ];
    let totals = Totals::of(0, 0, 0, 2);
    check(&job, &[Record::NoJoin], totals, &metal.concat());
}

/// A job of so many nets of one pin each, on one layer of 16 by 16.
fn alone(nets: usize) -> (Job, Vec<Vertex>) {
    let grid = Grid {
        layers: 1,
        rows: 16,
        columns: 16,
        direction: 0,
    };
    let pins: Vec<Vertex> = (0..nets as u32).map(|n| grid.numbered(255 - n)).collect();
    let nets: Vec<&[Vertex]> = pins.chunks(1).collect();
    let job = Job {
        rows: 16,
        columns: 16,
        layers: plain_layers(1),
        ..plain(&nets)
    };
    (job, pins)
}

#[test]
fn alone_they_have_a_plan_of_no_bytes() {
    for nets in [1, 2, MOST_NETS] {
        let (job, pins) = alone(nets);
        let metal: Vec<(Vertex, u16)> = pins.into_iter().zip(1..).collect();
        check(&job, &[], Totals::of(0, 0, 0, nets as u64), &metal);
        assert_eq!(pack(&[]), []);
    }
}

#[test]
fn alone_they_take_no_record() {
    let bytes = alone(2).0.pack();
    let (number, place) = (15, 0);
    for plan in [[0x00], [0x80], [0x01]] {
        let (result, left) = replay::check(&bytes, &plan, 256, 4_096);
        assert_eq!(result, refused(Refusal { number, place }));
        assert_eq!(left, [0; 256]);
    }
}

/// With one row there is no way around the pin, whichever net comes first.
#[test]
fn the_pin_blocks_other_nets() {
    let pin = [vertex(0, 0, 1)];
    for (nets, of_a, of_pin) in [([&A[..], &pin], 1, 2), ([&pin, &A[..]], 2, 1)] {
        let job = Job {
            rows: 1,
            ..plain(&nets)
        };
        let metal = [metal(of_a, &A), metal(of_pin, &pin)];
        let totals = Totals::of(0, 0, 0, 1);
        check(&job, &[Record::NoJoin], totals, &metal.concat());
    }
}

/// Around the pin by row 3. By row 1 the moves are fewer and the cost is the same, since the
/// segments on layer 1 owe 2 steps each; but high comes before down.
#[test]
fn other_nets_go_around_the_pin() {
    let pin = [vertex(0, 0, 1)];
    let around = [
        Up, High, High, High, Down, High, High, High, Up, Low, Low, Low, Down,
    ];
    let row = [0, 1, 2, 3].map(|column| vertex(0, 3, column));
    let columns = [0, 3].map(|column| [0, 1, 2, 3].map(|row| vertex(1, row, column)));
    let metal = [
        metal(1, &pin),
        metal(2, &A),
        metal(2, &row),
        metal(2, &columns.concat()),
    ];
    let records = [Record::of(A[0], &around, 17)];
    let totals = Totals::of(17, 0, 0, 2);
    check(&plain(&[&pin, &A]), &records, totals, &metal.concat());
}

/// Job E in one column has room for 3 steps on rows 1 to 3; with the pin on row 3, for 2.
#[test]
fn the_pin_stops_an_extension() {
    let through = [vertex(0, 0, 0), vertex(2, 0, 0)];
    let tower = |nets: &[&[Vertex]]| Job {
        columns: 1,
        layers: plain_layers(3),
        ..plain(nets)
    };
    let rows = [0, 1, 2, 3].map(|row| vertex(1, row, 0));
    let extended = [metal(1, &through), metal(1, &rows)];
    let records = [Record::of(through[0], &[Up, Up], 7)];
    let totals = Totals::of(7, 3, 0, 1);
    check(&tower(&[&through]), &records, totals, &extended.concat());
    let stopped = [
        metal(1, &through),
        metal(1, &rows[..1]),
        metal(2, &rows[3..]),
    ];
    let records = [Record::of(through[0], &[Up, Up], 54)];
    let totals = Totals::of(54, 0, 1, 2);
    check(
        &tower(&[&through, &rows[3..]]),
        &records,
        totals,
        &stopped.concat(),
    );
}

/// The plain job with one net of one pin: its head at bit 160, its pin at 168, its boxes from 187.
fn one_pin() -> Job {
    plain(&[&SPARE[..1]])
}

fn with_box(low: Vertex, high: Vertex) -> Job {
    let mut job = one_pin();
    job.nets[0].boxes.push(GuideBox { low, high });
    job
}

#[test]
fn boxes_are_read_and_change_nothing() {
    for job in [
        one_pin(),
        with_box(SPARE[0], SPARE[0]),
        with_box(vertex(0, 0, 0), vertex(1, 3, 7)),
        with_box(vertex(1, 3, 7), vertex(1, 3, 7)),
    ] {
        check(&job, &[], Totals::of(0, 0, 0, 1), &metal(1, &SPARE[..1]));
    }
}

/// Every call refuses the bytes so, and leaves its slices as found.
fn check_refused(bytes: &[u8], number: u64, place: u64) {
    let refusal = Refusal { number, place };
    assert_eq!(compare::check("one pin", bytes), sizing::refused(refusal));
    let (result, left) = replay::check(bytes, &[], 200, 2_000);
    assert_eq!(result, refused(refusal));
    assert!(left.iter().all(|code| *code > 257), "as found");
    let (mut map, mut work, mut plan) = ([9; 200], [9; 2_000], [9; 20]);
    let result = (library::ROUTING)(bytes, &mut map, &mut work, &mut plan);
    assert_eq!(result, routing::refused(refusal));
    assert_eq!((map, work, plan), ([9; 200], [9; 2_000], [9; 20]));
}

#[test]
fn the_rules_of_its_boxes_hold() {
    for (low, high) in [
        (vertex(1, 0, 0), vertex(0, 3, 7)),
        (vertex(0, 1, 0), vertex(0, 0, 7)),
        (vertex(0, 0, 7), vertex(0, 3, 6)),
        (vertex(0, 0, 0), vertex(2, 3, 7)),
        (vertex(0, 0, 0), vertex(0, 4, 7)),
        (vertex(0, 0, 0), vertex(0, 3, 8)),
    ] {
        check_refused(&with_box(low, high).pack(), 10, 187);
    }
}

#[test]
fn the_rules_of_its_pin_hold() {
    for outside in [vertex(2, 0, 0), vertex(0, 4, 0), vertex(0, 0, 8)] {
        check_refused(&plain(&[&[outside]]).pack(), 8, 168);
    }
    let mut covered = one_pin();
    covered.obstacles.push(Obstacle {
        start: vertex(0, 2, 0),
        run: 2,
    });
    check_refused(&covered.pack(), 8, 168 + 27);
    check_refused(&plain(&[&A, &A[1..]]).pack(), 9, 214);
    check_refused(&plain(&[&A[1..], &A]).pack(), 9, 168 + 19 + 8 + 19);
    check_refused(&plain(&[&A[1..], &A[1..]]).pack(), 9, 168 + 19 + 8);
}

#[test]
fn cut_or_lengthened_it_is_refused() {
    let bytes = one_pin().pack();
    check_refused(&bytes[..20], 2, 160);
    for length in 21..24 {
        check_refused(&bytes[..length], 2, 168);
    }
    let boxed = with_box(SPARE[0], SPARE[0]).pack();
    for length in 24..29 {
        check_refused(&boxed[..length], 2, 187);
    }
    let mut longer = bytes.clone();
    longer.push(0);
    check_refused(&longer, 11, 187);
    let mut spoilt = bytes;
    spoilt[23] |= 1;
    check_refused(&spoilt, 11, 187);
}
