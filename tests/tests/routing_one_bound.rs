//! A search with one bound for each vertex, and not for each place, misses joins that are
//! cheapest: two jobs that show it, reckoned by hand.

use std::convert::Infallible;

use maizespell_tests::grid::vertex;
use maizespell_tests::job::Job;
use maizespell_tests::joining::join_nets;
use maizespell_tests::library::ROUTING;
use maizespell_tests::marked;
use maizespell_tests::plan::{Join, Record};
use maizespell_tests::router::{one_bound, route, walk};
use maizespell_tests::routing::routed_by;
use maizespell_tests::rules::board::Board;
use maizespell_tests::rules::moves::Move::{Down, High, Low, Up};

/// Both routers make these joins. After the first of them, one bound gives this second one.
fn check(job: &Job, cheapest: [Join; 2], dearer: Join) {
    let records = cheapest.clone().map(Record::Join);
    assert_eq!(routed_by(ROUTING, job).records, records);
    let board = Board::new(job);
    assert_eq!(route(&board).records, records);
    let mut found = Vec::new();
    let mut joins = cheapest.iter();
    let joined = join_nets(&board, |net| {
        found.extend(one_bound::join(&board, net));
        Ok::<_, Infallible>(joins.next().map(|join| walk(&board, net, join)))
    });
    assert!(joined.is_ok());
    let [first, second] = cheapest;
    assert!(dearer.cost > second.cost);
    assert_eq!(found, [first, dearer]);
}

/// The plain job with four layers and three pins. The first join leaves two ways to (2,2,2),
/// below the third pin: high, high, up from (1,0,2) at 4, with a fresh segment that owes 3
/// steps, and high, up, high, high from (1,1,0) at 5, with one that owes a single step. One
/// bound keeps the first: 4 + 3 + 2.
#[test]
fn the_dearer_way_to_a_vertex_owes_less() {
    let job = Job {
        layers: marked::plain_layers(4),
        ..marked::plain(&[&[vertex(1, 1, 0), vertex(1, 0, 2), vertex(3, 2, 2)]])
    };
    let cheapest = [
        Join::of(vertex(1, 1, 0), &[Low, Down, High, High, Up], 8),
        Join::of(vertex(1, 1, 0), &[High, Up, High, High, Up], 8),
    ];
    let dearer = Join::of(vertex(1, 0, 2), &[High, High, Up, Up], 9);
    check(&job, cheapest, dearer);
}

/// One row of 7 columns and four layers. Net 1 covers columns 3 to 6 of layer 2. Net 2 comes to
/// column 2 there over all four, at 22 + 21 + 21 + 21 + 1 with a segment that is paid. Around
/// by layer 0 it comes there at 60, 50 of them for (1,0,2), with a fresh segment that has no
/// room; one bound keeps that: 60 + 50 + 2.
#[test]
fn the_cheaper_way_to_a_vertex_has_no_room() {
    let net_1 = [vertex(1, 0, 3), vertex(3, 0, 4)];
    let net_2 = [vertex(1, 0, 6), vertex(3, 0, 2)];
    let job = Job {
        columns: 7,
        rows: 1,
        layers: marked::plain_layers(4),
        ..marked::plain(&[&net_1, &net_2])
    };
    let cheapest = [
        Join::of(net_1[0], &[Up, High, Up], 7),
        Join::of(net_2[0], &[Up, Low, Low, Low, Low, Up], 88),
    ];
    let dearer = Join::of(net_2[0], &[Down, Low, Low, Low, Low, Up, Up, Up], 112);
    check(&job, cheapest, dearer);
}
