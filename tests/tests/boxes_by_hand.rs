//! Every box of a small grid against every vertex. A join of one step into the vertex tells what
//! the guide says of it: it costs the wire alone inside, the guide penalty too outside, and where
//! that is closed there is none. Replay takes the plan at that cost and at no other.
//!
//! Wires cost 1, the guide penalty is 10 or closed.

use maizespell_tests::compare::replay;
use maizespell_tests::grid::{vertex, Grid, Vertex};
use maizespell_tests::job::{GuideBox, Job, CLOSED};
use maizespell_tests::library;
use maizespell_tests::marked::{plain, plain_layers};
use maizespell_tests::plan::{pack, Record};
use maizespell_tests::routing::routed_by;
use maizespell_tests::rules::board::Board;

/// Refused where the cost is not the join's.
const OTHER_COST: u64 = 18;

/// Low and high of every span below a size.
fn spans(size: u32) -> Vec<(u32, u32)> {
    let from = |low| (low..size).map(move |high| (low, high));
    (0..size).flat_map(from).collect()
}

fn boxes(grid: &Grid) -> Vec<GuideBox> {
    let mut boxes = Vec::new();
    for layers in spans(grid.layers) {
        for rows in spans(grid.rows) {
            for columns in spans(grid.columns) {
                boxes.push(GuideBox {
                    low: vertex(layers.0, rows.0, columns.0),
                    high: vertex(layers.1, rows.1, columns.1),
                });
            }
        }
    }
    boxes
}

/// Each vertex of the grid, after a neighbour on its track.
fn steps(grid: &Grid) -> Vec<[Vertex; 2]> {
    let mut steps = Vec::new();
    for track in grid.tracks() {
        for place in 0..track.length {
            let beside = if place == 0 { 1 } else { place - 1 };
            let at = |place| grid.numbered(track.vertex(place) as u32);
            steps.push([at(beside), at(place)]);
        }
    }
    steps
}

/// The cost of the join that routing finds; replay takes it, and at one more turns it back.
fn cost(job: &Job) -> Option<u64> {
    let board = Board::new(job);
    let routed = routed_by(library::ROUTING, job);
    let replayed = |records: &[Record]| {
        let plan = pack(records);
        let (result, _) = replay::check(&job.pack(), &plan, board.vertices(), board.work_need());
        result.refusal
    };
    assert_eq!(replayed(&routed.records), 0);
    let join = routed.records[0].join()?;
    let dearer = Record::of(join.start, &join.moves, join.cost + 1);
    assert_eq!(replayed(&[dearer]), OTHER_COST);
    Some(join.cost)
}

/// The guide's verdict on the vertex of a step is that some box holds it.
fn check(grid: &Grid, step: &[Vertex; 2], boxes: &[GuideBox]) -> bool {
    let outside = |guide: &GuideBox| guide.outside_by(step[1]).is_some();
    let inside = !boxes.iter().all(outside);
    let mut job = Job {
        rows: grid.rows,
        columns: grid.columns,
        layers: plain_layers(grid.layers as usize),
        ..plain(&[step])
    };
    job.nets[0].boxes = boxes.to_vec();
    assert_eq!(cost(&job), Some(if inside { 1 } else { 11 }), "{job:?}");
    job.guide_penalty = CLOSED;
    assert_eq!(cost(&job), inside.then_some(1), "{job:?}");
    inside
}

#[test]
fn every_box_and_every_vertex() {
    let grid = Grid {
        layers: 3,
        rows: 3,
        columns: 4,
        direction: 0,
    };
    let mut verdicts = [0, 0];
    for guide in boxes(&grid) {
        for step in steps(&grid) {
            verdicts[usize::from(check(&grid, &step, &[guide]))] += 1;
        }
    }
    println!("outside and inside: {verdicts:?}");
    // 6 spans of layers with 10 layers in all, 6 of rows with 10, 10 of columns with 20
    let (asked, inside) = (6 * 6 * 10 * 36, 10 * 10 * 20);
    assert_eq!(verdicts, [asked - inside, inside]);
}

#[test]
fn every_two_boxes() {
    let grid = Grid {
        layers: 2,
        rows: 2,
        columns: 2,
        direction: 0,
    };
    for first in boxes(&grid) {
        for second in boxes(&grid) {
            for step in steps(&grid) {
                check(&grid, &step, &[first, second]);
            }
        }
    }
}
