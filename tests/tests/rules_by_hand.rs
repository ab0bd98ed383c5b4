//! Single moves of the second implementation's rules, reckoned by hand on the
//! grids of the marked jobs.

use maizespell_tests::grid::{vertex, Vertex};
use maizespell_tests::job::{Job, Obstacle, CLOSED};
use maizespell_tests::marked;
use maizespell_tests::rules::board::Board;
use maizespell_tests::rules::metal::Metal;
use maizespell_tests::rules::moves::Move::{self, Down, High, Low, Up};
use maizespell_tests::rules::segment::{Segment, Side};
use maizespell_tests::rules::step::Place;
use maizespell_tests::rules::view::{Cause, View};

const FRESH: Segment = Segment::Fresh;

fn running(side: Side, length: u32) -> Segment {
    Segment::Running { side, length }
}

fn paid(side: Side) -> Segment {
    Segment::Paid { side: Some(side) }
}

/// What a move comes to, with vertices in place of numbers.
#[derive(Debug, PartialEq)]
struct Made {
    to: Vertex,
    segment: Segment,
    entering: u32,
    overhead: u32,
    extension: Vec<Vertex>,
    penalised: bool,
}

/// The move that the job's first net makes, with this metal of its second net.
fn make(job: &Job, metal: &[Vertex], from: (Vertex, Segment), by: Move) -> Result<Made, Cause> {
    let grid = job.grid();
    let board = Board::new(job);
    let mut laid = Metal::before_any_join(&board);
    for v in metal {
        laid.lay(2, grid.number(*v));
    }
    let view = View::of(&board, 1, &laid);
    let place = Place {
        vertex: grid.number(from.0),
        segment: from.1,
    };
    let step = view.step(place, by)?;
    let numbered = |vertex: usize| grid.numbered(vertex as u32);
    let extension = step.extension.into_iter().flat_map(|laid| view.laid(laid));
    Ok(Made {
        to: numbered(step.to.vertex),
        segment: step.to.segment,
        entering: step.entering,
        overhead: step.overhead,
        extension: extension.map(numbered).collect(),
        penalised: step.penalised,
    })
}

/// Three layers of 8 columns and 4 rows, with a price for each thing.
fn job() -> Job {
    let mut job = marked::e();
    for (number, layer) in job.layers.iter_mut().enumerate() {
        layer.wire_price = 3 + number as u32;
    }
    job.layers[0].via_price = 100;
    job.layers[1].via_price = 200;
    job
}

fn step_to(to: Vertex, segment: Segment, entering: u32) -> Result<Made, Cause> {
    Ok(Made {
        to,
        segment,
        entering,
        overhead: 0,
        extension: Vec::new(),
        penalised: false,
    })
}

/// A via out of a segment on layer 1, down or up.
fn via(row: u32, segment: Segment, by: Move, metal: &[Vertex]) -> Result<Made, Cause> {
    make(&job(), metal, (vertex(1, row, 2), segment), by)
}

fn extended(made: Result<Made, Cause>) -> (u32, Vec<u32>) {
    let made = made.expect("a legal move");
    assert!(!made.penalised);
    let rows = made.extension.iter().map(|v| v.row).collect();
    (made.overhead, rows)
}

fn penalised(made: Result<Made, Cause>) -> u32 {
    let made = made.expect("a legal move");
    assert!(made.penalised && made.extension.is_empty());
    made.overhead
}

#[test]
fn a_step_costs_the_wire_price_of_its_layer() {
    let from = (vertex(1, 1, 2), FRESH);
    let high = step_to(vertex(1, 2, 2), running(Side::High, 1), 4);
    assert_eq!(make(&job(), &[], from, High), high);
    let from = (vertex(2, 1, 2), running(Side::Low, 2));
    let low = step_to(vertex(2, 1, 1), paid(Side::Low), 5);
    assert_eq!(make(&job(), &[], from, Low), low);
}

#[test]
fn a_via_costs_the_price_of_the_lower_layer() {
    let from = (vertex(1, 1, 2), Segment::START);
    let up = step_to(vertex(2, 1, 2), FRESH, 200);
    assert_eq!(make(&job(), &[], from, Up), up);
    let down = step_to(vertex(0, 1, 2), FRESH, 100);
    assert_eq!(make(&job(), &[], from, Down), down);
}

#[test]
fn a_fresh_segment_is_extended_high_then_low() {
    assert_eq!(extended(via(0, FRESH, Up, &[])), (12, vec![1, 2, 3]));
    assert_eq!(extended(via(1, FRESH, Up, &[])), (12, vec![2, 3, 0]));
    assert_eq!(extended(via(2, FRESH, Up, &[])), (12, vec![3, 1, 0]));
    assert_eq!(extended(via(3, FRESH, Down, &[])), (12, vec![2, 1, 0]));
}

#[test]
fn a_running_segment_is_extended_at_the_leaving_end_first() {
    let high = |length| running(Side::High, length);
    assert_eq!(extended(via(1, high(1), Up, &[])), (8, vec![2, 3]));
    assert_eq!(extended(via(2, high(1), Up, &[])), (8, vec![3, 0]));
    assert_eq!(extended(via(3, high(1), Up, &[])), (8, vec![1, 0]));
    assert_eq!(extended(via(2, high(2), Up, &[])), (4, vec![3]));
    assert_eq!(extended(via(3, high(2), Up, &[])), (4, vec![0]));
    let low = |length| running(Side::Low, length);
    assert_eq!(extended(via(2, low(1), Down, &[])), (8, vec![1, 0]));
    assert_eq!(extended(via(1, low(1), Down, &[])), (8, vec![0, 3]));
    assert_eq!(extended(via(0, low(2), Down, &[])), (4, vec![3]));
}

/// No walk comes to these places: the track has fewer vertices behind them than they are long.
#[test]
fn the_track_s_end_is_the_first_vertex_of_a_segment_that_would_reach_beyond() {
    let mut job = job();
    job.layers[1].min_length = 5;
    let up = |row, segment| make(&job, &[], (vertex(1, row, 2), segment), Up);
    assert_eq!(extended(up(1, running(Side::High, 3))), (8, vec![2, 3]));
    assert_eq!(penalised(up(2, running(Side::High, 3))), 50);
    assert_eq!(extended(up(2, running(Side::Low, 3))), (8, vec![1, 0]));
}

#[test]
fn a_paid_segment_owes_nothing() {
    for segment in [Segment::START, paid(Side::High), paid(Side::Low)] {
        assert_eq!(extended(via(3, segment, Up, &[])), (0, vec![]));
    }
}

#[test]
fn other_metal_stops_an_extension() {
    let mut job = job();
    job.nets.push(marked::b().nets[0].clone());
    job.nets[1].pins = vec![vertex(0, 3, 7), vertex(1, 3, 7)];
    let up = |metal: &[Vertex]| make(&job, metal, (vertex(1, 0, 2), FRESH), Up);
    assert_eq!(extended(up(&[])).0, 12);
    assert_eq!(penalised(up(&[vertex(1, 3, 2)])), 50);
    let at_the_pin = make(&job, &[], (vertex(1, 0, 7), FRESH), Up);
    assert_eq!(penalised(at_the_pin), 50);
}

#[test]
fn an_obstacle_stops_an_extension_and_the_guide_does_not() {
    let mut job = job();
    job.obstacles.push(Obstacle {
        start: vertex(1, 3, 2),
        run: 1,
    });
    job.guide_penalty = CLOSED;
    job.nets[0].boxes = marked::j().nets[0].boxes.clone();
    let down = |column| make(&job, &[], (vertex(1, 0, column), FRESH), Down);
    assert_eq!(penalised(down(2)), 50);
    assert_eq!(extended(down(1)), (12, vec![1, 2, 3]));
}

#[test]
fn a_penalty_is_added_to_the_price_of_entering() {
    let mut job = job();
    job.nets.push(marked::b().nets[0].clone());
    job.nets[1].pins = vec![vertex(0, 3, 7), vertex(1, 3, 7)];
    job.nets[0].boxes = marked::j().nets[0].boxes.clone();
    let from = (vertex(0, 0, 2), paid(Side::High));
    let to = vertex(0, 0, 3);
    let entering = |job: &Job, metal: &[Vertex]| {
        let made = make(job, metal, from, High);
        made.map(|made| made.entering)
    };
    assert_eq!(entering(&job, &[]), Ok(3 + 10));
    assert_eq!(entering(&job, &[to]), Ok(3 + 20));
    job.guide_penalty = CLOSED;
    assert_eq!(entering(&job, &[]), Err(Cause::GuideClosed));
    assert_eq!(entering(&job, &[to]), Err(Cause::GuideClosedTaken));
    job.short_penalty = CLOSED;
    assert_eq!(entering(&job, &[to]), Err(Cause::ShortClosedOutside));
    job.guide_penalty = 10;
    assert_eq!(entering(&job, &[to]), Err(Cause::ShortClosedOutside));
    assert_eq!(entering(&job, &[]), Ok(3 + 10));
    job.nets[0].boxes.clear();
    assert_eq!(entering(&job, &[to]), Err(Cause::ShortClosed));
    assert_eq!(entering(&job, &[]), Ok(3));
    job.short_penalty = 20;
    assert_eq!(entering(&job, &[to]), Ok(3 + 20));
}

#[test]
fn forbidden_moves_have_their_cause() {
    let mut job = job();
    job.nets.push(marked::b().nets[0].clone());
    job.nets[1].pins = vec![vertex(0, 0, 2), vertex(1, 3, 7)];
    job.obstacles.push(Obstacle {
        start: vertex(1, 1, 1),
        run: 2,
    });
    for layer in &mut job.layers {
        layer.area_penalty = CLOSED;
    }
    let cause = |from, by| make(&job, &[], from, by).expect_err("a forbidden move");
    let at = vertex(0, 0, 1);
    assert_eq!(cause((at, FRESH), Down), Cause::OffGrid);
    assert_eq!(cause((at, FRESH), High), Cause::OtherPin);
    assert_eq!(cause((at, paid(Side::High)), Low), Cause::StepBack);
    let above = vertex(1, 0, 1);
    assert_eq!(cause((above, FRESH), Low), Cause::OffGrid);
    assert_eq!(cause((above, FRESH), High), Cause::Obstacle);
    assert_eq!(cause((above, FRESH), Up), Cause::AreaClosed);
}
