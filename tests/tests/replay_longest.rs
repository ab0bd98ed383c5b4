//! A join with as many moves as its count can say, at high prices: replay and the wire
//! report.

use std::time::Instant;

use maizespell_tests::compare::replay::{Case, Comparison};
use maizespell_tests::compare::wire_report;
use maizespell_tests::grid::vertex;
use maizespell_tests::job::{GuideBox, Job, Layer, Net, CLOSED, EDITION};
use maizespell_tests::library::{ReplayResult, REPLAY};
use maizespell_tests::plan::{pack, Join, Record};
use maizespell_tests::reader::Refusal;
use maizespell_tests::replay::refused;
use maizespell_tests::report::every_kind::counts;
use maizespell_tests::report::{worth, COUNTS};
use maizespell_tests::rules::moves::Move::{self, Down, High, Up};

const MOST_MOVES: usize = (1 << 20) - 1;

/// The highest price and the highest penalty that isn't closed.
const PRICE: u32 = 1_023;
const PENALTY: u32 = CLOSED - 1;

/// Two columns on two layers. The second pin alone is inside the guide, and no
/// segment has room for its extension.
fn job() -> Job {
    let pins = vec![vertex(0, 0, 0), vertex(0, 0, 1)];
    let boxes = vec![GuideBox {
        low: pins[1],
        high: pins[1],
    }];
    let layer = |via_price| Layer {
        wire_price: PRICE,
        via_price,
        min_length: 15,
        area_penalty: PENALTY,
    };
    Job {
        edition: EDITION,
        direction: 0,
        columns: 2,
        rows: 1,
        guide_penalty: PENALTY,
        short_penalty: PENALTY,
        layers: vec![layer(PRICE), layer(0)],
        obstacles: Vec::new(),
        nets: vec![Net { pins, boxes }],
    }
}

/// Up and down between the first pin and the vertex above, then this last move.
fn plan(last: Move, cost: u64) -> Vec<u8> {
    let mut moves: Vec<Move> = [Up, Down].into_iter().cycle().take(MOST_MOVES).collect();
    moves[MOST_MOVES - 1] = last;
    pack(&[Record::Join(Join {
        start: vertex(0, 0, 0),
        moves,
        cost,
    })])
}

/// Every via enters outside the guide, and all but the first leave a segment that
/// is penalised; the last step is inside.
fn cost() -> u64 {
    let vias = MOST_MOVES as u64 - 1;
    vias * u64::from(PRICE + PENALTY) + (vias - 1) * u64::from(PENALTY) + u64::from(PRICE)
}

fn case<'a>(job: &'a [u8], plan: &'a [u8]) -> Case<'a> {
    Case {
        kind: "longest",
        job,
        plan,
        map_len: 5,
        work_len: 300,
    }
}

fn answer(plan: &[u8]) -> ReplayResult {
    let mut comparison = Comparison::of(REPLAY);
    let begin = Instant::now();
    let result = comparison.ask(&case(&job().pack(), plan));
    println!("longest join, twice: {:?}", begin.elapsed());
    comparison.tally.assert_same();
    result
}

fn refusal(number: u64, place: u64) -> ReplayResult {
    refused(Refusal { number, place })
}

#[test]
fn longest_join_passes() {
    let expected = ReplayResult {
        cost: cost(),
        penalties: MOST_MOVES as u64 - 2,
        joined: 1,
        ..ReplayResult::default()
    };
    assert_eq!(answer(&plan(High, cost())), expected);
}

/// Half of the vias go up, half down. The first leaves a segment that is paid.
#[test]
fn longest_join_is_counted() {
    let (bytes, plan) = (job().pack(), plan(High, cost()));
    let answer = wire_report::check(&case(&bytes, &plan), &[0; COUNTS]);
    let vias = MOST_MOVES as u64 - 1;
    let half = vias / 2;
    let below = [1, vias, 0, half - 1, half, 0];
    let above = [0, 0, 0, half, half, 0];
    assert_eq!(answer.report, counts(&[below, above]));
    assert_eq!(worth(&job(), &answer.report), cost());
}

#[test]
fn longest_join_with_damage_at_its_end() {
    let moves_end = 40 + 2 * MOST_MOVES as u64;
    let last_move = moves_end - 2;
    assert_eq!(answer(&plan(Up, cost())), refusal(17, last_move));
    assert_eq!(answer(&plan(High, cost() + 1)), refusal(18, moves_end));
    let mut cut = plan(High, cost());
    cut.pop();
    assert_eq!(answer(&cut), refusal(15, moves_end));
    for bytes in [moves_end / 8, 100_000] {
        cut.truncate(bytes as usize);
        assert_eq!(answer(&cut), refusal(15, bytes * 8));
    }
}
