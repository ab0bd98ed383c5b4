//! Times the library's replay and its wire report on long plans: for each the best of
//! several runs in this process, and the nanoseconds for each move.

use std::time::{Duration, Instant};

use maizespell_tests::generate::benchmark;
use maizespell_tests::grid::{vertex, Grid};
use maizespell_tests::job::{Job, Layer, Net};
use maizespell_tests::library::{ReplayResult, REPLAY, REPORT, ROUTING};
use maizespell_tests::plan::{pack, unpack, Record};
use maizespell_tests::report::COUNTS;
use maizespell_tests::rules::board::Board;
use maizespell_tests::rules::moves::Move::{self, Down, High, Low, Up};

const RUNS: usize = 60;

/// Columns of the ring, and how often it is gone round.
const COLUMNS: usize = 64;
const LAPS: usize = 8_000;

/// More than the routed plan has.
const PLAN_BYTES: usize = 1 << 20;

fn main() {
    println!("best of {RUNS} runs of replay and of the wire report, ns for each move");
    let (job, plan) = ring();
    time("ring, steps", &job, &plan);
    let (job, plan) = shaft();
    time("shaft, vias", &job, &plan);
    let job = benchmark::nets_anywhere();
    let plan = routed(&job);
    time("4 x 64 x 64, 255 nets anywhere", &job, &plan);
}

/// Both calls by turns, so that what else the machine does meets both.
fn time(name: &str, job: &Job, plan: &[u8]) {
    let board = Board::new(job);
    let mut map = vec![0; board.vertices()];
    let mut work = vec![0; board.work_need()];
    let mut report = vec![0; COUNTS];
    let bytes = job.pack();
    let mut best = [Duration::MAX; 2];
    for _ in 0..RUNS {
        let replayed = timed(|| REPLAY(&bytes, plan, &mut map, &mut work));
        let reported = timed(|| REPORT(&bytes, plan, &mut map, &mut work, &mut report));
        best = [best[0].min(replayed), best[1].min(reported)];
    }
    let records = unpack(job, plan);
    let joins = records.iter().filter_map(Record::join);
    let moves: usize = joins.map(|join| join.moves.len()).sum();
    println!("{name}: {moves} moves");
    for (call, best) in ["replay", "report"].into_iter().zip(best) {
        let (ms, each) = (
            best.as_secs_f64() * 1e3,
            best.as_secs_f64() * 1e9 / moves as f64,
        );
        println!("  {call} {ms:.3} ms, {each:.2} ns");
    }
}

/// How long an accepted plan takes.
fn timed(call: impl FnOnce() -> ReplayResult) -> Duration {
    let begin = Instant::now();
    let result = call();
    let time = begin.elapsed();
    assert_eq!(result.refusal, 0, "{result:?}");
    time
}

/// Three layers of two rows at price 1, the second pin beside the way.
fn ring_job() -> Job {
    let grid = Grid {
        layers: 3,
        rows: 2,
        columns: COLUMNS as u32,
        direction: 0,
    };
    let layer = |via_price| Layer {
        wire_price: 1,
        via_price,
        min_length: 1,
        area_penalty: 1,
    };
    Job {
        layers: [1, 1, 0].map(layer).to_vec(),
        nets: vec![Net {
            pins: vec![vertex(0, 0, 0), vertex(1, 1, 0)],
            boxes: Vec::new(),
        }],
        ..Job::on(&grid)
    }
}

fn join(job: Job, moves: &[Move], cost: u64) -> (Job, Vec<u8>) {
    (job, pack(&[Record::of(vertex(0, 0, 0), moves, cost)]))
}

/// Along the lowest layer and back along the highest, many times. Between them
/// a fresh segment of the middle layer is lengthened by one step.
fn ring() -> (Job, Vec<u8>) {
    let along = COLUMNS - 1;
    let mut lap = vec![High; along];
    lap.extend([Up, Up]);
    lap.extend(vec![Low; along]);
    lap.extend([Down, Down]);
    let mut moves = lap.repeat(LAPS);
    moves.extend([Up, High]);
    let cost = LAPS * (2 * along + 4 + 2) + 3;
    join(ring_job(), &moves, cost as u64)
}

/// Up and down, each segment but the first lengthened by one step.
fn shaft() -> (Job, Vec<u8>) {
    let rounds = LAPS * COLUMNS;
    let mut moves = [Up, Down].repeat(rounds);
    moves.extend([Up, High]);
    let cost = 2 * (2 * rounds + 1) - 1 + 1;
    join(ring_job(), &moves, cost as u64)
}

fn routed(job: &Job) -> Vec<u8> {
    let board = Board::new(job);
    let mut map = vec![0; board.vertices()];
    let mut work = vec![0; board.work_need()];
    let mut plan = vec![0; PLAN_BYTES];
    let result = ROUTING(&job.pack(), &mut map, &mut work, &mut plan);
    plan.truncate(result.bytes as usize);
    plan
}
