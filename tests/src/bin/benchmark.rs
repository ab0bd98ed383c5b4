//! Times the library's routing beside the second one on six jobs: for each the best
//! of several runs in this process, and how many times as long the library takes.
//!
//! Both answer the whole call, from the job's bytes to the plan's. Runs end when
//! there were enough and they were not over at once, or when they have taken long;
//! one is always made.
//!
//! How many places the library settles is told with its nanoseconds for each, all
//! that the call does included, and at the end how much these differ.
//!
//! `cargo run --profile benchmark` makes the second router as fast as it gets.

use std::time::{Duration, Instant};

use maizespell_tests::generate::benchmark;
use maizespell_tests::job::Job;
use maizespell_tests::library::{RoutingResult, ROUTING};
use maizespell_tests::router::settled;
use maizespell_tests::routing::{routing, Routing};
use maizespell_tests::rules::board::Board;

const ENOUGH_RUNS: u32 = 50;
const SHORT: Duration = Duration::from_secs(3);
const LONG: Duration = Duration::from_secs(40);

/// More than any plan of these jobs has.
const PLAN_BYTES: usize = 1 << 20;

/// A job with the slices that are lent for it.
struct Lent {
    job: Vec<u8>,
    map: Vec<u16>,
    work: Vec<u64>,
    plan: Vec<u8>,
}

/// What the runs of one routing came to.
struct Timed {
    best: Duration,
    runs: u32,
    result: RoutingResult,
    plan: Vec<u8>,
}

impl Lent {
    fn of(job: &Job) -> Self {
        let board = Board::new(job);
        Lent {
            job: job.pack(),
            map: vec![0; board.vertices()],
            work: vec![0; board.work_need()],
            plan: vec![0; PLAN_BYTES],
        }
    }

    fn run(&mut self, routing: Routing) -> (Duration, RoutingResult) {
        let begin = Instant::now();
        let result = routing(&self.job, &mut self.map, &mut self.work, &mut self.plan);
        (begin.elapsed(), result)
    }

    /// Both routings by turns, so that what else the machine does meets both.
    fn time(&mut self, routings: [Routing; 2]) -> [Timed; 2] {
        let begin = Instant::now();
        let mut timed = routings.map(|routing| Timed::first(self, routing));
        while goes_on(timed[0].runs, begin.elapsed()) {
            for (timed, routing) in timed.iter_mut().zip(routings) {
                timed.best = timed.best.min(self.run(routing).0);
                timed.runs += 1;
            }
        }
        timed
    }
}

impl Timed {
    fn first(lent: &mut Lent, routing: Routing) -> Self {
        let (best, result) = lent.run(routing);
        Timed {
            best,
            runs: 1,
            result,
            plan: lent.plan[..result.bytes as usize].to_vec(),
        }
    }
}

fn main() {
    println!("best of several runs: library, second router, ratio; places settled, ns for each");
    let all_each = benchmark::all().map(|(name, job)| {
        let mut lent = Lent::of(&job);
        let [second, library] = lent.time([routing, ROUTING]);
        assert_eq!(library.result, second.result, "{name}");
        assert!(library.plan == second.plan, "{name}: another plan");
        let [library_ms, second_ms] = [&library, &second].map(|timed| milliseconds(timed.best));
        let ratio = library_ms / second_ms;
        let settled = settled(&Board::new(&job));
        let each = library_ms * 1e6 / settled as f64;
        let runs = (library.runs, second.runs);
        println!(
            "{name}: {library_ms:.2} ms, {second_ms:.2} ms, {ratio:.2}; {settled}, {each:.0} ns (runs {runs:?})"
        );
        each
    });
    let least = all_each.into_iter().fold(f64::INFINITY, f64::min);
    let most = all_each.into_iter().fold(0.0, f64::max);
    println!("ns for each differ by {:.2} times", most / least);
}

fn goes_on(runs: u32, taken: Duration) -> bool {
    taken < LONG && (runs < ENOUGH_RUNS || taken < SHORT)
}

fn milliseconds(time: Duration) -> f64 {
    time.as_secs_f64() * 1_000.0
}
