//! Asks every call of the library, and the second implementation, about jobs and plans
//! from a seed on, until the time is over; then prints how often each kind and each
//! number came up.
//!
//! Slices lie against pages that cannot be touched: a fault of the library ends the
//! process, and so does the first difference, with a report. Round after round has the
//! next seed, and standard error has the seeds as they come, so that a round is found
//! and made again with `--seed`.

use std::env;
use std::process::ExitCode;
use std::thread;
use std::time::{Duration, Instant, SystemTime, UNIX_EPOCH};

use maizespell_tests::fuzz::Fuzz;

const USAGE: &str = "fuzz [--seconds N] [--seed S]";
const SECONDS: u64 = 60;

/// How often standard error gets the seed at hand.
const TOLD_EVERY: Duration = Duration::from_secs(5);

struct Asked {
    time: Duration,
    seed: u64,
}

/// None where the arguments are not as in the usage.
fn asked(arguments: &[String]) -> Option<Asked> {
    let mut asked = Asked {
        time: Duration::from_secs(SECONDS),
        seed: seed_of_now(),
    };
    for option in arguments.chunks(2) {
        let [name, value] = option else {
            return None;
        };
        let value = value.parse().ok()?;
        match name.as_str() {
            "--seconds" => asked.time = Duration::from_secs(value),
            "--seed" => asked.seed = value,
            _ => return None,
        }
    }
    Some(asked)
}

/// Another one each time.
fn seed_of_now() -> u64 {
    let since = SystemTime::now().duration_since(UNIX_EPOCH);
    since.map_or(0, |time| time.as_nanos() as u64 >> 10)
}

/// Says which round it was, where one panics.
struct Round(u64);

impl Drop for Round {
    fn drop(&mut self) {
        if thread::panicking() {
            eprintln!("in the round of --seed {}", self.0);
        }
    }
}

fn main() -> ExitCode {
    let arguments: Vec<String> = env::args().skip(1).collect();
    let Some(Asked { time, seed }) = asked(&arguments) else {
        eprintln!("{USAGE}");
        return ExitCode::FAILURE;
    };
    println!("seed {seed}");
    let fuzz = run(seed, time);
    println!("{fuzz}");
    let (rounds, seconds) = (fuzz.rounds(), time.as_secs());
    println!("{rounds} rounds in {seconds} seconds from seed {seed}, no difference");
    ExitCode::SUCCESS
}

/// Panics at the first difference.
fn run(seed: u64, time: Duration) -> Fuzz {
    let begin = Instant::now();
    let mut told = begin;
    let mut fuzz = Fuzz::default();
    while begin.elapsed() < time {
        let round = Round(seed.wrapping_add(fuzz.rounds()));
        fuzz.round(round.0);
        fuzz.assert_same();
        if told.elapsed() >= TOLD_EVERY {
            told = Instant::now();
            eprintln!("{} rounds, last --seed {}", fuzz.rounds(), round.0);
        }
    }
    fuzz
}
