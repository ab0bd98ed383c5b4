//! Generated jobs, good and damaged: the library against the second reader.
//!
//! `cargo test --release -- --nocapture` shows the table of refusals.

use std::thread;

use maizespell_tests::compare::Tally;
use maizespell_tests::damage::{aimed, blind};
use maizespell_tests::generate::good_job;
use maizespell_tests::job::Job;
use maizespell_tests::random::Random;
use maizespell_tests::reader::{read, RETIRED};

/// Each seed makes this many good jobs, and from each some twenty damaged ones.
const SEEDS: [u64; 2] = [2_024, 31_337];
const JOBS: u32 = 8_000;

/// Every so many jobs one is made too long.
const TOO_LONG_EVERY: u32 = 100;

fn ask_good(tally: &mut Tally, job: &Job) {
    let bytes = job.pack();
    assert_eq!(read(&bytes).as_ref(), Ok(job), "the second reader is wrong");
    tally.ask("generated", &bytes);
}

/// One rule broken, each in turn; the second reader must see it as aimed.
fn ask_aimed(tally: &mut Tally, good: &Job, random: &mut Random) {
    for number in aimed::RULES {
        if let Some(damaged) = aimed::aimed(number, good, random) {
            let refusal = damaged.refusal;
            assert_eq!(read(&damaged.bytes), Err(refusal), "missed the aim");
            tally.ask("one rule broken", &damaged.bytes);
        }
    }
}

/// Several rules broken: the first in reading order counts.
fn ask_aimed_twice(tally: &mut Tally, good: &Job, random: &mut Random) {
    let mut job = good.clone();
    let later = 1 + random.index(aimed::DATA_RULES.len() - 1);
    let earlier = random.index(later);
    for rule in [later, earlier] {
        aimed::break_rule(aimed::DATA_RULES[rule], &mut job, random);
    }
    let mut bytes = job.pack();
    tally.ask("two rules broken", &bytes);
    blind::cut(&mut bytes, random);
    tally.ask("two rules broken, cut", &bytes);
}

fn ask_blind(tally: &mut Tally, good: &[u8], random: &mut Random) {
    for _ in 0..3 {
        let mut bytes = good.to_vec();
        blind::flip_bits(&mut bytes, random);
        tally.ask("bits flipped", &bytes);
    }
    let mut bytes = good.to_vec();
    blind::cut(&mut bytes, random);
    tally.ask("cut", &bytes);
    let mut bytes = good.to_vec();
    blind::lengthen(&mut bytes, random);
    tally.ask("lengthened", &bytes);
    let mut bytes = good.to_vec();
    blind::scramble(&mut bytes, random);
    tally.ask("scrambled", &bytes);
    tally.ask("random bytes", &blind::random_bytes(random));
}

fn ask_too_long(tally: &mut Tally, good: &[u8], buffer: &mut Vec<u8>, random: &mut Random) {
    let refusal = aimed::too_long(good, buffer, random);
    assert_eq!(read(buffer), Err(refusal), "missed the aim");
    tally.ask("too long", buffer);
}

fn run(seed: u64) -> Tally {
    let mut random = Random::new(seed);
    let mut tally = Tally::default();
    let mut buffer = Vec::new();
    for count in 0..JOBS {
        let job = good_job(&mut random);
        let bytes = job.pack();
        ask_good(&mut tally, &job);
        ask_aimed(&mut tally, &job, &mut random);
        ask_aimed_twice(&mut tally, &job, &mut random);
        ask_blind(&mut tally, &bytes, &mut random);
        if count % TOO_LONG_EVERY == 0 {
            ask_too_long(&mut tally, &bytes, &mut buffer, &mut random);
        }
    }
    tally
}

#[test]
fn generated_jobs_get_the_answer_of_the_second_reader() {
    let runs = SEEDS.map(|seed| thread::spawn(move || run(seed)));
    let mut tally = Tally::default();
    for run in runs {
        tally.merge(run.join().expect("a run has failed"));
    }
    println!("{tally}");
    tally.assert_same();
    assert!(tally.jobs >= 100_000);
    assert_eq!(tally.hits[RETIRED], 0);
    assert!(tally.hits[1] >= 20, "refusal 1 is rare");
    for number in aimed::RULES {
        assert!(
            tally.hits[number as usize] >= 1_000,
            "refusal {number} is rare"
        );
    }
    for number in [2, 5, 6, 8, 9, 10, 11] {
        assert!(tally.places[number].len() >= 20, "few places of {number}");
    }
}
