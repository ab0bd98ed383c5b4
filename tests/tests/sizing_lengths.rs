//! Jobs of all lengths: empty, the largest good one, and around 262,144 bytes.

use std::time::Instant;

use maizespell_tests::compare::check;
use maizespell_tests::job::Job;
use maizespell_tests::largest::largest_job;
use maizespell_tests::library::{self, SizingResult};
use maizespell_tests::random::Random;
use maizespell_tests::reader::{Refusal, MOST_BYTES};
use maizespell_tests::sizing::{refused, sized};

fn refusal(number: u64, place: u64) -> SizingResult {
    refused(Refusal { number, place })
}

fn largest() -> Job {
    largest_job(&mut Random::new(1))
}

#[test]
fn no_bytes_are_no_head() {
    assert_eq!(check("empty", &[]), refusal(2, 0));
}

#[test]
fn zeros_up_to_the_limit_have_a_wrong_edition() {
    let zeros = vec![0; MOST_BYTES + 1];
    assert_eq!(check("zeros", &zeros[..MOST_BYTES]), refusal(3, 0));
    assert_eq!(check("zeros", &zeros), refusal(1, 0));
}

#[test]
fn largest_job_passes() {
    let bytes = largest().pack();
    assert_eq!(bytes.len(), 249_345);
    let begin = Instant::now();
    let given = library::sizing(&bytes);
    println!("largest job, {} bytes: {:?}", bytes.len(), begin.elapsed());
    assert_eq!(given, sized(16_384, 15));
    assert_eq!(check("largest", &bytes), given);
}

#[test]
fn largest_job_lengthened() {
    let mut bytes = largest().pack();
    for length in [bytes.len() + 1, MOST_BYTES] {
        bytes.resize(length, 0);
        assert_eq!(check("lengthened", &bytes), refusal(11, 1_994_755));
    }
    bytes.push(0);
    assert_eq!(check("too long", &bytes), refusal(1, 0));
}

#[test]
fn largest_job_with_a_tail_bit() {
    let mut bytes = largest().pack();
    *bytes.last_mut().expect("not empty") |= 1;
    assert_eq!(check("tail bit", &bytes), refusal(11, 1_994_755));
}

#[test]
fn last_obstacle_outside() {
    let mut job = largest();
    job.obstacles[65_534].start.row = 32;
    let place = 80 + 8 * 40 + 65_534 * 27;
    assert_eq!(check("obstacle", &job.pack()), refusal(6, place));
}

#[test]
fn last_pin_on_the_first_pin_or_on_an_obstacle() {
    let good = largest();
    let place = 1_994_755 - 15 * 38 - 19;
    let mut job = good.clone();
    job.nets[254].pins[15] = good.nets[0].pins[0];
    assert_eq!(check("same pin", &job.pack()), refusal(9, place));
    for obstacle in [0, 65_534] {
        job.nets[254].pins[15] = good.obstacles[obstacle].start;
        assert_eq!(check("pin on obstacle", &job.pack()), refusal(8, place));
    }
}

#[test]
fn last_box_outside() {
    let mut job = largest();
    job.nets[254].boxes[14].high.column = 64;
    assert_eq!(check("box", &job.pack()), refusal(10, 1_994_755 - 38));
}
