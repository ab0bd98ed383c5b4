//! The comparison itself: a replay with one small fault is found out.

use maizespell_tests::generate::routable::any_routable_job;
use maizespell_tests::library::ReplayResult;
use maizespell_tests::pairs::Pairs;
use maizespell_tests::reader::read;
use maizespell_tests::replay::{read_plan, replay, replay_by, Replay};
use maizespell_tests::rules::board::Board;
use maizespell_tests::rules::mispriced::MISPRICED;

const SEED: u64 = 12;
const JOBS: u32 = 25;

/// Wrong penalties make a difference in fewer jobs.
const MISPRICED_JOBS: u32 = 200;

/// The second replay with a fault, each with what it does wrong.
const FAULTY: [(&str, Replay); 11] = [
    ("cost one more", |job, plan, map, work| {
        let mut result = replay(job, plan, map, work);
        result.cost += u64::from(result.refusal == 0);
        result
    }),
    ("nets joined with each penalty", |job, plan, map, work| {
        let mut result = replay(job, plan, map, work);
        result.joined += u64::from(result.penalties > 0);
        result
    }),
    ("nets of one pin not counted", |job, plan, map, work| {
        let mut result = replay(job, plan, map, work);
        if let (0, Ok(job)) = (result.refusal, read(job)) {
            result.joined -= job.one_pin_nets() as u64;
        }
        result
    }),
    ("added steps left out", |job, plan, map, work| {
        let mut result = replay(job, plan, map, work);
        result.added = 0;
        result
    }),
    ("move counted from its end", |job, plan, map, work| {
        let mut result = replay(job, plan, map, work);
        result.place += 2 * u64::from(result.refusal == 17);
        result
    }),
    ("short work called a short map", |job, plan, map, work| {
        let mut result = replay(job, plan, map, work);
        if result.refusal == 13 {
            result.refusal = 12;
        }
        result
    }),
    ("work not zero", |job, plan, map, work| {
        let result = replay(job, plan, map, work);
        if result.refusal == 0 {
            work[0] = 1;
        }
        result
    }),
    ("work beyond its need zero", |job, plan, map, work| {
        let result = replay(job, plan, map, work);
        if let (0, Some(last)) = (result.refusal, work.last_mut()) {
            *last = 0;
        }
        result
    }),
    ("map beyond its need zero", |job, plan, map, work| {
        let result = replay(job, plan, map, work);
        if let (0, Some(last)) = (result.refusal, map.last_mut()) {
            *last = 0;
        }
        result
    }),
    ("map left by a refused plan", |job, plan, map, work| {
        let result = replay(job, plan, map, work);
        if result.refusal >= 15 {
            map[0] = 1;
        }
        result
    }),
    ("map zero after a bad job", |job, plan, map, work| {
        let result = replay(job, plan, map, work);
        if (1..=13).contains(&result.refusal) {
            map.fill(0);
        }
        result
    }),
];

/// The second replay at the wrong penalties of this number.
fn mispriced<const N: usize>(
    job: &[u8],
    plan: &[u8],
    map: &mut [u16],
    work: &mut [u64],
) -> ReplayResult {
    let read_plan = |board: &Board, plan: &[u8]| {
        let board = Board::with_penalty(board.job, MISPRICED[N].1);
        read_plan(&board, plan)
    };
    replay_by(read_plan, job, plan, map, work)
}

const AT_WRONG_PENALTIES: [Replay; MISPRICED.len()] = [
    mispriced::<0>,
    mispriced::<1>,
    mispriced::<2>,
    mispriced::<3>,
];

fn differences(replay: Replay, jobs: u32) -> u64 {
    let mut pairs = Pairs::of(replay, SEED);
    pairs.ask_jobs(jobs, any_routable_job);
    pairs.comparison.tally.differences
}

#[test]
fn every_fault_is_found_out() {
    for (fault, replay) in FAULTY {
        assert!(differences(replay, JOBS) > 0, "not found out: {fault}");
    }
}

#[test]
fn every_wrong_penalty_is_found_out() {
    for ((fault, _), replay) in MISPRICED.iter().zip(AT_WRONG_PENALTIES) {
        let differences = differences(replay, MISPRICED_JOBS);
        println!("{differences} pairs of {MISPRICED_JOBS} jobs: {fault}");
        assert!(differences > 0, "not found out: {fault}");
    }
}

#[test]
fn the_second_replay_agrees_with_itself() {
    assert_eq!(differences(replay, JOBS), 0);
}
