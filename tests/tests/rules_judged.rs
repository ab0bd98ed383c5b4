//! The second implementation's moves, one by one, against whole lists of moves as
//! `brute` judges them: the same are legal, at the same cost, and what they leave
//! is the same.

use std::convert::Infallible;

use maizespell_tests::brute::Brute;
use maizespell_tests::generate::routable::{routable_job, Size};
use maizespell_tests::job::Job;
use maizespell_tests::joining::{join_nets, NetAtHand, Walk};
use maizespell_tests::random::Random;
use maizespell_tests::router::walk;
use maizespell_tests::rules::board::Board;
use maizespell_tests::rules::moves::Move;
use maizespell_tests::wander::{wander, wandering_plan};

const SEED: u64 = 1_618;
const JOBS: u32 = 1_500;
const MOST_MOVES: u32 = 20;

/// How many moves were judged, and how many of them were legal.
#[derive(Debug, Default)]
struct Seen {
    moves: u32,
    legal: u32,
}

/// Each move after each beginning of a walk at random.
fn check_walk(job: &Job, net: &NetAtHand, brute: &Brute, random: &mut Random, seen: &mut Seen) {
    let start = *random.pick(net.tree());
    let moves = wander(net, start, MOST_MOVES, random);
    let start_vertex = job.grid().numbered(start as u32);
    let mut walk = Walk::start(start);
    for at in 0..=moves.len() {
        for by in Move::ALL {
            let list = [&moves[..at], &[by]].concat();
            let judged = brute.judge(start_vertex, &list).map(|judged| judged.cost);
            let step = net.view.step(walk.place, by).ok();
            let cost = step.map(|step| walk.cost + step.cost());
            assert_eq!(cost, judged, "from {start_vertex:?} by {list:?} in {job:?}");
            seen.moves += 1;
            seen.legal += u32::from(cost.is_some());
        }
        if let Some(by) = moves.get(at) {
            walk.go(net.view.step(walk.place, *by).expect("a legal walk"));
        }
    }
}

/// A plan whose joins wander, and walks from each of its trees.
fn check_job(job: &Job, random: &mut Random, seen: &mut Seen) {
    let board = Board::new(job);
    let plan = wandering_plan(&board, random);
    let mut records = plan.records.iter();
    let mut brute = Brute::new(job);
    let mut begun = 0;
    let joined = join_nets(&board, |net| {
        for next in begun..usize::from(net.number()) {
            brute.begin(next);
            begun = next + 1;
        }
        check_walk(job, net, &brute, random, seen);
        let join = records.next().and_then(|record| record.join());
        if let Some(join) = join {
            brute.join(join);
        }
        Ok::<_, Infallible>(join.map(|join| walk(&board, net, join)))
    });
    (begun..job.nets.len()).for_each(|next| brute.begin(next));
    assert_eq!(joined, Ok(brute.joined()));
    assert_eq!(joined, Ok(plan.joined));
}

#[test]
fn moves_are_judged_alike() {
    let mut random = Random::new(SEED);
    let mut seen = Seen::default();
    for _ in 0..JOBS {
        for size in [Size::Tiny, Size::Small] {
            let job = routable_job(size, &mut random);
            check_job(&job, &mut random, &mut seen);
        }
    }
    println!("{seen:?}");
    assert!(seen.legal >= 50_000 && seen.moves - seen.legal >= 50_000);
}
