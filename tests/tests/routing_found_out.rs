//! The comparison of routings itself: a routing with one fault is found out, and the
//! second one is confirmed by the library's replay.

use std::convert::Infallible;

use maizespell_tests::generate::routable::quick_routable_job;
use maizespell_tests::joining::{join_nets, NetAtHand};
use maizespell_tests::lent::Lent;
use maizespell_tests::library::{RoutingResult, REPLAY};
use maizespell_tests::plan::{Join, Record};
use maizespell_tests::random::Random;
use maizespell_tests::reader::{read, Refusal, RETIRED};
use maizespell_tests::replay::replay;
use maizespell_tests::router::search::Search;
use maizespell_tests::router::{one_bound, route, walk, Routed};
use maizespell_tests::routing::{refused, routing, routing_by, Routing};
use maizespell_tests::rules::board::Board;
use maizespell_tests::rules::mispriced::MISPRICED;
use maizespell_tests::wander::wandering_plan;

const SEED: u64 = 77;
const JOBS: u32 = 120;

/// Wrong penalties make a difference in fewer jobs.
const MISPRICED_JOBS: u32 = 1_000;

/// Jobs on which the second routing is asked against itself.
const AGREED_JOBS: u32 = 4_000;

/// What these joins of the net at hand make.
fn joined_by(board: &Board, mut find: impl FnMut(&NetAtHand) -> Option<Join>) -> Routed {
    let mut records: Vec<Record> = Vec::new();
    let joined = join_nets(board, |net| {
        let join = find(net);
        let walked = join.as_ref().map(|join| walk(board, net, join));
        records.push(join.map_or(Record::NoJoin, Record::Join));
        Ok::<_, Infallible>(walked)
    });
    let Ok(joined) = joined;
    Routed { records, joined }
}

/// The second router, but a net ends where this says so: by its number, counted from
/// 1, and the joins that it has.
fn ending(board: &Board, ends: fn(u16, usize) -> bool) -> Routed {
    let mut search = Search::new(board);
    let mut joins = vec![0; board.job.nets.len() + 1];
    joined_by(board, |net| {
        let joins = &mut joins[usize::from(net.number())];
        let join = search.cheapest(net).filter(|_| !ends(net.number(), *joins));
        *joins += 1;
        join
    })
}

/// The router with one bound for each vertex.
fn by_one_bound(board: &Board) -> Routed {
    joined_by(board, |net| one_bound::join(board, net))
}

/// How many nets of one pin there are, in a good job.
fn one_pin_nets(job: &[u8]) -> u64 {
    read(job).map_or(0, |job| job.one_pin_nets() as u64)
}

/// Where this result is a success.
fn routed(result: &RoutingResult) -> bool {
    result.refusal == 0
}

/// The routers that must not pass by the specification, and small faults of every
/// number and slice.
const FAULTY: [(&str, Routing); 25] = [
    ("none for a reachable pin", |job, map, work, plan| {
        let router = |board: &Board| ending(board, |_, joins| joins > 0);
        routing_by(router, job, map, work, plan)
    }),
    ("first net only", |job, map, work, plan| {
        let router = |board: &Board| ending(board, |net, _| net > 1);
        routing_by(router, job, map, work, plan)
    }),
    ("dearer joins", |job, map, work, plan| {
        let router = |board: &Board| wandering_plan(board, &mut Random::new(3));
        routing_by(router, job, map, work, plan)
    }),
    ("one bound for each vertex", |job, map, work, plan| {
        routing_by(by_one_bound, job, map, work, plan)
    }),
    ("every job turned back", |_, _, _, _| {
        let (number, place) = (2, 0);
        refused(Refusal { number, place })
    }),
    ("14 before routing", |job, map, work, plan| {
        let result = routing(job, map, work, plan);
        if routed(&result) && result.bytes > 0 {
            map.fill(0);
            plan.fill(0);
            let (number, place) = (14, result.bytes);
            return refused(Refusal { number, place });
        }
        result
    }),
    ("one plan for all", |job, map, work, plan| {
        let result = routing(job, map, work, plan);
        if routed(&result) {
            plan[..result.bytes as usize].fill(0);
        }
        result
    }),
    ("map bare", |job, map, work, plan| {
        let result = routing(job, map, work, plan);
        if let (true, Ok(job)) = (routed(&result), read(job)) {
            map[..job.grid().vertices() as usize].fill(0);
        }
        result
    }),
    ("added steps invented", |job, map, work, plan| {
        let mut result = routing(job, map, work, plan);
        result.added += u64::from(routed(&result));
        result
    }),
    ("cost one more", |job, map, work, plan| {
        let mut result = routing(job, map, work, plan);
        result.cost += u64::from(routed(&result));
        result
    }),
    ("penalties left out", |job, map, work, plan| {
        let mut result = routing(job, map, work, plan);
        result.penalties = 0;
        result
    }),
    ("a net joined too many", |job, map, work, plan| {
        let mut result = routing(job, map, work, plan);
        result.joined += u64::from(routed(&result));
        result
    }),
    ("nets of one pin not counted", |job, map, work, plan| {
        let mut result = routing(job, map, work, plan);
        result.joined -= if routed(&result) {
            one_pin_nets(job)
        } else {
            0
        };
        result
    }),
    ("nets of one pin refused", |job, map, work, plan| {
        let (number, place) = (RETIRED as u64, 0);
        if one_pin_nets(job) > 0 {
            return refused(Refusal { number, place });
        }
        routing(job, map, work, plan)
    }),
    ("one byte too many", |job, map, work, plan| {
        let mut result = routing(job, map, work, plan);
        result.bytes += u64::from(routed(&result));
        result
    }),
    ("bytes of a refused job", |job, map, work, plan| {
        let mut result = routing(job, map, work, plan);
        result.bytes += u64::from(!routed(&result));
        result
    }),
    ("short plan, bits for bytes", |job, map, work, plan| {
        let mut result = routing(job, map, work, plan);
        result.place *= if result.refusal == 14 { 8 } else { 1 };
        result
    }),
    ("work not zero", |job, map, work, plan| {
        let result = routing(job, map, work, plan);
        if routed(&result) {
            work[0] = 1;
        }
        result
    }),
    ("work beyond its need zero", |job, map, work, plan| {
        let result = routing(job, map, work, plan);
        if let (true, Some(last)) = (routed(&result), work.last_mut()) {
            *last = 0;
        }
        result
    }),
    ("map beyond its need zero", |job, map, work, plan| {
        let result = routing(job, map, work, plan);
        if let (true, Some(last)) = (routed(&result), map.last_mut()) {
            *last = 0;
        }
        result
    }),
    ("plan beyond its need zero", |job, map, work, plan| {
        let result = routing(job, map, work, plan);
        if routed(&result) {
            plan[result.bytes as usize..].fill(0);
        }
        result
    }),
    ("map left by a short plan", |job, map, work, plan| {
        let result = routing(job, map, work, plan);
        if result.refusal == 14 {
            map[0] = 1;
        }
        result
    }),
    ("plan left by a short plan", |job, map, work, plan| {
        let result = routing(job, map, work, plan);
        if let (14, Some(first)) = (result.refusal, plan.first_mut()) {
            *first = 0x80;
        }
        result
    }),
    ("map zero after a bad job", |job, map, work, plan| {
        let result = routing(job, map, work, plan);
        if (1..=13).contains(&result.refusal) {
            map.fill(0);
        }
        result
    }),
    ("plan zero after a bad job", |job, map, work, plan| {
        let result = routing(job, map, work, plan);
        if (1..=13).contains(&result.refusal) {
            plan.fill(0);
        }
        result
    }),
];

/// The second routing at the wrong penalties of this number.
fn mispriced<const N: usize>(
    job: &[u8],
    map: &mut [u16],
    work: &mut [u64],
    plan: &mut [u8],
) -> RoutingResult {
    let router = |board: &Board| route(&Board::with_penalty(board.job, MISPRICED[N].1));
    routing_by(router, job, map, work, plan)
}

const AT_WRONG_PENALTIES: [Routing; MISPRICED.len()] = [
    mispriced::<0>,
    mispriced::<1>,
    mispriced::<2>,
    mispriced::<3>,
];

/// The differences of this routing from the second one.
fn differences(routing: Routing, jobs: u32) -> u64 {
    let mut lent = Lent::of(routing, replay, SEED);
    lent.ask_jobs(jobs, quick_routable_job);
    lent.comparison.tally.differences
}

#[test]
fn every_fault_is_found_out() {
    for (fault, routing) in FAULTY {
        assert!(differences(routing, JOBS) > 0, "not found out: {fault}");
    }
}

#[test]
fn every_wrong_penalty_is_found_out() {
    for ((fault, _), routing) in MISPRICED.iter().zip(AT_WRONG_PENALTIES) {
        let differences = differences(routing, MISPRICED_JOBS);
        println!("{differences} of {MISPRICED_JOBS} jobs: {fault}");
        assert!(differences > 0, "not found out: {fault}");
    }
}

/// A replay with a fault is found out by plans that are right.
#[test]
fn a_replay_that_differs_is_found_out() {
    let mut lent = Lent::of(
        routing,
        |job, plan, map, work| {
            let mut result = replay(job, plan, map, work);
            result.added += u64::from(result.added > 0);
            result
        },
        SEED,
    );
    lent.ask_jobs(JOBS, quick_routable_job);
    assert!(lent.comparison.tally.differences > 0);
}

#[test]
fn plans_of_the_second_routing_are_confirmed_by_the_library() {
    let mut lent = Lent::of(routing, REPLAY, SEED);
    lent.ask_jobs(AGREED_JOBS, quick_routable_job);
    println!("{}{}", lent.seen, lent.comparison.tally);
    lent.comparison.tally.assert_same();
}
