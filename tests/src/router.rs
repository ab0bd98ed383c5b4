//! The second router: every net in job order, join by join, each the cheapest.

pub mod left;
pub mod one_bound;
pub mod search;
pub mod to_go;

use std::convert::Infallible;

use crate::joining::{join_nets, Joined, NetAtHand, Walk};
use crate::plan::{Join, Record};
use crate::rules::board::Board;
use left::Left;
use search::Search;

/// What routing a job gives.
pub struct Routed {
    pub records: Vec<Record>,
    pub joined: Joined,
}

pub fn route(board: &Board) -> Routed {
    route_with(board, &mut Search::new(board), |_, _, _| ())
}

/// How many places the library's searches for a job's joins settle.
pub fn settled(board: &Board) -> u64 {
    let mut settled = 0;
    route_with(board, &mut Search::new(board), |search, net, join| {
        settled += search.settled(join, &Left::of(board, net));
    });
    settled
}

/// `seen` is shown each search, with its net and the join that it found.
fn route_with(
    board: &Board,
    search: &mut Search,
    mut seen: impl FnMut(&Search, &NetAtHand, Option<&Join>),
) -> Routed {
    let mut records = Vec::new();
    let joined = join_nets(board, |net| {
        let found = search.cheapest(net);
        seen(search, net, found.as_ref());
        let Some(join) = found else {
            records.push(Record::NoJoin);
            return Ok::<_, Infallible>(None);
        };
        let walk = walk(board, net, &join);
        records.push(Record::Join(join));
        Ok(Some(walk))
    });
    let Ok(joined) = joined;
    Routed { records, joined }
}

/// Walks a join that is known to be legal.
pub fn walk(board: &Board, net: &NetAtHand, join: &Join) -> Walk {
    let mut walk = Walk::start(board.job.grid().number(join.start));
    for by in &join.moves {
        let step = net.view.step(walk.place, *by);
        walk.go(step.expect("every move of a join is legal"));
    }
    assert_eq!(walk.cost, join.cost, "a join costs what its moves cost");
    walk
}

/// Walks a plan that is known to be legal. `seen` is shown the net at hand at each record, with
/// the walk of its join if it has one.
pub fn follow(board: &Board, records: &[Record], mut seen: impl FnMut(&NetAtHand, Option<&Walk>)) {
    let mut records = records.iter();
    let joined = join_nets(board, |net| {
        let join = records.next().and_then(Record::join);
        let walk = join.map(|join| walk(board, net, join));
        seen(net, walk.as_ref());
        Ok::<_, Infallible>(walk)
    });
    let Ok(_) = joined;
}
