//! Plans that are legal and rightly priced, but dear: most joins wander.

use std::convert::Infallible;

use crate::joining::{join_nets, NetAtHand, Walk};
use crate::plan::{Join, Record};
use crate::random::Random;
use crate::router::search::Search;
use crate::router::{walk, Routed};
use crate::rules::board::Board;
use crate::rules::moves::Move;
use crate::rules::step::Step;

/// Moves after which a wandering join is given up.
const MOST_MOVES: usize = 80;

/// A plan of joins that wander, of cheapest joins where that leads to no pin, and
/// of none, at times where there would be a join.
pub fn wandering_plan(board: &Board, random: &mut Random) -> Routed {
    let mut search = Search::new(board);
    let mut records = Vec::new();
    let joined = join_nets(board, |net| {
        let join = match random.between(0, 11) {
            0 => None,
            1 | 2 => search.cheapest(net),
            _ => wandering_join(board, net, random).or_else(|| search.cheapest(net)),
        };
        let walked = join.as_ref().map(|join| walk(board, net, join));
        records.push(join.map_or(Record::NoJoin, Record::Join));
        Ok::<_, Infallible>(walked)
    });
    let Ok(joined) = joined;
    Routed { records, joined }
}

/// The legal moves from where the walk has come to.
fn legal_moves(net: &NetAtHand, walk: &Walk) -> Vec<(Move, Step)> {
    let legal = |by: Move| Some((by, net.view.step(walk.place, by).ok()?));
    Move::ALL.into_iter().filter_map(legal).collect()
}

/// Legal moves at random, until the first unjoined pin.
fn wandering_join(board: &Board, net: &NetAtHand, random: &mut Random) -> Option<Join> {
    let start = *random.pick(net.tree());
    let mut walk = Walk::start(start);
    let mut moves = Vec::new();
    while moves.len() < MOST_MOVES && !net.unjoined(walk.place.vertex) {
        let legal = legal_moves(net, &walk);
        if legal.is_empty() {
            return None;
        }
        let (by, step) = *random.pick(&legal);
        moves.push(by);
        walk.go(step);
    }
    let join = Join {
        start: board.job.grid().numbered(start as u32),
        moves,
        cost: walk.cost,
    };
    net.unjoined(walk.place.vertex).then_some(join)
}

/// A walk of legal moves at random that enters no unjoined pin.
pub fn wander(net: &NetAtHand, start: usize, most_moves: u32, random: &mut Random) -> Vec<Move> {
    let mut walk = Walk::start(start);
    let mut moves = Vec::new();
    for _ in 0..random.edgy(0, most_moves) {
        let mut legal = legal_moves(net, &walk);
        legal.retain(|(_, step)| !net.unjoined(step.to.vertex));
        if legal.is_empty() {
            break;
        }
        let (by, step) = *random.pick(&legal);
        moves.push(by);
        walk.go(step);
    }
    moves
}
