//! 17: moves that are not legal, or that do not end at a pin.

use super::{AimedPlan, LegalPlan};
use crate::joining::{NetAtHand, Walk};
use crate::plan::places::move_place;
use crate::plan::{Join, Record};
use crate::random::Random;
use crate::rules::moves::Move;
use crate::rules::view::Cause;
use crate::wander::wander;

/// The records with other moves in one join, refused at the move of this number.
fn refused_at(plan: LegalPlan, number: usize, join: Join, at: usize) -> AimedPlan {
    let mut records = plan.records.to_vec();
    records[number] = Record::Join(join);
    AimedPlan::of(&records, 17, move_place(&records, number, at))
}

fn random_moves(random: &mut Random) -> Vec<Move> {
    let count = random.edgy(0, 6);
    (0..count).map(|_| *random.pick(&Move::ALL)).collect()
}

/// Moves go on after the pin.
pub fn early_pin(plan: LegalPlan, random: &mut Random) -> Option<AimedPlan> {
    let number = plan.any_join(random)?;
    let mut join = plan.records[number].join()?.clone();
    let at = join.moves.len() - 1;
    join.moves.push(*random.pick(&Move::ALL));
    join.moves.extend(random_moves(random));
    Some(refused_at(plan, number, join, at))
}

/// The move that enters the pin is missing.
pub fn last_move_dropped(plan: LegalPlan, random: &mut Random) -> Option<AimedPlan> {
    let number = plan.any_join(random)?;
    let mut join = plan.records[number].join()?.clone();
    join.moves.pop();
    let at = join.moves.len().checked_sub(1)?;
    Some(refused_at(plan, number, join, at))
}

/// Legal moves that enter no pin.
pub fn pin_missed(plan: LegalPlan, random: &mut Random) -> Option<AimedPlan> {
    let number = plan.any_join(random)?;
    let join = plan.before(number, |net| walk_without_pin(plan, net, random));
    let at = join.moves.len().checked_sub(1)?;
    Some(refused_at(plan, number, join, at))
}

fn walk_without_pin(plan: LegalPlan, net: &NetAtHand, random: &mut Random) -> Join {
    let start = *random.pick(net.tree());
    Join {
        start: plan.board.job.grid().numbered(start as u32),
        moves: wander(net, start, 40, random),
        cost: random.draw() >> 24,
    }
}

/// A move that is forbidden, after legal ones, with what forbids it, in a join or in place of
/// none. Each cause that the walk comes by is as likely.
pub fn illegal_move(plan: LegalPlan, random: &mut Random) -> Option<(AimedPlan, Cause)> {
    if plan.records.is_empty() {
        return None;
    }
    let number = random.index(plan.records.len());
    let (mut join, forbidden) = plan.before(number, |net| {
        let mut join = walk_without_pin(plan, net, random);
        if let (Some(recorded), true) = (plan.records[number].join(), random.one_in(3)) {
            join = recorded.clone();
            join.moves.pop();
        }
        let forbidden = forbidden_moves(plan, net, &join);
        (join, forbidden)
    });
    let chosen = one_of_a_cause(&forbidden, random)?;
    join.moves.truncate(chosen.at);
    join.moves.push(chosen.by);
    join.moves.extend(random_moves(random));
    let aimed = refused_at(plan, number, join, chosen.at);
    Some((aimed, chosen.cause))
}

/// A move that may not come after so many moves of a walk.
struct Forbidden {
    at: usize,
    by: Move,
    cause: Cause,
}

/// Every forbidden move along a walk, before each of its moves and after the last.
fn forbidden_moves(plan: LegalPlan, net: &NetAtHand, join: &Join) -> Vec<Forbidden> {
    let mut walk = Walk::start(plan.board.job.grid().number(join.start));
    let mut forbidden = Vec::new();
    for at in 0..=join.moves.len() {
        for by in Move::ALL {
            if let Err(cause) = net.view.step(walk.place, by) {
                forbidden.push(Forbidden { at, by, cause });
            }
        }
        if let Some(next) = join.moves.get(at) {
            walk.go(net.view.step(walk.place, *next).expect("a legal walk"));
        }
    }
    forbidden
}

fn one_of_a_cause<'a>(forbidden: &'a [Forbidden], random: &mut Random) -> Option<&'a Forbidden> {
    let mut causes: Vec<Cause> = Vec::new();
    for choice in forbidden {
        if !causes.contains(&choice.cause) {
            causes.push(choice.cause);
        }
    }
    if causes.is_empty() {
        return None;
    }
    let cause = *random.pick(&causes);
    let choices = forbidden.iter().filter(|choice| choice.cause == cause);
    Some(*random.pick(&choices.collect::<Vec<_>>()))
}
