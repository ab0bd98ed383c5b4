//! Damage with an aim: a legal plan breaks one rule, at a place chosen at random.
//!
//! Each function gives the changed bytes and the refusal that they must get, or
//! None where the plan has no such thing to break. What merely changes the
//! records, without an aim, is in `shuffled`.

mod cut;
mod fields;
mod moves;
pub mod shuffled;

pub use moves::illegal_move;

use crate::joining::{join_nets, NetAtHand};
use crate::plan::places::Group;
use crate::plan::{pack, Record};
use crate::random::Random;
use crate::reader::Refusal;
use crate::router::walk;
use crate::rules::board::Board;

/// A plan's bytes that must be refused so.
pub struct AimedPlan {
    pub bytes: Vec<u8>,
    pub refusal: Refusal,
}

impl AimedPlan {
    fn of(records: &[Record], number: u64, place: u64) -> Self {
        AimedPlan {
            bytes: pack(records),
            refusal: Refusal { number, place },
        }
    }
}

/// A job on its grid and the records of a legal plan.
#[derive(Clone, Copy)]
pub struct LegalPlan<'a> {
    pub board: &'a Board<'a>,
    pub records: &'a [Record],
}

type Damage = fn(LegalPlan, &mut Random) -> Option<AimedPlan>;

/// Every kind of damage with an aim but illegal moves, each with its name.
pub const AIMED: [(&str, Damage); 14] = [
    ("flag cut", |plan, random| {
        cut::cut(plan, Group::Flag, random)
    }),
    ("start with count cut", |plan, random| {
        cut::cut(plan, Group::StartWithCount, random)
    }),
    ("move cut", |plan, random| {
        cut::cut(plan, Group::Move, random)
    }),
    ("cost cut", |plan, random| {
        cut::cut(plan, Group::Cost, random)
    }),
    ("tail bit set", cut::tail_bit),
    ("byte more", cut::more_bytes),
    ("start off the tree", fields::start_off_tree),
    ("start outside", fields::start_outside),
    ("no moves", fields::no_moves),
    ("cost one more", |plan, random| {
        fields::other_cost(plan, 1, random)
    }),
    ("cost one less", |plan, random| {
        fields::other_cost(plan, -1, random)
    }),
    ("pin entered early", moves::early_pin),
    ("last move dropped", moves::last_move_dropped),
    ("pin missed", moves::pin_missed),
];

impl LegalPlan<'_> {
    /// The number of a join, at random.
    fn any_join(&self, random: &mut Random) -> Option<usize> {
        let is_join = |number: &usize| self.records[*number].join().is_some();
        let joins: Vec<usize> = (0..self.records.len()).filter(is_join).collect();
        (!joins.is_empty()).then(|| *random.pick(&joins))
    }

    /// Looks at the net at hand before the record of this number.
    fn before<T>(&self, number: usize, look: impl FnOnce(&NetAtHand) -> T) -> T {
        let mut earlier = self.records[..number].iter();
        let mut look = Some(look);
        let ended = join_nets(self.board, |net| match earlier.next() {
            Some(record) => Ok(record.join().map(|join| walk(self.board, net, join))),
            None => Err(look.take().expect("one look")(net)),
        });
        match ended {
            Err(seen) => seen,
            Ok(_) => panic!("the plan ends before record {number}"),
        }
    }
}
