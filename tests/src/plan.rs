//! A plan as data, and its bytes.
//!
//! Nothing is judged here: a record that breaks a rule packs like any other, as
//! long as its numbers fit their fields.

pub mod places;
mod unpack;

pub use unpack::unpack;

use crate::bits::BitWriter;
use crate::grid::Vertex;
use crate::job::put_vertex;
use crate::rules::moves::Move;

/// Widths of a record's fields: "bit 1, start vertex (3, 8, 8), move count 20,
/// moves of 2 bits each, cost 40".
pub const FLAG: usize = 1;
pub const START: usize = 19;
pub const COUNT: usize = 20;
pub const MOVE: usize = 2;
pub const COST: usize = 40;

#[derive(Clone, Debug, PartialEq, Eq)]
pub struct Join {
    pub start: Vertex,
    pub moves: Vec<Move>,
    pub cost: u64,
}

impl Join {
    pub fn of(start: Vertex, moves: &[Move], cost: u64) -> Self {
        Join {
            start,
            moves: moves.to_vec(),
            cost,
        }
    }
}

/// "A record is bit 1 with its fields, or bit 0."
#[derive(Clone, Debug, PartialEq, Eq)]
pub enum Record {
    Join(Join),
    NoJoin,
}

impl Record {
    /// The record of a join.
    pub fn of(start: Vertex, moves: &[Move], cost: u64) -> Self {
        Record::Join(Join::of(start, moves, cost))
    }

    pub fn join(&self) -> Option<&Join> {
        match self {
            Record::Join(join) => Some(join),
            Record::NoJoin => None,
        }
    }

    pub fn bits(&self) -> usize {
        match self {
            Record::Join(join) => FLAG + START + COUNT + MOVE * join.moves.len() + COST,
            Record::NoJoin => FLAG,
        }
    }

    fn put(&self, bits: &mut BitWriter) {
        let Record::Join(join) = self else {
            return bits.put(0, FLAG);
        };
        bits.put(1, FLAG);
        put_vertex(bits, join.start);
        bits.put(join.moves.len() as u32, COUNT);
        for by in &join.moves {
            bits.put(by.number(), MOVE);
        }
        bits.put_wide(join.cost, COST);
    }
}

/// The plan of these records; zero bits fill the last byte.
pub fn pack(records: &[Record]) -> Vec<u8> {
    let mut bits = BitWriter::default();
    for record in records {
        record.put(&mut bits);
    }
    bits.into_bytes()
}
