//! Where the groups of a plan stand, in bits, counted from its records.
//!
//! The second replay does not use this: it counts while it reads.

use super::{Record, COST, COUNT, FLAG, MOVE, START};

/// "Flag, start with count, move or cost."
#[derive(Clone, Copy, Debug, PartialEq, Eq)]
pub enum Group {
    Flag,
    StartWithCount,
    Move,
    Cost,
}

pub fn record_place(records: &[Record], record: usize) -> u64 {
    records[..record].iter().map(Record::bits).sum::<usize>() as u64
}

pub fn start_place(records: &[Record], record: usize) -> u64 {
    record_place(records, record) + FLAG as u64
}

pub fn count_place(records: &[Record], record: usize) -> u64 {
    start_place(records, record) + START as u64
}

pub fn move_place(records: &[Record], record: usize, number: usize) -> u64 {
    count_place(records, record) + (COUNT + MOVE * number) as u64
}

pub fn cost_place(records: &[Record], record: usize) -> u64 {
    record_place(records, record + 1) - COST as u64
}

/// The bit after the last record.
pub fn end_place(records: &[Record]) -> u64 {
    record_place(records, records.len())
}

/// Kind, first bit and width of every group, in reading order.
pub fn groups(records: &[Record]) -> Vec<(Group, u64, u64)> {
    let mut place = 0;
    let mut groups = Vec::new();
    let mut add = |group, width: usize| {
        groups.push((group, place, width as u64));
        place += width as u64;
    };
    for record in records {
        add(Group::Flag, FLAG);
        if let Record::Join(join) = record {
            add(Group::StartWithCount, START + COUNT);
            join.moves.iter().for_each(|_| add(Group::Move, MOVE));
            add(Group::Cost, COST);
        }
    }
    groups
}
