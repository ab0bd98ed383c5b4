//! A plan's records from its bytes, by their fields alone: whether a record is
//! legal is not asked.

use super::{Join, Record, COST, COUNT, FLAG, MOVE};
use crate::bits::BitReader;
use crate::job::Job;
use crate::reader::read_vertex;
use crate::rules::moves::Move;

/// Each join joins one pin, and a net with every pin joined writes no 0. Fails
/// where the bytes are not those of so many records.
pub fn unpack(job: &Job, bytes: &[u8]) -> Vec<Record> {
    let mut bits = BitReader::new(bytes);
    let mut records = Vec::new();
    for net in &job.nets {
        let mut unjoined = net.pins.len() - 1;
        while unjoined > 0 {
            let record = take_record(&mut bits);
            unjoined -= 1;
            if record == Record::NoJoin {
                unjoined = 0;
            }
            records.push(record);
        }
    }
    assert!(bits.left() < 8, "bytes after the last record");
    assert_eq!(bits.take(bits.left()), 0, "zero bits fill the last byte");
    records
}

fn take_record(bits: &mut BitReader) -> Record {
    if bits.take(FLAG) == 0 {
        return Record::NoJoin;
    }
    let start = read_vertex(bits);
    let count = bits.take(COUNT);
    let moves = (0..count).map(|_| Move::ALL[bits.take(MOVE) as usize]);
    Record::Join(Join {
        start,
        moves: moves.collect(),
        cost: bits.take_wide(COST),
    })
}
