//! Damage to records without an aim: what rule it breaks, if any, is for replay to
//! say.

use crate::plan::places::record_place;
use crate::plan::{pack, Join, Record};
use crate::random::Random;
use crate::rules::moves::Move;

/// One record dropped, doubled, swapped with the next, turned to none, with its
/// flag alone cleared, or with another move. None where the plan has no record.
pub fn shuffled(records: &[Record], random: &mut Random) -> Option<Vec<u8>> {
    if records.is_empty() {
        return None;
    }
    let mut records = records.to_vec();
    let number = random.index(records.len());
    match random.between(0, 6) {
        0 => {
            records.remove(number);
        }
        1 => records.insert(number, records[number].clone()),
        2 => {
            let next = (number + 1) % records.len();
            records.swap(number, next);
        }
        3 => records[number] = Record::NoJoin,
        4 => return Some(flag_cleared(&records, number)),
        _ => {
            if let Record::Join(join) = &mut records[number] {
                change_a_move(join, random);
            }
        }
    }
    Some(pack(&records))
}

/// The fields of the record stay where they are.
fn flag_cleared(records: &[Record], number: usize) -> Vec<u8> {
    let mut bytes = pack(records);
    let place = record_place(records, number) as usize;
    bytes[place / 8] &= !(0x80 >> (place % 8));
    bytes
}

/// One move dropped, doubled or replaced.
fn change_a_move(join: &mut Join, random: &mut Random) {
    let at = random.index(join.moves.len());
    match random.between(0, 2) {
        0 => {
            join.moves.remove(at);
        }
        1 => join.moves.insert(at, join.moves[at]),
        _ => join.moves[at] = *random.pick(&Move::ALL),
    }
}
