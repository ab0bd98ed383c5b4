//! 15: bytes that end within a group, or a tail that is no fill.

use super::{AimedPlan, LegalPlan};
use crate::plan::places::{end_place, groups, Group};
use crate::random::Random;

/// The bytes end within a group of this kind. As they end between two bytes, not
/// every group can be cut so.
pub fn cut(plan: LegalPlan, kind: Group, random: &mut Random) -> Option<AimedPlan> {
    let ends = |place: u64, width: u64| (place.div_ceil(8), (place + width - 1) / 8);
    let mut groups = groups(plan.records);
    groups.retain(|(group, place, width)| {
        let (fewest, most) = ends(*place, *width);
        *group == kind && fewest <= most
    });
    if groups.is_empty() {
        return None;
    }
    let (_, place, width) = *random.pick(&groups);
    let (fewest, most) = ends(place, width);
    let mut aimed = AimedPlan::of(plan.records, 15, place);
    let length = random.edgy(fewest as u32, most as u32);
    aimed.bytes.truncate(length as usize);
    Some(aimed)
}

/// A bit of the fill is set.
pub fn tail_bit(plan: LegalPlan, random: &mut Random) -> Option<AimedPlan> {
    let place = end_place(plan.records);
    let mut aimed = AimedPlan::of(plan.records, 15, place);
    let tail_bits = aimed.bytes.len() as u32 * 8 - place as u32;
    if tail_bits == 0 {
        return None;
    }
    *aimed.bytes.last_mut()? |= 1 << random.edgy(0, tail_bits - 1);
    Some(aimed)
}

/// Bytes follow, often one, often zero.
pub fn more_bytes(plan: LegalPlan, random: &mut Random) -> Option<AimedPlan> {
    let mut aimed = AimedPlan::of(plan.records, 15, end_place(plan.records));
    let byte = if random.one_in(2) { 0 } else { random.byte() };
    let longer = aimed.bytes.len() + random.edgy(1, 20) as usize;
    aimed.bytes.resize(longer, byte);
    Some(aimed)
}
