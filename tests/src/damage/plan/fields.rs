//! 16, 17 and 18: the fields of a join.

use super::{AimedPlan, LegalPlan};
use crate::damage::aimed::outside;
use crate::grid::Vertex;
use crate::plan::places::{cost_place, count_place, start_place};
use crate::plan::{Join, Record};
use crate::random::Random;

/// The records with one join changed.
fn changed(plan: LegalPlan, number: usize, change: impl FnOnce(&mut Join)) -> Vec<Record> {
    let mut records = plan.records.to_vec();
    let Record::Join(join) = &mut records[number] else {
        panic!("record {number} is no join");
    };
    change(join);
    records
}

/// 16: a vertex of the grid that isn't on the tree.
pub fn start_off_tree(plan: LegalPlan, random: &mut Random) -> Option<AimedPlan> {
    let number = plan.any_join(random)?;
    let off: Vec<usize> = plan.before(number, |net| {
        let vertices = 0..plan.board.vertices();
        vertices.filter(|vertex| !net.on_tree(*vertex)).collect()
    });
    if off.is_empty() {
        return None;
    }
    let start = plan.board.job.grid().numbered(*random.pick(&off) as u32);
    Some(started(plan, number, start))
}

/// 16: a vertex outside the grid.
pub fn start_outside(plan: LegalPlan, random: &mut Random) -> Option<AimedPlan> {
    let number = plan.any_join(random)?;
    let inside = plan.records[number].join()?.start;
    let start = outside(&plan.board.job.grid(), inside, random)?;
    Some(started(plan, number, start))
}

fn started(plan: LegalPlan, number: usize, start: Vertex) -> AimedPlan {
    let records = changed(plan, number, |join| join.start = start);
    AimedPlan::of(&records, 16, start_place(&records, number))
}

/// 17 at the count: no moves.
pub fn no_moves(plan: LegalPlan, random: &mut Random) -> Option<AimedPlan> {
    let number = plan.any_join(random)?;
    let records = changed(plan, number, |join| join.moves.clear());
    Some(AimedPlan::of(&records, 17, count_place(&records, number)))
}

/// 18: the cost is off by so much.
pub fn other_cost(plan: LegalPlan, change: i64, random: &mut Random) -> Option<AimedPlan> {
    let number = plan.any_join(random)?;
    let records = changed(plan, number, |join| {
        let cost = join.cost.checked_add_signed(change);
        join.cost = cost.expect("a cost above 0");
    });
    Some(AimedPlan::of(&records, 18, cost_place(&records, number)))
}
