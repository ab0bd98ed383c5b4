//! The second replay: a job and a plan to the map and the totals, or the first
//! broken rule.

use crate::bits::BitReader;
use crate::joining::{join_nets, Joined, NetAtHand, Totals, Walk};
use crate::library::ReplayResult;
use crate::plan::{COST, COUNT, FLAG, MOVE, START};
use crate::reader::{read, read_vertex, Refusal};
use crate::rules::board::Board;
use crate::rules::moves::Move;

/// What a host can call: job, plan, map and work.
pub type Replay = fn(&[u8], &[u8], &mut [u16], &mut [u64]) -> ReplayResult;

/// The call with the rules of the specification.
pub fn replay(job: &[u8], plan: &[u8], map: &mut [u16], work: &mut [u64]) -> ReplayResult {
    replay_by(read_plan, job, plan, map, work)
}

/// "12 and 13 come after the job. Replay reads the plan in the same way after
/// 13."
pub fn replay_by(
    read_plan: impl FnOnce(&Board, &[u8]) -> Result<Joined, Refusal>,
    job: &[u8],
    plan: &[u8],
    map: &mut [u16],
    work: &mut [u64],
) -> ReplayResult {
    let job = match read(job) {
        Ok(job) => job,
        Err(refusal) => return refused(refusal),
    };
    let board = Board::new(&job);
    let (map, work) = match needed(&board, map, work) {
        Ok(parts) => parts,
        Err(refusal) => return refused(refusal),
    };
    work.fill(0);
    match read_plan(&board, plan) {
        Ok(Joined { map: codes, totals }) => {
            map.copy_from_slice(&codes);
            succeeded(totals)
        }
        Err(refusal) => {
            map.fill(0);
            refused(refusal)
        }
    }
}

/// The needed parts of map and work: 12 or 13 where one is short.
pub fn needed<'s>(
    board: &Board,
    map: &'s mut [u16],
    work: &'s mut [u64],
) -> Result<(&'s mut [u16], &'s mut [u64]), Refusal> {
    let (vertices, work_need) = (board.vertices(), board.work_need());
    if map.len() < vertices {
        return Err(at(12, vertices as u64));
    }
    if work.len() < work_need {
        return Err(at(13, work_need as u64));
    }
    Ok((&mut map[..vertices], &mut work[..work_need]))
}

fn at(number: u64, place: u64) -> Refusal {
    Refusal { number, place }
}

/// The answer to a job or plan that is turned back.
pub fn refused(refusal: Refusal) -> ReplayResult {
    ReplayResult {
        refusal: refusal.number,
        place: refusal.place,
        ..ReplayResult::default()
    }
}

/// The answer to a plan that is good.
pub fn succeeded(totals: Totals) -> ReplayResult {
    ReplayResult {
        refusal: 0,
        place: 0,
        cost: totals.cost,
        added: totals.added,
        penalties: totals.penalties,
        joined: totals.joined,
    }
}

/// Record by record, then the tail.
pub fn read_plan(board: &Board, plan: &[u8]) -> Result<Joined, Refusal> {
    let mut bits = BitReader::new(plan);
    let joined = join_nets(board, |net| read_record(&mut bits, board, net))?;
    read_tail(&mut bits)?;
    Ok(joined)
}

/// The first bit of a group that is whole.
fn whole(bits: &BitReader, width: usize) -> Result<u64, Refusal> {
    if bits.left() < width {
        return Err(at(15, bits.position()));
    }
    Ok(bits.position())
}

fn read_record(
    bits: &mut BitReader,
    board: &Board,
    net: &NetAtHand,
) -> Result<Option<Walk>, Refusal> {
    whole(bits, FLAG)?;
    if bits.take(FLAG) == 0 {
        return Ok(None);
    }
    let (start, count) = read_start_and_count(bits, board, net)?;
    let mut walk = Walk::start(start);
    for number in 1..=count {
        let last = number == count;
        read_move(bits, net, &mut walk, last)?;
    }
    let place = whole(bits, COST)?;
    if bits.take_wide(COST) != walk.cost {
        return Err(at(18, place));
    }
    Ok(Some(walk))
}

/// One group: 16 is about the start, 17 about a count of 0.
fn read_start_and_count(
    bits: &mut BitReader,
    board: &Board,
    net: &NetAtHand,
) -> Result<(usize, u32), Refusal> {
    let grid = board.job.grid();
    let start_place = whole(bits, START + COUNT)?;
    let start = read_vertex(bits);
    let count_place = bits.position();
    let count = bits.take(COUNT);
    if !grid.holds(start) || !net.on_tree(grid.number(start)) {
        return Err(at(16, start_place));
    }
    if count == 0 {
        return Err(at(17, count_place));
    }
    Ok((grid.number(start), count))
}

/// 17: "move not legal, unjoined pin entered early, or last move enters none".
fn read_move(
    bits: &mut BitReader,
    net: &NetAtHand,
    walk: &mut Walk,
    last: bool,
) -> Result<(), Refusal> {
    let place = whole(bits, MOVE)?;
    let by = Move::ALL[bits.take(MOVE) as usize];
    let step = net.view.step(walk.place, by);
    walk.go(step.map_err(|_| at(17, place))?);
    if net.unjoined(walk.place.vertex) != last {
        return Err(at(17, place));
    }
    Ok(())
}

/// "Zero bits fill the last byte": 15 at the bit after the last record.
fn read_tail(bits: &mut BitReader) -> Result<(), Refusal> {
    let place = bits.position();
    if bits.left() >= 8 || bits.take(bits.left()) != 0 {
        return Err(at(15, place));
    }
    Ok(())
}
