//! The second routing call: a job to its plan, map and totals, or a refusal.

use crate::job::Job;
use crate::joining::{Joined, Totals};
use crate::library::{ReplayResult, RoutingResult};
use crate::plan::{pack, unpack};
use crate::reader::{read, Refusal};
use crate::replay::needed;
use crate::router::{route, Routed};
use crate::rules::board::Board;

/// What a host can call: job, map, work and plan.
pub type Routing = fn(&[u8], &mut [u16], &mut [u64], &mut [u8]) -> RoutingResult;

/// The call with the second router.
pub fn routing(job: &[u8], map: &mut [u16], work: &mut [u64], plan: &mut [u8]) -> RoutingResult {
    routing_by(route, job, map, work, plan)
}

/// "12 and 13 come after the job, 14 after routing."
pub fn routing_by(
    route: impl FnOnce(&Board) -> Routed,
    job: &[u8],
    map: &mut [u16],
    work: &mut [u64],
    plan: &mut [u8],
) -> RoutingResult {
    let job = match read(job) {
        Ok(job) => job,
        Err(refusal) => return refused(refusal),
    };
    let board = Board::new(&job);
    let (map, work) = match needed(&board, map, work) {
        Ok(parts) => parts,
        Err(refusal) => return refused(refusal),
    };
    let Routed { records, joined } = route(&board);
    let bytes = pack(&records);
    work.fill(0);
    if plan.len() < bytes.len() {
        map.fill(0);
        plan.fill(0);
        let (number, place) = (14, bytes.len() as u64);
        return refused(Refusal { number, place });
    }
    map.copy_from_slice(&joined.map);
    plan[..bytes.len()].copy_from_slice(&bytes);
    succeeded(bytes.len(), joined.totals)
}

/// The answer to a job that is turned back.
pub fn refused(refusal: Refusal) -> RoutingResult {
    RoutingResult {
        refusal: refusal.number,
        place: refusal.place,
        ..RoutingResult::default()
    }
}

/// The answer to a job that is routed.
pub fn succeeded(bytes: usize, totals: Totals) -> RoutingResult {
    RoutingResult {
        refusal: 0,
        place: 0,
        bytes: bytes as u64,
        cost: totals.cost,
        added: totals.added,
        penalties: totals.penalties,
        joined: totals.joined,
    }
}

impl RoutingResult {
    /// What replay must answer to the plan that was returned.
    pub fn replayed(&self) -> ReplayResult {
        ReplayResult {
            refusal: self.refusal,
            place: self.place,
            cost: self.cost,
            added: self.added,
            penalties: self.penalties,
            joined: self.joined,
        }
    }
}

/// A good job by this routing, with its plan taken apart. The first call finds out
/// how many bytes the plan needs.
pub fn routed_by(routing: Routing, job: &Job) -> Routed {
    let board = Board::new(job);
    let bytes = job.pack();
    let mut map = vec![0; board.vertices()];
    let mut work = vec![0; board.work_need()];
    let mut plan = Vec::new();
    let mut result = routing(&bytes, &mut map, &mut work, &mut plan);
    if result.refusal == 14 {
        plan.resize(result.place as usize, 0);
        result = routing(&bytes, &mut map, &mut work, &mut plan);
    }
    assert_eq!((result.refusal, result.place), (0, 0), "in {job:?}");
    assert_eq!(result.bytes, plan.len() as u64, "in {job:?}");
    let totals = Totals {
        cost: result.cost,
        added: result.added,
        penalties: result.penalties,
        joined: result.joined,
    };
    Routed {
        records: unpack(job, &plan),
        joined: Joined { map, totals },
    }
}
