//! The library's calls on slices that lie against pages that cannot be touched, in
//! memory of their own: a read or a write past an end of one ends the process, and so
//! does a write to a job or a replayed plan.
//!
//! Which end lies against a page changes from case to case. Slices of length 0 are at
//! times null.

mod lent;
mod pages;

use crate::library::{self, ReplayResult, RoutingResult, SizingResult};
use lent::{End, Lent};

/// An end for each slice of a call, by what is asked: the same call is made the same
/// way again.
fn ends(job: &[u8], lengths: &[usize]) -> [End; 5] {
    let mix = |mixed: u64, number: u64| (mixed ^ number).wrapping_mul(0x0100_0000_01B3);
    let bytes = job.iter().map(|byte| u64::from(*byte));
    let lengths = lengths.iter().map(|length| *length as u64);
    let mixed = bytes.chain(lengths).fold(0xCBF2_9CE4_8422_2325, mix);
    [60, 61, 62, 63, 59].map(|bit| match mixed >> bit & 1 {
        0 => End::Back,
        _ => End::Front,
    })
}

/// What the library says about these bytes.
pub fn sizing(job: &[u8]) -> SizingResult {
    let [end, ..] = ends(job, &[]);
    let job = Lent::read_only(job, end);
    // SAFETY: so many bytes are lent.
    unsafe { library::maizespell_sizing(job.pointer(), job.length()) }
}

/// What the library says about this job and this plan.
pub fn replay(job: &[u8], plan: &[u8], map: &mut [u16], work: &mut [u64]) -> ReplayResult {
    let ends = ends(job, &[plan.len(), map.len(), work.len()]);
    let lent_job = Lent::read_only(job, ends[0]);
    let lent_plan = Lent::read_only(plan, ends[1]);
    let mut lent_map = Lent::of(map, ends[2]);
    let mut lent_work = Lent::of(work, ends[3]);
    // SAFETY: so many numbers are lent, each slice in pages of its own.
    let result = unsafe {
        library::maizespell_replay(
            lent_job.pointer(),
            lent_job.length(),
            lent_plan.pointer(),
            lent_plan.length(),
            lent_map.pointer(),
            lent_map.length(),
            lent_work.pointer(),
            lent_work.length(),
        )
    };
    lent_map.give_back(map);
    lent_work.give_back(work);
    result
}

/// What the library says about this job and this plan, and adds to the report.
pub fn report(
    job: &[u8],
    plan: &[u8],
    map: &mut [u16],
    work: &mut [u64],
    report: &mut [u64],
) -> ReplayResult {
    let ends = ends(job, &[plan.len(), map.len(), work.len(), report.len()]);
    let lent_job = Lent::read_only(job, ends[0]);
    let lent_plan = Lent::read_only(plan, ends[1]);
    let mut lent_map = Lent::of(map, ends[2]);
    let mut lent_work = Lent::of(work, ends[3]);
    let mut lent_report = Lent::of(report, ends[4]);
    // SAFETY: so many numbers are lent, each slice in pages of its own.
    let result = unsafe {
        library::maizespell_report(
            lent_job.pointer(),
            lent_job.length(),
            lent_plan.pointer(),
            lent_plan.length(),
            lent_map.pointer(),
            lent_map.length(),
            lent_work.pointer(),
            lent_work.length(),
            lent_report.pointer(),
            lent_report.length(),
        )
    };
    lent_map.give_back(map);
    lent_work.give_back(work);
    lent_report.give_back(report);
    result
}

/// What the library makes of this job.
pub fn routing(job: &[u8], map: &mut [u16], work: &mut [u64], plan: &mut [u8]) -> RoutingResult {
    let ends = ends(job, &[map.len(), work.len(), plan.len()]);
    let lent_job = Lent::read_only(job, ends[0]);
    let mut lent_map = Lent::of(map, ends[1]);
    let mut lent_work = Lent::of(work, ends[2]);
    let mut lent_plan = Lent::of(plan, ends[3]);
    // SAFETY: so many numbers are lent, each slice in pages of its own.
    let result = unsafe {
        library::maizespell_routing(
            lent_job.pointer(),
            lent_job.length(),
            lent_map.pointer(),
            lent_map.length(),
            lent_work.pointer(),
            lent_work.length(),
            lent_plan.pointer(),
            lent_plan.length(),
        )
    };
    lent_map.give_back(map);
    lent_work.give_back(work);
    lent_plan.give_back(plan);
    result
}
