//! The library's calls, as `include/maizespell.h` declares them.

use crate::replay::Replay;
use crate::report::Report;
use crate::routing::Routing;

/// Refusal 0 is none. A refusal leaves vertices and work 0; a good job leaves
/// refusal and place 0.
#[repr(C)]
#[derive(Clone, Copy, Debug, PartialEq, Eq)]
pub struct SizingResult {
    pub refusal: u64,
    pub place: u64,
    pub vertices: u64,
    pub work: u64,
}

/// Of replay and of the wire report. Refusal 0 is none. A refusal leaves the totals 0;
/// a replayed plan leaves refusal and place 0.
#[repr(C)]
#[derive(Clone, Copy, Debug, Default, PartialEq, Eq)]
pub struct ReplayResult {
    pub refusal: u64,
    pub place: u64,
    pub cost: u64,
    pub added: u64,
    pub penalties: u64,
    pub joined: u64,
}

/// Refusal 0 is none. A refusal leaves every number but it and its place 0; a
/// routed job leaves refusal and place 0.
#[repr(C)]
#[derive(Clone, Copy, Debug, Default, PartialEq, Eq)]
pub struct RoutingResult {
    pub refusal: u64,
    pub place: u64,
    pub bytes: u64,
    pub cost: u64,
    pub added: u64,
    pub penalties: u64,
    pub joined: u64,
}

/// The replay that the tests hold against the second one.
pub const REPLAY: Replay = replay;

/// The wire report that the tests hold against the second one.
pub const REPORT: Report = report;

/// The routing that the tests hold against the second one.
pub const ROUTING: Routing = routing;

extern "C" {
    pub(crate) fn maizespell_sizing(job: *const u8, job_len: usize) -> SizingResult;

    pub(crate) fn maizespell_replay(
        job: *const u8,
        job_len: usize,
        plan: *const u8,
        plan_len: usize,
        map: *mut u16,
        map_len: usize,
        work: *mut u64,
        work_len: usize,
    ) -> ReplayResult;

    pub(crate) fn maizespell_report(
        job: *const u8,
        job_len: usize,
        plan: *const u8,
        plan_len: usize,
        map: *mut u16,
        map_len: usize,
        work: *mut u64,
        work_len: usize,
        report: *mut u64,
        report_len: usize,
    ) -> ReplayResult;

    pub(crate) fn maizespell_routing(
        job: *const u8,
        job_len: usize,
        map: *mut u16,
        map_len: usize,
        work: *mut u64,
        work_len: usize,
        plan: *mut u8,
        plan_len: usize,
    ) -> RoutingResult;
}

/// What the library says about these bytes.
pub fn sizing(job: &[u8]) -> SizingResult {
    // SAFETY: pointer and length are of one live slice, which the call only reads.
    unsafe { maizespell_sizing(job.as_ptr(), job.len()) }
}

/// What the library says about this job and this plan.
fn replay(job: &[u8], plan: &[u8], map: &mut [u16], work: &mut [u64]) -> ReplayResult {
    let (map_len, work_len) = (map.len(), work.len());
    // SAFETY: each pointer and its length are of one live slice; the call only
    // reads job and plan, and map and work are lent to it alone.
    unsafe {
        maizespell_replay(
            job.as_ptr(),
            job.len(),
            plan.as_ptr(),
            plan.len(),
            map.as_mut_ptr(),
            map_len,
            work.as_mut_ptr(),
            work_len,
        )
    }
}

/// What the library says about this job and this plan, and adds to the report.
fn report(
    job: &[u8],
    plan: &[u8],
    map: &mut [u16],
    work: &mut [u64],
    report: &mut [u64],
) -> ReplayResult {
    let (map_len, work_len, report_len) = (map.len(), work.len(), report.len());
    // SAFETY: each pointer and its length are of one live slice; the call only
    // reads job and plan, and map, work and report are lent to it alone.
    unsafe {
        maizespell_report(
            job.as_ptr(),
            job.len(),
            plan.as_ptr(),
            plan.len(),
            map.as_mut_ptr(),
            map_len,
            work.as_mut_ptr(),
            work_len,
            report.as_mut_ptr(),
            report_len,
        )
    }
}

/// What the library makes of this job.
fn routing(job: &[u8], map: &mut [u16], work: &mut [u64], plan: &mut [u8]) -> RoutingResult {
    let (map_len, work_len, plan_len) = (map.len(), work.len(), plan.len());
    // SAFETY: each pointer and its length are of one live slice; the call only
    // reads job, and map, work and plan are lent to it alone.
    unsafe {
        maizespell_routing(
            job.as_ptr(),
            job.len(),
            map.as_mut_ptr(),
            map_len,
            work.as_mut_ptr(),
            work_len,
            plan.as_mut_ptr(),
            plan_len,
        )
    }
}
