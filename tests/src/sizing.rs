//! The sizing answer that the second reader expects.

use crate::library::SizingResult;
use crate::reader::{read, Refusal};

/// What a host can call.
pub type Sizing = fn(&[u8]) -> SizingResult;

/// Vertices and work need of a good job, or its refusal.
pub fn expected(bytes: &[u8]) -> SizingResult {
    match read(bytes) {
        Err(refusal) => refused(refusal),
        Ok(job) => sized(job.grid().vertices(), job.largest_min_length()),
    }
}

/// The answer to a good job: "vertices × 4 × (largest M + 1)" is the work need.
pub fn sized(vertices: u32, largest_min_length: u32) -> SizingResult {
    SizingResult {
        refusal: 0,
        place: 0,
        vertices: u64::from(vertices),
        work: u64::from(vertices) * 4 * (u64::from(largest_min_length) + 1),
    }
}

/// The answer to a job that is turned back.
pub fn refused(refusal: Refusal) -> SizingResult {
    SizingResult {
        refusal: refusal.number,
        place: refusal.place,
        vertices: 0,
        work: 0,
    }
}
