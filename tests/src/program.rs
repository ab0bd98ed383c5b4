//! The second program: standard input to the line that is written.

mod inputs;

pub use inputs::{edges, generated, Input};

use crate::grid::MOST_VERTICES;
use crate::job::Job;
use crate::reader::read;
use crate::routing::routing;

/// "At most 65,536 bytes, 256 vertices, M 7", and the plan that is lent.
///
/// No job within these limits needs so long a plan. A join that is cheapest enters no
/// vertex of its tree, since it could start there, and no place twice. So all joins
/// of a net have at most 16 moves for each vertex that is no other net's pin; with N
/// nets of two pins or more that is 32 N (258 - 2 N) bits, with 80 for each join less
/// than 36,000 bytes.
pub const INPUT_BYTES: usize = 65_536;
pub const VERTICES: u32 = 256;
pub const MIN_LENGTH: u32 = 7;
pub const PLAN_BYTES: usize = 65_536;

/// Whether a job is within the program's limits.
pub fn within_limits(job: &Job) -> bool {
    job.grid().vertices() <= VERTICES && job.largest_min_length() <= MIN_LENGTH
}

/// "It writes one line: the plan in hexadecimal, two capital digits a byte with a
/// space between (an empty line for no bytes), or `refused N at P`, both decimal, or
/// `too large` where the job is good but past these limits or the bytes are too
/// many."
pub fn line(input: &[u8]) -> String {
    if input.len() > INPUT_BYTES {
        return "too large\n".to_string();
    }
    if read(input).is_ok_and(|job| !within_limits(&job)) {
        return "too large\n".to_string();
    }
    let mut map = [0; MOST_VERTICES as usize];
    let mut work = [0; (VERTICES * 4 * (MIN_LENGTH + 1)) as usize];
    let mut plan = vec![0; PLAN_BYTES];
    let result = routing(input, &mut map, &mut work, &mut plan);
    if result.refusal != 0 {
        return format!("refused {} at {}\n", result.refusal, result.place);
    }
    hexadecimal(&plan[..result.bytes as usize]) + "\n"
}

fn hexadecimal(bytes: &[u8]) -> String {
    let digits: Vec<String> = bytes.iter().map(|byte| format!("{byte:02X}")).collect();
    digits.join(" ")
}
