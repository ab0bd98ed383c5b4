//! Penalties with one fault each, where a vertex is outside the guide and taken. The comparisons
//! must find them out.

use crate::job::CLOSED;
use crate::rules::view::{penalty, Penalty};

/// Each with what it does wrong.
pub const MISPRICED: [(&str, Penalty); 4] = [
    ("both penalties added", |job, outside, taken| {
        let mut sum = penalty(job, outside, taken)?;
        if outside && taken {
            sum += job.guide_penalty;
        }
        Ok(sum)
    }),
    (
        "guide penalty in place of the short one",
        |job, outside, taken| {
            let right = penalty(job, outside, taken)?;
            Ok(if outside { job.guide_penalty } else { right })
        },
    ),
    (
        "closed guide let through where taken",
        |job, outside, taken| penalty(job, outside && !taken, taken),
    ),
    (
        "closed short let through outside the guide",
        |job, outside, taken| {
            let closed = job.short_penalty == CLOSED;
            penalty(job, outside, taken && !(outside && closed))
        },
    ),
];
