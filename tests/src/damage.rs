//! Good jobs and good plans made bad.

pub mod aimed;
pub mod blind;
pub mod plan;
