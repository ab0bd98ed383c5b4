//! Checks the library's calls against a second implementation, written from the
//! specification alone.
//!
//! - Jobs are data (`job`, with the box test in `guide`), made by hand (`marked`,
//!   `largest`) or at random (`generate`), and plans are too (`plan`, `wander`);
//!   `damage` makes both bad.
//! - The second implementation reads jobs (`reader`, `sizing`), has the rules of
//!   moves (`rules`) and nets (`joining`), searches joins (`router`) and has the calls
//!   (`routing`, `replay`, `report`), the program (`program`) and the host (`host`). It
//!   is itself held against every short route (`brute`).
//! - `library` has the library's calls, and `compare` asks both; `pairs` says which
//!   jobs and plans replay and the wire report are asked about, `filled` with which
//!   reports, `lent` which jobs and slices routing is, and `seen` what came up.
//!   `guarded` makes the calls on slices between pages that cannot be touched, `fuzz`
//!   asks all of them so, `stack` makes them with little stack.
//! - `built` finds the library, the program and the host.

pub mod bits;
pub mod brute;
pub mod built;
pub mod compare;
pub mod damage;
pub mod filled;
pub mod fuzz;
pub mod generate;
pub mod grid;
pub mod guarded;
pub mod guide;
pub mod host;
pub mod job;
pub mod joining;
pub mod largest;
pub mod lent;
pub mod library;
pub mod marked;
pub mod pairs;
pub mod places;
pub mod plan;
pub mod program;
pub mod random;
pub mod reader;
pub mod replay;
pub mod report;
pub mod router;
pub mod routing;
pub mod rules;
pub mod seen;
pub mod sizing;
pub mod stack;
pub mod wander;
