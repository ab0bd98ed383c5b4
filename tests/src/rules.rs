//! Moves, segments and prices, written from the specification alone.
//!
//! A place is a vertex with the state of its segment. `View` holds what one net
//! sees of the grid and of the other nets' metal; `View::step` makes a move from
//! a place, or says what forbids it.
//!
//! `mispriced` has penalties with faults, for the tests of the comparisons.
//!
//! Not here: trees and joins (`joining`), plans (`plan`).

pub mod board;
pub mod metal;
pub mod mispriced;
pub mod moves;
pub mod segment;
pub mod step;
pub mod view;
