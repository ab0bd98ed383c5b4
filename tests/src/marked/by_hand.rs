//! What routing the marked jobs must give, from "Routes by hand" and reckoned from
//! it.

use crate::joining::Totals;

/// Costs of the joins of each marked job; None where there is none.
pub const COSTS: [(char, &[Option<u64>]); 13] = [
    ('A', &[Some(3)]),
    ('B', &[Some(10)]),
    ('C', &[Some(58)]),
    ('D', &[None]),
    ('E', &[Some(7)]),
    ('F', &[Some(54)]),
    ('G', &[None]),
    ('H', &[Some(7)]),
    ('I', &[Some(3), Some(7)]),
    ('J', &[Some(13)]),
    ('K', &[Some(2), Some(74)]),
    ('L', &[Some(2), None]),
    ('N', &[Some(2), Some(84)]),
];

pub const TOTALS: [(char, Totals); 13] = [
    ('A', Totals::of(3, 0, 0, 1)),
    ('B', Totals::of(10, 2, 0, 1)),
    ('C', Totals::of(58, 0, 1, 1)),
    ('D', Totals::of(0, 0, 0, 0)),
    ('E', Totals::of(7, 3, 0, 1)),
    ('F', Totals::of(54, 0, 1, 1)),
    ('G', Totals::of(0, 0, 0, 0)),
    ('H', Totals::of(7, 2, 0, 1)),
    ('I', Totals::of(10, 2, 0, 1)),
    ('J', Totals::of(13, 0, 0, 1)),
    ('K', Totals::of(76, 0, 1, 2)),
    ('L', Totals::of(2, 0, 0, 1)),
    ('N', Totals::of(86, 0, 1, 2)),
];

/// The plan of A.
pub const A_PLAN: [u8; 11] = [
    0x80, 0x00, 0x00, 0x00, 0x03, 0x54, 0x00, 0x00, 0x00, 0x00, 0x0C,
];
