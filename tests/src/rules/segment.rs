//! The state of a segment: "fresh, running low or high, or paid".

use crate::rules::moves::Move;

/// A direction along the track.
#[derive(Clone, Copy, Debug, PartialEq, Eq)]
pub enum Side {
    Low,
    High,
}

impl Side {
    /// The step in this direction.
    pub fn step(self) -> Move {
        match self {
            Side::Low => Move::Low,
            Side::High => Move::High,
        }
    }

    pub fn opposite(self) -> Side {
        match self {
            Side::Low => Side::High,
            Side::High => Side::Low,
        }
    }
}

#[derive(Clone, Copy, Debug, PartialEq, Eq)]
pub enum Segment {
    /// "Just entered by a via, length 0."
    Fresh,
    /// Of a length from 1 to below M.
    Running { side: Side, length: u32 },
    /// "Length M or more is paid and keeps its direction."
    Paid { side: Option<Side> },
}

impl Segment {
    /// "A join starts paid with no direction."
    pub const START: Segment = Segment::Paid { side: None };

    /// The segment after a step, or None where the step goes back against the
    /// direction.
    pub fn stepped(self, side: Side, min_length: u32) -> Option<Segment> {
        let length = match self {
            Segment::Fresh => 1,
            Segment::Running {
                side: running,
                length,
            } => {
                if running != side {
                    return None;
                }
                length + 1
            }
            Segment::Paid { side: None } => min_length,
            Segment::Paid { side: Some(paid) } => {
                if paid != side {
                    return None;
                }
                min_length
            }
        };
        if length < min_length {
            return Some(Segment::Running { side, length });
        }
        Some(Segment::Paid { side: Some(side) })
    }

    /// M − n for a segment of length n < M, else 0.
    pub fn missing(self, min_length: u32) -> u32 {
        match self {
            Segment::Fresh => min_length,
            Segment::Running { length, .. } => min_length.saturating_sub(length),
            Segment::Paid { .. } => 0,
        }
    }

    /// How many codes there are: fresh, three kinds of paid, and each running
    /// length below M on each side.
    pub fn codes(largest_min_length: u32) -> u32 {
        2 * (largest_min_length + 1)
    }

    /// A number below `codes`, another one for each segment.
    pub fn code(self) -> u32 {
        match self {
            Segment::Fresh => 0,
            Segment::Paid { side: None } => 1,
            Segment::Paid { side: Some(side) } => 2 + side as u32,
            Segment::Running { side, length } => 2 + 2 * length + side as u32,
        }
    }

    /// The segment with this code.
    pub fn coded(code: u32) -> Segment {
        let side = if code.is_multiple_of(2) {
            Side::Low
        } else {
            Side::High
        };
        match code {
            0 => Segment::Fresh,
            1 => Segment::START,
            2 | 3 => Segment::Paid { side: Some(side) },
            _ => Segment::Running {
                side,
                length: code / 2 - 1,
            },
        }
    }
}

#[cfg(test)]
mod tests {
    use super::*;

    const LOW_PAID: Segment = Segment::Paid {
        side: Some(Side::Low),
    };

    fn running(length: u32) -> Segment {
        Segment::Running {
            side: Side::Low,
            length,
        }
    }

    #[test]
    fn a_fresh_segment_runs_until_it_is_paid() {
        let mut segment = Segment::Fresh;
        for expected in [running(1), running(2), LOW_PAID, LOW_PAID] {
            segment = segment.stepped(Side::Low, 3).expect("no step back");
            assert_eq!(segment, expected);
        }
        assert_eq!(Segment::Fresh.stepped(Side::Low, 1), Some(LOW_PAID));
        assert_eq!(Segment::START.stepped(Side::Low, 3), Some(LOW_PAID));
    }

    #[test]
    fn no_step_goes_back() {
        assert_eq!(running(1).stepped(Side::High, 3), None);
        assert_eq!(LOW_PAID.stepped(Side::High, 3), None);
    }

    #[test]
    fn only_a_paid_segment_misses_nothing() {
        let all = [Segment::Fresh, running(1), running(2), LOW_PAID];
        assert_eq!(all.map(|segment| segment.missing(3)), [3, 2, 1, 0]);
        assert_eq!(Segment::START.missing(3), 0);
    }

    #[test]
    fn codes_are_one_for_each_segment() {
        for code in 0..Segment::codes(15) {
            assert_eq!(Segment::coded(code).code(), code);
        }
        let longest = Segment::Running {
            side: Side::High,
            length: 14,
        };
        assert_eq!(longest.code(), Segment::codes(15) - 1);
    }
}
