//! One move from a place.

use std::iter::successors;

use crate::job::CLOSED;
use crate::rules::moves::Move;
use crate::rules::segment::{Segment, Side};
use crate::rules::view::{Cause, View};

#[derive(Clone, Copy, Debug, PartialEq, Eq)]
pub struct Place {
    pub vertex: usize,
    pub segment: Segment,
}

impl Place {
    /// Where a join starts.
    pub fn start(vertex: usize) -> Self {
        Place {
            vertex,
            segment: Segment::START,
        }
    }
}

/// Metal that is laid beyond the ends of a segment that a via leaves.
#[derive(Clone, Copy, Debug, PartialEq, Eq)]
pub struct Extension {
    /// The segment's last vertex, with its state there.
    pub from: Place,
    /// Steps at the leaving end, beyond the last vertex.
    pub leaving: u32,
    /// Steps at the starting end, beyond the first vertex.
    pub starting: u32,
}

impl Extension {
    pub fn steps(&self) -> u32 {
        self.leaving + self.starting
    }
}

/// What a legal move does.
#[derive(Clone, Copy, Debug, PartialEq, Eq)]
pub struct Step {
    pub to: Place,
    pub entering: u32,
    pub overhead: u32,
    pub extension: Option<Extension>,
    pub penalised: bool,
}

impl Step {
    pub fn cost(&self) -> u64 {
        u64::from(self.entering) + u64::from(self.overhead)
    }
}

/// Making a move is inlined: the search makes four for each place.
impl View<'_> {
    /// The move made, or what forbids it.
    #[inline(always)]
    pub fn step(&self, from: Place, by: Move) -> Result<Step, Cause> {
        let entered = self.board.neighbours.entered(from.vertex, by);
        let to = entered.ok_or(Cause::OffGrid)?;
        let penalty = self.penalty(to)?;
        match by {
            Move::Low => self.wire(from.segment, Side::Low, to, penalty),
            Move::High => self.wire(from.segment, Side::High, to, penalty),
            Move::Down | Move::Up => self.via(from, to, penalty),
        }
    }

    /// "A step adds 1 to the length, and no step goes back against the
    /// direction."
    #[inline(always)]
    fn wire(&self, segment: Segment, side: Side, to: usize, penalty: u32) -> Result<Step, Cause> {
        let layer = self.board.layer(to);
        let stepped = segment.stepped(side, layer.min_length);
        Ok(Step {
            to: Place {
                vertex: to,
                segment: stepped.ok_or(Cause::StepBack)?,
            },
            entering: layer.wire_price + penalty,
            overhead: 0,
            extension: None,
            penalised: false,
        })
    }

    /// "A via move out of a segment of length n < M also costs overhead. A via
    /// makes it fresh again."
    #[inline(always)]
    fn via(&self, from: Place, to: usize, penalty: u32) -> Result<Step, Cause> {
        let lower = self.board.layer(from.vertex.min(to));
        let mut step = Step {
            to: Place {
                vertex: to,
                segment: Segment::Fresh,
            },
            entering: lower.via_price + penalty,
            overhead: 0,
            extension: None,
            penalised: false,
        };
        let layer = self.board.layer(from.vertex);
        let missing = from.segment.missing(layer.min_length);
        if missing == 0 {
            return Ok(step);
        }
        if let Some(extension) = self.extension(from, missing) {
            step.overhead = layer.wire_price * missing;
            step.extension = Some(extension);
        } else if layer.area_penalty == CLOSED {
            return Err(Cause::AreaClosed);
        } else {
            step.overhead = layer.area_penalty;
            step.penalised = true;
        }
        Ok(step)
    }

    /// "The clear vertices beyond the last vertex and those beyond the segment's first vertex
    /// are counted together. Extension is laid at the leaving end first, then at the starting
    /// end." None where they are too few.
    fn extension(&self, from: Place, missing: u32) -> Option<Extension> {
        let side = leaving_side(from.segment)?;
        let leaving = missing.min(self.clear_beyond(from.vertex, side));
        let starting = missing - leaving;
        let room =
            starting == 0 || starting <= self.clear_beyond(self.first(from), side.opposite());
        room.then_some(Extension {
            from,
            leaving,
            starting,
        })
    }

    /// The first vertex of the segment that has come here: as many steps back as it is long, or
    /// the end of the track where that comes before.
    fn first(&self, last: Place) -> usize {
        match last.segment {
            Segment::Running { side, length } => {
                let back = self.along(last.vertex, side.opposite());
                back.take(length as usize).last().unwrap_or(last.vertex)
            }
            Segment::Fresh | Segment::Paid { .. } => last.vertex,
        }
    }

    /// The vertices beyond this one, up to the end of its track.
    fn along(&self, vertex: usize, side: Side) -> impl Iterator<Item = usize> + '_ {
        let next = move |vertex: &usize| self.board.neighbours.entered(*vertex, side.step());
        successors(next(&vertex), next)
    }

    /// The vertices that an extension lays, in the order in which they are laid.
    pub fn laid(&self, extension: Extension) -> impl Iterator<Item = usize> + '_ {
        let Extension {
            from,
            leaving,
            starting,
        } = extension;
        let side = leaving_side(from.segment).expect("only a segment that owes is extended");
        let beyond_last = self.along(from.vertex, side);
        let beyond_first = self.along(self.first(from), side.opposite());
        beyond_last
            .take(leaving as usize)
            .chain(beyond_first.take(starting as usize))
    }
}

/// Where a segment that owes is extended first: in its direction, and "a fresh segment takes
/// high, then low".
fn leaving_side(segment: Segment) -> Option<Side> {
    match segment {
        Segment::Fresh => Some(Side::High),
        Segment::Running { side, .. } => Some(side),
        Segment::Paid { .. } => None,
    }
}
