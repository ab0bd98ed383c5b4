//! What one net sees at each vertex.
//!
//! Only other nets' metal counts as taken, so nothing of this changes while the
//! net is being joined.

use crate::job::{Job, CLOSED};
use crate::rules::board::Board;
use crate::rules::metal::Metal;
use crate::rules::segment::Side;

/// What forbids a move.
#[derive(Clone, Copy, Debug, PartialEq, Eq)]
pub enum Cause {
    OffGrid,
    Obstacle,
    OtherPin,
    GuideClosed,
    ShortClosed,
    /// A closed guide, where the vertex is taken and the short penalty is open.
    GuideClosedTaken,
    /// A closed short, where the vertex is outside the guide.
    ShortClosedOutside,
    StepBack,
    AreaClosed,
}

impl Cause {
    pub const ALL: [Cause; 9] = [
        Cause::OffGrid,
        Cause::Obstacle,
        Cause::OtherPin,
        Cause::GuideClosed,
        Cause::ShortClosed,
        Cause::GuideClosedTaken,
        Cause::ShortClosedOutside,
        Cause::StepBack,
        Cause::AreaClosed,
    ];

    pub fn name(self) -> &'static str {
        match self {
            Cause::OffGrid => "move off the grid",
            Cause::Obstacle => "move into an obstacle",
            Cause::OtherPin => "move into another net's pin",
            Cause::GuideClosed => "move out of a closed guide",
            Cause::ShortClosed => "move into a closed short",
            Cause::GuideClosedTaken => "move out of a closed guide into a taken vertex",
            Cause::ShortClosedOutside => "move into a closed short outside the guide",
            Cause::StepBack => "step back",
            Cause::AreaClosed => "via with a closed area penalty",
        }
    }
}

pub struct View<'a> {
    pub(super) board: &'a Board<'a>,
    outside: Vec<bool>,
    taken: Vec<bool>,
    /// The guide or short penalty of entering the vertex, or what forbids it.
    penalty: Vec<Result<u32, Cause>>,
    clear_low: Vec<u8>,
    clear_high: Vec<u8>,
}

impl<'a> View<'a> {
    /// The view of a net, counted from 1.
    pub fn of(board: &'a Board<'a>, net: u16, metal: &Metal) -> Self {
        let outside = board.outside_guide(net);
        let taken = |vertex| metal.taken(net, vertex);
        let taken: Vec<_> = (0..board.vertices()).map(taken).collect();
        let each = [false, true];
        let penalties = each.map(|out| each.map(|taken| (board.penalty)(board.job, out, taken)));
        let penalty = |vertex: usize| {
            may_enter(board, net, vertex)?;
            penalties[usize::from(outside[vertex])][usize::from(taken[vertex])]
        };
        let clear = |vertex| may_enter(board, net, vertex).is_ok() && !taken[vertex];
        let penalty: Vec<_> = (0..board.vertices()).map(penalty).collect();
        let clear: Vec<_> = (0..board.vertices()).map(clear).collect();
        View {
            board,
            penalty,
            clear_low: clear_beyond(board, &clear, Side::Low),
            clear_high: clear_beyond(board, &clear, Side::High),
            outside,
            taken,
        }
    }

    /// Whether the vertex lies in none of the net's boxes, where it has some.
    pub fn outside(&self, vertex: usize) -> bool {
        self.outside[vertex]
    }

    /// Whether another net's metal covers the vertex.
    pub fn taken(&self, vertex: usize) -> bool {
        self.taken[vertex]
    }

    pub fn outside_and_taken(&self, vertex: usize) -> bool {
        self.outside(vertex) && self.taken(vertex)
    }

    /// What entering the vertex costs beside wire or via.
    pub fn penalty(&self, vertex: usize) -> Result<u32, Cause> {
        self.penalty[vertex]
    }

    /// The clear vertices beyond this one, up to the first that isn't clear.
    pub fn clear_beyond(&self, vertex: usize, side: Side) -> u32 {
        u32::from(match side {
            Side::Low => self.clear_low[vertex],
            Side::High => self.clear_high[vertex],
        })
    }
}

/// What entering a vertex adds to wire or via in a job, if the vertex is outside the guide and
/// if it is taken, or what forbids it.
pub type Penalty = fn(&Job, bool, bool) -> Result<u32, Cause>;

/// "Where a vertex is both, the taken rule is read first and only the short penalty is added. A
/// closed guide penalty still closes the vertex."
pub fn penalty(job: &Job, outside: bool, taken: bool) -> Result<u32, Cause> {
    match (taken, outside) {
        (false, false) => Ok(0),
        (false, true) => open(job.guide_penalty, Cause::GuideClosed),
        (true, false) => open(job.short_penalty, Cause::ShortClosed),
        (true, true) => {
            let short = open(job.short_penalty, Cause::ShortClosedOutside)?;
            open(job.guide_penalty, Cause::GuideClosedTaken)?;
            Ok(short)
        }
    }
}

fn open(penalty: u32, cause: Cause) -> Result<u32, Cause> {
    if penalty == CLOSED {
        return Err(cause);
    }
    Ok(penalty)
}

/// "It may not enter an obstacle or another net's pin."
fn may_enter(board: &Board, net: u16, vertex: usize) -> Result<(), Cause> {
    if board.obstacle(vertex) {
        return Err(Cause::Obstacle);
    }
    let owner = board.pin_of(vertex);
    if owner != 0 && owner != net {
        return Err(Cause::OtherPin);
    }
    Ok(())
}

/// The count of clear vertices beyond each vertex: none beyond the end of its
/// track, else one more than beyond the next one, if that is clear. A track has
/// 256 vertices at most, so no more than 255 lie beyond one.
fn clear_beyond(board: &Board, clear: &[bool], side: Side) -> Vec<u8> {
    let mut counts = vec![0; clear.len()];
    for track in board.job.grid().tracks() {
        let mut count = 0;
        for place in 0..track.length {
            let vertex = match side {
                Side::Low => track.vertex(place),
                Side::High => track.vertex(track.length - 1 - place),
            };
            counts[vertex] = count;
            count = if clear[vertex] {
                u8::saturating_add(count, 1)
            } else {
                0
            };
        }
    }
    counts
}
