//! A whole list of moves, judged by the specification's sentences.

use super::Brute;
use crate::grid::Vertex;
use crate::job::CLOSED;
use crate::rules::moves::Move;

/// What a legal list of moves comes to.
#[derive(Default)]
pub struct Judged {
    pub cost: u64,
    /// The start and every vertex entered.
    pub vertices: Vec<usize>,
    /// The vertices of its extensions, one after another.
    pub added: Vec<usize>,
    pub penalties: u64,
}

impl Judged {
    /// The vertex entered last.
    pub fn last(&self) -> usize {
        *self.vertices.last().expect("a list has a start")
    }
}

fn is_via(by: &Move) -> bool {
    matches!(by, Move::Down | Move::Up)
}

impl Brute<'_> {
    /// None where a move is not legal.
    pub fn judge(&self, start: Vertex, moves: &[Move]) -> Option<Judged> {
        let mut judged = Judged::default();
        judged.vertices.push(self.job.grid().number(start));
        let mut at = start;
        for by in moves {
            let from = at;
            at = self.entered(from, *by)?;
            judged.vertices.push(self.job.grid().number(at));
            judged.cost += self.price_of_entering(from, at)?;
        }
        let mut end = 0;
        let segments: Vec<&[Move]> = moves.split(is_via).collect();
        for (index, steps) in segments.iter().enumerate() {
            if steps.windows(2).any(|pair| pair[0] != pair[1]) {
                return None;
            }
            let first = judged.vertices[end];
            end += steps.len();
            let first_or_last = index == 0 || index + 1 == segments.len();
            if !first_or_last {
                let last = judged.vertices[end];
                self.leave(first, last, steps, &mut judged)?;
            }
            end += 1;
        }
        Some(judged)
    }

    /// The vertex that the move enters, if it is in the grid.
    fn entered(&self, v: Vertex, by: Move) -> Option<Vertex> {
        let grid = self.job.grid();
        let change = match by {
            Move::Low | Move::Down => -1,
            Move::High | Move::Up => 1,
        };
        let mut to = v;
        let changed = if is_via(&by) {
            &mut to.layer
        } else if grid.step_changes_column(v.layer) {
            &mut to.column
        } else {
            &mut to.row
        };
        *changed = changed.checked_add_signed(change)?;
        grid.holds(to).then_some(to)
    }

    /// An obstacle or another net's pin may not be entered.
    fn blocked(&self, vertex: usize) -> bool {
        let v = self.job.grid().numbered(vertex as u32);
        let mut others = self.job.nets.iter().enumerate();
        self.obstacles.contains(&vertex)
            || others.any(|(net, data)| net != self.net && data.pins.contains(&v))
    }

    fn taken(&self, vertex: usize) -> bool {
        let mut others = self.metal.iter().enumerate();
        others.any(|(net, metal)| net != self.net && metal.contains(&vertex))
    }

    /// Wire or via, and where the vertex is taken the short penalty, in place of the guide penalty
    /// that is due outside; but neither may be closed where it is due.
    fn price_of_entering(&self, from: Vertex, to: Vertex) -> Option<u64> {
        let vertex = self.job.grid().number(to);
        if self.blocked(vertex) {
            return None;
        }
        let base = if from.layer == to.layer {
            self.job.layers[to.layer as usize].wire_price
        } else {
            self.job.layers[from.layer.min(to.layer) as usize].via_price
        };
        let boxes = &self.job.nets[self.net].boxes;
        let inside = boxes.iter().any(|guide| guide.outside_by(to).is_none());
        let open = |penalty: u32| Some(penalty).filter(|penalty| *penalty != CLOSED);
        let mut penalty = 0;
        if !boxes.is_empty() && !inside {
            penalty = open(self.job.guide_penalty)?;
        }
        if self.taken(vertex) {
            penalty = open(self.job.short_penalty)?;
        }
        Some(u64::from(base + penalty))
    }

    /// The overhead of a via out of a segment of these steps between these vertices.
    fn leave(&self, first: usize, last: usize, steps: &[Move], judged: &mut Judged) -> Option<()> {
        let on = self.job.grid().numbered(last as u32).layer;
        let layer = &self.job.layers[on as usize];
        let missing = (layer.min_length as usize).saturating_sub(steps.len());
        if missing == 0 {
            return Some(());
        }
        let (side, back) = match steps.first() {
            Some(Move::Low) => (Move::Low, Move::High),
            _ => (Move::High, Move::Low),
        };
        let mut clear = self.clear_beyond(last, side);
        clear.extend(self.clear_beyond(first, back));
        if clear.len() >= missing {
            judged.cost += u64::from(layer.wire_price) * missing as u64;
            judged.added.extend(&clear[..missing]);
            return Some(());
        }
        judged.cost += u64::from(Some(layer.area_penalty).filter(|price| *price != CLOSED)?);
        judged.penalties += 1;
        Some(())
    }

    /// The clear vertices beyond this one, up to the first that isn't clear.
    fn clear_beyond(&self, vertex: usize, side: Move) -> Vec<usize> {
        let mut clear = Vec::new();
        let mut at = self.job.grid().numbered(vertex as u32);
        while let Some(next) = self.entered(at, side) {
            let vertex = self.job.grid().number(next);
            if self.blocked(vertex) || self.taken(vertex) {
                break;
            }
            clear.push(vertex);
            at = next;
        }
        clear
    }
}
