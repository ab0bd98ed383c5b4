//! The four moves and the vertices that they enter.

use crate::grid::{Grid, Vertex};

/// The number of no vertex.
const NOWHERE: u32 = u32::MAX;

/// "0 low and 1 high step along the layer's track, 2 goes down a layer, 3 up."
#[derive(Clone, Copy, Debug, PartialEq, Eq, PartialOrd, Ord)]
pub enum Move {
    Low,
    High,
    Down,
    Up,
}

impl Move {
    /// In the order of their numbers.
    pub const ALL: [Move; 4] = [Move::Low, Move::High, Move::Down, Move::Up];

    pub fn number(self) -> u32 {
        self as u32
    }

    /// The move that leads back.
    pub fn opposite(self) -> Move {
        match self {
            Move::Low => Move::High,
            Move::High => Move::Low,
            Move::Down => Move::Up,
            Move::Up => Move::Down,
        }
    }
}

/// The vertex that each move enters from each vertex, by number.
pub struct Neighbours {
    entered: Vec<[u32; 4]>,
}

impl Neighbours {
    pub fn of(grid: &Grid) -> Self {
        let number = |v: Vertex, by: Move| match entered(grid, v, by) {
            Some(to) => grid.number(to) as u32,
            None => NOWHERE,
        };
        let all = |v: u32| Move::ALL.map(|by| number(grid.numbered(v), by));
        Neighbours {
            entered: (0..grid.vertices()).map(all).collect(),
        }
    }

    /// None where the move would leave the grid.
    pub fn entered(&self, vertex: usize, by: Move) -> Option<usize> {
        let to = self.entered[vertex][by as usize];
        (to != NOWHERE).then_some(to as usize)
    }
}

/// "A move's number decides what it changes. It stays in the grid."
fn entered(grid: &Grid, v: Vertex, by: Move) -> Option<Vertex> {
    let to = match by {
        Move::Low if grid.step_changes_column(v.layer) => Vertex {
            column: v.column.checked_sub(1)?,
            ..v
        },
        Move::Low => Vertex {
            row: v.row.checked_sub(1)?,
            ..v
        },
        Move::High => grid.along(v, 1),
        Move::Down => Vertex {
            layer: v.layer.checked_sub(1)?,
            ..v
        },
        Move::Up => Vertex {
            layer: v.layer + 1,
            ..v
        },
    };
    grid.holds(to).then_some(to)
}

#[cfg(test)]
mod tests {
    use super::*;
    use crate::grid::vertex;

    const GRID: Grid = Grid {
        layers: 2,
        rows: 3,
        columns: 4,
        direction: 0,
    };

    #[test]
    fn moves_go_along_the_track_and_between_layers() {
        let all = |v| Move::ALL.map(|by| entered(&GRID, v, by));
        let below = [
            Some(vertex(0, 1, 0)),
            Some(vertex(0, 1, 2)),
            None,
            Some(vertex(1, 1, 1)),
        ];
        assert_eq!(all(vertex(0, 1, 1)), below);
        let above = [
            Some(vertex(1, 0, 1)),
            Some(vertex(1, 2, 1)),
            Some(vertex(0, 1, 1)),
            None,
        ];
        assert_eq!(all(vertex(1, 1, 1)), above);
        assert_eq!(entered(&GRID, vertex(0, 0, 0), Move::Low), None);
        assert_eq!(entered(&GRID, vertex(0, 0, 3), Move::High), None);
    }

    #[test]
    fn the_opposite_leads_back() {
        let neighbours = Neighbours::of(&GRID);
        for v in 0..GRID.vertices() as usize {
            for by in Move::ALL {
                if let Some(to) = neighbours.entered(v, by) {
                    assert_eq!(neighbours.entered(to, by.opposite()), Some(v));
                }
            }
        }
    }
}
