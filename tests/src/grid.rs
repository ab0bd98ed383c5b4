//! The grid of vertices and the direction of its tracks.

/// Vertices that a job may have at most.
pub const MOST_VERTICES: u32 = 16_384;

/// What the fields of layer, row and column can number.
pub const MOST_LAYERS: u32 = 8;
pub const MOST_ROWS: u32 = 256;
pub const MOST_COLUMNS: u32 = 256;

#[derive(Clone, Copy, Debug, PartialEq, Eq)]
pub struct Vertex {
    pub layer: u32,
    pub row: u32,
    pub column: u32,
}

/// A vertex, in the order that the specification writes it.
pub const fn vertex(layer: u32, row: u32, column: u32) -> Vertex {
    Vertex { layer, row, column }
}

/// The vertices of a track, by number, from low to high.
pub struct Track {
    first: usize,
    pub length: usize,
    stride: usize,
}

impl Track {
    pub fn vertex(&self, place: usize) -> usize {
        self.first + place * self.stride
    }
}

#[derive(Clone, Copy, Debug, PartialEq, Eq)]
pub struct Grid {
    pub layers: u32,
    pub rows: u32,
    pub columns: u32,
    pub direction: u32,
}

impl Grid {
    /// "Vertices are layers × rows × columns."
    pub fn vertices(&self) -> u32 {
        self.layers * self.rows * self.columns
    }

    pub fn holds(&self, v: Vertex) -> bool {
        v.layer < self.layers && v.row < self.rows && v.column < self.columns
    }

    /// "Numbered by layer, row, column."
    pub fn number(&self, v: Vertex) -> usize {
        ((v.layer * self.rows + v.row) * self.columns + v.column) as usize
    }

    /// The vertex with this number.
    pub fn numbered(&self, number: u32) -> Vertex {
        let line = number / self.columns;
        vertex(line / self.rows, line % self.rows, number % self.columns)
    }

    /// "Direction 0: a step on layer 0 changes the column; 1: the row. Layers
    /// alternate upward."
    pub fn step_changes_column(&self, layer: u32) -> bool {
        (self.direction + layer).is_multiple_of(2)
    }

    /// The vertex that lies this many steps high along the track; it may be
    /// outside.
    pub fn along(&self, v: Vertex, steps: u32) -> Vertex {
        if self.step_changes_column(v.layer) {
            vertex(v.layer, v.row, v.column + steps)
        } else {
            vertex(v.layer, v.row + steps, v.column)
        }
    }

    /// All tracks.
    pub fn tracks(&self) -> impl Iterator<Item = Track> + '_ {
        let rows = self.rows as usize;
        let columns = self.columns as usize;
        (0..self.layers).flat_map(move |layer| {
            let first = self.number(vertex(layer, 0, 0));
            let (count, apart, length, stride) = match self.step_changes_column(layer) {
                true => (rows, columns, columns, 1),
                false => (columns, 1, rows, columns),
            };
            (0..count).map(move |index| Track {
                first: first + index * apart,
                length,
                stride,
            })
        })
    }

    /// Vertices from this one, itself counted, to the high end of its track.
    pub fn track_left(&self, v: Vertex) -> u32 {
        if self.step_changes_column(v.layer) {
            self.columns - v.column
        } else {
            self.rows - v.row
        }
    }
}

#[cfg(test)]
mod tests {
    use super::*;

    fn grid(direction: u32) -> Grid {
        Grid {
            layers: 3,
            rows: 4,
            columns: 8,
            direction,
        }
    }

    #[test]
    fn numbers_go_by_layer_row_column() {
        assert_eq!(grid(0).number(vertex(2, 1, 5)), 77);
        for number in 0..grid(0).vertices() {
            let v = grid(0).numbered(number);
            assert!(grid(0).holds(v));
            assert_eq!(grid(0).number(v), number as usize);
        }
    }

    #[test]
    fn layers_alternate_upward() {
        assert_eq!(grid(0).along(vertex(0, 1, 1), 2), vertex(0, 1, 3));
        assert_eq!(grid(0).along(vertex(1, 1, 1), 2), vertex(1, 3, 1));
        assert_eq!(grid(1).along(vertex(0, 1, 1), 2), vertex(0, 3, 1));
        assert_eq!(grid(1).along(vertex(1, 1, 1), 2), vertex(1, 1, 3));
    }

    #[test]
    fn tracks_hold_every_vertex_once() {
        for direction in 0..=1 {
            let grid = grid(direction);
            let mut seen = vec![0; grid.vertices() as usize];
            for track in grid.tracks() {
                let start = grid.numbered(track.vertex(0) as u32);
                assert_eq!(track.length, grid.track_left(start) as usize);
                for place in 0..track.length {
                    seen[track.vertex(place)] += 1;
                    let along = grid.along(start, place as u32);
                    assert_eq!(track.vertex(place), grid.number(along));
                }
            }
            assert!(seen.iter().all(|times| *times == 1));
        }
    }

    #[test]
    fn track_ends_at_the_grid() {
        assert_eq!(grid(0).track_left(vertex(0, 3, 1)), 7);
        assert_eq!(grid(0).track_left(vertex(1, 3, 1)), 1);
    }
}
