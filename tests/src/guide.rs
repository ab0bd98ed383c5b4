//! The box test, axis by axis.

use crate::grid::Vertex;
use crate::job::GuideBox;

#[derive(Clone, Copy, Debug, PartialEq, Eq)]
pub enum Axis {
    Layer,
    Row,
    Column,
}

impl GuideBox {
    /// "By layer, then row, then column", "three tests one after the other, left at the
    /// first that says no": the axis that says no, or none where the box holds the
    /// vertex. "Both ends inside."
    pub fn outside_by(&self, v: Vertex) -> Option<Axis> {
        let GuideBox { low, high } = self;
        if v.layer < low.layer || high.layer < v.layer {
            return Some(Axis::Layer);
        }
        if v.row < low.row || high.row < v.row {
            return Some(Axis::Row);
        }
        if v.column < low.column || high.column < v.column {
            return Some(Axis::Column);
        }
        None
    }
}

#[cfg(test)]
mod tests {
    use super::*;
    use crate::grid::vertex;

    #[test]
    fn the_first_axis_that_says_no() {
        let guide = GuideBox {
            low: vertex(1, 2, 3),
            high: vertex(1, 4, 6),
        };
        let inside = [vertex(1, 2, 3), vertex(1, 4, 6), vertex(1, 3, 4)];
        let layer = [vertex(0, 3, 4), vertex(2, 3, 4), vertex(2, 0, 0)];
        let row = [vertex(1, 1, 4), vertex(1, 5, 4), vertex(1, 5, 7)];
        let column = [vertex(1, 3, 2), vertex(1, 3, 7), vertex(1, 4, 7)];
        assert_eq!(inside.map(|v| guide.outside_by(v)), [None; 3]);
        assert_eq!(layer.map(|v| guide.outside_by(v)), [Some(Axis::Layer); 3]);
        assert_eq!(row.map(|v| guide.outside_by(v)), [Some(Axis::Row); 3]);
        assert_eq!(column.map(|v| guide.outside_by(v)), [Some(Axis::Column); 3]);
    }
}
