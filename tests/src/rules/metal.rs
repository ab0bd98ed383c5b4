//! The nets' metal, vertex by vertex, as the codes of the map.

use crate::rules::board::Board;

/// "0 bare, 1 to 255 that net alone, 256 several nets, 257 obstacle."
pub const BARE: u16 = 0;
pub const SEVERAL: u16 = 256;
pub const OBSTACLE: u16 = 257;

pub struct Metal {
    codes: Vec<u16>,
}

impl Metal {
    /// Obstacles and pins: "every pin counts, joined or not".
    pub fn before_any_join(board: &Board) -> Self {
        let code = |vertex| match board.obstacle(vertex) {
            true => OBSTACLE,
            false => board.pin_of(vertex),
        };
        Metal {
            codes: (0..board.vertices()).map(code).collect(),
        }
    }

    /// The vertex becomes metal of the net.
    pub fn lay(&mut self, net: u16, vertex: usize) {
        let code = &mut self.codes[vertex];
        assert_ne!(*code, OBSTACLE, "metal on an obstacle");
        *code = if *code == BARE || *code == net {
            net
        } else {
            SEVERAL
        };
    }

    /// "A vertex is taken when another net's metal, extensions included, covers
    /// it."
    pub fn taken(&self, net: u16, vertex: usize) -> bool {
        let code = self.codes[vertex];
        code != BARE && code != net && code != OBSTACLE
    }

    pub fn into_map(self) -> Vec<u16> {
        self.codes
    }
}
