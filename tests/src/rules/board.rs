//! A job laid out on its grid: what stands there before any join.

use crate::grid::vertex;
use crate::job::{GuideBox, Job, Layer};
use crate::rules::moves::Neighbours;
use crate::rules::segment::Segment;
use crate::rules::view::{penalty, Penalty};

pub struct Board<'a> {
    pub job: &'a Job,
    pub neighbours: Neighbours,
    pub(super) penalty: Penalty,
    obstacle: Vec<bool>,
    /// The net that has its pin here, counted from 1; 0 for none.
    pin_of: Vec<u16>,
    layer_of: Vec<u8>,
}

impl<'a> Board<'a> {
    pub fn new(job: &'a Job) -> Self {
        Board::with_penalty(job, penalty)
    }

    /// A board on which entering a vertex adds this.
    pub fn with_penalty(job: &'a Job, penalty: Penalty) -> Self {
        let grid = job.grid();
        let vertices = grid.vertices() as usize;
        let mut board = Board {
            job,
            neighbours: Neighbours::of(&grid),
            penalty,
            obstacle: vec![false; vertices],
            pin_of: vec![0; vertices],
            layer_of: (0..grid.vertices())
                .map(|number| grid.numbered(number).layer as u8)
                .collect(),
        };
        for obstacle in &job.obstacles {
            for step in 0..obstacle.run {
                board.obstacle[grid.number(grid.along(obstacle.start, step))] = true;
            }
        }
        for (index, net) in job.nets.iter().enumerate() {
            for pin in &net.pins {
                board.pin_of[grid.number(*pin)] = index as u16 + 1;
            }
        }
        board
    }

    pub fn vertices(&self) -> usize {
        self.obstacle.len()
    }

    /// Codes of segments, for each vertex.
    pub fn segments(&self) -> usize {
        Segment::codes(self.job.largest_min_length()) as usize
    }

    /// "Vertices × 4 × (largest M + 1) 64-bit numbers."
    pub fn work_need(&self) -> usize {
        self.vertices() * 4 * (self.job.largest_min_length() as usize + 1)
    }

    pub fn obstacle(&self, vertex: usize) -> bool {
        self.obstacle[vertex]
    }

    pub fn pin_of(&self, vertex: usize) -> u16 {
        self.pin_of[vertex]
    }

    pub fn layer(&self, vertex: usize) -> &'a Layer {
        &self.job.layers[usize::from(self.layer_of[vertex])]
    }

    /// Which vertices lie outside a net's guide. "No boxes: the whole grid is
    /// inside the guide."
    pub fn outside_guide(&self, net: u16) -> Vec<bool> {
        let grid = self.job.grid();
        let boxes = &self.job.nets[net as usize - 1].boxes;
        let mut outside = vec![!boxes.is_empty(); self.vertices()];
        for GuideBox { low, high } in boxes {
            for layer in low.layer..=high.layer {
                for row in low.row..=high.row {
                    let first = grid.number(vertex(layer, row, low.column));
                    let last = grid.number(vertex(layer, row, high.column));
                    outside[first..=last].fill(false);
                }
            }
        }
        outside
    }
}
