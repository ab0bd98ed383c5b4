//! Every short route of a join, judged as a whole list of moves.
//!
//! Of `rules` it takes nothing but the names of the moves: it holds metal as one
//! set of vertices for each net, cuts a list of moves into segments at its vias,
//! and counts clear vertices one by one. It is slow, and meant for tiny grids.

mod judge;
mod records;

pub use judge::Judged;
pub use records::Checked;

use std::collections::{BTreeSet, HashSet};

use crate::grid::Vertex;
use crate::job::Job;
use crate::joining::{Joined, Totals};
use crate::plan::Join;
use crate::rules::moves::Move;

/// Where the routing of a job has come to: the net at hand and all metal.
pub struct Brute<'a> {
    job: &'a Job,
    obstacles: HashSet<usize>,
    /// By net; every pin is metal from the beginning.
    metal: Vec<HashSet<usize>>,
    net: usize,
    tree: BTreeSet<usize>,
    unjoined: HashSet<usize>,
    totals: Totals,
}

impl<'a> Brute<'a> {
    /// Before any join. The net at hand is none until `begin`.
    pub fn new(job: &'a Job) -> Self {
        let grid = job.grid();
        let mut obstacles = HashSet::new();
        for obstacle in &job.obstacles {
            for step in 0..obstacle.run {
                obstacles.insert(grid.number(grid.along(obstacle.start, step)));
            }
        }
        let pins = |pins: &[Vertex]| pins.iter().map(|pin| grid.number(*pin)).collect();
        Brute {
            job,
            obstacles,
            metal: job.nets.iter().map(|net| pins(&net.pins)).collect(),
            net: 0,
            tree: BTreeSet::new(),
            unjoined: HashSet::new(),
            totals: Totals::default(),
        }
    }

    /// The net of this index comes to hand.
    pub fn begin(&mut self, net: usize) {
        let grid = self.job.grid();
        let mut pins = self.job.nets[net].pins.iter().map(|pin| grid.number(*pin));
        self.net = net;
        self.tree = pins.next().into_iter().collect();
        self.unjoined = pins.collect();
        self.count_if_joined();
    }

    pub fn all_joined(&self) -> bool {
        self.unjoined.is_empty()
    }

    /// Every route of at most so many moves that costs at most so much.
    pub fn routes(&self, most_moves: usize, most_cost: u64) -> Vec<Join> {
        let mut routes = Vec::new();
        for start in &self.tree {
            let start = self.job.grid().numbered(*start as u32);
            self.longer(start, &mut Vec::new(), most_moves, most_cost, &mut routes);
        }
        routes
    }

    /// Goes on from a legal list of moves by each move in turn. No legal list
    /// goes on from one that isn't.
    fn longer(
        &self,
        start: Vertex,
        moves: &mut Vec<Move>,
        most_moves: usize,
        most_cost: u64,
        routes: &mut Vec<Join>,
    ) {
        if moves.len() == most_moves {
            return;
        }
        for by in Move::ALL {
            moves.push(by);
            match self.judge(start, moves) {
                Some(judged) if judged.cost > most_cost => {}
                Some(judged) if self.unjoined.contains(&judged.last()) => routes.push(Join {
                    start,
                    moves: moves.clone(),
                    cost: judged.cost,
                }),
                Some(_) => self.longer(start, moves, most_moves, most_cost, routes),
                None => {}
            }
            moves.pop();
        }
    }

    /// "Cheapest; among equals the lowest start vertex, then the move list that
    /// comes first by move number."
    pub fn first<'r>(&self, routes: &'r [Join]) -> Option<&'r Join> {
        let grid = self.job.grid();
        let order = |join: &&Join| (join.cost, grid.number(join.start), join.moves.clone());
        routes.iter().min_by_key(order)
    }

    /// Makes a join of the net at hand.
    pub fn join(&mut self, join: &Join) {
        let judged = self.judge(join.start, &join.moves).expect("a legal join");
        assert_eq!(judged.cost, join.cost, "a join at its cost");
        assert!(self.unjoined.remove(&judged.last()), "a join ends at a pin");
        self.lay(&judged);
        self.count_if_joined();
    }

    /// "Nets fully joined": each once, when no pin of it is unjoined any more, or as it begins if
    /// it has one pin.
    fn count_if_joined(&mut self) {
        self.totals.joined += u64::from(self.all_joined());
    }

    fn lay(&mut self, judged: &Judged) {
        self.tree.extend(&judged.vertices);
        self.metal[self.net].extend(&judged.vertices);
        self.metal[self.net].extend(&judged.added);
        self.totals.cost += judged.cost;
        self.totals.added += judged.added.len() as u64;
        self.totals.penalties += judged.penalties;
    }

    /// How the job ends, if it ends here.
    pub fn joined(&self) -> Joined {
        let code = |vertex: usize| {
            let covers = |net: &usize| self.metal[*net].contains(&vertex);
            let nets: Vec<usize> = (0..self.metal.len()).filter(covers).collect();
            match nets[..] {
                [] if self.obstacles.contains(&vertex) => 257,
                [] => 0,
                [net] => net as u16 + 1,
                _ => 256,
            }
        };
        Joined {
            map: (0..self.job.grid().vertices() as usize).map(code).collect(),
            totals: self.totals,
        }
    }
}
