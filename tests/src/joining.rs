//! Joining nets: the tree of the net at hand, the walks that join it, and what
//! they leave for later nets.
//!
//! Where the walks come from is left open: the second router searches them, the
//! second replay reads them from a plan.

use crate::rules::board::Board;
use crate::rules::metal::Metal;
use crate::rules::step::{Extension, Place, Step};
use crate::rules::view::View;

/// "Cost, added steps (M − n for each extension), penalised segments, nets fully
/// joined."
#[derive(Clone, Copy, Debug, Default, PartialEq, Eq)]
pub struct Totals {
    pub cost: u64,
    pub added: u64,
    pub penalties: u64,
    pub joined: u64,
}

impl Totals {
    /// In the order of the specification.
    pub const fn of(cost: u64, added: u64, penalties: u64, joined: u64) -> Self {
        Totals {
            cost,
            added,
            penalties,
            joined,
        }
    }
}

/// How a job ends.
#[derive(Clone, Debug, PartialEq, Eq)]
pub struct Joined {
    pub map: Vec<u16>,
    pub totals: Totals,
}

/// Nets in job order. `next` gives the walk that makes the next join of the net
/// at hand, or none, which ends the net, or an error, which ends everything.
pub fn join_nets<E>(
    board: &Board,
    mut next: impl FnMut(&NetAtHand) -> Result<Option<Walk>, E>,
) -> Result<Joined, E> {
    let mut metal = Metal::before_any_join(board);
    let mut totals = Totals::default();
    for number in 1..=board.job.nets.len() as u16 {
        let mut net = NetAtHand::begin(board, number, &metal);
        while net.pins_left > 0 {
            let Some(walk) = next(&net)? else { break };
            net.take(&walk, &mut metal, &mut totals);
        }
        if net.pins_left == 0 {
            totals.joined += 1;
        }
    }
    Ok(Joined {
        map: metal.into_map(),
        totals,
    })
}

/// The net whose turn it is, with its tree so far.
pub struct NetAtHand<'a> {
    pub view: View<'a>,
    number: u16,
    tree: Vec<usize>,
    on_tree: Vec<bool>,
    unjoined: Vec<bool>,
    pins_left: usize,
}

impl<'a> NetAtHand<'a> {
    /// "A net's tree starts as its first pin."
    fn begin(board: &'a Board<'a>, number: u16, metal: &Metal) -> Self {
        let grid = board.job.grid();
        let pins = &board.job.nets[number as usize - 1].pins;
        let mut net = NetAtHand {
            view: View::of(board, number, metal),
            number,
            tree: Vec::new(),
            on_tree: vec![false; board.vertices()],
            unjoined: vec![false; board.vertices()],
            pins_left: pins.len(),
        };
        for pin in pins {
            net.unjoined[grid.number(*pin)] = true;
        }
        net.grow(grid.number(pins[0]));
        net
    }

    /// The net's number, counted from 1.
    pub fn number(&self) -> u16 {
        self.number
    }

    /// The vertices of the tree, in no order.
    pub fn tree(&self) -> &[usize] {
        &self.tree
    }

    pub fn on_tree(&self, vertex: usize) -> bool {
        self.on_tree[vertex]
    }

    /// Whether a pin of the net is here that no join has reached.
    pub fn unjoined(&self, vertex: usize) -> bool {
        self.unjoined[vertex]
    }

    fn grow(&mut self, vertex: usize) {
        if !self.on_tree[vertex] {
            self.on_tree[vertex] = true;
            self.tree.push(vertex);
        }
        if self.unjoined[vertex] {
            self.unjoined[vertex] = false;
            self.pins_left -= 1;
        }
    }

    /// "Its vertices enter the tree; its extensions are metal but by themselves
    /// no starting point, and a pin under one stays unjoined."
    fn take(&mut self, walk: &Walk, metal: &mut Metal, totals: &mut Totals) {
        for vertex in &walk.vertices {
            self.grow(*vertex);
            metal.lay(self.number, *vertex);
        }
        for extension in &walk.extensions {
            for vertex in self.view.laid(*extension) {
                metal.lay(self.number, vertex);
            }
            totals.added += u64::from(extension.steps());
        }
        totals.cost += walk.cost;
        totals.penalties += walk.penalised.len() as u64;
    }
}

/// Legal moves from a vertex of the tree, as far as they have come.
#[derive(Clone)]
pub struct Walk {
    pub place: Place,
    pub cost: u64,
    vertices: Vec<usize>,
    extensions: Vec<Extension>,
    penalised: Vec<usize>,
}

impl Walk {
    pub fn start(vertex: usize) -> Self {
        Walk {
            place: Place::start(vertex),
            cost: 0,
            vertices: vec![vertex],
            extensions: Vec::new(),
            penalised: Vec::new(),
        }
    }

    /// The vertices that its moves entered: the start is no entry.
    pub fn entered(&self) -> &[usize] {
        &self.vertices[1..]
    }

    pub fn extensions(&self) -> &[Extension] {
        &self.extensions
    }

    /// The last vertices of its penalised segments: those that a via has left.
    pub fn penalised(&self) -> &[usize] {
        &self.penalised
    }

    pub fn go(&mut self, step: Step) {
        if step.penalised {
            self.penalised.push(self.place.vertex);
        }
        self.place = step.to;
        self.cost += step.cost();
        self.vertices.push(step.to.vertex);
        self.extensions.extend(step.extension);
    }
}
