//! The tables of costs to go by which the marked jobs' joins are proved, as the text
//! of `crates/marked/proofs/Costs.antt`.

use std::convert::Infallible;

use crate::job::Job;
use crate::joining::join_nets;
use crate::marked;
use crate::router::to_go::CostToGo;
use crate::router::walk;
use crate::rules::board::Board;
use crate::rules::segment::{Segment, Side};
use crate::rules::step::Place;

const HEAD: &str = "\
-- The least costs to go in the marked jobs: for each job a table for each of its joins, in order. A table has
-- a row for each vertex in the order of their numbers, and the row an entry for each segment: fresh, running
-- low and high by length, paid, paid toward low and toward high. 0 is infinite, and n + 1 is the cost n.
--     costs_a .. costs_n     the tables of each job
use Prim.Native.Nat.{ℕ}
use mathlib.Core.List.{List, [], ◌∷◌}
";

/// Between two elements that do not stand on one line.
const NEXT: &str = "\n    ∷ ";

/// The whole file.
pub fn text() -> String {
    let mut text = HEAD.to_string();
    for (letter, job) in marked::all() {
        let tables = tables(&job).join(NEXT);
        let letter = letter.to_ascii_lowercase();
        text += &format!("\nunfoldable pub costs_{letter} : List (List (List ℕ))\n");
        text += &format!("costs_{letter} =\n    {tables} ∷ []\n");
    }
    text
}

/// The tables of a job, in the order in which its joins are searched.
fn tables(job: &Job) -> Vec<String> {
    let board = Board::new(job);
    let segments = segments(job.largest_min_length());
    let mut tables = Vec::new();
    let joined = join_nets(&board, |net| {
        let to_go = CostToGo::relaxed(&board, net);
        tables.push(table(&to_go, board.vertices(), &segments));
        let join = to_go.first_join();
        Ok::<_, Infallible>(join.map(|join| walk(&board, net, &join)))
    });
    let Ok(_) = joined;
    tables
}

/// A row for each vertex.
fn table(to_go: &CostToGo, vertices: usize, segments: &[Segment]) -> String {
    let row = |vertex| {
        let entry = |segment: &Segment| {
            let segment = *segment;
            let cost = to_go.of(Place { vertex, segment });
            cost.map_or(0, |cost| cost + 1).to_string()
        };
        let entries: Vec<String> = segments.iter().map(entry).collect();
        format!("({} ∷ [])", entries.join(" ∷ "))
    };
    let rows: Vec<String> = (0..vertices).map(row).collect();
    format!("({}{NEXT}[])", rows.join(NEXT))
}

/// "fresh, running low and high by length, paid, paid toward low and toward high"
fn segments(largest: u32) -> Vec<Segment> {
    let sides = [Side::Low, Side::High];
    let mut segments = vec![Segment::Fresh];
    for length in 1..largest {
        segments.extend(sides.map(|side| Segment::Running { side, length }));
    }
    segments.push(Segment::START);
    segments.extend(sides.map(|side| Segment::Paid { side: Some(side) }));
    segments
}
