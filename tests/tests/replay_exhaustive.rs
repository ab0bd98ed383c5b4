//! The plans of the marked jobs with small damage of every kind: each prefix, each
//! pair of bits flipped, each byte at each value, each length a little longer.

use maizespell_tests::compare::replay::{Case, Comparison};
use maizespell_tests::library::REPLAY;
use maizespell_tests::marked;
use maizespell_tests::plan::pack;
use maizespell_tests::router::route;
use maizespell_tests::rules::board::Board;

/// One marked job, asked with plan after plan.
struct Asking<'a> {
    comparison: &'a mut Comparison,
    job: Vec<u8>,
    vertices: usize,
    work: usize,
}

impl Asking<'_> {
    fn ask(&mut self, kind: &'static str, plan: &[u8]) {
        self.comparison.ask(&Case {
            kind,
            job: &self.job,
            plan,
            map_len: self.vertices + 1,
            work_len: self.work + 1,
        });
    }

    fn each_prefix(&mut self, plan: &[u8]) {
        for length in 0..=plan.len() {
            self.ask("prefix of a marked plan", &plan[..length]);
        }
    }

    fn each_pair_of_bits(&mut self, plan: &[u8]) {
        let mut damaged = plan.to_vec();
        for first in 0..plan.len() * 8 {
            flip(&mut damaged, first);
            self.ask("bit of a marked plan", &damaged);
            for second in 0..first {
                flip(&mut damaged, second);
                self.ask("two bits of a marked plan", &damaged);
                flip(&mut damaged, second);
            }
            flip(&mut damaged, first);
        }
    }

    fn each_byte_at_each_value(&mut self, plan: &[u8]) {
        let mut damaged = plan.to_vec();
        for (index, byte) in plan.iter().enumerate() {
            for value in 0..=255 {
                damaged[index] = value;
                self.ask("byte of a marked plan", &damaged);
            }
            damaged[index] = *byte;
        }
    }

    fn each_longer_length(&mut self, plan: &[u8]) {
        let mut longer = plan.to_vec();
        for _ in 0..32 {
            longer.push(0);
            self.ask("marked plan with more bytes", &longer);
        }
    }
}

fn flip(bytes: &mut [u8], bit: usize) {
    bytes[bit / 8] ^= 0x80 >> (bit % 8);
}

#[test]
fn marked_plans_with_small_damage() {
    let mut comparison = Comparison::of(REPLAY);
    for (_, job) in marked::all() {
        let board = Board::new(&job);
        let plan = pack(&route(&board).records);
        let mut asking = Asking {
            comparison: &mut comparison,
            job: job.pack(),
            vertices: board.vertices(),
            work: board.work_need(),
        };
        asking.each_prefix(&plan);
        asking.each_pair_of_bits(&plan);
        asking.each_byte_at_each_value(&plan);
        asking.each_longer_length(&plan);
    }
    println!("{}", comparison.tally);
    comparison.tally.assert_same();
}
