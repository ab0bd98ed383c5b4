//! How often each number was answered, and where two answers have differed.

use std::collections::HashSet;
use std::fmt;

/// A case in which two answers differ; it displays as a report.
pub trait Difference: fmt::Display {
    /// Bytes of the case: of all differences the shortest is shown.
    fn bytes(&self) -> usize;
}

/// By number, 0 for success: how often it was answered, and at which places.
pub struct Tally<D> {
    pub asked: u64,
    pub hits: [u64; 20],
    pub places: [HashSet<u64>; 20],
    pub differences: u64,
    pub shortest: Option<D>,
}

impl<D> Default for Tally<D> {
    fn default() -> Self {
        Tally {
            asked: 0,
            hits: Default::default(),
            places: Default::default(),
            differences: 0,
            shortest: None,
        }
    }
}

impl<D: Difference> Tally<D> {
    pub(super) fn count(&mut self, refusal: u64, place: u64) {
        self.asked += 1;
        self.hits[refusal as usize] += 1;
        self.places[refusal as usize].insert(place);
    }

    pub(super) fn keep(&mut self, difference: D) {
        self.differences += 1;
        let shorter = |kept: &D| difference.bytes() < kept.bytes();
        if self.shortest.as_ref().is_none_or(shorter) {
            self.shortest = Some(difference);
        }
    }

    /// Fails where two answers have differed.
    pub fn assert_same(&self) {
        if let Some(difference) = &self.shortest {
            let (count, asked) = (self.differences, self.asked);
            panic!("{count} of {asked} cases; the shortest:\n{difference}");
        }
    }
}

impl<D> fmt::Display for Tally<D> {
    fn fmt(&self, f: &mut fmt::Formatter) -> fmt::Result {
        writeln!(f, "{} cases", self.asked)?;
        writeln!(f, " number      hits    places")?;
        for (number, places) in self.places.iter().enumerate() {
            let hits = self.hits[number];
            writeln!(f, "{number:7} {hits:9} {:9}", places.len())?;
        }
        Ok(())
    }
}
