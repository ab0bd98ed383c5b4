//! The records of a routed job against every short route, whoever has routed it.

use super::Brute;
use crate::job::Job;
use crate::plan::{Join, Record};
use crate::router::Routed;

/// How often each case came up.
#[derive(Debug, Default)]
pub struct Checked {
    most_moves: usize,
    pub joins: u32,
    /// Joins with more moves than the routes that were looked at.
    pub long: u32,
    /// Joins that had an equal in cost, and in cost and start.
    pub cost_ties: u32,
    pub start_ties: u32,
    pub none: u32,
    pub routes: usize,
}

impl Checked {
    /// Every route of so many moves is to be looked at.
    pub fn by(most_moves: usize) -> Self {
        Checked {
            most_moves,
            ..Checked::default()
        }
    }

    /// Each join comes first in the specification's order among all routes of some moves,
    /// there is none of them where the record says so, and map and totals are what
    /// the joins make.
    pub fn check(&mut self, job: &Job, routed: &Routed) {
        let mut records = routed.records.iter();
        let mut brute = Brute::new(job);
        for net in 0..job.nets.len() {
            brute.begin(net);
            while !brute.all_joined() {
                match records.next().expect("a record until all pins are joined") {
                    Record::Join(join) => {
                        self.check_join(&brute, join);
                        brute.join(join);
                    }
                    Record::NoJoin => {
                        self.none += 1;
                        assert_eq!(brute.routes(self.most_moves, u64::MAX), []);
                        break;
                    }
                }
            }
        }
        assert_eq!(records.next(), None);
        assert_eq!(brute.joined(), routed.joined);
    }

    fn check_join(&mut self, brute: &Brute, join: &Join) {
        let routes = brute.routes(self.most_moves, join.cost);
        self.joins += 1;
        self.routes += routes.len();
        if join.moves.len() > self.most_moves {
            self.long += 1;
            let mut with_join = routes;
            with_join.push(join.clone());
            assert_eq!(brute.first(&with_join), Some(join));
            return;
        }
        assert_eq!(brute.first(&routes), Some(join));
        let ties = routes.iter().filter(|route| route.cost == join.cost);
        let same_start = ties.clone().filter(|route| route.start == join.start);
        self.cost_ties += u32::from(ties.count() > 1);
        self.start_ties += u32::from(same_start.count() > 1);
    }

    /// Fails where too few records were looked at, or too few ties.
    pub fn assert_many(&self) {
        let Checked { joins, none, .. } = self;
        assert!(*joins >= 5_000 && *none >= 1_000, "few records");
        let few_ties = self.cost_ties < 500 || self.start_ties < 200;
        assert!(!few_ties, "few ties");
    }
}
