//! Jobs and lent slices on which a routing is held against the second one: slices
//! as long as their needs and longer, short ones, and bad jobs.

use crate::compare::routing::{Case, Comparison};
use crate::damage::{aimed, blind};
use crate::job::Job;
use crate::library::RoutingResult;
use crate::plan::pack;
use crate::random::Random;
use crate::reader::{read, Refusal};
use crate::replay::Replay;
use crate::router::route;
use crate::routing::{refused, succeeded, Routing};
use crate::rules::board::Board;
use crate::seen::Seen;

/// Asks about jobs, each with slices of several lengths.
pub struct Lent {
    random: Random,
    pub comparison: Comparison,
    pub seen: Seen,
}

/// How many bytes or numbers beyond a need are lent at most.
const MOST_BEYOND: u32 = 9;

/// How often slices are lent that are a little too short, enough or too long.
const AROUND: u32 = 3;

impl Lent {
    /// This routing is asked, and its plans are put through this replay.
    pub fn of(routing: Routing, replay: Replay, seed: u64) -> Self {
        Lent {
            random: Random::new(seed),
            comparison: Comparison::of(routing, replay),
            seen: Seen::default(),
        }
    }

    /// Jobs made so, each routed once; of every eight one is asked about with short
    /// slices, and one is damaged.
    pub fn ask_jobs(&mut self, jobs: u32, make: fn(&mut Random) -> Job) {
        for count in 0..jobs {
            let job = make(&mut self.random);
            self.ask_job(&job, |lent, exact| match count % 8 {
                0 => lent.ask_short(exact),
                4 => lent.ask_bad(&job, exact),
                _ => {}
            });
        }
    }

    /// All that can be asked about a job, by random numbers from this seed on.
    pub fn ask_all(&mut self, seed: u64, job: &Job) {
        self.random = Random::new(seed);
        self.ask_job(job, |lent, exact| {
            lent.ask_short(exact);
            (0..AROUND).for_each(|_| lent.ask_around(exact));
            lent.ask_bad(job, exact);
        });
    }

    /// Asks with slices as long as they must be or longer, then asks more with the
    /// exact lengths at hand.
    pub fn ask_job(&mut self, job: &Job, more: impl FnOnce(&mut Self, &Case)) {
        let board = Board::new(job);
        let routed = route(&board);
        let plan = pack(&routed.records);
        self.seen.job(job);
        self.seen.routed(&board, &routed);
        let exact = Case {
            kind: "routed",
            job: &job.pack(),
            map_len: board.vertices(),
            work_len: board.work_need(),
            plan_len: plan.len(),
        };
        let result = self.ask_beyond(&exact);
        assert_eq!(result, succeeded(plan.len(), routed.joined.totals));
        more(self, &exact);
    }

    fn ask(&mut self, case: &Case) -> RoutingResult {
        self.seen.note(format!("asked: {}", case.kind), 1);
        self.comparison.ask(case)
    }

    /// With guard words beyond each need, at times with none.
    fn ask_beyond(&mut self, exact: &Case) -> RoutingResult {
        let mut beyond = |need: usize| need + self.random.edgy(0, MOST_BEYOND) as usize;
        let case = Case {
            map_len: beyond(exact.map_len),
            work_len: beyond(exact.work_len),
            plan_len: beyond(exact.plan_len),
            ..*exact
        };
        for (what, length, need) in [
            ("map", case.map_len, exact.map_len),
            ("work", case.work_len, exact.work_len),
            ("plan", case.plan_len, exact.plan_len),
        ] {
            let how = if length == need { "exact" } else { "longer" };
            self.seen.note(format!("slice: {what} {how}"), 1);
        }
        self.ask(&case)
    }

    /// Each slice of its need, or up to two numbers shorter or longer.
    fn ask_around(&mut self, exact: &Case) {
        let mut around = |need: usize| (need + self.random.index(5)).saturating_sub(2);
        let case = Case {
            kind: "around the needs",
            map_len: around(exact.map_len),
            work_len: around(exact.work_len),
            plan_len: around(exact.plan_len),
            ..*exact
        };
        self.ask(&case);
    }

    /// One number fewer than the need, none, or anything between.
    fn short(&mut self, need: usize) -> Option<usize> {
        let most = need.checked_sub(1)?;
        Some(self.random.edgy(0, most as u32) as usize)
    }

    /// A case that must be refused so.
    fn ask_refused(&mut self, case: &Case, number: u64, place: usize) {
        let place = place as u64;
        let refusal = Refusal { number, place };
        assert_eq!(self.ask(case), refused(refusal), "{}", case.kind);
    }

    /// 12, 13 and 14, the first of them first.
    pub fn ask_short(&mut self, exact: &Case) {
        let short_map = Case {
            kind: "short map",
            map_len: self.short(exact.map_len).expect("a job has a vertex"),
            ..*exact
        };
        self.ask_refused(&short_map, 12, exact.map_len);
        let short_work = Case {
            kind: "short work",
            work_len: self.short(exact.work_len).expect("a job has a vertex"),
            ..*exact
        };
        self.ask_refused(&short_work, 13, exact.work_len);
        let all_short = Case {
            kind: "short map, work and plan",
            map_len: short_map.map_len,
            work_len: short_work.work_len,
            plan_len: 0,
            ..*exact
        };
        self.ask_refused(&all_short, 12, exact.map_len);
        if let Some(plan_len) = self.short(exact.plan_len) {
            self.ask_short_plan(exact, plan_len);
        }
    }

    /// 14, with guard words beyond the needs of map and work.
    fn ask_short_plan(&mut self, exact: &Case, plan_len: usize) {
        let short_plan = Case {
            kind: "short plan",
            map_len: exact.map_len + 2,
            work_len: exact.work_len + 2,
            plan_len,
            ..*exact
        };
        self.ask_refused(&short_plan, 14, exact.plan_len);
        let left = self.comparison.expected_plan();
        assert!(left.iter().all(|byte| *byte == 0), "the whole plan is zero");
    }

    /// 14 at every length below the need.
    pub fn ask_every_short_plan(&mut self, exact: &Case) {
        for plan_len in 0..exact.plan_len {
            self.ask_short_plan(exact, plan_len);
        }
    }

    /// 12 and 13 at every length below the need.
    pub fn ask_every_short_map_and_work(&mut self, exact: &Case) {
        for map_len in 0..exact.map_len {
            let kind = "short map";
            let short = Case {
                kind,
                map_len,
                ..*exact
            };
            self.ask_refused(&short, 12, exact.map_len);
        }
        for work_len in 0..exact.work_len {
            let kind = "short work";
            let short = Case {
                kind,
                work_len,
                ..*exact
            };
            self.ask_refused(&short, 13, exact.work_len);
        }
    }

    /// Any bytes. A good job among them gets the slices that it needs.
    pub fn ask_bytes(&mut self, kind: &'static str, job: &[u8]) -> RoutingResult {
        let (map_len, work_len, plan_len) = match read(job) {
            Ok(job) => {
                let board = Board::new(&job);
                let plan_len = pack(&route(&board).records).len();
                (board.vertices(), board.work_need(), plan_len)
            }
            Err(_) => (3, 3, 3),
        };
        self.ask(&Case {
            kind,
            job,
            map_len: map_len + 1,
            work_len: work_len + 1,
            plan_len: plan_len + 1,
        })
    }

    /// 1 to 11, one rule broken after another, and damage without an aim. The job
    /// comes before the slices, which are often short here.
    pub fn ask_bad(&mut self, good: &Job, exact: &Case) {
        for number in aimed::RULES {
            if let Some(bad) = aimed::aimed(number, good, &mut self.random) {
                let place = bad.refusal.place as usize;
                let case = self.any_lengths("one rule broken", &bad.bytes, exact);
                self.ask_refused(&case, number, place);
            }
        }
        if self.random.one_in(20) {
            let mut bytes = Vec::new();
            aimed::too_long(exact.job, &mut bytes, &mut self.random);
            let case = self.any_lengths("too long", &bytes, exact);
            self.ask_refused(&case, 1, 0);
        }
        for (kind, damage) in blind::ALL {
            let mut bytes = exact.job.to_vec();
            damage(&mut bytes, &mut self.random);
            let case = self.any_lengths(kind, &bytes, exact);
            self.ask(&case);
        }
    }

    /// Other bytes with the slices of a good job, or with shorter ones.
    fn any_lengths<'j>(&mut self, kind: &'static str, job: &'j [u8], exact: &Case) -> Case<'j> {
        let mut length = |need: usize| match self.random.between(0, 3) {
            0 => self.random.edgy(0, need as u32) as usize,
            _ => need,
        };
        Case {
            kind,
            job,
            map_len: length(exact.map_len),
            work_len: length(exact.work_len),
            plan_len: length(exact.plan_len),
        }
    }
}
