//! Pairs of job and plan on which a replay or a wire report is held against the second
//! one: plans of the second router and plans that wander, damaged with an aim and
//! without, bad jobs, and slices that are too short.

use crate::compare::replay::{Case, Comparison};
use crate::compare::wire_report;
use crate::damage::plan::shuffled::shuffled;
use crate::damage::plan::{illegal_move, LegalPlan, AIMED};
use crate::damage::{aimed, blind};
use crate::job::Job;
use crate::library::ReplayResult;
use crate::plan::{pack, Record};
use crate::random::Random;
use crate::reader::Refusal;
use crate::replay::{refused, succeeded, Replay};
use crate::report::Report;
use crate::router::{route, Routed};
use crate::rules::board::Board;
use crate::seen::Seen;
use crate::wander::wandering_plan;

/// Every so many jobs one is made too long.
const TOO_LONG_EVERY: u32 = 100;

/// A call that is asked about pairs.
pub trait Asked {
    /// What replay must answer to this pair. Whatever the call is lent beside it is made
    /// by random numbers.
    fn ask_pair(&mut self, case: &Case, random: &mut Random, seen: &mut Seen) -> ReplayResult;

    /// The map slice that was left.
    fn map_left(&self) -> &[u16];
}

impl Asked for Comparison {
    fn ask_pair(&mut self, case: &Case, _: &mut Random, _: &mut Seen) -> ReplayResult {
        self.ask(case)
    }

    fn map_left(&self) -> &[u16] {
        self.expected_map()
    }
}

/// Asks about generated jobs, each in some thirty pairs.
pub struct Pairs<A> {
    random: Random,
    pub comparison: A,
    pub seen: Seen,
}

/// A job's bytes and the lengths that its slices need.
struct Sized {
    bytes: Vec<u8>,
    vertices: usize,
    work: usize,
}

impl Pairs<Comparison> {
    /// This replay is asked.
    pub fn of(replay: Replay, seed: u64) -> Self {
        Pairs::asking(Comparison::of(replay), seed)
    }
}

impl Pairs<wire_report::Comparison> {
    /// This wire report is asked.
    pub fn of_report(report: Report, seed: u64) -> Self {
        Pairs::asking(wire_report::Comparison::of(report), seed)
    }
}

impl<A: Asked> Pairs<A> {
    fn asking(comparison: A, seed: u64) -> Self {
        Pairs {
            random: Random::new(seed),
            comparison,
            seen: Seen::default(),
        }
    }

    /// Jobs made so, one in so many of them too long.
    pub fn ask_jobs(&mut self, jobs: u32, make: fn(&mut Random) -> Job) {
        for count in 0..jobs {
            let job = make(&mut self.random);
            self.ask_job(&job);
            if count % TOO_LONG_EVERY == 0 {
                self.ask_too_long(&job);
            }
        }
    }

    /// All that can be asked about a job, by random numbers from this seed on.
    pub fn ask_all(&mut self, seed: u64, job: &Job) {
        self.random = Random::new(seed);
        self.ask_job(job);
        if self.random.one_in(TOO_LONG_EVERY) {
            self.ask_too_long(job);
        }
    }

    fn ask_job(&mut self, job: &Job) {
        let board = Board::new(job);
        let sized = Sized {
            bytes: job.pack(),
            vertices: board.vertices(),
            work: board.work_need(),
        };
        let cheapest = route(&board);
        self.seen.job(job);
        self.seen.routed(&board, &cheapest);
        self.ask_legal("cheapest joins", &sized, &cheapest);
        let wandering = wandering_plan(&board, &mut self.random);
        self.seen.outside_and_taken(&board, &wandering.records);
        self.ask_legal("wandering joins", &sized, &wandering);
        let records = if self.random.one_in(2) {
            &cheapest.records
        } else {
            &wandering.records
        };
        let board = &board;
        self.ask_aimed(&sized, LegalPlan { board, records });
        self.ask_blind(&sized, records);
        self.ask_short_slices(&sized, &pack(records));
        self.ask_bad_jobs(job, &sized, &pack(records));
    }

    /// Asks with guard words beyond each need, at times with none.
    fn ask(&mut self, kind: &'static str, sized: &Sized, plan: &[u8]) -> ReplayResult {
        let case = Case {
            kind,
            job: &sized.bytes,
            plan,
            map_len: sized.vertices + self.random.edgy(0, 9) as usize,
            work_len: sized.work + self.random.edgy(0, 9) as usize,
        };
        self.ask_case(&case)
    }

    fn ask_case(&mut self, case: &Case) -> ReplayResult {
        self.seen.note(case.kind, 1);
        let (random, seen) = (&mut self.random, &mut self.seen);
        self.comparison.ask_pair(case, random, seen)
    }

    /// A legal plan must get its totals and its map.
    fn ask_legal(&mut self, kind: &'static str, sized: &Sized, routed: &Routed) {
        let result = self.ask(kind, sized, &pack(&routed.records));
        assert_eq!(result, succeeded(routed.joined.totals), "{kind}");
        let map = &self.comparison.map_left()[..sized.vertices];
        assert_eq!(map, routed.joined.map, "{kind}");
    }

    /// One rule broken, each in turn; the second replay must see it as aimed.
    fn ask_aimed(&mut self, sized: &Sized, legal: LegalPlan) {
        for (kind, damage) in AIMED {
            if let Some(aimed) = damage(legal, &mut self.random) {
                let result = self.ask(kind, sized, &aimed.bytes);
                assert_eq!(result, refused(aimed.refusal), "{kind}");
            }
        }
        for _ in 0..6 {
            if let Some((aimed, cause)) = illegal_move(legal, &mut self.random) {
                let result = self.ask(cause.name(), sized, &aimed.bytes);
                assert_eq!(result, refused(aimed.refusal), "{}", cause.name());
            }
        }
    }

    /// Damage without an aim, to records and to bytes.
    fn ask_blind(&mut self, sized: &Sized, records: &[Record]) {
        for _ in 0..4 {
            if let Some(plan) = shuffled(records, &mut self.random) {
                self.ask("records shuffled", sized, &plan);
            }
        }
        let good = pack(records);
        let mut longer = good.clone();
        blind::lengthen(&mut longer, &mut self.random);
        self.ask("lengthened", sized, &longer);
        let random_bytes = blind::random_bytes(&mut self.random);
        self.ask("random bytes", sized, &random_bytes);
        self.ask("empty", sized, &[]);
        if !good.is_empty() {
            self.ask_blind_bytes(sized, &good);
        }
    }

    fn ask_blind_bytes(&mut self, sized: &Sized, good: &[u8]) {
        for _ in 0..3 {
            let mut plan = good.to_vec();
            blind::flip_bits(&mut plan, &mut self.random);
            self.ask("bits flipped", sized, &plan);
        }
        let mut plan = good.to_vec();
        blind::cut(&mut plan, &mut self.random);
        self.ask("cut", sized, &plan);
        let mut plan = good.to_vec();
        blind::scramble(&mut plan, &mut self.random);
        self.ask("scrambled", sized, &plan);
    }

    /// 12 and 13, the first of them first, whatever the plan is.
    fn ask_short_slices(&mut self, sized: &Sized, good: &[u8]) {
        let plan = if self.random.one_in(2) { good } else { &[0xFF] };
        let short_map = self.random.edgy(0, sized.vertices as u32 - 1) as usize;
        let short_work = self.random.edgy(0, sized.work as u32 - 1) as usize;
        let lengths = [
            (short_map, sized.work, 12, sized.vertices),
            (sized.vertices, short_work, 13, sized.work),
            (short_map, short_work, 12, sized.vertices),
        ];
        for (map_len, work_len, number, need) in lengths {
            let result = self.ask_case(&Case {
                kind: "short slice",
                job: &sized.bytes,
                plan,
                map_len,
                work_len,
            });
            let place = need as u64;
            assert_eq!(result, refused(Refusal { number, place }));
        }
    }

    /// 2 to 11: the job comes before the slices and before the plan.
    fn ask_bad_jobs(&mut self, good: &Job, sized: &Sized, plan: &[u8]) {
        for _ in 0..2 {
            let number = *self.random.pick(&aimed::RULES);
            let Some(bad) = aimed::aimed(number, good, &mut self.random) else {
                continue;
            };
            self.ask_bad_job(&bad.bytes, sized, plan, bad.refusal);
        }
    }

    fn ask_too_long(&mut self, good: &Job) {
        let sized = Sized {
            bytes: good.pack(),
            vertices: 1,
            work: 1,
        };
        let mut buffer = Vec::new();
        let refusal = aimed::too_long(&sized.bytes, &mut buffer, &mut self.random);
        self.ask_bad_job(&buffer, &sized, &[], refusal);
    }

    fn ask_bad_job(&mut self, job: &[u8], sized: &Sized, plan: &[u8], refusal: Refusal) {
        let short = self.random.one_in(3);
        let result = self.ask_case(&Case {
            kind: "bad job",
            job,
            plan,
            map_len: if short { 0 } else { sized.vertices },
            work_len: if short { 0 } else { sized.work },
        });
        assert_eq!(result, refused(refusal));
    }
}
