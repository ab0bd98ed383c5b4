//! How much stack the calls need. Each is made on a thread that has so much and no
//! more, in a process of its own: where it is too little, the process dies.
//!
//! No thread gets as little as a small call needs, so a ballast lies on its stack
//! first. What a thread needs for itself beside that is measured with no call.

mod cases;

use std::hint::black_box;
use std::path::Path;
use std::process::{Command, Stdio};
use std::thread;

use crate::library::{self, ReplayResult, RoutingResult, REPLAY, REPORT, ROUTING};
use crate::replay::replay;
use crate::report::{report, Report};
use crate::routing::{routing, Routing};
use crate::sizing;
use cases::{cases, Case};

/// The stack that each call needs, in KiB, as `README.md` and the header state it.
pub const SIZING_KIB: usize = 18;
pub const REPLAY_KIB: usize = 53;
pub const REPORT_KIB: usize = 53;
pub const ROUTING_KIB: usize = 74;

pub const KIB: usize = 1_024;

/// What lies on the stack before a call.
const BALLAST: usize = 64 * KIB;

/// More than a call may need.
const MOST: usize = 256 * KIB;

/// A stack that is short by no more than this ends in its guard page.
pub const PAGE: usize = 4 * KIB;

/// How finely the least stack is found.
const FINE: usize = 128;

/// What is made on a thread.
#[derive(Clone, Copy, Debug, PartialEq, Eq)]
pub enum Call {
    /// None: the thread needs stack even so.
    None,
    Sizing,
    Replay,
    Report,
    Routing,
}

impl Call {
    pub const ALL: [Call; 5] = [
        Call::None,
        Call::Sizing,
        Call::Replay,
        Call::Report,
        Call::Routing,
    ];

    /// In bytes.
    pub fn stated(self) -> usize {
        KIB * match self {
            Call::None => 0,
            Call::Sizing => SIZING_KIB,
            Call::Replay => REPLAY_KIB,
            Call::Report => REPORT_KIB,
            Call::Routing => ROUTING_KIB,
        }
    }

    pub fn name(self) -> &'static str {
        match self {
            Call::None => "none",
            Call::Sizing => "sizing",
            Call::Replay => "replay",
            Call::Report => "report",
            Call::Routing => "routing",
        }
    }

    pub fn named(name: &str) -> Option<Call> {
        Call::ALL.into_iter().find(|call| call.name() == name)
    }

    /// Makes the call on each of a set of cases, all on one thread that has the
    /// ballast and so many bytes of stack. Dies where that is too little.
    pub fn make_within(self, stack: usize) {
        match self {
            Call::None => within(stack, || ()),
            Call::Sizing => sizing_within(stack, &cases()),
            Call::Replay => replay_within(stack, cases()),
            Call::Report => report_within(stack, cases()),
            Call::Routing => routing_within(stack, cases()),
        }
    }
}

/// What a thread with the ballast and so much stack gives.
fn within<T: Send>(stack: usize, make: impl FnOnce() -> T + Send) -> T {
    thread::scope(|scope| {
        let builder = thread::Builder::new().stack_size(BALLAST + stack);
        let thread = builder.spawn_scoped(scope, || above_ballast(make));
        thread.expect("a thread").join().expect("no panic")
    })
}

#[inline(never)]
fn above_ballast<T>(make: impl FnOnce() -> T) -> T {
    let mut ballast = [1_u8; BALLAST];
    black_box(&mut ballast);
    let made = make();
    black_box(&mut ballast);
    made
}

fn sizing_within(stack: usize, cases: &[Case]) {
    let second = |case: &Case| sizing::expected(&case.job);
    let expected: Vec<_> = cases.iter().map(second).collect();
    let mut given = Vec::with_capacity(cases.len());
    within(stack, || {
        for case in cases {
            given.push(library::sizing(&case.job));
        }
    });
    assert_eq!(given, expected);
}

fn replay_within(stack: usize, mut cases: Vec<Case>) {
    let second = |case: &mut Case| replay(&case.job, &case.plan, &mut case.map, &mut case.work);
    let expected: Vec<_> = cases.iter_mut().map(second).collect();
    let mut given = Vec::with_capacity(cases.len());
    within(stack, || {
        for case in &mut cases {
            given.push(REPLAY(&case.job, &case.plan, &mut case.map, &mut case.work));
        }
    });
    assert_eq!(given, expected);
}

/// A call adds to its report, so each has its own.
fn report_within(stack: usize, mut cases: Vec<Case>) {
    let mut second = cases.clone();
    let expected: Vec<_> = second
        .iter_mut()
        .map(|case| reported_by(report, case))
        .collect();
    let mut given = Vec::with_capacity(cases.len());
    within(stack, || {
        for case in &mut cases {
            given.push(reported_by(REPORT, case));
        }
    });
    assert_eq!(given, expected);
}

fn reported_by(report: Report, case: &mut Case) -> ReplayResult {
    let (map, work) = (&mut case.map, &mut case.work);
    report(&case.job, &case.plan, map, work, &mut case.report)
}

/// The plan slices are those of the cases: routed plans, shorter and longer.
fn routing_within(stack: usize, mut cases: Vec<Case>) {
    let expected: Vec<_> = cases
        .iter_mut()
        .map(|case| routed_by(routing, case))
        .collect();
    let mut given = Vec::with_capacity(cases.len());
    within(stack, || {
        for case in &mut cases {
            given.push(routed_by(ROUTING, case));
        }
    });
    assert_eq!(given, expected);
}

fn routed_by(routing: Routing, case: &mut Case) -> RoutingResult {
    routing(&case.job, &mut case.map, &mut case.work, &mut case.plan)
}

/// Whether the program `stack_need` makes the call with so much stack and lives.
pub fn lives(program: &Path, call: Call, stack: usize) -> bool {
    let mut child = Command::new(program);
    child.args([call.name(), &stack.to_string()]);
    child.stderr(Stdio::null());
    child.status().expect("a child").success()
}

/// The least stack with which `stack_need` lives, the thread's own need counted: less
/// and less until it dies, page by page, then more by little.
pub fn least(program: &Path, call: Call) -> usize {
    let too_little = |stack: &usize| !lives(program, call, *stack);
    let by_page = (0..=MOST).rev().step_by(PAGE).find(too_little);
    let short = by_page.expect("no stack is too little");
    let more = (short..=short + PAGE).step_by(FINE);
    more.skip(1)
        .find(|stack| lives(program, call, *stack))
        .expect("a call needs less than was tried first")
}
