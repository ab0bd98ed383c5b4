//! The calls on threads with no more stack than `README.md` states.

use std::path::Path;

use maizespell_tests::stack::{least, lives, Call, KIB, PAGE};

const PROGRAM: &str = env!("CARGO_BIN_EXE_stack_need");

/// It may be some bytes more than the need, but not a page.
#[test]
fn every_call_needs_the_stack_that_is_stated() {
    let program = Path::new(PROGRAM);
    let own = least(program, Call::None);
    for call in Call::ALL {
        let (name, enough) = (call.name(), own + call.stated());
        assert!(lives(program, call, enough), "{name} needs more");
        let less = enough.saturating_sub(PAGE);
        assert!(!lives(program, call, less), "{name} needs less");
    }
}

/// In its own words.
#[test]
fn the_header_states_the_same_stack() {
    let header = include_str!("../../include/maizespell.h");
    for call in Call::ALL.into_iter().filter(|call| *call != Call::None) {
        let (name, kib) = (call.name().to_uppercase(), call.stated() / KIB);
        let constant = format!("MAIZESPELL_{name}_STACK = {kib} * 1024");
        assert!(header.contains(&constant), "not there: {constant}");
    }
}
