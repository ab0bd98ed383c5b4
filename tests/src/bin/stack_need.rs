//! Measures the stack that each call needs.
//!
//! Without arguments: makes each call in child processes, on threads with less and
//! less stack, until the child dies, and prints the least that was enough.
//! With a call and a number of bytes: is such a child.

use std::env;
use std::process::ExitCode;

use maizespell_tests::stack::{least, Call, KIB};

fn main() -> ExitCode {
    let arguments: Vec<String> = env::args().skip(1).collect();
    match &arguments[..] {
        [] => measure(),
        [name, stack] => match (Call::named(name), stack.parse()) {
            (Some(call), Ok(stack)) => call.make_within(stack),
            _ => return usage(),
        },
        _ => return usage(),
    }
    ExitCode::SUCCESS
}

fn usage() -> ExitCode {
    eprintln!("stack_need [CALL BYTES]");
    ExitCode::FAILURE
}

fn measure() {
    let program = env::current_exe().expect("a path of this program");
    let own = least(&program, Call::None);
    println!("a thread needs {own} bytes for itself");
    for call in Call::ALL.into_iter().filter(|call| *call != Call::None) {
        let need = least(&program, call) - own;
        let (name, kib, stated) = (call.name(), need.div_ceil(KIB), call.stated() / KIB);
        println!("{name} needs {need} bytes, {kib} KiB; stated are {stated} KiB");
    }
}
