//! Writes the tables of costs by which the marked jobs' joins are proved: the text of
//! `crates/marked/proofs/Costs.antt`, to standard output or to a file. With `--check`
//! it says where a file differs from that.

use std::process::ExitCode;
use std::{env, fs, io};

use maizespell_tests::marked::costs::text;

fn main() -> ExitCode {
    let arguments: Vec<String> = env::args().skip(1).collect();
    let arguments: Vec<&str> = arguments.iter().map(String::as_str).collect();
    let done = match arguments[..] {
        [] => io::Write::write_all(&mut io::stdout(), text().as_bytes()),
        ["--check", file] => check(file),
        [file] if file != "--check" => fs::write(file, text()),
        _ => Err(io::Error::other("marked_costs [[--check] FILE]")),
    };
    if let Err(error) = done {
        eprintln!("{error}");
        return ExitCode::FAILURE;
    }
    ExitCode::SUCCESS
}

/// An error where the file is another text, which names its first other line.
fn check(file: &str) -> io::Result<()> {
    let (found, made) = (fs::read_to_string(file)?, text());
    if found == made {
        return Ok(());
    }
    let same = found.lines().zip(made.lines());
    let line = same.take_while(|(found, made)| found == made).count() + 1;
    let said = format!("{file} differs from what is made, from line {line} on");
    Err(io::Error::other(said))
}
