//! The program itself on files of jobs: one line, that of the second program. What went
//! wrong is on standard error, and the exit status is 0.
//!
//! MAIZESPELL_PROGRAM names it, or it is `../target/bin/maizespell`.

use std::fs::{self, File, OpenOptions};
use std::io::Write;
use std::path::{Path, PathBuf};
use std::process::{Command, Output, Stdio};
use std::thread;
use std::time::Duration;

use maizespell_tests::built;
use maizespell_tests::marked;
use maizespell_tests::program::{edges, generated, line, Input};

const SEED: u64 = 65_536;
const JOBS: u32 = 150;

fn program() -> PathBuf {
    built::program().unwrap_or_else(|how| panic!("{how}"))
}

/// Runs the program on a file with these bytes.
fn run(file: &Path, bytes: &[u8]) -> Output {
    fs::write(file, bytes).expect("a file of the job");
    let mut command = Command::new(program());
    command.stdin(File::open(file).expect("the file of the job"));
    command.output().expect("the program runs")
}

fn check_output(kind: &str, output: &Output, expected: &str) {
    let written = String::from_utf8_lossy(&output.stdout);
    assert_eq!(written, expected, "{kind}");
    assert_eq!(String::from_utf8_lossy(&output.stderr), "", "{kind}");
    assert!(output.status.success(), "{kind}: {}", output.status);
}

fn check_all(name: &str, inputs: &[Input]) {
    let file = Path::new(env!("CARGO_TARGET_TMPDIR")).join(name);
    for Input { kind, bytes } in inputs {
        check_output(kind, &run(&file, bytes), &line(bytes));
    }
    println!("{} runs: {name}", inputs.len());
}

#[test]
fn edges_get_their_lines() {
    check_all("edges", &edges());
}

#[test]
fn generated_jobs_get_their_lines() {
    check_all("generated", &generated(JOBS, SEED));
}

/// The specification's job and line, through a pipe that gives the bytes in two parts.
#[test]
fn a_gets_the_line_of_the_specification_through_a_pipe() {
    let mut command = Command::new(program());
    command.stdin(Stdio::piped()).stdout(Stdio::piped());
    command.stderr(Stdio::piped());
    let mut child = command.spawn().expect("the program runs");
    let mut input = child.stdin.take().expect("a pipe");
    for part in marked::a().pack().chunks(20) {
        input.write_all(part).expect("the program reads");
        input.flush().expect("the program reads");
        thread::sleep(Duration::from_millis(50));
    }
    drop(input);
    let output = child.wait_with_output().expect("the program ends");
    check_output("A", &output, "80 00 00 00 03 54 00 00 00 00 0C\n");
}

/// A device that takes nothing, as a full disk does.
#[test]
fn a_line_that_cannot_be_written_is_told() {
    let file = Path::new(env!("CARGO_TARGET_TMPDIR")).join("full");
    fs::write(&file, marked::a().pack()).expect("a file of the job");
    let full = OpenOptions::new().write(true).open("/dev/full");
    let mut command = Command::new(program());
    command.stdin(File::open(&file).expect("the file of the job"));
    command
        .stdout(full.expect("the device"))
        .stderr(Stdio::piped());
    let child = command.spawn().expect("the program runs");
    let output = child.wait_with_output().expect("the program ends");
    let told = "maizespell: the line could not be written to standard output\n";
    assert_eq!(String::from_utf8_lossy(&output.stderr), told);
}

/// The program does not wait for a job: its standard input stays open.
#[test]
fn an_argument_is_answered_by_what_is_expected() {
    let mut command = Command::new(program());
    command.arg("a.job").stdin(Stdio::piped());
    command.stdout(Stdio::piped()).stderr(Stdio::piped());
    let mut child = command.spawn().expect("the program runs");
    let input = child.stdin.take().expect("a pipe");
    let output = child.wait_with_output().expect("the program ends");
    drop(input);
    let told = "maizespell: takes no arguments, and a job on standard input: maizespell < JOB\n";
    assert_eq!(String::from_utf8_lossy(&output.stderr), told);
    assert_eq!(String::from_utf8_lossy(&output.stdout), "");
}
