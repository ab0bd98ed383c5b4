//! The host of `examples/host` on files of jobs: the totals and the map of the second
//! router, or the refusal; and its test of slices against guard pages.
//!
//! `examples/host/build` puts the programs into the folder that MAIZESPELL_HOST_DIR
//! names, or into `../target/host`.

use std::fs;
use std::path::{Path, PathBuf};
use std::process::{Command, Output};

use maizespell_tests::built;
use maizespell_tests::damage::aimed;
use maizespell_tests::generate::routable::{routable_job, Size};
use maizespell_tests::grid::vertex;
use maizespell_tests::host::{crowded, most_plan_bytes, written};
use maizespell_tests::job::Job;
use maizespell_tests::library::ROUTING;
use maizespell_tests::marked;
use maizespell_tests::plan::pack;
use maizespell_tests::random::Random;
use maizespell_tests::reader::Refusal;
use maizespell_tests::routing::routed_by;

const SEED: u64 = 1_707;
const TINY_JOBS: usize = 20;
const SMALL_JOBS: usize = 4;

/// Each is run on the same files.
const HOSTS: [&str; 2] = ["host", "host-sanitized"];

fn run(name: &str, files: &[PathBuf]) -> Output {
    let program = built::host(name).unwrap_or_else(|how| panic!("{how}"));
    let mut command = Command::new(program);
    command.args(files);
    command.output().expect("the host runs")
}

/// A file with these bytes.
fn file(name: &str, bytes: &[u8]) -> PathBuf {
    let path = Path::new(env!("CARGO_TARGET_TMPDIR")).join(name);
    fs::write(&path, bytes).expect("a file of the job");
    path
}

/// The marked jobs, one without nets, one with a net of one pin alone, one whose plan is longer
/// than the host's guess, and generated ones.
fn good_jobs() -> Vec<Job> {
    let mut random = Random::new(SEED);
    let mut jobs: Vec<Job> = marked::all().into_iter().map(|(_, job)| job).collect();
    jobs.push(marked::plain(&[]));
    jobs.push(marked::plain(&[&[vertex(0, 0, 0)]]));
    jobs.push(crowded());
    jobs.extend((0..TINY_JOBS).map(|_| routable_job(Size::Tiny, &mut random)));
    jobs.extend((0..SMALL_JOBS).map(|_| routable_job(Size::Small, &mut random)));
    jobs
}

#[test]
fn good_jobs_get_totals_and_map() {
    for job in good_jobs() {
        let bytes = job.pack();
        let expected = written(&bytes).expect("a good job");
        let path = file("good.job", &bytes);
        for host in HOSTS {
            let output = run(host, &[path.clone()]);
            assert_eq!(String::from_utf8_lossy(&output.stderr), "", "{host}");
            assert_eq!(String::from_utf8_lossy(&output.stdout), expected, "{host}");
            assert_eq!(output.status.code(), Some(0), "{host}");
        }
    }
}

fn check_refused(path: &Path, refusal: Refusal) {
    let Refusal { number, place } = refusal;
    for host in HOSTS {
        let output = run(host, &[path.to_path_buf()]);
        let message = String::from_utf8_lossy(&output.stderr);
        let begin = format!("{}: refused {number}, ", path.display());
        assert!(message.starts_with(&begin), "{host}: {message}");
        assert!(message.ends_with(&format!(": bit {place}\n")), "{message}");
        assert!(!message.contains("without a name"), "{host}: {message}");
        assert_eq!(output.status.code(), Some(1), "{host}");
        assert!(output.stdout.is_empty(), "{host}");
    }
}

#[test]
fn bad_jobs_get_their_refusals() {
    let mut random = Random::new(SEED);
    for number in aimed::RULES {
        let bad = good_jobs()
            .iter()
            .find_map(|job| aimed::aimed(number, job, &mut random))
            .expect("a job that can break the rule");
        check_refused(&file("bad.job", &bad.bytes), bad.refusal);
    }
    let mut long = Vec::new();
    let refusal = aimed::too_long(&marked::a().pack(), &mut long, &mut random);
    check_refused(&file("long.job", &long), refusal);
    let (number, place) = (2, 0);
    check_refused(&file("empty.job", &[]), Refusal { number, place });
}

#[test]
fn wrong_usage_is_told_from_a_refusal() {
    for host in HOSTS {
        let usage = "usage: host JOB-FILE [PLAN-FILE]\n\
                     usage: host --report JOB-FILE PLAN-FILE [JOB-FILE PLAN-FILE ..]\n";
        check_said(&run(host, &[]), 2, usage);
        let missing = [PathBuf::from("no such job")];
        let said = "no such job: cannot be opened\n";
        check_said(&run(host, &missing), 2, said);
    }
}

/// This on standard error, nothing on standard output.
fn check_said(output: &Output, status: i32, line: &str) {
    assert_eq!(String::from_utf8_lossy(&output.stderr), line);
    assert_eq!(output.status.code(), Some(status), "{line}");
    assert!(output.stdout.is_empty(), "{line}");
}

#[test]
fn help_is_asked_for_and_given() {
    for host in HOSTS {
        for asked in ["--help", "-h"] {
            let output = run(host, &[PathBuf::from(asked)]);
            let said = String::from_utf8_lossy(&output.stdout);
            let begin = "usage: host JOB-FILE [PLAN-FILE]\nRoutes the job";
            assert!(said.starts_with(begin), "{host}: {said}");
            assert_eq!(output.status.code(), Some(0), "{host}");
            assert!(output.stderr.is_empty(), "{host}");
        }
    }
}

#[test]
fn the_build_says_what_it_expects() {
    let build = Path::new(env!("CARGO_MANIFEST_DIR")).join("../examples/host/build");
    let run = |arguments: &[&str]| {
        let mut command = Command::new(&build);
        command.args(arguments).output().expect("the build runs")
    };
    let such = "such as target/staticlib/librouter.a target/host";
    let usage = format!("usage: examples/host/build LIBRARY FOLDER, {such}\n");
    for arguments in [&[][..], &["library"], &["library", "folder", "more"]] {
        check_said(&run(arguments), 2, &usage);
    }
    let how = "'tools/build library' builds target/staticlib/librouter.a";
    let missing = format!("there is no library none.a: {how}\n");
    check_said(&run(&["none.a", "folder"]), 2, &missing);
}

/// "At most (joins x (work + 78) + 7) / 8 bytes."
#[test]
fn plans_are_within_the_bound_of_the_header() {
    for job in good_jobs() {
        let bytes = pack(&routed_by(ROUTING, &job).records).len();
        assert!(bytes <= most_plan_bytes(&job), "{bytes} bytes");
    }
}

#[test]
fn slices_are_kept_to() {
    let jobs = good_jobs();
    let name = |number: usize| format!("slices-{number}.job");
    let numbered = jobs.iter().enumerate();
    let files: Vec<PathBuf> = numbered
        .map(|(number, job)| file(&name(number), &job.pack()))
        .collect();
    let output = run("slices", &files);
    let message = String::from_utf8_lossy(&output.stderr);
    assert!(output.status.success(), "{}: {message}", output.status);
    let (all, guessed) = (jobs.len(), jobs.len() - 1);
    let said = format!("{all} jobs with guarded slices, {guessed} plans within the guess\n");
    assert_eq!(String::from_utf8_lossy(&output.stdout), said);
}
