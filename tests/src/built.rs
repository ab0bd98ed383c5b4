//! What is built before the tests are: the library, the program and the host. Each is
//! looked for where a variable says, or else in the repository's `target`; where it is
//! not there, a line says how to build it. The build script has this module too.

use std::env;
use std::path::{Path, PathBuf};

/// The library's archive, in the folder that MAIZESPELL_LIB_DIR names.
pub fn library() -> Result<PathBuf, String> {
    let folder = place("MAIZESPELL_LIB_DIR", "staticlib");
    found("library", folder.join("librouter.a"), "tools/build library")
}

/// The program, which MAIZESPELL_PROGRAM names.
pub fn program() -> Result<PathBuf, String> {
    let file = place("MAIZESPELL_PROGRAM", "bin/maizespell");
    found("program", file, "tools/build program")
}

/// A program of the host, in the folder that MAIZESPELL_HOST_DIR names.
pub fn host(name: &str) -> Result<PathBuf, String> {
    let folder = place("MAIZESPELL_HOST_DIR", "host");
    let command = "examples/host/build target/staticlib/librouter.a target/host";
    found("host", folder.join(name), command)
}

fn place(variable: &str, in_target: &str) -> PathBuf {
    let repository = Path::new(env!("CARGO_MANIFEST_DIR")).parent();
    let target = repository
        .expect("the tests' folder is in it")
        .join("target");
    env::var_os(variable).map_or_else(|| target.join(in_target), PathBuf::from)
}

fn found(what: &str, file: PathBuf, command: &str) -> Result<PathBuf, String> {
    if file.is_file() {
        return Ok(file);
    }
    let file = file.display();
    Err(format!(
        "there is no {what} {file}: run `{command}` in the repository's folder"
    ))
}

#[cfg(test)]
mod tests {
    use super::*;

    #[test]
    fn places_are_in_the_target_of_the_repository() {
        let program = place("MAIZESPELL_NO_SUCH_VARIABLE", "bin/maizespell");
        assert!(program.ends_with("target/bin/maizespell"));
        let repository = program.ancestors().nth(3).expect("the repository");
        assert!(repository.join("include/maizespell.h").is_file());
    }

    #[test]
    fn a_variable_names_another_place() {
        let named = place("CARGO_MANIFEST_DIR", "bin/maizespell");
        assert_eq!(named, Path::new(env!("CARGO_MANIFEST_DIR")));
    }

    #[test]
    fn what_is_there_is_found() {
        let file = Path::new(env!("CARGO_MANIFEST_DIR")).join("Cargo.toml");
        assert_eq!(found("file", file.clone(), ""), Ok(file));
    }

    #[test]
    fn what_is_not_there_is_told_in_a_line() {
        let said = found("program", PathBuf::from("no/such"), "make it");
        let expected = "there is no program no/such: run `make it` in the repository's folder";
        assert_eq!(said, Err(expected.to_string()));
    }
}
