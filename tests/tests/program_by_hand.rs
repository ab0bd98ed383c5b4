//! The line that the second program writes: the specification's own, each kind of line,
//! and the limits from both sides.

use std::collections::BTreeMap;

use maizespell_tests::damage::aimed;
use maizespell_tests::marked;
use maizespell_tests::program::{edges, generated, line};

/// The specification's line for job A.
const A: &str = "80 00 00 00 03 54 00 00 00 00 0C\n";

fn lines() -> BTreeMap<String, String> {
    let inputs = edges().into_iter();
    inputs
        .map(|input| (input.kind, line(&input.bytes)))
        .collect()
}

#[test]
fn a_is_the_line_of_the_specification() {
    assert_eq!(line(&marked::a().pack()), A);
}

#[test]
fn edges_have_the_lines_found_by_hand() {
    let by_hand = [
        ("marked A", A),
        ("marked D", "00\n"),
        ("no bytes", "refused 2 at 0\n"),
        ("one byte", "refused 2 at 0\n"),
        ("no nets", "\n"),
        ("nets of one pin", "\n"),
        ("2 by 129 by 1", "too large\n"),
        ("2 by 3 by 43", "too large\n"),
        ("2 by 9 by 15", "too large\n"),
        ("M 8", "too large\n"),
        ("M 15", "too large\n"),
        ("large", "too large\n"),
        ("large, rule 3 broken", "refused 3 at 0\n"),
        ("large, rule 4 broken", "refused 4 at 8\n"),
        ("65536 zeros", "refused 3 at 0\n"),
        ("65537 zeros", "too large\n"),
        ("A with zeros, 65536 bytes", "refused 11 at 206\n"),
        ("A with zeros, 65537 bytes", "too large\n"),
        ("good job of 65536 bytes", A),
        ("good job of 65537 bytes", "too large\n"),
        ("largest job", "too large\n"),
        ("300,000 zeros", "too large\n"),
    ];
    let lines = lines();
    for (kind, line) in by_hand {
        assert_eq!(lines[kind], line, "{kind}");
    }
    for routed in ["256 vertices", "2 by 8 by 16", "2 by 128 by 1", "M 7"] {
        assert!(is_plan(&lines[routed]), "{routed}");
    }
}

/// One byte or more, two capital digits each.
fn is_plan(line: &str) -> bool {
    let capital = |digit: char| digit.is_ascii_digit() || ('A'..='F').contains(&digit);
    let byte = |text: &str| text.len() == 2 && text.chars().all(capital);
    line.trim_end().split(' ').all(byte)
}

#[test]
fn every_rule_broken_past_the_limits_is_refused() {
    let lines = lines();
    for number in aimed::RULES {
        let line = &lines[&format!("large, rule {number} broken")];
        assert!(line.starts_with(&format!("refused {number} at ")), "{line}");
    }
}

#[test]
fn generated_inputs_get_every_kind_of_line() {
    let mut kinds: BTreeMap<&str, u32> = BTreeMap::new();
    for input in generated(200, 9) {
        let line = line(&input.bytes);
        let kind = match line.split(' ').next() {
            Some("refused") => "refused",
            Some("too") => "too large",
            Some("\n") => "empty",
            _ if is_plan(&line) => "plan",
            _ => panic!("no line of the program: {line}"),
        };
        *kinds.entry(kind).or_default() += 1;
    }
    println!("{kinds:?}");
    assert!(kinds["refused"] >= 100 && kinds["plan"] >= 100 && kinds["empty"] >= 2);
}
