//! The tables of costs by which the marked jobs' joins are proved are those that are
//! made.

use maizespell_tests::marked::costs::text;

#[test]
fn the_file_of_costs_is_the_one_that_is_made() {
    let file = include_str!("../../crates/marked/proofs/Costs.antt");
    for (number, (found, made)) in file.lines().zip(text().lines()).enumerate() {
        assert_eq!(found, made, "line {}", number + 1);
    }
    assert_eq!(file, text());
}
