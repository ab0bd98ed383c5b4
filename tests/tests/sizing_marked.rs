//! The thirteen marked jobs and the edges that the specification names.

use maizespell_tests::compare::check;
use maizespell_tests::job::Job;
use maizespell_tests::library::SizingResult;
use maizespell_tests::marked;
use maizespell_tests::reader::Refusal;
use maizespell_tests::sizing::{refused, sized};

/// Vertices and work need of each marked job, reckoned by hand.
const BY_HAND: [(char, u64, u64); 13] = [
    ('A', 64, 1_024),
    ('B', 64, 1_024),
    ('C', 32, 512),
    ('D', 32, 512),
    ('E', 96, 1_536),
    ('F', 72, 1_152),
    ('G', 72, 1_152),
    ('H', 120, 1_920),
    ('I', 64, 1_024),
    ('J', 64, 1_024),
    ('K', 12, 192),
    ('L', 12, 192),
    ('N', 12, 192),
];

fn refusal(number: u64, place: u64) -> SizingResult {
    refused(Refusal { number, place })
}

/// Job A on one layer of this size.
fn one_layer(columns: u32, rows: u32) -> Vec<u8> {
    let job = Job {
        columns,
        rows,
        layers: marked::plain_layers(1),
        ..marked::a()
    };
    job.pack()
}

/// Job A with this M on one of its layers.
fn with_min_length(layer: usize, min_length: u32) -> Vec<u8> {
    let mut job = marked::a();
    job.layers[layer].min_length = min_length;
    job.pack()
}

#[test]
fn marked_jobs_have_the_sizes_reckoned_by_hand() {
    for ((letter, job), (_, vertices, work)) in marked::all().into_iter().zip(BY_HAND) {
        let by_hand = SizingResult {
            refusal: 0,
            place: 0,
            vertices,
            work,
        };
        let bytes = job.pack();
        assert_eq!(check("marked", &bytes), by_hand, "job {letter}");
    }
}

#[test]
fn one_layer_of_128_by_128_passes() {
    assert_eq!(check("128 by 128", &one_layer(128, 128)), sized(16_384, 3));
}

#[test]
fn one_line_more_is_refused_by_4() {
    assert_eq!(check("129 columns", &one_layer(129, 128)), refusal(4, 8));
    assert_eq!(check("129 rows", &one_layer(128, 129)), refusal(4, 8));
}

#[test]
fn min_length_1_passes() {
    let mut job = marked::a();
    for layer in &mut job.layers {
        layer.min_length = 1;
    }
    assert_eq!(check("M 1", &job.pack()), sized(64, 1));
}

#[test]
fn largest_min_length_counts() {
    assert_eq!(check("M 15 below", &with_min_length(0, 15)), sized(64, 15));
    assert_eq!(check("M 15 above", &with_min_length(1, 15)), sized(64, 15));
    assert_eq!(check("M 1 below", &with_min_length(0, 1)), sized(64, 3));
}

#[test]
fn min_length_0_is_refused_at_its_field() {
    assert_eq!(check("M 0 below", &with_min_length(0, 0)), refusal(5, 100));
    assert_eq!(check("M 0 above", &with_min_length(1, 0)), refusal(5, 140));
}
