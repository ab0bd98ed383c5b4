//! The marked jobs with small damage of many kinds: each prefix, each bit flipped,
//! each byte at the ends of its range, each length a little longer. Many stay good
//! and are routed.

use maizespell_tests::job::Job;
use maizespell_tests::lent::Lent;
use maizespell_tests::library::{REPLAY, ROUTING};
use maizespell_tests::marked;
use maizespell_tests::reader::read;

/// Larger grids than this are routed elsewhere.
const MOST_VERTICES: u32 = 300;

fn ask(lent: &mut Lent, kind: &'static str, bytes: &[u8]) {
    let large = |job: Job| job.grid().vertices() > MOST_VERTICES;
    if !read(bytes).is_ok_and(large) {
        lent.ask_bytes(kind, bytes);
    }
}

fn each_prefix(lent: &mut Lent, bytes: &[u8]) {
    for length in 0..bytes.len() {
        ask(lent, "prefix of a marked job", &bytes[..length]);
    }
}

fn each_byte_at_some_values(lent: &mut Lent, bytes: &[u8]) {
    let mut damaged = bytes.to_vec();
    for (index, byte) in bytes.iter().enumerate() {
        let flipped = (0..8).map(|bit| byte ^ 1 << bit);
        for value in flipped.chain([0x00, 0x01, 0x7F, 0xFF]) {
            damaged[index] = value;
            ask(lent, "byte of a marked job", &damaged);
        }
        damaged[index] = *byte;
    }
}

fn each_longer_length(lent: &mut Lent, bytes: &[u8]) {
    let mut longer = bytes.to_vec();
    for _ in 0..32 {
        longer.push(0);
        ask(lent, "marked job with more bytes", &longer);
    }
}

#[test]
fn marked_jobs_with_small_damage() {
    let mut lent = Lent::of(ROUTING, REPLAY, 2);
    for (_, job) in marked::all() {
        let bytes = job.pack();
        each_prefix(&mut lent, &bytes);
        each_byte_at_some_values(&mut lent, &bytes);
        each_longer_length(&mut lent, &bytes);
    }
    let tally = &lent.comparison.tally;
    println!("{}{tally}", lent.seen);
    tally.assert_same();
    assert!(tally.hits[0] >= 1_000, "few good jobs");
}
