//! The marked jobs with small damage of every kind: each prefix, each pair of
//! bits flipped, each byte at each value, each length a little longer.

use maizespell_tests::compare::Tally;
use maizespell_tests::marked;

fn flip(bytes: &mut [u8], bit: usize) {
    bytes[bit / 8] ^= 0x80 >> (bit % 8);
}

fn each_prefix(tally: &mut Tally, bytes: &[u8]) {
    for length in 0..=bytes.len() {
        tally.ask("prefix of a marked job", &bytes[..length]);
    }
}

/// A bit paired with itself is flipped alone.
fn each_pair_of_bits(tally: &mut Tally, bytes: &[u8]) {
    let mut damaged = bytes.to_vec();
    for first in 0..bytes.len() * 8 {
        flip(&mut damaged, first);
        tally.ask("bit of a marked job", &damaged);
        for second in 0..first {
            flip(&mut damaged, second);
            tally.ask("two bits of a marked job", &damaged);
            flip(&mut damaged, second);
        }
        flip(&mut damaged, first);
    }
}

fn each_byte_at_each_value(tally: &mut Tally, bytes: &[u8]) {
    let mut damaged = bytes.to_vec();
    for (index, byte) in bytes.iter().enumerate() {
        for value in 0..=255 {
            damaged[index] = value;
            tally.ask("byte of a marked job", &damaged);
        }
        damaged[index] = *byte;
    }
}

fn each_longer_length(tally: &mut Tally, bytes: &[u8]) {
    let mut longer = bytes.to_vec();
    for _ in 0..64 {
        longer.push(0);
        tally.ask("marked job with more bytes", &longer);
    }
}

#[test]
fn marked_jobs_with_small_damage() {
    let mut tally = Tally::default();
    for (_, job) in marked::all() {
        let bytes = job.pack();
        each_prefix(&mut tally, &bytes);
        each_pair_of_bits(&mut tally, &bytes);
        each_byte_at_each_value(&mut tally, &bytes);
        each_longer_length(&mut tally, &bytes);
    }
    println!("{tally}");
    tally.assert_same();
}
