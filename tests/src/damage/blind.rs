//! Damage without an aim: what rule it breaks, if any, is for the readers to say.

use crate::random::Random;

type Blind = fn(&mut Vec<u8>, &mut Random);

/// Each kind with its name, for bytes of which there is at least one.
pub const ALL: [(&str, Blind); 5] = [
    ("bits flipped", |bytes, random| flip_bits(bytes, random)),
    ("cut", cut),
    ("lengthened", lengthen),
    ("scrambled", |bytes, random| scramble(bytes, random)),
    ("random bytes", |bytes, random| {
        *bytes = random_bytes(random)
    }),
];

/// One to four bits flipped, half the time among the first 40 bytes.
pub fn flip_bits(bytes: &mut [u8], random: &mut Random) {
    let reach = if random.one_in(2) {
        bytes.len().min(40)
    } else {
        bytes.len()
    };
    for _ in 0..random.between(1, 4) {
        let bit = random.index(reach * 8);
        bytes[bit / 8] ^= 0x80 >> (bit % 8);
    }
}

/// Cut short at any byte.
pub fn cut(bytes: &mut Vec<u8>, random: &mut Random) {
    bytes.truncate(random.index(bytes.len()));
}

/// Lengthened by one byte or more.
pub fn lengthen(bytes: &mut Vec<u8>, random: &mut Random) {
    let zeros = random.one_in(2);
    for _ in 0..random.edgy(1, 40) {
        bytes.push(if zeros { 0 } else { random.byte() });
    }
}

/// Random bytes from any byte on, the length kept.
pub fn scramble(bytes: &mut [u8], random: &mut Random) {
    let from = random.index(bytes.len());
    for byte in &mut bytes[from..] {
        *byte = random.byte();
    }
}

/// Nothing but random bytes; half of them with edition 1.
pub fn random_bytes(random: &mut Random) -> Vec<u8> {
    let mut bytes: Vec<u8> = (0..random.edgy(0, 200)).map(|_| random.byte()).collect();
    if let Some(first) = bytes.first_mut() {
        if random.one_in(2) {
            *first = 0x10 | *first & 0x0F;
        }
    }
    bytes
}
