//! What is typed, preloaded and written.

use super::random::Random;

/// Codes that scripts make out-of-band. A few only, so that typing goes on. 200
/// and 232 are one letter, capital and small.
pub const OUT_OF_BAND: [u8; 9] = [3, 25, 1, b'!', 200, 232, 15, 22, 24];

const WORDS: &[u8] = b"abcxyzABCZ019 azkq";
const MARKS: &[u8] = b" .,-_/?~@[`{^\\";

/// A key, weighted towards those that a rule is about.
pub fn key(random: &mut Random) -> u8 {
    match random.below(100) {
        0..=44 => random.pick(WORDS),
        45..=54 => random.pick(MARKS),
        55..=60 => 9,
        61..=70 => 127,
        71..=74 => 23,
        75..=76 => 21,
        77..=79 => 18,
        80..=82 => 22,
        83 => random.pick(&[24, 15]),
        84..=85 => 13,
        86..=87 => random.pick(&[27, 155]),
        88..=89 => random.pick(&OUT_OF_BAND),
        90..=91 => random.between(128, 159) as u8,
        92..=94 => random.between(160, 255) as u8,
        95..=96 => random.below(32) as u8,
        97 => random.pick(&[0, 8, 9, 10, 31, 32, 96, 97, 122, 123, 126, 160, 254, 255]),
        _ => random.byte(),
    }
}

/// A byte preloaded by a Start Read.
pub fn shown(random: &mut Random) -> u8 {
    match random.below(20) {
        0..=9 => random.pick(WORDS),
        10..=12 => random.pick(MARKS),
        13..=14 => 9,
        15 => random.pick(&[13, 10, 8, 7]),
        16 => random.between(128, 255) as u8,
        17 => random.below(32) as u8,
        _ => random.byte(),
    }
}

/// A byte of a Write.
pub fn written(random: &mut Random) -> u8 {
    match random.below(20) {
        0..=13 => random.between(32, 126) as u8,
        14 => 9,
        15 => 13,
        16 => 10,
        17 => 8,
        _ => random.byte(),
    }
}
