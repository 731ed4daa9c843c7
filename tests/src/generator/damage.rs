//! Damage to a finished script: digits changed, lines cut, stray bytes. Where
//! a line stays an order its message is damaged; where not it is a bad line.

use super::random::Random;
use crate::script::lines;

/// Of a hundred lines this many are damaged.
const OFTEN: usize = 10;

/// The script with damage; it may lack its last newline.
pub fn damaged(script: &[u8], seed: u64) -> Vec<u8> {
    let mut random = Random::new(seed);
    let mut text = Vec::with_capacity(script.len());
    for line in lines(script) {
        let mut line = line.to_vec();
        if random.chance(OFTEN) {
            damage(&mut line, &mut random);
        }
        text.extend(line);
        text.push(b'\n');
    }
    if random.chance(50) {
        text.pop();
    }
    text
}

/// Two digits at an even place stay a message; most other changes do not.
fn damage(line: &mut Vec<u8>, random: &mut Random) {
    let Some(last) = line.len().checked_sub(1) else {
        return line.push(random.byte());
    };
    let place = random.between(0, last);
    let even = place & !1;
    let digits = [digit(random), digit(random)];
    match random.below(8) {
        0 | 1 => line[place] = digit(random),
        2 => drop(line.splice(even..even, digits)),
        3 => drop(line.drain(even..line.len().min(even + 2))),
        4 => line.truncate(place),
        5 => line[1..].make_ascii_lowercase(),
        6 => line[place] = random.byte(),
        _ => line.insert(place, random.byte()),
    }
}

fn digit(random: &mut Random) -> u8 {
    random.pick(b"0123456789ABCDEFabcdef")
}
