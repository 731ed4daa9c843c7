//! What Writes asked for and found: lock values, prefixes and postfixes, and
//! the first byte that the skip-linefeed mark looks at.

use crate::message::{Write, CHARACTER, NO_AFFIX};
use crate::screen::{CR, LF};

/// What a Write finds when its output is to begin.
pub struct Found {
    /// Whether the pending read echoes, if there is one.
    pub echo: Option<bool>,
    pub discard: bool,
    pub locked: bool,
    pub skip_linefeed: bool,
}

/// False and true, as indices.
const SIDES: usize = 2;
const LOCK_VALUES: usize = 4;
const CODES: usize = 3;
const PLACES: [&str; 2] = ["prefix", "postfix"];
const READS: [&str; 3] = ["no read", "silent read", "echoing read"];
const OUTPUTS: [&str; SIDES] = ["sent", "discarded"];

/// Values of prefix and postfix that are watched; the others are counted as one.
const WATCHED: [u8; 6] = [0, 1, LF, CR, b'A', u8::MAX];
const VALUES: usize = WATCHED.len() + 1;

/// Where the first byte is from, each but the last with whether it is LF.
const ORIGINS: [&str; 4] = ["prefix", "DATA", "postfix", "nowhere"];
const NOWHERE: usize = ORIGINS.len() - 1;

#[derive(Clone, Debug, Default, PartialEq, Eq)]
pub struct Writes {
    /// By UU, the read, the lock before and discard.
    locks: [[[[u64; SIDES]; SIDES]; READS.len()]; LOCK_VALUES],
    /// By place, code, value and discard.
    affixes: [[[[u64; SIDES]; VALUES]; CODES]; PLACES.len()],
    /// By the origin of the first byte, whether it is LF, the mark before, L
    /// and discard.
    firsts: [[[[[u64; SIDES]; SIDES]; SIDES]; SIDES]; ORIGINS.len()],
}

impl Writes {
    pub fn note(&mut self, write: &Write, found: &Found) {
        let side = usize::from;
        let output = side(found.discard);
        let read = found.echo.map_or(0, |echo| 1 + side(echo));
        self.locks[usize::from(write.lock)][read][side(found.locked)][output] += 1;
        let affixes = [(write.prefix, write.prefix_value), (write.postfix, write.postfix_value)];
        for (place, (code, value)) in affixes.into_iter().enumerate() {
            let watched = WATCHED.iter().position(|one| *one == value).unwrap_or(WATCHED.len());
            self.affixes[place][usize::from(code)][watched][output] += 1;
        }
        let (origin, lf) = first(write);
        let (mark, newline) = (side(found.skip_linefeed), side(write.newline));
        self.firsts[origin][side(lf)][mark][newline][output] += 1;
    }

    pub fn add(&mut self, other: &Writes) {
        let mut other = other.clone();
        self.counts().zip(other.counts()).for_each(|(mine, more)| *mine += *more);
    }

    fn counts(&mut self) -> impl Iterator<Item = &mut u64> {
        let locks = self.locks.as_flattened_mut().as_flattened_mut().as_flattened_mut();
        let affixes = self.affixes.as_flattened_mut().as_flattened_mut().as_flattened_mut();
        let firsts = self.firsts.as_flattened_mut().as_flattened_mut().as_flattened_mut();
        locks.iter_mut().chain(affixes).chain(firsts.as_flattened_mut())
    }

    /// Each thing that can be reached, with its count.
    pub fn table(&self) -> Vec<(String, u64)> {
        let mut table = Vec::new();
        for (output, how) in OUTPUTS.into_iter().enumerate() {
            self.lock_rows(output, how, &mut table);
            self.affix_rows(output, how, &mut table);
            self.first_rows(output, how, &mut table);
        }
        table
    }

    fn lock_rows(&self, output: usize, how: &str, table: &mut Vec<(String, u64)>) {
        for (uu, reads) in self.locks.iter().enumerate() {
            for (read, sides) in READS.iter().zip(reads) {
                for (before, counts) in ["unlocked", "locked"].into_iter().zip(sides) {
                    let name = format!("write UU {uu}, {read}, {before}, {how}");
                    table.push((name, counts[output]));
                }
            }
        }
    }

    fn affix_rows(&self, output: usize, how: &str, table: &mut Vec<(String, u64)>) {
        for (place, codes) in PLACES.iter().zip(&self.affixes) {
            for (code, values) in codes.iter().enumerate() {
                for (index, counts) in values.iter().enumerate() {
                    let value = WATCHED.get(index).map_or("another".into(), u8::to_string);
                    let name = format!("write {place} {code}, value {value}, {how}");
                    table.push((name, counts[output]));
                }
            }
        }
    }

    fn first_rows(&self, output: usize, how: &str, table: &mut Vec<(String, u64)>) {
        for (index, (origin, sides)) in ORIGINS.iter().zip(&self.firsts).enumerate() {
            for (lf, marks) in ["other", "LF"].into_iter().zip(sides) {
                if index == NOWHERE && lf == "LF" {
                    continue;
                }
                for (mark, newlines) in ["no mark", "mark"].into_iter().zip(marks) {
                    for (newline, counts) in ["no L", "L"].into_iter().zip(newlines) {
                        let name = format!("write first {origin} {lf}, {mark}, {newline}, {how}");
                        table.push((name, counts[output]));
                    }
                }
            }
        }
    }
}

/// The origin of the first byte that a Write carries, and whether it is LF.
fn first(write: &Write) -> (usize, bool) {
    let character = |code, value| code == CHARACTER && value == LF;
    if write.prefix != NO_AFFIX {
        (0, character(write.prefix, write.prefix_value))
    } else if let Some(byte) = write.data.first() {
        (1, *byte == LF)
    } else if write.postfix != NO_AFFIX {
        (2, character(write.postfix, write.postfix_value))
    } else {
        (NOWHERE, false)
    }
}

#[cfg(test)]
mod tests {
    use super::*;
    use crate::message::{NEW_LINES, REDISPLAY_AFTER};

    #[test]
    fn a_write_is_counted_by_what_it_asks_and_finds() {
        let found = Found { echo: Some(true), discard: false, locked: true, skip_linefeed: true };
        let mut writes = Writes::default();
        let data = vec![LF];
        writes.note(&Write { lock: REDISPLAY_AFTER, data, ..Write::default() }, &found);
        let found = Found { echo: None, discard: true, locked: false, skip_linefeed: false };
        let (postfix, postfix_value) = (NEW_LINES, LF);
        writes.note(&Write { newline: true, postfix, postfix_value, ..Write::default() }, &found);
        let table = writes.table();
        let met: Vec<&str> =
            table.iter().filter(|row| row.1 > 0).map(|row| row.0.as_str()).collect();
        let expected = [
            "write UU 3, echoing read, locked, sent",
            "write prefix 0, value 0, sent",
            "write postfix 0, value 0, sent",
            "write first DATA LF, mark, no L, sent",
            "write UU 0, no read, unlocked, discarded",
            "write prefix 0, value 0, discarded",
            "write postfix 1, value 10, discarded",
            "write first postfix other, no mark, L, discarded",
        ];
        assert_eq!(met, expected);
    }
}
