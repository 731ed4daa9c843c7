//! Scenes with accents, in reads that raise and in reads that do not (M-108).

use super::random::Random;
use super::{messages, typing, Generator};
use crate::coverage::raising::{WATCHED_HIGH, WATCHED_LOW};
use crate::line::arrival::QUOTE_KEY;
use crate::line::raising::SMALL_ACCENT_RANGE;
use crate::line::steps::{DELETE_KEY, DELETE_WORD_KEY};
use crate::line::tokens::{CSI, ESC};
use crate::screen::CR;
use crate::settings::LONGEST_SET;

/// For so many of these reads in a hundred, accents wait.
const WAITING: usize = 50;

/// So many in a hundred are started as soon as one has ended.
const SOON: usize = 90;

/// Of a hundred characters that such a read begins with, so many are accents.
const PRELOADED: usize = 30;

impl Generator {
    /// Accents typed into reads, which some of them end.
    pub(super) fn accents(&mut self) {
        self.accent_read();
        for _ in 0..self.random.between(8, 40) {
            if !self.line().read_pending() && self.random.chance(SOON) {
                self.accent_read();
            }
            self.accent_key();
        }
    }

    fn accent_read(&mut self) {
        self.make_way();
        if self.random.chance(WAITING) {
            for _ in 0..self.random.between(1, 6) {
                self.accent_key();
            }
        }
        self.begin(|random, read| {
            read.raise = random.pick(&[0, 1, 2]);
            read.which_set = random.pick(&[0, 1, 1]);
            read.set = accent_set(random);
            for byte in &mut read.data {
                if random.chance(PRELOADED) {
                    *byte = watched_code(random);
                }
            }
        });
        self.settle();
    }

    /// A key, mostly an accent.
    fn accent_key(&mut self) {
        let code = match self.random.below(24) {
            0 => QUOTE_KEY,
            1 => DELETE_KEY,
            2 => DELETE_WORD_KEY,
            3 => self.random.pick(&[ESC, CSI]),
            4 => self.random.pick(&typing::OUT_OF_BAND),
            5..=7 => typing::key(&mut self.random),
            _ => watched_code(&mut self.random),
        };
        self.key(code);
    }
}

/// A code that is watched; of small accents there are more.
fn watched_code(random: &mut Random) -> u8 {
    match random.below(16) {
        0 => random.pick(&WATCHED_LOW),
        1..=4 => random.within(SMALL_ACCENT_RANGE),
        _ => random.within(WATCHED_HIGH),
    }
}

/// A set with a quarter of the accents: often a small letter without its capital, or
/// the capital alone.
fn accent_set(random: &mut Random) -> Vec<u8> {
    let mut set = vec![0; LONGEST_SET];
    set[usize::from(WATCHED_HIGH.start() / 8)..].fill_with(|| random.byte() & random.byte());
    for code in [CR, random.pick(&WATCHED_LOW)] {
        messages::include(&mut set, code);
    }
    set
}
