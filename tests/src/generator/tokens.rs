//! Scenes with escape sequences of every form: whole, spoiled and cut.

use super::random::Random;
use super::{Generator, AHEAD};
use crate::coverage::tokens::WATCHED;
use crate::line::tokens::{Form, FORMS, INTERMEDIATES, LONGEST, PARAMETERS};
use crate::message::{Message, BUFFER};

/// How many sequences in a hundred are kept to one byte at most between the
/// introducer and a final, so that what follows the introducer is seen often.
const SHORT: usize = 40;

/// How many in a hundred may go on far behind the longest token.
const TAILED: usize = 20;

/// A script of little else than escape sequences.
pub fn token_script(seed: u64, calls: usize) -> String {
    let mut generator = Generator::new(seed);
    generator.beginning();
    while generator.calls < calls {
        match generator.random.below(20) {
            0 => generator.fresh(),
            _ => generator.tokens(),
        }
    }
    generator.text
}

impl Generator {
    /// Escape sequences in reads that mostly recognise them.
    pub(super) fn tokens(&mut self) {
        self.token_read();
        for _ in 0..self.random.between(2, 5) {
            if self.random.chance(40) {
                self.cut_token();
            } else {
                self.whole_token();
            }
            if !self.line().read_pending() && self.random.chance(80) {
                self.token_read();
            }
        }
        let steps = self.random.below(20);
        self.steps(steps);
    }

    /// There is room for the longest token, or too little for many.
    fn token_read(&mut self) {
        self.start(|random, read| {
            read.escapes = random.pick(&[2, 2, 2, 2, 0]);
            let room = random.pick(&[1, 2, 3, 5, LONGEST as u16, 20, 40]);
            read.max_length = (read.end_of_data + room).min(BUFFER);
            read.timed |= random.chance(50);
        });
    }

    /// Its keys arrive in a read, or wait for one.
    fn whole_token(&mut self) {
        let keys = escape_sequence(&mut self.random);
        if self.random.chance(AHEAD) {
            self.unread();
            self.type_token(&keys);
            self.token_read();
            self.settle();
        } else {
            self.type_token(&keys);
            let steps = self.random.below(6);
            self.steps(steps);
        }
        match self.random.below(8) {
            0 => self.small_requests(),
            1 => self.ticks(),
            2 => self.start(|random, read| read.escapes = random.pick(&[1, 2])),
            _ => {}
        }
    }

    /// A partial token meets what drops it, what clears it and what does neither.
    fn cut_token(&mut self) {
        let keys = cut_sequence(&mut self.random);
        self.type_token(&keys);
        self.settle();
        match self.random.below(8) {
            0 | 1 => self.unread(),
            2 | 3 => self.key(24),
            4 | 5 => self.host(&Message::ClearInput),
            6 => self.ticks(),
            _ => self.small_requests(),
        }
    }

    fn type_token(&mut self, keys: &[u8]) {
        for code in keys {
            if self.random.chance(4) {
                self.key(22);
            }
            self.key(*code);
        }
    }
}

/// The keys of an escape sequence of any form, whole or spoiled; at times so
/// long that a tail stands behind the longest token.
fn escape_sequence(random: &mut Random) -> Vec<u8> {
    let form = &FORMS[random.below(FORMS.len())];
    let longest = if random.chance(TAILED) { 2 * LONGEST } else { LONGEST };
    let mut keys = opening(random, form, longest);
    keys.push(match random.below(8) {
        0 => random.byte(),
        1..=3 => random.pick(&WATCHED),
        _ => random.within(form.finals.clone()),
    });
    keys
}

/// The keys of an escape sequence of any form, cut at any place.
fn cut_sequence(random: &mut Random) -> Vec<u8> {
    let form = &FORMS[random.below(FORMS.len())];
    opening(random, form, LONGEST - 1)
}

/// What a form has before its final, up to this length.
fn opening(random: &mut Random, form: &Form, longest: usize) -> Vec<u8> {
    let mut keys = form.introducer.to_vec();
    let most = if random.chance(SHORT) { 1 } else { longest - keys.len() };
    let more = random.below(most + 1);
    let parameters = match random.below(2) {
        _ if !form.parameters => 0,
        0 => more,
        _ => random.below(more + 1),
    };
    keys.extend((0..parameters).map(|_| random.within(PARAMETERS)));
    keys.extend((parameters..more).map(|_| random.within(INTERMEDIATES)));
    keys
}
