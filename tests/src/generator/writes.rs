//! Writes of every kind, and scenes about them: a locked line, the
//! skip-linefeed mark, output that is lost.

use super::messages::RECOGNISED;
use super::random::Random;
use super::{typing, Generator};
use crate::line::arrival::{CLEAR_KEY, DISCARD_KEY, HELLO, IMMEDIATE_CLEAR, OUT_OF_BAND};
use crate::line::tokens::{CSI, ESC};
use crate::message::{
    Message, Value, Write, CHARACTER, LOCK, LONGEST_DATA, NEW_LINES, NO_AFFIX, REDISPLAY_AFTER,
    UNLOCK, UNLOCK_AFTER,
};
use crate::screen::{CR, LF};

/// Of a hundred Writes so many lock: few, since nothing is typed into a read
/// until the next unlock.
const LOCKING: usize = 10;
const UNLOCKING: [u8; 5] = [UNLOCK, UNLOCK, UNLOCK_AFTER, REDISPLAY_AFTER, REDISPLAY_AFTER];
const CODES: [u8; 5] = [NO_AFFIX, NO_AFFIX, NO_AFFIX, NEW_LINES, CHARACTER];

/// Of a hundred locks this many are lifted before the next scene.
const LIFTED: usize = 90;

/// No out-of-band character.
const ORDINARY: u8 = 0;

/// A prefix or postfix: its code and its value.
fn affix(random: &mut Random) -> (u8, u8) {
    let any = random.byte();
    let few = random.between(2, 9) as u8;
    (random.pick(&CODES), random.pick(&[0, 1, few, LF, LF, CR, b'A', u8::MAX, any]))
}

/// A Write that is carried, of every kind.
fn write(random: &mut Random) -> Write {
    let length = match random.below(40) {
        0..=7 => 0,
        8 => random.below(LONGEST_DATA + 1),
        9..=11 => random.below(200),
        _ => random.below(20),
    };
    let mut data: Vec<u8> = (0..length).map(|_| typing::written(random)).collect();
    if length > 0 && random.chance(20) {
        data[0] = LF;
    }
    let ((prefix, prefix_value), (postfix, postfix_value)) = (affix(random), affix(random));
    Write {
        lock: if random.chance(LOCKING) { LOCK } else { random.pick(&UNLOCKING) },
        newline: random.chance(20),
        keep: random.chance(20),
        first: random.chance(50),
        last: random.chance(50),
        status: random.chance(60),
        prefix,
        prefix_value,
        postfix,
        postfix_value,
        data,
        ..Write::default()
    }
}

/// A Write that is sound, but not always carried.
pub fn any_write(random: &mut Random) -> Write {
    Write { transparent: random.chance(10), ..write(random) }
}

/// A Write with one of prefix, DATA and postfix alone, or with none of them.
fn one_part(random: &mut Random) -> Write {
    let newline = random.chance(40);
    let mut one = Write { newline, status: random.chance(80), ..Write::default() };
    let code = random.pick(&[NEW_LINES, CHARACTER, CHARACTER]);
    let value = random.pick(&[0, 1, LF, LF, CR, b'A']);
    match random.below(4) {
        0 => (one.prefix, one.prefix_value) = (code, value),
        1 => (one.postfix, one.postfix_value) = (code, value),
        2 => one.data = vec![value],
        _ => {}
    }
    one
}

/// A Write whose first byte, of prefix, DATA or postfix, is LF.
fn begun_by_lf(random: &mut Random) -> Write {
    let mut begun = write(random);
    begun.prefix = NO_AFFIX;
    match random.below(4) {
        0 => (begun.prefix, begun.prefix_value) = (CHARACTER, LF),
        1 => {
            begun.data.clear();
            (begun.postfix, begun.postfix_value) = (CHARACTER, LF);
        }
        2 => begun.data = vec![LF; random.between(1, 3)],
        _ => match begun.data.first_mut() {
            Some(first) => *first = LF,
            None => begun.data.push(LF),
        },
    }
    begun
}

impl Generator {
    fn write(&mut self, write: Write) {
        self.host(&Message::Write(write));
    }

    pub(super) fn writes(&mut self) {
        if self.random.chance(30) {
            self.key(DISCARD_KEY);
        }
        for _ in 0..self.random.between(1, 3) {
            let write = write(&mut self.random);
            self.write(write);
        }
    }

    /// Lifts a lock, most of the time: no step would act in what follows.
    pub(super) fn lift_mostly(&mut self) {
        if self.line().locked() && self.random.chance(LIFTED) {
            self.lift();
        }
    }

    pub(super) fn lock(&mut self) {
        let write = write(&mut self.random);
        self.write(Write { lock: LOCK, ..write });
    }

    fn lift(&mut self) {
        let lock = self.random.pick(&UNLOCKING);
        let write = write(&mut self.random);
        self.write(Write { lock, ..write });
    }

    /// A lock in mid read, a handful of calls, and mostly the unlock.
    pub(super) fn locked(&mut self) {
        self.before_lock();
        self.lock();
        if self.random.chance(4) {
            self.flood();
        }
        for _ in 0..self.random.between(1, 8) {
            self.while_locked();
        }
        self.lift_mostly();
        self.type_keys(4);
    }

    /// What a lock finds: a half-typed answer, mostly.
    fn before_lock(&mut self) {
        match self.random.below(11) {
            0 | 1 => self.held_token(),
            2 => {
                self.start(|random, read| {
                    read.timed = true;
                    read.timeout = random.pick(&[0, 1, 2]);
                });
                self.settle();
            }
            3 => {
                self.start(|_, read| read.escapes = RECOGNISED);
                let code = self.random.pick(&[ESC, CSI]);
                self.key(code);
            }
            4 => self.unread(),
            _ => {
                self.start(|random, read| {
                    read.no_echo = random.chance(30);
                    read.timed = random.chance(50);
                });
                self.type_keys(8);
            }
        }
    }

    fn while_locked(&mut self) {
        match self.random.below(24) {
            0..=5 => self.typed_key(),
            6..=10 => self.step(),
            11..=13 => self.tick(),
            14 => self.key(DISCARD_KEY),
            15 => self.key(CLEAR_KEY),
            16 | 17 => self.out_of_band_key(),
            18 => self.start(|_, _| {}),
            19 => self.small_requests(),
            20 => self.characteristics(),
            21 => self.read_characteristics(),
            22 => self.load(),
            _ => {
                let mut write = write(&mut self.random);
                write.lock = self.random.pick(&[LOCK, LOCK, write.lock]);
                self.write(write);
            }
        }
    }

    /// A code is out-of-band for this one key.
    pub(super) fn out_of_band_key(&mut self) {
        let character = self.random.pick(&typing::OUT_OF_BAND);
        let attributes = self.random.pick(&[HELLO, IMMEDIATE_CLEAR]);
        self.set_out_of_band(character, attributes);
        self.key(character);
        self.set_out_of_band(character, ORDINARY);
    }

    fn set_out_of_band(&mut self, character: u8, attributes: u8) {
        let value = Value::Attributes { character, mask: OUT_OF_BAND, attributes };
        self.host(&Message::Characteristics(vec![value]));
    }

    /// L, then what leaves the mark alone, then a first LF that it looks at.
    pub(super) fn skipped_linefeed(&mut self) {
        if self.random.chance(50) {
            self.start(|_, _| {});
            self.type_keys(4);
        }
        let newline = write(&mut self.random);
        self.write(Write { newline: true, keep: true, ..newline });
        match self.random.below(6) {
            0 => self.type_keys(4),
            1 => self.start(|_, read| {
                // A prompt that ends in CR: F asks for the last byte.
                if let Some(last) = usize::from(read.end_of_prompt).checked_sub(1) {
                    read.data[last] = CR;
                }
            }),
            2 => self.key(DISCARD_KEY),
            3 => {
                let empty = Write { lock: self.random.pick(&UNLOCKING), ..Write::default() };
                self.write(empty);
            }
            _ => {}
        }
        for _ in 0..self.random.between(1, 2) {
            let begun = begun_by_lf(&mut self.random);
            self.write(begun);
        }
        if self.random.chance(30) {
            self.start(|_, read| read.formatting = true);
        }
    }

    /// One part of a Write at a time, discarded or not.
    pub(super) fn single_parts(&mut self) {
        if self.random.chance(70) {
            self.key(DISCARD_KEY);
        }
        for _ in 0..self.random.between(2, 6) {
            let one = one_part(&mut self.random);
            self.write(one);
        }
    }
}
