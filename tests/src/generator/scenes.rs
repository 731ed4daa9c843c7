//! Scenes with a read in them: typing, editing, out-of-band, ticks.

use super::{typing, Generator};
use crate::line::arrival::CLEAR_KEY;
use crate::message::{Message, Value, Write, BUFFER};
use crate::screen::TOP;

impl Generator {
    pub(super) fn read(&mut self) {
        self.start(|_, _| {});
        let keys = self.random.pick(&[0, 3, 8, 20, 60]);
        self.type_keys(keys);
        self.after_read();
    }

    pub(super) fn after_read(&mut self) {
        match self.random.below(6) {
            0 => self.key(13),
            1 => self.small_requests(),
            2 => self.ticks(),
            _ => {}
        }
        let steps = self.random.below(4);
        self.steps(steps);
    }

    pub(super) fn typing(&mut self) {
        let keys = self.random.between(1, 30);
        self.type_keys(keys);
    }

    /// Types keys, with steps between for those that wait; a read that completes
    /// is followed by another, at once or when some keys wait for it.
    pub(super) fn type_keys(&mut self, most: usize) {
        let (pace, soon) = (self.random.pick(&[0, 10, 50]), self.random.pick(&[100, 60, 60, 20]));
        for _ in 0..self.random.below(most + 1) {
            if !self.line().read_pending() && self.random.chance(soon) {
                self.start(|_, _| {});
            }
            self.typed_key();
            if self.random.chance(if self.line().waiting() > 0 { pace } else { 5 }) {
                self.step();
            }
            if self.random.chance(2) {
                self.tick();
            }
        }
    }

    pub(super) fn typed_key(&mut self) {
        let code = typing::key(&mut self.random);
        self.key(code);
    }

    pub(super) fn steps(&mut self, count: usize) {
        for _ in 0..count {
            self.step();
        }
    }

    /// Steps until nothing waits or no step may act.
    pub(super) fn settle(&mut self) {
        while self.line().may_step() && self.line().waiting() > 0 && self.random.chance(97) {
            self.step();
        }
    }

    /// A code becomes out-of-band for a while, in a read and outside one.
    pub(super) fn out_of_band(&mut self) {
        let character = self.random.pick(&typing::OUT_OF_BAND);
        let attributes = self.random.pick(&[1, 1, 3]);
        let value = Value::Attributes { character, mask: 3, attributes };
        self.host(&Message::Characteristics(vec![value]));
        if self.random.chance(80) {
            self.start(|_, _| {});
        }
        self.type_keys(8);
        if self.random.chance(20) {
            self.key(22);
        }
        self.key(character);
        self.type_keys(4);
        let value = Value::Attributes { character, mask: 3, attributes: 0 };
        self.host(&Message::Characteristics(vec![value]));
    }

    pub(super) fn ticks(&mut self) {
        if self.random.chance(70) {
            self.settle();
        }
        for _ in 0..self.random.between(1, 6) {
            self.tick();
        }
    }

    /// Drives the column to its top, then types and rubs out there.
    pub(super) fn far_right(&mut self) {
        let top = usize::from(TOP);
        let length = self.random.between(top - top / 4, top + top / 4);
        let data = (0..length).map(|_| self.random.between(32, 126) as u8).collect();
        self.host(&Message::Write(Write { status: true, data, ..Write::default() }));
        self.start(|random, read| {
            read.no_echo = false;
            read.max_length = random.pick(&[40, 80, BUFFER]).max(read.max_length);
        });
        for _ in 0..self.random.between(4, 40) {
            let code = typing::key(&mut self.random);
            let code = self.random.pick(&[9, 9, 127, 23, b'a', code]);
            self.key(code);
        }
    }

    /// F with a first LF, after CR, and the LF deleted and typed again.
    pub(super) fn hidden_lf(&mut self) {
        self.send(&[7, 0, 0, 0, 0, b'x', 13]);
        self.start(|random, read| {
            read.formatting = true;
            read.disable = 0;
            read.end_of_data = read.end_of_data.max(1).min(read.max_length.max(1));
            read.max_length = read.max_length.max(read.end_of_data + 3).min(BUFFER);
            read.end_of_data = read.end_of_data.min(read.max_length - 1);
            read.data.resize(usize::from(read.end_of_data), b'd');
            read.data[0] = 10;
            read.end_of_prompt = random.pick(&[0, 0, 0, 1]);
            read.low_water = read.low_water.min(read.end_of_data);
        });
        for _ in 0..self.random.between(2, 12) {
            let code = self.random.pick(&[127, 127, 21, 18, 10, 9, b'a', 23]);
            self.key(code);
        }
    }

    /// Backspaces written in mid read, so that rubbing out meets the left edge.
    pub(super) fn narrow_tab(&mut self) {
        self.start(|_, read| read.no_echo = false);
        for _ in 0..self.random.between(1, 6) {
            let code = self.random.pick(&[9, b'a', 1]);
            self.key(code);
        }
        let byte = self.random.pick(&[13, 8]);
        self.send(&[7, 8, 4, 0, 0, byte, byte]);
        for _ in 0..self.random.between(1, 6) {
            let code = self.random.pick(&[127, 23, 21, 9]);
            self.key(code);
        }
    }

    /// Seconds pass in a timed read, between keys that do and do not count as
    /// typing.
    pub(super) fn idling(&mut self) {
        let value = Value::Attributes { character: b'!', mask: 3, attributes: 3 };
        self.host(&Message::Characteristics(vec![value]));
        self.timed_read();
        for _ in 0..self.random.between(3, 20) {
            match self.random.below(12) {
                0 => {
                    let code = self.random.pick(&[22, 24, 15, b'!']);
                    self.key(code);
                }
                1 => {
                    let code = self.random.pick(&[b'a', 127, 27, 155, b'[']);
                    self.key(code);
                }
                2 => self.small_requests(),
                3 => self.step(),
                4 => self.typed_in_vain(),
                5 if self.random.chance(30) => self.timed_read(),
                _ => self.tick(),
            }
        }
    }

    /// A timed read; the idle seconds of one before it do not count.
    fn timed_read(&mut self) {
        self.start(|random, read| {
            read.timed = true;
            read.timeout = random.between(1, 6) as u16;
            read.escapes = random.pick(&[1, 2]);
        });
        self.settle();
    }

    /// A key that a lock keeps from the read, and that is cleared: all it does
    /// is end the idle seconds.
    fn typed_in_vain(&mut self) {
        self.lock();
        self.key(b'a');
        if self.random.chance(50) {
            self.key(CLEAR_KEY);
        } else {
            self.host(&Message::ClearInput);
        }
        self.lift_mostly();
    }

    /// Many LFs in a read and outside it, so that the line count goes round.
    pub(super) fn many_lines(&mut self) {
        if self.random.chance(60) {
            self.start(|_, _| {});
        }
        for _ in 0..self.random.between(1, 3) {
            let mut data = vec![10; self.random.between(100, 250)];
            data.push(self.random.pick(&[10, 13, b'x']));
            self.host(&Message::Write(Write { status: true, data, ..Write::default() }));
        }
        self.type_keys(4);
        self.unread();
    }
}
