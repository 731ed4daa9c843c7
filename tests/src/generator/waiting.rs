//! Scenes with keys that wait. A pending read takes a key when it arrives, so
//! they are typed before a Start Read or on a locked line.

use super::messages::RECOGNISED;
use super::Generator;
use crate::line::arrival::{CLEAR_KEY, DISCARD_KEY, QUOTE_KEY};
use crate::line::tokens::{CSI, ESC};
use crate::line::TYPE_AHEAD;
use crate::message::{Message, StartRead};
use crate::script::Order;

/// Each too long for the reads that leave one behind.
const TOKENS: [[u8; 4]; 2] = [[ESC, b'[', b'5', b'~'], [CSI, b'1', b'2', b'A']];

/// Makes it a read without text, and with room for so much.
fn empty(read: &mut StartRead, room: u16) {
    (read.end_of_data, read.end_of_prompt, read.low_water) = (0, 0, 0);
    read.data.clear();
    read.max_length = room;
}

impl Generator {
    pub(super) fn unread(&mut self) {
        self.host(&Message::Unread { if_empty: false });
    }

    /// A few keys for the read that comes next.
    pub(super) fn type_ahead(&mut self) {
        for _ in 0..self.random.pick(&[1, 1, 2, 3, 5, 12]) {
            self.typed_key();
        }
    }

    /// Bare steps take what waited for the read.
    pub(super) fn drained(&mut self) {
        self.make_way();
        self.type_ahead();
        self.begin(|random, read| {
            if random.chance(50) {
                empty(read, random.pick(&[1, 2, 5]));
            }
        });
        self.settle();
    }

    fn printing_key(&mut self) {
        let code = self.random.between(32, 126) as u8;
        self.key(code);
    }

    /// More keys than type-ahead holds.
    pub(super) fn flood(&mut self) {
        if self.line().may_step() {
            self.unread();
        }
        for _ in 0..self.random.between(TYPE_AHEAD, TYPE_AHEAD + 8) {
            if self.random.chance(6) {
                self.key(QUOTE_KEY);
            } else {
                self.printing_key();
            }
        }
        self.order(Order::Dropped);
        if self.random.chance(60) {
            self.begin(|_, read| read.clear = false);
            self.type_keys(4);
            let steps = self.random.below(70);
            self.steps(steps);
        }
    }

    /// Keys wait, at times behind a held token, a pending quote or a lock; then
    /// keys of every kind arrive for the next read.
    pub(super) fn backlog(&mut self) {
        self.host(&Message::ClearInput);
        if self.random.chance(40) {
            self.leave_token();
        }
        self.unread();
        let waiting = self.random.pick(&[0, 0, 0, 0, 1, 3, TYPE_AHEAD, TYPE_AHEAD]);
        for _ in self.line().waiting()..waiting {
            self.printing_key();
        }
        if self.random.chance(30) {
            self.key(QUOTE_KEY);
        }
        if self.random.chance(40) {
            self.lock();
        }
        self.begin(|random, read| {
            read.clear = false;
            read.timed = random.chance(60);
            read.timeout = random.pick(&[0, 0, 1]);
            if random.chance(50) {
                empty(read, random.pick(&[1, 2, 5]));
            }
        });
        for _ in 0..self.random.between(1, 6) {
            self.key_of_any_kind();
        }
        let steps = self.random.below(4);
        self.steps(steps);
    }

    fn key_of_any_kind(&mut self) {
        match self.random.below(12) {
            0..=2 => self.printing_key(),
            3 => self.typed_key(),
            4..=6 => self.out_of_band_key(),
            7..=9 => self.key(DISCARD_KEY),
            10 => self.key(QUOTE_KEY),
            _ => self.key(CLEAR_KEY),
        }
    }

    /// A token finds no room and meets the next read's ticks and requests
    /// before its steps.
    pub(super) fn absentee(&mut self) {
        self.held_token();
        for _ in 0..self.random.between(1, 4) {
            match self.random.below(5) {
                0 => self.step(),
                1 => self.small_requests(),
                _ => self.tick(),
            }
        }
    }

    /// A token found no room, and the next read has started.
    pub(super) fn held_token(&mut self) {
        self.leave_token();
        self.begin(|random, read| {
            read.clear = false;
            read.timed = true;
            read.timeout = random.pick(&[1, 2]);
            read.escapes = random.pick(&[0, 1, 2]);
        });
    }

    /// A read with too little room leaves a token behind.
    fn leave_token(&mut self) {
        self.make_way();
        self.begin(|random, read| {
            empty(read, random.pick(&[1, 2]));
            read.escapes = RECOGNISED;
        });
        for code in self.random.pick(&TOKENS) {
            self.key(code);
        }
        self.settle();
    }
}
