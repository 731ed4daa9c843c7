//! Scenes that end in refusals, and reading without a line.

use super::{messages, typing, Generator};
use crate::line::{Areas, MESSAGE_AREA, TERMINAL_AREA};
use crate::message::{Message, Value, LONGEST, UNREAD};
use crate::script::Order;

impl Generator {
    pub(super) fn small_areas(&mut self) {
        let [terminal, message] = [TERMINAL_AREA, MESSAGE_AREA].map(|least| {
            // A script takes lengths up to 65,535.
            let more = least + self.random.between(1, least - 1);
            self.random.pick(&[least, least, least - 1, 0, more, usize::from(u16::MAX)])
        });
        self.order(Order::Lengths(Areas { terminal, message }));
        match self.random.below(4) {
            0 => self.read(),
            1 => self.small_requests(),
            2 => self.type_keys(6),
            _ => self.sound_message(),
        }
        self.ticks();
        self.order(Order::Lengths(Areas::default()));
    }

    /// Reading without a line.
    pub(super) fn reading(&mut self) {
        let kind = self.random.between(1, 14);
        let mut bytes = messages::bytes_of(&messages::sound(kind, &mut self.random));
        match self.random.below(6) {
            0..=2 => bytes = messages::damaged(bytes, &mut self.random),
            3 if self.random.chance(10) => {
                let length = self.random.between(1, LONGEST + 4);
                bytes = self.random.bytes(length);
            }
            _ => {}
        }
        self.order(Order::Read(bytes));
    }

    pub(super) fn spoiled(&mut self) {
        if self.line().read_pending() && self.random.chance(50) {
            self.unread();
        }
        let kind = self.random.pick(&[1, 2, 2, 2, 2, 5, 6, 7, 7, 10, 10, 11, 11, 11, 12]);
        let sound = messages::bytes_of(&messages::sound(kind, &mut self.random));
        let bytes = messages::damaged(sound, &mut self.random);
        self.send(&bytes);
    }

    pub(super) fn sound_message(&mut self) {
        if self.line().read_pending() && self.random.chance(50) {
            self.unread();
        }
        let kind =
            self.random.pick(&[1, 2, 2, 2, 2, 3, 4, 5, 6, 7, 7, 8, 9, 10, 11, 11, 12, 13, 14]);
        let message = messages::sound(kind, &mut self.random);
        self.host(&message);
    }

    pub(super) fn wrong_length(&mut self) {
        let length =
            self.random.pick(&[0, LONGEST - 1, LONGEST, LONGEST + 1, LONGEST + 2, LONGEST + 50]);
        let mut bytes = vec![b'a'; length];
        // Sound Writes, and what would be refused with 5 or 3 too: an Unread has two
        // bytes.
        let write = [7, 32, 0, 0, 0];
        let kind = self.random.byte();
        let front = self.random.pick(&[write, write, [UNREAD; 5], [kind; 5], [0; 5]]);
        for (place, byte) in bytes.iter_mut().zip(front) {
            *place = byte;
        }
        if self.random.chance(50) {
            self.send(&bytes);
        } else {
            self.order(Order::Read(bytes));
        }
    }

    /// A line of no known form.
    pub(super) fn stray_line(&mut self) {
        let stray = ["", "K", "K 1", "K 123", "k 41", "S ", "M 0", "M 0G", "A 1", "A 65536 0"];
        let more =
            ["A 1 2 3", "A -1 0", "A 100000 1", "Q", " S", "M  0500", "T 1", "R 012", "K  41"];
        let loads = ["L", "L ", "L -", "L - ", "L  -", "L - - -", "L 0 -", "L 01 0G", "L -- -"];
        let asks = ["G", "G 1", "G - -", "G 1 -", "G 12 - -", "G x - -", "G 1 - - -", "G1 - -"];
        let moves = ["V", "V ", "V 1", "V 1 ", "V -", "V 0 -", "V 3 -", "V 9 -", "V 12 -", "V 1 0"];
        let line = match self.random.below(5) {
            0 => self.random.pick(&stray),
            1 => self.random.pick(&more),
            2 => self.random.pick(&loads),
            3 => self.random.pick(&moves),
            _ => self.random.pick(&asks),
        };
        self.text.push_str(line);
        self.text.push('\n');
    }

    /// Values that are not defined, and characters left deferred-clear or not.
    pub(super) fn edge_values(&mut self) {
        let undefined: [&[u8]; 8] = [
            &[7, 0xC0, 0, 0, 0],
            &[7, 0, 3, 0, 0, b'x'],
            &[11, 0, 8, 2, 0, 0],
            &[11, 0, 8, 2, 4, 0],
            &[11, 0, 8, 2, 1, 1],
            &[11, 0, 9, 2, 1, 8, 2, 0, 1],
            &[11, 0, 8, 2, 3, 0],
            &[3, 14, 0, 0, 0, 0, 0, 0],
        ];
        if self.random.chance(50) {
            let bytes = self.random.pick(&undefined).to_vec();
            self.order(Order::Read(bytes.clone()));
            return self.send(&bytes);
        }
        let character = self.random.pick(&typing::OUT_OF_BAND);
        let mut values = vec![Value::Attributes { character, mask: 3, attributes: 2 }];
        if self.random.chance(40) {
            let attributes = self.random.pick(&[0, 1, 3]);
            let mask = self.random.pick(&[1, 2, 3]);
            values.push(Value::Attributes { character, mask, attributes });
        }
        self.host(&Message::Characteristics(values));
    }
}
