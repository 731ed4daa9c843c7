//! Scenes with long answers (M-107): texts up to a whole buffer, positions about
//! the top column, messages about the longest.

use super::messages::{self, MOST_VALUES, RECOGNISED};
use super::random::Random;
use super::{typing, Generator};
use crate::coverage::long::WATCHED;
use crate::line::arrival::CLEAR_KEY;
use crate::line::steps::{DELETE_KEY, DELETE_LINE_KEY, DELETE_WORD_KEY, REDISPLAY_KEY};
use crate::line::tokens::{CSI, ESC};
use crate::line::MESSAGE_AREA;
use crate::message::{Message, StartRead, Value, Write, BUFFER, NORMAL_ECHO, REDISPLAY_AFTER};
use crate::screen::{BEL, CR, HT, LF, TOP};
use crate::script::Order;

/// Of a hundred long reads so many have all the room that there is.
const ROOMY: usize = 70;
/// One scene in so many has its whole text typed: it takes as long as many others.
const TYPED_OUT: usize = 300;

/// It echoes two marks, the next nothing, and the last is a mark itself.
const CONTROL: u8 = 1;
const SILENT: u8 = 150;
const HIGH_MARK: u8 = 201;

/// How few values a long Characteristics has.
const FEWEST_VALUES: usize = 50;

/// What ends a read, and may just fill it.
const ENDINGS: [&[u8]; 6] = [
    b"x",
    &[CR],
    &[ESC, b'[', b'A'],
    &[ESC, b'[', BEL],
    &[CSI, b'1', b'2', b'~'],
    &[DELETE_LINE_KEY, DELETE_KEY],
];

/// A script of little else than long answers.
pub fn long_script(seed: u64, calls: usize) -> String {
    let mut generator = Generator::new(seed);
    generator.beginning();
    while generator.calls < calls {
        generator.long_scene();
    }
    generator.text
}

impl Generator {
    fn long_scene(&mut self) {
        self.lift_mostly();
        match self.random.below(20) {
            _ if self.random.below(TYPED_OUT) == 0 => self.typed_out(),
            0 => self.fresh(),
            1 => self.wrong_length(),
            2 if self.random.chance(50) => self.long_characteristics(),
            2 => self.longest_answer(),
            3 => self.largest_read(),
            4 => self.read_without_a_line(),
            5..=8 => self.long_ending(),
            _ => self.long_read(),
        }
    }

    /// A line with all the room there is, most of the time at column 0.
    fn make_room(&mut self) {
        self.make_way();
        if self.line().largest_read() < BUFFER && self.random.chance(90) {
            self.load_room();
        }
        if self.random.chance(80) {
            self.host(&Message::Write(Write { data: vec![CR, LF], ..Write::default() }));
        }
    }

    /// A long text is edited and ended in some way.
    fn long_read(&mut self) {
        self.make_room();
        self.begin(|random, read| {
            let room = random.pick(&[0, 1, 2, 3, 5, 16, 16, 40, 40]);
            lengthen(random, read, room);
        });
        for _ in 0..self.random.between(1, 12) {
            self.key_in_long();
        }
        match self.random.below(8) {
            0 | 1 => self.unread(),
            2 => self.ticks(),
            3 => self.out_of_band_key(),
            4 => self.host(&Message::ClearInput),
            _ => self.settle(),
        }
    }

    fn key_in_long(&mut self) {
        match self.random.below(30) {
            0..=6 => self.key(HT),
            7..=12 => self.key(DELETE_KEY),
            13..=18 => self.key(b'a'),
            19 | 20 => self.key(DELETE_WORD_KEY),
            21 => self.key(REDISPLAY_KEY),
            22 => {
                let lock = REDISPLAY_AFTER;
                self.host(&Message::Write(Write { lock, status: true, ..Write::default() }));
            }
            23 => {
                let code = self.random.pick(&[DELETE_LINE_KEY, CLEAR_KEY, CR]);
                self.key(code);
            }
            24..=26 => self.key(CONTROL),
            _ => self.typed_key(),
        }
    }

    /// A read with just the room that what ends it needs, or one less or more.
    fn long_ending(&mut self) {
        self.make_room();
        let ending = self.random.pick(&ENDINGS);
        let just = ending.len();
        let room = self.random.pick(&[just - 1, just, just, just + 1]) as u16;
        self.begin(|random, read| {
            lengthen(random, read, room);
            read.escapes = RECOGNISED;
            read.which_set = random.pick(&[0, 2]);
            read.underflow = random.pick(&[1, 2]);
            read.disable = 0;
        });
        ending.iter().for_each(|code| self.key(*code));
    }

    /// A whole buffer is typed, key by key.
    fn typed_out(&mut self) {
        self.make_room();
        self.begin(|random, read| {
            *read = StartRead { which_set: 2, max_length: BUFFER, ..StartRead::default() };
            read.raise = random.pick(&[1, 2]);
        });
        for _ in 0..BUFFER {
            let other = self.random.pick(&[HT, SILENT, HIGH_MARK]);
            let code = if self.random.chance(97) { b'a' } else { other };
            self.key(code);
        }
    }

    fn read_without_a_line(&mut self) {
        let max_length = self.random.pick(&WATCHED);
        let mut read = messages::start_read(&mut self.random);
        messages::fit(&mut read, max_length.min(BUFFER));
        self.order(Order::Read(messages::asking_for(max_length, read)));
    }

    /// Asks for so much that the answer about fills the message area.
    fn longest_answer(&mut self) {
        let length = self.random.between(MESSAGE_AREA - 2, MESSAGE_AREA + 2);
        let wanted = messages::wanted_for(length, &mut self.random);
        self.host(&Message::ReadCharacteristics(wanted));
    }

    /// Sets so much that the message is long, and looks at what it left.
    fn long_characteristics(&mut self) {
        let count = self.random.between(FEWEST_VALUES, MOST_VALUES);
        let mut values = messages::carried(count, &mut self.random);
        // Without echo little would be seen of what follows.
        if self.random.chance(90) {
            values[count - 1] = Value::Boolean { selector: NORMAL_ECHO, on: true };
        }
        let bytes = messages::bytes_of(&Message::Characteristics(values));
        self.order(Order::Read(bytes.clone()));
        self.send(&bytes);
        self.longest_answer();
    }
}

/// Makes it a long read with room for so many more characters.
fn lengthen(random: &mut Random, read: &mut StartRead, room: u16) {
    let watched = random.pick(&WATCHED).min(BUFFER);
    read.max_length = if random.chance(ROOMY) { BUFFER } else { watched };
    read.end_of_data = read.max_length.saturating_sub(room);
    let end = usize::from(read.end_of_data);
    read.data = text(random, end);
    if read.formatting && random.chance(60) {
        read.data.iter_mut().take(1).for_each(|first| *first = LF);
    }
    let before_top = end.min(usize::from(TOP) - random.below(20));
    let anywhere = random.below(end + 1);
    read.end_of_prompt = random.pick(&[0, 0, 2.min(end), anywhere, before_top, end]) as u16;
    read.low_water =
        if random.chance(60) { read.end_of_data } else { random.below(end + 1) as u16 };
    read.clear = random.chance(3);
    read.timeout = random.pick(&[0, 1, 1, 2]);
}

/// A text of so many characters: little else than marks before its end, or of
/// every kind.
fn text(random: &mut Random, length: usize) -> Vec<u8> {
    let mut text: Vec<u8> = match random.below(8) {
        0 => (0..length).map(|_| typing::shown(random)).collect(),
        1 => vec![HT; length],
        2 => vec![CONTROL; length],
        _ => (0..length).map(|_| random.pick(b"abcxyzABCZ019. ")).collect(),
    };
    let tail = random.below(40).min(length);
    for byte in &mut text[length - tail..] {
        *byte = random.pick(&[HT, HT, HT, b'a', b'b', CONTROL, *byte]);
    }
    text
}
