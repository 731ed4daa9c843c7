//! Random messages, mostly sound ones.

use super::random::Random;
use super::{typing, writes};
use crate::line::{LENGTH, MESSAGE_AREA};
use crate::message::{
    self, Initiate, Message, ReadData, StartRead, Value, Wanted, BUFFER, LONGEST, READ_DATA_HEADER,
};

const BOOLEANS: [u16; 7] = [0x201, 0x203, 0x204, 0x205, 0x206, 0x207, 0x209];
const CARRIED: [u16; 4] = [0x204, 0x205, 0x206, 0x209];
const PLAIN: [u16; 9] = [0x201, 0x203, 0x204, 0x205, 0x206, 0x207, 0x208, 0x209, 0x20A];

/// EE: the read recognises escape sequences.
pub const RECOGNISED: u8 = 2;

/// What an answer to Read Characteristics takes of the message area: its length,
/// type and flags, and then so much for each that was asked for.
const ANSWER_HEADER: usize = 4;
const PLAIN_ANSWER: usize = 3;
const ATTRIBUTES_ANSWER: usize = 5;
/// As many as can be answered: of the longer ones alone, and of the shorter.
const FEWEST: usize = (MESSAGE_AREA - ANSWER_HEADER) / ATTRIBUTES_ANSWER;
const MOST: usize = (MESSAGE_AREA - ANSWER_HEADER) / PLAIN_ANSWER;

/// A Characteristics has its values as an answer has them. Of the longer ones alone
/// a message takes so many.
pub const MOST_VALUES: usize = (LONGEST - (ANSWER_HEADER - LENGTH)) / ATTRIBUTES_ANSWER;

/// The bytes of a message that is sound.
pub fn bytes_of(message: &Message) -> Vec<u8> {
    message::write(message, LONGEST).unwrap_or_else(|_| vec![12, 0])
}

pub fn initiate(random: &mut Random) -> Message {
    let mut revision = [b' '; 8];
    if random.chance(50) {
        revision.copy_from_slice(&random.bytes(8));
    }
    let mut parameters = Vec::new();
    for _ in 0..random.below(5) {
        let length = random.pick(&[0, 1, 2, 2, 2, 7, 32]);
        parameters.push((random.pick(&[0, 1, 2, 3, 4, 255]), random.bytes(length)));
    }
    let version = [random.pick(&[0, 1, 2]), random.byte(), 0];
    Message::Initiate(Initiate { version, revision, parameters })
}

/// Most texts of general scripts are no longer.
const ORDINARY: usize = 120;

/// MAX-LENGTH, END-OF-DATA and END-OF-PROMPT.
fn lengths(random: &mut Random) -> (usize, usize, usize) {
    let whole = usize::from(BUFFER);
    let max = random.pick(&[
        0, 1, 2, 3, 5, 10, 16, 20, 40, 60, 80, 80, ORDINARY, ORDINARY, whole, whole, whole,
    ]);
    let end = match random.below(16) {
        0 => max,
        1..=10 => random.below(max.min(6) + 1),
        // Long texts have scripts of their own.
        11 => random.below(max.min(ORDINARY) + 1),
        _ => 0,
    };
    let prompt = match random.below(6) {
        0 => 0,
        1 | 2 => end,
        _ => random.below(end + 1),
    };
    (max, end, prompt)
}

/// A Start Read that is carried, of every kind.
pub fn start_read(random: &mut Random) -> StartRead {
    let (max, end, prompt) = lengths(random);
    let low_water = if random.chance(60) { end } else { random.below(end + 1) };
    let mut data: Vec<u8> = (0..end).map(|_| typing::shown(random)).collect();
    let formatting = random.chance(35);
    if end > 0 && random.chance(if formatting { 60 } else { 8 }) {
        data[0] = 10;
    }
    let timed = random.chance(35);
    StartRead {
        underflow: random.pick(&[0, 1, 1, 2]),
        clear: random.chance(8),
        formatting,
        raise: random.pick(&[0, 0, 0, 1, 2]),
        disable: random.pick(&[0, 0, 0, 0, 0, 1, 2, 3]),
        no_echo: random.chance(12),
        echo_terminator: random.chance(50),
        timed,
        timeout: random.pick(&[0, 0, 1, 1, 2, 3, 5, 200, 65_535]),
        which_set: random.pick(&[0, 0, 1, 1, 2, 2, 2]),
        escapes: random.pick(&[0, 0, 1, 2, 2]),
        max_length: max as u16,
        end_of_data: end as u16,
        end_of_prompt: prompt as u16,
        low_water: low_water as u16,
        set: set(random),
        data,
        ..StartRead::default()
    }
}

/// Makes a read no larger than this.
pub fn fit(read: &mut StartRead, largest: u16) {
    read.max_length = read.max_length.min(largest);
    read.end_of_data = read.end_of_data.min(largest);
    read.end_of_prompt = read.end_of_prompt.min(read.end_of_data);
    read.low_water = read.low_water.min(read.end_of_data);
    read.data.truncate(usize::from(read.end_of_data));
}

/// The bytes of a read, with a MAX-LENGTH that may be more than any message could
/// be written with.
pub fn asking_for(max_length: u16, read: StartRead) -> Vec<u8> {
    let mut bytes = bytes_of(&Message::StartRead(read));
    bytes[4..6].copy_from_slice(&max_length.to_le_bytes());
    bytes
}

/// Termination sets that end a read now and then, and some that end it often.
pub fn set(random: &mut Random) -> Vec<u8> {
    let length = random.pick(&[0, 1, 2, 4, 9, 16, 32]);
    let mut set = vec![0; length];
    match random.below(8) {
        0 => set = random.bytes(length),
        1 => set.iter_mut().for_each(|byte| *byte = random.byte() & random.byte() & random.byte()),
        _ => {}
    }
    let codes = [13, 13, 13, 10, 9, 26, 27, 18, 21, 23, 127, b'A', b'Z', b'q', b'.', 155, 200, 255];
    for _ in 0..random.below(5) {
        include(&mut set, random.pick(&codes));
    }
    set
}

/// Puts a code into a set, if its bytes reach so far.
pub fn include(set: &mut [u8], code: u8) {
    if let Some(byte) = set.get_mut(usize::from(code / 8)) {
        *byte |= 1 << (code % 8);
    }
}

/// A Start Read that is sound, but not always carried.
fn any_start_read(random: &mut Random) -> StartRead {
    let mut read = start_read(random);
    match random.below(8) {
        0 => read.continuation = true,
        1 => read.vertical = true,
        2 => {
            let from = random.below(read.data.len() + 1);
            read.start_of_display = from as u16;
            read.data.drain(..from);
        }
        _ => {}
    }
    read
}

/// Characteristics that the line takes.
pub fn carried_values(random: &mut Random) -> Vec<Value> {
    let count = random.pick(&[0, 1, 1, 1, 2, 3, 8]);
    carried(count, random)
}

/// So many of them.
pub fn carried(count: usize, random: &mut Random) -> Vec<Value> {
    (0..count).map(|_| carried_value(random)).collect()
}

fn carried_value(random: &mut Random) -> Value {
    if random.chance(45) {
        let out_of_band = random.pick(&[0, 0, 1, 3, 3]);
        let attributes = (random.byte() & 124) | out_of_band;
        let character = random.pick(&typing::OUT_OF_BAND);
        Value::Attributes { character, mask: random.pick(&[255, 127, 3, 3]), attributes }
    } else {
        Value::Boolean { selector: random.pick(&CARRIED), on: random.chance(50) }
    }
}

fn any_value(random: &mut Random) -> Value {
    match random.below(12) {
        0 => Value::CountState(random.pick(&[1, 2, 3])),
        1 => Value::ErrorProcessing(random.byte() & 15),
        2 => Value::Boolean { selector: random.pick(&BOOLEANS), on: random.chance(50) },
        3 | 4 => Value::Attributes {
            character: random.pick(&typing::OUT_OF_BAND),
            mask: random.byte(),
            attributes: random.byte() & 127,
        },
        _ => carried_value(random),
    }
}

/// What a Read Characteristics asks for; `outside` lets in the other selectors.
pub fn wanted(random: &mut Random, outside: bool) -> Vec<Wanted> {
    let count = match random.below(14) {
        0 => 0,
        1 => random.between(FEWEST - 6, MOST),
        2 => random.between(FEWEST - 2, FEWEST + 3),
        _ => random.between(1, 6),
    };
    let attributes = random.pick(&[20, 90, 100]);
    let one = |random: &mut Random| {
        if random.chance(attributes) {
            Wanted::Attributes(random.byte())
        } else if outside {
            Wanted::Plain(random.pick(&PLAIN))
        } else {
            Wanted::Plain(random.pick(&CARRIED))
        }
    };
    (0..count).map(|_| one(random)).collect()
}

/// What to ask for so that the answer takes so much of the message area.
pub fn wanted_for(length: usize, random: &mut Random) -> Vec<Wanted> {
    let rest = length - ANSWER_HEADER;
    let mut attributes = random.below(FEWEST - PLAIN_ANSWER);
    while !(rest - attributes * ATTRIBUTES_ANSWER).is_multiple_of(PLAIN_ANSWER) {
        attributes += 1;
    }
    let plain = (rest - attributes * ATTRIBUTES_ANSWER) / PLAIN_ANSWER;
    let mut wanted = Vec::new();
    wanted.extend((0..attributes).map(|_| Wanted::Attributes(random.byte())));
    wanted.extend((0..plain).map(|_| Wanted::Plain(random.pick(&CARRIED))));
    wanted.rotate_left(random.below(attributes + plain));
    wanted
}

fn read_data(random: &mut Random) -> ReadData {
    let length = random.pick(&[0, 1, 5, usize::from(BUFFER), LONGEST - READ_DATA_HEADER]);
    ReadData {
        code: random.below(14) as u8,
        more: random.chance(50),
        low_water: random.next() as u16,
        vertical: random.byte(),
        horizontal: random.byte(),
        terminator: random.next() as u16,
        data: random.bytes(length),
    }
}

/// A sound message of this type, 1 to 14.
pub fn sound(kind: usize, random: &mut Random) -> Message {
    let flag = random.chance(50);
    match kind {
        1 => initiate(random),
        2 => Message::StartRead(any_start_read(random)),
        3 => Message::ReadData(read_data(random)),
        4 => Message::OutOfBand { discard: flag, character: random.byte() },
        5 => Message::Unread { if_empty: flag },
        6 => Message::ClearInput,
        7 => Message::Write(writes::any_write(random)),
        8 => Message::WriteCompletion {
            lost: flag,
            horizontal: random.next() as u16,
            vertical: random.next() as u16,
        },
        9 => Message::DiscardState { shown: flag },
        10 => Message::ReadCharacteristics(wanted(random, true)),
        11 => {
            let count = random.below(6);
            Message::Characteristics((0..count).map(|_| any_value(random)).collect())
        }
        12 => Message::CheckInput,
        13 => Message::InputCount { count: random.next() as u16 },
        _ => Message::InputState { some: flag },
    }
}

/// Spoils a message a little: cut, one byte more, or one byte changed; or sets
/// bits that no one uses, which does not spoil it.
pub fn damaged(mut bytes: Vec<u8>, random: &mut Random) -> Vec<u8> {
    let place = random.below(bytes.len());
    match random.below(6) {
        0 => bytes.truncate(place),
        1 => {
            bytes.pop();
        }
        2 => bytes.push(random.byte()),
        3 => bytes.insert(place, random.byte()),
        4 => bytes[place] = random.byte(),
        // The front holds most of the fields that are judged.
        _ => {
            let front = random.below(bytes.len().min(18));
            bytes[front] ^= 1 << random.below(8);
        }
    }
    bytes
}
