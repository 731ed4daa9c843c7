//! Writing a message without a line.

use super::{kind_of, Initiate, Kind, Message, ReadData, StartRead, Value, Wanted, Write, LONGEST};

/// Writes a message for an area of this length; the error is 1, 2, 3 or 5.
pub fn write(message: &Message, area: usize) -> Result<Vec<u8>, u8> {
    if area < LONGEST {
        return Err(1);
    }
    // The length is the sum of the parts, so it is known before any value is judged.
    let bytes = laid_out(message);
    if bytes.len() > LONGEST {
        return Err(2);
    }
    match message {
        Message::Other { kind: 1..=14, .. } => Err(5),
        Message::Other { .. } => Err(3),
        _ if !fits(message) => Err(5),
        _ => Ok(bytes),
    }
}

/// The bytes of all parts in order; a value too wide spoils only its own place.
fn laid_out(message: &Message) -> Vec<u8> {
    let mut to = vec![message.kind()];
    match message {
        Message::Initiate(initiate) => lay_initiate(initiate, &mut to),
        Message::StartRead(read) => lay_start_read(read, &mut to),
        Message::ReadData(read) => lay_read_data(read, &mut to),
        Message::OutOfBand { discard, character } => to.extend([u8::from(*discard), *character]),
        Message::Unread { if_empty: flag }
        | Message::DiscardState { shown: flag }
        | Message::InputState { some: flag } => to.push(u8::from(*flag)),
        Message::ClearInput | Message::CheckInput => to.push(0),
        Message::Write(write) => lay_write(write, &mut to),
        Message::WriteCompletion { lost, horizontal, vertical } => {
            to.push(u8::from(*lost));
            to.extend(horizontal.to_le_bytes());
            to.extend(vertical.to_le_bytes());
        }
        Message::ReadCharacteristics(wanted) => lay_wanted(wanted, &mut to),
        Message::Characteristics(values) => lay_values(values, &mut to),
        Message::InputCount { count } => {
            to.push(0);
            to.extend(count.to_le_bytes());
        }
        Message::Other { body, .. } => to.extend(body),
    }
    to
}

fn lay_initiate(initiate: &Initiate, to: &mut Vec<u8>) {
    to.push(0);
    to.extend(initiate.version);
    to.extend(initiate.revision);
    for (kind, value) in &initiate.parameters {
        to.extend([*kind, value.len() as u8]);
        to.extend(value);
    }
}

fn lay_start_read(read: &StartRead, to: &mut Vec<u8>) {
    let flags = u32::from(read.underflow)
        | u32::from(read.clear) << 2
        | u32::from(read.formatting) << 3
        | u32::from(read.vertical) << 4
        | u32::from(read.continuation) << 5
        | u32::from(read.raise) << 6
        | u32::from(read.disable) << 8
        | u32::from(read.no_echo) << 11
        | u32::from(read.echo_terminator) << 12
        | u32::from(read.timed) << 13
        | u32::from(read.which_set) << 14
        | u32::from(read.escapes) << 16;
    to.extend(&flags.to_le_bytes()[..3]);
    let words = [
        read.max_length,
        read.end_of_data,
        read.timeout,
        read.end_of_prompt,
        read.start_of_display,
        read.low_water,
    ];
    for word in words {
        to.extend(word.to_le_bytes());
    }
    to.push(read.set.len() as u8);
    to.extend(&read.set);
    to.extend(&read.data);
}

fn lay_read_data(read: &ReadData, to: &mut Vec<u8>) {
    to.push(read.code & 15 | u8::from(read.more) << 4);
    to.extend(read.low_water.to_le_bytes());
    to.extend([read.vertical, read.horizontal]);
    to.extend(read.terminator.to_le_bytes());
    to.extend(&read.data);
}

fn lay_write(write: &Write, to: &mut Vec<u8>) {
    let flags = u16::from(write.lock)
        | u16::from(write.newline) << 2
        | u16::from(write.keep) << 3
        | u16::from(write.first) << 4
        | u16::from(write.last) << 5
        | u16::from(write.prefix) << 6
        | u16::from(write.postfix) << 8
        | u16::from(write.status) << 10
        | u16::from(write.transparent) << 11;
    to.extend(flags.to_le_bytes());
    to.extend([write.prefix_value, write.postfix_value]);
    to.extend(&write.data);
}

fn lay_wanted(wanted: &[Wanted], to: &mut Vec<u8>) {
    to.push(0);
    for one in wanted {
        match one {
            Wanted::Plain(selector) => to.extend(selector.to_le_bytes()),
            Wanted::Attributes(character) => {
                to.extend(super::CHARACTER_ATTRIBUTES.to_le_bytes());
                to.push(*character);
            }
        }
    }
}

fn lay_values(values: &[Value], to: &mut Vec<u8>) {
    to.push(0);
    for value in values {
        match value {
            Value::Boolean { selector, on } => {
                to.extend(selector.to_le_bytes());
                to.push(u8::from(*on));
            }
            Value::Attributes { character, mask, attributes } => {
                to.extend(super::CHARACTER_ATTRIBUTES.to_le_bytes());
                to.extend([*character, *mask, *attributes]);
            }
            Value::CountState(state) => {
                to.extend(super::INPUT_COUNT_STATE.to_le_bytes());
                to.extend(state.to_le_bytes());
            }
            Value::ErrorProcessing(bits) => {
                to.extend(super::ERROR_PROCESSING.to_le_bytes());
                to.push(*bits);
            }
        }
    }
}

/// Every field fits its place and the message would not be read as 5.
fn fits(message: &Message) -> bool {
    match message {
        Message::Initiate(initiate) => initiate.parameters.iter().all(|one| one.1.len() <= 255),
        Message::StartRead(read) => read.passes(),
        Message::ReadData(read) => read.code <= 13,
        Message::Write(write) => write.lock <= 3 && write.prefix <= 2 && write.postfix <= 2,
        Message::ReadCharacteristics(wanted) => wanted.iter().all(|one| match one {
            Wanted::Plain(selector) => !matches!(kind_of(*selector), None | Some(Kind::Attributes)),
            Wanted::Attributes(_) => true,
        }),
        Message::Characteristics(values) => values.iter().all(|value| match value {
            Value::Boolean { selector, .. } => kind_of(*selector) == Some(Kind::Boolean),
            Value::Attributes { attributes, .. } => *attributes <= 127,
            Value::CountState(state) => (1..=3).contains(state),
            Value::ErrorProcessing(bits) => *bits <= 15,
        }),
        _ => true,
    }
}
