//! Reading a message without a line.

use super::{kind_of, Initiate, Kind, Message, ReadData, StartRead, Value, Wanted, Write, LONGEST};

/// Why a message is not sound; several of these share number 5.
#[derive(Clone, Copy, Debug, PartialEq, Eq)]
pub enum Fault {
    Length,
    Type,
    CutShort,
    LeftOver,
    Value,
    Selector,
    StartReadTest,
}

impl Fault {
    pub fn number(self) -> u8 {
        match self {
            Fault::Length => 2,
            Fault::Type => 3,
            _ => 5,
        }
    }
}

/// Reads a message; the error is 2, 3 or 5.
pub fn read(bytes: &[u8]) -> Result<Message, u8> {
    read_or_fault(bytes).map_err(Fault::number)
}

/// As `read`, but says which cause there was.
pub fn read_or_fault(bytes: &[u8]) -> Result<Message, Fault> {
    if bytes.is_empty() || bytes.len() > LONGEST {
        return Err(Fault::Length);
    }
    let mut from = Fields { bytes, at: 1 };
    let message = match bytes[0] {
        1 => initiate(&mut from)?,
        2 => start_read(&mut from)?,
        3 => read_data(&mut from)?,
        4 => Message::OutOfBand { discard: from.flag()?, character: from.byte()? },
        5 => Message::Unread { if_empty: from.flag()? },
        6 => from.constant(Message::ClearInput)?,
        7 => write(&mut from)?,
        8 => Message::WriteCompletion {
            lost: from.flag()?,
            horizontal: from.word()?,
            vertical: from.word()?,
        },
        9 => Message::DiscardState { shown: from.flag()? },
        10 => read_characteristics(&mut from)?,
        11 => characteristics(&mut from)?,
        12 => from.constant(Message::CheckInput)?,
        13 => {
            from.byte()?;
            Message::InputCount { count: from.word()? }
        }
        14 => Message::InputState { some: from.flag()? },
        _ => return Err(Fault::Type),
    };
    if from.done() {
        Ok(message)
    } else {
        Err(Fault::LeftOver)
    }
}

/// The received bytes and the place reached in them.
struct Fields<'a> {
    bytes: &'a [u8],
    at: usize,
}

impl<'a> Fields<'a> {
    fn done(&self) -> bool {
        self.at == self.bytes.len()
    }

    fn byte(&mut self) -> Result<u8, Fault> {
        let byte = *self.bytes.get(self.at).ok_or(Fault::CutShort)?;
        self.at += 1;
        Ok(byte)
    }

    /// Low byte first.
    fn word(&mut self) -> Result<u16, Fault> {
        let low = self.byte()?;
        let high = self.byte()?;
        Ok(u16::from(low) | u16::from(high) << 8)
    }

    fn flag(&mut self) -> Result<bool, Fault> {
        Ok(self.byte()? & 1 == 1)
    }

    fn part(&mut self, length: usize) -> Result<&'a [u8], Fault> {
        let part = self.bytes.get(self.at..self.at + length).ok_or(Fault::CutShort)?;
        self.at += length;
        Ok(part)
    }

    fn rest(&mut self) -> Vec<u8> {
        let rest = self.bytes[self.at..].to_vec();
        self.at = self.bytes.len();
        rest
    }

    /// A FLAGS byte given as the constant 0 has no used bits: it is passed over.
    fn constant(&mut self, message: Message) -> Result<Message, Fault> {
        self.byte()?;
        Ok(message)
    }
}

fn initiate(from: &mut Fields) -> Result<Message, Fault> {
    from.byte()?;
    let version = [from.byte()?, from.byte()?, from.byte()?];
    let mut revision = [0; 8];
    revision.copy_from_slice(from.part(8)?);
    let mut parameters = Vec::new();
    while !from.done() {
        let kind = from.byte()?;
        let count = from.byte()?;
        parameters.push((kind, from.part(usize::from(count))?.to_vec()));
    }
    Ok(Message::Initiate(Initiate { version, revision, parameters }))
}

fn bits(flags: u32, from: u32, width: u32) -> u8 {
    (flags >> from & ((1 << width) - 1)) as u8
}

fn bit(flags: u32, from: u32) -> bool {
    flags >> from & 1 == 1
}

fn start_read(from: &mut Fields) -> Result<Message, Fault> {
    // Three bytes: the drawing has 18 bits.
    let flags = u32::from(from.word()?) | u32::from(from.byte()?) << 16;
    let mut read = StartRead {
        underflow: bits(flags, 0, 2),
        clear: bit(flags, 2),
        formatting: bit(flags, 3),
        vertical: bit(flags, 4),
        continuation: bit(flags, 5),
        raise: bits(flags, 6, 2),
        disable: bits(flags, 8, 3),
        no_echo: bit(flags, 11),
        echo_terminator: bit(flags, 12),
        timed: bit(flags, 13),
        which_set: bits(flags, 14, 2),
        escapes: bits(flags, 16, 2),
        max_length: from.word()?,
        end_of_data: from.word()?,
        timeout: from.word()?,
        end_of_prompt: from.word()?,
        start_of_display: from.word()?,
        low_water: from.word()?,
        ..StartRead::default()
    };
    let count = usize::from(from.byte()?);
    if count > 32 {
        return Err(Fault::StartReadTest);
    }
    read.set = from.part(count)?.to_vec();
    read.data = from.rest();
    if read.passes() {
        Ok(Message::StartRead(read))
    } else {
        Err(Fault::StartReadTest)
    }
}

fn read_data(from: &mut Fields) -> Result<Message, Fault> {
    let flags = from.byte()?;
    let read = ReadData {
        code: flags & 15,
        more: flags & 16 != 0,
        low_water: from.word()?,
        vertical: from.byte()?,
        horizontal: from.byte()?,
        terminator: from.word()?,
        data: from.rest(),
    };
    if read.code > 13 {
        return Err(Fault::Value);
    }
    Ok(Message::ReadData(read))
}

fn write(from: &mut Fields) -> Result<Message, Fault> {
    let flags = u32::from(from.word()?);
    let write = Write {
        lock: bits(flags, 0, 2),
        newline: bit(flags, 2),
        keep: bit(flags, 3),
        first: bit(flags, 4),
        last: bit(flags, 5),
        prefix: bits(flags, 6, 2),
        postfix: bits(flags, 8, 2),
        status: bit(flags, 10),
        transparent: bit(flags, 11),
        prefix_value: from.byte()?,
        postfix_value: from.byte()?,
        data: from.rest(),
    };
    if write.prefix == 3 || write.postfix == 3 {
        return Err(Fault::Value);
    }
    Ok(Message::Write(write))
}

fn read_characteristics(from: &mut Fields) -> Result<Message, Fault> {
    from.byte()?;
    let mut wanted = Vec::new();
    while !from.done() {
        let selector = from.word()?;
        wanted.push(match kind_of(selector) {
            Some(Kind::Attributes) => Wanted::Attributes(from.byte()?),
            Some(_) => Wanted::Plain(selector),
            None => return Err(Fault::Selector),
        });
    }
    Ok(Message::ReadCharacteristics(wanted))
}

fn characteristics(from: &mut Fields) -> Result<Message, Fault> {
    from.byte()?;
    let mut values = Vec::new();
    while !from.done() {
        let selector = from.word()?;
        values.push(match kind_of(selector) {
            Some(Kind::Boolean) => Value::Boolean { selector, on: from.flag()? },
            Some(Kind::Attributes) => Value::Attributes {
                character: from.byte()?,
                mask: from.byte()?,
                attributes: from.byte()? & 127,
            },
            Some(Kind::CountState) => match from.word()? {
                state @ 1..=3 => Value::CountState(state),
                _ => return Err(Fault::Value),
            },
            Some(Kind::ErrorProcessing) => Value::ErrorProcessing(from.byte()? & 15),
            None => return Err(Fault::Selector),
        });
    }
    Ok(Message::Characteristics(values))
}
