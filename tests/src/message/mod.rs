//! The fourteen messages of 000, section 4.16, as fields.

mod reading;
mod writing;

pub use reading::{read, read_or_fault, Fault};
pub use writing::write;

/// No message is longer, read or written.
pub const LONGEST: usize = 2_048;
/// Type, FLAGS and the two values of a Write stand before its DATA.
pub const WRITE_HEADER: usize = 5;
pub const LONGEST_DATA: usize = LONGEST - WRITE_HEADER;
/// So much of a Read Data stands before its DATA.
pub const READ_DATA_HEADER: usize = 8;
/// The characters of the input buffer.
pub const BUFFER: u16 = 1_024;

/// Types that are asked for by name.
pub const INITIATE: u8 = 1;
pub const START_READ: u8 = 2;
pub const READ_DATA: u8 = 3;
pub const UNREAD: u8 = 5;
pub const CHARACTERISTICS: u8 = 11;

pub const IGNORE_INPUT: u16 = 0x0201;
pub const CHARACTER_ATTRIBUTES: u16 = 0x0202;
pub const CONTROL_O_PASS_THROUGH: u16 = 0x0203;
pub const RAISE_INPUT: u16 = 0x0204;
pub const NORMAL_ECHO: u16 = 0x0205;
pub const INPUT_ESCAPES: u16 = 0x0206;
pub const OUTPUT_ESCAPES: u16 = 0x0207;
pub const INPUT_COUNT_STATE: u16 = 0x0208;
pub const AUTO_PROMPT: u16 = 0x0209;
pub const ERROR_PROCESSING: u16 = 0x020A;

/// Lock values of Write, UU in 000, 4.16.8.
pub const UNLOCK: u8 = 0;
pub const LOCK: u8 = 1;
pub const UNLOCK_AFTER: u8 = 2;
pub const REDISPLAY_AFTER: u8 = 3;

/// Prefix and postfix codes of Write.
pub const NO_AFFIX: u8 = 0;
pub const NEW_LINES: u8 = 1;
pub const CHARACTER: u8 = 2;

#[derive(Clone, Debug, PartialEq, Eq)]
pub enum Message {
    Initiate(Initiate),
    StartRead(StartRead),
    ReadData(ReadData),
    OutOfBand {
        discard: bool,
        character: u8,
    },
    Unread {
        if_empty: bool,
    },
    ClearInput,
    Write(Write),
    WriteCompletion {
        lost: bool,
        horizontal: u16,
        vertical: u16,
    },
    /// Bit 0 is 1 when output is not discarded.
    DiscardState {
        shown: bool,
    },
    ReadCharacteristics(Vec<Wanted>),
    Characteristics(Vec<Value>),
    CheckInput,
    InputCount {
        count: u16,
    },
    InputState {
        some: bool,
    },
    /// A type that is not one of the fourteen: it can be held, never written.
    Other {
        kind: u8,
        body: Vec<u8>,
    },
}

#[derive(Clone, Debug, PartialEq, Eq)]
pub struct Initiate {
    pub version: [u8; 3],
    pub revision: [u8; 8],
    pub parameters: Vec<(u8, Vec<u8>)>,
}

/// The sub-fields wider than a bit are kept as numbers, so that a value that
/// does not fit can be held and is refused when written.
#[derive(Clone, Debug, Default, PartialEq, Eq)]
pub struct StartRead {
    pub underflow: u8,
    pub clear: bool,
    pub formatting: bool,
    pub vertical: bool,
    pub continuation: bool,
    pub raise: u8,
    pub disable: u8,
    pub no_echo: bool,
    pub echo_terminator: bool,
    pub timed: bool,
    pub which_set: u8,
    pub escapes: u8,
    pub max_length: u16,
    pub end_of_data: u16,
    pub timeout: u16,
    pub end_of_prompt: u16,
    pub start_of_display: u16,
    pub low_water: u16,
    pub set: Vec<u8>,
    pub data: Vec<u8>,
}

#[derive(Clone, Debug, Default, PartialEq, Eq)]
pub struct ReadData {
    pub code: u8,
    pub more: bool,
    pub low_water: u16,
    pub vertical: u8,
    pub horizontal: u8,
    pub terminator: u16,
    pub data: Vec<u8>,
}

#[derive(Clone, Debug, Default, PartialEq, Eq)]
pub struct Write {
    pub lock: u8,
    pub newline: bool,
    pub keep: bool,
    pub first: bool,
    pub last: bool,
    pub prefix: u8,
    pub postfix: u8,
    pub status: bool,
    pub transparent: bool,
    pub prefix_value: u8,
    pub postfix_value: u8,
    pub data: Vec<u8>,
}

/// One parameter of Read Characteristics.
#[derive(Clone, Copy, Debug, PartialEq, Eq)]
pub enum Wanted {
    Plain(u16),
    Attributes(u8),
}

/// One parameter of Characteristics.
#[derive(Clone, Copy, Debug, PartialEq, Eq)]
pub enum Value {
    Boolean { selector: u16, on: bool },
    Attributes { character: u8, mask: u8, attributes: u8 },
    CountState(u16),
    ErrorProcessing(u8),
}

/// What the two bytes of a selector stand in front of.
#[derive(Clone, Copy, Debug, PartialEq, Eq)]
pub(crate) enum Kind {
    Boolean,
    Attributes,
    CountState,
    ErrorProcessing,
}

/// The kind of a selector that 000 defines.
pub(crate) fn kind_of(selector: u16) -> Option<Kind> {
    match selector {
        CHARACTER_ATTRIBUTES => Some(Kind::Attributes),
        INPUT_COUNT_STATE => Some(Kind::CountState),
        ERROR_PROCESSING => Some(Kind::ErrorProcessing),
        IGNORE_INPUT | CONTROL_O_PASS_THROUGH | RAISE_INPUT | NORMAL_ECHO => Some(Kind::Boolean),
        INPUT_ESCAPES | OUTPUT_ESCAPES | AUTO_PROMPT => Some(Kind::Boolean),
        _ => None,
    }
}

impl StartRead {
    /// The Start Read test of page 01.
    pub(crate) fn passes(&self) -> bool {
        let end = self.end_of_data;
        self.underflow < 3
            && self.raise < 3
            && self.which_set < 3
            && self.escapes < 3
            && self.disable <= 3
            && self.set.len() <= 32
            && self.end_of_prompt <= end
            && self.low_water <= end
            && self.start_of_display <= end
            && end <= self.max_length
            && self.max_length <= BUFFER
            && self.data.len() == usize::from(end - self.start_of_display)
    }
}

impl Message {
    pub fn kind(&self) -> u8 {
        match self {
            Message::Initiate(_) => 1,
            Message::StartRead(_) => 2,
            Message::ReadData(_) => 3,
            Message::OutOfBand { .. } => 4,
            Message::Unread { .. } => 5,
            Message::ClearInput => 6,
            Message::Write(_) => 7,
            Message::WriteCompletion { .. } => 8,
            Message::DiscardState { .. } => 9,
            Message::ReadCharacteristics(_) => 10,
            Message::Characteristics(_) => 11,
            Message::CheckInput => 12,
            Message::InputCount { .. } => 13,
            Message::InputState { .. } => 14,
            Message::Other { kind, .. } => *kind,
        }
    }
}
