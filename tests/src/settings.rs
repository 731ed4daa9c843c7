//! Settings records of forms 1 (M-100) and 2 (M-107): what makes one sound, and
//! its sections.

use crate::message::{AUTO_PROMPT, INPUT_ESCAPES, NORMAL_ECHO, RAISE_INPUT};

/// Given when a record is not sound.
pub const UNSOUND: u8 = 7;
/// No sound record is so long.
pub const LONG: usize = 600;

/// The form of a record is its first byte.
#[derive(Clone, Copy, Debug, PartialEq, Eq)]
pub enum Form {
    One = 1,
    Two = 2,
}

pub const FORMS: [Form; 2] = [Form::One, Form::Two];

impl Form {
    pub fn of(byte: u8) -> Option<Form> {
        FORMS.into_iter().find(|form| form.byte() == byte)
    }

    pub fn byte(self) -> u8 {
        self as u8
    }

    /// The top of a largest read. It is the form's own number and does not grow
    /// with the input buffer: one meaning keeps its record.
    pub const fn top(self) -> u16 {
        match self {
            Form::One => 132,
            Form::Two => 1_024,
        }
    }

    /// The section that says this largest read, low byte first. In form 1 only
    /// the low byte is there, and it is all there is to a number up to its top.
    pub fn largest_section(self, number: u16) -> Vec<u8> {
        number.to_le_bytes()[..self.width()].to_vec()
    }

    /// How many bytes a largest read has.
    fn width(self) -> usize {
        match self {
            Form::One => 1,
            Form::Two => 2,
        }
    }
}

/// A termination set of all 256 codes.
pub const LONGEST_SET: usize = 32;
/// An attribute has seven used bits; the lowest two are the out-of-band field.
const HIGHEST_VALUE: u8 = 127;
const OUT_OF_BAND: u8 = 3;
const DEFERRED_CLEAR: u8 = 2;

/// The switches of a record, in their order.
pub const SWITCHES: [u16; 4] = [RAISE_INPUT, NORMAL_ECHO, INPUT_ESCAPES, AUTO_PROMPT];
/// A selector and its value.
pub const SWITCH: usize = 3;
/// A code and its value.
pub const ATTRIBUTE: usize = 2;

/// The places of the sections in a record, which are numbered from 1.
pub const CHARACTERISTICS: usize = 0;
pub const ATTRIBUTES: usize = 1;
pub const SET: usize = 2;
pub const LARGEST_READ: usize = 3;
pub const SECTIONS: usize = 4;

macro_rules! flaws {
    ($($name:ident),* $(,)?) => {
        /// The first rule that a record breaks.
        #[derive(Clone, Copy, Debug, PartialEq, Eq)]
        pub enum Flaw { $($name),* }
        pub const FLAWS: &[Flaw] = &[$(Flaw::$name),*];
    };
}

flaws! {
    // Before a form is known.
    Empty, Form,
    CutInLength, CutInSection, LeftOver,
    SwitchesNotFour, SelectorLow, SelectorHigh, SwitchValue,
    HalfAttribute, CodeAgain, CodeDescends, ValueZero, ValueHigh, DeferredClear,
    SetLong, SetEndsInZero,
    LargestWidth, LargestOver,
}

/// A sound record: its form, and its sections as parts of it.
#[derive(Clone, Copy, Debug, PartialEq, Eq)]
pub struct Record<'a> {
    pub form: Form,
    pub sections: [&'a [u8]; SECTIONS],
}

impl Record<'_> {
    /// No section could be longer.
    pub fn is_longest(&self) -> bool {
        let longest = [SWITCHES.len() * SWITCH, 256 * ATTRIBUTE, LONGEST_SET, self.form.width()];
        self.sections.map(<[u8]>::len) == longest
    }
}

/// Where a section was found.
#[derive(Clone, Copy, Debug, PartialEq, Eq)]
pub enum Source {
    Own,
    Site,
}

/// Reads a record of either form, if it is sound.
pub fn read(bytes: &[u8]) -> Result<Record<'_>, Flaw> {
    let record = split(bytes)?;
    judge_switches(record.sections[CHARACTERISTICS])?;
    judge_attributes(record.sections[ATTRIBUTES])?;
    judge_set(record.sections[SET])?;
    judge_largest(record.form, record.sections[LARGEST_READ])?;
    Ok(record)
}

fn split(bytes: &[u8]) -> Result<Record<'_>, Flaw> {
    let (&form, mut rest) = bytes.split_first().ok_or(Flaw::Empty)?;
    let form = Form::of(form).ok_or(Flaw::Form)?;
    let mut sections = [&rest[..0]; SECTIONS];
    for section in &mut sections {
        // Low byte first.
        let [low, high, behind @ ..] = rest else { return Err(Flaw::CutInLength) };
        let length = usize::from(u16::from_le_bytes([*low, *high]));
        (*section, rest) = behind.split_at_checked(length).ok_or(Flaw::CutInSection)?;
    }
    if rest.is_empty() {
        Ok(Record { form, sections })
    } else {
        Err(Flaw::LeftOver)
    }
}

/// None, or all four.
fn judge_switches(section: &[u8]) -> Result<(), Flaw> {
    if section.is_empty() {
        return Ok(());
    }
    if section.len() != SWITCHES.len() * SWITCH {
        return Err(Flaw::SwitchesNotFour);
    }
    for (switch, selector) in section.chunks_exact(SWITCH).zip(SWITCHES) {
        let [low, high] = selector.to_le_bytes();
        if switch[0] != low {
            return Err(Flaw::SelectorLow);
        }
        if switch[1] != high {
            return Err(Flaw::SelectorHigh);
        }
        if switch[2] > 1 {
            return Err(Flaw::SwitchValue);
        }
    }
    Ok(())
}

/// Codes ascend, and a code whose value would be 0 is left out.
fn judge_attributes(section: &[u8]) -> Result<(), Flaw> {
    if !section.len().is_multiple_of(ATTRIBUTE) {
        return Err(Flaw::HalfAttribute);
    }
    let mut last = None;
    for attribute in section.chunks_exact(ATTRIBUTE) {
        let (code, value) = (attribute[0], attribute[1]);
        if last == Some(code) {
            return Err(Flaw::CodeAgain);
        }
        if last > Some(code) {
            return Err(Flaw::CodeDescends);
        }
        last = Some(code);
        if value == 0 {
            return Err(Flaw::ValueZero);
        }
        if value > HIGHEST_VALUE {
            return Err(Flaw::ValueHigh);
        }
        if value & OUT_OF_BAND == DEFERRED_CLEAR {
            return Err(Flaw::DeferredClear);
        }
    }
    Ok(())
}

fn judge_set(section: &[u8]) -> Result<(), Flaw> {
    if section.len() > LONGEST_SET {
        return Err(Flaw::SetLong);
    }
    if section.last() == Some(&0) {
        return Err(Flaw::SetEndsInZero);
    }
    Ok(())
}

fn judge_largest(form: Form, section: &[u8]) -> Result<(), Flaw> {
    if section.is_empty() {
        return Ok(());
    }
    if section.len() != form.width() {
        return Err(Flaw::LargestWidth);
    }
    if largest_read(section) > Some(form.top()) {
        return Err(Flaw::LargestOver);
    }
    Ok(())
}

/// The number that a section of one byte or two says, low byte first: how many
/// there are tells the form of the record that it comes from.
pub fn largest_read(section: &[u8]) -> Option<u16> {
    match *section {
        [low] => Some(u16::from(low)),
        [low, high] => Some(u16::from_le_bytes([low, high])),
        _ => None,
    }
}

/// The section at a place: the own record's unless that is empty.
pub fn find<'a>(place: usize, own: &Record<'a>, site: &Record<'a>) -> (&'a [u8], Source) {
    match own.sections[place] {
        [] => (site.sections[place], Source::Site),
        section => (section, Source::Own),
    }
}

/// Section 1 to 4 of two records; empty for another number, or when either
/// record is not sound.
pub fn section<'a>(number: u8, own: &'a [u8], site: &'a [u8]) -> &'a [u8] {
    match (read(own), read(site), number) {
        (Ok(own), Ok(site), 1..=4) => find(usize::from(number) - 1, &own, &site).0,
        _ => &[],
    }
}

/// The record of a form with these sections, each behind its length.
pub fn laid_out<S: AsRef<[u8]>>(form: Form, sections: &[S; SECTIONS]) -> Vec<u8> {
    let mut bytes = vec![form.byte()];
    for section in sections {
        bytes.extend((section.as_ref().len() as u16).to_le_bytes());
        bytes.extend(section.as_ref());
    }
    bytes
}
