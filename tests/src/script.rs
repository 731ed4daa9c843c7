//! Runs script text through a line and gives the answer lines.

use crate::coverage::Coverage;
use crate::line::{number_of, Answer, Areas, Line};
use crate::message;
use crate::moving;
use crate::settings::{self, Form};
use std::fmt;

/// A message kept by a runner is never longer: one byte over tells enough.
const KEPT: usize = message::LONGEST + 1;
/// And a settings record is not sound if it is longer.
const KEPT_RECORD: usize = settings::LONG + 1;

/// One line of a script.
#[derive(Clone, Debug, PartialEq, Eq)]
pub enum Order {
    Key(u8),
    Step,
    Tick,
    Host(Vec<u8>),
    Lengths(Areas),
    Fresh,
    Read(Vec<u8>),
    Dropped,
    Load(Records),
    /// A section's number, which is one digit.
    Ask(u8, Records),
    /// To this form.
    Move(Form, Vec<u8>),
}

/// The line's own settings record and the site's.
#[derive(Clone, Debug, Default, PartialEq, Eq)]
pub struct Records {
    pub own: Vec<u8>,
    pub site: Vec<u8>,
}

impl fmt::Display for Records {
    fn fmt(&self, to: &mut fmt::Formatter) -> fmt::Result {
        write_record(&self.own, to)?;
        to.write_str(" ")?;
        write_record(&self.site, to)
    }
}

fn write_record(bytes: &[u8], to: &mut fmt::Formatter) -> fmt::Result {
    if bytes.is_empty() {
        return to.write_str("-");
    }
    bytes.iter().try_for_each(|byte| write!(to, "{byte:02X}"))
}

impl fmt::Display for Order {
    fn fmt(&self, to: &mut fmt::Formatter) -> fmt::Result {
        match self {
            Order::Key(code) => write!(to, "K {code:02X}"),
            Order::Step => to.write_str("S"),
            Order::Tick => to.write_str("T"),
            Order::Host(bytes) => write_message("M", bytes, to),
            Order::Lengths(areas) => write!(to, "A {} {}", areas.terminal, areas.message),
            Order::Fresh => to.write_str("F"),
            Order::Read(bytes) => write_message("R", bytes, to),
            Order::Dropped => to.write_str("D"),
            Order::Load(records) => write!(to, "L {records}"),
            Order::Ask(number, records) => write!(to, "G {number} {records}"),
            Order::Move(form, record) => {
                write!(to, "V {} ", form.byte())?;
                write_record(record, to)
            }
        }
    }
}

fn write_message(word: &str, bytes: &[u8], to: &mut fmt::Formatter) -> fmt::Result {
    to.write_str(word)?;
    if !bytes.is_empty() {
        to.write_str(" ")?;
    }
    bytes.iter().try_for_each(|byte| write!(to, "{byte:02X}"))
}

/// The order of a script line, if it is well formed.
pub fn parse(text: &[u8]) -> Option<Order> {
    let (&word, rest) = text.split_first()?;
    let argument = match rest.split_first() {
        None => None,
        Some((b' ', argument)) => Some(argument),
        Some(_) => return None,
    };
    match (word, argument) {
        (b'K', Some(digits)) if digits.len() == 2 => Some(Order::Key(bytes_of(digits, 1)?[0])),
        (b'S', None) => Some(Order::Step),
        (b'T', None) => Some(Order::Tick),
        (b'M', digits) => Some(Order::Host(bytes_of(digits.unwrap_or_default(), KEPT)?)),
        (b'R', digits) => Some(Order::Read(bytes_of(digits.unwrap_or_default(), KEPT)?)),
        (b'A', Some(numbers)) => lengths(numbers),
        (b'F', None) => Some(Order::Fresh),
        (b'D', None) => Some(Order::Dropped),
        (b'L', Some(words)) => Some(Order::Load(records(words)?)),
        (b'G', Some([digit @ b'0'..=b'9', b' ', words @ ..])) => {
            Some(Order::Ask(digit - b'0', records(words)?))
        }
        (b'V', Some([digit @ b'0'..=b'9', b' ', word @ ..])) => {
            Some(Order::Move(Form::of(digit - b'0')?, record(word)?))
        }
        _ => None,
    }
}

fn records(words: &[u8]) -> Option<Records> {
    let mut parts = words.split(|byte| *byte == b' ');
    let (own, site) = (record(parts.next()?)?, record(parts.next()?)?);
    parts.next().is_none().then_some(Records { own, site })
}

/// A record of 0 bytes is written as a dash, so that no word is empty.
fn record(word: &[u8]) -> Option<Vec<u8>> {
    match word {
        [] => None,
        b"-" => Some(Vec::new()),
        digits => bytes_of(digits, KEPT_RECORD),
    }
}

fn lengths(numbers: &[u8]) -> Option<Order> {
    let mut parts = numbers.split(|byte| *byte == b' ');
    let terminal = decimal(parts.next()?)?;
    let message = decimal(parts.next()?)?;
    if parts.next().is_some() {
        return None;
    }
    Some(Order::Lengths(Areas { terminal, message }))
}

fn decimal(digits: &[u8]) -> Option<usize> {
    if digits.is_empty() || digits.len() > 5 || !digits.iter().all(u8::is_ascii_digit) {
        return None;
    }
    let number = digits.iter().fold(0, |sum, digit| sum * 10 + usize::from(digit - b'0'));
    (number <= 65_535).then_some(number)
}

/// The bytes, no more than are to be kept.
fn bytes_of(digits: &[u8], kept: usize) -> Option<Vec<u8>> {
    if !digits.len().is_multiple_of(2) {
        return None;
    }
    let mut bytes = Vec::with_capacity(kept.min(digits.len() / 2));
    for pair in digits.chunks_exact(2) {
        let byte = nibble(pair[0])? << 4 | nibble(pair[1])?;
        if bytes.len() < kept {
            bytes.push(byte);
        }
    }
    Some(bytes)
}

fn nibble(digit: u8) -> Option<u8> {
    match digit {
        b'0'..=b'9' => Some(digit - b'0'),
        b'A'..=b'F' => Some(digit - b'A' + 10),
        b'a'..=b'f' => Some(digit - b'a' + 10),
        _ => None,
    }
}

/// What an order is answered.
#[derive(Clone, Debug, PartialEq, Eq)]
pub enum Reply {
    Call(Answer),
    /// A message read without a line and written again, or its refusal.
    Copy(Result<Vec<u8>, u8>),
    Dropped(u16),
    /// The number of a load.
    Loaded(u8),
    /// A section of a settings record.
    Section(Vec<u8>),
    /// A record of the other form, or the refusal.
    Moved(Result<Vec<u8>, u8>),
    Nothing,
}

impl Reply {
    /// Adds the answer line, if there is one.
    pub fn put(&self, to: &mut Vec<u8>) {
        match self {
            Reply::Call(answer) => {
                to.extend([b'0' + answer.number, b' ']);
                put_hex(&answer.terminal, to);
                to.push(b' ');
                put_hex(&answer.message_area(), to);
            }
            Reply::Copy(Ok(bytes)) | Reply::Moved(Ok(bytes)) => {
                to.extend(b"0 ");
                put_hex(bytes, to);
            }
            Reply::Copy(Err(number)) => to.extend([b'0' + number, b' ', b'-']),
            Reply::Dropped(count) => to.extend(count.to_string().bytes()),
            Reply::Loaded(number) | Reply::Moved(Err(number)) => to.push(b'0' + number),
            Reply::Section(bytes) => put_hex(bytes, to),
            Reply::Nothing => return,
        }
        to.push(b'\n');
    }
}

/// A line with the area lengths that hold from now on.
#[derive(Clone, Debug, Default)]
pub struct Runner {
    line: Line,
    areas: Areas,
    seen: Coverage,
}

impl Runner {
    /// Runs one script line and adds its answer line, if it has one.
    pub fn run(&mut self, text: &[u8], to: &mut Vec<u8>) {
        match parse(text) {
            Some(order) => self.obey(&order).put(to),
            None => to.extend(b"?\n"),
        }
    }

    pub fn obey(&mut self, order: &Order) -> Reply {
        match order {
            Order::Key(code) => Reply::Call(self.line.key(*code, self.areas)),
            Order::Step => Reply::Call(self.line.step(self.areas)),
            Order::Tick => Reply::Call(self.line.tick(self.areas)),
            Order::Host(bytes) => Reply::Call(self.line.host(bytes, self.areas)),
            Order::Lengths(areas) => {
                self.areas = *areas;
                Reply::Nothing
            }
            Order::Fresh => {
                self.seen.add(&self.line.seen);
                self.line = Line::default();
                self.areas = Areas::default();
                Reply::Nothing
            }
            Order::Read(bytes) => Reply::Copy(self.copy(bytes)),
            Order::Dropped => Reply::Dropped(self.line.dropped()),
            Order::Load(records) => Reply::Loaded(self.line.load(&records.own, &records.site)),
            Order::Ask(number, records) => Reply::Section(self.ask(*number, records)),
            Order::Move(form, record) => Reply::Moved(self.moved(*form, record)),
        }
    }

    fn moved(&mut self, form: Form, record: &[u8]) -> Result<Vec<u8>, u8> {
        let moved = match form {
            Form::One => moving::to_form_1(record, moving::AREA),
            Form::Two => moving::to_form_2(record, moving::AREA),
        };
        self.seen.settings.moved(form, record, number_of(&moved));
        moved
    }

    fn ask(&mut self, number: u8, records: &Records) -> Vec<u8> {
        self.seen.ask(number, &records.own, &records.site);
        settings::section(number, &records.own, &records.site).to_vec()
    }

    fn copy(&mut self, bytes: &[u8]) -> Result<Vec<u8>, u8> {
        let copy = message::read(bytes).and_then(|read| {
            self.seen.read[usize::from(read.kind())] += 1;
            message::write(&read, message::LONGEST)
        });
        let number = number_of(&copy);
        self.seen.read_numbers[usize::from(number)] += 1;
        self.seen.long.copied(bytes, number);
        copy
    }

    pub fn line(&self) -> &Line {
        &self.line
    }

    /// What occurred on this line and on those before it.
    pub fn coverage(&self) -> Coverage {
        let mut all = self.seen.clone();
        all.add(&self.line.seen);
        all
    }
}

fn put_hex(bytes: &[u8], to: &mut Vec<u8>) {
    const DIGITS: &[u8; 16] = b"0123456789ABCDEF";
    if bytes.is_empty() {
        to.push(b'-');
    }
    for byte in bytes {
        to.push(DIGITS[usize::from(byte >> 4)]);
        to.push(DIGITS[usize::from(byte & 15)]);
    }
}

/// The lines of a script; the last may lack its newline.
pub fn lines(script: &[u8]) -> impl Iterator<Item = &[u8]> {
    let whole = script.strip_suffix(b"\n").unwrap_or(script);
    let none = script.is_empty();
    whole.split(|byte| *byte == b'\n').filter(move |_| !none)
}

/// Runs a whole script from a fresh line.
pub fn run(script: &[u8]) -> (Vec<u8>, Coverage) {
    let mut runner = Runner::default();
    let mut answers = Vec::new();
    for text in lines(script) {
        runner.run(text, &mut answers);
    }
    (answers, runner.coverage())
}
