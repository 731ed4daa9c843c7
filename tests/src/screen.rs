//! What the screen gets: echo, column, line and rubbing out.

pub const BEL: u8 = 7;
pub const BS: u8 = 8;
pub const HT: u8 = 9;
pub const LF: u8 = 10;
pub const CR: u8 = 13;
/// The column goes no further.
pub const TOP: u16 = 999;

/// Where the terminal stands, as far as the bytes sent tell.
#[derive(Clone, Debug, Default, PartialEq, Eq)]
pub struct Screen {
    pub column: u16,
    pub line: u8,
    /// The last byte sent, which F asks about; a fresh line has none.
    pub last: Option<u8>,
}

impl Screen {
    /// Sends one byte as it is.
    pub fn send(&mut self, byte: u8, to: &mut Vec<u8>) {
        to.push(byte);
        self.last = Some(byte);
        match byte {
            32..=126 | 160..=254 => self.column = (self.column + 1).min(TOP),
            CR => self.column = 0,
            BS => self.column = self.column.saturating_sub(1),
            HT => self.column = (self.column + to_stop(self.column)).min(TOP),
            LF => self.line = self.line.wrapping_add(1),
            _ => {}
        }
    }

    pub fn send_all(&mut self, bytes: &[u8], to: &mut Vec<u8>) {
        for byte in bytes {
            self.send(*byte, to);
        }
    }

    /// Sends the echo of one character.
    pub fn echo(&mut self, code: u8, to: &mut Vec<u8>) {
        match code {
            HT => {
                for _ in 0..to_stop(self.column) {
                    self.send(b' ', to);
                }
            }
            0..=31 | 127 => self.send_all(&[b'^', code ^ 64], to),
            32..=126 | 160..=254 => self.send(code, to),
            128..=159 | 255 => {}
        }
    }

    /// Rubs out this many marks.
    pub fn rub_out(&mut self, marks: usize, to: &mut Vec<u8>) {
        for _ in 0..marks {
            self.send_all(&[BS, b' ', BS], to);
        }
    }
}

/// Columns to the next multiple of 8 above.
fn to_stop(column: u16) -> u16 {
    8 - column % 8
}

/// How many marks and spaces the echo of a character has at a column.
pub fn width(code: u8, column: u16) -> u16 {
    match code {
        HT => to_stop(column),
        0..=31 | 127 => 2,
        32..=126 | 160..=254 => 1,
        128..=159 | 255 => 0,
    }
}
