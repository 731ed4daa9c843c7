//! Moving a settings record from one form to the other (M-107).

use crate::settings::{self, Form, LARGEST_READ, UNSOUND};

/// Given when form 1 has no room for a largest read.
pub const TOO_LARGE: u8 = 8;
/// No smaller area is taken.
pub const AREA: usize = 600;

/// Moves a record of form 1 to form 2 for an area of this length; the error is
/// 1 or 7.
pub fn to_form_2(record: &[u8], area: usize) -> Result<Vec<u8>, u8> {
    moved(record, Form::One, Form::Two, area)
}

/// Moves a record of form 2 to form 1; the error is 1, 7 or 8.
pub fn to_form_1(record: &[u8], area: usize) -> Result<Vec<u8>, u8> {
    moved(record, Form::Two, Form::One, area)
}

fn moved(bytes: &[u8], from: Form, to: Form, area: usize) -> Result<Vec<u8>, u8> {
    if area < AREA {
        return Err(1);
    }
    let record = settings::read(bytes).map_err(|_| UNSOUND)?;
    if record.form != from {
        return Err(UNSOUND);
    }
    let mut largest = Vec::new();
    if let Some(number) = settings::largest_read(record.sections[LARGEST_READ]) {
        if number > to.top() {
            return Err(TOO_LARGE);
        }
        largest = to.largest_section(number);
    }
    let mut sections = record.sections;
    sections[LARGEST_READ] = &largest;
    Ok(settings::laid_out(to, &sections))
}
