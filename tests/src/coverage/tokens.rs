//! What occurred to tokens, form by form.

use crate::line::tokens::{form, End, Form, CSI, ESC, FORMS, INTERMEDIATES, LONGEST};
use crate::screen::BEL;

const ENDS: [End; 5] = [End::Valid, End::Invalid, End::TooLong, End::Dropped, End::Cleared];

/// The bytes on both sides of each edge of 32-47, 48-63 and 64-126, those that
/// begin a form of their own straight after 27, those that begin a token, and
/// the one that spoils case H's.
pub const WATCHED: [u8; 14] = [BEL, ESC, 31, 32, 47, 48, b';', b'?', 64, b'O', b'[', 126, 127, CSI];

/// Whether an intermediate came before: false and true, as indices.
const SIDES: usize = 2;

#[derive(Clone, Debug, Default, PartialEq, Eq)]
pub struct Tokens {
    /// How often a token ended so at this length.
    ended: [[[[u64; LONGEST + 1]; ENDS.len()]; SIDES]; FORMS.len()],
    /// How often a watched byte came and did not make the token too long.
    watched: [[[u64; WATCHED.len()]; SIDES]; FORMS.len()],
}

impl Tokens {
    /// The last of these bytes was added, and ended the token or left it open.
    pub fn added(&mut self, bytes: &[u8], end: Option<End>) {
        let form = form(bytes);
        let Some((last, before)) = behind_introducer(form, bytes).split_last() else { return };
        let side = side(before);
        if let Some(end) = end {
            self.ended[form][side][end as usize][bytes.len()] += 1;
        }
        if let Some(watched) = WATCHED.iter().position(|byte| byte == last) {
            self.watched[form][side][watched] += u64::from(end != Some(End::TooLong));
        }
    }

    /// A partial token of these bytes was lost.
    pub fn lost(&mut self, bytes: &[u8], end: End) {
        let form = form(bytes);
        let side = side(behind_introducer(form, bytes));
        self.ended[form][side][end as usize][bytes.len()] += 1;
    }

    pub fn add(&mut self, other: &Tokens) {
        let mut other = other.clone();
        self.counts().zip(other.counts()).for_each(|(mine, more)| *mine += *more);
    }

    fn counts(&mut self) -> impl Iterator<Item = &mut u64> {
        let ended = self.ended.as_flattened_mut().as_flattened_mut().as_flattened_mut();
        ended.iter_mut().chain(self.watched.as_flattened_mut().as_flattened_mut())
    }

    /// Each thing that can be reached, with its count.
    pub fn table(&self) -> Vec<(String, u64)> {
        let mut table = Vec::new();
        for (index, form) in FORMS.iter().enumerate() {
            for (side, behind) in [false, true].into_iter().enumerate() {
                let name = name(form, behind);
                for end in ENDS {
                    let counts = self.ended[index][side][end as usize].into_iter().enumerate();
                    let counts = counts.filter(|(length, _)| can_end(form, behind, end, *length));
                    let row = |(length, n)| (format!("{name}: {end:?}, length {length}"), n);
                    table.extend(counts.map(row));
                }
                let counts = WATCHED.into_iter().zip(self.watched[index][side]);
                let counts = counts.filter(|(byte, _)| behind || is_of(index, *byte));
                table.extend(counts.map(|(byte, n)| (format!("{name}: {byte}"), n)));
            }
        }
        table
    }

    /// The names of things that can be reached and were not.
    pub fn missing(&self) -> Vec<String> {
        super::unmet(self.table())
    }
}

fn behind_introducer(form: usize, bytes: &[u8]) -> &[u8] {
    &bytes[FORMS[form].introducer.len()..]
}

fn side(bytes: &[u8]) -> usize {
    usize::from(bytes.iter().any(|byte| INTERMEDIATES.contains(byte)))
}

fn name(form: &Form, behind: bool) -> String {
    let codes: Vec<String> = form.introducer.iter().map(u8::to_string).collect();
    format!("token {} {} 32-47", codes.join(" "), if behind { "behind" } else { "before" })
}

/// Whether a token of this form can end so at this length, behind an
/// intermediate or before any.
fn can_end(form: &Form, behind: bool, end: End, length: usize) -> bool {
    let (lengths, last) = match end {
        End::Valid | End::Invalid => (1..=LONGEST, 1),
        End::TooLong => (LONGEST..=LONGEST, 1),
        End::Dropped | End::Cleared => (1..=LONGEST - 1, 0),
    };
    // Bytes between the introducer and the one that ends it.
    let Some(between) = length.checked_sub(form.introducer.len() + last) else { return false };
    lengths.contains(&length) && if behind { between > 0 } else { between == 0 || form.parameters }
}

/// Whether the form's introducer and this byte are of the form: some bytes make
/// another form of a bare 27.
fn is_of(index: usize, byte: u8) -> bool {
    form(&[FORMS[index].introducer, &[byte]].concat()) == index
}

#[cfg(test)]
mod tests {
    use super::*;

    fn counts() -> impl Fn(&str) -> Option<u64> {
        let mut tokens = Tokens::default();
        tokens.added(&[27, 79], None);
        tokens.added(&[27, 79, 80], Some(End::Valid));
        tokens.added(&[27, 79, 32, 48], Some(End::Invalid));
        tokens.lost(&[27], End::Dropped);
        tokens.lost(&[155, 48, 32], End::Cleared);
        let table = tokens.table();
        move |name| table.iter().find(|row| row.0 == name).map(|row| row.1)
    }

    #[test]
    fn what_occurred_is_counted_for_its_form() {
        let count = counts();
        assert_eq!(count("token 27 79 before 32-47: Valid, length 3"), Some(1));
        assert_eq!(count("token 27 59 before 32-47: Valid, length 3"), Some(0));
        assert_eq!(count("token 27 79 behind 32-47: Invalid, length 4"), Some(1));
        assert_eq!(count("token 27 before 32-47: Dropped, length 1"), Some(1));
        assert_eq!(count("token 155 behind 32-47: Cleared, length 3"), Some(1));
        assert_eq!(count("token 155 before 32-47: Cleared, length 3"), Some(0));
        assert_eq!(count("token 27 79 behind 32-47: 48"), Some(1));
        assert_eq!(count("token 27 79 before 32-47: 48"), Some(0));
    }

    #[test]
    fn only_what_can_be_reached_is_asked_for() {
        let count = counts();
        assert_eq!(count("token 27 79 behind 32-47: Valid, length 16"), Some(0));
        assert_eq!(count("token 27 79 before 32-47: Valid, length 16"), None);
        assert_eq!(count("token 27 79 before 32-47: Valid, length 2"), None);
        assert_eq!(count("token 27 91 before 32-47: TooLong, length 16"), Some(0));
        assert_eq!(count("token 155 behind 32-47: Cleared, length 15"), Some(0));
        assert_eq!(count("token 155 behind 32-47: Cleared, length 16"), None);
        assert_eq!(count("token 27 behind 32-47: 79"), Some(0));
        assert_eq!(count("token 27 before 32-47: 79"), None);
    }
}
