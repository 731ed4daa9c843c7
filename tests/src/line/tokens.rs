//! Escape sequences, gathered byte by byte into tokens.

use super::reads::{ABSENTEE, INVALID_TOKEN, VALID_TOKEN};
use super::{Answer, Line, Token};
use crate::coverage::Rule;
use std::ops::RangeInclusive;

pub const ESC: u8 = 27;
pub const CSI: u8 = 155;
/// No token is longer.
pub const LONGEST: usize = 16;

pub const PARAMETERS: RangeInclusive<u8> = 48..=63;
pub const INTERMEDIATES: RangeInclusive<u8> = 32..=47;
const FINALS_FROM_48: RangeInclusive<u8> = 48..=126;
const FINALS_FROM_64: RangeInclusive<u8> = 64..=126;

/// What a token looks like: the introducer, any number of parameters if the
/// form has them, any number of intermediates, one final.
pub struct Form {
    pub introducer: &'static [u8],
    pub parameters: bool,
    pub finals: RangeInclusive<u8>,
}

/// The forms of page 01 and M-101 (003 has them in 5.2.1.4). A token is of the
/// first whose introducer begins it, so the bare 27 stands last.
pub const FORMS: [Form; 6] = [
    Form { introducer: &[ESC, b';'], parameters: false, finals: FINALS_FROM_48 },
    Form { introducer: &[ESC, b'?'], parameters: false, finals: FINALS_FROM_48 },
    Form { introducer: &[ESC, b'O'], parameters: false, finals: FINALS_FROM_64 },
    Form { introducer: &[ESC, b'['], parameters: true, finals: FINALS_FROM_64 },
    Form { introducer: &[CSI], parameters: true, finals: FINALS_FROM_64 },
    Form { introducer: &[ESC], parameters: false, finals: FINALS_FROM_48 },
];

/// The form that the bytes are of, by its index in `FORMS`.
pub fn form(bytes: &[u8]) -> usize {
    let index = FORMS.iter().position(|form| bytes.starts_with(form.introducer));
    index.expect("a token begins with 27 or 155")
}

/// How a token ends.
#[derive(Clone, Copy, Debug, PartialEq, Eq)]
pub enum End {
    Valid,
    /// By a byte that the form does not have there.
    Invalid,
    /// Invalid too: no room for more, and still no final.
    TooLong,
    /// Partial, at a completion that was not by a token.
    Dropped,
    /// Partial, by the clear rule.
    Cleared,
}

/// How the last byte ends a token, whose bytes before it do not.
fn end(bytes: &[u8]) -> Option<End> {
    let form = &FORMS[form(bytes)];
    let (last, before) = bytes[form.introducer.len()..].split_last()?;
    let parameters = form.parameters && !before.iter().any(|byte| INTERMEDIATES.contains(byte));
    if form.finals.contains(last) {
        Some(End::Valid)
    } else if !(INTERMEDIATES.contains(last) || parameters && PARAMETERS.contains(last)) {
        Some(End::Invalid)
    } else {
        (bytes.len() == LONGEST).then_some(End::TooLong)
    }
}

impl Line {
    pub(super) fn begin_token(&mut self, code: u8) {
        self.seen.met(if code == ESC { Rule::StepBegin27 } else { Rule::StepBegin155 });
        self.partial.push(code);
    }

    /// Adds a byte to the partial token; a token that is finished by it is
    /// treated as held in the same step.
    pub(super) fn add_to_token(&mut self, code: u8, out: &mut Answer) {
        self.partial.push(code);
        let end = end(&self.partial);
        self.seen.tokens.added(&self.partial, end);
        let Some(end) = end else { return };
        let valid = end == End::Valid;
        let sixteenth = self.partial.len() == LONGEST;
        self.seen.met(if valid { Rule::TokenValid } else { Rule::TokenInvalid });
        self.seen.met_if(sixteenth && valid, Rule::TokenSixteenthFinal);
        self.seen.met_if(sixteenth && !valid, Rule::TokenSixteenthInvalid);
        let bytes = std::mem::take(&mut self.partial);
        let fits = self.offer(Token { bytes, valid }, out);
        self.seen.met(if fits { Rule::TokenFits } else { Rule::TokenAbsentee });
    }

    /// A partial token, if there is one, is lost.
    pub(super) fn lose_partial(&mut self, end: End) {
        if self.partial.is_empty() {
            return;
        }
        self.seen.tokens.lost(&self.partial, end);
        self.partial.clear();
    }

    /// Offers a whole token to the pending read: it is appended and completes
    /// the read, or the read completes absentee and the token stays held.
    pub(super) fn offer(&mut self, token: Token, out: &mut Answer) -> bool {
        let Some(read) = &mut self.read else { return false };
        let end = read.buffer.len() + token.bytes.len();
        if end > read.max_length {
            self.held = Some(token);
            self.complete(ABSENTEE, 0, out);
            return false;
        }
        self.seen.met_if(end == read.max_length, Rule::TokenFills);
        read.buffer.extend(&token.bytes);
        let code = if token.valid { VALID_TOKEN } else { INVALID_TOKEN };
        self.complete(code, token.bytes.len(), out);
        true
    }
}

#[cfg(test)]
mod tests {
    use super::*;

    fn at_last(bytes: &[u8]) -> Option<End> {
        for length in 2..bytes.len() {
            assert_eq!(end(&bytes[..length]), None, "{bytes:?} ends early at {length}");
        }
        end(bytes)
    }

    #[test]
    fn shapes() {
        assert_eq!(at_last(&[27, 91, 65]), Some(End::Valid));
        assert_eq!(at_last(&[27, 91, 48, 63, 32, 47, 126]), Some(End::Valid));
        assert_eq!(at_last(&[27, 91, 32, 48]), Some(End::Invalid));
        assert_eq!(at_last(&[27, 91, 127]), Some(End::Invalid));
        assert_eq!(at_last(&[155, 91]), Some(End::Valid));
        assert_eq!(at_last(&[155, 59]), None);
        assert_eq!(at_last(&[155, 27]), Some(End::Invalid));
        assert_eq!(at_last(&[27, 32, 91]), Some(End::Valid));
        assert_eq!(at_last(&[27, 48]), Some(End::Valid));
        assert_eq!(at_last(&[27, 32, 48]), Some(End::Valid));
        assert_eq!(at_last(&[27, 27]), Some(End::Invalid));
        assert_eq!(at_last(&[27, 155]), Some(End::Invalid));
        assert_eq!(at_last(&[27, 91, 91]), Some(End::Valid));
    }

    #[test]
    fn shapes_after_59_63_and_79() {
        for introducer in [[27, 59], [27, 63], [27, 79]] {
            assert_eq!(at_last(&introducer), None);
        }
        assert_eq!(at_last(&[27, 79, 80]), Some(End::Valid));
        assert_eq!(at_last(&[27, 63, 65]), Some(End::Valid));
        assert_eq!(at_last(&[27, 59, 59]), Some(End::Valid));
        assert_eq!(at_last(&[27, 63, 79]), Some(End::Valid));
        assert_eq!(at_last(&[27, 79, 48]), Some(End::Invalid));
        assert_eq!(at_last(&[27, 59, 48]), Some(End::Valid));
        assert_eq!(at_last(&[27, 79, 91]), Some(End::Valid));
        assert_eq!(at_last(&[27, 59, 91]), Some(End::Valid));
        assert_eq!(at_last(&[27, 63, 32, 47, 48]), Some(End::Valid));
        assert_eq!(at_last(&[27, 79, 32, 47, 63]), Some(End::Invalid));
        assert_eq!(at_last(&[27, 79, 32, 47, 64]), Some(End::Valid));
        assert_eq!(at_last(&[27, 59, 32, 127]), Some(End::Invalid));
    }

    #[test]
    fn shapes_with_79_elsewhere() {
        assert_eq!(at_last(&[27, 32, 79]), Some(End::Valid));
        assert_eq!(at_last(&[155, 79]), Some(End::Valid));
        assert_eq!(at_last(&[27, 91, 79]), Some(End::Valid));
    }

    #[test]
    fn the_sixteenth_byte() {
        for form in &FORMS {
            let mut bytes = form.introducer.to_vec();
            bytes.resize(LONGEST, *INTERMEDIATES.start());
            assert_eq!(at_last(&bytes), Some(End::TooLong));
            bytes[LONGEST - 1] = *form.finals.start();
            assert_eq!(at_last(&bytes), Some(End::Valid));
        }
    }
}
