//! Raising: small letters become capitals, the accented ones of ISO 8859-1 too
//! (M-108).

use super::arrival::OUT_OF_BAND;
use super::steps::DELETE_WORD_KEY;
use super::Line;
use crate::coverage::Rule;
use crate::message::StartRead;
use std::ops::RangeInclusive;

/// Where small accents stand in ISO 8859-1, and one sign among them. 223 and
/// 255 are small letters too, but it has no capitals of them.
pub const SMALL_ACCENT_RANGE: RangeInclusive<u8> = 224..=254;
const DIVISION_SIGN: u8 = 247;
/// A small letter is so much above its capital.
const CASE: u8 = 32;

pub(super) fn is_small_accent(code: u8) -> bool {
    SMALL_ACCENT_RANGE.contains(&code) && code != DIVISION_SIGN
}

/// The raised form of a code. Those that have no other keep their own.
pub(super) fn raised(code: u8) -> u8 {
    if code.is_ascii_lowercase() || is_small_accent(code) {
        code - CASE
    } else {
        code
    }
}

/// Printing marks above ASCII: no word has one.
const HIGH_MARKS: RangeInclusive<u8> = 161..=254;

/// What is counted; no rule looks at it.
impl Line {
    /// A key that is neither quoted nor of a token is taken: as typed, as raising left
    /// it, and whether it ends the read.
    pub(super) fn note_raising(&mut self, typed: u8, code: u8, ends: bool) {
        let Some(read) = &self.read else { return };
        let changed = code != typed;
        self.seen.raising.taken(read.raise, ends, typed);
        self.seen.met_if(changed, Rule::StepRaised);
        self.seen.met_if(changed && ends, Rule::StepRaisedTerminator);
        if !is_small_accent(typed) {
            return;
        }
        self.seen.met(match (changed, ends) {
            (true, true) => Rule::AccentRaisedTerminator,
            (true, false) if read.echo => Rule::AccentRaisedEchoed,
            (true, false) => Rule::AccentRaisedSilent,
            (false, true) => Rule::PlainAccentTerminator,
            (false, false) => Rule::PlainAccentData,
        });
        match (read.ends_at(typed), read.ends_at(raised(typed)), changed) {
            (true, false, true) => self.seen.met(Rule::AccentRaisedOutOfSet),
            (false, true, true) => self.seen.met(Rule::AccentRaisedIntoSet),
            (true, false, false) => self.seen.met(Rule::PlainAccentAloneInSet),
            (false, true, false) => self.seen.met(Rule::PlainAccentCapitalInSet),
            _ => {}
        }
        let out_of_band = self.attributes[usize::from(code)] & OUT_OF_BAND != 0;
        self.seen.met_if(out_of_band && changed, Rule::AccentRaisedToOutOfBand);
    }

    /// An editing key deletes to `end`.
    pub(super) fn note_deleted(&mut self, code: u8, end: usize) {
        let Some(read) = &self.read else { return };
        if code != DELETE_WORD_KEY {
            return;
        }
        let (stays, goes) = read.buffer[read.end_of_prompt..].split_at(end - read.end_of_prompt);
        let high = |code: &u8| HIGH_MARKS.contains(code);
        let word = goes.first().is_some_and(u8::is_ascii_alphanumeric);
        self.seen.met_if(word && goes.iter().any(high), Rule::HighBehindWord);
        self.seen.met_if(stays.last().is_some_and(high), Rule::WordStopsAtHigh);
    }

    /// A read starts with this text.
    pub(super) fn note_preloaded(&mut self, asked: &StartRead, raises: bool) {
        let (prompt, rest) = asked.data.split_at(usize::from(asked.end_of_prompt));
        let accents = |text: &[u8]| raises && text.iter().copied().any(is_small_accent);
        self.seen.met_if(accents(prompt), Rule::AccentInPrompt);
        self.seen.met_if(accents(rest), Rule::AccentPreloaded);
    }
}
