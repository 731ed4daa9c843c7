//! A read starts, and a read completes.

use super::tokens::End;
use super::{Answer, Line, Read};
use crate::coverage::long::{high, Thing};
use crate::coverage::Rule;
use crate::message::{Message, ReadData, StartRead};
use crate::screen::{CR, LF, TOP};

/// Completion codes of 000, 4.16.4.
pub const TERMINATOR: u8 = 0;
pub const VALID_TOKEN: u8 = 1;
pub const INVALID_TOKEN: u8 = 2;
pub const OUT_OF_BAND: u8 = 3;
pub const BUFFER_FULL: u8 = 4;
pub const TIMEOUT: u8 = 5;
pub const UNREAD: u8 = 6;
pub const UNDERFLOW: u8 = 7;
pub const ABSENTEE: u8 = 8;

/// What auto prompt writes before the prompt.
const PROMPT_MARK: u8 = 1;

/// Codes 0 to 31 except 8, 9, 18, 21 and 23.
fn universal_set() -> [u8; 32] {
    let mut set = [0; 32];
    set[..4].fill(255);
    for code in [8, 9, 18, 21, 23] {
        set[code / 8] &= !(1 << (code % 8));
    }
    set
}

impl Read {
    /// Whether the code is in the read's set.
    pub(super) fn ends_at(&self, code: u8) -> bool {
        self.set[usize::from(code / 8)] >> (code % 8) & 1 == 1
    }
}

impl Line {
    pub(super) fn start_read(&mut self, asked: StartRead, out: &mut Answer) {
        let read = self.fixed(&asked);
        let full = read.buffer.len() == read.max_length;
        let largest = asked.max_length == self.largest_read;
        self.seen.met_if(largest && self.limited(), Rule::LargestReadMet);
        self.seen.met_if(asked.timed && self.idle > 0, Rule::ReadEndsIdle);
        self.idle = 0;
        if asked.clear {
            self.seen.met(Rule::ReadClears);
            self.seen.met_if(self.held.is_some(), Rule::ReadClearsHeld);
            self.type_ahead.clear();
            self.held = None;
        }
        if asked.formatting {
            let after_cr = self.screen.last == Some(CR);
            self.seen.met(if after_cr { Rule::FormattingLf } else { Rule::FormattingNoLf });
            if after_cr {
                self.screen.send(LF, &mut out.terminal);
            }
        }
        if self.auto_prompt {
            self.seen.met(Rule::AutoPrompt);
            self.screen.send(PROMPT_MARK, &mut out.terminal);
        }
        self.read = Some(read);
        self.show_prompt(out);
        self.show_input(out);
        self.note_long();
        if full {
            self.seen.met(Rule::ReadFullAtOnce);
            self.seen.met_if(self.locked, Rule::LockedReadFullAtOnce);
            self.complete(BUFFER_FULL, 0, out);
        } else {
            self.seen.met(Rule::ReadPending);
            self.seen.met_if(self.locked, Rule::LockedReadPending);
        }
    }

    /// The read with everything that holds for the whole of it; the note of
    /// column and line is taken here, before anything is written.
    fn fixed(&mut self, asked: &StartRead) -> Read {
        let raise = asked.raise == 2 || asked.raise == 0 && self.raise;
        let escapes = asked.escapes == 2 || asked.escapes == 0 && self.escapes;
        let hidden_lf = asked.formatting && asked.data.first() == Some(&LF);
        self.note_preloaded(asked, raise);
        self.seen.met_if(raise, Rule::RaiseOn);
        self.seen.met_if(escapes, Rule::EscapesOn);
        self.seen.met_if(asked.no_echo, Rule::NoEcho);
        self.seen.met_if(!asked.no_echo && !self.normal_echo, Rule::EchoOffByCharacteristic);
        self.seen.met_if(hidden_lf && asked.end_of_prompt > 0, Rule::HiddenLfInPrompt);
        self.seen.met_if(hidden_lf && asked.end_of_prompt == 0, Rule::HiddenLfInData);
        Read {
            end_of_prompt: usize::from(asked.end_of_prompt),
            max_length: usize::from(asked.max_length),
            low_water: usize::from(asked.low_water),
            underflow: asked.underflow,
            disable: asked.disable,
            raise,
            escapes,
            echo: !asked.no_echo && self.normal_echo,
            echo_terminator: asked.echo_terminator,
            timeout: asked.timed.then_some(asked.timeout),
            set: self.chosen_set(asked),
            hidden_lf,
            display_column: self.screen.column,
            note_column: self.screen.column,
            note_line: self.screen.line,
            began_empty: asked.end_of_data == 0,
            buffer: asked.data.clone(),
        }
    }

    /// Counts what a long read that has been displayed shows.
    fn note_long(&mut self) {
        let Some(read) = &self.read else { return };
        let prompt = high(read.end_of_prompt);
        let text = high(read.buffer.len() - read.end_of_prompt);
        let [before, behind, now] = [read.note_column, read.display_column, self.screen.column];
        let passes = |from, to| from < TOP && to == TOP;
        self.seen.long.met_if(prompt, Thing::LongPrompt);
        self.seen.long.met_if(text && read.echo, Thing::LongText);
        self.seen.long.met_if((prompt || text) && read.hidden_lf, Thing::LongHiddenLf);
        self.seen.long.met_if(prompt && passes(before, behind), Thing::PromptPassesTop);
        self.seen.long.met_if(text && passes(behind, now), Thing::TextPassesTop);
    }

    fn chosen_set(&mut self, asked: &StartRead) -> [u8; 32] {
        match asked.which_set {
            1 => {
                let mut set = [0; 32];
                set[..asked.set.len()].copy_from_slice(&asked.set);
                self.last_set = Some(set);
                self.loaded.set = false;
                self.seen.met(Rule::SetGiven);
                set
            }
            2 => {
                self.seen.met(Rule::SetUniversal);
                universal_set()
            }
            _ => {
                let given = self.last_set.is_some();
                self.seen.met(if given { Rule::SetLast } else { Rule::SetLastNone });
                self.seen.met_if(self.loaded.set, Rule::SetLoaded);
                self.last_set.unwrap_or_else(universal_set)
            }
        }
    }

    /// Completes the pending read. `tail` is the length of the terminator,
    /// token or underflow code at the end of the buffer.
    pub(super) fn complete(&mut self, code: u8, tail: usize, out: &mut Answer) {
        let Some(read) = self.read.take() else { return };
        self.seen.codes[usize::from(code)] += 1;
        self.seen.met_if(!self.partial.is_empty(), Rule::PartialDropped);
        self.lose_partial(End::Dropped);
        let data = read.buffer[read.end_of_prompt..].to_vec();
        let data = ReadData {
            code,
            more: !self.type_ahead.is_empty() || self.held.is_some(),
            low_water: read.low_water as u16,
            vertical: self.screen.line.wrapping_sub(read.note_line),
            horizontal: self.screen.column.wrapping_sub(read.note_column) as u8,
            terminator: (data.len() - tail) as u16,
            data,
        };
        self.seen.long.returned(&data, read.began_empty);
        self.send(Message::ReadData(data), out);
    }
}
