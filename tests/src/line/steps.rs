//! One step and one tick.

use super::deleting::BY_KEY;
use super::raising::{is_small_accent, raised};
use super::reads::{BUFFER_FULL, TERMINATOR, TIMEOUT, UNDERFLOW};
use super::tokens::{CSI, ESC};
use super::{Answer, Key, Line};
use crate::coverage::Rule;
use crate::screen::{BEL, CR, HT, LF};

pub const DELETE_KEY: u8 = 127;
pub const DELETE_WORD_KEY: u8 = 23;
pub const DELETE_LINE_KEY: u8 = 21;
pub const REDISPLAY_KEY: u8 = 18;

/// What a step did, or why there was none.
#[derive(Clone, Copy, Debug, PartialEq, Eq)]
pub enum Stepped {
    NoRead,
    /// A read is pending, on a locked line.
    Locked,
    /// There is nothing to take.
    Nothing,
    /// Took a key, and the read goes on.
    Key,
    KeyCompletes,
    TokenFits,
    TokenAbsentee,
    Timeout,
}

impl Line {
    /// One step, if a read is pending and the line is not locked.
    pub(super) fn take_step(&mut self, out: &mut Answer) -> Stepped {
        let Some(read) = &self.read else { return Stepped::NoRead };
        if self.locked {
            return Stepped::Locked;
        }
        if let Some(token) = self.held.take() {
            self.seen.met_if(!read.escapes, Rule::StepHeldUnrecognised);
            let fits = self.offer(token, out);
            self.seen.met(if fits { Rule::StepHeldFits } else { Rule::StepHeldAbsentee });
            return if fits { Stepped::TokenFits } else { Stepped::TokenAbsentee };
        }
        let at_once = read.timeout == Some(0);
        match self.type_ahead.pop_front() {
            Some(key) => {
                self.take_key(key, out);
                if self.read.is_some() {
                    Stepped::Key
                } else {
                    Stepped::KeyCompletes
                }
            }
            None if at_once => {
                self.seen.met(Rule::StepTimeoutZero);
                self.complete(TIMEOUT, 0, out);
                Stepped::Timeout
            }
            None => {
                self.seen.met(Rule::StepEmpty);
                Stepped::Nothing
            }
        }
    }

    /// Counts a bare step that may not act, by what it would have done.
    pub(super) fn note_step_held_back(&mut self) {
        if self.may_step() {
            return;
        }
        let Some(read) = &self.read else {
            self.seen.met_if(self.locked, Rule::LockedStepNoRead);
            return self.seen.met(Rule::StepNoRead);
        };
        let partial = !self.partial.is_empty();
        self.seen.met(match self.type_ahead.is_empty() {
            _ if self.held.is_some() => Rule::LockedStepHeld,
            false if partial => Rule::LockedStepPartial,
            false => Rule::LockedStepKey,
            true if read.timeout == Some(0) => Rule::LockedStepTimeoutZero,
            true => Rule::LockedStepEmpty,
        });
    }

    /// The seven step rules.
    fn take_key(&mut self, key: Key, out: &mut Answer) {
        self.idle = 0;
        let Some(read) = &self.read else { return };
        let accent = read.raise && is_small_accent(key.code);
        if !self.partial.is_empty() {
            self.seen.met(Rule::StepPartial);
            self.seen.met_if(key.quoted, Rule::StepQuotedInToken);
            self.seen.met_if(accent, Rule::AccentInToken);
            return self.add_to_token(key.code, out);
        }
        if key.quoted {
            self.seen.met(Rule::StepQuoted);
            self.seen.met_if(accent, Rule::AccentQuoted);
            return self.data(key.code, true, out);
        }
        if key.code == ESC || key.code == CSI {
            if read.escapes {
                return self.begin_token(key.code);
            }
            self.seen.met(Rule::StepEscapeOff);
        }
        let code = if read.raise { raised(key.code) } else { key.code };
        let ends = read.ends_at(code);
        self.note_raising(key.code, code, ends);
        if ends {
            self.terminator(code, out);
        } else if self.edits(code) {
            self.edit(code, out);
        } else {
            self.data(code, false, out);
        }
    }

    fn terminator(&mut self, code: u8, out: &mut Answer) {
        let Some(read) = &mut self.read else { return };
        read.buffer.push(code);
        self.seen.met(Rule::StepTerminator);
        self.seen.met_if(read.buffer.len() == read.max_length, Rule::StepTerminatorFills);
        let edit = matches!(code, DELETE_KEY | DELETE_WORD_KEY | DELETE_LINE_KEY | REDISPLAY_KEY);
        self.seen.met_if(edit, Rule::EditInSet);
        match (read.echo_terminator, read.echo) {
            (true, true) if code == CR => {
                self.seen.met(Rule::TerminatorCrLf);
                self.screen.send_all(&[CR, LF], &mut out.terminal);
            }
            (true, true) => {
                self.seen.met(Rule::TerminatorEchoed);
                self.screen.echo(code, &mut out.terminal);
            }
            (true, false) => self.seen.met(Rule::TerminatorNoEcho),
            (false, _) => self.seen.met(Rule::TerminatorSilent),
        }
        self.complete(TERMINATOR, 1, out);
    }

    /// Whether the code edits in this read.
    fn edits(&mut self, code: u8) -> bool {
        let disable = self.read.as_ref().map_or(0, |read| read.disable);
        let edits = match code {
            DELETE_KEY | DELETE_WORD_KEY => disable < 2,
            DELETE_LINE_KEY | REDISPLAY_KEY => disable == 0,
            _ => return false,
        };
        self.seen.met_if(!edits && disable == 1, Rule::EditOffDdd1);
        self.seen.met_if(!edits && disable == 2, Rule::EditOffDdd2);
        self.seen.met_if(!edits && disable == 3, Rule::EditOffDdd3);
        edits
    }

    fn edit(&mut self, code: u8, out: &mut Answer) {
        let Some(read) = &self.read else { return };
        let some = read.has_input();
        let end = match code {
            REDISPLAY_KEY => {
                self.seen.met(if read.echo { Rule::Redisplay } else { Rule::RedisplayNoEcho });
                self.seen.met_if(read.hidden_lf, Rule::HiddenLfRedisplayed);
                self.redisplay(out);
                return self.note_long_redisplay(BY_KEY);
            }
            DELETE_LINE_KEY => read.end_of_prompt,
            DELETE_WORD_KEY => read.word_start(),
            _ => read.buffer.len().saturating_sub(1),
        };
        match (code, some) {
            (DELETE_LINE_KEY, false) => self.seen.met(Rule::LineNothing),
            (_, false) => self.underflow(code, out),
            (_, true) => {
                self.seen.met(match code {
                    DELETE_KEY => Rule::DeleteSome,
                    DELETE_WORD_KEY => Rule::WordSome,
                    _ => Rule::LineSome,
                });
                self.note_deleted(code, end);
                self.delete_to(end, true, out);
            }
        }
    }

    /// 127 or 23 with nothing to delete.
    fn underflow(&mut self, code: u8, out: &mut Answer) {
        let Some(read) = &mut self.read else { return };
        self.seen.met(match (read.underflow, code) {
            (0, DELETE_KEY) => Rule::DeleteNothing,
            (1, DELETE_KEY) => Rule::DeleteBell,
            (_, DELETE_KEY) => Rule::DeleteUnderflow,
            (0, _) => Rule::WordNothing,
            (1, _) => Rule::WordBell,
            (_, _) => Rule::WordUnderflow,
        });
        match read.underflow {
            0 => {}
            1 => self.screen.send(BEL, &mut out.terminal),
            _ => {
                read.buffer.push(code);
                self.seen.met_if(read.buffer.len() == read.max_length, Rule::UnderflowFills);
                self.complete(UNDERFLOW, 1, out);
            }
        }
    }

    fn data(&mut self, code: u8, quoted: bool, out: &mut Answer) {
        let Some(read) = &mut self.read else { return };
        read.buffer.push(code);
        let full = read.buffer.len() == read.max_length;
        if read.echo {
            self.seen.met(match code {
                HT => Rule::EchoTab,
                0..=31 | 127 => Rule::EchoControl,
                32..=126 => Rule::DataEchoed,
                160..=254 => Rule::EchoHigh,
                _ => Rule::EchoNothing,
            });
            self.seen.long.echoed(code, self.screen.column);
            self.screen.echo(code, &mut out.terminal);
        } else {
            self.seen.met(Rule::DataSilent);
        }
        if full {
            self.seen.met(if quoted { Rule::QuotedFull } else { Rule::DataFull });
            self.complete(BUFFER_FULL, 0, out);
        }
    }

    pub(super) fn take_tick(&mut self, out: &mut Answer) {
        let timeout = self.read.as_ref().and_then(|read| read.timeout);
        let timeout = match timeout {
            Some(timeout) if timeout > 0 => u32::from(timeout),
            _ => return self.seen.met(Rule::TickNothing),
        };
        if !self.type_ahead.is_empty() {
            self.seen.met_if(self.locked, Rule::LockedTickWaiting);
            return self.seen.met(Rule::TickWaiting);
        }
        if self.held.is_some() {
            self.seen.met_if(self.locked, Rule::LockedTickHeld);
            return self.seen.met(Rule::TickHeld);
        }
        self.seen.met(Rule::TickIdle);
        self.seen.met_if(self.locked, Rule::LockedTickIdle);
        self.seen.met_if(!self.partial.is_empty(), Rule::TickIdlePartial);
        self.idle += 1;
        if self.idle >= timeout {
            self.seen.met(Rule::TickTimeout);
            self.seen.met_if(self.locked, Rule::LockedTickTimeout);
            self.complete(TIMEOUT, 0, out);
        }
    }
}
