//! A Write: its output, what it tells of that, its lock, its redisplay (M-103).

use super::deleting::BY_WRITE;
use super::{Answer, Line};
use crate::coverage::writes::Found;
use crate::coverage::Rule;
use crate::message::{
    Message, Write, CHARACTER, LOCK, NEW_LINES, NO_AFFIX, REDISPLAY_AFTER, UNLOCK,
};
use crate::screen::{CR, LF};

impl Line {
    pub(super) fn write(&mut self, write: &Write, out: &mut Answer) {
        if write.keep {
            self.seen.met_if(self.discard, Rule::WriteEndsDiscard);
            self.discard = false;
        }
        self.note_write(write);
        let (column, line) = (self.screen.column, self.screen.line);
        let own = own_bytes(write);
        let lost = self.discard && (!own.is_empty() || write.newline);
        if !self.discard {
            self.send_write(&own, write.newline, out);
        }
        if write.status {
            self.note_completion(write, lost);
            let horizontal = self.screen.column.wrapping_sub(column) & 255;
            let vertical = u16::from(self.screen.line.wrapping_sub(line));
            self.send(Message::WriteCompletion { lost, horizontal, vertical }, out);
        }
        self.locked = write.lock == LOCK;
        if write.lock == REDISPLAY_AFTER {
            self.redisplay_after(write.status, out);
        }
    }

    /// Sends a Write's own bytes and L's LF. The mark looks at the first of its
    /// own; L's LF is never left out.
    fn send_write(&mut self, own: &[u8], newline: bool, out: &mut Answer) {
        let mut sent = own;
        if let (true, [LF, behind @ ..]) = (self.skip_linefeed, own) {
            self.note_left_out(behind);
            sent = behind;
        }
        self.screen.send_all(sent, &mut out.terminal);
        if !own.is_empty() {
            self.seen.met_if(self.skip_linefeed, Rule::MarkFalls);
            self.skip_linefeed = false;
        }
        self.seen.met_if(self.skip_linefeed && !newline, Rule::MarkStaysEmpty);
        if newline {
            self.seen.met(if self.skip_linefeed { Rule::MarkSetAgain } else { Rule::MarkSet });
            self.screen.send(LF, &mut out.terminal);
            self.skip_linefeed = true;
        }
    }

    /// A pending read is shown again, whatever its DDD and its echo.
    fn redisplay_after(&mut self, completion: bool, out: &mut Answer) {
        let Some(read) = &self.read else {
            return self.seen.met(Rule::WriteRedisplaysNothing);
        };
        self.seen.met(match (read.echo, read.has_input()) {
            (true, true) => Rule::WriteRedisplays,
            (true, false) => Rule::WriteRedisplaysPrompt,
            (false, true) => Rule::WriteRedisplaysNoEcho,
            (false, false) => Rule::WriteRedisplaysNoEchoPrompt,
        });
        self.seen.met_if(read.disable == 1, Rule::WriteRedisplaysDdd1);
        self.seen.met_if(read.disable == 2, Rule::WriteRedisplaysDdd2);
        self.seen.met_if(read.disable == 3, Rule::WriteRedisplaysDdd3);
        self.seen.met_if(read.hidden_lf, Rule::WriteRedisplaysHiddenLf);
        self.seen.met_if(self.discard, Rule::WriteRedisplaysDiscarded);
        self.seen.met_if(completion, Rule::WriteRedisplaysBehindCompletion);
        self.seen.met_if(self.idle > 0, Rule::WriteRedisplaysIdle);
        self.seen.met_if(!self.partial.is_empty(), Rule::WriteRedisplaysPartial);
        let column = read.display_column;
        self.redisplay(out);
        self.note_long_redisplay(BY_WRITE);
        let moved = self.read.as_ref().is_some_and(|read| read.display_column != column);
        self.seen.met_if(moved, Rule::WriteRedisplaysElsewhere);
    }

    /// Counts what a Write asks for and finds.
    fn note_write(&mut self, write: &Write) {
        let found = Found {
            echo: self.read.as_ref().map(|read| read.echo),
            discard: self.discard,
            locked: self.locked,
            skip_linefeed: self.skip_linefeed,
        };
        self.seen.writes.note(write, &found);
        let carries =
            !write.data.is_empty() || write.prefix != NO_AFFIX || write.postfix != NO_AFFIX;
        let some = carries || write.newline;
        self.seen.met(match (some, self.discard) {
            (false, _) => Rule::WriteEmpty,
            (true, false) => Rule::WriteSent,
            (true, true) => Rule::WriteDiscarded,
        });
        let stays = self.discard && self.skip_linefeed && carries;
        self.seen.met_if(stays, Rule::MarkStaysDiscarded);
        self.seen.met_if(self.discard && write.newline, Rule::MarkNotSetDiscarded);
        self.seen.met_if(!write.first && write.lock != UNLOCK, Rule::LockInLaterPart);
        self.seen.met_if(!write.last && write.newline, Rule::NewlineInEarlierPart);
    }

    fn note_completion(&mut self, write: &Write, lost: bool) {
        self.seen.met(if lost { Rule::WriteLost } else { Rule::WriteNotLost });
        self.seen.met_if(self.discard && !lost, Rule::WriteNothingToLose);
        if !lost || !write.data.is_empty() {
            return;
        }
        match (write.prefix != NO_AFFIX, write.postfix != NO_AFFIX, write.newline) {
            (true, false, false) => self.seen.met(Rule::LostByPrefixAlone),
            (false, true, false) => self.seen.met(Rule::LostByPostfixAlone),
            (false, false, true) => self.seen.met(Rule::LostByNewlineAlone),
            _ => {}
        }
    }

    /// Counts an LF left out; the mark was set by an LF, so another last byte
    /// came from elsewhere since.
    fn note_left_out(&mut self, behind: &[u8]) {
        self.seen.met(Rule::LfLeftOut);
        self.seen.met_if(behind.is_empty(), Rule::LfLeftOutAlone);
        self.seen.met_if(behind.first() == Some(&LF), Rule::LfBehindLeftOutSent);
        self.seen.met_if(self.screen.last != Some(LF), Rule::LfLeftOutBehindOthers);
        self.seen.met_if(self.screen.last == Some(CR), Rule::LfLeftOutBehindCr);
    }
}

/// Prefix, DATA and postfix.
fn own_bytes(write: &Write) -> Vec<u8> {
    let mut bytes = affix(write.prefix, write.prefix_value);
    bytes.extend(&write.data);
    bytes.extend(affix(write.postfix, write.postfix_value));
    bytes
}

/// What a prefix or postfix is.
fn affix(code: u8, value: u8) -> Vec<u8> {
    match code {
        NEW_LINES => {
            let mut bytes = vec![LF; 1 + usize::from(value)];
            bytes[0] = CR;
            bytes
        }
        CHARACTER => vec![value],
        _ => Vec::new(),
    }
}
