//! Taking characters from the end of the input, and showing it again.

use super::{Answer, Line, Read};
use crate::coverage::long::{high, Thing};
use crate::coverage::Rule;
use crate::message::BUFFER;
use crate::screen::{self, CR, HT, LF, TOP};

/// What a redisplay of a long read is counted as.
type Redisplays = [Thing; 3];
pub(super) const BY_KEY: Redisplays =
    [Thing::RedisplayLongPrompt, Thing::RedisplayFull, Thing::RedisplayPassesTop];
pub(super) const BY_WRITE: Redisplays =
    [Thing::WriteRedisplaysLongPrompt, Thing::WriteRedisplaysFull, Thing::WriteRedisplaysPastTop];

impl Read {
    /// Marks and spaces in the echo of what stands from `end` on: the echo is
    /// replayed from the column where the display began, since a tab's width
    /// hangs on what is before it. Each is told with the column where it begins.
    fn marks_after(&self, end: usize, mut each: impl FnMut(u8, u16)) -> usize {
        let mut column = self.display_column;
        let mut marks = 0;
        for place in self.end_of_prompt..self.buffer.len() {
            if self.hides(place) {
                continue;
            }
            let width = screen::width(self.buffer[place], column);
            if place >= end {
                marks += usize::from(width);
                each(self.buffer[place], column);
            }
            column = (column + width).min(TOP);
        }
        marks
    }

    pub(super) fn hides(&self, place: usize) -> bool {
        self.hidden_lf && place == 0
    }

    /// The end of the input when 23 has done its work.
    pub(super) fn word_start(&self) -> usize {
        let mut end = self.buffer.len();
        while end > self.end_of_prompt && !self.buffer[end - 1].is_ascii_alphanumeric() {
            end -= 1;
        }
        while end > self.end_of_prompt && self.buffer[end - 1].is_ascii_alphanumeric() {
            end -= 1;
        }
        end
    }

    /// Whether anything can be deleted.
    pub(super) fn has_input(&self) -> bool {
        self.buffer.len() > self.end_of_prompt
    }
}

impl Line {
    /// Deletes the pending read's input back to `end`.
    pub(super) fn delete_to(&mut self, end: usize, rub_out: bool, out: &mut Answer) {
        let Some(read) = &mut self.read else { return };
        if read.buffer.len() <= end {
            return;
        }
        let (stays, removed) = read.buffer[read.end_of_prompt..].split_at(end - read.end_of_prompt);
        if rub_out && read.echo {
            let marks = read.marks_after(end, |code, column| self.seen.long.rubbed(code, column));
            let tab = removed.contains(&HT);
            let behind_text = tab && read.marks_after(read.end_of_prompt, |_, _| {}) > marks;
            self.seen.met_if(tab, Rule::RubTab);
            self.seen.met_if(behind_text, Rule::RubTabBehindText);
            self.seen.met_if(tab && read.hides(read.end_of_prompt), Rule::RubTabBehindHiddenLf);
            self.seen.met_if(!tab && stays.contains(&HT), Rule::RubBehindTab);
            let control = |code: &u8| (*code < 32 && *code != HT) || *code == 127;
            self.seen.met_if(removed.iter().any(control), Rule::RubControl);
            self.seen.met_if(marks == 0, Rule::RubNothing);
            self.seen.met_if(marks > usize::from(self.screen.column), Rule::BackspaceAtEdge);
            self.seen.long.met_if(marks > usize::from(TOP), Thing::RubMoreThanColumns);
            self.screen.rub_out(marks, &mut out.terminal);
        }
        self.seen.met_if(rub_out && !read.echo, Rule::RubNoEcho);
        self.seen.long.met_if(high(stays.len()), Thing::DeletedOfLong);
        self.seen.long.met_if(high(removed.len()), Thing::LongDeleted);
        let falls = end < read.low_water;
        self.seen.long.met_if(falls && high(end), Thing::LowWaterFallsToHigh);
        self.seen.long.met_if(falls && high(read.low_water), Thing::LowWaterFallsFromHigh);
        self.seen.met(if falls { Rule::LowWaterFalls } else { Rule::LowWaterStays });
        read.low_water = read.low_water.min(end);
        read.buffer.truncate(end);
        if end == 0 && read.hidden_lf {
            // An LF typed in its place is shown.
            self.seen.met(Rule::HiddenLfDeleted);
            read.hidden_lf = false;
        }
    }

    /// Shows the prompt and the input again on a new line, as 18 does.
    pub(super) fn redisplay(&mut self, out: &mut Answer) {
        self.screen.send_all(&[CR, LF], &mut out.terminal);
        self.show_prompt(out);
        self.show_input(out);
    }

    /// Counts a redisplay of a long read.
    pub(super) fn note_long_redisplay(&mut self, things: Redisplays) {
        let Some(read) = &self.read else { return };
        let [prompt, full, past] = things;
        let length = read.buffer.len();
        self.seen.long.met_if(high(read.end_of_prompt), prompt);
        // A pending read has room for one character at least.
        self.seen.long.met_if(read.echo && length + 1 == usize::from(BUFFER), full);
        self.seen.long.met_if(high(length) && self.screen.column == TOP, past);
    }

    /// Sends the prompt as it is and notes where the data's display begins.
    pub(super) fn show_prompt(&mut self, out: &mut Answer) {
        let Some(read) = &mut self.read else { return };
        for place in 0..read.end_of_prompt {
            if !read.hides(place) {
                self.screen.send(read.buffer[place], &mut out.terminal);
            }
        }
        read.display_column = self.screen.column;
    }

    /// Echoes what follows the prompt, if the read echoes.
    pub(super) fn show_input(&mut self, out: &mut Answer) {
        let Some(read) = &self.read else { return };
        if !read.echo {
            return;
        }
        for place in read.end_of_prompt..read.buffer.len() {
            if !read.hides(place) {
                self.screen.echo(read.buffer[place], &mut out.terminal);
            }
        }
    }
}
