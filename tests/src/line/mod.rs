//! One line of the console end and its calls.

pub mod arrival;
mod deleting;
mod host;
mod loading;
pub mod raising;
pub(crate) mod reads;
pub mod steps;
pub mod tokens;
mod writes;

use crate::coverage::steps::StepKind;
use crate::coverage::{Coverage, Rule};
use crate::message::{self, Message, BUFFER};
use crate::screen::{Screen, TOP};
use loading::Loaded;
use std::collections::VecDeque;

pub const TYPE_AHEAD: usize = 64;
pub const TERMINAL_AREA: usize = 32_768;
pub const MESSAGE_AREA: usize = 2_048;
/// In the message area each message stands behind its length.
pub const LENGTH: usize = 2;

/// The lengths of the two areas lent to a call.
#[derive(Clone, Copy, Debug, PartialEq, Eq)]
pub struct Areas {
    pub terminal: usize,
    pub message: usize,
}

impl Default for Areas {
    fn default() -> Self {
        Areas { terminal: TERMINAL_AREA, message: MESSAGE_AREA }
    }
}

/// What a call answers.
#[derive(Clone, Debug, Default, PartialEq, Eq)]
pub struct Answer {
    pub number: u8,
    pub terminal: Vec<u8>,
    pub messages: Vec<Vec<u8>>,
}

impl Answer {
    fn refusal(number: u8) -> Self {
        Answer { number, ..Answer::default() }
    }

    /// The front of the message area: each message behind its length.
    pub fn message_area(&self) -> Vec<u8> {
        let mut area = Vec::new();
        for message in &self.messages {
            area.extend((message.len() as u16).to_le_bytes());
            area.extend(message);
        }
        area
    }
}

/// 0, or the number of a refusal.
pub(crate) fn number_of<T>(result: &Result<T, u8>) -> u8 {
    *result.as_ref().err().unwrap_or(&0)
}

/// A key in type-ahead, with the mark that 22 leaves on the key after it.
#[derive(Clone, Copy, Debug, PartialEq, Eq)]
struct Key {
    code: u8,
    quoted: bool,
}

/// A finished escape sequence that no read has taken yet.
#[derive(Clone, Debug, PartialEq, Eq)]
struct Token {
    bytes: Vec<u8>,
    valid: bool,
}

/// A pending read. What the characteristics had to say is fixed when it starts.
#[derive(Clone, Debug, PartialEq, Eq)]
struct Read {
    buffer: Vec<u8>,
    end_of_prompt: usize,
    max_length: usize,
    low_water: usize,
    underflow: u8,
    disable: u8,
    raise: bool,
    escapes: bool,
    echo: bool,
    echo_terminator: bool,
    timeout: Option<u16>,
    set: [u8; 32],
    /// The first byte of the buffer is an LF that F hides.
    hidden_lf: bool,
    /// Where the display of the data last began.
    display_column: u16,
    note_column: u16,
    note_line: u8,
    /// END-OF-DATA was 0; only what is counted depends on it.
    began_empty: bool,
}

/// The line between two calls.
#[derive(Clone, Debug, PartialEq, Eq)]
pub struct Line {
    initiated: bool,
    raise: bool,
    normal_echo: bool,
    escapes: bool,
    auto_prompt: bool,
    discard: bool,
    /// A Write has locked the line: steps are held back.
    locked: bool,
    /// The skip-linefeed mark: if the next Write begins with LF, it is left out.
    skip_linefeed: bool,
    attributes: [u8; 256],
    screen: Screen,
    type_ahead: VecDeque<Key>,
    quote_pending: bool,
    partial: Vec<u8>,
    held: Option<Token>,
    /// The last set given with ZZ 1 or loaded.
    last_set: Option<[u8; 32]>,
    /// No Start Read may ask for more.
    largest_read: u16,
    loaded: Loaded,
    read: Option<Read>,
    idle: u32,
    dropped: u16,
    /// What occurred; no rule looks at it.
    pub seen: Coverage,
}

impl Default for Line {
    fn default() -> Self {
        Line {
            initiated: false,
            raise: false,
            normal_echo: true,
            escapes: false,
            auto_prompt: false,
            discard: false,
            locked: false,
            skip_linefeed: false,
            attributes: [0; 256],
            screen: Screen::default(),
            type_ahead: VecDeque::with_capacity(TYPE_AHEAD),
            quote_pending: false,
            partial: Vec::new(),
            held: None,
            last_set: None,
            largest_read: BUFFER,
            loaded: Loaded::default(),
            read: None,
            idle: 0,
            dropped: 0,
            seen: Coverage::default(),
        }
    }
}

impl Line {
    pub fn dropped(&self) -> u16 {
        self.dropped
    }

    pub fn column(&self) -> u16 {
        self.screen.column
    }

    pub fn largest_read(&self) -> u16 {
        self.largest_read
    }

    /// A load has left less room than a fresh line has.
    fn limited(&self) -> bool {
        self.largest_read < BUFFER
    }

    pub fn read_pending(&self) -> bool {
        self.read.is_some()
    }

    pub fn locked(&self) -> bool {
        self.locked
    }

    /// Whether a step may act.
    pub fn may_step(&self) -> bool {
        self.read.is_some() && !self.locked
    }

    /// How many keys are in type-ahead.
    pub fn waiting(&self) -> usize {
        self.type_ahead.len()
    }

    /// A keystroke arrives, and a step follows in the same call. It finds the
    /// line as arrival left it: a read may be gone by then, or a lock.
    pub fn key(&mut self, code: u8, areas: Areas) -> Answer {
        self.call(areas, |line, out| {
            let arrival = line.arrive(code, out);
            line.seen.steps.begin(StepKind::OfKey);
            let stepped = line.take_step(out);
            line.seen.steps.after(arrival, stepped);
        })
    }

    /// A bare step, for what waits already: keys typed before a Start Read or while
    /// locked, a held token.
    pub fn step(&mut self, areas: Areas) -> Answer {
        self.call(areas, |line, out| {
            line.note_step_held_back();
            line.seen.steps.begin(StepKind::Bare);
            let stepped = line.take_step(out);
            line.seen.steps.bare(stepped);
        })
    }

    /// A second has passed.
    pub fn tick(&mut self, areas: Areas) -> Answer {
        self.call(areas, Line::take_tick)
    }

    /// A host message arrives.
    pub fn host(&mut self, bytes: &[u8], areas: Areas) -> Answer {
        if let Some(answer) = self.small_areas(areas) {
            return answer;
        }
        let mut out = Answer::default();
        let judged = self.judge(bytes);
        self.seen.long.message(bytes, number_of(&judged));
        match judged {
            Ok(message) => {
                self.seen.received[usize::from(message.kind())] += 1;
                self.seen.received_locked[usize::from(message.kind())] += u64::from(self.locked);
                self.act(message, &mut out);
                self.close(out)
            }
            Err(number) => {
                self.seen.numbers[usize::from(number)] += 1;
                Answer::refusal(number)
            }
        }
    }

    fn call(&mut self, areas: Areas, work: impl FnOnce(&mut Line, &mut Answer)) -> Answer {
        if let Some(answer) = self.small_areas(areas) {
            return answer;
        }
        let mut out = Answer::default();
        work(self, &mut out);
        self.close(out)
    }

    fn small_areas(&mut self, areas: Areas) -> Option<Answer> {
        let terminal = areas.terminal < TERMINAL_AREA;
        let message = areas.message < MESSAGE_AREA;
        if !terminal && !message {
            return None;
        }
        self.seen.met_if(terminal, Rule::TerminalAreaSmall);
        self.seen.met_if(message, Rule::MessageAreaSmall);
        self.seen.numbers[1] += 1;
        Some(Answer::refusal(1))
    }

    fn close(&mut self, out: Answer) -> Answer {
        assert!(out.terminal.len() <= TERMINAL_AREA);
        let message = |message: &Vec<u8>| LENGTH + message.len();
        assert!(out.messages.iter().map(message).sum::<usize>() <= MESSAGE_AREA);
        self.seen.numbers[0] += 1;
        let wrote = !out.terminal.is_empty();
        self.seen.met_if(wrote && self.screen.column == TOP, Rule::ColumnTop);
        out
    }

    fn send(&mut self, message: Message, out: &mut Answer) {
        self.seen.sent[usize::from(message.kind())] += 1;
        let bytes = message::write(&message, MESSAGE_AREA);
        out.messages.push(bytes.expect("the line's own messages are sound"));
    }
}
