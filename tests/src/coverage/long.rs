//! What occurred to long answers (M-107): numbers that need their high byte, a
//! whole buffer, positions about the top column, messages about the longest.

use crate::line::reads::{
    ABSENTEE, BUFFER_FULL, INVALID_TOKEN, OUT_OF_BAND, TERMINATOR, UNDERFLOW, VALID_TOKEN,
};
use crate::line::MESSAGE_AREA;
use crate::message::{ReadData, BUFFER, CHARACTERISTICS, LONGEST, START_READ, UNREAD};
use crate::screen::{self, HT, TOP};
use crate::settings::Form;

macro_rules! things {
    ($($name:ident),* $(,)?) => {
        #[derive(Clone, Copy, Debug, PartialEq, Eq)]
        pub enum Thing { $($name),* }
        const THINGS: &[Thing] = &[$(Thing::$name),*];
    };
}

things! {
    // Start Read; the top is the column's.
    LongPrompt, LongText, LongHiddenLf, PromptPassesTop, TextPassesTop,
    // Echo of one character.
    MarkAtTop, ControlAcrossTop, ControlAtTop, TabAcrossTop, TabAtTop,
    // Rubbing out, by the column where the echo of a character began.
    RubMarkAtTop, RubControlAcrossTop, RubControlAtTop, RubTabAcrossTop, RubTabAtTop,
    RubMoreThanColumns,
    // Deleting one, many or all of a long text.
    DeletedOfLong, LongDeleted, LowWaterFallsToHigh, LowWaterFallsFromHigh,
    // A whole buffer that was empty when its read began.
    WholeTyped,
    // 18, and a Write that redisplays.
    RedisplayLongPrompt, RedisplayFull, RedisplayPassesTop,
    WriteRedisplaysLongPrompt, WriteRedisplaysFull, WriteRedisplaysPastTop,
    // Messages, on a line and without one.
    MessageOneLess, MessageLongest, MessageOneMore, MessageOneMoreOfNoType, MessageOneMoreUnsound,
    ReadLongest, ReadOneMore, ReadOneMoreOfNoType, ReadOneMoreUnsound,
    LongCharacteristics, ReadLongCharacteristics,
    AnswerOneLess, AnswerFills, AnswerOneMore,
}

/// What a Read Data had that needs its high byte, or the whole buffer.
#[derive(Clone, Copy, Debug, PartialEq, Eq)]
enum Returned {
    Long,
    Whole,
    HighLowWater,
    HighTerminator,
}

const RETURNED: [Returned; 4] =
    [Returned::Long, Returned::Whole, Returned::HighLowWater, Returned::HighTerminator];
const CODES: usize = ABSENTEE as usize + 1;

/// MAX-LENGTHs on both sides of each number that stands for one.
pub const WATCHED: [u16; 8] = [
    Form::One.top() - 1,
    Form::One.top(),
    Form::One.top() + 1,
    u8::MAX as u16,
    u8::MAX as u16 + 1,
    BUFFER - 1,
    BUFFER,
    BUFFER + 1,
];

const PLACES: [&str; 2] = ["read of", "read without a line of"];
const ON_A_LINE: usize = 0;
const WITHOUT: usize = 1;

#[derive(Clone, Debug, PartialEq, Eq)]
pub struct Long {
    things: [u64; THINGS.len()],
    /// By completion code.
    returned: [[u64; RETURNED.len()]; CODES],
    /// Start Reads of a watched MAX-LENGTH, on a line and without one, accepted and
    /// refused with 5.
    reads: [[[u64; 2]; WATCHED.len()]; PLACES.len()],
}

impl Default for Long {
    fn default() -> Self {
        Long { things: [0; THINGS.len()], returned: Default::default(), reads: Default::default() }
    }
}

/// Whether a number needs its high byte.
pub fn high(number: usize) -> bool {
    number > usize::from(u8::MAX)
}

fn long_characteristics(bytes: &[u8]) -> bool {
    bytes.first() == Some(&CHARACTERISTICS) && high(bytes.len())
}

impl Long {
    pub fn met_if(&mut self, holds: bool, thing: Thing) {
        self.things[thing as usize] += u64::from(holds);
    }

    /// Counts a Start Read of a watched MAX-LENGTH by its number.
    fn read(&mut self, place: usize, bytes: &[u8], number: u8) {
        let [START_READ, _, _, _, max_low, max_high, end_low, end_high, ..] = *bytes else {
            return;
        };
        let max_length = u16::from_le_bytes([max_low, max_high]);
        let end_of_data = u16::from_le_bytes([end_low, end_high]);
        let Some(watched) = WATCHED.iter().position(|length| *length == max_length) else { return };
        match number {
            0 => self.reads[place][watched][0] += 1,
            // END-OF-DATA over MAX-LENGTH is another cause of 5.
            5 if end_of_data <= max_length => self.reads[place][watched][1] += 1,
            _ => {}
        }
    }

    /// A character is echoed at this column.
    pub fn echoed(&mut self, code: u8, column: u16) {
        let things = [
            Thing::MarkAtTop,
            Thing::ControlAcrossTop,
            Thing::ControlAtTop,
            Thing::TabAcrossTop,
            Thing::TabAtTop,
        ];
        self.about_top(code, column, things);
    }

    /// A character is rubbed out whose echo began at this column.
    pub fn rubbed(&mut self, code: u8, column: u16) {
        let things = [
            Thing::RubMarkAtTop,
            Thing::RubControlAcrossTop,
            Thing::RubControlAtTop,
            Thing::RubTabAcrossTop,
            Thing::RubTabAtTop,
        ];
        self.about_top(code, column, things);
    }

    fn about_top(&mut self, code: u8, column: u16, things: [Thing; 5]) {
        let [mark, control_across, control, tab_across, tab] = things;
        let width = screen::width(code, column);
        let (at, across) = (column == TOP, column < TOP && column + width > TOP);
        self.met_if(at && width == 1 && code != HT, mark);
        self.met_if(across && code != HT, control_across);
        self.met_if(at && width == 2, control);
        self.met_if(across && code == HT, tab_across);
        self.met_if(at && code == HT, tab);
    }

    /// A Read Data is sent; its read began with DATA or without.
    pub fn returned(&mut self, read: &ReadData, began_empty: bool) {
        let whole = read.data.len() == usize::from(BUFFER);
        let met = [
            high(read.data.len()),
            whole,
            high(usize::from(read.low_water)),
            high(usize::from(read.terminator)),
        ];
        self.met_if(whole && began_empty, Thing::WholeTyped);
        for (count, met) in self.returned[usize::from(read.code)].iter_mut().zip(met) {
            *count += u64::from(met);
        }
    }

    /// A message has arrived at a line, which answers this number.
    pub fn message(&mut self, bytes: &[u8], number: u8) {
        let taken = number == 0;
        self.met_if(taken && bytes.len() == LONGEST - 1, Thing::MessageOneLess);
        self.met_if(taken && bytes.len() == LONGEST, Thing::MessageLongest);
        self.met_if(taken && long_characteristics(bytes), Thing::LongCharacteristics);
        let things =
            [Thing::MessageOneMore, Thing::MessageOneMoreOfNoType, Thing::MessageOneMoreUnsound];
        self.one_more(bytes, things);
        self.read(ON_A_LINE, bytes, number);
    }

    /// A message has been read without a line.
    pub fn copied(&mut self, bytes: &[u8], number: u8) {
        let taken = number == 0;
        self.met_if(taken && bytes.len() == LONGEST, Thing::ReadLongest);
        self.met_if(taken && long_characteristics(bytes), Thing::ReadLongCharacteristics);
        self.one_more(
            bytes,
            [Thing::ReadOneMore, Thing::ReadOneMoreOfNoType, Thing::ReadOneMoreUnsound],
        );
        self.read(WITHOUT, bytes, number);
    }

    /// Too long by one byte, and what would be the next reasons to refuse it.
    fn one_more(&mut self, bytes: &[u8], [any, of_no_type, unsound]: [Thing; 3]) {
        if bytes.len() == LONGEST + 1 {
            self.met_if(true, any);
            self.met_if(!(1..=14).contains(&bytes[0]), of_no_type);
            // A short message, with bytes left over.
            self.met_if(bytes[0] == UNREAD, unsound);
        }
    }

    /// An answer would take so much of the message area.
    pub fn answer(&mut self, length: usize) {
        self.met_if(length == MESSAGE_AREA - 1, Thing::AnswerOneLess);
        self.met_if(length == MESSAGE_AREA, Thing::AnswerFills);
        self.met_if(length == MESSAGE_AREA + 1, Thing::AnswerOneMore);
    }

    pub fn add(&mut self, other: &Long) {
        let mine = self.things.iter_mut().chain(self.returned.as_flattened_mut());
        let mine = mine.chain(self.reads.as_flattened_mut().as_flattened_mut());
        let more = other.things.iter().chain(other.returned.as_flattened());
        let more = more.chain(other.reads.as_flattened().as_flattened());
        mine.zip(more).for_each(|(mine, more)| *mine += more);
    }

    /// Each thing that can be reached, with its count.
    pub fn table(&self) -> Vec<(String, u64)> {
        let thing = |thing: &Thing| (format!("{thing:?}"), self.things[*thing as usize]);
        let mut table: Vec<(String, u64)> = THINGS.iter().map(thing).collect();
        for (code, counts) in (TERMINATOR..).zip(&self.returned) {
            let counts = RETURNED.into_iter().zip(*counts);
            let counts = counts.filter(|(returned, _)| can_return(code, *returned));
            table.extend(counts.map(|(returned, n)| (format!("code {code}: {returned:?}"), n)));
        }
        for (place, reads) in self.reads.iter().enumerate() {
            for (length, [accepted, refused]) in WATCHED.into_iter().zip(*reads) {
                let name = format!("{} {length}", PLACES[place]);
                if length <= BUFFER {
                    table.push((format!("{name}: 0"), accepted));
                }
                // On a line a loaded largest read refuses any.
                if length > BUFFER || place == ON_A_LINE {
                    table.push((format!("{name}: 5"), refused));
                }
            }
        }
        table
    }

    /// The names of things that can be reached and were not.
    pub fn missing(&self) -> Vec<String> {
        super::unmet(self.table())
    }
}

/// Whether a completion of this code can have it: a token, a terminator or the
/// last character fills a buffer, the others find it less than full; out-of-band
/// and underflow end a read that has no input left.
fn can_return(code: u8, returned: Returned) -> bool {
    match returned {
        Returned::Whole => {
            matches!(code, TERMINATOR | VALID_TOKEN | INVALID_TOKEN | BUFFER_FULL)
        }
        Returned::Long | Returned::HighTerminator => !matches!(code, OUT_OF_BAND | UNDERFLOW),
        Returned::HighLowWater => true,
    }
}

#[cfg(test)]
mod tests {
    use super::*;

    #[test]
    fn a_tab_is_counted_by_where_it_begins() {
        let mut long = Long::default();
        long.echoed(HT, TOP - 7);
        long.rubbed(HT, TOP);
        long.echoed(HT, TOP - 8);
        long.rubbed(b'a', TOP - 1);
        let met: Vec<(String, u64)> = long.table().into_iter().filter(|row| row.1 > 0).collect();
        assert_eq!(met, [("TabAcrossTop".into(), 1), ("RubTabAtTop".into(), 1)]);
    }

    #[test]
    fn a_5_of_another_cause_is_not_counted() {
        let mut long = Long::default();
        let [low, high] = BUFFER.to_le_bytes();
        for end_of_data in [[low, high], [low + 1, high]] {
            let read = [START_READ, 0, 0, 0, low, high, end_of_data[0], end_of_data[1]];
            long.message(&read, 5);
        }
        let met: Vec<(String, u64)> = long.table().into_iter().filter(|row| row.1 > 0).collect();
        assert_eq!(met, [(format!("read of {BUFFER}: 5"), 1)]);
    }

    #[test]
    fn only_what_can_be_reached_is_asked_for() {
        let table = Long::default().table();
        let asked = |name: &str| table.iter().any(|row| row.0 == name);
        assert!(asked("code 0: Whole") && !asked("code 5: Whole"));
        assert!(asked("code 7: HighLowWater") && !asked("code 7: Long"));
        let named = |number: u8, length: u16| format!("read of {length}: {number}");
        assert!(asked(&named(0, BUFFER)) && !asked(&named(0, BUFFER + 1)));
    }
}
