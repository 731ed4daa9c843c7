//! What occurred while scripts ran: how often each completion code, refusal
//! number, message type and rule of page 01 and the requests was met.

pub mod long;
pub mod raising;
pub mod settings;
pub mod steps;
pub mod tokens;
pub mod writes;

use crate::settings::{find, read, Source, SECTIONS};
use long::Long;
use raising::Raising;
use settings::Settings;
use std::fmt;
use steps::Steps;
use tokens::Tokens;
use writes::Writes;

macro_rules! rules {
    ($($name:ident),* $(,)?) => {
        /// One rule of page 01, or one side of it.
        #[derive(Clone, Copy, Debug, PartialEq, Eq, PartialOrd, Ord)]
        pub enum Rule { $($name),* }
        pub const RULES: &[Rule] = &[$(Rule::$name),*];
    };
}

rules! {
    // A key arrives.
    KeyBeforeInitiate, KeyQuoted, KeyQuotedOutOfBand, KeyQuotedDropped, KeyHello,
    KeyImmediateClearIdle, KeyImmediateClearRead, KeyOutOfBandInDdd3, KeyQuote, KeyClearIdle,
    KeyClearRead, KeyDiscardOn, KeyDiscardOff, KeyQuoteDdd3, KeyClearDdd3, KeyDiscardDdd3,
    KeyStored, KeyDropped, KeyLoadedHello, KeyLoadedClear, KeyAccentOutOfBand,
    // The clear rule.
    ClearedTypeAhead, ClearedHeld, ClearedPartial, ClearedInput,
    // One step.
    StepNoRead, StepHeldFits, StepHeldAbsentee, StepHeldUnrecognised, StepTimeoutZero,
    StepEmpty, StepPartial, StepQuotedInToken, StepQuoted, StepBegin27, StepBegin155,
    StepEscapeOff, StepRaised, StepRaisedTerminator, StepTerminator, StepTerminatorFills,
    TerminatorSilent, TerminatorEchoed, TerminatorCrLf, TerminatorNoEcho,
    DeleteSome, DeleteNothing, DeleteBell, DeleteUnderflow,
    WordSome, WordNothing, WordBell, WordUnderflow, UnderflowFills,
    LineSome, LineNothing, Redisplay, RedisplayNoEcho,
    EditOffDdd1, EditOffDdd2, EditOffDdd3, EditInSet, LowWaterFalls, LowWaterStays,
    DataEchoed, DataSilent, DataFull, QuotedFull,
    // Small accents in reads that raise, and in plain ones; 23 and high marks.
    AccentRaisedEchoed, AccentRaisedSilent, AccentRaisedTerminator, AccentRaisedIntoSet,
    AccentRaisedOutOfSet, AccentRaisedToOutOfBand, AccentQuoted, AccentInToken,
    PlainAccentData, PlainAccentTerminator, PlainAccentAloneInSet, PlainAccentCapitalInSet,
    HighBehindWord, WordStopsAtHigh,
    // Tokens.
    TokenValid, TokenInvalid, TokenSixteenthInvalid, TokenSixteenthFinal, TokenFits,
    TokenFills, TokenAbsentee, PartialDropped,
    // Tick.
    TickNothing, TickWaiting, TickHeld, TickIdle, TickIdlePartial, TickTimeout,
    // The screen.
    EchoTab, EchoControl, EchoHigh, EchoNothing, RubTab, RubTabBehindText, RubTabBehindHiddenLf,
    RubBehindTab, RubControl, RubNothing, RubNoEcho, ColumnTop, BackspaceAtEdge,
    // Host messages.
    Initiated, InitiatedLoaded, ReadPending, ReadFullAtOnce, ReadEndsIdle, ReadClears,
    ReadClearsHeld, FormattingLf, FormattingNoLf, HiddenLfInPrompt, HiddenLfInData, HiddenLfDeleted,
    HiddenLfRedisplayed, AutoPrompt, SetLast, SetLastNone, SetLoaded, SetGiven, SetUniversal,
    RaiseOn, AccentInPrompt, AccentPreloaded, EscapesOn, NoEcho,
    EchoOffByCharacteristic, UnreadAlways, UnreadEmptyDone, UnreadEmptyWaiting,
    UnreadEmptyToken, UnreadEmptyInput, UnreadNoRead, ClearInput, CheckInput,
    SetAttributes, SetRaise, SetEcho, SetEscapes, SetAutoPrompt, SetNothing, SetInMidRead,
    AnswerAttributes, AnswerRaise, AnswerEcho, AnswerEscapes, AnswerAutoPrompt, AnswerNothing,
    // Write.
    WriteSent, WriteEmpty, WriteDiscarded, WriteEndsDiscard, LockInLaterPart, NewlineInEarlierPart,
    WriteLost, WriteNotLost, WriteNothingToLose, LostByPrefixAlone, LostByPostfixAlone,
    LostByNewlineAlone, LfLeftOut, LfLeftOutAlone, LfBehindLeftOutSent, LfLeftOutBehindOthers,
    LfLeftOutBehindCr, MarkSet, MarkSetAgain, MarkFalls, MarkStaysEmpty, MarkStaysDiscarded,
    MarkNotSetDiscarded, WriteRedisplays, WriteRedisplaysPrompt, WriteRedisplaysNoEcho,
    WriteRedisplaysNoEchoPrompt, WriteRedisplaysNothing, WriteRedisplaysDdd1, WriteRedisplaysDdd2,
    WriteRedisplaysDdd3, WriteRedisplaysHiddenLf, WriteRedisplaysDiscarded, WriteRedisplaysBehindCompletion,
    WriteRedisplaysIdle, WriteRedisplaysPartial, WriteRedisplaysElsewhere,
    // While the line is locked, and what unlocks it besides a Write.
    LockedStepNoRead, LockedStepHeld, LockedStepKey, LockedStepPartial, LockedStepTimeoutZero,
    LockedStepEmpty, LockedTickWaiting, LockedTickHeld, LockedTickIdle, LockedTickTimeout,
    LockedKeyStored, LockedKeyEndsIdle, LockedKeyDropped, LockedKeyDiscardDdd3, LockedKeyQuote,
    LockedKeyHello, LockedKeyClearRead, LockedKeyClearIdle, LockedReadPending, LockedReadFullAtOnce,
    LockedLoad, DiscardOnUnlocks, DiscardOffKeepsLock, ImmediateClearUnlocksRead,
    ImmediateClearUnlocksIdle,
    // Settings.
    LoadOwnBeforeSite, LoadMixed, LoadNothing, LoadKeepsLargest, LargestReadMet,
    AskedOwn, AskedSite, AskedOwnBeforeSite, AskedEmpty, AskedOutside, AskedOwnUnsound,
    AskedSiteUnsound,
    // Refusals, one for each cause.
    TerminalAreaSmall, MessageAreaSmall, MessageEmpty, MessageLong, TypeUnknown, TypeOfServers,
    FirstNotInitiate, InitiateAgain, ReadAlreadyPending, CutShort, LeftOver, ValueUndefined,
    SelectorUndefined, StartReadTest, StartOfDisplay, FlagK, FlagV, WriteTransparent,
    SelectorOutside, DeferredClear, AnswerLong, LargestReadPassed, LargestReadBeforeNotCarried,
}

/// The counts of one line, or of many runs added up.
#[derive(Clone, Debug, PartialEq, Eq)]
pub struct Coverage {
    /// Completion codes in Read Data.
    pub codes: [u64; 16],
    /// The numbers that calls answered.
    pub numbers: [u64; 8],
    /// Types that the line sent, accepted, and that were read without a line.
    pub sent: [u64; 15],
    pub received: [u64; 15],
    pub read: [u64; 15],
    /// Types accepted while the line was locked.
    pub received_locked: [u64; 15],
    /// Refusals of reading without a line.
    pub read_numbers: [u64; 7],
    pub rules: [u64; RULES.len()],
    pub long: Long,
    pub raising: Raising,
    pub settings: Settings,
    pub steps: Steps,
    pub tokens: Tokens,
    pub writes: Writes,
}

impl Default for Coverage {
    fn default() -> Self {
        Coverage {
            codes: [0; 16],
            numbers: [0; 8],
            sent: [0; 15],
            received: [0; 15],
            read: [0; 15],
            received_locked: [0; 15],
            read_numbers: [0; 7],
            rules: [0; RULES.len()],
            long: Long::default(),
            raising: Raising::default(),
            settings: Settings::default(),
            steps: Steps::default(),
            tokens: Tokens::default(),
            writes: Writes::default(),
        }
    }
}

/// What the line can reach: the other codes belong to things not carried.
const CODES: std::ops::RangeInclusive<usize> = 0..=8;
const SENT: [usize; 7] = [1, 3, 4, 8, 9, 11, 13];
const RECEIVED: [usize; 8] = [1, 2, 5, 6, 7, 10, 11, 12];
/// A line is locked after its Initiate only.
const RECEIVED_LOCKED: [usize; 7] = [2, 5, 6, 7, 10, 11, 12];

impl Coverage {
    pub fn met(&mut self, rule: Rule) {
        self.met_if(true, rule);
    }

    pub fn met_if(&mut self, holds: bool, rule: Rule) {
        self.rules[rule as usize] += u64::from(holds);
        self.steps.met_if(holds, rule);
    }

    /// A section is asked for.
    pub fn ask(&mut self, number: u8, own: &[u8], site: &[u8]) {
        self.settings.asked(number);
        let (own, site) = match (read(own), read(site)) {
            (Ok(own), Ok(site)) => (own, site),
            (own, site) => {
                self.met_if(site.is_ok(), Rule::AskedOwnUnsound);
                return self.met_if(own.is_ok(), Rule::AskedSiteUnsound);
            }
        };
        let Some(place) = usize::from(number).checked_sub(1).filter(|place| *place < SECTIONS)
        else {
            return self.met(Rule::AskedOutside);
        };
        self.settings.asked_pair(&own, &site);
        self.met(match find(place, &own, &site) {
            ([], _) => Rule::AskedEmpty,
            (_, Source::Own) => Rule::AskedOwn,
            (_, Source::Site) => Rule::AskedSite,
        });
        let both = !own.sections[place].is_empty() && !site.sections[place].is_empty();
        self.met_if(both, Rule::AskedOwnBeforeSite);
    }

    pub fn add(&mut self, other: &Coverage) {
        let pairs = self.codes.iter_mut().zip(&other.codes);
        let pairs = pairs.chain(self.numbers.iter_mut().zip(&other.numbers));
        let pairs = pairs.chain(self.sent.iter_mut().zip(&other.sent));
        let pairs = pairs.chain(self.received.iter_mut().zip(&other.received));
        let pairs = pairs.chain(self.read.iter_mut().zip(&other.read));
        let pairs = pairs.chain(self.received_locked.iter_mut().zip(&other.received_locked));
        let pairs = pairs.chain(self.read_numbers.iter_mut().zip(&other.read_numbers));
        for (mine, more) in pairs.chain(self.rules.iter_mut().zip(&other.rules)) {
            *mine += more;
        }
        self.long.add(&other.long);
        self.raising.add(&other.raising);
        self.settings.add(&other.settings);
        self.steps.add(&other.steps);
        self.tokens.add(&other.tokens);
        self.writes.add(&other.writes);
    }

    /// Calls on a line, and what was read, asked for and moved without one.
    pub fn calls(&self) -> u64 {
        self.numbers.iter().chain(&self.read_numbers).sum::<u64>() + self.settings.calls()
    }

    /// Each thing that can be reached, with its count. What occurred to tokens and
    /// to long answers is asked of scripts of them alone, and has tables of its own.
    pub fn table(&self) -> Vec<(String, u64)> {
        let mut table = Vec::new();
        table.extend(CODES.map(|code| (format!("completion code {code}"), self.codes[code])));
        table.extend((0..8).map(|no| (format!("number {no}"), self.numbers[no])));
        table.extend(SENT.map(|kind| (format!("sent type {kind}"), self.sent[kind])));
        table.extend(RECEIVED.map(|kind| (format!("received type {kind}"), self.received[kind])));
        let locked = |kind| (format!("received type {kind}, locked"), self.received_locked[kind]);
        table.extend(RECEIVED_LOCKED.map(locked));
        table.extend((1..15).map(|kind| (format!("read type {kind}"), self.read[kind])));
        table.extend([0, 2, 3, 5].map(|no| (format!("reading {no}"), self.read_numbers[no])));
        table.extend(RULES.iter().map(|rule| (format!("{rule:?}"), self.rules[*rule as usize])));
        table.extend(self.raising.table());
        table.extend(self.settings.table());
        table.extend(self.steps.table());
        table.extend(self.writes.table());
        table
    }

    /// The names of things in the table that were not reached.
    pub fn missing(&self) -> Vec<String> {
        unmet(self.table())
    }
}

fn unmet(table: Vec<(String, u64)>) -> Vec<String> {
    table.into_iter().filter(|row| row.1 == 0).map(|row| row.0).collect()
}

impl fmt::Display for Coverage {
    fn fmt(&self, to: &mut fmt::Formatter) -> fmt::Result {
        writeln!(to, "{:45} {}", "calls", self.calls())?;
        let table = [self.table(), self.tokens.table(), self.long.table()].concat();
        table.into_iter().try_for_each(|(name, count)| writeln!(to, "{name:45} {count}"))
    }
}
