//! A key arrives: the four arrival rules.

use super::raising::is_small_accent;
use super::tokens::End;
use super::{Answer, Key, Line, TYPE_AHEAD};
use crate::coverage::Rule;
use crate::message::Message;
use crate::screen::BEL;

/// The out-of-band field of an attribute.
pub const OUT_OF_BAND: u8 = 3;
pub const IMMEDIATE_CLEAR: u8 = 1;
pub const HELLO: u8 = 3;

pub const DISCARD_KEY: u8 = 15;
pub const QUOTE_KEY: u8 = 22;
pub const CLEAR_KEY: u8 = 24;

/// What an arrival came to. A key is stored alone, or behind others that wait.
#[derive(Clone, Copy, Debug, PartialEq, Eq)]
pub enum Arrival {
    Stored,
    StoredBehind,
    Quoted,
    QuotedBehind,
    Dropped,
    QuotedDropped,
    Hello,
    ImmediateClear,
    Quote,
    Clear,
    DiscardOn,
    /// Turns discard on, on a locked line.
    Unlock,
    DiscardOff,
}

impl Line {
    pub(super) fn arrive(&mut self, code: u8, out: &mut Answer) -> Arrival {
        if !self.initiated {
            self.seen.met(Rule::KeyBeforeInitiate);
            return self.store(code, false, out);
        }
        let out_of_band = self.attributes[usize::from(code)] & OUT_OF_BAND;
        if self.quote_pending {
            self.quote_pending = false;
            self.seen.met(Rule::KeyQuoted);
            self.seen.met_if(out_of_band != 0, Rule::KeyQuotedOutOfBand);
            return self.store(code, true, out);
        }
        let all_off = self.read.as_ref().is_some_and(|read| read.disable == 3);
        self.seen.met_if(out_of_band != 0 && all_off, Rule::KeyOutOfBandInDdd3);
        let accent = is_small_accent(code) && self.read.as_ref().is_some_and(|read| read.raise);
        self.seen.met_if(out_of_band != 0 && accent, Rule::KeyAccentOutOfBand);
        match (out_of_band, code) {
            (HELLO, _) => {
                self.seen.met(Rule::KeyHello);
                self.seen.met_if(self.locked, Rule::LockedKeyHello);
                self.seen.met_if(self.loaded.attributes, Rule::KeyLoadedHello);
                self.send(Message::OutOfBand { discard: false, character: code }, out);
                Arrival::Hello
            }
            (IMMEDIATE_CLEAR, _) => self.immediate_clear(code, out),
            (_, QUOTE_KEY | CLEAR_KEY | DISCARD_KEY) if !all_off => self.control(code, out),
            _ => {
                self.seen.met_if(all_off && code == QUOTE_KEY, Rule::KeyQuoteDdd3);
                self.seen.met_if(all_off && code == CLEAR_KEY, Rule::KeyClearDdd3);
                let discard_stored = all_off && code == DISCARD_KEY;
                self.seen.met_if(discard_stored, Rule::KeyDiscardDdd3);
                self.seen.met_if(discard_stored && self.locked, Rule::LockedKeyDiscardDdd3);
                self.store(code, false, out)
            }
        }
    }

    fn immediate_clear(&mut self, code: u8, out: &mut Answer) -> Arrival {
        self.seen.met_if(self.loaded.attributes, Rule::KeyLoadedClear);
        self.send(Message::OutOfBand { discard: false, character: code }, out);
        self.clear(false, out);
        let locked = std::mem::replace(&mut self.locked, false);
        if self.read.is_some() {
            self.seen.met(Rule::KeyImmediateClearRead);
            self.seen.met_if(locked, Rule::ImmediateClearUnlocksRead);
            self.complete(super::reads::OUT_OF_BAND, 0, out);
        } else {
            self.seen.met(Rule::KeyImmediateClearIdle);
            self.seen.met_if(locked, Rule::ImmediateClearUnlocksIdle);
        }
        Arrival::ImmediateClear
    }

    fn control(&mut self, code: u8, out: &mut Answer) -> Arrival {
        match code {
            QUOTE_KEY => {
                self.seen.met(Rule::KeyQuote);
                self.seen.met_if(self.locked, Rule::LockedKeyQuote);
                self.quote_pending = true;
                Arrival::Quote
            }
            CLEAR_KEY => {
                let pending = self.read.is_some();
                self.seen.met(if pending { Rule::KeyClearRead } else { Rule::KeyClearIdle });
                self.seen.met_if(self.locked && pending, Rule::LockedKeyClearRead);
                self.seen.met_if(self.locked && !pending, Rule::LockedKeyClearIdle);
                self.clear(true, out);
                Arrival::Clear
            }
            _ => self.flip_discard(out),
        }
    }

    /// 15; when it turns discard on it unlocks too.
    fn flip_discard(&mut self, out: &mut Answer) -> Arrival {
        self.discard = !self.discard;
        let arrival = match (self.discard, self.locked) {
            (true, false) => Arrival::DiscardOn,
            (true, true) => Arrival::Unlock,
            (false, _) => Arrival::DiscardOff,
        };
        if self.discard {
            self.seen.met(Rule::KeyDiscardOn);
            self.seen.met_if(self.locked, Rule::DiscardOnUnlocks);
            self.locked = false;
        } else {
            self.seen.met(Rule::KeyDiscardOff);
            self.seen.met_if(self.locked, Rule::DiscardOffKeepsLock);
        }
        self.send(Message::DiscardState { shown: !self.discard }, out);
        arrival
    }

    fn store(&mut self, code: u8, quoted: bool, out: &mut Answer) -> Arrival {
        if self.type_ahead.len() == TYPE_AHEAD {
            self.seen.met(Rule::KeyDropped);
            self.seen.met_if(self.locked, Rule::LockedKeyDropped);
            self.seen.met_if(quoted, Rule::KeyQuotedDropped);
            self.screen.send(BEL, &mut out.terminal);
            self.dropped = self.dropped.saturating_add(1);
            return if quoted { Arrival::QuotedDropped } else { Arrival::Dropped };
        }
        self.seen.met(Rule::KeyStored);
        self.seen.met_if(self.locked, Rule::LockedKeyStored);
        let idling = self.read.is_some() && self.idle > 0;
        self.seen.met_if(self.locked && idling, Rule::LockedKeyEndsIdle);
        let alone = self.type_ahead.is_empty();
        self.type_ahead.push_back(Key { code, quoted });
        self.idle = 0;
        match (quoted, alone) {
            (false, true) => Arrival::Stored,
            (false, false) => Arrival::StoredBehind,
            (true, true) => Arrival::Quoted,
            (true, false) => Arrival::QuotedBehind,
        }
    }

    /// The clear rule; immediate clear does it without rubbing out.
    pub(super) fn clear(&mut self, rub_out: bool, out: &mut Answer) {
        self.seen.met_if(!self.type_ahead.is_empty(), Rule::ClearedTypeAhead);
        self.seen.met_if(self.held.is_some(), Rule::ClearedHeld);
        self.seen.met_if(!self.partial.is_empty(), Rule::ClearedPartial);
        self.type_ahead.clear();
        self.held = None;
        self.lose_partial(End::Cleared);
        if let Some(read) = &self.read {
            let prompt = read.end_of_prompt;
            self.seen.met_if(read.buffer.len() > prompt, Rule::ClearedInput);
            self.delete_to(prompt, rub_out, out);
        }
    }
}
