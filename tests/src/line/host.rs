//! A host message arrives: the refusals in their order, then what it does.

use super::{Answer, Line, Loaded, LENGTH, MESSAGE_AREA};
use crate::coverage::Rule;
use crate::message::{
    self, Fault, Initiate, Message, StartRead, Value, Wanted, AUTO_PROMPT, BUFFER, INITIATE,
    INPUT_ESCAPES, LONGEST, NORMAL_ECHO, RAISE_INPUT, START_READ,
};

/// The used bits of an attribute, which our answer's MASK names.
const USED_BITS: u8 = 127;
const DEFERRED_CLEAR: u8 = 2;
/// Messages 1 to 14, as bits.
const CARRIED_MESSAGES: u16 = 0x7FFE;

impl Line {
    /// Reads the message and finds the first refusal that applies.
    pub(super) fn judge(&mut self, bytes: &[u8]) -> Result<Message, u8> {
        if bytes.is_empty() {
            return self.refuse(2, Rule::MessageEmpty);
        }
        if bytes.len() > LONGEST {
            return self.refuse(2, Rule::MessageLong);
        }
        match bytes[0] {
            3 | 4 | 8 | 9 | 13 | 14 => return self.refuse(3, Rule::TypeOfServers),
            0 | 15.. => return self.refuse(3, Rule::TypeUnknown),
            INITIATE if self.initiated => return self.refuse(4, Rule::InitiateAgain),
            INITIATE => {}
            _ if !self.initiated => return self.refuse(4, Rule::FirstNotInitiate),
            START_READ if self.read.is_some() => return self.refuse(4, Rule::ReadAlreadyPending),
            _ => {}
        }
        let message = match message::read_or_fault(bytes) {
            Ok(message) => message,
            Err(fault) => return self.refuse(fault.number(), rule_of(fault)),
        };
        if let Message::ReadCharacteristics(wanted) = &message {
            self.seen.long.answer(self.answer_length(wanted));
        }
        let not_carried = self.not_carried(&message);
        if self.too_large(&message) {
            self.seen.met_if(not_carried.is_some(), Rule::LargestReadBeforeNotCarried);
            return self.refuse(5, Rule::LargestReadPassed);
        }
        match not_carried {
            Some(rule) => self.refuse(6, rule),
            None => Ok(message),
        }
    }

    /// The Start Read test has the line's largest read in the place of the buffer.
    fn too_large(&self, message: &Message) -> bool {
        matches!(message, Message::StartRead(read) if read.max_length > self.largest_read)
    }

    fn refuse(&mut self, number: u8, rule: Rule) -> Result<Message, u8> {
        self.seen.met(rule);
        Err(number)
    }

    /// Why a sound message is not carried, if it is not.
    fn not_carried(&self, message: &Message) -> Option<Rule> {
        match message {
            Message::StartRead(read) => read_not_carried(read),
            Message::Write(write) => write.transparent.then_some(Rule::WriteTransparent),
            Message::ReadCharacteristics(wanted) => {
                if wanted.iter().any(|one| matches!(one, Wanted::Plain(s) if !carried(*s))) {
                    return Some(Rule::SelectorOutside);
                }
                let length = self.answer_length(wanted);
                (length > MESSAGE_AREA).then_some(Rule::AnswerLong)
            }
            Message::Characteristics(values) => {
                let outside = |value: &Value| match value {
                    Value::Boolean { selector, .. } => !carried(*selector),
                    Value::Attributes { .. } => false,
                    Value::CountState(_) | Value::ErrorProcessing(_) => true,
                };
                if values.iter().any(outside) {
                    return Some(Rule::SelectorOutside);
                }
                self.leaves_deferred(values).then_some(Rule::DeferredClear)
            }
            _ => None,
        }
    }

    /// Judged on the table as the whole message would leave it.
    fn leaves_deferred(&self, values: &[Value]) -> bool {
        let mut table = self.attributes;
        set_attributes(&mut table, values);
        table.iter().any(|attribute| attribute & 3 == DEFERRED_CLEAR)
    }

    /// How much of the message area the answer takes, with its length.
    fn answer_length(&self, wanted: &[Wanted]) -> usize {
        self.characteristics_answer(wanted).len() + LENGTH
    }

    /// The length matters before the answer is known to fit, so the answer is
    /// laid out by hand here.
    fn characteristics_answer(&self, wanted: &[Wanted]) -> Vec<u8> {
        let mut answer = vec![11, 0];
        for one in wanted {
            match *one {
                Wanted::Attributes(character) => {
                    let attributes = self.attributes[usize::from(character)];
                    answer.extend([2, 2, character, USED_BITS, attributes]);
                }
                Wanted::Plain(selector) => {
                    let on = match selector {
                        RAISE_INPUT => self.raise,
                        NORMAL_ECHO => self.normal_echo,
                        INPUT_ESCAPES => self.escapes,
                        _ => self.auto_prompt,
                    };
                    answer.extend(selector.to_le_bytes());
                    answer.push(u8::from(on));
                }
            }
        }
        answer
    }

    pub(super) fn act(&mut self, message: Message, out: &mut Answer) {
        match message {
            Message::Initiate(_) => self.initiate(out),
            Message::StartRead(read) => self.start_read(read, out),
            Message::Unread { if_empty } => self.unread(if_empty, out),
            Message::ClearInput => {
                self.seen.met(Rule::ClearInput);
                self.clear(true, out);
            }
            Message::Write(write) => self.write(&write, out),
            Message::ReadCharacteristics(wanted) => self.answer_characteristics(&wanted, out),
            Message::Characteristics(values) => self.set_characteristics(&values),
            Message::CheckInput => {
                self.seen.met(Rule::CheckInput);
                let held = self.held.as_ref().map_or(0, |token| token.bytes.len());
                let count = self.type_ahead.len() + self.partial.len() + held;
                self.send(Message::InputCount { count: count as u16 }, out);
            }
            // The other types were refused before.
            _ => {}
        }
    }

    fn initiate(&mut self, out: &mut Answer) {
        self.seen.met(Rule::Initiated);
        let loaded = self.limited() || self.loaded != Loaded::default();
        self.seen.met_if(loaded, Rule::InitiatedLoaded);
        self.initiated = true;
        let ours = Initiate {
            version: [1, 0, 0],
            revision: [b' '; 8],
            parameters: vec![
                (1, (LONGEST as u16).to_le_bytes().to_vec()),
                (2, BUFFER.to_le_bytes().to_vec()),
                (3, CARRIED_MESSAGES.to_le_bytes().to_vec()),
            ],
        };
        self.send(Message::Initiate(ours), out);
    }

    fn unread(&mut self, if_empty: bool, out: &mut Answer) {
        let Some(read) = &self.read else {
            return self.seen.met(Rule::UnreadNoRead);
        };
        let tokens = self.held.is_some() || !self.partial.is_empty();
        let (rule, done) = match if_empty {
            false => (Rule::UnreadAlways, true),
            true if !self.type_ahead.is_empty() => (Rule::UnreadEmptyWaiting, false),
            true if tokens => (Rule::UnreadEmptyToken, false),
            true if read.has_input() => (Rule::UnreadEmptyInput, false),
            true => (Rule::UnreadEmptyDone, true),
        };
        self.seen.met(rule);
        if done {
            self.complete(super::reads::UNREAD, 0, out);
        }
    }

    fn answer_characteristics(&mut self, wanted: &[Wanted], out: &mut Answer) {
        self.seen.met_if(wanted.is_empty(), Rule::AnswerNothing);
        for one in wanted {
            self.seen.met(match one {
                Wanted::Attributes(_) => Rule::AnswerAttributes,
                Wanted::Plain(RAISE_INPUT) => Rule::AnswerRaise,
                Wanted::Plain(NORMAL_ECHO) => Rule::AnswerEcho,
                Wanted::Plain(INPUT_ESCAPES) => Rule::AnswerEscapes,
                Wanted::Plain(_) => Rule::AnswerAutoPrompt,
            });
        }
        self.seen.sent[11] += 1;
        out.messages.push(self.characteristics_answer(wanted));
    }

    fn set_characteristics(&mut self, values: &[Value]) {
        self.seen.met_if(values.is_empty(), Rule::SetNothing);
        self.seen.met_if(self.read.is_some(), Rule::SetInMidRead);
        set_attributes(&mut self.attributes, values);
        for value in values {
            let Value::Boolean { selector, on } = *value else {
                self.seen.met(Rule::SetAttributes);
                self.loaded.attributes = false;
                continue;
            };
            let (place, rule) = match selector {
                RAISE_INPUT => (&mut self.raise, Rule::SetRaise),
                NORMAL_ECHO => (&mut self.normal_echo, Rule::SetEcho),
                INPUT_ESCAPES => (&mut self.escapes, Rule::SetEscapes),
                _ => (&mut self.auto_prompt, Rule::SetAutoPrompt),
            };
            *place = on;
            self.seen.met(rule);
        }
    }
}

fn rule_of(fault: Fault) -> Rule {
    match fault {
        Fault::Length => Rule::MessageLong,
        Fault::Type => Rule::TypeUnknown,
        Fault::CutShort => Rule::CutShort,
        Fault::LeftOver => Rule::LeftOver,
        Fault::Value => Rule::ValueUndefined,
        Fault::Selector => Rule::SelectorUndefined,
        Fault::StartReadTest => Rule::StartReadTest,
    }
}

fn carried(selector: u16) -> bool {
    matches!(selector, RAISE_INPUT | NORMAL_ECHO | INPUT_ESCAPES | AUTO_PROMPT)
}

fn read_not_carried(read: &StartRead) -> Option<Rule> {
    if read.start_of_display != 0 {
        Some(Rule::StartOfDisplay)
    } else if read.continuation {
        Some(Rule::FlagK)
    } else {
        read.vertical.then_some(Rule::FlagV)
    }
}

/// Only the bits that the MASK selects change.
fn set_attributes(table: &mut [u8; 256], values: &[Value]) {
    for value in values {
        if let Value::Attributes { character, mask, attributes } = *value {
            let place = &mut table[usize::from(character)];
            *place = *place & !mask | attributes & mask;
        }
    }
}
