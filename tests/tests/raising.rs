//! Raised accents (M-108), sentence by sentence.

mod common;

#[path = "raising/codes.rs"]
mod codes;
#[path = "raising/hidden.rs"]
mod hidden;
#[path = "raising/reads.rs"]
mod reads;
#[path = "raising/screen.rs"]
mod screen;
#[path = "raising/sets.rs"]
mod sets;
#[path = "raising/spared.rs"]
mod spared;

use common::*;
use second::line::arrival::QUOTE_KEY;
use second::line::steps::{DELETE_KEY, DELETE_WORD_KEY, REDISPLAY_KEY};
use second::line::tokens::ESC;
use second::message::READ_DATA;
use second::screen::{CR, HT};

/// A small letter with its capital, and two signs, no letters, that are 32 apart too.
const SMALL_E_ACUTE: u8 = 233;
const CAPITAL_E_ACUTE: u8 = 201;
const DIVISION_SIGN: u8 = 247;
const MULTIPLICATION_SIGN: u8 = 215;

/// Letters before the small accents and behind them, and the sign among them.
const STAYING: [u8; 3] = [223, DIVISION_SIGN, 255];

fn all_codes() -> Vec<u8> {
    (0..=255).collect()
}

/// 224 to 254 except 247.
fn small_accents() -> Vec<u8> {
    (224..=246).chain(248..=254).collect()
}

fn less_32(code: u8) -> u8 {
    code - 32
}

fn each_less_32(codes: &[u8]) -> Vec<u8> {
    codes.iter().copied().map(less_32).collect()
}

/// A read that raises, without a terminator and with room for every code.
fn raising() -> Start {
    start(ZZ1 | II2, b"", b"").max(BUFFER)
}

/// The same, but that it does not raise.
fn plain() -> Start {
    start(ZZ1 | II1, b"", b"").max(BUFFER)
}

impl Start {
    /// With these flags too.
    fn with(mut self, flags: u32) -> Self {
        self.flags |= flags;
        self
    }

    /// A line on which the read is pending.
    fn pending(&self) -> Bench {
        let mut bench = Bench::initiated();
        assert_eq!(self.on(&mut bench).1, "");
        bench
    }

    /// What it takes of these keys, none of which ends it.
    fn taken(&self, codes: &[u8]) -> Vec<u8> {
        let mut bench = self.pending();
        assert_eq!(bench.typed(codes).1, "");
        input(&mut bench)
    }
}

/// Ends the read; gives what was in it.
fn input(bench: &mut Bench) -> Vec<u8> {
    let mut message = bytes(&bench.host(UNREAD).2);
    message.split_off(READ_DATA_HEADER)
}
