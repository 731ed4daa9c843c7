//! A key arrives and its step follows, in one call with one answer (M-104): each
//! sentence of the request, and what the sentences make of each other.

mod common;

#[path = "one_key_call/after_arrival.rs"]
mod after_arrival;
#[path = "one_key_call/which_step.rs"]
mod which_step;

use common::*;
use second::line::arrival::{CLEAR_KEY, DISCARD_KEY, QUOTE_KEY};
use second::line::steps::DELETE_LINE_KEY;
use second::line::tokens::ESC;
use second::line::TYPE_AHEAD;
use second::screen::{CR, HT};

const DISCARD_ON: &str = "09 00";
const DISCARD_OFF: &str = "09 01";
const TIMED_OUT: &str = "03 05 00 00 00 00 00 00";

/// A line on which these keys wait for a read.
fn waiting(codes: &[u8]) -> Bench {
    let mut bench = Bench::initiated();
    bench.keys(codes);
    bench
}

/// Type-ahead is full, and these keys are the first of it.
fn full(first: &[u8]) -> Bench {
    let mut codes = [b'k'; TYPE_AHEAD];
    codes[..first.len()].copy_from_slice(first);
    waiting(&codes)
}

/// A token of four bytes is held; no read is pending.
fn holding() -> Bench {
    let mut bench = Bench::initiated();
    start(ZZ2 | EE2, b"", b"").max(2).on(&mut bench);
    let absentee = pair("", "03 18 00 00 00 00 00 00");
    assert_eq!(bench.typed(&[ESC, b'[', b'5', b'~']), absentee);
    bench
}

/// The token that `holding` leaves, returned; more-data if keys wait.
fn token(more: bool) -> String {
    let code = if more { "11" } else { "01" };
    format!("03 {code} 00 00 00 00 00 00 1B 5B 35 7E")
}

/// How many keys wait, as Check Input tells it.
fn count(bench: &mut Bench) -> usize {
    let (number, _, answer) = bench.host("0C 00");
    assert_eq!(number, 0);
    usize::from(bytes(&answer)[2])
}

/// An immediate timed read without a terminator, with this text in it.
fn at_once(text: &[u8]) -> Start {
    start(ZZ1 | Q, b"", text).timeout(0)
}

/// A read without a terminator.
fn plain() -> Start {
    start(ZZ1, b"", b"")
}
