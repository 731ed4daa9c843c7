//! Answers longer than 132 (M-107): the sizes, numbers that need both bytes, and
//! what the screen gets about the top column. Settings records are in `settings`.

mod common;

#[path = "long_answers/numbers.rs"]
mod numbers;
#[path = "long_answers/screen.rs"]
mod screen;
#[path = "long_answers/sizes.rs"]
mod sizes;

use common::*;
use second::line::steps::{DELETE_KEY, DELETE_LINE_KEY, DELETE_WORD_KEY, REDISPLAY_KEY};
use second::screen::{CR, HT, TOP};

/// A read that only an end of room or an Unread completes, with all the room that
/// there is.
fn roomy(prompt: &[u8], text: &[u8]) -> Start {
    start(ZZ1, prompt, text).max(BUFFER)
}
