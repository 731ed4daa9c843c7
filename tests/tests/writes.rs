//! One test or more for each of points 99 to 109 of `docs/DECISIONS.md` (request
//! M-103). 98 is their order, and 110 the program's own.

mod common;

#[path = "writes/locks.rs"]
mod locks;
#[path = "writes/mark.rs"]
mod mark;
#[path = "writes/output.rs"]
mod output;
#[path = "writes/redisplay.rs"]
mod redisplay;

use common::*;
use second::line::arrival::{CLEAR_KEY, DISCARD_KEY, QUOTE_KEY};
use second::line::steps::{DELETE_KEY, REDISPLAY_KEY};
use second::line::tokens::ESC;
use second::message;
use second::screen::{CR, HT, LF};

/// FLAGS of Write by 000's letters; UU by what it does.
const LOCK: u16 = message::LOCK as u16;
const UNLOCK_AFTER: u16 = message::UNLOCK_AFTER as u16;
const REDISPLAY_AFTER: u16 = message::REDISPLAY_AFTER as u16;
const L: u16 = 1 << 2;
const D: u16 = 1 << 3;
const B: u16 = 1 << 4;
const E: u16 = 1 << 5;
const PP1: u16 = 1 << 6;
const PP2: u16 = 2 << 6;
const QQ1: u16 = 1 << 8;
const QQ2: u16 = 2 << 8;
const S: u16 = 1 << 10;

/// A Write to be filled in.
struct Write {
    flags: u16,
    prefix: u8,
    postfix: u8,
    data: Vec<u8>,
}

fn write(flags: u16, data: &[u8]) -> Write {
    Write { flags, prefix: 0, postfix: 0, data: data.to_vec() }
}

impl Write {
    fn prefix(mut self, value: u8) -> Self {
        self.prefix = value;
        self
    }

    fn postfix(mut self, value: u8) -> Self {
        self.postfix = value;
        self
    }

    /// Sends it to a bench and gives what the call wrote.
    fn on(&self, bench: &mut Bench) -> (String, String) {
        let mut bytes = vec![7];
        bytes.extend(self.flags.to_le_bytes());
        bytes.extend([self.prefix, self.postfix]);
        bytes.extend(&self.data);
        let (number, terminal, messages) = bench.host_bytes(&bytes);
        assert_eq!(number, 0, "{}", hex(&bytes));
        (terminal, messages)
    }

    /// What it writes to the terminal, for one that sends no message.
    fn shown(&self, bench: &mut Bench) -> String {
        let (terminal, messages) = self.on(bench);
        assert_eq!(messages, "");
        terminal
    }
}

/// A read with the prompt `? ` and `ab` typed into it: column 4.
fn half_typed(flags: u32) -> Bench {
    let mut bench = Bench::initiated();
    assert_eq!(start(flags | ZZ1, b"? ", b"").on(&mut bench), pair("3F 20", ""));
    bench.typed(b"ab");
    bench
}
