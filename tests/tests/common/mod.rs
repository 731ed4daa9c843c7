//! A bench: a line with what it wrote, in hexadecimal. What a test does on it
//! is done again by the proved program, which must answer the same.
#![allow(dead_code, unused_imports)]

use second::compare;
use second::line::{Answer, Areas, Line};
use second::screen::TOP;
use second::script::{self, Order, Records, Reply, Runner};
use second::settings::Form;
use std::io::Write;

pub use second::line::{MESSAGE_AREA, TERMINAL_AREA};
pub use second::message::{BUFFER, LONGEST, LONGEST_DATA, READ_DATA_HEADER, WRITE_HEADER};

/// The input buffer, as a count of characters.
pub const WHOLE: usize = BUFFER as usize;

pub fn bytes(hex: &str) -> Vec<u8> {
    let digits: Vec<u8> = hex.bytes().filter(|digit| *digit != b' ').collect();
    assert!(digits.len().is_multiple_of(2), "odd: {hex}");
    let pair = |pair: &[u8]| u8::from_str_radix(std::str::from_utf8(pair).unwrap(), 16).unwrap();
    digits.chunks(2).map(pair).collect()
}

pub fn hex(bytes: &[u8]) -> String {
    let parts: Vec<String> = bytes.iter().map(|byte| format!("{byte:02X}")).collect();
    parts.join(" ")
}

/// The answer as a reader of the page would write it: number, terminal, messages.
pub fn told(answer: &Answer) -> (u8, String, String) {
    let messages: Vec<String> = answer.messages.iter().map(|message| hex(message)).collect();
    (answer.number, hex(&answer.terminal), messages.join(" | "))
}

/// Everything goes through `obey`, which keeps the script and its answers.
#[derive(Default)]
pub struct Bench {
    /// The lengths at which the areas are lent from now on.
    pub areas: Areas,
    lent: Areas,
    runner: Runner,
    script: Vec<u8>,
    answers: Vec<u8>,
}

impl Drop for Bench {
    /// Here, so that no test can leave it out.
    fn drop(&mut self) {
        if !std::thread::panicking() {
            assert!(script::run(&self.script).0 == self.answers, "the script is not what was done");
            compare::check(&self.script);
        }
    }
}

impl Bench {
    /// A line that has accepted an Initiate.
    pub fn initiated() -> Self {
        let mut bench = Bench::default();
        assert_eq!(bench.number(INITIATE), 0);
        bench
    }

    fn obey(&mut self, order: Order) -> Reply {
        writeln!(self.script, "{order}").unwrap();
        let reply = self.runner.obey(&order);
        reply.put(&mut self.answers);
        reply
    }

    fn call(&mut self, order: Order) -> Answer {
        if self.areas != self.lent {
            self.lent = self.areas;
            self.obey(Order::Lengths(self.areas));
        }
        let Reply::Call(answer) = self.obey(order) else {
            panic!("not a call");
        };
        answer
    }

    pub fn line(&self) -> &Line {
        self.runner.line()
    }

    pub fn dropped(&mut self) -> u16 {
        let Reply::Dropped(count) = self.obey(Order::Dropped) else {
            panic!("not a count");
        };
        count
    }

    /// A message read without a line and written again, or its refusal.
    pub fn copied(&mut self, message: &[u8]) -> Result<String, u8> {
        let Reply::Copy(copy) = self.obey(Order::Read(message.to_vec())) else {
            panic!("not a copy");
        };
        copy.map(|bytes| hex(&bytes))
    }

    /// The number of a load.
    pub fn load(&mut self, own: &[u8], site: &[u8]) -> u8 {
        let records = Records { own: own.to_vec(), site: site.to_vec() };
        let Reply::Loaded(number) = self.obey(Order::Load(records)) else {
            panic!("not a load");
        };
        number
    }

    /// A section of two records.
    pub fn section(&mut self, number: u8, own: &[u8], site: &[u8]) -> String {
        let records = Records { own: own.to_vec(), site: site.to_vec() };
        let Reply::Section(section) = self.obey(Order::Ask(number, records)) else {
            panic!("not a section");
        };
        hex(&section)
    }

    /// A record of the other form, or the refusal.
    pub fn moved(&mut self, to: Form, record: &[u8]) -> Result<String, u8> {
        let Reply::Moved(moved) = self.obey(Order::Move(to, record.to_vec())) else {
            panic!("not a move");
        };
        moved.map(|bytes| hex(&bytes))
    }

    pub fn host(&mut self, message: &str) -> (u8, String, String) {
        self.host_bytes(&bytes(message))
    }

    pub fn host_bytes(&mut self, message: &[u8]) -> (u8, String, String) {
        told(&self.call(Order::Host(message.to_vec())))
    }

    pub fn number(&mut self, message: &str) -> u8 {
        self.host(message).0
    }

    pub fn key(&mut self, code: u8) -> (u8, String, String) {
        told(&self.call(Order::Key(code)))
    }

    pub fn step(&mut self) -> (u8, String, String) {
        told(&self.call(Order::Step))
    }

    pub fn tick(&mut self) -> (u8, String, String) {
        told(&self.call(Order::Tick))
    }

    /// Types the keys; gives all that was written.
    pub fn typed(&mut self, codes: &[u8]) -> (String, String) {
        let (mut terminal, mut messages) = (Vec::new(), Vec::new());
        for code in codes {
            let answer = self.call(Order::Key(*code));
            assert_eq!(answer.number, 0);
            terminal.extend(answer.terminal);
            messages.extend(answer.messages.iter().map(|message| hex(message)));
        }
        (hex(&terminal), messages.join(" | "))
    }

    /// Types keys that write nothing: most of them wait.
    pub fn keys(&mut self, codes: &[u8]) {
        for code in codes {
            assert_eq!(self.key(*code), done("", ""));
        }
    }

    /// These calls leave the line alone.
    pub fn unchanged(&mut self, calls: impl FnOnce(&mut Bench)) {
        let mut before = self.line().clone();
        calls(self);
        before.seen = self.line().seen.clone();
        assert!(before == *self.line(), "the line changed");
    }

    /// The call answers this number, writes nothing and leaves the line alone.
    pub fn refused(&mut self, number: u8, message: &[u8]) {
        self.unchanged(|bench| {
            let answer = (number, String::new(), String::new());
            assert_eq!(bench.host_bytes(message), answer, "{}", hex(message));
        });
    }
}

/// An Initiate without parameters, and an Unread (always).
pub const INITIATE: &str = "01 00 01 00 00 20 20 20 20 20 20 20 20";
pub const UNREAD: &str = "05 00";

/// What a line answers to an Initiate: 2,048 and 1,024 stand in it.
pub const OUR_INITIATE: &str =
    "01 00 01 00 00 20 20 20 20 20 20 20 20 01 02 00 08 02 02 00 04 03 02 FE 7F";

/// Writes without output that lock and unlock.
pub const LOCKING: &str = "07 01 00 00 00";
pub const UNLOCKING: &str = "07 00 00 00 00";

/// The key that tests make out-of-band, and how; the Out-of-Band that it sends.
pub const BAND_KEY: u8 = 3;
pub const MAKE_HELLO: &str = "0B 00 02 02 03 03 03";
pub const MAKE_IMMEDIATE_CLEAR: &str = "0B 00 02 02 03 03 01";
pub const TOLD: &str = "04 00 03";

/// A Start Read to be filled in: flags, lengths, set and data.
pub struct Start {
    pub flags: u32,
    pub max: u16,
    pub timeout: u16,
    pub prompt: u16,
    pub display: u16,
    pub low: Option<u16>,
    pub set: Vec<u8>,
    pub data: Vec<u8>,
}

pub const UU1: u32 = 1;
pub const UU2: u32 = 2;
pub const C: u32 = 1 << 2;
pub const F: u32 = 1 << 3;
pub const V: u32 = 1 << 4;
pub const K: u32 = 1 << 5;
pub const II1: u32 = 1 << 6;
pub const II2: u32 = 2 << 6;
pub const DDD: u32 = 1 << 8;
pub const N: u32 = 1 << 11;
pub const T: u32 = 1 << 12;
pub const Q: u32 = 1 << 13;
pub const ZZ1: u32 = 1 << 14;
pub const ZZ2: u32 = 2 << 14;
pub const EE1: u32 = 1 << 16;
pub const EE2: u32 = 2 << 16;

/// The prompt and what follows it, in a buffer of 80.
pub fn start(flags: u32, prompt: &[u8], rest: &[u8]) -> Start {
    let data = [prompt, rest].concat();
    let prompt = prompt.len() as u16;
    Start { flags, max: 80, timeout: 0, prompt, display: 0, low: None, set: Vec::new(), data }
}

impl Start {
    pub fn max(mut self, max: u16) -> Self {
        self.max = max;
        self
    }

    pub fn timeout(mut self, timeout: u16) -> Self {
        self.timeout = timeout;
        self
    }

    /// A set with these codes, all 32 bytes given.
    pub fn set(mut self, codes: &[u8]) -> Self {
        self.set = vec![0; 32];
        for code in codes {
            self.set[usize::from(code / 8)] |= 1 << (code % 8);
        }
        self
    }

    pub fn bytes(&self) -> Vec<u8> {
        let mut bytes = vec![2];
        bytes.extend(&self.flags.to_le_bytes()[..3]);
        let end = self.data.len() as u16 + self.display;
        let low = self.low.unwrap_or(end);
        for word in [self.max, end, self.timeout, self.prompt, self.display, low] {
            bytes.extend(word.to_le_bytes());
        }
        bytes.push(self.set.len() as u8);
        bytes.extend(&self.set);
        bytes.extend(&self.data);
        bytes
    }

    /// Starts on a bench and gives what the call wrote.
    pub fn on(&self, bench: &mut Bench) -> (String, String) {
        let (number, terminal, messages) = bench.host_bytes(&self.bytes());
        assert_eq!(number, 0, "{}", hex(&self.bytes()));
        (terminal, messages)
    }
}

pub fn pair(terminal: &str, messages: &str) -> (String, String) {
    (terminal.to_string(), messages.to_string())
}

pub fn done(terminal: &str, messages: &str) -> (u8, String, String) {
    (0, terminal.to_string(), messages.to_string())
}

/// The Read Data of a read that showed nothing: its completion code, and these bytes,
/// which ended it.
pub fn ended_by(completion: &str, codes: &[u8]) -> String {
    format!("03 {completion} 00 00 00 00 00 00 {}", hex(codes))
}

/// The answers of both programs to a script.
pub fn run(text: &str) -> String {
    compare::check(text.as_bytes());
    String::from_utf8(script::run(text.as_bytes()).0).unwrap()
}

/// A number in two bytes, low byte first.
pub fn word(number: usize) -> String {
    hex(&(number as u16).to_le_bytes())
}

/// The columns of a tab, and how many tabs go from column 0 to the top.
const TAB: usize = 8;
pub const TABS_TO_TOP: usize = (TOP as usize).div_ceil(TAB);

/// How many spaces the echo of so many tabs has from column 0: at the top each has
/// one.
pub fn spaces(tabs: usize) -> usize {
    tabs.min(TABS_TO_TOP) * TAB + tabs.saturating_sub(TABS_TO_TOP)
}

/// What rubbing out so many marks writes.
pub fn rubbed(marks: usize) -> String {
    "08 20 08 ".repeat(marks).trim_end().to_owned()
}
