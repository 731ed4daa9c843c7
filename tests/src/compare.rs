//! Compares what two programs answer to the same script. A difference is
//! shown by a script that is as short as could be found.

use crate::coverage::Coverage;
use crate::replay;
use crate::script::{self, lines, parse, Order};
use std::fmt;

/// From a script to its answers.
pub type Program<'a> = &'a dyn Fn(&[u8]) -> Vec<u8>;

/// The first order of a script that is not answered as expected.
#[derive(Clone, Debug, PartialEq, Eq)]
pub struct Difference {
    pub script: Vec<u8>,
    /// The order's number, from 1, and its text.
    pub order: (usize, String),
    pub expected: String,
    pub answered: String,
}

impl fmt::Display for Difference {
    fn fmt(&self, to: &mut fmt::Formatter) -> fmt::Result {
        let (number, text) = &self.order;
        writeln!(to, "this script is not answered as expected:\n")?;
        writeln!(to, "{}", String::from_utf8_lossy(&self.script))?;
        writeln!(to, "line {number}, {text:?}")?;
        writeln!(to, "  expected {:?}", self.expected)?;
        write!(to, "  answered {:?}", self.answered)
    }
}

/// Panics with a difference if the proved program does not answer as the
/// second implementation does; gives what occurred.
pub fn check(script: &[u8]) -> Coverage {
    let (expected, seen) = script::run(script);
    if replay::run(script) != expected {
        let found = difference(script, &|script| script::run(script).0, &replay::run);
        panic!("{}", found.expect("the same script differs again"));
    }
    seen
}

/// The difference of two programs on this script, shrunk.
pub fn difference(script: &[u8], expected: Program, program: Program) -> Option<Difference> {
    let differs = |script: &[u8]| expected(script) != program(script);
    if !differs(script) {
        return None;
    }
    let script = shrunk(script, &differs);
    Some(first(&script, &expected(&script), &program(&script)))
}

/// Orders without an answer are passed over, so that answers stand beside
/// their orders.
fn first(script: &[u8], expected: &[u8], answered: &[u8]) -> Difference {
    let silent = |text: &[u8]| matches!(parse(text), Some(Order::Lengths(_) | Order::Fresh));
    let mut orders = lines(script).enumerate().filter(|(_, text)| !silent(text));
    let newline = |byte: &u8| *byte == b'\n';
    let (mut expected, mut answered) = (expected.split(newline), answered.split(newline));
    loop {
        let (place, text) = orders.next().unwrap_or((lines(script).count(), b"(the end)"));
        let (wanted, given) = (expected.next(), answered.next());
        if wanted != given || wanted.is_none() {
            let shown = |text: &[u8]| String::from_utf8_lossy(text).into_owned();
            return Difference {
                script: script.to_vec(),
                order: (place + 1, shown(text)),
                expected: shown(wanted.unwrap_or_default()),
                answered: shown(given.unwrap_or_default()),
            };
        }
    }
}

/// Drops lines, then bytes of lines, until no more can go. A last newline that
/// lacks stays so.
fn shrunk(script: &[u8], differs: &dyn Fn(&[u8]) -> bool) -> Vec<u8> {
    let end: &[u8] = if script.ends_with(b"\n") { b"\n" } else { b"" };
    let joined = |texts: &[Vec<u8>]| [&texts.join(&b'\n'), end].concat();
    let mut texts: Vec<Vec<u8>> = lines(script).map(<[u8]>::to_vec).collect();
    loop {
        let length = joined(&texts).len();
        texts = without(texts, &|fewer| differs(&joined(fewer)));
        for place in 0..texts.len() {
            texts[place] = without(texts[place].clone(), &|shorter| {
                let mut shortened = texts.clone();
                shortened[place] = shorter.to_vec();
                differs(&joined(&shortened))
            });
        }
        if joined(&texts).len() == length {
            return joined(&texts);
        }
    }
}

/// Drops runs of items, the longest first, as long as what is left holds.
/// Their lengths are powers of two, so a message loses whole pairs of digits.
fn without<T: Clone>(mut items: Vec<T>, holds: &dyn Fn(&[T]) -> bool) -> Vec<T> {
    let mut length = items.len().next_power_of_two();
    while length > 0 {
        let mut place = 0;
        while place < items.len() {
            let end = items.len().min(place + length);
            let fewer = [&items[..place], &items[end..]].concat();
            if holds(&fewer) {
                items = fewer;
            } else {
                place = end;
            }
        }
        length /= 2;
    }
    items
}
