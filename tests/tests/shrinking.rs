//! A wrong program is found out, by a script that shows no more than it needs.

use second::compare::{difference, Difference};
use second::script::{lines, parse, run, Order, Runner};
use second::{compare, generator};

fn right(script: &[u8]) -> Vec<u8> {
    run(script).0
}

/// The second implementation, but for the answers that `wrong` gives; it is
/// told the order and those before it since the last fresh line.
fn spoiled(script: &[u8], wrong: impl Fn(&[Order], &Order) -> bool) -> Vec<u8> {
    let (mut runner, mut answers, mut before) = (Runner::default(), Vec::new(), Vec::new());
    for text in lines(script) {
        let Some(order) = parse(text) else {
            answers.extend(b"?\n");
            continue;
        };
        let reply = runner.obey(&order);
        if wrong(&before, &order) {
            answers.extend(b"9 - -\n");
        } else {
            reply.put(&mut answers);
        }
        match order {
            Order::Fresh => before.clear(),
            order => before.push(order),
        }
    }
    answers
}

fn shown(wrong: impl Fn(&[Order], &Order) -> bool) -> Difference {
    let script = generator::script(11, 3_000);
    difference(script.as_bytes(), &right, &|script| spoiled(script, &wrong)).expect("it is wrong")
}

#[test]
fn programs_that_agree_have_no_difference() {
    let script = generator::script(11, 3_000);
    assert_eq!(difference(script.as_bytes(), &right, &right), None);
}

#[test]
fn lines_that_do_not_matter_are_dropped() {
    let found = shown(|before, order| {
        let quoted = before.windows(2).any(|two| two == [Order::Key(22), Order::Key(127)]);
        quoted && *order == Order::Tick
    });
    assert_eq!(String::from_utf8_lossy(&found.script), "K 16\nK 7F\nT\n");
    assert_eq!(found.order, (3, "T".into()));
    assert_eq!((&found.expected[..], &found.answered[..]), ("0 - -", "9 - -"));
}

#[test]
fn messages_lose_the_bytes_that_do_not_matter() {
    let found = shown(|_, order| match order {
        Order::Host(bytes) => bytes.starts_with(&[7]) && bytes.contains(&65),
        _ => false,
    });
    assert_eq!(String::from_utf8_lossy(&found.script), "M 0741\n");
    assert_eq!(found.expected, "4 - -");
}

#[test]
fn a_program_that_stops_is_shown_at_its_last_order() {
    let halting = |script: &[u8]| {
        let whole = right(script);
        let end = whole.iter().position(|byte| *byte == b'?').unwrap_or(whole.len());
        whole[..end].to_vec()
    };
    let script = b"A 0 0\nS\nF\nX\nS";
    let found = difference(script, &right, &halting).unwrap();
    assert_eq!((found.script, found.order), (b"X".to_vec(), (1, "X".into())));
    assert_eq!((&found.expected[..], &found.answered[..]), ("?", ""));
}

#[test]
fn a_difference_prints_what_a_reader_needs() {
    let found = shown(|_, order| *order == Order::Tick);
    let text = "this script is not answered as expected:\n\nT\n\nline 1, \"T\"\n  expected \"0 - -\"\n  answered \"9 - -\"";
    assert_eq!(found.to_string(), text);
}

#[test]
fn an_empty_script_is_answered_by_nothing() {
    assert_eq!(compare::check(b"").calls(), 0);
}
