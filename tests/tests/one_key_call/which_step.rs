//! When the step follows, and what it takes.

use super::*;

#[test]
fn a_key_and_its_step_have_one_answer() {
    let mut bench = Bench::initiated();
    start(T | ZZ2, b"", b"").on(&mut bench);
    assert_eq!(bench.key(b'a'), done("61", ""));
    assert_eq!(bench.key(CR), done("0D 0A", "03 00 00 00 01 00 01 00 61 0D"));
    assert_eq!(count(&mut bench), 0);
}

#[test]
fn the_step_takes_the_first_key_that_waits() {
    let mut bench = waiting(b"ab");
    plain().on(&mut bench);
    assert_eq!(bench.key(b'c'), done("61", ""));
    assert_eq!(count(&mut bench), 2);
    // One step a call: the others wait for bare steps, or for the next keys.
    assert_eq!(bench.key(b'd'), done("62", ""));
    assert_eq!(bench.step(), done("63", ""));
    assert_eq!(bench.step(), done("64", ""));
    assert_eq!(bench.step(), done("", ""));
}

#[test]
fn a_quoted_key_waits_its_turn() {
    let mut bench = waiting(&[b'a', QUOTE_KEY]);
    start(ZZ2, b"", b"").on(&mut bench);
    assert_eq!(bench.key(CR), done("61", ""));
    assert_eq!(bench.step(), done("5E 4D", ""));
}

#[test]
fn a_key_that_completes_leaves_the_others() {
    let mut bench = waiting(b"a\rb");
    start(ZZ2, b"", b"").on(&mut bench);
    assert_eq!(bench.key(b'c'), done("61", ""));
    assert_eq!(bench.key(b'd'), done("", "03 10 00 00 00 01 01 00 61 0D"));
    assert_eq!(count(&mut bench), 3);
    // No read: the key waits behind them.
    assert_eq!(bench.key(b'e'), done("", ""));
    assert_eq!(count(&mut bench), 4);
    plain().on(&mut bench);
    assert_eq!(bench.key(b'f'), done("62", ""));
    // The key that arrived is more data itself.
    let mut bench = waiting(b"\r");
    start(ZZ2, b"", b"").on(&mut bench);
    assert_eq!(bench.key(b'a'), done("", "03 10 00 00 00 00 00 00 0D"));
    assert_eq!(count(&mut bench), 1);
}

#[test]
fn a_held_token_goes_first() {
    let mut bench = holding();
    plain().on(&mut bench);
    assert_eq!(bench.key(b'a'), done("", &token(true)));
    // One that finds no room again leaves the key and stays held.
    let mut bench = holding();
    plain().max(3).on(&mut bench);
    assert_eq!(bench.key(b'a'), done("", "03 18 00 00 00 00 00 00"));
    assert_eq!(count(&mut bench), 5);
}

#[test]
fn a_key_goes_into_a_token_in_its_own_call() {
    let mut bench = Bench::initiated();
    start(ZZ2 | EE2, b"", b"").on(&mut bench);
    bench.keys(&[ESC, b'O']);
    assert_eq!(bench.key(b'P'), done("", "03 01 00 00 00 00 00 00 1B 4F 50"));
}

#[test]
fn without_a_read_a_key_waits() {
    let mut bench = waiting(b"ab");
    assert_eq!(count(&mut bench), 2);
    // Nor does a read that is gone take it.
    plain().on(&mut bench);
    assert_eq!(bench.number(UNREAD), 0);
    assert_eq!(bench.key(b'c'), done("", ""));
    assert_eq!(count(&mut bench), 3);
}

#[test]
fn on_a_locked_line_a_key_is_stored_and_no_step_follows() {
    let mut bench = waiting(b"a");
    plain().on(&mut bench);
    assert_eq!(bench.number(LOCKING), 0);
    bench.keys(&[b'b', QUOTE_KEY, CR]);
    assert_eq!(count(&mut bench), 3);
    assert_eq!(bench.number(UNLOCKING), 0);
    assert_eq!(bench.key(b'c'), done("61", ""));
    assert_eq!((bench.step(), bench.step()), (done("62", ""), done("5E 4D", "")));
}

#[test]
fn on_a_locked_line_no_key_completes_an_immediate_timed_read() {
    let mut bench = Bench::initiated();
    assert_eq!(bench.number(MAKE_HELLO), 0);
    at_once(b"").on(&mut bench);
    assert_eq!(bench.number(LOCKING), 0);
    assert_eq!(bench.key(BAND_KEY), done("", TOLD));
    bench.keys(&[QUOTE_KEY, b'q', CLEAR_KEY]);
    assert_eq!(bench.number(UNLOCKING), 0);
    assert_eq!(bench.step(), done("", TIMED_OUT));
}

#[test]
fn a_dropped_key_on_a_locked_line_is_bel_alone() {
    let mut bench = full(b"a");
    plain().on(&mut bench);
    assert_eq!(bench.number(LOCKING), 0);
    assert_eq!(bench.key(b'z'), done("07", ""));
    assert_eq!((bench.dropped(), count(&mut bench)), (1, TYPE_AHEAD));
}

#[test]
fn before_initiate_rule_4_alone_acts() {
    let mut bench = Bench::default();
    // A load has made a key out-of-band.
    assert_eq!(bench.load(&[1, 0, 0, 2, 0, 3, 1, 0, 0, 0, 0], &[1, 0, 0, 0, 0, 0, 0, 0, 0]), 0);
    bench.keys(&[QUOTE_KEY, DISCARD_KEY, CLEAR_KEY, BAND_KEY]);
    bench.keys(&[b'k'; TYPE_AHEAD - 4]);
    assert_eq!(bench.key(b'z'), done("07", ""));
    assert_eq!(bench.dropped(), 1);
    assert_eq!(bench.number(INITIATE), 0);
    assert_eq!(count(&mut bench), TYPE_AHEAD);
    plain().on(&mut bench);
    for shown in ["5E 56", "5E 4F", "5E 58", "5E 43"] {
        assert_eq!(bench.step(), done(shown, ""));
    }
}

#[test]
fn in_a_small_area_the_key_does_not_arrive() {
    for (terminal, message) in
        [(TERMINAL_AREA - 1, MESSAGE_AREA), (TERMINAL_AREA, MESSAGE_AREA - 1), (0, 0)]
    {
        let mut bench = full(b"ab");
        plain().on(&mut bench);
        let lent = bench.areas;
        bench.areas.terminal = terminal;
        bench.areas.message = message;
        bench.unchanged(|bench| {
            for code in [b'z', QUOTE_KEY, CLEAR_KEY, DISCARD_KEY] {
                assert_eq!(bench.key(code), (1, String::new(), String::new()));
            }
        });
        bench.areas = lent;
        assert_eq!((bench.dropped(), count(&mut bench)), (0, TYPE_AHEAD));
        assert_eq!(bench.step(), done("61", ""));
        assert_eq!(bench.key(b'z'), done("62", ""));
    }
}

#[test]
fn the_bare_step_stays() {
    let mut bench = waiting(b"ab\r");
    start(ZZ2, b"", b"").on(&mut bench);
    assert_eq!(bench.step(), done("61", ""));
    assert_eq!(bench.step(), done("62", ""));
    assert_eq!(bench.step(), done("", "03 00 00 00 00 02 02 00 61 62 0D"));
    assert_eq!(bench.step(), done("", ""));
}
