//! The step after each arrival that is more than a key stored.

use super::*;

#[test]
fn hello() {
    let mut bench = waiting(b"a\r");
    assert_eq!(bench.number(MAKE_HELLO), 0);
    start(ZZ2, b"", b"").on(&mut bench);
    assert_eq!(bench.key(BAND_KEY), done("61", TOLD));
    let answer = format!("{TOLD} | 03 00 00 00 00 01 01 00 61 0D");
    assert_eq!(bench.key(BAND_KEY), done("", &answer));
    // Without a read it is told and nothing follows.
    assert_eq!(bench.key(BAND_KEY), done("", TOLD));
}

#[test]
fn hello_completes_an_immediate_timed_read() {
    let mut bench = Bench::initiated();
    assert_eq!(bench.number(MAKE_HELLO), 0);
    at_once(b"").on(&mut bench);
    assert_eq!(bench.key(BAND_KEY), done("", &format!("{TOLD} | {TIMED_OUT}")));
    // Where a key waits it is taken first.
    bench.keys(b"a");
    at_once(b"").on(&mut bench);
    assert_eq!(bench.key(BAND_KEY), done("61", TOLD));
    let answer = format!("{TOLD} | 03 05 00 00 00 01 01 00 61");
    assert_eq!(bench.key(BAND_KEY), done("", &answer));
}

#[test]
fn a_quote() {
    let mut bench = waiting(b"a");
    start(ZZ2, b"", b"").on(&mut bench);
    assert_eq!(bench.key(QUOTE_KEY), done("61", ""));
    assert_eq!(bench.key(CR), done("5E 4D", ""));
    // It marks the key that comes next, not the one that its step takes.
    let mut bench = waiting(b"\r");
    start(ZZ2, b"", b"").on(&mut bench);
    assert_eq!(bench.key(QUOTE_KEY), done("", "03 00 00 00 00 00 00 00 0D"));
    start(ZZ2, b"", b"").on(&mut bench);
    assert_eq!(bench.key(CR), done("5E 4D", ""));
}

#[test]
fn a_quote_completes_an_immediate_timed_read() {
    let mut bench = Bench::initiated();
    at_once(b"").on(&mut bench);
    assert_eq!(bench.key(QUOTE_KEY), done("", TIMED_OUT));
    // The quote outlasts the read.
    start(ZZ2, b"", b"").on(&mut bench);
    assert_eq!(bench.key(CR), done("5E 4D", ""));
}

#[test]
fn a_clear_leaves_its_step_nothing_to_take() {
    let mut bench = waiting(b"xy");
    start(ZZ1, b"", b"ab").on(&mut bench);
    assert_eq!(bench.key(CLEAR_KEY), done(&rubbed(2), ""));
    assert_eq!(count(&mut bench), 0);
    // A held token is dropped too: the read goes on.
    let mut bench = holding();
    plain().on(&mut bench);
    assert_eq!(bench.key(CLEAR_KEY), done("", ""));
    assert_eq!(bench.key(b'a'), done("61", ""));
}

#[test]
fn a_clear_completes_an_immediate_timed_read_that_is_empty_by_then() {
    let mut bench = waiting(b"xy");
    start(ZZ2 | Q, b"? ", b"ab").timeout(0).on(&mut bench);
    // Two columns behind the prompt's start, LOW-WATER fallen to its end.
    assert_eq!(bench.key(CLEAR_KEY), done(&rubbed(2), "03 05 02 00 00 02 00 00"));
    assert_eq!(count(&mut bench), 0);
}

#[test]
fn a_15_turning_discard_on_and_off() {
    let mut bench = waiting(b"ab\r");
    start(ZZ2, b"", b"").on(&mut bench);
    assert_eq!(bench.key(DISCARD_KEY), done("61", DISCARD_ON));
    assert_eq!(bench.key(DISCARD_KEY), done("62", DISCARD_OFF));
    let answer = format!("{DISCARD_ON} | 03 00 00 00 00 02 02 00 61 62 0D");
    assert_eq!(bench.key(DISCARD_KEY), done("", &answer));
    // Without a read nothing follows.
    assert_eq!(bench.key(DISCARD_KEY), done("", DISCARD_OFF));
}

#[test]
fn each_15_completes_an_immediate_timed_read() {
    let mut bench = Bench::initiated();
    for told in [DISCARD_ON, DISCARD_OFF] {
        at_once(b"").on(&mut bench);
        assert_eq!(bench.key(DISCARD_KEY), done("", &format!("{told} | {TIMED_OUT}")));
    }
}

#[test]
fn a_15_that_unlocks() {
    let mut bench = waiting(b"a");
    plain().on(&mut bench);
    assert_eq!(bench.number(LOCKING), 0);
    bench.keys(b"b");
    assert_eq!(bench.key(DISCARD_KEY), done("61", DISCARD_ON));
    assert_eq!(bench.step(), done("62", ""));
    // Discard State comes before Read Data.
    let mut bench = Bench::initiated();
    at_once(b"").on(&mut bench);
    assert_eq!(bench.number(LOCKING), 0);
    assert_eq!(bench.key(DISCARD_KEY), done("", &format!("{DISCARD_ON} | {TIMED_OUT}")));
}

#[test]
fn a_15_that_leaves_the_lock() {
    let mut bench = waiting(b"a");
    assert_eq!(bench.key(DISCARD_KEY), done("", DISCARD_ON));
    plain().on(&mut bench);
    assert_eq!(bench.number(LOCKING), 0);
    assert_eq!(bench.key(DISCARD_KEY), done("", DISCARD_OFF));
    assert_eq!(count(&mut bench), 1);
    let mut bench = Bench::initiated();
    assert_eq!(bench.key(DISCARD_KEY), done("", DISCARD_ON));
    at_once(b"").on(&mut bench);
    assert_eq!(bench.number(LOCKING), 0);
    assert_eq!(bench.key(DISCARD_KEY), done("", DISCARD_OFF));
}

#[test]
fn under_ddd_3_the_controls_are_keys_like_others() {
    let mut bench = Bench::initiated();
    start(ZZ1 | (3 * DDD), b"", b"").on(&mut bench);
    assert_eq!(bench.typed(&[QUOTE_KEY, CLEAR_KEY, DISCARD_KEY]).0, "5E 56 5E 58 5E 4F");
    assert_eq!(bench.number(LOCKING), 0);
    bench.keys(&[DISCARD_KEY]);
    assert_eq!(count(&mut bench), 1);
}

#[test]
fn a_dropped_key() {
    let mut bench = full(b"ab");
    plain().on(&mut bench);
    // BEL first, then what the step shows: the first key, not this one.
    assert_eq!(bench.key(b'z'), done("07 61", ""));
    assert_eq!((bench.dropped(), count(&mut bench)), (1, TYPE_AHEAD - 1));
    // There is room for the next.
    assert_eq!(bench.key(b'z'), done("62", ""));
    assert_eq!((bench.dropped(), count(&mut bench)), (1, TYPE_AHEAD - 1));
}

#[test]
fn a_quoted_key_that_is_dropped() {
    let mut bench = full(b"a");
    bench.keys(&[QUOTE_KEY]);
    plain().on(&mut bench);
    assert_eq!(bench.key(CR), done("07 61", ""));
    assert_eq!(bench.dropped(), 1);
}

/// 64 keys wait, so it is no timeout that completes the read.
#[test]
fn a_dropped_key_completes_an_immediate_timed_read() {
    // A terminator, shown behind BEL; 63 keys are more data.
    let mut bench = full(&[CR]);
    start(ZZ2 | T | Q, b"", b"").timeout(0).on(&mut bench);
    assert_eq!(bench.key(b'z'), done("07 0D 0A", "03 10 00 00 01 00 00 00 0D"));
    // The last room.
    let mut bench = full(b"a");
    at_once(b"x").max(2).on(&mut bench);
    assert_eq!(bench.key(b'z'), done("07 61", "03 14 01 00 00 02 02 00 78 61"));
    assert_eq!((bench.dropped(), count(&mut bench)), (1, TYPE_AHEAD - 1));
    // A held token, and all 64 keys are left.
    let mut bench = holding();
    bench.keys(&[b'k'; TYPE_AHEAD]);
    at_once(b"").on(&mut bench);
    assert_eq!(bench.key(b'z'), done("07", &token(true)));
    assert_eq!((bench.dropped(), count(&mut bench)), (1, TYPE_AHEAD));
}

#[test]
fn an_immediate_clear_leaves_no_read_to_step() {
    let told = format!("{TOLD} | 03 03 00 00 00 02 00 00");
    for locked in [false, true] {
        let mut bench = waiting(b"xy");
        assert_eq!(bench.number(MAKE_IMMEDIATE_CLEAR), 0);
        at_once(b"ab").on(&mut bench);
        assert_eq!(bench.number(if locked { LOCKING } else { UNLOCKING }), 0);
        assert_eq!(bench.key(BAND_KEY), done("", &told));
        // The next key waits for the next read, which is not held back.
        assert_eq!(bench.key(b'a'), done("", ""));
        assert_eq!(count(&mut bench), 1);
        plain().on(&mut bench);
        assert_eq!(bench.key(b'b'), done("61", ""));
    }
}

#[test]
fn an_immediate_clear_without_a_read() {
    let mut bench = holding();
    assert_eq!(bench.number(MAKE_IMMEDIATE_CLEAR), 0);
    bench.keys(b"xy");
    assert_eq!(bench.key(BAND_KEY), done("", TOLD));
    assert_eq!(count(&mut bench), 0);
}

#[test]
fn the_longest_answers() {
    let tabs = [HT; WHOLE - 1];
    let rub_outs = rubbed(spaces(tabs.len()));
    let mut bench = full(&[DELETE_LINE_KEY]);
    start(ZZ1, b"", &tabs).max(BUFFER).on(&mut bench);
    assert_eq!(bench.key(b'z'), done(&format!("07 {rub_outs}"), ""));
    // A clear rubs all out too, and its step completes an empty read.
    let mut bench = Bench::initiated();
    start(ZZ1 | Q, b"", &tabs).max(BUFFER).timeout(0).on(&mut bench);
    assert_eq!(bench.key(CLEAR_KEY), done(&rub_outs, "03 05 00 00 00 00 00 00"));
    // The longest Read Data behind an Out-of-Band.
    let mut bench = waiting(b"a");
    assert_eq!(bench.number(MAKE_HELLO), 0);
    let text = [b'x'; WHOLE - 1];
    start(ZZ1, b"", &text).max(BUFFER).on(&mut bench);
    // The top column is E7 modulo 256.
    let (low_water, end) = (word(WHOLE - 1), word(WHOLE));
    let answer = format!("{TOLD} | 03 04 {low_water} 00 E7 {end} {} 61", hex(&text));
    assert_eq!(bench.key(BAND_KEY), done("61", &answer));
}
