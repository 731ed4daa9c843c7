//! Points 20 to 26: keys.

use crate::common::*;

#[test]
fn point_20_a_pending_quote_waits_for_its_key() {
    let mut bench = Bench::initiated();
    start(ZZ2, b"", b"").on(&mut bench);
    bench.key(22);
    assert_eq!(bench.number("06 00"), 0);
    assert_eq!(bench.number(UNREAD), 0);
    start(ZZ2 | C | (3 * DDD), b"", b"").on(&mut bench);
    assert_eq!(bench.typed(&[13]), pair("5E 4D", ""));
    // A quoted key that is dropped clears it too.
    let mut bench = Bench::initiated();
    bench.keys(&[b'k'; 64]);
    bench.key(22);
    assert_eq!(bench.key(13), done("07", ""));
    start(ZZ2 | C, b"", b"").on(&mut bench);
    assert!(bench.typed(&[13]).1.starts_with("03 00"));
}

#[test]
fn point_21_clearing_under_ddd() {
    let mut bench = Bench::initiated();
    assert_eq!(bench.number(MAKE_HELLO), 0);
    start(ZZ2 | (3 * DDD), b"", b"").on(&mut bench);
    assert_eq!(bench.key(3), done("", "04 00 03"));
    bench.host(UNREAD);
    for ddd in 1..3 {
        start(UU2 | ZZ2 | (ddd * DDD), b"", b"ab").on(&mut bench);
        assert_eq!(bench.key(24), done("08 20 08 08 20 08", ""));
        assert_eq!(bench.key(24), done("", ""));
        assert_eq!(bench.host(UNREAD), done("", "03 06 00 00 00 00 00 00"));
    }
    // Stored under DDD 3; a lock lets it wait.
    start(UU2 | ZZ2 | (3 * DDD), b"", b"ab").on(&mut bench);
    assert_eq!(bench.number(LOCKING), 0);
    assert_eq!(bench.key(24), done("", ""));
    assert_eq!(bench.host("0C 00"), done("", "0D 00 01 00"));
    assert_eq!(bench.host("06 00"), done("08 20 08 08 20 08", ""));
}

#[test]
fn point_22_one_discard_state() {
    let mut bench = Bench::initiated();
    assert_eq!(bench.key(15), done("", "09 00"));
    start(ZZ2, b"? ", b"").on(&mut bench);
    assert_eq!(bench.host("07 10 00 00 00 41"), done("", ""));
    assert_eq!(bench.host("07 08 00 00 00 41"), done("41", ""));
    assert_eq!(bench.key(15), done("", "09 00"));
    assert_eq!(bench.key(15), done("", "09 01"));
}

#[test]
fn point_23_our_out_of_band_has_no_flag() {
    let mut bench = Bench::initiated();
    assert_eq!(bench.number("0B 00 02 02 03 FF 7D"), 0);
    assert_eq!(bench.key(3), done("", "04 00 03"));
    assert_eq!(bench.host("07 00 00 00 00 41"), done("41", ""));
}

#[test]
fn point_24_what_sets_idle_to_zero() {
    let timed_out = |codes: &[u8], ticks: usize| {
        let mut bench = Bench::initiated();
        bench.number(MAKE_HELLO);
        start(ZZ2 | Q | EE2, b"", b"").timeout(3).on(&mut bench);
        bench.tick();
        bench.tick();
        bench.typed(codes);
        (0..ticks).any(|_| !bench.tick().2.is_empty())
    };
    assert!(timed_out(&[], 1));
    assert!(timed_out(&[22], 1));
    assert!(timed_out(&[24, 15, 3], 1));
    assert!(!timed_out(b"a", 2));
    assert!(timed_out(b"a", 3));
    assert!(!timed_out(&[27], 2));
    // So does a key that is stored and cleared before any read takes it.
    let mut bench = Bench::initiated();
    start(ZZ2 | Q, b"", b"").timeout(2).on(&mut bench);
    assert_eq!(bench.tick(), done("", ""));
    assert_eq!(bench.number(LOCKING), 0);
    bench.keys(&[b'a', 24]);
    assert_eq!(bench.tick(), done("", ""));
    assert_eq!(bench.tick(), done("", "03 05 00 00 00 00 00 00"));
}

#[test]
fn point_25_an_out_of_band_completion() {
    let mut bench = Bench::initiated();
    assert_eq!(bench.number(MAKE_IMMEDIATE_CLEAR), 0);
    bench.keys(b"xy");
    start(ZZ2, b"? ", b"abc").on(&mut bench);
    let answer = "04 00 03 | 03 03 02 00 00 05 00 00";
    assert_eq!(bench.key(3), done("", answer));
    assert_eq!(bench.host("0C 00"), done("", "0D 00 00 00"));
}

#[test]
fn point_26_bel_without_echo() {
    let mut bench = Bench::initiated();
    start(UU1 | ZZ2 | N, b"", b"").on(&mut bench);
    assert_eq!(bench.typed(&[127, 23]), pair("07 07", ""));
    assert_eq!(bench.number(UNREAD), 0);
    bench.keys(&[b'k'; 64]);
    start(ZZ2 | N, b"", b"").on(&mut bench);
    assert_eq!(bench.key(b'k'), done("07", ""));
}
