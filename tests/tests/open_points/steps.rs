//! Points 27 to 34: steps, tokens and ticks.

use crate::common::*;

/// The code of Read Data after a fresh read with recognition has these keys.
fn token(codes: &[u8]) -> String {
    let mut bench = Bench::initiated();
    start(ZZ2 | EE2, b"", b"").on(&mut bench);
    let (terminal, messages) = bench.typed(codes);
    assert_eq!(terminal, "");
    messages
}

#[test]
fn point_27_quoted_keys() {
    let mut bench = Bench::initiated();
    start(ZZ2 | EE2, b"", b"").on(&mut bench);
    assert_eq!(bench.typed(&[27, 22, 65]), pair("", &ended_by("01", &[27, 65])));
    start(ZZ2 | EE2 | II2, b"", b"").on(&mut bench);
    assert_eq!(bench.typed(&[22, b'a', 22, 127, 22, 27, 22, 13]).0, "61 5E 3F 5E 5B 5E 4D");
}

#[test]
fn point_28_shapes_of_tokens() {
    assert_eq!(token(&[155, 91]), ended_by("01", &[155, 91]));
    assert_eq!(token(&[27, 32, 91]), ended_by("01", &[27, 32, 91]));
    assert_eq!(token(&[27, 27]), ended_by("02", &[27, 27]));
    assert_eq!(token(&[155, 32, 48]), ended_by("02", &[155, 32, 48]));
    let mut sixteen = [b'1'; 16];
    sixteen[..2].copy_from_slice(&[27, 91]);
    assert_eq!(token(&sixteen), ended_by("02", &sixteen));
    sixteen[15] = b'~';
    assert_eq!(token(&sixteen), ended_by("01", &sixteen));
}

#[test]
fn point_28_59_63_and_79_straight_after_27() {
    for open in [[27, 59], [27, 63], [27, 79]] {
        assert_eq!(token(&open), "");
    }
    for valid in [[27, 79, 80], [27, 63, 65], [27, 59, 59], [27, 63, 79], [27, 59, 48]] {
        assert_eq!(token(&valid), ended_by("01", &valid));
    }
    for valid in [[27, 79, 91], [27, 59, 91], [27, 79, 64], [27, 63, 126]] {
        assert_eq!(token(&valid), ended_by("01", &valid));
    }
    for invalid in [[27, 79, 48], [27, 79, 63], [27, 79, 127], [27, 59, 127], [27, 63, 31]] {
        assert_eq!(token(&invalid), ended_by("02", &invalid));
    }
    assert_eq!(token(&[27, 59, 32, 47, 48]), ended_by("01", &[27, 59, 32, 47, 48]));
    assert_eq!(token(&[27, 79, 32, 47, 48]), ended_by("02", &[27, 79, 32, 47, 48]));
}

#[test]
fn point_28_59_63_and_79_elsewhere() {
    assert_eq!(token(&[27, 32, 79]), ended_by("01", &[27, 32, 79]));
    assert_eq!(token(&[27, 32, 59]), ended_by("01", &[27, 32, 59]));
    assert_eq!(token(&[155, 79]), ended_by("01", &[155, 79]));
    assert_eq!(token(&[155, 59, 63, 79]), ended_by("01", &[155, 59, 63, 79]));
    assert_eq!(token(&[27, 91, 79]), ended_by("01", &[27, 91, 79]));
}

#[test]
fn point_28_the_sixteenth_byte_of_each_form() {
    for introducer in [&[27][..], &[27, 59], &[27, 63], &[27, 79], &[27, 91], &[155]] {
        let mut sixteen = [32; 16];
        sixteen[..introducer.len()].copy_from_slice(introducer);
        assert_eq!(token(&sixteen), ended_by("02", &sixteen));
        sixteen[15] = 64;
        assert_eq!(token(&sixteen), ended_by("01", &sixteen));
    }
}

#[test]
fn point_29_a_token_longer_than_the_buffer() {
    let mut bench = Bench::initiated();
    start(ZZ2 | EE2, b"", b"").max(2).on(&mut bench);
    assert_eq!(bench.typed(&[27, 91, 7]), pair("", "03 18 00 00 00 00 00 00"));
    for _ in 0..3 {
        start(ZZ2 | EE1, b"", b"").max(2).on(&mut bench);
        assert_eq!(bench.step(), done("", "03 18 00 00 00 00 00 00"));
    }
    start(ZZ2 | EE1, b"", b"").max(3).on(&mut bench);
    assert_eq!(bench.step(), done("", &ended_by("02", &[27, 91, 7])));
}

#[test]
fn point_30_a_partial_token_in_counts() {
    let mut bench = Bench::initiated();
    start(ZZ2 | EE2 | Q, b"", b"").timeout(1).on(&mut bench);
    bench.typed(&[27, 91]);
    assert_eq!(bench.host("0C 00"), done("", "0D 00 02 00"));
    assert_eq!(bench.host("05 01"), done("", ""));
    assert_eq!(bench.tick(), done("", "03 05 00 00 00 00 00 00"));
    assert_eq!(bench.host("0C 00"), done("", "0D 00 00 00"));
}

#[test]
fn point_31_what_fills_the_buffer_keeps_its_code() {
    let mut bench = Bench::initiated();
    start(ZZ2, b"", b"").max(1).on(&mut bench);
    assert_eq!(bench.typed(&[13]), pair("", "03 00 00 00 00 00 00 00 0D"));
    start(ZZ2 | EE2, b"", b"").max(2).on(&mut bench);
    assert_eq!(bench.typed(&[27, 65]), pair("", &ended_by("01", &[27, 65])));
    start(ZZ2 | UU2 | T, b"", b"").max(1).on(&mut bench);
    assert_eq!(bench.typed(&[127]), pair("", "03 07 00 00 00 00 00 00 7F"));
}

#[test]
fn point_32_the_last_set_given() {
    let mut bench = Bench::initiated();
    start(0, b"", b"").on(&mut bench);
    assert!(bench.typed(&[13]).1.starts_with("03 00"));
    // A read that completes at once gives its set too; codes past its bytes are out.
    let mut given = start(ZZ1, b"", b"").max(0);
    given.set = vec![0, 2];
    given.on(&mut bench);
    start(ZZ2, b"", b"").set(b"q").on(&mut bench);
    bench.host(UNREAD);
    start(0, b"", b"").on(&mut bench);
    assert_eq!(bench.typed(&[b'q', 200, 13]).1, "");
    assert_eq!(bench.typed(&[9]), pair("", "03 00 00 00 00 04 03 00 71 C8 0D 09"));
}

#[test]
fn point_33_preloaded_text_is_input() {
    let mut bench = Bench::initiated();
    start(ZZ1 | II2, b"? ", b"aq").set(b"aq").on(&mut bench);
    assert_eq!(bench.host("05 01"), done("", ""));
    assert_eq!(bench.typed(&[127]), pair("08 20 08", ""));
    assert_eq!(bench.host(UNREAD), done("", "03 06 03 00 00 03 01 00 61"));
}

#[test]
fn point_34_terminator_position_without_one() {
    let mut bench = Bench::initiated();
    start(ZZ2 | Q, b"? ", b"abc").on(&mut bench);
    assert_eq!(bench.step(), done("", "03 05 05 00 00 05 03 00 61 62 63"));
}
