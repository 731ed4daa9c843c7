//! The termination test comes after raising.

use super::*;

/// Nothing shown, and the Read Data of a read that this code ended.
fn caught(code: u8) -> (String, String) {
    pair("", &ended_by("00", &[code]))
}

#[test]
fn a_set_that_holds_192_to_222_catches_small_accents() {
    let capitals: Vec<u8> = (192..=222).collect();
    for small in small_accents() {
        let capital = less_32(small);
        for (set, typed) in [(&capitals[..], small), (&[capital], small), (&[capital], capital)] {
            let mut bench = raising().set(set).pending();
            assert_eq!(bench.typed(&[typed]), caught(capital));
        }
    }
}

#[test]
fn code_215_is_caught_as_itself_alone() {
    // Without echo the column stays 0.
    let mut bench = raising().set(&[MULTIPLICATION_SIGN]).with(N).pending();
    assert_eq!(bench.typed(&[DIVISION_SIGN]), pair("", ""));
    let ended = bench.typed(&[MULTIPLICATION_SIGN]);
    assert_eq!(ended, pair("", "03 00 00 00 00 00 01 00 F7 D7"));
}

#[test]
fn a_set_that_holds_small_accents_does_not_catch_them() {
    let read = raising().set(&small_accents());
    assert_eq!(read.taken(&small_accents()), each_less_32(&small_accents()));
}

#[test]
fn without_raising_a_set_catches_the_small_accents_that_it_holds() {
    for small in small_accents() {
        let mut bench = plain().set(&[small]).pending();
        assert_eq!(bench.typed(&[small]), caught(small));
        // A set with the capital alone does not catch it.
        assert_eq!(plain().set(&[less_32(small)]).taken(&[small]), [small]);
    }
}

#[test]
fn codes_223_247_and_255_are_caught_as_themselves() {
    for code in STAYING {
        for read in [raising(), plain()] {
            let mut bench = read.set(&[code]).pending();
            assert_eq!(bench.typed(&[code]), caught(code));
        }
        assert_eq!(raising().set(&[less_32(code)]).taken(&[code]), [code]);
    }
}

#[test]
fn the_last_set_given_is_tested_after_raising_too() {
    let mut bench = plain().set(&[CAPITAL_E_ACUTE]).pending();
    assert_eq!(bench.typed(&[SMALL_E_ACUTE]), pair("E9", ""));
    assert_eq!(input(&mut bench), [SMALL_E_ACUTE]);
    start(II2, b"", b"").on(&mut bench);
    assert_eq!(bench.typed(&[SMALL_E_ACUTE]), caught(CAPITAL_E_ACUTE));
}
