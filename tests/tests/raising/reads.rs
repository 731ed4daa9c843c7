//! Which reads raise, and which keys.

use super::*;

/// Characteristics that turn raise input on and off.
const RAISE_ON: &str = "0B 00 04 02 01";
const RAISE_OFF: &str = "0B 00 04 02 00";

#[test]
fn raising_is_fixed_by_ii_and_the_characteristic() {
    let reads = [
        (II2, RAISE_OFF, "C9"),
        (II2, RAISE_ON, "C9"),
        (II1, RAISE_OFF, "E9"),
        (II1, RAISE_ON, "E9"),
        (0, RAISE_OFF, "E9"),
        (0, RAISE_ON, "C9"),
    ];
    for (flags, characteristics, shown) in reads {
        let mut bench = Bench::initiated();
        assert_eq!(bench.number(characteristics), 0);
        start(ZZ1 | flags, b"", b"").on(&mut bench);
        assert_eq!(bench.typed(&[SMALL_E_ACUTE]).0, shown);
    }
}

#[test]
fn later_characteristics_act_from_the_next_read() {
    let turns = [(RAISE_OFF, RAISE_ON, "E9", "C9"), (RAISE_ON, RAISE_OFF, "C9", "E9")];
    for (before, later, this_read, next_read) in turns {
        let mut bench = Bench::initiated();
        assert_eq!(bench.number(before), 0);
        start(ZZ1, b"", b"").on(&mut bench);
        assert_eq!(bench.number(later), 0);
        assert_eq!(bench.typed(&[SMALL_E_ACUTE]).0, this_read);
        assert_eq!(bench.number(UNREAD), 0);
        start(ZZ1, b"", b"").on(&mut bench);
        assert_eq!(bench.typed(&[SMALL_E_ACUTE]).0, next_read);
    }
}

#[test]
fn type_ahead_is_raised_by_the_read_that_takes_it() {
    let mut bench = Bench::initiated();
    assert_eq!(bench.number(RAISE_ON), 0);
    bench.keys(&[SMALL_E_ACUTE; 3]);
    // It raises the first and is ended by it; the others are the next reads'.
    raising().set(&[CAPITAL_E_ACUTE]).on(&mut bench);
    assert_eq!(bench.step(), done("", "03 10 00 00 00 00 00 00 C9"));
    plain().on(&mut bench);
    assert_eq!(bench.step(), done("E9", ""));
    assert_eq!(bench.number(UNREAD), 0);
    raising().on(&mut bench);
    assert_eq!(bench.step(), done("C9", ""));
}

/// Characteristics that make a code out-of-band, hello.
fn hello(code: u8) -> String {
    format!("0B 00 02 02 {code:02X} 03 03")
}

#[test]
fn out_of_band_is_tested_on_the_code_that_was_typed() {
    for (band, other) in [(CAPITAL_E_ACUTE, SMALL_E_ACUTE), (SMALL_E_ACUTE, CAPITAL_E_ACUTE)] {
        let mut bench = raising().pending();
        assert_eq!(bench.number(&hello(band)), 0);
        assert_eq!(bench.typed(&[other]), pair("C9", ""));
        assert_eq!(bench.typed(&[band]), pair("", &format!("04 00 {band:02X}")));
    }
}
