//! What a read that raises leaves as it is: quoted keys, token bytes, preloaded text.

use super::*;

#[test]
fn quoted_keys_are_not_raised() {
    let quoted: Vec<u8> = (0..=255).flat_map(|code| [QUOTE_KEY, code]).collect();
    assert_eq!(raising().taken(&quoted), all_codes());
}

#[test]
fn quoted_keys_are_not_tested() {
    // Neither its own code in the set ends the read nor its capital.
    let mut bench = raising().set(&[SMALL_E_ACUTE, CAPITAL_E_ACUTE]).pending();
    assert_eq!(bench.typed(&[QUOTE_KEY, SMALL_E_ACUTE]), pair("E9", ""));
}

#[test]
fn a_key_that_was_quoted_before_the_read_is_not_raised() {
    let mut bench = Bench::initiated();
    bench.keys(&[QUOTE_KEY, SMALL_E_ACUTE, SMALL_E_ACUTE]);
    raising().on(&mut bench);
    assert_eq!((bench.step(), bench.step()), (done("E9", ""), done("C9", "")));
}

#[test]
fn token_bytes_are_not_raised() {
    // A letter is a final byte; an accent spoils the token and is kept.
    for codes in [[ESC, b'[', b'a'], [ESC, b'O', b'p']] {
        let mut bench = raising().with(EE2).pending();
        assert_eq!(bench.typed(&codes), pair("", &ended_by("01", &codes)));
    }
    for code in small_accents() {
        let mut bench = raising().with(EE2).pending();
        assert_eq!(bench.typed(&[ESC, code]), pair("", &ended_by("02", &[ESC, code])));
    }
}

#[test]
fn a_held_token_is_not_raised() {
    let codes = [ESC, b'[', SMALL_E_ACUTE];
    let mut bench = raising().with(EE2).max(2).pending();
    assert_eq!(bench.typed(&codes), pair("", "03 18 00 00 00 00 00 00"));
    raising().on(&mut bench);
    assert_eq!(bench.step(), done("", &ended_by("02", &codes)));
}

#[test]
fn a_prompt_is_not_raised() {
    let mut bench = Bench::initiated();
    let read = start(ZZ1 | II2, b"Caf\xE9? ", b"");
    assert_eq!(read.on(&mut bench), pair("43 61 66 E9 3F 20", ""));
    assert_eq!(bench.typed(&[REDISPLAY_KEY]).0, "0D 0A 43 61 66 E9 3F 20");
}

#[test]
fn preloaded_text_is_not_raised() {
    let mut bench = Bench::initiated();
    let read = start(ZZ1 | II2, b"", b"Caf\xE9").set(&[SMALL_E_ACUTE, CAPITAL_E_ACUTE]);
    assert_eq!(read.on(&mut bench), pair("43 61 66 E9", ""));
    assert_eq!(bench.typed(&[REDISPLAY_KEY]).0, "0D 0A 43 61 66 E9");
    assert_eq!(input(&mut bench), b"Caf\xE9");
    // Of all codes none is; a key that is typed behind them is.
    let read = start(ZZ1 | II2, b"", &all_codes()).max(BUFFER);
    assert_eq!(read.taken(&[SMALL_E_ACUTE]), [&all_codes()[..], &[CAPITAL_E_ACUTE]].concat());
}
