//! What the screen gets of raised accents, and what deletes them.

use super::*;

#[test]
fn the_echo_is_that_of_the_raised_code() {
    let mut bench = raising().pending();
    assert_eq!(bench.typed(&small_accents()).0, hex(&each_less_32(&small_accents())));
    // 255 has none.
    assert_eq!(bench.typed(&STAYING).0, "DF F7");
}

#[test]
fn a_terminator_echoes_raised() {
    let mut bench = raising().set(&[CAPITAL_E_ACUTE]).with(T).pending();
    assert_eq!(bench.typed(&[SMALL_E_ACUTE]), pair("C9", "03 00 00 00 00 01 00 00 C9"));
}

#[test]
fn a_redisplay_shows_raised_accents() {
    let mut bench = raising().pending();
    bench.typed(b"caf\xE9");
    assert_eq!(bench.typed(&[REDISPLAY_KEY]).0, "0D 0A 43 41 46 C9");
}

#[test]
fn a_raised_accent_is_rubbed_out_as_one_column() {
    let mut bench = raising().pending();
    bench.typed(&[SMALL_E_ACUTE, SMALL_E_ACUTE, HT, SMALL_E_ACUTE]);
    // The tab goes from column 2 to column 8.
    for marks in [1, 6, 1, 1] {
        assert_eq!(bench.typed(&[DELETE_KEY]).0, rubbed(marks));
    }
    assert_eq!(input(&mut bench), []);
}

#[test]
fn raised_accents_are_no_word_characters() {
    let deletions: [(&[u8], &[u8]); 4] = [
        (b"\xE9ab", b"\xC9"),
        (b"ab\xFCcd", b"AB\xDC"),
        (b"ab.\xE9", b""),
        (b"a b\xE9\xFC", b"A "),
    ];
    for (typed, left) in deletions {
        let codes = [typed, &[DELETE_WORD_KEY]].concat();
        assert_eq!(raising().taken(&codes), left, "{typed:?}");
    }
}

#[test]
fn codes_161_to_254_are_no_word_characters() {
    for code in 161..=254 {
        assert_eq!(plain().taken(&[b'a', code, b'b', DELETE_WORD_KEY]), [b'a', code]);
    }
}
