//! Which codes raising changes.

use super::*;

#[test]
fn raising_takes_32_from_97_to_122() {
    let letters: Vec<u8> = (97..=122).collect();
    assert_eq!(raising().taken(&letters), each_less_32(&letters));
}

#[test]
fn raising_takes_32_from_224_to_254_except_247() {
    assert_eq!(raising().taken(&small_accents()), each_less_32(&small_accents()));
}

#[test]
fn codes_223_247_and_255_stay() {
    for code in STAYING {
        assert_eq!(raising().taken(&[code]), [code]);
    }
}

/// With nothing that edits, quotes, clears or discards every code is data.
const ALL_DATA: u32 = EE1 | (3 * DDD);

#[test]
fn of_all_256_codes_no_other_changes() {
    let changed = |code: u8| matches!(code, 97..=122) || small_accents().contains(&code);
    let raised = |code| if changed(code) { less_32(code) } else { code };
    let all_raised: Vec<u8> = all_codes().into_iter().map(raised).collect();
    assert_eq!(raising().with(ALL_DATA).taken(&all_codes()), all_raised);
}

#[test]
fn without_raising_every_code_stays() {
    assert_eq!(plain().with(ALL_DATA).taken(&all_codes()), all_codes());
}
