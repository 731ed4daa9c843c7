//! Points 99, 100 and 103: what a Write puts out, loses and tells.

use super::*;

/// On a line of its own.
fn alone(write: Write) -> String {
    write.shown(&mut Bench::initiated())
}

#[test]
fn point_99_new_lines_are_cr_and_then_lfs() {
    assert_eq!(alone(write(PP1, b"A").prefix(0)), "0D 41");
    assert_eq!(alone(write(PP1, b"A").prefix(1)), "0D 0A 41");
    assert_eq!(alone(write(PP1, b"A").prefix(3)), "0D 0A 0A 0A 41");
    assert_eq!(alone(write(QQ1, b"A").postfix(0)), "41 0D");
    assert_eq!(alone(write(QQ1, b"A").postfix(2)), "41 0D 0A 0A");
    // A value is a count here, also when it is the code of LF or CR.
    for value in [LF, CR, u8::MAX] {
        let lines = format!("0D{}", " 0A".repeat(usize::from(value)));
        assert_eq!(alone(write(PP1, b"").prefix(value)), lines);
        assert_eq!(alone(write(QQ1, b"").postfix(value)), lines);
    }
}

#[test]
fn point_99_a_character_is_written_raw() {
    for value in [0, 1, HT, LF, CR, b'A', 127, 128, u8::MAX] {
        assert_eq!(alone(write(PP2, b"x").prefix(value)), format!("{value:02X} 78"));
        assert_eq!(alone(write(QQ2, b"x").postfix(value)), format!("78 {value:02X}"));
        assert_eq!(alone(write(PP2 | QQ2, b"").prefix(b'<').postfix(value)), hex(&[b'<', value]));
    }
}

#[test]
fn point_99_code_0_writes_nothing() {
    for value in [0, 1, LF, CR, b'A', u8::MAX] {
        assert_eq!(alone(write(0, b"").prefix(value).postfix(value)), "");
        assert_eq!(alone(write(0, b"x").prefix(value).postfix(value)), "78");
    }
}

#[test]
fn point_99_all_parts_in_order() {
    let all = write(PP2 | QQ1 | L, b"AB").prefix(b'<').postfix(1);
    assert_eq!(alone(all), "3C 41 42 0D 0A 0A");
    let all = write(PP1 | QQ2 | L, b"AB").prefix(1).postfix(b'>');
    assert_eq!(alone(all), "0D 0A 41 42 3E 0A");
    assert_eq!(alone(write(L, b"")), "0A");
}

const KEPT: &str = "08 00 00 00 00 00";
const LOST: &str = "08 01 00 00 00 00";

#[test]
fn point_100_discard_drops_every_part() {
    let mut bench = Bench::initiated();
    bench.key(DISCARD_KEY);
    assert_eq!(write(S | PP1, b"").prefix(0).on(&mut bench), pair("", LOST));
    assert_eq!(write(S | PP2, b"").prefix(LF).on(&mut bench), pair("", LOST));
    assert_eq!(write(S | QQ1, b"").postfix(0).on(&mut bench), pair("", LOST));
    assert_eq!(write(S | QQ2, b"").postfix(0).on(&mut bench), pair("", LOST));
    assert_eq!(write(S, b"A").on(&mut bench), pair("", LOST));
    assert_eq!(write(S | L, b"").on(&mut bench), pair("", LOST));
    let all = write(S | L | PP1 | QQ2, b"A").prefix(2).postfix(b'>');
    assert_eq!(all.on(&mut bench), pair("", LOST));
}

#[test]
fn point_100_no_byte_is_no_lost_output() {
    let mut bench = Bench::initiated();
    bench.key(DISCARD_KEY);
    for lock in [0, LOCK, UNLOCK_AFTER, REDISPLAY_AFTER] {
        assert_eq!(write(S | lock, b"").on(&mut bench), pair("", KEPT));
    }
    // The values of code 0 are no bytes.
    assert_eq!(write(S, b"").prefix(b'A').postfix(b'A').on(&mut bench), pair("", KEPT));
    // What a redisplay writes is none of the Write's bytes.
    start(ZZ2, b"? ", b"").on(&mut bench);
    assert_eq!(write(S | REDISPLAY_AFTER, b"").on(&mut bench), pair("0D 0A 3F 20", KEPT));
}

#[test]
fn point_100_dont_discard_acts_first() {
    let mut bench = Bench::initiated();
    bench.key(DISCARD_KEY);
    let all = write(S | D | L | PP1 | QQ2, b"A").prefix(0).postfix(b'>');
    // CR at column 0, two marks, one LF.
    assert_eq!(all.on(&mut bench), pair("0D 41 3E 0A", "08 00 02 00 01 00"));
    assert_eq!(write(0, b"B").shown(&mut bench), "42");
}

#[test]
fn point_100_the_mark_stays_under_discard() {
    // Set before: neither the discarded LF nor another byte lets it fall.
    let mut bench = Bench::initiated();
    assert_eq!(write(L, b"A").shown(&mut bench), "41 0A");
    bench.key(DISCARD_KEY);
    assert_eq!(write(0, b"\nB").shown(&mut bench), "");
    assert_eq!(write(PP1 | QQ2, b"C").prefix(1).postfix(b'>').shown(&mut bench), "");
    assert_eq!(write(D, b"\nD").shown(&mut bench), "44");
    // Not set before: a discarded L does not set it.
    bench.key(DISCARD_KEY);
    assert_eq!(write(L, b"E").shown(&mut bench), "");
    assert_eq!(write(D, b"\nF").shown(&mut bench), "0A 46");
}

#[test]
fn point_103_positions_count_every_part() {
    let mut bench = Bench::initiated();
    // From column 0: two marks and the postfix; an LF of the prefix and of L.
    let all = write(S | L | PP1 | QQ2, b"AB").prefix(1).postfix(b'>');
    assert_eq!(all.on(&mut bench), pair("0D 0A 41 42 3E 0A", "08 00 03 00 02 00"));
    // From column 3 to column 0: three columns back.
    let back = write(S | PP1 | QQ1, b"ABC").prefix(0).postfix(2);
    assert_eq!(back.on(&mut bench), pair("0D 41 42 43 0D 0A 0A", "08 00 FD 00 02 00"));
    // HT is written raw, and moves to column 8.
    assert_eq!(write(S | PP2, b"").prefix(HT).on(&mut bench), pair("09", "08 00 08 00 00 00"));
    // Eight columns back; 255 and 1 are 256 lines, none modulo 256.
    let many = format!("0D{} 0A", " 0A".repeat(255));
    let answer = pair(&many, "08 00 F8 00 00 00");
    assert_eq!(write(S | PP1 | L, b"").prefix(u8::MAX).on(&mut bench), answer);
}

#[test]
fn point_103_the_redisplay_is_not_counted() {
    let mut bench = half_typed(0);
    let shown = "41 0D 0A 3F 20 61 62";
    let answer = pair(shown, "08 00 01 00 00 00");
    assert_eq!(write(S | REDISPLAY_AFTER, b"A").on(&mut bench), answer);
    // Again at column 4, with L.
    let answer = pair("41 0A 0D 0A 3F 20 61 62", "08 00 01 00 01 00");
    assert_eq!(write(S | L | REDISPLAY_AFTER, b"A").on(&mut bench), answer);
    bench.key(DISCARD_KEY);
    let answer = pair("0D 0A 3F 20 61 62", LOST);
    assert_eq!(write(S | REDISPLAY_AFTER, b"A").on(&mut bench), answer);
}
