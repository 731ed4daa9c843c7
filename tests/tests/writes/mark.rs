//! Points 101 and 102: the skip-linefeed mark.

use super::*;

/// A line on which L has set the mark.
fn marked() -> Bench {
    let mut bench = Bench::initiated();
    assert_eq!(write(L, b"A").shown(&mut bench), "41 0A");
    bench
}

/// Whether the mark is set: then the LF of this Write is left out.
fn is_set(bench: &mut Bench) -> bool {
    match write(0, b"\nZ").shown(bench).as_str() {
        "5A" => true,
        "0A 5A" => false,
        other => panic!("{other}"),
    }
}

#[test]
fn point_108_a_fresh_line_has_no_mark() {
    assert!(!is_set(&mut Bench::initiated()));
}

#[test]
fn point_101_a_first_lf_is_left_out_once() {
    let mut bench = marked();
    assert_eq!(write(0, b"\nB").shown(&mut bench), "42");
    assert_eq!(write(0, b"\nC").shown(&mut bench), "0A 43");
    // It alone, not the one behind it.
    assert_eq!(write(0, b"\n\nB").shown(&mut marked()), "0A 42");
    // An LF that is not the first stays.
    assert_eq!(write(0, b"B\n").shown(&mut marked()), "42 0A");
}

#[test]
fn point_101_the_first_byte_of_prefix_data_and_postfix() {
    assert_eq!(write(PP2, b"B").prefix(LF).shown(&mut marked()), "42");
    assert_eq!(write(PP2, b"\n").prefix(LF).shown(&mut marked()), "0A");
    assert_eq!(write(QQ2, b"\n").postfix(LF).shown(&mut marked()), "0A");
    assert_eq!(write(QQ2, b"").postfix(LF).shown(&mut marked()), "");
    // Behind another first byte nothing is left out.
    assert_eq!(write(PP2, b"\nB").prefix(b'x').shown(&mut marked()), "78 0A 42");
    assert_eq!(write(QQ2, b"B").postfix(LF).shown(&mut marked()), "42 0A");
    // New lines begin with CR.
    assert_eq!(write(PP1, b"\n").prefix(2).shown(&mut marked()), "0D 0A 0A 0A");
    assert_eq!(write(QQ1, b"").postfix(1).shown(&mut marked()), "0D 0A");
    // A value of code 0 is no byte: the LF of DATA is the first.
    assert_eq!(write(0, b"\nB").prefix(b'x').shown(&mut marked()), "42");
}

#[test]
fn point_101_any_byte_lets_the_mark_fall() {
    let falls = [
        write(0, b"B"),
        write(0, b"\n"),
        write(PP1, b"").prefix(0),
        write(PP2, b"").prefix(LF),
        write(QQ1, b"").postfix(0),
        write(QQ2, b"").postfix(b'x'),
    ];
    for write in falls {
        let mut bench = marked();
        write.shown(&mut bench);
        assert!(!is_set(&mut bench));
    }
}

#[test]
fn point_101_a_write_without_bytes_leaves_the_mark() {
    let mut bench = marked();
    assert_eq!(write(S, b"").on(&mut bench), pair("", "08 00 00 00 00 00"));
    assert_eq!(write(0, b"").prefix(LF).postfix(b'x').shown(&mut bench), "");
    for lock in [LOCK, UNLOCK_AFTER, REDISPLAY_AFTER] {
        assert_eq!(write(lock | D | B | E, b"").shown(&mut bench), "");
    }
    assert!(is_set(&mut bench));
    // Nor does it set one.
    assert_eq!(write(0, b"").shown(&mut bench), "");
    assert!(!is_set(&mut bench));
}

#[test]
fn point_101_the_lf_of_l_is_never_left_out() {
    let mut bench = marked();
    assert_eq!(write(L, b"").shown(&mut bench), "0A");
    assert_eq!(write(L, b"").shown(&mut bench), "0A");
    // Its own first LF is left out; then L writes one and sets the mark anew.
    assert_eq!(write(L, b"\n").shown(&mut bench), "0A");
    assert_eq!(write(L, b"\nB").shown(&mut bench), "42 0A");
    assert_eq!(write(L | QQ2, b"").postfix(LF).shown(&mut bench), "0A");
    assert!(is_set(&mut bench));
    assert!(!is_set(&mut bench));
}

#[test]
fn point_102_echo_prompts_and_18_leave_the_mark() {
    let mut bench = marked();
    assert_eq!(start(ZZ1, b"\n? ", b"").on(&mut bench), pair("0A 3F 20", ""));
    assert_eq!(bench.typed(&[b'a', LF, REDISPLAY_KEY]).0, "61 5E 4A 0D 0A 0A 3F 20 61 5E 4A");
    assert_eq!(bench.typed(&[DELETE_KEY]).0, "08 20 08 08 20 08");
    assert_eq!(bench.key(CLEAR_KEY), done("08 20 08", ""));
    for message in [UNREAD, "06 00", "0B 00 09 02 01"] {
        assert_eq!(bench.number(message), 0);
    }
    assert_eq!(bench.tick(), done("", ""));
    assert!(is_set(&mut bench));
    assert!(!is_set(&mut bench));
}

#[test]
fn point_102_a_redisplay_leaves_the_mark() {
    // L's LF, and the half-typed answer behind it: the next LF is left out.
    let mut bench = half_typed(0);
    let shown = "41 0A 0D 0A 3F 20 61 62";
    assert_eq!(write(L | REDISPLAY_AFTER, b"A").shown(&mut bench), shown);
    assert_eq!(write(0, b"\nB").shown(&mut bench), "42");
    // The LF of a redisplay sets no mark.
    assert_eq!(write(REDISPLAY_AFTER, b"").shown(&mut bench), "0D 0A 3F 20 61 62");
    assert!(!is_set(&mut bench));
}

#[test]
fn point_101_a_byte_left_out_is_not_lost_and_moves_nothing() {
    let mut bench = marked();
    assert_eq!(write(S, b"\n").on(&mut bench), pair("", "08 00 00 00 00 00"));
    assert_eq!(write(S | L, b"").on(&mut bench), pair("0A", "08 00 00 00 01 00"));
    assert_eq!(write(S, b"\nB").on(&mut bench), pair("42", "08 00 01 00 00 00"));
    // Nor does it count in a read's lines.
    assert_eq!(write(L, b"").shown(&mut bench), "0A");
    start(ZZ2, b"", b"").on(&mut bench);
    assert_eq!(write(0, b"\n").shown(&mut bench), "");
    assert_eq!(bench.host(UNREAD), done("", "03 06 00 00 00 00 00 00"));
}

#[test]
fn point_101_a_byte_left_out_is_not_the_last() {
    let mut bench = marked();
    start(ZZ2, b"\r", b"").on(&mut bench);
    bench.host(UNREAD);
    assert_eq!(write(0, b"\n").shown(&mut bench), "");
    // CR is still the last, so F writes LF.
    assert_eq!(start(F | ZZ2, b"", b"").on(&mut bench), pair("0A", ""));
}
