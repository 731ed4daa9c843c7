//! Points 35 to 42, 92 and 94: the screen.

use crate::common::*;

#[test]
fn point_35_tabs_and_the_column_of_the_display() {
    let mut bench = Bench::initiated();
    start(ZZ2, b"?", b"").on(&mut bench);
    assert_eq!(bench.typed(b"\t").0, "20 ".repeat(7).trim_end());
    // A Write moves the cursor, not the column from which the replay runs.
    assert_eq!(bench.number("07 00 00 00 00 0D 41 41"), 0);
    assert_eq!(bench.typed(b"\t").0, "20 ".repeat(6).trim_end());
    assert_eq!(bench.typed(&[127]).0, rubbed(8));
    assert_eq!(bench.typed(&[127]).0, rubbed(7));
}

#[test]
fn point_36_the_top_column() {
    let mut bench = Bench::initiated();
    let row = format!("07 00 00 00 00 {}", "41".repeat(249));
    for _ in 0..4 {
        assert_eq!(bench.number(&row), 0);
    }
    assert_eq!(bench.line().column(), 996);
    start(ZZ2, b"", b"").on(&mut bench);
    assert_eq!(bench.typed(b"\t").0, "20 20 20 20");
    assert_eq!(bench.line().column(), 999);
    assert_eq!(bench.typed(b"\t\t").0, "20 20");
    assert_eq!(bench.typed(&[21]).0, rubbed(6));
    assert_eq!(bench.line().column(), 993);
    assert_eq!(bench.host("07 00 04 00 00 09"), done("09", "08 00 06 00 00 00"));
    assert_eq!(bench.line().column(), 999);
}

#[test]
fn point_37_the_hidden_lf() {
    let mut bench = Bench::initiated();
    assert_eq!(start(F | ZZ1, b"\n? ", b"").on(&mut bench), pair("3F 20", ""));
    assert_eq!(bench.typed(&[18]).0, "0D 0A 3F 20");
    bench.host(UNREAD);
    assert_eq!(start(F | ZZ1, b"", b"\na").on(&mut bench), pair("61", ""));
    assert_eq!(bench.typed(&[18]).0, "0D 0A 61");
    assert_eq!(bench.typed(&[127, 127]).0, "08 20 08");
    assert_eq!(bench.typed(&[10, 127]).0, "5E 4A 08 20 08 08 20 08");
    bench.host(UNREAD);
    start(F | ZZ1, b"", b"\n").on(&mut bench);
    assert!(bench.host(UNREAD).2.ends_with("01 00 0A"));
}

#[test]
fn point_38_the_last_terminal_byte() {
    let lf = |bench: &mut Bench| start(F | ZZ2, b"", b"").on(bench).0;
    let mut bench = Bench::initiated();
    assert_eq!(lf(&mut bench), "");
    bench.host(UNREAD);
    bench.host("07 00 00 00 00 41 0D");
    bench.key(15);
    bench.host("07 00 00 00 00 42");
    assert_eq!(lf(&mut bench), "0A");
    bench.host(UNREAD);
    bench.host("07 08 00 00 00 0D");
    bench.keys(&[b'k'; 64]);
    assert_eq!(bench.key(b'k').1, "07");
    assert_eq!(lf(&mut bench), "");
}

#[test]
fn point_39_positions() {
    let mut bench = Bench::initiated();
    bench.number("0B 00 09 02 01");
    assert_eq!(bench.host("07 00 04 00 00 41 41 41 0D"), done("41 41 41 0D", "08 00 00 00 00 00"));
    assert_eq!(start(F | ZZ2, b"? ", b"a").on(&mut bench), pair("0A 01 3F 20 61", ""));
    assert_eq!(bench.host(UNREAD), done("", "03 06 03 00 01 03 01 00 61"));
    assert_eq!(bench.host("07 00 04 00 00 0D 0A 0A"), done("0D 0A 0A", "08 00 FD 00 02 00"));
}

#[test]
fn point_40_auto_prompt_and_redisplay() {
    let mut bench = Bench::initiated();
    bench.number("0B 00 09 02 01");
    assert_eq!(start(ZZ2, b"?", b"\t").on(&mut bench).0, "01 3F 20 20 20 20 20 20 20");
    assert_eq!(bench.typed(&[18]).0, "0D 0A 3F 20 20 20 20 20 20 20");
    bench.host(UNREAD);
    bench.number("07 00 00 00 00 41 41");
    start(ZZ2 | N, b"?", b"ab").on(&mut bench);
    assert_eq!(bench.typed(&[18]).0, "0D 0A 3F");
    assert_eq!(bench.typed(&[127]).0, "");
}

#[test]
fn point_41_terminators_with_t() {
    let ended = |code: u8, flags: u32| {
        let mut bench = Bench::initiated();
        start(ZZ1 | flags, b"", b"").set(&[code]).on(&mut bench);
        bench.typed(&[code]).0
    };
    assert_eq!(ended(13, T), "0D 0A");
    assert_eq!(ended(10, T), "5E 4A");
    assert_eq!(ended(9, T), "20 20 20 20 20 20 20 20");
    assert_eq!((ended(128, T), ended(159, T), ended(255, T)), Default::default());
    assert_eq!((ended(13, 0), ended(13, T | N)), Default::default());
    let mut bench = Bench::initiated();
    start(ZZ1 | T, b"", b"").on(&mut bench);
    assert_eq!(bench.typed(&[13]).0, "5E 4D");
}

#[test]
fn point_42_lost_output() {
    let mut bench = Bench::initiated();
    bench.key(15);
    assert_eq!(bench.host("07 00 04 00 00"), done("", "08 00 00 00 00 00"));
    assert_eq!(bench.host("07 00 04 00 00 41"), done("", "08 01 00 00 00 00"));
    assert_eq!(bench.host("07 08 04 00 00 41"), done("41", "08 00 01 00 00 00"));
}

#[test]
fn point_92_rubbed_out_with_a_tab_and_without() {
    // On the screen: `?ab`, five spaces for the tab, `c`.
    let with_tab = || {
        let mut bench = Bench::initiated();
        start(ZZ1, b"?", b"").on(&mut bench);
        bench.typed(b"ab\tc");
        bench
    };
    let mut bench = with_tab();
    assert_eq!(bench.typed(&[127]).0, rubbed(1));
    assert_eq!(bench.typed(&[127]).0, rubbed(5));
    // A control takes two columns and 150 none.
    bench.typed(&[1, 150, 9]);
    for marks in [3, 0, 2, 1, 1] {
        assert_eq!(bench.typed(&[127]).0, rubbed(marks));
    }
    let mut bench = with_tab();
    bench.typed(b"d!\x01");
    assert_eq!(bench.typed(&[23]).0, rubbed(5));
    assert_eq!(bench.typed(&[23]).0, rubbed(7));
    assert_eq!(with_tab().typed(&[21]).0, rubbed(8));
    assert_eq!(with_tab().key(24).1, rubbed(8));
    assert_eq!(with_tab().host("06 00").1, rubbed(8));
    // 18 moves the column from which a tab is replayed.
    let mut bench = Bench::initiated();
    bench.number("07 00 00 00 00 41 41 41 41 41");
    start(ZZ2, b"?", b"a").on(&mut bench);
    assert_eq!(bench.typed(b"\tb").0, "20 62");
    bench.typed(&[18]);
    assert_eq!(bench.typed(&[127]).0, rubbed(1));
    assert_eq!(bench.typed(&[127]).0, rubbed(6));
}

#[test]
fn point_94_the_hidden_lf_is_not_rubbed_out() {
    // It takes no column, left or deleted: the tab behind it is one space.
    for (codes, marks) in [(&[127, 127][..], 2), (&[23, 23], 9), (&[21], 9)] {
        let mut bench = Bench::initiated();
        start(F | ZZ1, b"", b"\nabcdefg\tb").on(&mut bench);
        assert_eq!(bench.typed(codes).0, rubbed(marks));
        assert_eq!(bench.typed(&[21]).0, rubbed(9 - marks));
    }
}
