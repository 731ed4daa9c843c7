//! Points 104, 105 and 109: the redisplay of a pending read.

use super::*;

#[test]
fn point_104_only_uu_3_redisplays() {
    for (lock, shown) in
        [(0, "41"), (LOCK, "41"), (UNLOCK_AFTER, "41"), (REDISPLAY_AFTER, "41 0D 0A 3F 20 61 62")]
    {
        assert_eq!(write(lock, b"A").shown(&mut half_typed(0)), shown);
    }
    // Without a read there is nothing to show.
    let mut bench = Bench::initiated();
    assert_eq!(write(REDISPLAY_AFTER, b"A").shown(&mut bench), "41");
    assert_eq!(write(REDISPLAY_AFTER, b"").shown(&mut bench), "");
}

#[test]
fn point_104_redisplay_under_any_ddd() {
    for ddd in 0..=3 {
        let mut bench = half_typed(ddd * DDD);
        let shown = "41 0D 0A 3F 20 61 62";
        assert_eq!(write(REDISPLAY_AFTER, b"A").shown(&mut bench), shown);
    }
}

#[test]
fn point_104_redisplay_of_a_read_that_does_not_echo() {
    for ddd in 0..=3 {
        let mut bench = half_typed(N | (ddd * DDD));
        assert_eq!(write(REDISPLAY_AFTER, b"A").shown(&mut bench), "41 0D 0A 3F 20");
        assert_eq!(bench.host(UNREAD), done("", "03 06 02 00 01 02 02 00 61 62"));
    }
}

#[test]
fn point_104_redisplay_is_18() {
    // Auto prompt's code is not written again, nor the LF that F hides.
    let read = || {
        let mut bench = Bench::initiated();
        assert_eq!(bench.number("0B 00 09 02 01"), 0);
        assert_eq!(start(F | ZZ1, b"\n?", b"a").on(&mut bench), pair("01 3F 61", ""));
        assert_eq!(bench.typed(b"\x01\t").0, "5E 41 20 20 20 20");
        bench
    };
    let shown = "0D 0A 3F 61 5E 41 20 20 20 20";
    assert_eq!(write(REDISPLAY_AFTER, b"").shown(&mut read()), shown);
    assert_eq!(read().typed(&[REDISPLAY_KEY]).0, shown);
    // An LF hidden in the data takes no columns there either.
    let mut bench = Bench::initiated();
    start(F | ZZ1, b"", b"\na").on(&mut bench);
    assert_eq!(write(REDISPLAY_AFTER, b"").shown(&mut bench), "0D 0A 61");
}

#[test]
fn point_104_where_the_display_began_is_noted_anew() {
    let mut bench = Bench::initiated();
    write(0, b"AAAAA").on(&mut bench);
    // The prompt ends at column 6, the tab goes from 7 to 8.
    start(ZZ2, b"?", b"a").on(&mut bench);
    assert_eq!(bench.typed(b"\tb").0, "20 62");
    // Now it ends at column 1, and the tab goes from 2 to 8.
    let shown = "0D 0A 3F 61 20 20 20 20 20 20 62";
    assert_eq!(write(REDISPLAY_AFTER, b"").shown(&mut bench), shown);
    assert_eq!(bench.typed(&[DELETE_KEY]).0, rubbed(1));
    assert_eq!(bench.typed(&[DELETE_KEY]).0, rubbed(6));
    // A Write that does not ask leaves the note: 1, from which 2 to 8.
    write(0, b"AAAA").on(&mut bench);
    assert_eq!(bench.typed(b"\t").0, "20 20");
    assert_eq!(bench.typed(&[DELETE_KEY]).0, rubbed(6));
}

#[test]
fn point_104_idle_and_the_note_of_the_read_stay() {
    let mut bench = Bench::initiated();
    write(0, b"AAA").on(&mut bench);
    start(ZZ2 | Q, b"? ", b"").timeout(2).on(&mut bench);
    assert_eq!(bench.tick(), done("", ""));
    assert_eq!(write(REDISPLAY_AFTER, b"B").shown(&mut bench), "42 0D 0A 3F 20");
    // Begun at column 3: now one line down at column 2, one column back.
    assert_eq!(bench.tick(), done("", "03 05 02 00 01 FF 00 00"));
}

#[test]
fn point_105_redisplay_under_discard() {
    let mut bench = half_typed(0);
    bench.key(DISCARD_KEY);
    let shown = "0D 0A 3F 20 61 62";
    assert_eq!(write(REDISPLAY_AFTER, b"A").shown(&mut bench), shown);
    assert_eq!(write(REDISPLAY_AFTER | L | PP1, b"").shown(&mut bench), shown);
    // Discard stays on.
    assert_eq!(write(0, b"A").shown(&mut bench), "");
}

#[test]
fn point_104_an_alarm_in_mid_line() {
    // What the keeper sees: the answer so far, the alarm, the answer again.
    let mut bench = half_typed(0);
    assert_eq!(write(LOCK | PP1, b"GATE").prefix(1).shown(&mut bench), "0D 0A 47 41 54 45");
    bench.keys(&[b'c', DELETE_KEY, CR]);
    for _ in 0..3 {
        assert_eq!(bench.step(), done("", ""));
    }
    assert_eq!(write(REDISPLAY_AFTER, b"!").shown(&mut bench), "21 0D 0A 3F 20 61 62");
    assert_eq!(bench.step(), done("63", ""));
    assert_eq!(bench.step(), done("08 20 08", ""));
}

#[test]
fn point_109_the_longest_write_and_a_redisplay_of_tabs() {
    let tabs = [HT; WHOLE - 1];
    let mut bench = Bench::initiated();
    let spaces = " 20".repeat(spaces(tabs.len()));
    let shown = start(ZZ1, b"", &tabs).max(BUFFER).on(&mut bench).0;
    assert_eq!(format!(" {shown}"), spaces);
    let all = REDISPLAY_AFTER | L | PP1 | QQ1;
    let text = [b'A'; LONGEST_DATA];
    let longest = write(all, &text).prefix(u8::MAX).postfix(u8::MAX);
    let lines = format!("0D{}", " 0A".repeat(255));
    let data = " 41".repeat(text.len());
    assert_eq!(longest.shown(&mut bench), format!("{lines}{data} {lines} 0A 0D 0A{spaces}"));
}
