//! Points 35 and 36 within an ordinary answer: positions past column 999.

use super::*;

fn blanks(count: usize) -> String {
    "20 ".repeat(count).trim_end().to_owned()
}

/// A read at column 0 that shows 990 marks.
fn at_990() -> Bench {
    let mut bench = Bench::initiated();
    roomy(b"", &[b'x'; 990]).on(&mut bench);
    assert_eq!(bench.line().column(), 990);
    bench
}

/// The column modulo 256 that a Read Data tells.
fn column_told(bench: &mut Bench) -> u8 {
    bytes(&bench.host(UNREAD).2)[5]
}

#[test]
fn tabs_at_the_end_of_a_thousand_characters() {
    let mut bench = at_990();
    // To 992; eight spaces, the last in vain; then one for each.
    for count in [2, 8, 1, 1] {
        assert_eq!(bench.typed(&[HT]).0, blanks(count));
    }
    assert_eq!(bench.line().column(), TOP);
    // The replay stops at 999 in the same way.
    for count in [1, 1, 8, 2] {
        assert_eq!(bench.typed(&[DELETE_KEY]).0, rubbed(count));
    }
    assert_eq!(bench.typed(&[DELETE_KEY]).0, rubbed(1));
    // 12 spaces took the column from 990 to 999 only; 13 rub-outs take it back.
    assert_eq!(bench.line().column(), 986);
    assert_eq!(column_told(&mut bench), (986 % 256) as u8);
}

#[test]
fn a_tab_echoes_from_the_lines_column_and_is_rubbed_out_by_the_replay() {
    let mut bench = at_990();
    bench.typed(&[HT, HT, DELETE_KEY, DELETE_KEY]);
    // Ten rub-outs from 999: the line is at 989, where the replay has 990.
    assert_eq!(bench.line().column(), 989);
    assert_eq!(bench.typed(&[HT]).0, blanks(3));
    assert_eq!(bench.typed(&[DELETE_KEY]).0, rubbed(2));
    // Redisplay brings them together again.
    let shown = format!("0D 0A{}", " 78".repeat(990));
    assert_eq!(bench.typed(&[REDISPLAY_KEY]).0, shown);
    assert_eq!(bench.typed(&[HT]).0, blanks(2));
    assert_eq!(bench.typed(&[DELETE_KEY]).0, rubbed(2));
}

#[test]
fn marks_and_controls_at_the_top() {
    let mut bench = at_990();
    assert_eq!(bench.typed(b"abcdefgh").0, "61 62 63 64 65 66 67 68");
    assert_eq!(bench.line().column(), 998);
    // A control has two marks, across the top and at it.
    assert_eq!(bench.typed(&[1, 2]).0, "5E 41 5E 42");
    assert_eq!(bench.typed(&[150, b'i']).0, "69");
    assert_eq!(bench.line().column(), TOP);
    for count in [1, 0, 2, 2, 1] {
        assert_eq!(bench.typed(&[DELETE_KEY]).0, rubbed(count));
    }
}

#[test]
fn a_tab_behind_marks_at_the_top_is_one_space() {
    let mut bench = Bench::initiated();
    let text = [&[b'x'; 1_000][..], &[HT; 3], b"y", &[HT; 2]].concat();
    let shown = format!("{}{} 79 {}", "78 ".repeat(1_000), blanks(3), blanks(2));
    assert_eq!(roomy(b"", &text).on(&mut bench), pair(&shown, ""));
    for _ in 0..6 {
        assert_eq!(bench.typed(&[DELETE_KEY]).0, rubbed(1));
    }
    assert_eq!(bench.typed(&[DELETE_WORD_KEY]).0, rubbed(1_000));
    // 999 columns, and 1,006 steps back from the top: the left edge.
    assert_eq!(bench.line().column(), 0);
    assert_eq!(bench.host(UNREAD), done("", "03 06 00 00 00 00 00 00"));
}

#[test]
fn a_prompt_that_passes_the_top() {
    let mut bench = Bench::initiated();
    let prompt = [b'?'; 1_010];
    assert_eq!(roomy(&prompt, &[HT]).on(&mut bench).0, format!("{} 20", hex(&prompt)));
    assert_eq!(bench.typed(&[HT, b'a', 1]).0, "20 61 5E 41");
    for count in [2, 1, 1, 1] {
        assert_eq!(bench.typed(&[DELETE_KEY]).0, rubbed(count));
    }
    assert_eq!(bench.typed(&[DELETE_KEY]).0, "");
    // The display of the data began at 999, where it begins again.
    assert_eq!(bench.typed(&[HT]).0, blanks(8 - (999 - 5) % 8));
    assert_eq!(bench.typed(&[REDISPLAY_KEY]).0, format!("0D 0A {} 20", hex(&prompt)));
    assert_eq!(bench.typed(&[DELETE_KEY]).0, rubbed(1));
}

#[test]
fn a_prompt_is_written_raw_at_the_top_too() {
    let mut bench = Bench::initiated();
    // HT as it is: to 1,000, stopped at 999, and no further.
    let prompt = [&[b'?'; 992][..], &[HT, HT], b"!"].concat();
    assert_eq!(roomy(&prompt, b"").on(&mut bench).0, hex(&prompt));
    assert_eq!(bench.line().column(), TOP);
    assert_eq!(bench.typed(&[HT]).0, blanks(1));
    assert_eq!(bench.typed(&[DELETE_KEY]).0, rubbed(1));
}

#[test]
fn a_redisplay_begins_anew_however_far_the_first_one_began() {
    for by_write in [false, true] {
        let mut bench = Bench::initiated();
        bench.host_bytes(&[&[7, 0, 0, 0, 0][..], &[b'A'; 950]].concat());
        // The data begins at 952, and the tab goes from 953 to 960.
        roomy(b"? ", b"a").on(&mut bench);
        assert_eq!(bench.typed(&[HT]).0, blanks(7));
        let shown = match by_write {
            false => bench.typed(&[REDISPLAY_KEY]).0,
            true => bench.host("07 03 00 00 00").1,
        };
        // Now from 3 to 8.
        assert_eq!(shown, format!("0D 0A 3F 20 61 {}", blanks(5)));
        assert_eq!(bench.typed(&[DELETE_KEY]).0, rubbed(5));
    }
}

#[test]
fn a_full_buffer_is_redisplayed() {
    let tail = [&[HT; 5][..], b"z"].concat();
    let text = [&[b'x'; WHOLE - 1 - 2 - 6][..], &tail].concat();
    let mut bench = Bench::initiated();
    bench.number("07 00 00 00 00 41 41 41 41 41");
    // 1,023 characters; the tabs are at the top.
    let shown = format!("3F 20 {}{} 7A", "78 ".repeat(text.len() - 6), blanks(5));
    assert_eq!(roomy(b"? ", &text).on(&mut bench).0, shown);
    assert_eq!(bench.typed(&[REDISPLAY_KEY]).0, format!("0D 0A {shown}"));
    assert_eq!(bench.host("07 03 00 00 00"), done(&format!("0D 0A {shown}"), ""));
    // Two lines down; from column 5 to the top: 994 is E2 modulo 256.
    let answer = format!("03 04 {} 02 E2 {} {} 77", word(WHOLE - 1), word(WHOLE - 2), hex(&text));
    assert_eq!(bench.typed(b"w"), pair("77", &answer));
}

#[test]
fn a_full_buffer_that_does_not_echo() {
    let mut bench = Bench::initiated();
    let text = [HT; WHOLE - 3];
    let read = || start(ZZ1 | N, b"? ", &text).max(BUFFER);
    assert_eq!(read().on(&mut bench), pair("3F 20", ""));
    assert_eq!(bench.typed(&[REDISPLAY_KEY]).0, "0D 0A 3F 20");
    assert_eq!(bench.host("07 03 00 00 00"), done("0D 0A 3F 20", ""));
    assert_eq!(bench.typed(&[DELETE_KEY, DELETE_LINE_KEY]).0, "");
    assert_eq!(bench.host(UNREAD), done("", "03 06 02 00 02 02 00 00"));
}

#[test]
fn all_of_a_long_text_is_rubbed_out() {
    let text = [&[b'x'; 990][..], &[HT, HT, HT, 1, 150], b"y"].concat();
    let all = rubbed(990 + 2 + 8 + 1 + 2 + 1);
    let read = || {
        let mut bench = Bench::initiated();
        roomy(b"", &text).on(&mut bench);
        bench
    };
    assert_eq!(read().typed(&[DELETE_LINE_KEY]).0, all);
    assert_eq!(read().key(24).1, all);
    assert_eq!(read().host("06 00").1, all);
    // A word: what is no word behind it, and 990 letters.
    let mut bench = read();
    assert_eq!(bench.typed(&[DELETE_WORD_KEY]).0, rubbed(1));
    assert_eq!(bench.typed(&[DELETE_WORD_KEY]).0, rubbed(990 + 2 + 8 + 1 + 2));
}

#[test]
fn a_hidden_lf_takes_no_column_of_a_long_text() {
    let mut bench = Bench::initiated();
    let text = [&[b'\n'][..], &[b'x'; 990], &[HT, HT, HT]].concat();
    let shown = format!("{}{}", "78 ".repeat(990), blanks(11));
    assert_eq!(start(F | ZZ1, b"", &text).max(BUFFER).on(&mut bench).0, shown);
    for count in [1, 8, 2, 1] {
        assert_eq!(bench.typed(&[DELETE_KEY]).0, rubbed(count));
    }
    assert_eq!(bench.typed(&[DELETE_LINE_KEY]).0, rubbed(989));
}

#[test]
fn a_write_in_mid_answer_does_not_move_the_replay() {
    let mut bench = at_990();
    assert_eq!(bench.number("07 00 00 00 00 0D"), 0);
    assert_eq!(bench.typed(&[HT]).0, blanks(8));
    assert_eq!(bench.typed(&[DELETE_KEY]).0, rubbed(2));
    // One that asks begins anew behind its own bytes, CR LF and the prompt.
    let shown = format!("41 0D 0A{}", " 78".repeat(990));
    assert_eq!(bench.host("07 03 00 00 00 41"), done(&shown, ""));
    assert_eq!(bench.typed(&[HT, HT]).0, blanks(10));
    assert_eq!(bench.typed(&[DELETE_KEY, DELETE_KEY]).0, rubbed(10));
}
