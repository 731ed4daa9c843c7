//! Numbers that need both their bytes, and a whole buffer.

use super::*;
use second::line::tokens::ESC;

const TOKEN: [u8; 3] = [ESC, b'[', b'A'];

#[test]
fn a_start_read_whose_fields_need_both_bytes() {
    let mut bench = Bench::initiated();
    let mut read = start(ZZ2, &[b'?'; 260], &[b'x'; 40]).max(600);
    read.low = Some(290);
    let header = "02 00 80 00 58 02 2C 01 00 00 04 01 00 00 22 01 00";
    assert_eq!(hex(&read.bytes()[..17]), header);
    let shown = format!("{}{}", "3F ".repeat(260), "78 ".repeat(40));
    assert_eq!(read.on(&mut bench), pair(shown.trim_end(), ""));
    // 300 columns are 2C modulo 256.
    let text = " 78".repeat(40);
    assert_eq!(bench.host(UNREAD), done("", &format!("03 06 22 01 00 2C 28 00{text}")));
}

#[test]
fn fields_high_byte_first_are_another_message() {
    let mut bench = Bench::initiated();
    // 258 characters: 02 01 low byte first.
    let read = start(ZZ2, b"", &[b'x'; 258]).max(600).bytes();
    assert_eq!(hex(&read[6..8]), "02 01");
    let mut turned = read.clone();
    turned.swap(6, 7);
    bench.refused(5, &turned);
    assert_eq!(bench.copied(&turned), Err(5));
    assert_eq!(bench.host_bytes(&read).0, 0);
}

#[test]
fn the_test_of_the_fields_holds_above_255() {
    let mut bench = Bench::initiated();
    let read = || start(ZZ2, &[b'?'; 300], &[b'x'; 300]).max(600);
    bench.refused(5, &read().max(599).bytes());
    for (prompt, low, number) in [(601, 600, 5), (600, 601, 5), (600, 600, 0)] {
        let mut edge = read();
        (edge.prompt, edge.low) = (prompt, Some(low));
        assert_eq!(bench.host_bytes(&edge.bytes()).0, number);
    }
    // A byte of DATA less and one more.
    let whole = read().max(700).bytes();
    bench.refused(5, &whole[..whole.len() - 1]);
    bench.refused(5, &[&whole[..], b"x"].concat());
    // START-OF-DISPLAY that leaves 300 of 600.
    let mut display = start(ZZ2, b"", &[b'x'; 300]).max(600);
    display.display = 300;
    bench.refused(6, &display.bytes());
    assert_eq!(bench.copied(&display.bytes()), Ok(hex(&display.bytes())));
    // START-OF-DISPLAY 601 of END-OF-DATA 600.
    let over = bytes("02 00 80 00 BC 02 58 02 00 00 00 00 59 02 00 00 00");
    bench.refused(5, &over);
    assert_eq!(bench.copied(&over), Err(5));
}

#[test]
fn a_terminator_behind_a_long_text() {
    let mut bench = Bench::initiated();
    start(ZZ2 | T, b"? ", &[b'x'; 300]).max(400).on(&mut bench);
    // One line down at column 0; LOW-WATER 302, position 300.
    let answer = format!("03 00 2E 01 01 00 2C 01{} 0D", " 78".repeat(300));
    assert_eq!(bench.typed(&[CR]), pair("0D 0A", &answer));
}

/// A tab has one space there, a control its two marks; the column stays.
#[test]
fn a_terminator_is_echoed_at_the_top() {
    for (code, shown) in [(HT, "20"), (1, "5E 41")] {
        let mut bench = Bench::initiated();
        let text = [b'x'; TOP as usize];
        start(ZZ1 | T, b"", &text).set(&[code]).max(BUFFER).on(&mut bench);
        let answer = format!("03 00 E7 03 00 E7 E7 03 {} {code:02X}", hex(&text));
        assert_eq!(bench.key(code), done(shown, &answer));
    }
}

#[test]
fn the_last_character_is_a_terminator() {
    let mut bench = Bench::initiated();
    let text = [b'x'; WHOLE - 1];
    start(ZZ2, b"", &text).max(BUFFER).on(&mut bench);
    let answer = format!("03 00 {0} 00 E7 {0} {1} 0D", word(WHOLE - 1), hex(&text));
    assert_eq!(bench.typed(&[CR]), pair("", &answer));
}

#[test]
fn the_last_character_fills_the_buffer() {
    let mut bench = Bench::initiated();
    roomy(b"", b"").on(&mut bench);
    let text = [b'x'; WHOLE - 1];
    assert_eq!(bench.typed(&text), pair(&hex(&text), ""));
    let answer = format!("03 04 00 00 00 E7 {} {} 79", word(WHOLE), hex(&text));
    assert_eq!(bench.typed(b"y"), pair("79", &answer));
}

#[test]
fn a_prompt_that_is_the_whole_buffer() {
    let mut bench = Bench::initiated();
    let prompt = [b'?'; WHOLE];
    let answer = pair(&hex(&prompt), &format!("03 04 {} 00 E7 00 00", word(WHOLE)));
    assert_eq!(roomy(&prompt, b"").on(&mut bench), answer);
}

#[test]
fn a_token_behind_a_long_text() {
    // Room for it, or for one less.
    for room in [TOKEN.len(), TOKEN.len() - 1] {
        let mut bench = Bench::initiated();
        let text = vec![b'x'; WHOLE - room];
        start(ZZ2 | EE2, b"", &text).max(BUFFER).on(&mut bench);
        let end = word(WHOLE - room);
        let (code, token) = if room == TOKEN.len() { ("01", " 1B 5B 41") } else { ("18", "") };
        let answer = format!("03 {code} {end} 00 E7 {end} {}{token}", hex(&text));
        assert_eq!(bench.typed(&TOKEN), pair("", &answer));
    }
}

#[test]
fn low_water_falls_from_above_255() {
    let mut bench = Bench::initiated();
    roomy(b"", &[b'x'; 600]).on(&mut bench);
    bench.typed(&[DELETE_KEY]);
    assert!(bench.host(UNREAD).2.starts_with("03 06 57 02 00 57 57 02 78"));
    // It stays where the end comes down to it and no further.
    let mut read = roomy(b"", &[b'x'; 600]);
    read.low = Some(300);
    read.on(&mut bench);
    bench.typed(&[DELETE_KEY; 300]);
    bench.typed(b"y");
    bench.typed(&[DELETE_KEY]);
    assert!(bench.host(UNREAD).2.starts_with("03 06 2C 01 00"));
    // It falls to the end of a prompt, and no further.
    let mut read = roomy(&[b'?'; 513], &[b'x'; 87]);
    read.low = Some(600);
    read.on(&mut bench);
    bench.typed(&[DELETE_LINE_KEY]);
    assert!(bench.host(UNREAD).2.starts_with("03 06 01 02 "));
}

#[test]
fn what_else_completes_a_long_read() {
    let mut bench = Bench::initiated();
    let text = [b'x'; WHOLE - 1];
    let returned = |code: &str, column: &str| {
        format!("03 {code} {0} 00 {column} {0} {1}", word(WHOLE - 1), hex(&text))
    };
    start(ZZ2 | Q, b"", &text).max(BUFFER).timeout(1).on(&mut bench);
    assert_eq!(bench.tick(), done("", &returned("05", "E7")));
    // Begun at the top column, where it stays.
    roomy(b"", &text).on(&mut bench);
    bench.refused(4, &roomy(b"", b"").bytes());
    assert_eq!(bench.host("05 01"), done("", ""));
    assert_eq!(bench.host(UNREAD), done("", &returned("06", "00")));
    // Out-of-band returns nothing; LOW-WATER is END-OF-PROMPT.
    assert_eq!(bench.number(MAKE_IMMEDIATE_CLEAR), 0);
    roomy(&[b'?'; 300], &[b'x'; 300]).on(&mut bench);
    let answer = format!("{TOLD} | 03 03 2C 01 00 00 00 00");
    assert_eq!(bench.key(BAND_KEY), done("", &answer));
}

#[test]
fn an_underflow_behind_a_long_prompt() {
    let mut bench = Bench::initiated();
    let prompt = [b'?'; WHOLE - 1];
    for code in [DELETE_KEY, DELETE_WORD_KEY] {
        start(ZZ1 | UU2, &prompt, b"").max(BUFFER).on(&mut bench);
        let answer = bench.typed(&[code]).1;
        assert!(answer.starts_with(&format!("03 07 {} 00 ", word(WHOLE - 1))), "{answer}");
        assert!(answer.ends_with(&format!("00 00 {code:02X}")), "{answer}");
    }
    // Unread (empty) does not take the prompt for input.
    roomy(&prompt, b"").on(&mut bench);
    assert_eq!(bench.host("05 01").2, format!("03 06 {} 00 00 00 00", word(WHOLE - 1)));
}

#[test]
fn positions_are_modulo_256_however_long_the_text() {
    let mut bench = Bench::initiated();
    // A Write: 1,000 marks are 999 columns, E7; 2,000 lines are D0.
    let write = |byte: u8, count| [bytes("07 00 04 00 00"), vec![byte; count]].concat();
    let shown = |byte: &str, count| byte.repeat(count).trim_end().to_owned();
    let answer = done(&shown("78 ", 1_000), "08 00 E7 00 00 00");
    assert_eq!(bench.host_bytes(&write(b'x', 1_000)), answer);
    let answer = done(&shown("0A ", 2_000), "08 00 00 00 D0 00");
    assert_eq!(bench.host_bytes(&write(b'\n', 2_000)), answer);
    // A read whose prompt goes back to column 0, 999 back, and 1,000 lines down.
    let prompt = [&[CR][..], &[b'\n'; 1_000]].concat();
    roomy(&prompt, b"").on(&mut bench);
    assert_eq!(bench.host(UNREAD), done("", "03 06 E9 03 E8 19 00 00"));
}

fn digits(bytes: &[u8]) -> String {
    hex(bytes).replace(' ', "")
}

/// Our Initiate as a script shows it.
fn our_answer() -> String {
    format!("0 - 1900{}\n", OUR_INITIATE.replace(' ', ""))
}

/// As a script shows the message area.
#[test]
fn a_message_stands_behind_its_length_low_byte_first() {
    let text = [b'x'; 300];
    let read = start(ZZ2, b"", &text).max(300).bytes();
    let (initiate, ours) = (INITIATE.replace(' ', ""), our_answer());
    // Eight bytes and 300 are 34 01.
    let answer = format!("0 {0} 340103042C01002C2C01{0}\n", digits(&text));
    let script = format!("M {initiate}\nM {}\n", digits(&read));
    assert_eq!(run(&script), ours.clone() + &answer);
    // Two messages, the second behind a short one.
    let hello = MAKE_HELLO.replace(' ', "");
    let read = start(ZZ1, b"", &text).max(301).bytes();
    let script = format!("M {initiate}\nK 61\nM {hello}\nM {}\nK 03\n", digits(&read));
    let shown = format!("0 {} -\n", digits(&text));
    let told = format!("0 61 0300040003350103042C01002D2D01{}61\n", digits(&text));
    assert_eq!(run(&script), ours + "0 - -\n0 - -\n" + &shown + &told);
}

#[test]
fn messages_without_a_line_keep_both_bytes() {
    let mut bench = Bench::default();
    let read_data = [bytes("03 04 34 12 00 E7 78 56"), vec![b'x'; LONGEST - 8]].concat();
    assert_eq!(bench.copied(&read_data), Ok(hex(&read_data)));
    let wanted = [bytes("0A 00"), [4, 2].repeat((LONGEST - 2) / 2)].concat();
    assert_eq!(bench.copied(&wanted), Ok(hex(&wanted)));
    // An Initiate of many parameters, each as long as one byte can say.
    let parameter = [vec![9, 255], vec![7; 255]].concat();
    let initiate = [vec![1, 0, 1, 0, 0], vec![b' '; 8], parameter.repeat(7)].concat();
    assert_eq!(bench.copied(&initiate), Ok(hex(&initiate)));
    assert_eq!(bench.host_bytes(&initiate), done("", OUR_INITIATE));
}

/// The bytes of a message with one part for each character code.
fn for_each_code(front: &str, part: impl Fn(u8) -> Vec<u8>) -> Vec<u8> {
    [bytes(front), (0..=255).flat_map(part).collect()].concat()
}

#[test]
fn characteristics_of_all_256_codes() {
    let given = for_each_code("0B 00", |code| vec![2, 2, code, 0xFF, 4]);
    let asked = for_each_code("0A 00", |code| vec![2, 2, code]);
    let answer = for_each_code("0B 00", |code| vec![2, 2, code, 0x7F, 4]);
    assert_eq!((given.len(), asked.len(), answer.len()), (1_282, 770, 1_282));
    let mut bench = Bench::initiated();
    assert_eq!(bench.copied(&given), Ok(hex(&given)));
    assert_eq!(bench.host_bytes(&given), done("", ""));
    assert_eq!(bench.host_bytes(&asked), done("", &hex(&answer)));
    // 1,282 are 02 05.
    let initiate = INITIATE.replace(' ', "");
    let script = format!("M {initiate}\nM {}\nM {}\n", digits(&given), digits(&asked));
    let answers = format!("0 - -\n0 - 0205{}\n", digits(&answer));
    assert_eq!(run(&script), our_answer() + &answers);
}

#[test]
fn characteristics_have_up_to_the_longest() {
    let mut bench = Bench::initiated();
    // Raising off again and again, and on at the end.
    let longest = [bytes("0B 00"), [4, 2, 0].repeat(681), bytes("04 02 01")].concat();
    assert_eq!(longest.len(), LONGEST);
    assert_eq!(bench.host_bytes(&longest), done("", ""));
    assert_eq!(bench.host("0A 00 04 02"), done("", "0B 00 04 02 01"));
    assert_eq!(bench.copied(&longest), Ok(hex(&longest)));
    let more = [&longest[..], &[4, 2, 0]].concat();
    bench.refused(2, &more);
    assert_eq!(bench.copied(&more), Err(2));
}

#[test]
fn the_end_of_long_characteristics_is_judged() {
    let mut bench = Bench::initiated();
    let front = [bytes("0B 00"), [2, 2, 0x41, 0xFF, 4].repeat(408)].concat();
    // The last leaves a character deferred-clear.
    let deferred = [front, bytes("02 02 03 FF 02")].concat();
    assert_eq!(deferred.len(), LONGEST - 1);
    bench.refused(6, &deferred);
    // Behind it a selector is cut short, and 5 comes before 6.
    let cut = [&deferred[..], &[0]].concat();
    bench.refused(5, &cut);
    assert_eq!(bench.copied(&cut), Err(5));
}
