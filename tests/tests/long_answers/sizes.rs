//! The sizes, and what stands on them.

use super::*;
use second::line::{tokens, TYPE_AHEAD};
use second::message::{write, Message, Write};

/// Those before the request.
const OLD_TERMINAL_AREA: usize = 4_096;
const OLD_MESSAGE_AREA: usize = 256;

/// The one test that would move with a size, but for the bytes of our Initiate.
#[test]
fn the_sizes_that_the_request_gives() {
    assert_eq!((BUFFER, LONGEST, TERMINAL_AREA, MESSAGE_AREA), (1_024, 2_048, 32_768, 2_048));
    // These stay.
    assert_eq!((TYPE_AHEAD, tokens::LONGEST, TOP), (64, 16, 999));
}

#[test]
fn our_initiate_offers_the_longest_message_and_the_buffer() {
    let (_, _, ours) = Bench::default().host(INITIATE);
    let offered = format!("01 02 {} 02 02 {} 03 02 FE 7F", word(LONGEST), word(WHOLE));
    assert!(ours.ends_with(&offered), "{ours}");
    assert_eq!(ours, OUR_INITIATE);
}

#[test]
fn an_area_that_is_smaller_is_1() {
    let (terminal, message) = (TERMINAL_AREA, MESSAGE_AREA);
    for (terminal, message, number) in [
        (terminal, message, 0),
        (terminal - 1, message, 1),
        (terminal, message - 1, 1),
        (OLD_TERMINAL_AREA, message, 1),
        (terminal, OLD_MESSAGE_AREA, 1),
        (OLD_TERMINAL_AREA, OLD_MESSAGE_AREA, 1),
    ] {
        let mut bench = Bench::initiated();
        bench.areas.terminal = terminal;
        bench.areas.message = message;
        assert_eq!((bench.key(b'a').0, bench.step().0, bench.tick().0), (number, number, number));
        assert_eq!(bench.number("0C 00"), number);
        // 1 comes before 2.
        assert_eq!(bench.host_bytes(&[0; LONGEST + 1]).0, if number == 0 { 2 } else { 1 });
    }
}

#[test]
fn a_script_begins_with_areas_that_suffice() {
    let (terminal, message) = (TERMINAL_AREA, MESSAGE_AREA);
    assert_eq!(run(&format!("S\nA {terminal} {message}\nS\n")), "0 - -\n0 - -\n");
    for (terminal, message) in [(terminal - 1, message), (terminal, message - 1)] {
        // So does each fresh line.
        assert_eq!(run(&format!("A {terminal} {message}\nS\nF\nS\n")), "1 - -\n0 - -\n");
    }
}

/// A Write of so many bytes in all.
fn write_of(length: usize) -> Vec<u8> {
    let mut message = vec![b'w'; length];
    message[..WRITE_HEADER].copy_from_slice(&[7, 0, 0, 0, 0]);
    message
}

#[test]
fn a_message_has_up_to_its_longest() {
    let mut bench = Bench::initiated();
    for length in [256, 257, 258, 1_000, LONGEST - 1, LONGEST] {
        let shown = "77 ".repeat(length - WRITE_HEADER);
        assert_eq!(bench.host_bytes(&write_of(length)), done(shown.trim_end(), ""));
        assert_eq!(bench.copied(&write_of(length)), Ok(hex(&write_of(length))));
    }
    for length in [LONGEST + 1, LONGEST + 2, 2 * LONGEST] {
        bench.refused(2, &write_of(length));
        assert_eq!(bench.copied(&write_of(length)), Err(2));
        // 2 comes before 3.
        bench.refused(2, &vec![0; length]);
        assert_eq!(bench.copied(&vec![0; length]), Err(2));
    }
}

#[test]
fn a_script_line_may_be_longer_than_what_is_kept() {
    for length in [LONGEST, LONGEST + 1, LONGEST + 2, 2 * LONGEST, 70_000] {
        let digits = "0C".to_owned() + &"00".repeat(length - 1);
        let number = if length <= LONGEST { 5 } else { 2 };
        assert_eq!(run(&format!("R {digits}\n")), format!("{number} -\n"));
        assert_eq!(run(&format!("R {digits}0\nR {digits}0G\n")), "?\n?\n");
    }
}

#[test]
fn writing_without_a_line_needs_the_longest_and_gives_no_more() {
    let message = |data| Message::Write(Write { data: vec![0; data], ..Write::default() });
    for area in [0, WRITE_HEADER + 1, 255, 256, LONGEST - 1] {
        assert_eq!(write(&message(1), area), Err(1));
        // 1 comes before 2.
        assert_eq!(write(&message(LONGEST_DATA + 1), area), Err(1));
    }
    assert_eq!(write(&message(LONGEST_DATA), LONGEST).map(|bytes| bytes.len()), Ok(LONGEST));
    assert_eq!(write(&message(LONGEST_DATA + 1), LONGEST), Err(2));
    assert_eq!(write(&message(LONGEST_DATA + 1), 65_535), Err(2));
}

#[test]
fn a_read_has_up_to_the_whole_buffer() {
    let mut bench = Bench::initiated();
    for max in [131, 132, 133, 255, 256, 1_000, BUFFER - 1, BUFFER] {
        let read = start(ZZ2, b"", b"").max(max).bytes();
        assert_eq!(bench.copied(&read), Ok(hex(&read)));
        assert_eq!(bench.host_bytes(&read), done("", ""));
        assert_eq!(bench.host(UNREAD), done("", "03 06 00 00 00 00 00 00"));
    }
    for max in [BUFFER + 1, BUFFER + 2, BUFFER + 256, 2 * BUFFER, 0x8400, u16::MAX] {
        let read = start(ZZ2, b"", b"").max(max).bytes();
        assert_eq!(bench.copied(&read), Err(5));
        bench.refused(5, &read);
    }
    // 5 comes before 6.
    bench.refused(5, &start(ZZ2 | V, b"", b"").max(BUFFER + 1).bytes());
    bench.refused(6, &start(ZZ2 | V, b"", b"").max(BUFFER).bytes());
}

/// As many marks as a pending read can have: tabs of eight to the top column, then
/// controls of two each.
#[test]
fn the_most_that_a_call_writes_passes_the_old_area() {
    let mut bench = Bench::initiated();
    let controls = WHOLE - 1 - TABS_TO_TOP;
    roomy(b"", &[&[HT; TABS_TO_TOP][..], &[1].repeat(controls)].concat()).on(&mut bench);
    let mut message = write_of(LONGEST);
    message[1] = 3;
    let text = format!("{}{}", " 20".repeat(spaces(TABS_TO_TOP)), " 5E 41".repeat(controls));
    let shown = format!("{}0D 0A{text}", "77 ".repeat(LONGEST_DATA));
    assert_eq!(bench.host_bytes(&message), done(&shown, ""));
    let marks = spaces(TABS_TO_TOP) + 2 * controls;
    assert!(3 * marks > OLD_TERMINAL_AREA);
    assert_eq!(bench.typed(&[DELETE_LINE_KEY]).0, rubbed(marks));
}
