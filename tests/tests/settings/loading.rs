//! What a load does to a line, and what it leaves.

use super::*;
use second::{compare, script};

/// The four switches as Read Characteristics tells them.
fn told_switches(bench: &mut Bench) -> Vec<usize> {
    let (number, _, answer) = bench.host("0A 00 04 02 05 02 06 02 09 02");
    assert_eq!(number, 0);
    let answer = bytes(&answer);
    (0..4).filter(|place| answer[3 * place + 4] == 1).collect()
}

fn attribute(bench: &mut Bench, code: u8) -> u8 {
    let (number, _, answer) = bench.host_bytes(&[10, 0, 2, 2, code]);
    assert_eq!(number, 0);
    bytes(&answer)[6]
}

/// The bytes of a set with these codes, to the last that is not 0.
fn set(codes: &[u8]) -> Vec<u8> {
    let mut set = start(0, b"", b"").set(codes).set;
    while set.last() == Some(&0) {
        set.pop();
    }
    set
}

#[test]
fn loading_works_before_initiate_and_initiate_keeps_what_was_loaded() {
    let mut bench = Bench::default();
    let own = record([&switches(&[RAISE, PROMPT]), &[3, 3], &set(b"q"), &[80]]);
    assert_eq!(bench.load(&own, &nothing()), 0);
    // Our Initiate offers the whole buffer as ever.
    assert_eq!(bench.host(INITIATE), done("", OUR_INITIATE));
    assert_eq!(told_switches(&mut bench), [RAISE, PROMPT]);
    assert_eq!(bench.key(3), done("", "04 00 03"));
    assert_eq!((number_at(&mut bench, 81), number_at(&mut bench, 80)), (5, 0));
    start(0, b"", b"").on(&mut bench);
    let (_, messages) = bench.typed(&[13, b'q']);
    assert_eq!(messages, "");
    assert_eq!(bench.host(UNREAD).2, "03 06 00 00 00 00 02 00 0D 51");
}

#[test]
fn a_key_before_initiate_is_stored_whatever_was_loaded() {
    let mut bench = Bench::default();
    assert_eq!(bench.load(&only(2, &[b'a', 3, b'b', 1]), &nothing()), 0);
    bench.keys(b"ab");
    assert_eq!(bench.number(INITIATE), 0);
    assert_eq!(bench.host("0C 00"), done("", "0D 00 02 00"));
    assert_eq!(bench.key(b'a'), done("", "04 00 61"));
}

#[test]
fn the_switches_are_set_as_characteristics_sets_them() {
    for on in 0..16 {
        let on: Vec<usize> = (0..4).filter(|place| on >> place & 1 == 1).collect();
        let mut bench = Bench::initiated();
        assert_eq!(told_switches(&mut bench), [ECHO]);
        assert_eq!(bench.load(&nothing(), &only(1, &switches(&on))), 0);
        assert_eq!(told_switches(&mut bench), on);
    }
}

#[test]
fn the_switches_act_from_the_next_start_read() {
    let mut bench = Bench::initiated();
    start(0, b"", b"").on(&mut bench);
    assert_eq!(bench.load(&only(1, &switches(&[RAISE, ESCAPES, PROMPT])), &nothing()), 0);
    // No prompt mark, no raising, echo, and no token.
    assert_eq!(bench.typed(b"a[\t"), pair("61 5B 20 20 20 20 20 20", ""));
    assert_eq!(bench.typed(&[27]), pair("", "03 00 00 00 00 08 03 00 61 5B 09 1B"));
    assert_eq!(start(0, b"", b"").on(&mut bench), pair("01", ""));
    assert_eq!(bench.typed(b"a"), pair("", ""));
    let (terminal, messages) = bench.typed(&[27, b'[', b'A']);
    assert_eq!((&terminal[..], &messages[..]), ("", "03 01 00 00 00 00 01 00 41 1B 5B 41"));
}

#[test]
fn the_attributes_are_all_256() {
    let mut bench = Bench::initiated();
    assert_eq!(bench.number("0B 00 02 02 41 7F 7C 02 02 42 7F 03 02 02 FF 7F 01"), 0);
    assert_eq!(bench.load(&only(2, &[66, 5, 200, 127]), &nothing()), 0);
    for code in 0..=255 {
        let value = [(66, 5), (200, 127)].iter().find(|pair| pair.0 == code).map_or(0, |p| p.1);
        assert_eq!(attribute(&mut bench, code), value, "code {code}");
    }
    // The next load leaves nothing of this one.
    assert_eq!(bench.load(&nothing(), &only(2, &[0, 4])), 0);
    assert_eq!((attribute(&mut bench, 66), attribute(&mut bench, 0)), (0, 4));
}

#[test]
fn the_attributes_act_at_once() {
    let mut bench = Bench::initiated();
    start(ZZ2, b"", b"").on(&mut bench);
    bench.typed(b"xy");
    assert_eq!(bench.load(&only(2, &[b'a', 3, b'b', 1]), &nothing()), 0);
    assert_eq!(bench.key(b'a'), done("", "04 00 61"));
    assert_eq!(bench.key(b'b'), done("", "04 00 62 | 03 03 00 00 00 02 00 00"));
    // And a code that is no longer listed is an ordinary key at once.
    start(ZZ2, b"", b"").on(&mut bench);
    assert_eq!(bench.load(&only(2, &[b'c', 3]), &nothing()), 0);
    assert_eq!(bench.typed(b"ab"), pair("61 62", ""));
}

#[test]
fn characteristics_go_on_from_what_was_loaded() {
    let mut bench = Bench::initiated();
    assert_eq!(bench.load(&only(2, &[65, 1, 66, 3]), &nothing()), 0);
    // 3 less its lowest bit is deferred-clear.
    bench.refused(6, &bytes("0B 00 02 02 42 01 00"));
    assert_eq!(bench.number("0B 00 02 02 41 02 02"), 0);
    assert_eq!((attribute(&mut bench, 65), attribute(&mut bench, 66)), (3, 3));
}

#[test]
fn the_set_is_the_one_that_zz_0_looks_at() {
    let mut bench = Bench::initiated();
    assert_eq!(bench.load(&only(3, &set(b"q")), &nothing()), 0);
    start(0, b"", b"").on(&mut bench);
    assert_eq!(bench.typed(&[13]), pair("5E 4D", ""));
    assert_eq!(bench.typed(b"q"), pair("", "03 00 00 00 00 02 01 00 0D 71"));
    start(ZZ2, b"", b"").on(&mut bench);
    assert_eq!(bench.typed(&[b'q', 13]), pair("71", "03 00 00 00 00 01 01 00 71 0D"));
    // It is looked at again: a read with ZZ 2 gives no set.
    start(0, b"", b"").on(&mut bench);
    assert_eq!(bench.typed(b"q"), pair("", "03 00 00 00 00 00 00 00 71"));
}

#[test]
fn a_start_read_with_zz_1_or_another_load_gives_another_set() {
    let mut bench = Bench::initiated();
    assert_eq!(bench.load(&only(3, &set(b"q")), &nothing()), 0);
    start(ZZ1, b"", b"").set(b".").on(&mut bench);
    assert_eq!(bench.typed(b"q."), pair("71", "03 00 00 00 00 01 01 00 71 2E"));
    start(0, b"", b"").on(&mut bench);
    assert_eq!(bench.typed(b"q."), pair("71", "03 00 00 00 00 01 01 00 71 2E"));
    assert_eq!(bench.load(&nothing(), &only(3, &set(b"z"))), 0);
    start(0, b"", b"").on(&mut bench);
    assert_eq!(bench.typed(b"q.z"), pair("71 2E", "03 00 00 00 00 02 02 00 71 2E 7A"));
}

#[test]
fn a_pending_read_keeps_its_set() {
    let mut bench = Bench::initiated();
    start(0, b"", b"").on(&mut bench);
    assert_eq!(bench.load(&only(3, &set(b"q")), &nothing()), 0);
    assert_eq!(bench.typed(&[b'q', 13]), pair("71", "03 00 00 00 00 01 01 00 71 0D"));
    start(0, b"", b"").on(&mut bench);
    assert_eq!(bench.typed(b"q"), pair("", "03 00 00 00 00 00 00 00 71"));
}

#[test]
fn the_largest_read_replaces_the_buffer() {
    for largest in 0..=TOP_1 {
        replaced(&only(4, &[largest as u8]), largest);
    }
    let edges = [TOP_1, u16::from(u8::MAX), 512, TOP_2];
    let about = edges.into_iter().flat_map(|edge| edge - 2..=edge + 2);
    for largest in about.filter(|number| *number <= TOP_2).chain([0, 1, 2, 80]) {
        replaced(&largest_2(largest), largest);
    }
}

/// No read is larger than the one in this record.
fn replaced(record: &[u8], largest: u16) {
    let mut bench = Bench::initiated();
    assert_eq!(number_at(&mut bench, BUFFER), 0);
    assert_eq!(bench.load(record, &nothing()), 0);
    assert_eq!(number_at(&mut bench, largest), 0);
    for over in [1, 2, BUFFER + 1 - largest, 256] {
        bench.refused(5, &start(ZZ2, b"", b"").max(largest + over).bytes());
    }
}

#[test]
fn the_rest_of_the_start_read_test_is_as_before() {
    let mut bench = Bench::initiated();
    assert_eq!(bench.load(&only(4, &[3]), &nothing()), 0);
    bench.refused(5, &start(ZZ2, b"", b"abcd").max(3).bytes());
    bench.refused(5, &start(ZZ2 | 3, b"", b"").max(3).bytes());
    let full = start(ZZ2, b"", b"abc").max(3).on(&mut bench);
    assert_eq!(full, pair("61 62 63", "03 04 03 00 00 03 03 00 61 62 63"));
}

#[test]
fn the_largest_read_is_a_5_before_any_6_and_behind_4() {
    let mut bench = Bench::initiated();
    assert_eq!(bench.load(&only(4, &[10]), &nothing()), 0);
    let display = |max| {
        let mut read = start(ZZ2, b"", b"ab").max(max);
        read.display = 1;
        read.bytes()
    };
    for (max, number) in [(10, 6), (11, 5)] {
        bench.refused(number, &start(ZZ2 | K, b"", b"").max(max).bytes());
        bench.refused(number, &start(ZZ2 | V, b"", b"").max(max).bytes());
        bench.refused(number, &display(max));
    }
    start(ZZ2, b"", b"").max(10).on(&mut bench);
    bench.refused(4, &start(ZZ2, b"", b"").max(11).bytes());
}

#[test]
fn without_a_line_the_test_keeps_the_buffer() {
    let mut bench = Bench::initiated();
    assert_eq!(bench.load(&only(4, &[10]), &nothing()), 0);
    let read = start(ZZ2, b"", b"").max(BUFFER).bytes();
    assert_eq!(bench.copied(&read), Ok(hex(&read)));
    assert_eq!(bench.copied(&start(ZZ2, b"", b"").max(BUFFER + 1).bytes()), Err(5));
    bench.refused(5, &read);
}

#[test]
fn a_pending_read_keeps_its_length() {
    let mut bench = Bench::initiated();
    start(ZZ2, b"", b"").max(6).on(&mut bench);
    bench.typed(b"abc");
    assert_eq!(bench.load(&only(4, &[2]), &nothing()), 0);
    assert_eq!(bench.typed(b"de"), pair("64 65", ""));
    assert_eq!(bench.typed(b"f"), pair("66", "03 04 00 00 00 06 06 00 61 62 63 64 65 66"));
    bench.refused(5, &start(ZZ2, b"", b"").max(6).bytes());
}

#[test]
fn what_is_not_found_stays() {
    let mut bench = Bench::initiated();
    let all = record([&switches(&[RAISE]), &[65, 4], &set(b"q"), &[80]]);
    assert_eq!(bench.load(&all, &nothing()), 0);
    bench.unchanged(|bench| assert_eq!(bench.load(&nothing(), &nothing()), 0));
    assert_eq!(bench.load(&nothing(), &only(3, &set(b"z"))), 0);
    assert_eq!((number_at(&mut bench, 81), number_at(&mut bench, 80)), (5, 0));
    assert_eq!(bench.load(&only(4, &[TOP_1 as u8]), &nothing()), 0);
    assert_eq!((number_at(&mut bench, TOP_1), number_at(&mut bench, TOP_1 + 1)), (0, 5));
    assert_eq!(bench.load(&only(1, &switches(&[ESCAPES])), &nothing()), 0);
    assert_eq!(told_switches(&mut bench), [ESCAPES]);
    assert_eq!(attribute(&mut bench, 65), 4);
    start(0, b"", b"").on(&mut bench);
    assert_eq!(bench.typed(b"qz"), pair("", "03 00 00 00 00 00 01 00 71 7A"));
}

#[test]
fn each_section_comes_from_its_own_record_or_the_sites() {
    let mut bench = Bench::initiated();
    let site = record([&switches(&[RAISE, ECHO]), &[65, 4], &set(b"q"), &[80]]);
    let own = record([&[], &[66, 8], &[], &[10]]);
    assert_eq!(bench.load(&own, &site), 0);
    assert_eq!(told_switches(&mut bench), [RAISE, ECHO]);
    assert_eq!((attribute(&mut bench, 65), attribute(&mut bench, 66)), (0, 8));
    assert_eq!((number_at(&mut bench, 11), number_at(&mut bench, 10)), (5, 0));
    start(II1, b"", b"").max(10).on(&mut bench);
    assert_eq!(bench.typed(b"q").1, "03 00 00 00 00 00 00 00 71");
}

#[test]
fn a_load_is_lent_no_areas() {
    let mut bench = Bench::initiated();
    bench.areas.terminal = 0;
    bench.areas.message = 0;
    bench.refused(1, &bytes("0C 00"));
    assert_eq!(bench.load(&full(), &nothing()), 0);
    assert_eq!(bench.load(&full(), &[]), 7);
    bench.areas = Default::default();
    assert_eq!((number_at(&mut bench, 81), number_at(&mut bench, 80)), (5, 0));
}

#[test]
fn an_unsound_record_leaves_the_line_as_it_was() {
    let mut bench = Bench::initiated();
    bench.keys(b"cd");
    start(Q, b"? ", b"ab").timeout(9).on(&mut bench);
    let mut spoiled = full();
    spoiled[20] = 6;
    unsound(&mut bench, &spoiled);
    unsound(&mut bench, &full()[..28]);
    assert_eq!(bench.load(&full(), &nothing()), 0);
    unsound(&mut bench, &only(4, &[TOP_1 as u8 + 1]));
    assert_eq!((attribute(&mut bench, 3), attribute(&mut bench, 65)), (1, 4));
}

#[test]
fn a_load_changes_nothing_else() {
    let mut bench = Bench::initiated();
    start(ZZ2 | Q | EE2, b"? ", b"ab").timeout(2).on(&mut bench);
    bench.tick();
    let quiet = record([&switches(&[ECHO]), &[200, 4], &set(b"q"), &[TOP_1 as u8]]);
    assert_eq!(bench.load(&quiet, &nothing()), 0);
    // The idle second before it counts.
    assert_eq!(bench.tick(), done("", "03 05 04 00 00 04 02 00 61 62"));
    start(ZZ2 | EE2, b"", b"").on(&mut bench);
    // A quote, discard, a partial token and keys that wait outlast it.
    assert_eq!(bench.key(15), done("", "09 00"));
    bench.typed(&[27, b'[']);
    assert_eq!(bench.number(LOCKING), 0);
    bench.keys(b"5~k");
    bench.keys(&[22]);
    assert_eq!(bench.load(&quiet, &nothing()), 0);
    bench.keys(&[13]);
    assert_eq!(bench.host("0C 00"), done("", "0D 00 06 00"));
    assert_eq!(bench.number(UNLOCKING), 0);
    assert_eq!(bench.step(), done("", ""));
    assert_eq!(bench.step(), done("", "03 11 00 00 00 00 00 00 1B 5B 35 7E"));
    start(ZZ2, b"", b"").on(&mut bench);
    assert_eq!((bench.step(), bench.step()), (done("6B", ""), done("5E 4D", "")));
    assert_eq!(bench.host("07 00 04 00 00 78"), done("", "08 01 00 00 00 00"));
}

#[test]
fn a_line_may_be_loaded_any_number_of_times() {
    let mut bench = Bench::initiated();
    for largest in (0..=TOP_2).chain((0..=TOP_2).rev()) {
        assert_eq!(bench.load(&nothing(), &largest_2(largest)), 0);
        assert_eq!(number_at(&mut bench, largest), 0);
        assert_eq!(number_at(&mut bench, largest + 1), 5);
    }
}

#[test]
fn a_fresh_line_has_nothing_loaded() {
    let read = hex(&start(ZZ2, b"", b"").max(BUFFER).bytes()).replace(' ', "");
    let (record, none) = (hex(&full()).replace(' ', ""), hex(&nothing()).replace(' ', ""));
    let initiate = INITIATE.replace(' ', "");
    let start = format!("M {initiate}\nM {read}\n");
    let text = format!("L {record} {none}\n{start}F\n{start}");
    compare::check(text.as_bytes());
    let answers = String::from_utf8(script::run(text.as_bytes()).0).unwrap();
    let numbers: Vec<&str> = answers.lines().map(|answer| &answer[..1]).collect();
    assert_eq!(numbers, ["0", "0", "5", "0", "0"]);
}
