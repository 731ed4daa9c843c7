//! Asking for a section, and the script lines.

use super::*;
use second::settings;

#[test]
fn the_own_section_comes_before_the_sites() {
    let mut bench = Bench::default();
    let site = record([&switches(&[PROMPT]), &[9, 4], &[1], &[10]]);
    let sections = ["04 02 00 05 02 01 06 02 00 09 02 00", "03 01 41 04", "00 20 08", "50"];
    for (number, section) in (1..).zip(sections) {
        assert_eq!(bench.section(number, &full(), &site), section);
        assert_eq!(bench.section(number, &full(), &full()), section);
    }
}

#[test]
fn an_empty_own_section_leaves_it_to_the_site() {
    let mut bench = Bench::default();
    let own = only(2, &[200, 4]);
    let asked: Vec<String> = (1..=4).map(|number| bench.section(number, &own, &full())).collect();
    assert_eq!(asked, ["04 02 00 05 02 01 06 02 00 09 02 00", "C8 04", "00 20 08", "50"]);
    // A largest read of 0 is a section that is not empty.
    assert_eq!(bench.section(4, &only(4, &[0]), &full()), "00");
}

#[test]
fn what_neither_has_is_empty() {
    let mut bench = Bench::default();
    for number in 1..=4 {
        assert_eq!(bench.section(number, &nothing(), &nothing()), "");
    }
    assert_eq!(bench.section(3, &only(2, &[200, 4]), &only(4, &[1])), "");
}

#[test]
fn a_number_that_is_not_1_to_4_is_empty() {
    let mut bench = Bench::default();
    for number in [0, 5, 6, 7, 8, 9] {
        assert_eq!(bench.section(number, &full(), &full()), "");
    }
}

#[test]
fn an_unsound_record_leaves_nothing_to_ask_for() {
    let mut bench = Bench::default();
    // It lacks only its last byte, and the other record is sound.
    let short = &full()[..28];
    for number in 0..=9 {
        assert_eq!(bench.section(number, short, &full()), "");
        assert_eq!(bench.section(number, &full(), short), "");
        assert_eq!(bench.section(number, &[], &full()), "");
        assert_eq!(bench.section(number, &full(), &[]), "");
    }
}

#[test]
fn a_section_is_a_part_of_its_record() {
    let (own, site) = (only(2, &[200, 4]), full());
    let part = settings::section(2, &own, &site);
    assert_eq!(part.as_ptr_range(), own[5..7].as_ptr_range());
    let part = settings::section(3, &own, &site);
    assert_eq!(part.as_ptr_range(), site[23..26].as_ptr_range());
}

#[test]
fn asking_leaves_the_line() {
    let mut bench = Bench::initiated();
    bench.unchanged(|bench| {
        assert_eq!(bench.section(4, &full(), &full()), "50");
    });
    assert_eq!(bench.host_bytes(&start(ZZ2, b"", b"").max(BUFFER).bytes()).0, 0);
}

#[test]
fn a_load_is_answered_by_its_number_alone() {
    assert_eq!(run(&format!("L {NONE} {NONE}\n")), "0\n");
    assert_eq!(run(&format!("L - {NONE}\nL {NONE} -\nL - -\n")), "7\n7\n7\n");
    assert_eq!(run(&format!("L 0100 {NONE}\nL {NONE} FF\n")), "7\n7\n");
}

#[test]
fn an_ask_is_answered_by_the_section() {
    let with = "0100000000000001000a";
    assert_eq!(run(&format!("G 4 {with} {NONE}\nG 4 {NONE} {with}\n")), "0A\n0A\n");
    assert_eq!(run(&format!("G 3 {with} {NONE}\nG 0 {with} {with}\n")), "-\n-\n");
    assert_eq!(run(&format!("G 9 {with} {with}\nG 4 {with} -\nG 4 - -\n")), "-\n-\n-\n");
}

#[test]
fn lines_of_another_form() {
    let strays = ["L", "L ", "L -", "L - ", "L  -", "L  - -", "L - - ", "L - - -", "L -  -"];
    let more = ["L 0 -", "L 010 -", "L - 1", "L 0G -", "L - G0", "L -- -", "L -01 -", "L 01- -"];
    let asks = ["G", "G ", "G 1", "G 1 ", "G 1 -", "G - -", "G 1 - - ", "G 1 - - -", "G 1  - -"];
    let numbers =
        ["G 10 - -", "G 01 - -", "G x - -", "G A - -", "G -1 - -", "G +1 - -", "G  1 - -"];
    let others = ["l - -", "g 1 - -", "L- -", "G1 - -", "G 1- -", "L - -\r", " L - -", "L -\t-"];
    let digits = ["G 1 0 -", "G 1 - 012", "G 1 0x -", "G 12 - -", "G 128 - -", "G 255 - -"];
    for stray in [&strays[..], &more, &asks, &numbers, &others, &digits].concat() {
        assert_eq!(run(&format!("{stray}\nS\n")), "?\n0 - -\n", "{stray:?}");
    }
}

#[test]
fn a_long_record_is_read_to_its_end() {
    let long = "01".repeat(70_000);
    assert_eq!(run(&format!("L {long} {NONE}\nG 1 {NONE} {long}\n")), "7\n-\n");
    assert_eq!(run(&format!("L {long}0 {NONE}\nG 1 {NONE} {long}x0\n")), "?\n?\n");
}
