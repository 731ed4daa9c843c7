//! Both forms are asked and loaded, also mixed (M-107).

use super::*;

/// Each with a largest read alone: 10 in form 1, 1,000 in form 2.
fn small() -> Vec<u8> {
    only(4, &[10])
}

fn large() -> Vec<u8> {
    largest_2(1_000)
}

#[test]
fn section_4_is_one_byte_or_two_as_its_record_has_it() {
    let mut bench = Bench::default();
    assert_eq!(bench.section(4, &small(), &large()), "0A");
    assert_eq!(bench.section(4, &large(), &small()), "E8 03");
    for none in [nothing(), nothing_2()] {
        assert_eq!(bench.section(4, &none, &large()), "E8 03");
        assert_eq!(bench.section(4, &none, &small()), "0A");
        assert_eq!(bench.section(4, &large(), &none), "E8 03");
        assert_eq!(bench.section(4, &small(), &none), "0A");
    }
    // A largest read of 0 is no empty section, in either form.
    assert_eq!(bench.section(4, &largest_2(0), &small()), "00 00");
    assert_eq!(bench.section(4, &only(4, &[0]), &large()), "00");
}

#[test]
fn the_other_sections_are_asked_of_either_form() {
    let mut bench = Bench::default();
    let site = record_of(2, [&switches(&[PROMPT]), &[9, 4], &[1], &[10, 1]]);
    let own = only(2, &[200, 4]);
    let asked = |bench: &mut Bench, own: &[u8], site: &[u8]| -> Vec<String> {
        (0..=9).map(|number| bench.section(number, own, site)).collect()
    };
    let switches = "04 02 00 05 02 00 06 02 00 09 02 01";
    let expected = ["", switches, "C8 04", "01", "0A 01", "", "", "", "", ""];
    assert_eq!(asked(&mut bench, &own, &site), expected);
    let expected = ["", switches, "09 04", "01", "0A 01", "", "", "", "", ""];
    assert_eq!(asked(&mut bench, &site, &own), expected);
}

#[test]
fn either_unsound_record_leaves_nothing_to_ask_for() {
    let mut bench = Bench::default();
    // The section asked for stands in the sound one.
    let one_byte = only_of(2, 4, &[10]);
    for number in 1..=4 {
        for whole in [full(), full_2()] {
            assert_eq!(bench.section(number, &whole, &one_byte), "");
            assert_eq!(bench.section(number, &one_byte, &whole), "");
        }
    }
}

/// The largest MAX-LENGTH that a line takes when it was loaded so.
fn largest(own: &[u8], site: &[u8]) -> u16 {
    let mut bench = Bench::initiated();
    assert_eq!(bench.load(own, site), 0);
    let tops = [TOP_1 - 1, TOP_1, TOP_1 + 1, TOP_2 - 1, TOP_2, BUFFER - 1, BUFFER];
    let all = [&tops[..], &[9, 10, 11, 999, 1_000, 1_001]].concat();
    let started = all.into_iter().filter(|max| number_at(&mut bench, *max) == 0);
    started.max().expect("a short read starts")
}

#[test]
fn the_largest_read_is_loaded_from_either_form() {
    for (own, site, expected) in [
        (small(), large(), 10),
        (large(), small(), 1_000),
        (nothing(), large(), 1_000),
        (nothing_2(), large(), 1_000),
        (nothing_2(), small(), 10),
        (large(), nothing(), 1_000),
        (small(), nothing_2(), 10),
        (small(), small(), 10),
        (large(), large(), 1_000),
        (nothing(), nothing_2(), BUFFER),
        (only(4, &[TOP_1 as u8]), nothing_2(), TOP_1),
        (largest_2(TOP_1 + 1), nothing_2(), TOP_1 + 1),
        (largest_2(TOP_2), small(), TOP_2),
    ] {
        assert_eq!(largest(&own, &site), expected);
    }
}

#[test]
fn each_section_is_loaded_from_its_own_record() {
    let mut bench = Bench::initiated();
    let site = record([&switches(&[RAISE, ECHO]), &[65, 4], &[0, 0, 0, 0, 0, 0, 0, 1], &[80]]);
    let own = record_of(2, [&[], &[66, 8], &[], &[44, 1]]);
    assert_eq!(bench.load(&own, &site), 0);
    assert_eq!(bench.host("0A 00 04 02 02 02 41").2, "0B 00 04 02 01 02 02 41 7F 00");
    assert_eq!(bench.host("0A 00 02 02 42").2, "0B 00 02 02 42 7F 08");
    bench.refused(5, &start(0, b"", b"").max(301).bytes());
    start(0, b"", b"").max(300).on(&mut bench);
    // The set is code 56, `8`; raising is on.
    assert_eq!(bench.typed(b"a8"), pair("41", "03 00 00 00 00 01 01 00 41 38"));
}

#[test]
fn form_2_loads_what_form_1_does() {
    let mut lines = [full(), full_2()].map(|record| {
        let mut bench = Bench::initiated();
        assert_eq!(bench.load(&record, &nothing()), 0);
        bench
    });
    let [one, two] = &mut lines;
    assert_eq!(
        one.host("0A 00 04 02 05 02 06 02 09 02"),
        two.host("0A 00 04 02 05 02 06 02 09 02")
    );
    for code in 0..=255 {
        assert_eq!(one.host_bytes(&[10, 0, 2, 2, code]), two.host_bytes(&[10, 0, 2, 2, code]));
    }
    for bench in [one, two] {
        bench.refused(5, &start(0, b"", b"").max(81).bytes());
        start(0, b"", b"").on(bench);
        // The set of both is CR and 19.
        assert_eq!(bench.typed(&[9]).0, "20 20 20 20 20 20 20 20");
        assert_eq!(bench.typed(&[13]), pair("", "03 00 00 00 00 08 01 00 09 0D"));
    }
}

#[test]
fn a_form_1_record_that_is_loaded_takes_room_away() {
    let mut bench = Bench::initiated();
    assert_eq!(number_at(&mut bench, BUFFER), 0);
    assert_eq!(bench.load(&only(4, &[TOP_1 as u8]), &nothing_2()), 0);
    bench.refused(5, &start(ZZ2, b"", b"").max(TOP_1 + 1).bytes());
    // Only form 2 can give it back.
    assert_eq!(bench.load(&nothing(), &nothing_2()), 0);
    bench.refused(5, &start(ZZ2, b"", b"").max(TOP_1 + 1).bytes());
    assert_eq!(bench.load(&largest_2(TOP_2), &nothing()), 0);
    assert_eq!(number_at(&mut bench, TOP_2), 0);
}
