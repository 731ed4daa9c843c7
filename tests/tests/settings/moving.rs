//! Moving a record from one form to the other (M-107), and the script line.

use super::*;
use second::moving::{to_form_1, to_form_2, AREA};

/// Records of form 1, each with the same in form 2.
fn pairs() -> Vec<(Vec<u8>, Vec<u8>)> {
    let attributes = all_attributes();
    let switches = switches(&[RAISE, ESCAPES]);
    let mut pairs = vec![(nothing(), nothing_2()), (full(), full_2())];
    for (number, section) in [(1, &switches[..]), (2, &[65, 4]), (2, &attributes), (3, &[0, 32])] {
        pairs.push((only(number, section), only_of(2, number, section)));
    }
    for largest in 0..=TOP_1 as u8 {
        pairs.push((only(4, &[largest]), only_of(2, 4, &[largest, 0])));
    }
    let sections = [&switches[..], &attributes, &[255; 32]];
    let [a, b, c] = sections;
    pairs.push((record([a, b, c, &[132]]), record_of(2, [a, b, c, &[132, 0]])));
    pairs.push((record([a, b, c, &[]]), record_of(2, [a, b, c, &[]])));
    pairs
}

#[test]
fn any_form_1_record_moves_to_form_2_and_back_unchanged() {
    let mut bench = Bench::default();
    for (one, two) in pairs() {
        assert_eq!(bench.moved(Form::Two, &one), Ok(hex(&two)));
        assert_eq!(bench.moved(Form::One, &two), Ok(hex(&one)));
    }
}

#[test]
fn moving_keeps_the_meaning() {
    let mut bench = Bench::default();
    for (one, two) in pairs() {
        for number in 1..=3 {
            let section = bench.section(number, &one, &nothing());
            assert_eq!(bench.section(number, &two, &nothing()), section);
        }
    }
}

#[test]
fn a_moved_record_loads_the_same() {
    let [mut forth, mut back] = [Bench::default(), Bench::default()];
    for (one, two) in pairs() {
        // Each of them first: what does nothing would change nothing either.
        for (bench, first, then) in [(&mut forth, &one, &two), (&mut back, &two, &one)] {
            assert_eq!(bench.load(first, &nothing()), 0);
            bench.unchanged(|bench| assert_eq!(bench.load(then, &nothing()), 0));
        }
    }
}

#[test]
fn a_largest_read_over_132_is_8() {
    let mut bench = Bench::default();
    for largest in 0..=TOP_2 {
        let moved = bench.moved(Form::One, &largest_2(largest));
        if largest <= TOP_1 {
            assert_eq!(moved, Ok(hex(&only(4, &[largest as u8]))));
        } else {
            assert_eq!(moved, Err(8), "{largest}");
        }
    }
    let mut over = full_2();
    over[28] = 133;
    assert_eq!(bench.moved(Form::One, &over), Err(8));
    // 256 and more: the low byte alone would fit.
    (over[28], over[29]) = (0, 1);
    assert_eq!(bench.moved(Form::One, &over), Err(8));
}

#[test]
fn over_1024_is_unsound_and_so_7_and_not_8() {
    let mut bench = Bench::default();
    for largest in [TOP_2 + 1, TOP_2 + 2, 1_280, 0x8400, u16::MAX] {
        assert_eq!(bench.moved(Form::One, &largest_2(largest)), Err(7));
    }
}

#[test]
fn a_record_that_is_not_of_the_form_to_be_moved_is_7() {
    let mut bench = Bench::default();
    for (one, two) in pairs() {
        assert_eq!(bench.moved(Form::One, &one), Err(7));
        assert_eq!(bench.moved(Form::Two, &two), Err(7));
    }
    // Also where the largest read would be over 132.
    assert_eq!(bench.moved(Form::Two, &largest_2(TOP_2)), Err(7));
    for form in (0..=255).filter(|form| *form != 1 && *form != 2) {
        assert_eq!(bench.moved(Form::One, &record_of(form, [&[]; 4])), Err(7));
        assert_eq!(bench.moved(Form::Two, &record_of(form, [&[]; 4])), Err(7));
    }
}

#[test]
fn an_unsound_record_is_7() {
    let mut bench = Bench::default();
    let mut both = |record: Vec<u8>| {
        assert_eq!(bench.moved(Form::One, &record), Err(7), "{}", hex(&record));
        assert_eq!(bench.moved(Form::Two, &record), Err(7), "{}", hex(&record));
    };
    both(Vec::new());
    for whole in [full(), full_2(), nothing(), nothing_2()] {
        (0..whole.len()).for_each(|end| both(whole[..end].to_vec()));
        both([&whole[..], &[0]].concat());
        both([&whole[..], &[0; AREA]].concat());
    }
    for form in [1, 2] {
        both(only_of(form, 1, &switches(&[])[..9]));
        both(only_of(form, 2, &[65, 2]));
        both(only_of(form, 3, &[1, 0]));
        both(only_of(form, 4, &[0, 0, 0]));
    }
    // As wide as the form that it should become.
    both(only(4, &[80, 0]));
    both(only_of(2, 4, &[80]));
    both(only(4, &[133]));
    // 7 comes before 8: a flaw, and a largest read over 132.
    both([&largest_2(TOP_2)[..], &[0]].concat());
    both(record_of(2, [&[], &[65, 2], &[], &[0, 4]]));
}

/// A script's area is always one of 600 bytes.
#[test]
fn an_area_under_600_bytes_is_1() {
    assert_eq!(AREA, 600);
    for area in [0, 9, 10, 11, 566, 567, 599] {
        // 1 comes before 7 and 8.
        for record in [full(), full_2(), largest_2(TOP_2), Vec::new()] {
            assert_eq!(to_form_1(&record, area), Err(1));
            assert_eq!(to_form_2(&record, area), Err(1));
        }
    }
    for area in [600, 601, usize::MAX] {
        assert_eq!(to_form_2(&full(), area), Ok(full_2()));
        assert_eq!(to_form_1(&full_2(), area), Ok(full()));
        assert_eq!(to_form_1(&largest_2(TOP_2), area), Err(8));
        assert_eq!(to_form_1(&full(), area), Err(7));
    }
}

#[test]
fn the_longest_records_fit_the_area() {
    let longest = longest().map(|record| record.len());
    let lengths = pairs().into_iter().map(|(one, two)| [one.len(), two.len()]);
    assert_eq!(lengths.max(), Some(longest));
    assert!(longest.into_iter().all(|length| length <= AREA));
}

#[test]
fn a_longest_record_with_bytes_left_over_is_7() {
    let mut bench = Bench::default();
    // About the area, and about what a script keeps of a record.
    for length in [AREA, AREA + 1, AREA + 2] {
        for (to, mut record) in [Form::Two, Form::One].into_iter().zip(longest()) {
            record.resize(length, 0);
            assert_eq!(bench.moved(to, &record), Err(7));
        }
    }
}

#[test]
fn moving_leaves_the_line() {
    let mut bench = Bench::initiated();
    start(ZZ2, b"? ", b"ab").on(&mut bench);
    bench.unchanged(|bench| {
        assert_eq!(bench.moved(Form::Two, &full()), Ok(hex(&full_2())));
        assert_eq!(bench.moved(Form::One, &largest_2(TOP_2)), Err(8));
        assert_eq!(bench.moved(Form::One, &[]), Err(7));
    });
    // No areas are lent to the line for it.
    bench.areas.terminal = 0;
    bench.areas.message = 0;
    bench.refused(1, &bytes("0C 00"));
    assert_eq!(bench.moved(Form::One, &full_2()), Ok(hex(&full())));
}

/// `NONE` in form 2.
const NONE_2: &str = "020000000000000000";

#[test]
fn a_move_is_answered_by_its_number_and_the_record() {
    assert_eq!(run(&format!("V 2 {NONE}\n")), format!("0 {NONE_2}\n"));
    assert_eq!(run(&format!("V 1 {NONE_2}")), format!("0 {NONE}\n"));
    let largest = "V 1 0200000000000002008400\nV 1 0200000000000002008500\n";
    assert_eq!(run(largest), "0 01000000000000010084\n8\n");
    assert_eq!(run("V 1 -\nV 2 -\nV 1 01\nV 2 02\n"), "7\n7\n7\n7\n");
    // Digits of either case, in capitals again.
    assert_eq!(run("V 2 0100000200ff0400000000\n"), "0 0200000200FF0400000000\n");
}

#[test]
fn another_number_or_form_of_line_is_not_one() {
    let strays = ["V", "V ", "V 1", "V 1 ", "V 2 ", "V -", "V - -", "V 1 - ", "V 1 - -", "V 1  -"];
    let numbers = ["V 0 -", "V 3 -", "V 7 -", "V 9 -", "V 12 -", "V 01 -", "V 257 -", "V x -"];
    let more = ["V 1 0", "V 1 010", "V 1 0G", "V 1 --", "V 1 -01", "V 1 01-", "V 1 01 02", "V1 -"];
    let others = ["v 1 -", " V 1 -", "V 1 -\r", "V\t1 -", "V 1-", "V +1 -", "V  1 -", "V 1 0x"];
    for stray in [strays.as_slice(), &numbers, &more, &others].concat() {
        assert_eq!(run(&format!("{stray}\nS\n")), "?\n0 - -\n", "{stray:?}");
    }
    for number in ["0", "3", "4", "8", "9"] {
        assert_eq!(run(&format!("V {number} {NONE}\nV {number} {NONE_2}\n")), "?\n?\n");
    }
}

#[test]
fn a_long_record_is_read_to_its_end() {
    let long = "01".repeat(70_000);
    assert_eq!(run(&format!("V 1 {long}\nV 2 {long}\n")), "7\n7\n");
    assert_eq!(run(&format!("V 1 {long}0\nV 2 {long}x0\n")), "?\n?\n");
}
