//! What makes a record of form 1 sound, and the form byte.

use super::*;
use second::settings::LONG;

#[test]
fn a_byte_1_then_four_sections_each_behind_its_length_low_byte_first() {
    let whole =
        "01 0C 00 04 02 00 05 02 01 06 02 00 09 02 00 04 00 03 01 41 04 03 00 00 20 08 01 00 50";
    assert_eq!(hex(&full()), whole);
    let mut bench = Bench::default();
    sound(&mut bench, &full());
    let sections = ["04 02 00 05 02 01 06 02 00 09 02 00", "03 01 41 04", "00 20 08", "50"];
    for (number, section) in (1..).zip(sections) {
        assert_eq!(bench.section(number, &full(), &nothing()), section);
    }
    // Lengths high byte first.
    unsound(&mut bench, &bytes("01 00 00 00 00 00 00 00 01 50"));
    unsound(&mut bench, &bytes("01 00 00 00 02 41 04 00 00 00 00"));
}

#[test]
fn a_length_may_need_its_high_byte() {
    let mut bench = Bench::default();
    let attributes: Vec<u8> = (0..=255).flat_map(|code| [code, 4]).collect();
    let record = only(2, &attributes);
    assert_eq!(hex(&record[..6]), "01 00 00 00 02 00");
    sound(&mut bench, &record);
    assert_eq!(bench.section(2, &record, &nothing()), hex(&attributes));
    assert_eq!(bench.section(2, &record, &nothing()).len(), 512 * 3 - 1);
}

#[test]
fn the_form_byte_is_1_or_2() {
    let mut bench = Bench::default();
    for form in 0..=255 {
        let judge = if form == 1 || form == 2 { sound } else { unsound };
        judge(&mut bench, &record_of(form, [&[]; 4]));
        judge(&mut bench, &only_of(form, 2, &[65, 4]));
    }
}

#[test]
fn a_record_of_no_bytes_is_not_one_and_a_record_of_no_settings_is() {
    let mut bench = Bench::default();
    unsound(&mut bench, &[]);
    sound(&mut bench, &nothing());
    assert_eq!(hex(&nothing()), "01 00 00 00 00 00 00 00 00");
}

#[test]
fn a_record_ends_behind_its_last_section() {
    let mut bench = Bench::default();
    for record in [nothing(), full()] {
        for end in 0..record.len() {
            unsound(&mut bench, &record[..end]);
        }
        for tail in [&[0][..], &[1], &[0, 0], &[0; LONG]] {
            unsound(&mut bench, &[&record[..], tail].concat());
        }
    }
}

#[test]
fn characteristics_are_none_or_all_four() {
    let mut bench = Bench::default();
    for on in 0..16 {
        let on: Vec<usize> = (0..4).filter(|place| on >> place & 1 == 1).collect();
        sound(&mut bench, &only(1, &switches(&on)));
    }
    let all = switches(&[]);
    for count in 1..4 {
        unsound(&mut bench, &only(1, &all[..3 * count]));
        unsound(&mut bench, &only(1, &all[3 * count..]));
    }
    for length in 1..12 {
        unsound(&mut bench, &only(1, &all[..length]));
    }
    unsound(&mut bench, &only(1, &[&all[..], &[10, 2, 0]].concat()));
    unsound(&mut bench, &only(1, &[&all[..], &all[..]].concat()));
}

#[test]
fn characteristics_ascend_and_have_their_selectors_low_byte_first() {
    let mut bench = Bench::default();
    for section in [
        "05 02 00 04 02 00 06 02 00 09 02 00",
        "04 02 00 04 02 00 06 02 00 09 02 00",
        "04 02 00 05 02 00 09 02 00 06 02 00",
        "04 02 00 05 02 00 06 02 00 07 02 00",
        "01 02 00 05 02 00 06 02 00 09 02 00",
        "02 04 00 02 05 00 02 06 00 02 09 00",
        "04 02 00 05 01 00 06 02 00 09 02 00",
        "04 02 00 05 02 00 06 02 00 09 00 00",
    ] {
        unsound(&mut bench, &only(1, &bytes(section)));
    }
}

#[test]
fn a_switch_is_0_or_1() {
    let mut bench = Bench::default();
    for place in 0..4 {
        for value in [2, 3, 127, 128, 254, 255] {
            let mut section = switches(&[]);
            section[3 * place + 2] = value;
            unsound(&mut bench, &only(1, &section));
        }
    }
}

#[test]
fn attributes_are_pairs_of_code_and_value() {
    let mut bench = Bench::default();
    for section in [&[65][..], &[65, 1, 66], &[0], &[0, 1, 1, 1, 2]] {
        unsound(&mut bench, &only(2, section));
    }
    for section in [&[65, 1][..], &[0, 127], &[255, 127], &[0, 1, 255, 1]] {
        sound(&mut bench, &only(2, section));
    }
}

#[test]
fn attribute_codes_ascend() {
    let mut bench = Bench::default();
    sound(&mut bench, &only(2, &[65, 1, 66, 1, 200, 1]));
    for section in [[66, 1, 65, 1, 200, 1], [65, 1, 65, 1, 200, 1], [65, 1, 200, 1, 66, 1]] {
        unsound(&mut bench, &only(2, &section));
    }
    unsound(&mut bench, &only(2, &[255, 1, 0, 1]));
    unsound(&mut bench, &only(2, &[0, 1, 0, 4]));
}

#[test]
fn an_attribute_of_0_is_left_out_unused_bits_are_0_and_none_is_deferred_clear() {
    let mut bench = Bench::default();
    for value in 0..=255 {
        let taken = (1..128).contains(&value) && value % 4 != 2;
        for section in [&[65, value][..], &[3, 1, 65, value], &[65, value, 66, 1]] {
            let judge = if taken { sound } else { unsound };
            judge(&mut bench, &only(2, section));
        }
    }
}

#[test]
fn a_set_has_no_trailing_zero_byte() {
    let mut bench = Bench::default();
    for length in 1..=32 {
        let mut set = vec![0; length];
        unsound(&mut bench, &only(3, &set));
        set[0] = 32;
        if length > 1 {
            unsound(&mut bench, &only(3, &set));
        }
        set[length - 1] = 128;
        sound(&mut bench, &only(3, &set));
    }
}

#[test]
fn a_set_has_at_most_32_bytes() {
    let mut bench = Bench::default();
    sound(&mut bench, &only(3, &[255; 32]));
    for length in [33, 34, 64, 256, 288] {
        unsound(&mut bench, &only(3, &vec![255; length]));
    }
}

#[test]
fn the_largest_read_is_none_or_one_byte_to_132() {
    assert_eq!(TOP_1, 132);
    let mut bench = Bench::default();
    for largest in 0..=255 {
        let judge = if u16::from(largest) <= TOP_1 { sound } else { unsound };
        judge(&mut bench, &only(4, &[largest]));
        unsound(&mut bench, &only(4, &[largest, 0]));
    }
}

#[test]
fn a_long_record_is_unsound() {
    let mut bench = Bench::default();
    for length in [566, 567, LONG, LONG + 1, LONG + 2, 1_000, 70_000] {
        let mut record = full();
        record.resize(length, 0);
        unsound(&mut bench, &record);
    }
}

#[test]
fn behind_the_longest_record_any_byte_is_left_over() {
    let mut bench = Bench::default();
    assert_eq!(longest().map(|record| record.len()), [566, 567]);
    for longest in longest() {
        sound(&mut bench, &longest);
        for length in longest.len() + 1..=LONG + 3 {
            let mut record = longest.clone();
            record.resize(length, 0);
            unsound(&mut bench, &record);
        }
    }
}

#[test]
fn each_attribute_of_the_longest_record_is_judged() {
    let mut bench = Bench::default();
    // They begin behind the form, two lengths and the switches.
    let begin = 1 + 2 + switches(&[]).len() + 2;
    for longest in longest() {
        for code in 0..256 {
            let mut spoiled = longest.clone();
            // Deferred-clear.
            spoiled[begin + 2 * code + 1] = 126;
            unsound(&mut bench, &spoiled);
        }
    }
}

/// Each byte of a full record is changed to every other value.
#[test]
fn only_a_few_changes_of_one_byte_leave_a_record_sound() {
    let mut bench = Bench::default();
    let whole = full();
    for place in 0..whole.len() {
        let attribute = |value: &u8| *value % 4 != 2 && *value != 0;
        let expected: Vec<u8> = match place {
            // The switches, the attributes, the set and the largest read.
            5 | 8 | 11 | 14 => vec![0, 1],
            17 => (0..65).collect(),
            19 => (4..=255).collect(),
            18 | 20 => (0..128).filter(attribute).collect(),
            23 | 24 => (0..=255).collect(),
            25 => (1..=255).collect(),
            28 => (0..=TOP_1 as u8).collect(),
            _ => vec![whole[place]],
        };
        assert_eq!(taken(&mut bench, &whole, place), expected, "byte {place}");
    }
}
