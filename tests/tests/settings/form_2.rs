//! What makes a record of form 2 sound: all that form 1 asks, but for section 4.

use super::*;

#[test]
fn a_byte_2_and_the_largest_read_in_two_bytes_low_byte_first() {
    let whole =
        "02 0C 00 04 02 00 05 02 01 06 02 00 09 02 00 04 00 03 01 41 04 03 00 00 20 08 02 00 50 00";
    assert_eq!(hex(&full_2()), whole);
    let mut bench = Bench::default();
    sound(&mut bench, &full_2());
    let sections = ["04 02 00 05 02 01 06 02 00 09 02 00", "03 01 41 04", "00 20 08", "50 00"];
    for (number, section) in (1..).zip(sections) {
        assert_eq!(bench.section(number, &full_2(), &nothing_2()), section);
    }
}

#[test]
fn the_largest_read_is_none_or_0_to_1024() {
    assert_eq!(TOP_2, 1_024);
    let mut bench = Bench::default();
    sound(&mut bench, &nothing_2());
    let high = (0..=u8::MAX).flat_map(|high| [0, 1, 132, 255].map(|low| [low, high]));
    let numbers = (0..=TOP_2 + 64).chain(high.map(u16::from_le_bytes));
    for number in numbers {
        let judge = if number <= TOP_2 { sound } else { unsound };
        judge(&mut bench, &largest_2(number));
    }
}

#[test]
fn the_largest_read_is_low_byte_first() {
    let mut bench = Bench::initiated();
    for (section, largest) in [([0, 4], 1_024), ([4, 0], 4), ([132, 0], 132), ([1, 2], 513)] {
        assert_eq!(bench.load(&only_of(2, 4, &section), &nothing()), 0);
        assert_eq!(number_at(&mut bench, largest), 0);
        bench.refused(5, &start(ZZ2, b"", b"").max(largest + 1).bytes());
    }
    unsound(&mut bench, &only_of(2, 4, &[0, 132]));
    unsound(&mut bench, &only_of(2, 4, &[1, 4]));
}

#[test]
fn a_load_before_initiate_takes_form_2_too() {
    let mut bench = Bench::default();
    assert_eq!(bench.load(&largest_2(300), &nothing_2()), 0);
    assert_eq!(bench.host(INITIATE), done("", OUR_INITIATE));
    assert_eq!((number_at(&mut bench, 301), number_at(&mut bench, 300)), (5, 0));
}

/// The same sections are a record of both forms, or of one, or of neither.
#[test]
fn the_form_byte_alone_decides_how_section_4_is_read() {
    let mut bench = Bench::default();
    for section in [&[0][..], &[1], &[80], &[132]] {
        sound(&mut bench, &only_of(1, 4, section));
        unsound(&mut bench, &only_of(2, 4, section));
    }
    for section in [&[0, 0][..], &[1, 0], &[132, 0], &[133, 0], &[0, 1], &[0, 4]] {
        unsound(&mut bench, &only_of(1, 4, section));
        sound(&mut bench, &only_of(2, 4, section));
    }
    for section in [&[133][..], &[255], &[1, 4], &[0, 5], &[0, 0, 0], &[1, 0, 0], &[0; 4]] {
        unsound(&mut bench, &only_of(1, 4, section));
        unsound(&mut bench, &only_of(2, 4, section));
    }
}

/// What form 1 asks of its first three sections and of its frame.
#[test]
fn the_rest_is_as_in_form_1() {
    let mut bench = Bench::default();
    let switches = switches(&[RAISE, PROMPT]);
    for (number, section) in
        [(1, &switches[..]), (2, &[65, 1]), (2, &[0, 127, 255, 4]), (3, &[128]), (3, &[255; 32])]
    {
        sound(&mut bench, &only_of(2, number, section));
    }
    for (number, section) in [
        (1, &switches[..9]),
        (1, &bytes("04 02 02 05 02 00 06 02 00 09 02 00")),
        (1, &bytes("05 02 00 04 02 00 06 02 00 09 02 00")),
        (1, &bytes("04 03 00 05 02 00 06 02 00 09 02 00")),
        (2, &[65]),
        (2, &[65, 0]),
        (2, &[65, 2]),
        (2, &[65, 128]),
        (2, &[65, 1, 65, 1]),
        (2, &[66, 1, 65, 1]),
        (3, &[32, 0]),
        (3, &[255; 33]),
    ] {
        unsound(&mut bench, &only_of(2, number, section));
    }
    for record in [nothing_2(), full_2()] {
        (0..record.len()).for_each(|end| unsound(&mut bench, &record[..end]));
        unsound(&mut bench, &[&record[..], &[0]].concat());
    }
}

/// Each byte of a full record is changed to every other value.
#[test]
fn only_a_few_changes_of_one_byte_leave_a_record_sound() {
    let mut bench = Bench::default();
    let whole = full_2();
    for place in 0..whole.len() {
        let attribute = |value: &u8| *value % 4 != 2 && *value != 0;
        let expected: Vec<u8> = match place {
            // The switches, the attributes, the set; 80 and 3 times 256 is the
            // last such number up to 1,024.
            5 | 8 | 11 | 14 => vec![0, 1],
            17 => (0..65).collect(),
            19 => (4..=255).collect(),
            18 | 20 => (0..128).filter(attribute).collect(),
            23 | 24 | 28 => (0..=255).collect(),
            25 => (1..=255).collect(),
            29 => (0..=3).collect(),
            _ => vec![whole[place]],
        };
        assert_eq!(taken(&mut bench, &whole, place), expected, "byte {place}");
    }
}
