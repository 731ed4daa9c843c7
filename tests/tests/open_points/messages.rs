//! Points 1 to 19: messages.

use crate::common::*;
use second::message::{read, write, Initiate, Message, ReadData, StartRead, Value, Wanted, Write};

/// Read and written again.
fn again(message: &str) -> String {
    Bench::default().copied(&bytes(message)).expect("sound")
}

#[test]
fn point_01_selectors_defined() {
    let mut bench = Bench::default();
    for identifier in 0..=255u8 {
        for class in 0..=255u8 {
            let value: &[u8] = match identifier {
                2 => &[65],
                _ => &[],
            };
            let defined = class == 2 && (1..=10).contains(&identifier);
            let message = [&[10, 0, identifier, class], value].concat();
            assert_eq!(bench.copied(&message).is_ok(), defined, "{}", hex(&message));
        }
    }
    assert_eq!(
        read(&bytes("0A 00 04 02")),
        Ok(Message::ReadCharacteristics(vec![Wanted::Plain(0x204)]))
    );
}

#[test]
fn point_02_constant_flags_are_passed_over() {
    assert_eq!(again("06 FF"), "06 00");
    assert_eq!(again("0C 01"), "0C 00");
    assert_eq!(again("0D FF 01 02"), "0D 00 01 02");
    assert_eq!(again("0A 80"), "0A 00");
    assert_eq!(again("0B 80"), "0B 00");
    assert!(again("01 FF 01 00 00 41 42 43 44 45 46 47 48").starts_with("01 00 01"));
}

#[test]
fn point_03_used_bits_of_values() {
    assert_eq!(again("0B 00 04 02 FF"), "0B 00 04 02 01");
    assert_eq!(again("0B 00 01 02 FE"), "0B 00 01 02 00");
    assert_eq!(again("0B 00 02 02 41 FF FF"), "0B 00 02 02 41 FF 7F");
    assert_eq!(again("0B 00 0A 02 FF"), "0B 00 0A 02 0F");
}

#[test]
fn point_04_input_count_state() {
    for state in 0..6u8 {
        let message = [11, 0, 8, 2, state, 0];
        let mut bench = Bench::initiated();
        assert_eq!(bench.copied(&message).is_ok(), (1..=3).contains(&state));
        let number = if (1..=3).contains(&state) { 6 } else { 5 };
        bench.refused(number, &message);
    }
}

#[test]
fn point_05_immediate_clear_on_any_character() {
    let mut bench = Bench::initiated();
    assert_eq!(bench.number("0B 00 02 02 41 03 01"), 0);
    assert_eq!(bench.key(0x41), done("", "04 00 41"));
}

#[test]
fn point_06_deferred_clear_is_judged_at_the_end() {
    let mut bench = Bench::initiated();
    assert_eq!(bench.number("0B 00 02 02 41 03 02 02 02 41 03 00"), 0);
    assert_eq!(bench.number("0B 00 02 02 41 03 02 02 02 41 01 01"), 0);
    bench.refused(6, &bytes("0B 00 02 02 41 01 00"));
    bench.refused(6, &bytes("0B 00 02 02 42 02 03"));
}

#[test]
fn point_07_the_mask_answered() {
    let mut bench = Bench::initiated();
    assert_eq!(bench.number("0B 00 02 02 41 FC FF"), 0);
    assert_eq!(bench.host("0A 00 02 02 41"), done("", "0B 00 02 02 41 7F 7C"));
}

#[test]
fn point_08_five_before_six() {
    let mut bench = Bench::initiated();
    bench.refused(5, &bytes("0A 00 01 02 0B 02"));
    bench.refused(5, &bytes("07 00 0B 00 00"));
    bench.refused(5, &start(K | ZZ2, b"", b"").max(BUFFER + 1).bytes());
}

#[test]
fn point_09_no_parameters_and_repeated_ones() {
    let mut bench = Bench::initiated();
    assert_eq!(bench.host("0A 00"), done("", "0B 00"));
    assert_eq!(bench.host("0B 00"), done("", ""));
    assert_eq!(bench.number("0B 00 04 02 01 04 02 00 04 02 01"), 0);
    let answer = "0B 00 04 02 01 05 02 01 04 02 01";
    assert_eq!(bench.host("0A 00 04 02 05 02 04 02"), done("", answer));
}

#[test]
fn point_10_our_initiate() {
    let mut bench = Bench::default();
    assert_eq!(bench.host("01 00 00 00 00 00 00 00 00 00 00 00 00"), done("", OUR_INITIATE));
}

#[test]
fn point_11_a_whole_initiate() {
    for message in ["00 00", "01 00", "FF 03 01 02 03", "01 02 00 01 01 02 00 01"] {
        let whole = format!("01 77 09 09 09 00 FF 00 FF 00 FF 00 FF {message}");
        assert_eq!(Bench::default().number(&whole), 0);
        Bench::default().refused(5, &bytes(&format!("{whole} 01")));
    }
}

#[test]
fn point_12_four_looks_at_the_type_only() {
    let mut bench = Bench::default();
    bench.refused(3, &[3]);
    bench.refused(4, &[2, 255]);
    let mut bench = Bench::initiated();
    bench.refused(4, &[1, 0]);
    start(ZZ2, b"", b"").on(&mut bench);
    bench.refused(4, &[2, 0]);
}

#[test]
fn point_13_continuation_without_a_line() {
    let mut bench = Bench::default();
    for uu in 0..3 {
        let message = start(K | ZZ2 | uu, b"", b"").bytes();
        assert_eq!(bench.copied(&message), Ok(hex(&message)));
    }
    assert_eq!(bench.copied(&start(K | 3, b"", b"").bytes()), Err(5));
}

#[test]
fn point_14_prefix_and_postfix() {
    let mut bench = Bench::initiated();
    assert_eq!(bench.copied(&bytes("07 C0 00 00 00")), Err(5));
    assert_eq!(bench.copied(&bytes("07 00 03 00 00")), Err(5));
    assert_eq!(bench.host("07 00 00 41 42 43"), done("43", ""));
}

#[test]
fn point_15_read_data_codes() {
    let mut bench = Bench::default();
    for code in 0..16u8 {
        let message = [3, code, 0, 0, 0, 0, 255, 255];
        assert_eq!(bench.copied(&message).is_ok(), code < 14);
    }
    assert_eq!(again("03 FD 01 02 03 04 05 06 07"), "03 1D 01 02 03 04 05 06 07");
}

#[test]
fn point_16_fields_are_kept() {
    let mut read = start(ZZ2, b"", b"").timeout(0x1234);
    read.set = vec![1, 0, 0];
    let message = hex(&read.bytes());
    assert_eq!(again(&message), message);
    assert_eq!(again("07 00 00 12 34"), "07 00 00 12 34");
    assert_eq!(again("0B 00 02 02 41 80 03"), "0B 00 02 02 41 80 03");
    assert_eq!(again("07 3F F4 01 02"), "07 3F 04 01 02");
}

#[test]
fn point_17_writing_without_a_line() {
    let other = |kind, length| Message::Other { kind, body: vec![0; length] };
    assert_eq!(write(&other(15, LONGEST - 1), LONGEST - 1), Err(1));
    assert_eq!(write(&other(15, LONGEST), LONGEST - 1), Err(1));
    assert_eq!(write(&other(15, LONGEST), LONGEST), Err(2));
    assert_eq!(write(&other(15, LONGEST - 1), LONGEST), Err(3));
    assert_eq!(write(&other(1, LONGEST - 1), LONGEST), Err(5));
    let unsound = [
        Message::Write(Write { lock: 4, ..Write::default() }),
        Message::Write(Write { prefix: 3, ..Write::default() }),
        Message::ReadData(ReadData { code: 14, ..ReadData::default() }),
        Message::StartRead(StartRead { underflow: 3, ..StartRead::default() }),
        Message::StartRead(StartRead { set: vec![0; 33], ..StartRead::default() }),
        // One byte would count 0 of them.
        Message::StartRead(StartRead { set: vec![0; 256], ..StartRead::default() }),
        Message::Characteristics(vec![Value::CountState(0)]),
        Message::Characteristics(vec![Value::ErrorProcessing(16)]),
        Message::Characteristics(vec![Value::Boolean { selector: 0x20A, on: true }]),
        Message::Characteristics(vec![Value::Attributes {
            character: 0,
            mask: 0,
            attributes: 128,
        }]),
        Message::ReadCharacteristics(vec![Wanted::Plain(0x202)]),
        Message::ReadCharacteristics(vec![Wanted::Plain(0x20B)]),
    ];
    for message in unsound {
        assert_eq!(write(&message, LONGEST), Err(5), "{message:?}");
    }
}

#[test]
fn point_17_the_length_comes_before_the_values() {
    let long = |data| Message::Write(Write { lock: 4, data: vec![0; data], ..Write::default() });
    assert_eq!(write(&long(LONGEST_DATA + 1), LONGEST), Err(2));
    assert_eq!(write(&long(LONGEST_DATA), LONGEST), Err(5));
    // A parameter whose count needs a second byte: 13 bytes and two stand before.
    let long = |length| {
        let parameters = vec![(1, vec![0; length])];
        Message::Initiate(Initiate { version: [0; 3], revision: [0; 8], parameters })
    };
    assert_eq!(write(&long(LONGEST - 14), LONGEST), Err(2));
    assert_eq!(write(&long(LONGEST - 15), LONGEST), Err(5));
    assert_eq!(write(&long(256), LONGEST), Err(5));
    assert_eq!(write(&long(255), LONGEST).map(|bytes| bytes.len()), Ok(15 + 255));
}

#[test]
fn point_18_the_buffer_limit_without_a_line() {
    let mut bench = Bench::default();
    assert!(bench.copied(&start(ZZ2, b"", b"").max(BUFFER).bytes()).is_ok());
    assert_eq!(bench.copied(&start(ZZ2, b"", b"").max(BUFFER + 1).bytes()), Err(5));
}

#[test]
fn point_19_a_prefix_of_zero_newlines() {
    let mut bench = Bench::initiated();
    assert_eq!(bench.host("07 40 00 00 00"), done("0D", ""));
    assert_eq!(bench.host("07 00 01 00 00"), done("0D", ""));
}
