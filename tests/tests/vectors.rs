//! The outside vectors agree to the last byte.

use second::{replay, script, vectors};

fn agree(name: &str, answers: &[u8], expected: &[u8]) {
    let pairs = answers.split(|b| *b == b'\n').zip(expected.split(|b| *b == b'\n'));
    for (place, (ours, theirs)) in pairs.enumerate() {
        let (ours, theirs) = (String::from_utf8_lossy(ours), String::from_utf8_lossy(theirs));
        assert_eq!(ours, theirs, "vector {name}, answer {}", place + 1);
    }
    assert_eq!(answers, expected, "vector {name}");
}

#[test]
fn there_are_fourteen_vectors() {
    assert_eq!(vectors::all().len(), 14);
}

#[test]
fn the_second_implementation_answers_all_vectors() {
    for (name, vector) in vectors::all() {
        agree(&name, &script::run(&vector.orders).0, &vector.answers);
    }
}

#[test]
fn the_proved_program_answers_all_vectors() {
    for (name, vector) in vectors::all() {
        agree(&name, &replay::run(&vector.orders), &vector.answers);
    }
}
