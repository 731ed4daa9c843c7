//! Demand 3 with accents: two runs that differ in hidden characters look the same but
//! for DATA.

use super::*;

/// A call's answer, of a Read Data no more than its header and DATA's length.
type Look = (u8, String, String);

fn look((number, terminal, messages): Look) -> Look {
    let shown = |text: &str| {
        let message = bytes(text);
        if message.first() != Some(&READ_DATA) {
            return text.to_owned();
        }
        let (header, data) = message.split_at(READ_DATA_HEADER);
        format!("{} and {} more", hex(header), data.len())
    };
    let messages: Vec<String> = messages.split(" | ").map(shown).collect();
    (number, terminal, messages.join(" | "))
}

/// A read that raises and does not echo, with this set.
fn hiding(set: &[u8]) -> Start {
    start(ZZ1 | II2 | N | T | UU1, b"Code: ", b"").set(set)
}

/// The looks of a run in which these keys are typed into the read.
fn looks(read: &Start, codes: &[u8]) -> Vec<Look> {
    let mut bench = Bench::initiated();
    let mut looks = vec![look(bench.host_bytes(&read.bytes()))];
    looks.extend(codes.iter().map(|code| look(bench.key(*code))));
    looks.push(look(bench.host(UNREAD)));
    looks
}

/// A passcode with editing between its characters, some of them typed again.
fn edited([a, b, c, d, e]: [u8; 5]) -> Vec<u8> {
    let front = [a, b, DELETE_KEY, c, b, a, DELETE_WORD_KEY, d, e];
    [&front[..], &[DELETE_KEY, b, c, d, REDISPLAY_KEY, QUOTE_KEY, e, CR]].concat()
}

/// The first and the third are of a word, the others are not.
const PASSCODES: [[u8; 5]; 4] = [
    [b'4', 252, b'x', SMALL_E_ACUTE, 254],
    [b'q', b'!', b'7', 161, DIVISION_SIGN],
    [b'Z', 220, b'a', MULTIPLICATION_SIGN, 224],
    [b'0', 223, b'0', b'~', b'@'],
];

fn look_the_same([first, others @ ..]: [Vec<Look>; PASSCODES.len()]) {
    for other in others {
        assert_eq!(other, first);
    }
}

#[test]
fn hidden_accents_look_the_same() {
    look_the_same(PASSCODES.map(|passcode| looks(&hiding(&[CR]), &edited(passcode))));
}

#[test]
fn the_host_reads_them_raised() {
    let mut bench = Bench::initiated();
    hiding(&[CR]).on(&mut bench);
    let (shown, message) = bench.typed(&[252, SMALL_E_ACUTE, CR]);
    assert_eq!(shown, "");
    assert_eq!(bytes(&message)[READ_DATA_HEADER..], [220, CAPITAL_E_ACUTE, CR]);
}

#[test]
fn hidden_accents_that_wait_for_their_read_look_the_same() {
    look_the_same(PASSCODES.map(|passcode| {
        let mut bench = Bench::initiated();
        let keys = edited(passcode);
        let mut looks: Vec<Look> = keys.iter().map(|code| look(bench.key(*code))).collect();
        looks.push(look(bench.host_bytes(&hiding(&[CR]).bytes())));
        looks.extend(keys.iter().map(|_| look(bench.step())));
        looks
    }));
}

#[test]
fn marks_33_to_126_and_161_to_254_of_one_class_look_the_same() {
    let with = |code: u8| {
        looks(&hiding(&[CR]), &[b'a', code, b'a', DELETE_WORD_KEY, code, REDISPLAY_KEY, CR])
    };
    let (word, other) = (with(b'A'), with(b'!'));
    assert_ne!(word, other);
    for code in (33..=126u8).chain(161..=254) {
        let of_class = if code.is_ascii_alphanumeric() { &word } else { &other };
        assert_eq!(with(code), *of_class, "{code}");
    }
}

#[test]
fn a_raised_form_in_the_set_shows() {
    let with = |set: u8, code: u8| looks(&hiding(&[set]), &[code, b'1']);
    assert_ne!(with(CAPITAL_E_ACUTE, SMALL_E_ACUTE), with(CAPITAL_E_ACUTE, SMALL_E_ACUTE + 1));
    // The division sign has no other form than its own.
    let sign = with(MULTIPLICATION_SIGN, DIVISION_SIGN);
    assert_eq!(sign, with(MULTIPLICATION_SIGN, SMALL_E_ACUTE));
}
