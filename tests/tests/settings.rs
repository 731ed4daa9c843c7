//! Settings records (M-100, M-107), sentence by sentence.

mod common;

#[path = "settings/asking.rs"]
mod asking;
#[path = "settings/form_2.rs"]
mod form_2;
#[path = "settings/loading.rs"]
mod loading;
#[path = "settings/mixed.rs"]
mod mixed;
#[path = "settings/moving.rs"]
mod moving;
#[path = "settings/records.rs"]
mod records;

use common::*;
use second::settings::Form;

/// The top of a largest read in each form.
const TOP_1: u16 = Form::One.top();
const TOP_2: u16 = Form::Two.top();

/// All four switches off, but for those named by their place.
fn switches(on: &[usize]) -> Vec<u8> {
    let mut section = bytes("04 02 00 05 02 00 06 02 00 09 02 00");
    for place in on {
        section[3 * place + 2] = 1;
    }
    section
}

const RAISE: usize = 0;
const ECHO: usize = 1;
const ESCAPES: usize = 2;
const PROMPT: usize = 3;

/// The record of form 1 with these sections.
fn record(sections: [&[u8]; 4]) -> Vec<u8> {
    record_of(1, sections)
}

/// The record with these sections behind a form byte, lengths low byte first.
fn record_of(form: u8, sections: [&[u8]; 4]) -> Vec<u8> {
    let mut bytes = vec![form];
    for section in sections {
        bytes.extend([(section.len() % 256) as u8, (section.len() / 256) as u8]);
        bytes.extend(section);
    }
    bytes
}

/// The record of form 1 with one section, numbered from 1.
fn only(number: usize, section: &[u8]) -> Vec<u8> {
    only_of(1, number, section)
}

fn only_of(form: u8, number: usize, section: &[u8]) -> Vec<u8> {
    let mut sections: [&[u8]; 4] = [&[]; 4];
    sections[number - 1] = section;
    record_of(form, sections)
}

/// The record of form 2 with this largest read, low byte first.
fn largest_2(number: u16) -> Vec<u8> {
    only_of(2, 4, &[(number % 256) as u8, (number / 256) as u8])
}

/// A section of all 256 codes, with the highest value each.
fn all_attributes() -> Vec<u8> {
    (0..=255).flat_map(|code| [code, 127]).collect()
}

/// `nothing` in a script.
const NONE: &str = "010000000000000000";

fn nothing() -> Vec<u8> {
    record([&[]; 4])
}

fn nothing_2() -> Vec<u8> {
    record_of(2, [&[]; 4])
}

/// A record of form 1 with all four sections: 29 bytes.
fn full() -> Vec<u8> {
    record([&switches(&[ECHO]), &[3, 1, 65, 4], &[0, 32, 8], &[80]])
}

/// The same in form 2: 30 bytes.
fn full_2() -> Vec<u8> {
    record_of(2, [&switches(&[ECHO]), &[3, 1, 65, 4], &[0, 32, 8], &[80, 0]])
}

/// A longest record of each form, with the top of its largest read.
fn longest() -> [Vec<u8>; 2] {
    let (switches, attributes, set) = (switches(&[]), all_attributes(), [255; 32]);
    let one = record([&switches, &attributes, &set, &[TOP_1 as u8]]);
    let two = record_of(2, [&switches, &attributes, &set, &[0, 4]]);
    [one, two]
}

/// Neither as the own record nor as the site's is it taken: a load is 7 and
/// leaves the line, and there is nothing in it to ask for.
fn unsound(bench: &mut Bench, record: &[u8]) {
    let others = [nothing(), full(), nothing_2(), full_2()];
    bench.unchanged(|bench| {
        let pairs = others.iter().flat_map(|other| [(record, &other[..]), (other, record)]);
        for (own, site) in pairs.chain([(record, record)]) {
            assert_eq!(bench.load(own, site), 7, "{}", hex(record));
            for number in 1..=4 {
                assert_eq!(bench.section(number, own, site), "", "{}", hex(record));
            }
        }
    });
}

/// A load takes it as the own record, as the site's and as both.
fn sound(bench: &mut Bench, record: &[u8]) {
    for other in [nothing(), nothing_2()] {
        assert_eq!(bench.load(record, &other), 0, "{}", hex(record));
        assert_eq!(bench.load(&other, record), 0, "{}", hex(record));
    }
    assert_eq!(bench.load(record, record), 0, "{}", hex(record));
}

/// The values that the byte at a place of a record can have in a sound one.
fn taken(bench: &mut Bench, whole: &[u8], place: usize) -> Vec<u8> {
    let mut record = whole.to_vec();
    let loads = |value: &u8| {
        record[place] = *value;
        bench.load(&record, &nothing()) == 0
    };
    (0..=u8::MAX).filter(loads).collect()
}

/// A read of this MAX-LENGTH is refused with 5, or starts; then it is ended.
fn number_at(bench: &mut Bench, max: u16) -> u8 {
    let number = bench.host_bytes(&start(ZZ2, b"", b"").max(max).bytes()).0;
    assert_eq!(bench.number(UNREAD), 0);
    number
}
