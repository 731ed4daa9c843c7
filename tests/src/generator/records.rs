//! Random settings records: sound ones, and ones with one rule broken.

use super::random::Random;
use super::{messages, typing};
use crate::coverage::settings::WATCHED;
use crate::settings::{
    laid_out, Form, ATTRIBUTE, ATTRIBUTES, CHARACTERISTICS, FORMS, LARGEST_READ, LONG, LONGEST_SET,
    SECTIONS, SET, SWITCH, SWITCHES,
};

/// What stands in the sections of a record, sound or not.
pub type Sections = [Vec<u8>; SECTIONS];

/// Of a hundred largest reads so many are all that the form has room for, so
/// that reads go on.
const ROOMY: usize = 40;

/// A sound record with this section alone.
pub fn only(form: Form, place: usize, section: Vec<u8>) -> Vec<u8> {
    let mut sections = Sections::default();
    sections[place] = section;
    laid_out(form, &sections)
}

/// A sound record of either form with all, some or none of its sections.
pub fn sound(random: &mut Random) -> Vec<u8> {
    let form = random.pick(&FORMS);
    let often = random.pick(&[0, 30, 60, 60, 100]);
    laid_out(form, &sections(form, often, random))
}

/// Sound sections; each is there this often in a hundred. A few are as long as
/// they can be.
fn sections(form: Form, often: usize, random: &mut Random) -> Sections {
    let largest = form.largest_section(largest(form, random));
    if random.chance(1) {
        return [switches(random), attributes_of_all(random), set_of_all(random), largest];
    }
    let all = [switches(random), attributes(random), set(random), largest];
    all.map(|section| if random.chance(often) { section } else { Vec::new() })
}

/// Echo is mostly on, so that there is something to see.
pub fn switches(random: &mut Random) -> Vec<u8> {
    let mut section = Vec::new();
    for (selector, often) in SWITCHES.into_iter().zip([50, 85, 50, 50]) {
        section.extend(selector.to_le_bytes());
        section.push(u8::from(random.chance(often)));
    }
    section
}

/// A few codes, or many; those that are out-of-band are the usual ones.
pub fn attributes(random: &mut Random) -> Vec<u8> {
    let mut table = [0; 256];
    for _ in 0..random.pick(&[1, 1, 2, 3, 8, 40]) {
        table[random.below(256)] = random.byte() & 124;
    }
    for _ in 0..random.below(4) {
        let code = random.pick(&typing::OUT_OF_BAND);
        table[usize::from(code)] = random.byte() & 124 | random.pick(&[1, 3]);
    }
    let codes = (0..=255).filter(|code| table[usize::from(*code)] != 0);
    codes.flat_map(|code| [code, table[usize::from(code)]]).collect()
}

/// Every code has a value that is not 0; none is out-of-band.
fn attributes_of_all(random: &mut Random) -> Vec<u8> {
    (0..=255).flat_map(|code| [code, random.byte() & 120 | 4]).collect()
}

/// A set of all its bytes, few codes in it.
fn set_of_all(random: &mut Random) -> Vec<u8> {
    let mut set = vec![0; LONGEST_SET];
    set[random.below(LONGEST_SET)] = 1 << random.below(8);
    set[LONGEST_SET - 1] = 128;
    set
}

pub fn set(random: &mut Random) -> Vec<u8> {
    let mut set = messages::set(random);
    while set.last() == Some(&0) {
        set.pop();
    }
    set
}

/// A number that the form has room for.
pub fn largest(form: Form, random: &mut Random) -> u16 {
    let number = if random.chance(50) { random.pick(&WATCHED) } else { random.pick(&[1, 20, 80]) };
    if random.chance(ROOMY) {
        form.top()
    } else {
        number.min(form.top())
    }
}

/// A record of either form with one thing wrong, beside sections that are sound.
pub fn damaged(random: &mut Random) -> Vec<u8> {
    let form = random.pick(&FORMS);
    let mut sections = sections(form, 60, random);
    match random.below(8) {
        0 => sections[CHARACTERISTICS] = damaged_switches(random),
        1 | 2 => sections[ATTRIBUTES] = damaged_attributes(random),
        3 => sections[SET] = damaged_set(random),
        4 => sections[LARGEST_READ] = damaged_largest(form, random),
        5 => sections.swap(random.below(SECTIONS), random.below(SECTIONS)),
        6 => return damaged_frame(laid_out(form, &sections), random),
        _ => return damaged_length(laid_out(form, &sections), &sections, random),
    }
    laid_out(form, &sections)
}

fn damaged_switches(random: &mut Random) -> Vec<u8> {
    let mut section = switches(random);
    let first = random.below(SWITCHES.len()) * SWITCH;
    match random.below(7) {
        0 => section[first] ^= 1 << random.below(8),
        1 => section[first + 1] ^= 1 << random.below(8),
        2 => section[first + 2] = random.pick(&[2, 3, 128, 255]),
        3 => drop(section.drain(first..first + SWITCH)),
        4 => section.extend([10, 2, 0]),
        5 => section.truncate(random.between(1, 11)),
        // Another order.
        _ => section.rotate_left(random.between(1, 3) * SWITCH),
    }
    section
}

fn damaged_attributes(random: &mut Random) -> Vec<u8> {
    let mut section = attributes(random);
    if section.is_empty() {
        section.extend([random.byte(), 1]);
    }
    let count = section.len() / ATTRIBUTE;
    let first = random.below(count) * ATTRIBUTE;
    let value = section[first + 1];
    match random.below(8) {
        0 => section[first + 1] = 0,
        1 => section[first + 1] = 128,
        2 => section[first + 1] = value | 128,
        3 => section[first + 1] = value & 124 | 2,
        4 => drop(section.remove(random.below(section.len()))),
        5 => section.insert(random.below(section.len()), random.byte()),
        6 => {
            let again = [section[first], 1];
            section.splice(first..first, again);
        }
        // A code that does not ascend to the next.
        _ => {
            let last = usize::from(section[section.len() - ATTRIBUTE]);
            section.extend([random.between(0, last) as u8, 1]);
        }
    }
    section
}

fn damaged_set(random: &mut Random) -> Vec<u8> {
    let mut section = set(random);
    match random.below(4) {
        0 => section.push(0),
        1 => section.resize(LONGEST_SET + 1, 0),
        2 => section.resize(random.between(LONGEST_SET + 1, LONGEST_SET + 8), 1),
        _ => section = vec![0; random.between(1, LONGEST_SET)],
    }
    section
}

fn damaged_largest(form: Form, random: &mut Random) -> Vec<u8> {
    let number = largest(form, random);
    let over = form.top() + 1;
    match (random.below(4), form) {
        (0, _) => form.largest_section(over),
        (1, Form::One) => vec![random.between(usize::from(over), usize::from(u8::MAX)) as u8],
        (1, Form::Two) => form.largest_section(random.next() as u16 | over),
        // Sound in the other form, if it is not over there.
        (2, Form::One) => Form::Two.largest_section(number),
        (2, Form::Two) => Form::One.largest_section(number),
        // High byte first, which makes another number of most.
        (_, Form::Two) => number.to_be_bytes().to_vec(),
        (_, Form::One) => vec![0; random.between(2, 4)],
    }
}

/// One bit of a length, or its two bytes changed about.
fn damaged_length(mut bytes: Vec<u8>, sections: &Sections, random: &mut Random) -> Vec<u8> {
    let place = random.below(SECTIONS);
    let low = 1 + sections[..place].iter().map(|section| section.len() + 2).sum::<usize>();
    match random.below(4) {
        0 => bytes.swap(low, low + 1),
        1 => bytes[low + 1] ^= 1 << random.below(8),
        2 => bytes[low] = bytes[low].wrapping_sub(1),
        _ => bytes[low] ^= 1 << random.below(8),
    }
    bytes
}

fn damaged_frame(mut bytes: Vec<u8>, random: &mut Random) -> Vec<u8> {
    let place = random.below(bytes.len());
    match random.below(9) {
        0 => bytes[0] = random.pick(&[0, 1, 2, 3, 129, 255]),
        1 => bytes.push(random.pick(&[0, 1, 255])),
        2 => bytes.extend([0, 0]),
        3 => bytes.truncate(place),
        4 => drop(bytes.pop()),
        5 => bytes.clear(),
        // Longer than a runner keeps.
        6 => bytes.resize(random.between(LONG - 1, LONG + 3), 0),
        7 => bytes.insert(place, random.byte()),
        _ => bytes[place] ^= 1 << random.below(8),
    }
    bytes
}
