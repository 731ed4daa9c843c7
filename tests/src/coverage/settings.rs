//! What occurred to settings records: loaded, asked for and moved, by their forms.

use crate::moving::TOO_LARGE;
use crate::settings::{self, Flaw, Form, Record, Source, FLAWS, FORMS, LARGEST_READ, SECTIONS};

/// When a load came.
#[derive(Clone, Copy, Debug, PartialEq, Eq)]
pub enum Moment {
    BeforeInitiate,
    NoRead,
    MidRead,
}

pub const MOMENTS: [Moment; 3] = [Moment::BeforeInitiate, Moment::NoRead, Moment::MidRead];
const SOURCES: [Source; 2] = [Source::Own, Source::Site];
/// Section numbers that a script can ask for: one digit.
const DIGITS: usize = 10;
/// What a pair of sound records was for.
const USES: [&str; 2] = ["loaded", "asked"];
const LOADED: usize = 0;
const ASKED: usize = 1;

/// Largest reads on both sides of form 1's top, of a byte's and of form 2's.
pub const WATCHED: [u16; 8] = [
    0,
    Form::One.top() - 1,
    Form::One.top(),
    Form::One.top() + 1,
    u8::MAX as u16,
    u8::MAX as u16 + 1,
    Form::Two.top() - 1,
    Form::Two.top(),
];

/// A move is answered 0 to 8.
const NUMBERS: usize = TOO_LARGE as usize + 1;

/// A form as an index; a record of no known form stands behind the others.
const NO_FORM: usize = FORMS.len();

fn index(form: Form) -> usize {
    usize::from(form.byte()) - 1
}

fn form_of(bytes: &[u8]) -> usize {
    bytes.first().and_then(|byte| Form::of(*byte)).map_or(NO_FORM, index)
}

#[derive(Clone, Debug, PartialEq, Eq)]
pub struct Settings {
    /// Sections that loads found, by place, moment, source and form.
    loaded: [[[[u64; FORMS.len()]; SOURCES.len()]; MOMENTS.len()]; SECTIONS],
    /// First flaws of own records and of site records in refused loads.
    flaws: [[[u64; FLAWS.len()]; FORMS.len() + 1]; SOURCES.len()],
    /// Sound pairs, by use and the forms of the own record and the site's.
    pairs: [[[u64; FORMS.len()]; FORMS.len()]; USES.len()],
    /// How often each section number was asked for.
    asked: [u64; DIGITS],
    /// Largest reads that were loaded, by form.
    largest: [[u64; WATCHED.len()]; FORMS.len()],
    /// The numbers of moves, by the form to be moved to.
    moves: [[u64; NUMBERS]; FORMS.len()],
    /// First flaws of records to be moved.
    move_flaws: [[[u64; FLAWS.len()]; FORMS.len() + 1]; FORMS.len()],
    /// Sound records of the form that they should be moved to.
    same_form: [u64; FORMS.len()],
    /// Records of a form that are as long as they can be.
    longest_loaded: [u64; FORMS.len()],
    longest_moved: [u64; FORMS.len()],
    /// Watched largest reads of records that were to be moved, and none.
    moved_largest: [[u64; WATCHED.len() + 1]; FORMS.len()],
}

impl Default for Settings {
    fn default() -> Self {
        Settings {
            loaded: Default::default(),
            flaws: [[[0; FLAWS.len()]; FORMS.len() + 1]; SOURCES.len()],
            pairs: Default::default(),
            asked: [0; DIGITS],
            largest: Default::default(),
            moves: Default::default(),
            move_flaws: [[[0; FLAWS.len()]; FORMS.len() + 1]; FORMS.len()],
            same_form: Default::default(),
            longest_loaded: Default::default(),
            longest_moved: Default::default(),
            moved_largest: Default::default(),
        }
    }
}

fn watched(largest: u16) -> Option<usize> {
    WATCHED.iter().position(|number| *number == largest)
}

impl Settings {
    /// A load found a section that is not empty.
    pub fn loaded(&mut self, place: usize, moment: Moment, source: Source, form: Form) {
        self.loaded[place][moment as usize][source as usize][index(form)] += 1;
    }

    /// A load found this largest read.
    pub fn loaded_largest(&mut self, largest: u16, form: Form) {
        if let Some(place) = watched(largest) {
            self.largest[index(form)][place] += 1;
        }
    }

    pub fn loaded_pair(&mut self, own: &Record, site: &Record) {
        self.pairs[LOADED][index(own.form)][index(site.form)] += 1;
        for record in [own, site] {
            self.longest_loaded[index(record.form)] += u64::from(record.is_longest());
        }
    }

    pub fn asked_pair(&mut self, own: &Record, site: &Record) {
        self.pairs[ASKED][index(own.form)][index(site.form)] += 1;
    }

    pub fn flaw(&mut self, source: Source, bytes: &[u8], flaw: Flaw) {
        self.flaws[source as usize][form_of(bytes)][flaw as usize] += 1;
    }

    pub fn asked(&mut self, number: u8) {
        self.asked[usize::from(number)] += 1;
    }

    /// A record was to be moved to a form, and the move answered this number.
    pub fn moved(&mut self, to: Form, bytes: &[u8], number: u8) {
        self.moves[index(to)][usize::from(number)] += 1;
        let record = match settings::read(bytes) {
            Ok(record) if record.form == to => return self.same_form[index(to)] += 1,
            Ok(record) => record,
            Err(flaw) => {
                return self.move_flaws[index(to)][form_of(bytes)][flaw as usize] += 1;
            }
        };
        self.longest_moved[index(record.form)] += u64::from(record.is_longest());
        let largest = settings::largest_read(record.sections[LARGEST_READ]);
        if let Some(place) = largest.map_or(Some(WATCHED.len()), watched) {
            self.moved_largest[index(to)][place] += 1;
        }
    }

    pub fn add(&mut self, other: &Settings) {
        let mut other = other.clone();
        self.counts().zip(other.counts()).for_each(|(mine, more)| *mine += *more);
    }

    fn counts(&mut self) -> impl Iterator<Item = &mut u64> {
        let loaded = self.loaded.as_flattened_mut().as_flattened_mut().as_flattened_mut();
        let flaws = self.flaws.as_flattened_mut().as_flattened_mut();
        let pairs = self.pairs.as_flattened_mut().as_flattened_mut();
        let counts = loaded.iter_mut().chain(flaws).chain(pairs).chain(&mut self.asked);
        let counts = counts.chain(self.largest.as_flattened_mut());
        let counts = counts.chain(self.moves.as_flattened_mut());
        let counts = counts.chain(self.move_flaws.as_flattened_mut().as_flattened_mut());
        let counts = counts.chain(&mut self.same_form).chain(&mut self.longest_loaded);
        let counts = counts.chain(&mut self.longest_moved);
        counts.chain(self.moved_largest.as_flattened_mut())
    }

    /// Sections asked for and records moved: these need no line.
    pub fn calls(&self) -> u64 {
        self.asked.iter().chain(self.moves.as_flattened()).sum()
    }

    /// Each thing that can be reached, with its count.
    pub fn table(&self) -> Vec<(String, u64)> {
        let mut table = Vec::new();
        for source in SOURCES {
            self.load_rows(source, &mut table);
            let name = |form: &str, flaw| format!("unsound {source:?} {form}{flaw:?}");
            flaw_rows(&self.flaws[source as usize], name, &mut table);
        }
        table.extend((0..DIGITS).map(|no| (format!("asked {no}"), self.asked[no])));
        for (name, forms) in USES.into_iter().zip(&self.pairs) {
            for (own, counts) in FORMS.into_iter().zip(forms) {
                let row = |(site, n)| (format!("{name} own form {own:?}, site {site:?}"), n);
                table.extend(FORMS.into_iter().zip(*counts).map(row));
            }
        }
        for form in FORMS {
            let counts = WATCHED.into_iter().zip(self.largest[index(form)]);
            let counts = counts.filter(|(number, _)| *number <= form.top());
            let row = |(number, n)| (format!("loaded form {form:?} largest read {number}"), n);
            table.extend(counts.map(row));
            let count = self.longest_loaded[index(form)];
            table.push((format!("loaded form {form:?} longest record"), count));
            let count = self.longest_moved[index(form)];
            table.push((format!("moved form {form:?} longest record"), count));
            self.move_rows(form, &mut table);
        }
        table
    }

    fn load_rows(&self, source: Source, table: &mut Vec<(String, u64)>) {
        for moment in MOMENTS {
            for form in FORMS {
                let count = |place: usize| {
                    self.loaded[place][moment as usize][source as usize][index(form)]
                };
                let name = |place| format!("loaded {} {source:?} {form:?} {moment:?}", place + 1);
                table.extend((0..SECTIONS).map(|place| (name(place), count(place))));
            }
        }
    }

    fn move_rows(&self, to: Form, table: &mut Vec<(String, u64)>) {
        let form = index(to);
        let numbers: &[u8] = match to {
            Form::One => &[0, settings::UNSOUND, TOO_LARGE],
            Form::Two => &[0, settings::UNSOUND],
        };
        let count = |number: u8| self.moves[form][usize::from(number)];
        table.extend(numbers.iter().map(|no| (format!("moved to {to:?}: {no}"), count(*no))));
        table.push((format!("moved to {to:?}: of that form"), self.same_form[form]));
        let name = |form: &str, flaw| format!("moved to {to:?}, {form}{flaw:?}");
        flaw_rows(&self.move_flaws[form], name, table);
        let from = if to == Form::One { Form::Two } else { Form::One };
        for (place, count) in self.moved_largest[form].into_iter().enumerate() {
            let number = WATCHED.get(place);
            if number.is_none_or(|number| *number <= from.top()) {
                let number = number.map_or("none".into(), u16::to_string);
                table.push((format!("moved to {to:?}, largest read {number}"), count));
            }
        }
    }
}

/// Some flaws are found before a form is known, the others behind it.
fn flaw_rows(
    counts: &[[u64; FLAWS.len()]; FORMS.len() + 1],
    name: impl Fn(&str, Flaw) -> String,
    table: &mut Vec<(String, u64)>,
) {
    for flaw in FLAWS {
        if matches!(flaw, Flaw::Empty | Flaw::Form) {
            table.push((name("", *flaw), counts[NO_FORM][*flaw as usize]));
            continue;
        }
        for form in FORMS {
            let name = name(&format!("form {form:?} "), *flaw);
            table.push((name, counts[index(form)][*flaw as usize]));
        }
    }
}

#[cfg(test)]
mod tests {
    use super::*;

    #[test]
    fn a_move_is_counted_by_its_number_and_its_largest_read() {
        let mut seen = Settings::default();
        let over = [2, 0, 0, 0, 0, 0, 0, 2, 0, 133, 0];
        seen.moved(Form::One, &over, TOO_LARGE);
        seen.moved(Form::Two, &over, settings::UNSOUND);
        seen.moved(Form::Two, &over[..3], settings::UNSOUND);
        let mut twice = seen.clone();
        twice.add(&seen);
        assert_eq!(twice.calls(), 6);
        let met = twice.table().into_iter().filter(|row| row.1 > 0);
        let names: Vec<String> = met.map(|row| row.0).collect();
        let expected = [
            "moved to One: 8",
            "moved to One, largest read 133",
            "moved to Two: 7",
            "moved to Two: of that form",
            "moved to Two, form Two CutInLength",
        ];
        assert_eq!(names, expected);
    }
}
