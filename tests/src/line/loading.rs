//! Loading: what two settings records hold becomes the line's (M-100).

use super::Line;
use crate::coverage::settings::Moment;
use crate::coverage::Rule;
use crate::message::{INPUT_ESCAPES, NORMAL_ECHO, RAISE_INPUT};
use crate::settings::{
    self, Record, Source, ATTRIBUTE, ATTRIBUTES, CHARACTERISTICS, LARGEST_READ, SECTIONS, SET,
    SWITCH, UNSOUND,
};

/// Which settings are as a load left them; only what is counted depends on it.
#[derive(Clone, Copy, Debug, Default, PartialEq, Eq)]
pub(super) struct Loaded {
    pub attributes: bool,
    pub set: bool,
}

impl Line {
    /// Loads the line's own record and the site's; answers 0 or 7. No area is
    /// lent, so none is asked for.
    pub fn load(&mut self, own: &[u8], site: &[u8]) -> u8 {
        let number = match (settings::read(own), settings::read(site)) {
            (Ok(own), Ok(site)) => {
                self.load_sound(&own, &site);
                0
            }
            (judged, other) => {
                let records = [(Source::Own, own, judged), (Source::Site, site, other)];
                for (source, bytes, judged) in records {
                    if let Err(flaw) = judged {
                        self.seen.settings.flaw(source, bytes, flaw);
                    }
                }
                UNSOUND
            }
        };
        self.seen.numbers[usize::from(number)] += 1;
        number
    }

    fn load_sound(&mut self, own: &Record, site: &Record) {
        self.note_load(own, site);
        self.load_switches(settings::find(CHARACTERISTICS, own, site).0);
        self.load_attributes(settings::find(ATTRIBUTES, own, site).0);
        self.load_set(settings::find(SET, own, site).0);
        let largest = settings::largest_read(settings::find(LARGEST_READ, own, site).0);
        self.largest_read = largest.unwrap_or(self.largest_read);
    }

    fn load_switches(&mut self, section: &[u8]) {
        for switch in section.chunks_exact(SWITCH) {
            let place = match u16::from_le_bytes([switch[0], switch[1]]) {
                RAISE_INPUT => &mut self.raise,
                NORMAL_ECHO => &mut self.normal_echo,
                INPUT_ESCAPES => &mut self.escapes,
                _ => &mut self.auto_prompt,
            };
            *place = switch[2] == 1;
        }
    }

    /// All 256: a code that is left out becomes 0.
    fn load_attributes(&mut self, section: &[u8]) {
        if section.is_empty() {
            return;
        }
        self.attributes = [0; 256];
        self.loaded.attributes = true;
        for attribute in section.chunks_exact(ATTRIBUTE) {
            self.attributes[usize::from(attribute[0])] = attribute[1];
        }
    }

    fn load_set(&mut self, section: &[u8]) {
        if section.is_empty() {
            return;
        }
        let mut set = [0; 32];
        set[..section.len()].copy_from_slice(section);
        self.last_set = Some(set);
        self.loaded.set = true;
    }

    /// Counts what a sound load finds.
    fn note_load(&mut self, own: &Record, site: &Record) {
        let moment = match (self.initiated, self.read.is_some()) {
            (false, _) => Moment::BeforeInitiate,
            (true, true) => Moment::MidRead,
            (true, false) => Moment::NoRead,
        };
        self.seen.met_if(self.locked, Rule::LockedLoad);
        self.seen.settings.loaded_pair(own, site);
        let form_of = |source| if source == Source::Own { own.form } else { site.form };
        let mut sources = Vec::new();
        for place in 0..SECTIONS {
            let (section, source) = settings::find(place, own, site);
            if !section.is_empty() {
                self.seen.settings.loaded(place, moment, source, form_of(source));
                sources.push(source);
            }
            let both = !own.sections[place].is_empty() && !site.sections[place].is_empty();
            self.seen.met_if(both, Rule::LoadOwnBeforeSite);
        }
        let mixed = sources.contains(&Source::Own) && sources.contains(&Source::Site);
        self.seen.met_if(mixed, Rule::LoadMixed);
        self.seen.met_if(sources.is_empty(), Rule::LoadNothing);
        let (largest, source) = settings::find(LARGEST_READ, own, site);
        match settings::largest_read(largest) {
            Some(number) => self.seen.settings.loaded_largest(number, form_of(source)),
            None => self.seen.met_if(self.limited(), Rule::LoadKeepsLargest),
        }
    }
}
