//! Scenes with settings records: loaded at any time, asked for, and looked at
//! through what a line does after them.

use super::random::Random;
use super::{messages, records, typing, Generator};
use crate::coverage::long::WATCHED;
use crate::message::Message;
use crate::script::{Order, Records, Reply};
use crate::settings::{Form, ATTRIBUTES, CHARACTERISTICS, FORMS, LARGEST_READ, SET};

/// Two records of any kind.
fn any_pair(random: &mut Random) -> Records {
    match random.below(8) {
        0 => Records { own: records::damaged(random), site: records::sound(random) },
        1 => Records { own: records::sound(random), site: records::damaged(random) },
        2 => Records { own: records::damaged(random), site: records::damaged(random) },
        3 => {
            let own = records::sound(random);
            Records { own: own.clone(), site: own }
        }
        _ => sound_pair(random),
    }
}

fn sound_pair(random: &mut Random) -> Records {
    Records { own: records::sound(random), site: records::sound(random) }
}

/// A script of loads, asks and moves alone, most of them of damaged records.
pub fn settings_script(seed: u64, calls: usize) -> String {
    let mut generator = Generator::new(seed);
    generator.beginning();
    while generator.calls < calls {
        match generator.random.below(20) {
            0 => generator.fresh(),
            1 => generator.asks(),
            2 | 3 => generator.probe(),
            4..=6 => generator.moved(),
            _ => generator.refused(),
        }
    }
    generator.text
}

impl Generator {
    pub(super) fn settings(&mut self) {
        match self.random.below(12) {
            0 | 1 => self.loads(),
            2 => self.asks(),
            3 | 4 => self.largest_read(),
            5 => self.loaded_set(),
            6 => self.loaded_attributes(),
            7 => self.loaded_switches(),
            8 => self.load_in_mid_read(),
            9 | 10 => self.moves(),
            _ => self.refused_load(),
        }
        if self.random.chance(70) {
            self.load_room();
        }
    }

    /// A small largest read would leave little to see in what follows.
    pub(super) fn load_room(&mut self) {
        self.load_section(Form::Two, LARGEST_READ, Form::Two.largest_section(Form::Two.top()));
    }

    /// Loads before Initiate, which has to keep what they left.
    pub(super) fn early_loads(&mut self) {
        for _ in 0..self.random.between(1, 3) {
            self.load();
        }
        if self.random.chance(30) {
            let code = self.random.pick(&typing::OUT_OF_BAND);
            self.key(code);
        }
    }

    pub(super) fn load(&mut self) {
        let pair = any_pair(&mut self.random);
        self.order(Order::Load(pair));
    }

    fn loads(&mut self) {
        for _ in 0..self.random.between(1, 4) {
            self.load();
            if self.random.chance(40) {
                self.read();
            }
        }
    }

    /// Loads this section; the other record is empty, or has sections too.
    fn load_section(&mut self, form: Form, place: usize, section: Vec<u8>) {
        let with = records::only(form, place, section);
        let without = records::only(self.random.pick(&FORMS), place, Vec::new());
        let records = match self.random.below(3) {
            0 => Records { own: without, site: with },
            1 => Records { own: with, site: records::sound(&mut self.random) },
            _ => Records { own: with, site: without },
        };
        self.order(Order::Load(records));
    }

    /// Both forms have this section alike.
    fn load_in_either(&mut self, place: usize, section: Vec<u8>) {
        let form = self.random.pick(&FORMS);
        self.load_section(form, place, section);
    }

    fn moves(&mut self) {
        for _ in 0..self.random.between(1, 20) {
            self.moved();
        }
    }

    /// A record of any kind is moved, and if that is done, mostly back again; at
    /// times both are loaded.
    fn moved(&mut self) {
        let damaged = self.random.chance(50);
        let make = if damaged { records::damaged } else { records::sound };
        let record = make(&mut self.random);
        let to = self.random.pick(&FORMS);
        let Reply::Moved(Ok(moved)) = self.obeyed(Order::Move(to, record.clone())) else { return };
        match self.random.below(4) {
            0 => self.order(Order::Load(Records { own: moved, site: record })),
            1 => self.order(Order::Load(Records { own: record, site: moved })),
            _ => FORMS.iter().for_each(|form| self.order(Order::Move(*form, moved.clone()))),
        }
    }

    /// One number, or all of them, for the same records.
    fn asks(&mut self) {
        let pair = any_pair(&mut self.random);
        let numbers = match self.random.below(3) {
            0 => 0..=9,
            1 => 1..=4,
            _ => {
                let number = self.random.below(10) as u8;
                number..=number
            }
        };
        for number in numbers {
            self.order(Order::Ask(number, pair.clone()));
        }
    }

    /// Reads just at the loaded number and above it, some with a cause for 6.
    pub(super) fn largest_read(&mut self) {
        let form = self.random.pick(&FORMS);
        let largest = records::largest(form, &mut self.random);
        self.load_section(form, LARGEST_READ, form.largest_section(largest));
        for _ in 0..self.random.between(1, 4) {
            self.make_way();
            let mut read = messages::start_read(&mut self.random);
            messages::fit(&mut read, largest);
            match self.random.below(8) {
                0 => read.continuation = true,
                1 => read.vertical = true,
                2 => read.start_of_display = read.end_of_data,
                _ => {}
            }
            read.data.truncate(usize::from(read.end_of_data - read.start_of_display));
            let above = largest + self.random.pick(&[0, 0, 1, 1, 2, 256]);
            let watched = self.random.pick(&WATCHED);
            let asked = self.random.pick(&[above, watched]);
            self.send(&messages::asking_for(asked, read));
            self.type_keys(4);
        }
    }

    /// A loaded set ends reads with ZZ 0, until one with ZZ 1 gives another.
    fn loaded_set(&mut self) {
        let set = records::set(&mut self.random);
        self.load_in_either(SET, set.clone());
        for _ in 0..self.random.between(1, 3) {
            let which = self.random.pick(&[0, 0, 0, 1, 2]);
            self.start(|_, read| read.which_set = which);
            self.type_keys(3);
            let code = self.random.below(set.len().max(1) * 8) as u8;
            self.key(code);
        }
    }

    /// Codes become out-of-band by one load, and ordinary again by another.
    fn loaded_attributes(&mut self) {
        for _ in 0..self.random.between(1, 3) {
            let section = records::attributes(&mut self.random);
            self.load_in_either(ATTRIBUTES, section);
            if self.random.chance(60) {
                self.start(|_, _| {});
            }
            self.type_keys(4);
            for _ in 0..self.random.below(4) {
                let code = self.random.pick(&typing::OUT_OF_BAND);
                self.key(code);
            }
            let wanted = messages::wanted(&mut self.random, false);
            self.host(&Message::ReadCharacteristics(wanted));
        }
    }

    fn loaded_switches(&mut self) {
        let section = records::switches(&mut self.random);
        self.load_in_either(CHARACTERISTICS, section);
        self.start(|random, read| {
            read.raise = random.pick(&[0, 0, 1]);
            read.escapes = random.pick(&[0, 0, 1]);
            read.no_echo = random.chance(10);
        });
        self.type_keys(10);
        self.after_read();
    }

    /// The pending read keeps what it had; the next one has what was loaded.
    fn load_in_mid_read(&mut self) {
        self.start(|random, read| {
            read.raise = random.pick(&[0, 0, 1, 2]);
            read.which_set = random.pick(&[0, 0, 1, 2]);
        });
        self.type_keys(6);
        for _ in 0..self.random.between(1, 2) {
            let pair = sound_pair(&mut self.random);
            self.order(Order::Load(pair));
            self.type_keys(6);
        }
        self.start(|_, read| {
            (read.raise, read.escapes, read.which_set) = (0, 0, 0);
        });
        self.type_keys(6);
    }

    fn refused_load(&mut self) {
        for _ in 0..self.random.between(2, 14) {
            self.refused();
        }
        self.probe();
        self.type_keys(6);
    }

    /// One damaged record and one sound one, loaded and asked.
    fn refused(&mut self) {
        let mut pair = sound_pair(&mut self.random);
        let place = if self.random.chance(50) { &mut pair.own } else { &mut pair.site };
        *place = records::damaged(&mut self.random);
        self.order(Order::Load(pair.clone()));
        let number = self.random.between(1, 4) as u8;
        self.order(Order::Ask(number, pair));
    }

    /// Shows what has been loaded, if the line has had its Initiate.
    fn probe(&mut self) {
        let wanted = messages::wanted(&mut self.random, false);
        self.host(&Message::ReadCharacteristics(wanted));
        self.start(|_, read| {
            (read.raise, read.escapes, read.which_set) = (0, 0, 0);
        });
    }
}
