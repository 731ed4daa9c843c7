//! Makes random scripts that reach deep states, from a seed.

mod accents;
mod damage;
mod long;
mod messages;
mod random;
mod records;
mod refusals;
mod scenes;
mod settings;
mod tokens;
mod typing;
mod waiting;
mod writes;

use crate::line::Line;
use crate::message::{Message, StartRead};
use crate::script::{Order, Reply, Runner};
use random::Random;
use std::fmt::Write as _;

pub use damage::damaged;
pub use long::long_script;
pub use settings::settings_script;
pub use tokens::token_script;

/// For so many reads in a hundred, keys wait.
const AHEAD: usize = 20;

/// Makes a script with at least this many calls.
pub fn script(seed: u64, calls: usize) -> String {
    let mut generator = Generator::new(seed);
    generator.beginning();
    while generator.calls < calls {
        generator.scene();
    }
    generator.text
}

struct Generator {
    random: Random,
    text: String,
    calls: usize,
    /// Follows the script, so that scenes know whether a read is pending and
    /// how much waits: without it most typing would meet no read.
    runner: Runner,
}

impl Generator {
    fn new(seed: u64) -> Self {
        let random = Random::new(seed);
        Generator { random, text: String::new(), calls: 0, runner: Runner::default() }
    }

    /// Writes an order down and lets the line follow it.
    fn obeyed(&mut self, order: Order) -> Reply {
        let counts = !matches!(order, Order::Lengths(_) | Order::Fresh | Order::Dropped);
        self.calls += usize::from(counts);
        let _ = writeln!(self.text, "{order}");
        self.runner.obey(&order)
    }

    fn order(&mut self, order: Order) {
        self.obeyed(order);
    }

    fn line(&self) -> &Line {
        self.runner.line()
    }

    fn key(&mut self, code: u8) {
        self.order(Order::Key(code));
    }

    fn step(&mut self) {
        self.order(Order::Step);
    }

    fn tick(&mut self) {
        self.order(Order::Tick);
    }

    fn send(&mut self, bytes: &[u8]) {
        self.order(Order::Host(bytes.to_vec()));
    }

    fn host(&mut self, message: &Message) {
        self.send(&messages::bytes_of(message));
    }

    /// One scene; a script is a row of them.
    fn scene(&mut self) {
        self.lift_mostly();
        match self.random.below(142) {
            0..=25 => self.read(),
            26 => self.many_lines(),
            27..=29 => self.idling(),
            30..=37 => self.tokens(),
            38..=47 => self.typing(),
            48..=55 => self.writes(),
            56..=60 => self.characteristics(),
            61..=63 => self.read_characteristics(),
            64..=66 => self.out_of_band(),
            67..=71 => self.small_requests(),
            72..=74 => self.ticks(),
            75 => self.flood(),
            76 => self.far_right(),
            77 => self.small_areas(),
            78 => self.absentee(),
            79..=83 => self.reading(),
            84..=88 => self.spoiled(),
            89..=92 => self.sound_message(),
            93 => self.wrong_length(),
            94 if self.random.chance(50) => self.stray_line(),
            94 => self.edge_values(),
            95 => self.order(Order::Dropped),
            96 => self.hidden_lf(),
            97 => self.narrow_tab(),
            98 | 99 => self.fresh(),
            100..=110 => self.settings(),
            111..=116 => self.locked(),
            117..=119 => self.skipped_linefeed(),
            120..=127 => self.backlog(),
            128..=135 => self.drained(),
            136..=139 => self.accents(),
            _ => self.single_parts(),
        }
    }

    fn beginning(&mut self) {
        if self.random.chance(35) {
            for _ in 0..self.random.below(4) {
                let code = typing::key(&mut self.random);
                self.key(code);
            }
        }
        if self.random.chance(30) {
            self.early_loads();
        }
        match self.random.below(20) {
            0 => self.sound_message(),
            1 => self.spoiled(),
            2 => self.flood(),
            _ => {}
        }
        if self.random.chance(98) {
            let initiate = messages::initiate(&mut self.random);
            self.host(&initiate);
        }
    }

    fn fresh(&mut self) {
        self.order(Order::Fresh);
        self.beginning();
    }

    /// Ends the read there is, most of the time, and starts one; at times keys
    /// wait for it.
    fn start(&mut self, change: impl FnOnce(&mut Random, &mut StartRead)) {
        self.make_way();
        if self.random.chance(AHEAD) {
            self.type_ahead();
        }
        self.begin(change);
    }

    /// A Start Read that mostly keeps to the line's largest read.
    fn begin(&mut self, change: impl FnOnce(&mut Random, &mut StartRead)) {
        let mut read = messages::start_read(&mut self.random);
        change(&mut self.random, &mut read);
        if self.random.chance(90) {
            messages::fit(&mut read, self.line().largest_read());
        }
        self.host(&Message::StartRead(read));
    }

    fn make_way(&mut self) {
        if self.line().read_pending() && self.random.chance(90) {
            self.unread();
        }
        if self.line().waiting() > 12 && self.random.chance(60) {
            self.send(&[6, 0]);
        }
    }

    fn characteristics(&mut self) {
        let values = messages::carried_values(&mut self.random);
        self.host(&Message::Characteristics(values));
    }

    fn read_characteristics(&mut self) {
        let outside = self.random.chance(15);
        let wanted = messages::wanted(&mut self.random, outside);
        self.host(&Message::ReadCharacteristics(wanted));
    }

    fn small_requests(&mut self) {
        if self.random.chance(30) {
            self.settle();
        }
        match self.random.below(7) {
            0 => self.unread(),
            1..=3 => self.send(&[5, 1]),
            4 => self.send(&[6, 0]),
            _ => self.send(&[12, 0]),
        }
    }
}
