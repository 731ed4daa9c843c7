//! Times what a box would use instead of the line, for a sense of scale: the
//! same keys through the kernel's own line discipline, a pty in canonical mode
//! with echo. A cycle is that of `bench`: a key is written to the master and its
//! echo read back from there, then a rub-out and its BS SP BS.
//!
//! What the system calls cost is told apart by a pty in raw mode: what the
//! master is to read back is written to the slave as it is. That is as many
//! writes and reads, and as many bytes read.
//!
//! What is written waits for a worker of the kernel, and a read sleeps until it
//! is there. In canonical mode a key needs workers twice: for the line discipline,
//! which acts in one, and for its echo; in raw mode once. So
//! - elapsed time has all of it: the system calls, what the workers do, and
//!   waking them and the reader;
//! - processor time is this process's, user and system: the system calls, with
//!   waking a worker and going to sleep, but not what the workers do, and so not
//!   the line discipline;
//! - the difference of the modes is the line discipline and one worker more for
//!   each key, and most of it is the worker.
//!
//! Waking takes several times as long if the worker runs on another processor,
//! which changes from run to run, and then the difference is lost in it. Hence
//! the least of each column is told too, over all runs and lengths; and a second
//! table has many cycles in one write. Little is woken there, so its difference
//! in elapsed time is nearly the line discipline alone.

use second::timing::{middle, processor_time, Whose, LENGTHS};
use std::ffi::{c_char, c_int, c_uint, CStr, OsStr};
use std::fs::{File, OpenOptions};
use std::io::{self, Read, Write};
use std::os::fd::{AsRawFd, FromRawFd};
use std::os::unix::ffi::OsStrExt;
use std::os::unix::fs::OpenOptionsExt;
use std::time::Instant;

/// All tables, lengths and modes take turns. With the rounds of a run this keeps
/// the program under 15 seconds where waking is slow.
const RUNS: usize = 27;

/// Seconds. A run takes less than one; if an echo never comes, a signal ends the
/// program.
const PATIENCE: c_uint = 20;

const KEY: &[u8] = b"g";
const RUB_OUT: &[u8] = b"\x7F";
/// BS SP BS.
const RUBBED_OUT: &[u8] = b"\x08 \x08";

/// How many cycles the second table has in one write. What they echo has to fit
/// into the kernel's buffers of 4,096 bytes.
const TOGETHER: usize = 512;
const LONGEST: usize = TOGETHER * (KEY.len() + RUBBED_OUT.len());
/// What is typed before the cycles is echoed into the same room.
const _: () = assert!(LENGTHS[LENGTHS.len() - 1] <= LONGEST);

fn main() -> io::Result<()> {
    let paces = [key_by_key(), together()];
    let mut tables = paces.each_ref().map(|_| vec![Row::default(); LENGTHS.len()]);
    for _ in 0..RUNS {
        for (pace, rows) in paces.iter().zip(&mut tables) {
            for (length, row) in LENGTHS.into_iter().zip(rows) {
                let [canonical, raw] =
                    [Mode::Canonical, Mode::Raw].map(|mode| run(pace, mode, length));
                for (column, seconds) in row.iter_mut().zip([canonical?, raw?].concat()) {
                    column.push(seconds);
                }
            }
        }
    }
    for (pace, rows) in paces.iter().zip(&tables) {
        print(pace, rows);
    }
    Ok(())
}

/// Seconds a cycle in each run: elapsed and of the processor, in canonical mode
/// and then in raw mode.
type Row = [Vec<f64>; 4];

/// How keys are typed.
struct Pace {
    name: String,
    /// What is typed in one call and what the terminal is shown then, in turns:
    /// one round.
    round: Vec<[Vec<u8>; 2]>,
    /// Cycles in a round, and rounds in a run.
    cycles: usize,
    rounds: usize,
}

fn key_by_key() -> Pace {
    let round = vec![[KEY.to_vec(), KEY.to_vec()], [RUB_OUT.to_vec(), RUBBED_OUT.to_vec()]];
    Pace { name: "a key in a write".into(), round, cycles: 1, rounds: 256 }
}

fn together() -> Pace {
    let many = |cycle: [&[u8]; 2]| cycle.concat().repeat(TOGETHER);
    let round = vec![[many([KEY, RUB_OUT]), many([KEY, RUBBED_OUT])]];
    Pace { name: format!("{TOGETHER} of both in a write"), round, cycles: TOGETHER, rounds: 8 }
}

/// Seconds a cycle of one run, elapsed and of the processor, with so many
/// characters typed into the line before. Raw mode keeps none of them.
fn run(pace: &Pace, mode: Mode, length: usize) -> io::Result<[f64; 2]> {
    // Safe: it is handed a number. It counts anew in each run.
    unsafe { alarm(PATIENCE) };
    let mut pty = Pty::open(mode)?;
    let before = KEY.repeat(length);
    pty.exchange(&before, &before)?;
    let (begun, used) = (Instant::now(), processor_time(Whose::Own)?);
    for _ in 0..pace.rounds {
        for [typed, shown] in &pace.round {
            pty.exchange(typed, shown)?;
        }
    }
    let spent = [begun.elapsed().as_secs_f64(), processor_time(Whose::Own)? - used];
    Ok(spent.map(|seconds| seconds / (pace.rounds * pace.cycles) as f64))
}

fn print(pace: &Pace, rows: &[Row]) {
    let name = &pace.name;
    println!("\nns for a key and a rub-out through a pty, {name}, by characters in the line");
    println!("{:10} {:>19} {:>19} {:>19}", "", "canonical", "raw", "difference");
    println!("characters{}", "   elapsed processor".repeat(3));
    for (length, row) in LENGTHS.iter().zip(rows) {
        print_row(&length.to_string(), row.each_ref().map(|column| middle(column)));
    }
    let all = |column: usize| rows.iter().flat_map(move |row| row[column].iter().copied());
    print_row("least", std::array::from_fn(|column| all(column).fold(f64::INFINITY, f64::min)));
}

fn print_row(name: &str, [elapsed, processor, raw_elapsed, raw_processor]: [f64; 4]) {
    let difference = [elapsed - raw_elapsed, processor - raw_processor];
    print!("{name:>10}");
    for seconds in [[elapsed, processor], [raw_elapsed, raw_processor], difference].concat() {
        print!(" {:9.0}", seconds * 1e9);
    }
    println!();
}

#[derive(Clone, Copy)]
enum Mode {
    Canonical,
    Raw,
}

/// Both ends of a pty, closed when it goes.
struct Pty {
    mode: Mode,
    master: File,
    slave: File,
    /// What was read goes here.
    buffer: [u8; LONGEST],
}

impl Pty {
    /// Neither end becomes the terminal that controls this process.
    fn open(mode: Mode) -> io::Result<Pty> {
        // Safe: it is handed a number, and gives a descriptor or -1.
        let master = done(unsafe { posix_openpt(O_RDWR | O_NOCTTY) })?;
        // Safe: the descriptor was just opened, and nothing else has it.
        let master = unsafe { File::from_raw_fd(master) };
        let mut name = [0; LONGEST_NAME];
        // Safe: the descriptor is open, and the name is written within its length.
        unsafe {
            done(grantpt(master.as_raw_fd()))?;
            done(unlockpt(master.as_raw_fd()))?;
            done(-ptsname_r(master.as_raw_fd(), name.as_mut_ptr().cast(), name.len()))?;
        }
        let name = CStr::from_bytes_until_nul(&name).expect("a name ends in a zero");
        let mut options = OpenOptions::new();
        options.read(true).write(true).custom_flags(O_NOCTTY);
        let slave = options.open(OsStr::from_bytes(name.to_bytes()))?;
        set(&slave, mode)?;
        Ok(Pty { mode, master, slave, buffer: [0; LONGEST] })
    }

    /// Writes what is typed to the master, or in raw mode what is shown to the
    /// slave; the master has to read what is shown.
    fn exchange(&mut self, typed: &[u8], shown: &[u8]) -> io::Result<()> {
        match self.mode {
            Mode::Canonical => self.master.write_all(typed)?,
            Mode::Raw => self.slave.write_all(shown)?,
        }
        let read = &mut self.buffer[..shown.len()];
        // An echo may come in pieces: then, seldom, this is one read more.
        self.master.read_exact(read)?;
        assert!(read == shown, "the pty gave {read:02X?}, not {shown:02X?}");
        Ok(())
    }
}

/// Leaves what the kernel sets for a new pty, but for what makes the mode.
fn set(slave: &File, mode: Mode) -> io::Result<()> {
    let mut settings = Termios::default();
    // Safe: the call fills the struct that it is lent, and keeps nothing.
    done(unsafe { tcgetattr(slave.as_raw_fd(), &mut settings) })?;
    match mode {
        Mode::Canonical => {
            settings.local |= ICANON | ECHO | ECHOE;
            settings.characters[VERASE] = RUB_OUT[0];
        }
        // Safe: the call changes the struct that it is lent, and keeps nothing.
        Mode::Raw => unsafe { cfmakeraw(&mut settings) },
    }
    // Safe: the call reads the struct that it is lent, and keeps nothing.
    done(unsafe { tcsetattr(slave.as_raw_fd(), TCSANOW, &settings) })?;
    Ok(())
}

/// What a call of the C library gave, if it is not the number for a failure.
fn done(number: c_int) -> io::Result<c_int> {
    if number < 0 {
        return Err(io::Error::last_os_error());
    }
    Ok(number)
}

/// The layout, of 60 bytes, and the numbers below are those of the GNU C library
/// on x86-64 Linux.
#[repr(C)]
#[derive(Default)]
struct Termios {
    input: u32,
    output: u32,
    control: u32,
    local: u32,
    discipline: u8,
    characters: [u8; 32],
    speeds: [u32; 2],
}

const _: () = assert!(std::mem::size_of::<Termios>() == 60);

const O_RDWR: c_int = 0o2;
const O_NOCTTY: c_int = 0o400;
const ICANON: u32 = 0o2;
const ECHO: u32 = 0o10;
const ECHOE: u32 = 0o20;
/// The place of the character that rubs out.
const VERASE: usize = 2;
const TCSANOW: c_int = 0;
/// Such a name is `/dev/pts/` and a number.
const LONGEST_NAME: usize = 64;

extern "C" {
    fn alarm(seconds: c_uint) -> c_uint;
    fn posix_openpt(flags: c_int) -> c_int;
    fn grantpt(master: c_int) -> c_int;
    fn unlockpt(master: c_int) -> c_int;
    /// Gives 0, or the number of an error, above 0.
    fn ptsname_r(master: c_int, name: *mut c_char, length: usize) -> c_int;
    fn tcgetattr(terminal: c_int, settings: *mut Termios) -> c_int;
    fn tcsetattr(terminal: c_int, when: c_int, settings: *const Termios) -> c_int;
    fn cfmakeraw(settings: *mut Termios);
}
