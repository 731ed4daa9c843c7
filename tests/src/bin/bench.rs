//! Times the proved program and the second implementation, as processes, on the
//! same scripts. What is told is processor time, so that other work on the
//! machine counts as little as can be, and the mean of the runs in the middle.
//!
//! To tell the calls from starting up and from reading the script, a run of the
//! same script with the last byte of each line spoiled is subtracted: as many
//! bytes, read and taken apart up to the last, and no call.

use second::message::{self, Message, StartRead, BUFFER};
use second::script::{lines, Order};
use second::timing::{middle, processor_time, Whose, LENGTHS};
use second::{compare, generator, replay};
use std::fmt::Write as _;
use std::fs::File;
use std::io;
use std::path::Path;
use std::process::{Command, Stdio};

const RUNS: usize = 45;
/// The keystroke scripts, all but the first, run in one turn of so many: they
/// would take most of the time.
const SELDOM: usize = 3;
const CALLS: usize = 1_000_000;
const CYCLES: usize = 100_000;

fn main() -> io::Result<()> {
    let mut scripts = vec![generator::script(1, CALLS)];
    scripts.extend(LENGTHS.map(typing));
    // Programs that do not answer alike are not worth timing.
    let calls: Vec<u64> =
        scripts.iter().map(|text| compare::check(text.as_bytes()).calls()).collect();
    let folder = std::env::temp_dir().join(format!("bench-{}", std::process::id()));
    std::fs::create_dir(&folder)?;
    let times = measured(&scripts, &folder)?;
    std::fs::remove_dir_all(&folder)?;
    print_calls(calls[0], &times[0]);
    print_keystrokes(&times[1..]);
    Ok(())
}

/// Seconds of each run: of a script, and of the same script spoiled.
#[derive(Clone, Default)]
struct Times {
    whole: Vec<f64>,
    spoiled: Vec<f64>,
}

impl Times {
    fn of_calls(&self) -> f64 {
        middle(&self.whole) - middle(&self.spoiled)
    }
}

/// The proved program's times, and the second implementation's.
type Both = [Times; 2];

/// The times for each script. A machine is slow for seconds at a time, so all
/// scripts take turns.
fn measured(scripts: &[String], folder: &Path) -> io::Result<Vec<Both>> {
    let programs = [replay::program(), std::env::current_exe()?.with_file_name("second")];
    let name = |place: usize, kind| folder.join(format!("{place}.{kind}"));
    for (place, script) in scripts.iter().enumerate() {
        std::fs::write(name(place, "whole"), script)?;
        std::fs::write(name(place, "spoiled"), spoil(script.as_bytes()))?;
    }
    let mut all = vec![Both::default(); scripts.len()];
    for run in 0..RUNS {
        for (place, both) in all.iter_mut().enumerate() {
            if place > 0 && run % SELDOM != 0 {
                continue;
            }
            for (times, program) in both.iter_mut().zip(&programs) {
                times.whole.push(seconds(program, &name(place, "whole"))?);
                times.spoiled.push(seconds(program, &name(place, "spoiled"))?);
            }
        }
    }
    Ok(all)
}

fn print_calls(calls: u64, both: &Both) {
    println!("{calls} calls");
    println!("          script s  spoiled s   calls s  calls a second");
    for (name, times) in ["replay", "second"].iter().zip(both) {
        let (whole, spoiled) = (middle(&times.whole), middle(&times.spoiled));
        let (rest, rate) = (times.of_calls(), calls as f64 / times.of_calls());
        println!("{name:8} {whole:9.3} {spoiled:10.3} {rest:9.3} {rate:15.0}");
    }
    println!("the proved line runs at {:.2} of the second implementation's speed", ratio(both));
}

fn print_keystrokes(rows: &[Both]) {
    println!("\nns for a key and a rub-out, each with its step, by characters in the buffer");
    println!("characters    replay    second     ratio");
    for (length, both) in LENGTHS.iter().zip(rows) {
        let [proved, second] = both;
        let cycle = |times: &Times| times.of_calls() / CYCLES as f64 * 1e9;
        println!("{length:10} {:9.0} {:9.0} {:9.2}", cycle(proved), cycle(second), ratio(both));
    }
}

fn ratio([proved, second]: &Both) -> f64 {
    second.of_calls() / proved.of_calls()
}

/// No order ends in G.
fn spoil(script: &[u8]) -> Vec<u8> {
    let mut spoiled = Vec::with_capacity(script.len());
    for text in lines(script) {
        spoiled.extend(&text[..text.len().saturating_sub(1)]);
        spoiled.extend(b"G\n");
    }
    spoiled
}

/// A read that holds so many characters, and keys that come and go behind them.
fn typing(length: usize) -> String {
    let start = StartRead {
        which_set: 2,
        max_length: BUFFER,
        end_of_data: length as u16,
        low_water: length as u16,
        data: vec![b'g'; length],
        ..StartRead::default()
    };
    let start = message::write(&Message::StartRead(start), message::LONGEST).expect("sound");
    let mut script = String::from("M 01000100002020202020202020\n");
    let _ = writeln!(script, "{}", Order::Host(start));
    script + &"K 67\nK 7F\n".repeat(CYCLES)
}

/// The processor time of one run.
fn seconds(program: &Path, script: &Path) -> io::Result<f64> {
    let before = processor_time(Whose::Children)?;
    let mut command = Command::new(program);
    let status = command.stdin(File::open(script)?).stdout(Stdio::null()).status()?;
    assert!(status.success(), "{}: {status}", program.display());
    Ok(processor_time(Whose::Children)? - before)
}
