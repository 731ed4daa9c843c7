//! The proved program and the second implementation answer every order of
//! generated scripts alike. `CALLS` asks for more calls, `SEED` for others.

use second::coverage::Coverage;
use second::{compare, generator};
use std::sync::atomic::{AtomicU64, Ordering};
use std::sync::Mutex;
use std::thread;

/// The calls of one script.
const SCRIPT: u64 = 20_000;

/// The calls of all generated scripts: some 11 seconds on two cores.
const CALLS: u64 = 10_000_000;

fn wanted(name: &str, usual: u64) -> u64 {
    std::env::var(name).map_or(usual, |text| text.parse().expect("a number"))
}

/// Compares a script for each seed, on every core; gives what occurred.
fn compared(seeds: u64, script: impl Fn(u64) -> Vec<u8> + Sync) -> Coverage {
    let seed = AtomicU64::new(wanted("SEED", 20_000));
    let end = seed.load(Ordering::Relaxed) + seeds;
    let all = Mutex::new(Coverage::default());
    thread::scope(|scope| {
        for _ in 0..thread::available_parallelism().map_or(1, usize::from) {
            scope.spawn(|| loop {
                let seed = seed.fetch_add(1, Ordering::Relaxed);
                if seed >= end {
                    break;
                }
                let seen = compare::check(&script(seed));
                all.lock().expect("the other thread found no difference").add(&seen);
            });
        }
    });
    all.into_inner().expect("no difference")
}

#[test]
fn generated_scripts_are_answered_alike() {
    let calls = wanted("CALLS", CALLS);
    let seen = compared(calls.div_ceil(SCRIPT), |seed| {
        generator::script(seed, SCRIPT as usize).into_bytes()
    });
    println!("{seen}");
    assert!(seen.calls() >= calls);
    assert_eq!(seen.missing(), Vec::<String>::new());
}

#[test]
fn tokens_are_answered_alike() {
    let calls = wanted("CALLS", CALLS) / 10;
    let seen = compared(calls.div_ceil(SCRIPT), |seed| {
        generator::token_script(seed, SCRIPT as usize).into_bytes()
    });
    println!("{seen}");
    assert!(seen.calls() >= calls);
    assert_eq!(seen.tokens.missing(), Vec::<String>::new());
}

#[test]
fn long_answers_are_answered_alike() {
    let calls = wanted("CALLS", CALLS) / 40;
    let seen = compared(calls.div_ceil(SCRIPT), |seed| {
        generator::long_script(seed, SCRIPT as usize).into_bytes()
    });
    println!("{seen}");
    assert!(seen.calls() >= calls);
    assert_eq!(seen.long.missing(), Vec::<String>::new());
}

#[test]
fn records_are_answered_alike() {
    let calls = wanted("CALLS", CALLS) / 10;
    let seen = compared(calls.div_ceil(SCRIPT), |seed| {
        generator::settings_script(seed, SCRIPT as usize).into_bytes()
    });
    println!("{seen}");
    assert!(seen.calls() >= calls);
    // Most loads are refused: it is the damaged records that this is about.
    assert!(seen.numbers[7] > calls / 5, "{:?}", seen.numbers);
}

#[test]
fn damaged_scripts_are_answered_alike() {
    let calls = wanted("CALLS", CALLS) / 5;
    let seen = compared(calls.div_ceil(SCRIPT), |seed| {
        let script = generator::script(seed, SCRIPT as usize);
        generator::damaged(script.as_bytes(), seed)
    });
    println!("{seen}");
    assert!(seen.numbers.iter().all(|count| *count > 0), "{:?}", seen.numbers);
}
