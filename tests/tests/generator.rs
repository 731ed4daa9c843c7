//! Over fixed seeds everything that can be reached occurs.

use second::coverage::Coverage;
use second::{generator, script};

/// What occurs in so many scripts of ten thousand calls.
fn seen(scripts: u64, script: impl Fn(u64, usize) -> String) -> Coverage {
    let mut all = Coverage::default();
    for seed in 1..=scripts {
        let (answers, seen) = script::run(script(seed, 10_000).as_bytes());
        assert!(!answers.is_empty());
        all.add(&seen);
    }
    println!("{all}");
    all
}

#[test]
fn each_thing_that_can_be_reached_occurs() {
    let all = seen(40, generator::script);
    assert!(all.calls() >= 300_000);
    assert_eq!(all.missing(), Vec::<String>::new());
}

#[test]
fn each_thing_that_can_happen_to_a_token_occurs() {
    let all = seen(100, generator::token_script);
    assert_eq!(all.tokens.missing(), Vec::<String>::new());
}

#[test]
fn each_thing_that_can_happen_to_a_long_answer_occurs() {
    let all = seen(20, generator::long_script);
    assert_eq!(all.long.missing(), Vec::<String>::new());
}

#[test]
fn a_seed_gives_the_same_script_each_time() {
    assert_eq!(generator::script(7, 2_000), generator::script(7, 2_000));
    assert_ne!(generator::script(7, 2_000), generator::script(8, 2_000));
}

#[test]
fn a_script_run_in_parts_gives_the_same_answers() {
    let text = generator::script(3, 5_000);
    let mut runner = script::Runner::default();
    let mut answers = Vec::new();
    for line in script::lines(text.as_bytes()) {
        runner.run(line, &mut answers);
    }
    assert_eq!(answers, script::run(text.as_bytes()).0);
}
