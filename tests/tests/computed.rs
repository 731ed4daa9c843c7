//! The definitions of `rules`, computed by the checker, answer every vector and
//! generated scripts besides.

use second::computed::{check, Script};
use second::{generator, script, vectors};
use std::path::Path;

/// Seeds of generated scripts, and the calls of each. Long answers take the
/// checker longest.
const SEEDS: std::ops::Range<u64> = 9000..9004;
const CALLS: usize = 400;
const LONG_CALLS: usize = 100;

fn generated() -> impl Iterator<Item = Script> {
    let general = SEEDS.map(|seed| generator::script(seed, CALLS));
    let tokens = SEEDS.map(|seed| generator::token_script(seed, CALLS));
    let settings = generator::settings_script(SEEDS.start, CALLS);
    let long = generator::long_script(SEEDS.start, LONG_CALLS);
    let scripts = general.chain(tokens).chain([settings, long]);
    scripts.map(|script| {
        let orders = script.into_bytes();
        let answers = script::run(&orders).0;
        Script { orders, answers }
    })
}

#[test]
fn the_definitions_answer_every_script() {
    let tests = Path::new(env!("CARGO_MANIFEST_DIR"));
    let vectors = vectors::all().into_iter().map(|(_, vector)| vector);
    let scripts: Vec<Script> = vectors.chain(generated()).collect();
    let (output, calls) = check(tests.parent().unwrap(), &scripts).unwrap();
    println!("{calls} calls computed");
    assert!(output.status.success(), "{}", String::from_utf8_lossy(&output.stdout));
}
