//! Prints a random script: generate SEED CALLS.

use std::io::Write;

fn main() -> std::io::Result<()> {
    let mut numbers = std::env::args().skip(1).map(|number| number.parse::<u64>());
    let (Some(Ok(seed)), Some(Ok(calls)), None) = (numbers.next(), numbers.next(), numbers.next())
    else {
        eprintln!("usage: generate SEED CALLS");
        std::process::exit(2);
    };
    let script = second::generator::script(seed, calls as usize);
    std::io::stdout().lock().write_all(script.as_bytes())
}
