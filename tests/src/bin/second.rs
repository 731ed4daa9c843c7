//! Reads a script on standard input and prints the answers.

use second::script::{lines, Runner};
use std::io::{Read, Write};

/// Answers are written when this many bytes wait.
const PIECE: usize = 64 * 1024;

fn main() -> std::io::Result<()> {
    let mut script = Vec::new();
    std::io::stdin().lock().read_to_end(&mut script)?;
    let mut output = std::io::stdout().lock();
    let (mut runner, mut answers) = (Runner::default(), Vec::with_capacity(2 * PIECE));
    for text in lines(&script) {
        runner.run(text, &mut answers);
        if answers.len() >= PIECE {
            output.write_all(&answers)?;
            answers.clear();
        }
    }
    output.write_all(&answers)
}
