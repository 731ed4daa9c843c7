//! Runs scripts through the proved program, `replay`.

use std::io::Write;
use std::path::{Path, PathBuf};
use std::process::{Command, Stdio};
use std::thread;

/// Where `rt` puts the program.
pub fn program() -> PathBuf {
    Path::new(env!("CARGO_MANIFEST_DIR")).with_file_name("crates/replay/out/replay")
}

/// The answers to a script. A program that ends badly says so in a last line,
/// so that it is a difference like any other.
pub fn run(script: &[u8]) -> Vec<u8> {
    let program = program();
    let mut child = Command::new(&program)
        .stdin(Stdio::piped())
        .stdout(Stdio::piped())
        .spawn()
        .unwrap_or_else(|error| panic!("{}: {error}; `make run` makes it", program.display()));
    let mut input = child.stdin.take().expect("a pipe");
    let output = thread::scope(|scope| {
        // If it ends before the script does, its answers are too few: no need to fail here.
        scope.spawn(move || input.write_all(script));
        child.wait_with_output().expect("the answers of replay")
    });
    let mut answers = output.stdout;
    if !output.status.success() {
        answers.extend(format!("{}\n", output.status).bytes());
    }
    answers
}
