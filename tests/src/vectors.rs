//! The outside vectors: scripts with the answers that they must have.

use crate::computed::Script;
use std::fs;
use std::path::Path;

/// Each vector with its name, in order.
pub fn all() -> Vec<(String, Script)> {
    let folder = Path::new(env!("CARGO_MANIFEST_DIR")).join("vectors");
    let files = fs::read_dir(&folder).expect("the folder of vectors");
    let names = files.map(|file| file.expect("a file").path().with_extension(""));
    let mut names: Vec<_> = names.collect();
    names.sort();
    // A name stands twice: its script and its answers.
    names.dedup();
    let read = |path: &Path| fs::read(path).unwrap_or_else(|e| panic!("{}: {e}", path.display()));
    let vector = |path: &Path| Script {
        orders: read(&path.with_extension("script")),
        answers: read(&path.with_extension("expected")),
    };
    let named = |path: &Path| path.file_name().unwrap_or_default().to_string_lossy().into_owned();
    names.iter().map(|path| (named(path), vector(path))).collect()
}
