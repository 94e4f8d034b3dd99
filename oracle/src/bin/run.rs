//! `run`: the program of document 01. Reads profile.bin, events.bin and answers.bin in the current directory,
//! the first 65,536 bytes of each; a missing file counts as empty.

use std::io::Write;

fn main() {
    let read = |name: &str| std::fs::read(name).unwrap_or_default();
    let text = oracle::recording::run(&read("profile.bin"), &read("events.bin"), &read("answers.bin"));
    let _ = std::io::stdout().write_all(text.as_bytes());
}
