//! `replay [--dump] FILE`: prints what becomes of each case of a recording. `-` reads the recording from the
//! standard input; `--dump` prints the session's text after each step instead of its hash.

use std::io::{Read, Write};

use oracle::recording::{read, replay, Show};

fn main() -> Result<(), String> {
    let mut show = Show::Hash;
    let mut file = None;
    for argument in std::env::args().skip(1) {
        match argument.as_str() {
            "--dump" => show = Show::Dump,
            other => file = Some(other.to_string()),
        }
    }
    let file = file.ok_or("replay [--dump] FILE (or -)")?;
    let mut bytes = Vec::new();
    if file == "-" {
        std::io::stdin().read_to_end(&mut bytes).map_err(|e| e.to_string())?;
    } else {
        bytes = std::fs::read(&file).map_err(|e| format!("{file}: {e}"))?;
    }
    let mut out = std::io::BufWriter::new(std::io::stdout());
    for case in read(&bytes)? {
        if out.write_all(replay(&case, show).as_bytes()).is_err() {
            break;
        }
    }
    Ok(())
}
