//! `named OUTFILE` writes all named cases as one recording, id = index; `named --short OUTFILE` leaves out the
//! few that take thousands of steps; `named --list` prints index, number of steps and name of each.

use oracle::named::all;
use oracle::recording::{write, Case};

fn main() -> Result<(), String> {
    let arguments: Vec<String> = std::env::args().skip(1).collect();
    let words: Vec<&str> = arguments.iter().map(String::as_str).collect();
    let (file, short) = match words.as_slice() {
        ["--list"] => {
            for case in all() {
                println!("{} {} {}", case.case.id, case.case.steps.len(), case.name);
            }
            return Ok(());
        }
        ["--short", file] => (*file, true),
        [file] => (*file, false),
        _ => return Err("named OUTFILE, named --short OUTFILE or named --list".into()),
    };
    let cases: Vec<Case> = all().into_iter().filter(|c| !(short && c.long)).map(|c| c.case).collect();
    std::fs::write(file, write(&cases)).map_err(|e| format!("{file}: {e}"))
}
