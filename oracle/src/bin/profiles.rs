//! `profiles cases FILE` writes the list of profiles that the port's program `profiles` reads; `profiles expected FILE` prints what the Rust says to
//! such a list. After a change of the named cases, in this directory:
//! `cargo run --offline --bin profiles -- cases ../crates/profiles/stdin` and
//! `cargo run --offline --bin profiles -- expected ../crates/profiles/stdin > ../crates/profiles/stdout`.

use oracle::examined::{all, expected, read, write};

fn main() -> Result<(), String> {
    oracle::stored::write("profiles", || write(&all()), |list| Ok(expected(&read(list)?)))
}
