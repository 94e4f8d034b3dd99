//! `records cases FILE` writes the list of answers and restores that the port's program `records` reads; `records expected FILE` prints what the Rust
//! says to such a list. After a change of the cases, in this directory:
//! `cargo run --offline --bin records -- cases ../crates/records/stdin` and
//! `cargo run --offline --bin records -- expected ../crates/records/stdin > ../crates/records/stdout`.

use oracle::primitives::{all, expected, read, write};

fn main() -> Result<(), String> {
    oracle::stored::write("records", || write(&all()), |list| Ok(expected(&read(list)?)))
}
