//! `hashes`: prints what expected/hashes.txt must hold. After a wanted change of the oracle:
//! `cargo run --offline --bin hashes > expected/hashes.txt`.

fn main() {
    print!("{}", oracle::hashes::text());
}
