//! What `replay` prints of the named cases and of the first random cases, as hashes: kept in
//! expected/hashes.txt, so that no change of the oracle goes unseen.

use std::fmt::Write;

use crate::recording::{replay_steps, Case};
use crate::session::fnv1a;
use crate::{generate, named};

/// Seeds 0 up to this are kept.
pub const SEEDS: u32 = 2_000;
/// So many seeds make one line.
pub const SEEDS_A_LINE: u32 = 50;

/// All that `replay --dump` prints of a case but its number, so that a new case moves no other one's hash.
fn printed(case: &Case) -> String {
    replay_steps(case).into_iter().map(|s| s.lines + &s.session).collect()
}

/// The text of expected/hashes.txt, as the oracle stands.
pub fn text() -> String {
    let mut out = String::new();
    for case in named::all() {
        writeln!(out, "{:016x} {}", fnv1a(printed(&case.case).as_bytes()), case.name).unwrap();
    }
    for first in (0..SEEDS).step_by(SEEDS_A_LINE as usize) {
        let last = first + SEEDS_A_LINE - 1;
        let cases = (first..=last).map(|seed| generate::case(seed, u64::from(seed)));
        let all: String = cases.map(|c| printed(&c)).collect();
        writeln!(out, "{:016x} seeds {first} to {last}", fnv1a(all.as_bytes())).unwrap();
    }
    out
}
