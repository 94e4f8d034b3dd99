//! `branches SEEDS`: runs the named cases and SEEDS random cases, and lists the branches of the ported
//! functions that were never taken, and how many were.

use oracle::recording::replay_steps;
use oracle::{counters, generate, named};

fn main() -> Result<(), String> {
    let seeds: u32 = std::env::args().nth(1).and_then(|s| s.parse().ok()).ok_or("branches SEEDS")?;
    counters::take();
    for case in named::all() {
        replay_steps(&case.case);
    }
    let by_name = counters::take().branches;
    for seed in 0..seeds {
        // Making a case runs it.
        generate::case(seed, u64::from(seed));
    }
    let by_chance = counters::take().branches;
    let all = counters::all();
    let missing = |hits: &std::collections::BTreeMap<&'static str, u64>| {
        all.iter().filter(|b| !hits.contains_key(b.as_str())).cloned().collect::<Vec<_>>()
    };
    let (not_named, not_random) = (missing(&by_name), missing(&by_chance));
    println!("{} branches", all.len());
    println!("named cases take {}", all.len() - not_named.len());
    println!("{seeds} random cases take {}", all.len() - not_random.len());
    for branch in &all {
        let (n, r) = (not_named.contains(branch), not_random.contains(branch));
        if n && r {
            println!("never: {branch}");
        } else if n {
            println!("not by named cases: {branch}");
        } else if r {
            println!("not by random cases: {branch}");
        }
    }
    Ok(())
}
