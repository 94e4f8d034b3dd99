//! `choose SEED COUNT N OUTFILE`: picks about N of the COUNT random cases from SEED on, so that few and small
//! cases pass every branch, how often an event passes it, every pair of branches passed one after the other,
//! and every outcome; writes them as one recording, with the named cases of `catching` behind them. These are among
//! the N, and the recording has room for them.
//!
//! The choice is greedy: always the case that shows most that is new for its size, without the steps behind
//! the last one that shows something new. When nothing is new any more, everything counts as new once again,
//! until there are N cases or the recording is full.

use std::collections::{BinaryHeap, HashMap, HashSet};

use oracle::recording::{write, Case, Kind};
use oracle::session::{Outcome, Session};
use oracle::{catching, counters, generate, records};

/// The recording stays below this.
const FULL: usize = 590_000;

/// What a case shows: things as numbers, each with the first step that shows it.
struct Seen {
    seed: u64,
    shows: Vec<(u32, usize)>,
    /// The size of the case cut behind each step; a case without steps has one size too.
    sizes: Vec<usize>,
}

/// A count by its size: once, twice, a few, many.
fn bucket(count: u64) -> u32 {
    match count {
        1 => 1,
        2 => 2,
        3..=7 => 3,
        8..=31 => 4,
        _ => 5,
    }
}

/// The names of what each step shows; a refused profile is shown by a step that is not there.
fn shows(case: &Case) -> Vec<Vec<String>> {
    let loaded = match records::load(&case.profile) {
        Ok(loaded) => loaded,
        Err(number) => return vec![vec![format!("profile refused {number}")]],
    };
    let mut session = Session::new(&loaded);
    let mut all = Vec::new();
    for step in &case.steps {
        counters::take();
        let outcome = match step.kind {
            Kind::Event => {
                let room = (step.message_room as usize, step.call_room as usize);
                match session.step(&step.record, &step.answers, room.0, room.1) {
                    Outcome::Done { saved, .. } => format!("event done {}", saved.is_some()),
                    Outcome::Refused(number) => format!("event refused {number}"),
                    Outcome::Waiting(call) => format!("event waiting {}", call.kind),
                }
            }
            Kind::Restore => format!("restore {:?}", session.restore(&step.record)),
        };
        let hits = counters::take();
        // A step that does not finish passes branches too, but shows nothing of them.
        let finished = outcome.starts_with("event done") || outcome.starts_with("restore Ok");
        let mut names = vec![outcome];
        if finished {
            names.extend(hits.branches.iter().map(|(b, &n)| format!("{b} {}", bucket(n))));
            names.extend(hits.pairs.keys().map(|(a, b)| format!("{a} > {b}")));
        }
        all.push(names);
    }
    all
}

/// The case cut behind its first `steps` steps.
fn cut(mut case: Case, steps: usize) -> Case {
    case.steps.truncate(steps);
    case
}

fn main() -> Result<(), String> {
    let arguments: Vec<String> = std::env::args().skip(1).collect();
    let [seed, count, most, file] = arguments.as_slice() else { return Err("choose SEED COUNT N OUTFILE".into()) };
    let number = |s: &String| s.parse::<u64>().map_err(|_| format!("{s} is no number"));
    let (seed, count, most) = (number(seed)?, number(count)?, number(most)? as usize);
    let mut numbers: HashMap<String, u32> = HashMap::new();
    let mut seen: Vec<Seen> = Vec::new();
    for seed in seed..seed + count {
        let case = generate::case(0, seed);
        let mut first: HashMap<u32, usize> = HashMap::new();
        for (step, names) in shows(&case).into_iter().enumerate() {
            for name in names {
                let next = numbers.len() as u32;
                let number = *numbers.entry(name).or_insert(next);
                first.entry(number).or_insert(step);
            }
        }
        let mut sizes = vec![cut(case.clone(), 0).bytes().len()];
        for step in &case.steps {
            sizes.push(sizes.last().unwrap() + 17 + step.record.len() + step.answers.len());
        }
        seen.push(Seen { seed, shows: first.into_iter().collect(), sizes });
    }
    let named = catching::cases()?;
    let most = most.saturating_sub(named.len());
    let mut chosen: Vec<(u64, usize)> = Vec::new();
    let mut taken: HashSet<usize> = HashSet::new();
    let mut size = write(&named).len();
    let mut rounds = 0;
    while chosen.len() < most {
        rounds += 1;
        let before = chosen.len();
        let mut full = false;
        let mut covered = vec![false; numbers.len()];
        // How much is new, and how many steps show it.
        let new = |s: &Seen, covered: &[bool]| {
            let fresh = s.shows.iter().filter(|(f, _)| !covered[*f as usize]);
            fresh.fold((0, 0), |(count, last), &(_, step)| (count + 1, last.max(step + 1)))
        };
        let length = |s: &Seen, steps: usize| s.sizes[steps.min(s.sizes.len() - 1)];
        let score = |count: usize, bytes: usize| (count * 1_000_000 / (bytes + 300)) as u64;
        let mut heap: BinaryHeap<(u64, usize)> =
            (0..seen.len()).filter(|i| !taken.contains(i)).map(|i| (u64::MAX, i)).collect();
        while chosen.len() < most {
            let Some((old, i)) = heap.pop() else { break };
            let s = &seen[i];
            let (count, steps) = new(s, &covered);
            let bytes = length(s, steps);
            let now = score(count, bytes);
            if count == 0 {
                continue;
            }
            if size + bytes > FULL {
                full = true;
                continue;
            }
            if now < old {
                heap.push((now, i));
                continue;
            }
            for &(f, step) in &s.shows {
                if step < steps {
                    covered[f as usize] = true;
                }
            }
            size += bytes;
            taken.insert(i);
            chosen.push((s.seed, steps));
        }
        let shown = covered.iter().filter(|c| **c).count();
        println!("round {rounds}: {} cases show {shown} of {}", chosen.len() - before, numbers.len());
        // A round more would only find the smallest cases a place.
        if full || chosen.len() == before {
            break;
        }
    }
    chosen.sort_unstable();
    let chosen = chosen.iter().map(|&(seed, steps)| cut(generate::case(0, seed), steps));
    let mut cases: Vec<Case> = chosen.chain(named).collect();
    // By its place and not by its seed or index, so that no two cases have the same.
    for (id, case) in cases.iter_mut().enumerate() {
        case.id = id as u32;
    }
    std::fs::write(file, write(&cases)).map_err(|e| format!("{file}: {e}"))?;
    println!("{} cases, {size} bytes", cases.len());
    counters::take();
    cases.iter().for_each(|c| drop(oracle::recording::replay_steps(c)));
    let hits = counters::take().branches;
    println!("{} of {} branches", hits.len(), counters::all().len());
    Ok(())
}
