//! How often each branch of the ported functions was passed.
//!
//! The marks `branch!("...")` and `took!("...", condition)` stand in bridge.rs and protocol.rs; `all` reads
//! their names out of those two files, so that a branch that is never passed is listed too.

use std::cell::RefCell;
use std::collections::BTreeMap;

thread_local! {
    static HITS: RefCell<Hits> = RefCell::new(Hits::default());
}

/// Counts by branch, and by pair of branches passed one after the other: pairs tell paths apart that pass the
/// same branches.
#[derive(Default, Clone)]
pub struct Hits {
    pub branches: BTreeMap<&'static str, u64>,
    pub pairs: BTreeMap<(&'static str, &'static str), u64>,
    last: Option<&'static str>,
}

pub fn hit(name: &'static str) {
    HITS.with(|h| {
        let mut h = h.borrow_mut();
        *h.branches.entry(name).or_default() += 1;
        if let Some(last) = h.last {
            *h.pairs.entry((last, name)).or_default() += 1;
        }
        h.last = Some(name);
    });
}

/// What can be counted by its two answers: yes is true, `Some` or `Ok`.
pub trait Answers {
    fn yes(&self) -> bool;
}

impl Answers for bool {
    fn yes(&self) -> bool {
        *self
    }
}

impl<T> Answers for Option<T> {
    fn yes(&self) -> bool {
        self.is_some()
    }
}

impl<T, E> Answers for Result<T, E> {
    fn yes(&self) -> bool {
        self.is_ok()
    }
}

/// Counts the answer and hands it on.
pub fn took<T: Answers>(yes: &'static str, no: &'static str, answer: T) -> T {
    hit(if answer.yes() { yes } else { no });
    answer
}

/// Hands over what was counted on this thread and starts again from nothing.
pub fn take() -> Hits {
    HITS.with(|h| std::mem::take(&mut *h.borrow_mut()))
}

/// The name of every mark, in the order of the files.
pub fn all() -> Vec<String> {
    let mut names = Vec::new();
    for text in [include_str!("protocol.rs"), include_str!("bridge.rs")] {
        let mut rest = text;
        loop {
            let (mark, both) = match (rest.find("branch!(\""), rest.find("took!(\"")) {
                (None, None) => break,
                (Some(b), Some(t)) if b < t => (b + "branch!(\"".len(), false),
                (Some(b), None) => (b + "branch!(\"".len(), false),
                (_, Some(t)) => (t + "took!(\"".len(), true),
            };
            rest = &rest[mark..];
            let name = &rest[..rest.find('"').expect("a mark's name ends")];
            if both {
                names.push(format!("{name}: yes"));
                names.push(format!("{name}: no"));
            } else {
                names.push(name.to_string());
            }
        }
    }
    names
}
