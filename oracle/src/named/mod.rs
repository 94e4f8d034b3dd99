//! Named cases: each has a name, a case and an expectation written from document 01 (see `expect`).
//!
//! Cases marked long take thousands of steps; `named --short` leaves them out of its recording.

use crate::cases::{self, Record};
use crate::recording::{Case, Step};

mod answers;
mod faders;
mod flash;
mod live;
mod most;
mod mutes;
mod profiles;
mod scenes;
mod steps;
mod transport;

pub struct Named {
    pub name: String,
    pub case: Case,
    pub expects: String,
    /// Thousands of steps.
    pub long: bool,
}

/// The cases written so far; the index of a case is its id.
#[derive(Default)]
pub struct All {
    pub cases: Vec<Named>,
}

impl All {
    fn add(&mut self, name: &str, profile: &[Record], steps: Vec<Step>, expects: &str) {
        self.put(name, cases::file(profile), steps, expects);
    }

    fn put(&mut self, name: &str, profile: Vec<u8>, steps: Vec<Step>, expects: &str) {
        let id = self.cases.len() as u32;
        let case = Case { id, profile, steps };
        self.cases.push(Named { name: name.into(), case, expects: expects.into(), long: false });
    }

    /// The case added last takes thousands of steps.
    fn long(&mut self) {
        self.cases.last_mut().expect("a case was added").long = true;
    }
}

/// All named cases, the long ones last.
pub fn all() -> Vec<Named> {
    let mut all = All::default();
    faders::add(&mut all);
    mutes::add(&mut all);
    scenes::add(&mut all);
    flash::add(&mut all);
    live::add(&mut all);
    transport::add(&mut all);
    steps::add(&mut all);
    answers::add(&mut all);
    profiles::add(&mut all);
    // Behind the families of which the program `recorded` takes every tenth, so that those keep their places.
    scenes::add_restored(&mut all);
    profiles::add_edges(&mut all);
    most::add(&mut all);
    scenes::add_drivers(&mut all);
    steps::add_long(&mut all);
    all.cases
}
