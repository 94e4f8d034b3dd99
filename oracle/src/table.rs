//! Named cases as a table of antt, for the definition of an event to be computed on (crates/recorded/specs/Table.antt).
//! Taken are the cases with an accepted profile of at most 12 records and 1 to 8 steps, all of them events with room in both buffers; of the
//! families that try one field or one answer after the other only every tenth.

use std::fmt::Write;

use crate::line::Call;
use crate::named::{all, Named};
use crate::recording::Kind;
use crate::records;
use crate::session::{Outcome, Session};

const HEAD: &str = "\
-- Named cases of the Rust, as its oracle ran them: written by the oracle's program `recorded`. Data only.
use Rattle.std.specs.Prelude.{List, [], ◌∷◌}
use Rattle.recorded.specs.Recorded.{Recording, recording, offer}

abbrev pub recordings : List Recording
recordings =
";

/// A list of numbers.
fn list(numbers: impl IntoIterator<Item = u64>) -> String {
    let mut text: String = numbers.into_iter().map(|n| format!("{n} ∷ ")).collect();
    text.push_str("[]");
    format!("({text})")
}

fn bytes(b: &[u8]) -> String {
    list(b.iter().map(|&x| u64::from(x)))
}

fn call(c: &Call) -> Vec<u64> {
    let b = c.bytes();
    let level = u64::from_le_bytes(b[8..].try_into().unwrap());
    vec![c.kind.into(), c.driver.into(), c.name.into(), c.argument.into(), level]
}

/// How an event ended, as the numbers that crates/recorded/specs/Recorded.antt makes of an end.
fn ended(outcome: &Outcome) -> Vec<u64> {
    match outcome {
        Outcome::Done { messages, calls, used, saved } => {
            let mut all = vec![1, *used as u64, u64::from(saved.is_some()), messages.len() as u64];
            all.extend(messages.iter().flatten().map(|&x| u64::from(x)));
            all.extend(calls.iter().flat_map(call));
            all
        }
        Outcome::Refused(number) => vec![2, u64::from(*number)],
        Outcome::Waiting(c) => [vec![3], call(c)].concat(),
    }
}

fn fits(named: &Named) -> bool {
    let case = &named.case;
    let family = named.name.starts_with("field") || named.name.starts_with("answer");
    records::load(&case.profile).is_ok()
        && case.profile.len() <= 12 * 32
        && (1..=8).contains(&case.steps.len())
        && case.steps.iter().all(|s| s.kind == Kind::Event && s.message_room >= 306 && s.call_room >= 5392)
        && (!family || case.id % 10 == 0)
}

/// The table's text, as the oracle stands.
pub fn text() -> String {
    let mut out = String::from(HEAD);
    for named in all().iter().filter(|n| fits(n)) {
        let case = &named.case;
        let loaded = records::load(&case.profile).expect("an accepted profile");
        let mut session = Session::new(&loaded);
        writeln!(out, "    -- {}", named.name).unwrap();
        writeln!(out, "    recording {}\n    (", bytes(&case.profile)).unwrap();
        for step in &case.steps {
            let rooms = (step.message_room as usize, step.call_room as usize);
            let outcome = session.step(&step.record, &step.answers, rooms.0, rooms.1);
            let [event, answers] = [&step.record, &step.answers].map(|b| bytes(b));
            writeln!(out, "      offer {event} {answers} {}\n      ∷", list(ended(&outcome))).unwrap();
        }
        writeln!(out, "      [])\n    ∷").unwrap();
    }
    out.push_str("    []\n");
    out
}
