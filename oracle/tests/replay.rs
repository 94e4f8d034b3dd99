//! The stored recording of the port's program `replay` is whole, and what it must print is what the oracle's program `replay` prints.

use oracle::recording::{read, replay, write, Show};
use oracle::{catching, stored};

#[test]
fn the_stored_recording_is_whole() {
    let bytes = stored::file("replay", "stdin");
    let cases = read(&bytes).expect("a whole recording");
    assert_eq!(cases.len(), 268);
    assert!(cases.iter().enumerate().all(|(place, case)| case.id as usize == place));
    assert!(write(&cases) == bytes, "the recording is not as it is written");
}

/// A list that is longer than the recording's, or a case that is no longer so, would catch nothing there.
#[test]
fn the_named_cases_stand_at_its_end() {
    let cases = read(&stored::file("replay", "stdin")).expect("a whole recording");
    let named = catching::cases().expect("the names are those of cases");
    for (stored, now) in cases[cases.len() - named.len()..].iter().zip(&named) {
        assert!(stored.profile == now.profile && stored.steps == now.steps, "case {} is not as it is now", stored.id);
    }
}

#[test]
fn the_stored_lines_are_what_the_rust_prints() {
    let cases = read(&stored::file("replay", "stdin")).expect("a whole recording");
    let lines: String = cases.iter().map(|case| replay(case, Show::Hash)).collect();
    stored::holds("replay", &lines);
}
