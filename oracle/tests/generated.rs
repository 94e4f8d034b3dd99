//! What must hold of every case, tried on random ones.

use oracle::line::Call;
use oracle::recording::{read, replay_steps, write, Case, Kind};
use oracle::session::{Outcome, Session, CALL_ROOM, MESSAGE_ROOM};
use oracle::{counters, generate, hashes, protocol, records};

const SEEDS: u32 = 1_500;

/// Walks through a case; `look` sees the session before each event, the event and its outcome.
fn walk(case: &Case, mut look: impl FnMut(&Case, usize, &str, &Outcome, &str)) {
    let Ok(loaded) = records::load(&case.profile) else { return };
    let mut session = Session::new(&loaded);
    for (n, step) in case.steps.iter().enumerate() {
        let before = session.text();
        if step.kind == Kind::Restore {
            let _ = session.restore(&step.record);
            continue;
        }
        let (messages, calls) = (step.message_room as usize, step.call_room as usize);
        let outcome = session.step(&step.record, &step.answers, messages, calls);
        look(case, n, &before, &outcome, &session.text());
    }
}

/// A session brought to where a case stands before its step `n`.
fn before(case: &Case, n: usize) -> Session {
    let mut session = Session::new(&records::load(&case.profile).expect("an accepted profile"));
    for step in &case.steps[..n] {
        match step.kind {
            Kind::Event => {
                let (messages, calls) = (step.message_room as usize, step.call_room as usize);
                session.step(&step.record, &step.answers, messages, calls);
            }
            Kind::Restore => drop(session.restore(&step.record)),
        }
    }
    session
}

#[test]
fn the_recorded_hashes() {
    let expected = include_str!("../expected/hashes.txt");
    let text = hashes::text();
    let differ: Vec<&str> = text.lines().zip(expected.lines()).filter(|(a, b)| a != b).map(|(a, _)| a).collect();
    assert!(differ.is_empty(), "{} differ, the first: {}", differ.len(), differ[0]);
    assert_eq!(text.lines().count(), expected.lines().count());
}

#[test]
fn a_recording_reads_back() {
    let cases: Vec<Case> = generate::cases(7, 200).collect();
    assert_eq!(read(&write(&cases)).unwrap(), cases);
    assert!(read(&write(&cases)[..1000]).is_err());
}

#[test]
fn a_refused_or_waiting_event_changes_nothing() {
    for case in generate::cases(10_000, SEEDS) {
        walk(&case, |_, n, before, outcome, after| match outcome {
            Outcome::Done { messages, calls, used, .. } => {
                assert!(messages.len() <= 102 && calls.len() <= 337, "step {n}");
                assert!(*used >= calls.len(), "step {n}: each call takes an answer");
            }
            _ => assert_eq!(before, after, "step {n}"),
        });
    }
}

/// As the host does it: the event is offered with no answer, then again with one call's answer more, until it
/// is finished. Each time it waits for the next of its calls.
#[test]
fn one_answer_at_a_time_comes_to_the_same() {
    for case in generate::cases(20_000, 150) {
        walk(&case, |case, n, _, outcome, after| {
            let Outcome::Done { calls, .. } = outcome else { return };
            if calls.len() > 24 {
                return;
            }
            let step = &case.steps[n];
            let mut session = before(case, n);
            let mut at = 0;
            for call in calls {
                let waits = session.step(&step.record, &step.answers[..at], MESSAGE_ROOM, CALL_ROOM);
                // As text: a NaN level equals no other.
                assert_eq!(format!("{waits:?}"), format!("{:?}", Outcome::Waiting(*call)));
                at += 16 * taken(call, &step.answers[at..]);
            }
            let ends = session.step(&step.record, &step.answers[..at], MESSAGE_ROOM, CALL_ROOM);
            assert_eq!(format!("{ends:?}"), format!("{outcome:?}"));
            assert_eq!(session.text(), *after);
        });
    }
}

/// How many records the call's answer takes.
fn taken(call: &Call, answers: &[u8]) -> usize {
    match oracle::line::find(call.kind, answers) {
        oracle::line::Found::Fits(_, records) => records,
        other => panic!("{other:?}"),
    }
}

#[test]
fn every_raw_position_comes_back() {
    for raw in 0..=16383u16 {
        let message = [0xE5, (raw & 0x7F) as u8, (raw >> 7) as u8];
        let Some(protocol::Event::Fader { channel, value }) = protocol::decode(&message) else { panic!("{raw}") };
        assert_eq!(protocol::fader_position(channel, value).bytes(), message);
    }
}

#[test]
fn every_branch_has_its_own_name() {
    let mut all = counters::all();
    let count = all.len();
    all.sort_unstable();
    all.dedup();
    assert_eq!(all.len(), count);
    assert!(count > 300);
}

#[test]
fn the_same_seed_gives_the_same_case() {
    let one = generate::case(0, 42);
    assert_eq!(one, generate::case(0, 42));
    assert_eq!(replay_steps(&one), replay_steps(&one));
    assert_ne!(one, generate::case(0, 43));
}
