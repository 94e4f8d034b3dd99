//! Document 01's example and what else a host meets, through the safe functions.

use zelwydro::{Answer, Bridge, Call, CallKind, Done, Event, Input, Refused, Step, Waiting, ABSENT};

type Record = [u8; 32];

fn record(fields: &[(usize, &[u8])]) -> Record {
    let mut record = [0; 32];
    for (at, bytes) in fields {
        record[*at..at + bytes.len()].copy_from_slice(bytes);
    }
    record
}

fn settings(remember: u8) -> Record {
    record(&[(0, &[0, 0, 1, remember])])
}

/// A bank without driver, live list or button actions.
fn bank(number: u8, name: u16) -> Record {
    record(&[(0, &[1, number]), (4, &name.to_le_bytes()), (6, &[0xff; 4])])
}

/// Fader 1 of bank 0 on driver 3, target 7, no mute, takeover, 0 to 1.
fn fader() -> Record {
    record(&[(0, &[2, 0, 1, 1, 3, 0, 7, 0, 8, 0, 9, 0]), (12, &ABSENT.to_le_bytes()), (24, &1f64.to_le_bytes())])
}

fn example() -> Bridge {
    Bridge::new(&[settings(0), bank(0, 2), fader()].concat()).expect("the example's profile")
}

const PUSHED: Event = Event { time: 0.0, input: Input::Midi(&[0xE0, 0x7F, 0x7F]) };
const TICK: Event = Event { time: 0.5, input: Input::Tick };

fn call(kind: CallKind, level: f64) -> Call {
    Call { kind, driver: 3, name: 7, argument: 0, level }
}

/// What becomes of the fader's push and of the tick behind it.
fn expected() -> [Done; 2] {
    let calls = vec![call(CallKind::Open, 0.0), call(CallKind::Read, 0.0)];
    let pushed = Done { messages: vec![], calls, used: 2, saved: false };
    let calls = vec![call(CallKind::Write, 1.0)];
    [pushed, Done { messages: vec![[0xE0, 0x7F, 0x7F]], calls, used: 1, saved: false }]
}

/// Ready at once, at 1.0, and takes what is written.
fn device(call: &Call) -> Answer {
    match call.kind {
        CallKind::Read => Answer::Level(1.0),
        _ => Answer::Done,
    }
}

#[test]
fn the_example_runs_with_devices() {
    let mut bridge = example();
    let mut made = Vec::new();
    for (event, done) in [PUSHED, TICK].iter().zip(expected()) {
        made.clear();
        let outcome = bridge.run(event, |call| {
            made.push(*call);
            device(call)
        });
        assert_eq!(made, done.calls, "each call is made once, in order");
        assert_eq!(outcome, Ok(done));
    }
}

/// The event that still waits.
fn waits(step: Step<'_>) -> Waiting<'_> {
    match step {
        Step::Waiting(waiting) => waiting,
        ended => panic!("it has ended: {ended:?}"),
    }
}

/// What the event did that is done.
fn done(step: Step<'_>) -> Done {
    match step {
        Step::Done(done) => done,
        other => panic!("it is not done: {other:?}"),
    }
}

#[test]
fn the_example_runs_answer_by_answer() {
    let mut bridge = example();
    let [pushed, tick] = expected();
    let waiting = waits(bridge.begin(&PUSHED));
    assert_eq!(*waiting.call(), call(CallKind::Open, 0.0));
    let waiting = waits(waiting.answer(&Answer::Done));
    assert_eq!(*waiting.call(), call(CallKind::Read, 0.0));
    assert_eq!(done(waiting.answer(&Answer::Level(1.0))), pushed);
    let waiting = waits(bridge.begin(&TICK));
    assert_eq!(*waiting.call(), call(CallKind::Write, 1.0));
    assert_eq!(done(waiting.answer(&Answer::Done)), tick);
}

#[test]
fn an_event_that_is_dropped_leaves_the_bridge_as_it_was() {
    let mut bridge = example();
    // The open is asked for again after the wait for the read: the session has kept nothing of it.
    for _ in 0..2 {
        let waiting = waits(bridge.begin(&PUSHED));
        assert_eq!(waiting.call().kind, CallKind::Open);
        assert_eq!(waits(waiting.answer(&Answer::Done)).call().kind, CallKind::Read);
    }
    let [pushed, _] = expected();
    assert_eq!(bridge.run(&PUSHED, device), Ok(pushed));
}

#[test]
fn an_event_ends_where_its_further_calls_are_refused() {
    let mut bridge = example();
    let waiting = waits(bridge.begin(&PUSHED));
    let ended = waits(waiting.answer(&Answer::Done)).refuse_rest();
    // The fader takes a device over that cannot be read.
    assert_eq!(ended, Ok(expected()[0].clone()));
    // The driver is open: the write is the tick's only call.
    let ended = bridge.begin(&TICK).refuse_rest().expect("it is done");
    assert_eq!(ended.calls, [call(CallKind::Write, 1.0)]);
    // What has ended stays so.
    assert_eq!(bridge.begin(&TICK).refuse_rest().map(|done| done.calls), Ok(vec![]));
}

#[test]
fn a_refused_profile_makes_no_bridge() {
    let refused = |profile: &[u8]| Bridge::new(profile).map(|_| ()).expect_err("no profile");
    assert_eq!(refused(&[]), Refused(1));
    assert_eq!(refused(&settings(2)), Refused(2));
    assert_eq!(refused(&bank(0, 2)), Refused(3));
    assert_eq!(refused(&settings(0)), Refused(4));
    let told = refused(&settings(0)).to_string();
    assert_eq!(told, "refused (4): the profile has no bank: add one");
}

#[test]
fn an_event_that_is_none_and_an_answer_that_does_not_fit_are_refused() {
    let mut bridge = example();
    let long = Event { time: 0.0, input: Input::Midi(&[0xF0, 0, 0, 0xF7]) };
    assert!(matches!(bridge.begin(&long), Step::Refused(Refused(10))));
    let mut made = 0;
    let outcome = bridge.run(&PUSHED, |_| {
        made += 1;
        Answer::YesNo(true)
    });
    assert_eq!((outcome, made), (Err(Refused(14)), 1));
    assert_eq!(bridge.run(&PUSHED, device), Ok(expected()[0].clone()));
}

#[test]
fn what_was_saved_is_restored() {
    let mut bridge = Bridge::new(&[settings(1), bank(0, 2), bank(1, 5)].concat()).expect("a profile");
    let device = |name: u8| [1, 0, name, 0, 0, 0, 0, 0];
    assert_eq!(bridge.saved(), device(2));
    let saved = [device(5), [2, 0, 2, 0, 4, 0, 0, 0]].concat();
    assert_eq!(bridge.restore(&saved), Ok(()));
    assert_eq!(bridge.saved(), saved);
    assert_eq!(bridge.restore(&saved[1..]), Err(Refused(7)));
    assert_eq!(bridge.saved(), saved);
}
