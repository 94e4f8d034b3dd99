//! What docs/HANDBOOK.md tells an operator (`operator`), and a host: what is lost where it does otherwise, and how many answers
//! an event can need.

mod operator;
mod rig;

use rig::{bank, fader, settings};
use zelwydro::raw::{self, Report, Session};
use zelwydro::{Answer, Bridge, Call, CallKind, Event, Input, Step, ABSENT};

const PUSHED: Event = Event { time: 0.0, input: Input::Midi(&[0xe0, 0x7f, 0x7f]) };
const MUTE: Event = Event { time: 0.0, input: Input::Midi(&[0x90, 0x10, 0x7f]) };
const BANK_RIGHT: Event = Event { time: 0.0, input: Input::Midi(&[0x90, 0x2f, 0x7f]) };
const ARROW_RIGHT: Event = Event { time: 0.0, input: Input::Midi(&[0x90, 0x63, 0x7f]) };
const TICK: Event = Event { time: 0.5, input: Input::Tick };

/// One try through the function as it is: the safe layer keeps an event to itself until it ends.
fn offer(s: &mut Session, profile: &[u8], event: &Event, answers: &[u8]) -> (Report, [u8; raw::CALL_BYTES]) {
    let (mut messages, mut calls) = ([0; raw::MESSAGE_BYTES], [0; raw::CALL_BYTES]);
    (raw::on_event(s, profile, &event.record(), answers, &mut messages, &mut calls), calls)
}

#[test]
fn an_event_between_a_wait_and_its_end_has_an_answer_taken_for_another() {
    let profile = [settings(0), bank(0, ABSENT), bank(1, ABSENT), fader(0, 1, 3, 7, ABSENT), fader(1, 1, 3, 8, ABSENT)];
    let (profile, mut s) = (profile.concat(), raw::fresh());
    let mut answers = Answer::Done.records();
    let (pushed, _) = offer(&mut s, &profile, &PUSHED, &answers);
    assert_eq!((pushed.kind, pushed.call.kind, pushed.call.name), (raw::WAITING, 1, 7), "it waits for a read of 7");
    // The host runs another event, which it must not, and then goes on with the answer about target 7.
    assert_eq!(offer(&mut s, &profile, &BANK_RIGHT, &[]).0.kind, raw::DONE);
    answers.extend(Answer::Level(1.0).records());
    let (pushed, calls) = offer(&mut s, &profile, &PUSHED, &answers);
    assert_eq!((pushed.kind, pushed.calls, &calls[16..20]), (raw::DONE, 2, &[1, 3, 8, 0][..]), "the answer fits");
    let (tick, calls) = offer(&mut s, &profile, &TICK, &Answer::Done.records());
    assert_eq!((tick.kind, tick.calls, &calls[..4]), (raw::DONE, 1, &[2, 3, 8, 0][..]), "8 is written");
    assert_eq!(calls[8..16], 1f64.to_le_bytes());
}

/// A device of one level, which does what it is told.
fn device(level: &mut f64, call: &Call) -> Answer {
    match call.kind {
        CallKind::Read => return Answer::Level(*level),
        CallKind::Write => *level = call.level,
        _ => {}
    }
    Answer::Done
}

#[test]
fn an_event_that_is_given_up_loses_what_it_had_to_keep() {
    let profile = [settings(1), bank(0, ABSENT), fader(0, 1, 3, 7, ABSENT)].concat();
    let mut level = 0.8;
    let mut bridge = Bridge::new(&profile).expect("a profile");
    // Given up once the 0 is written.
    let mut step = bridge.begin(&MUTE);
    while level != 0.0 {
        let Step::Waiting(waiting) = step else { panic!("it waits") };
        let answer = device(&mut level, waiting.call());
        step = waiting.answer(&answer);
    }
    assert!(matches!(step, Step::Waiting(_)));
    drop(step);
    for _ in 0..2 {
        bridge.run(&MUTE, |call| device(&mut level, call)).expect("it is done");
    }
    assert_eq!(level, 0.0, "the second press handed back what the first read");

    // Brought to its end, by refusals if need be, it keeps the level.
    level = 0.8;
    let mut bridge = Bridge::new(&profile).expect("a profile");
    let mut step = bridge.begin(&MUTE);
    while level != 0.0 {
        let Step::Waiting(waiting) = step else { panic!("it waits") };
        let answer = device(&mut level, waiting.call());
        step = waiting.answer(&answer);
    }
    step.refuse_rest().expect("a refusal fits every call");
    assert_eq!(level, 0.0);
    bridge.run(&MUTE, |call| device(&mut level, call)).expect("it is done");
    assert_eq!(level, 0.8);
}

#[test]
fn a_move_of_which_the_status_was_left_out_is_lost() {
    let profile = [settings(0), bank(0, ABSENT), fader(0, 1, 3, 7, ABSENT)].concat();
    let mut bridge = Bridge::new(&profile).expect("a profile");
    let running = Event { time: 0.0, input: Input::Midi(&[0x7f, 0x7f]) };
    let Step::Done(done) = bridge.begin(&running) else { panic!("it is done") };
    assert!(done.calls.is_empty());
}

/// Each device has 128 scenes, the arrow finds a number still flashing, and nobody is open yet.
#[test]
fn an_arrow_can_need_559_answers() {
    let faders = (0..8).map(|n| fader(0, n + 1, n.into(), 40 + u16::from(n), 60 + u16::from(n)));
    let profile: Vec<u8> = [settings(1), bank(0, 8)].into_iter().chain(faders).flatten().collect();
    let mut bridge = Bridge::new(&profile).expect("a profile");
    let flash = Event { time: 0.0, input: Input::FlashBank };
    assert!(matches!(bridge.begin(&flash), Step::Done(_)));
    let answer = |call: &Call| match call.kind {
        CallKind::Read => Answer::Level(0.5),
        CallKind::CurrentScene => Answer::Index(5),
        CallKind::Scenes => Answer::Names((100..228).collect()),
        _ => Answer::Done,
    };
    let done = bridge.run(&ARROW_RIGHT, answer).expect("it is done");
    assert_eq!(done.used, 559);
    assert_eq!(done.calls.iter().filter(|call| call.kind == CallKind::Scenes).count(), 4);
}
