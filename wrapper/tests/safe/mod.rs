//! The safe functions over the stored recording: what they say must be what the functions as they are say.
//! Both have buffers that are long enough, whatever the recording says. Where the recording's answers end, the event is
//! given up: on both sides nothing has changed.

use crate::call_at;
use oracle::recording::{self, read, Case, Kind};
use oracle::stored;
use zelwydro::raw::{self, Session};
use zelwydro::{Answer, Bridge, Call, CallKind, Done, Event, Input, LiveFader, Refused, Step};

/// By the numbers of document 01.
const KINDS: [CallKind; 10] = [
    CallKind::Open,
    CallKind::Read,
    CallKind::Write,
    CallKind::Toggle,
    CallKind::Command,
    CallKind::Playing,
    CallKind::Scenes,
    CallKind::CurrentScene,
    CallKind::Load,
    CallKind::LiveFaders,
];

fn call(c: raw::Call) -> Call {
    let kind = KINDS[usize::from(c.kind)];
    Call { kind, driver: c.driver, name: c.name, argument: c.argument, level: f64::from_bits(c.level) }
}

/// The event of a record. One that is none changes nothing, and cannot be said to the safe functions.
fn event(record: &[u8]) -> Option<Event<'_>> {
    let (kind, length, time) = (*record.first()?, usize::from(*record.get(1)?), record.get(8..16)?);
    let input = match (kind, length) {
        (1, 0..=3) => Input::Midi(&record[2..2 + length]),
        (2, 0..=3) => Input::Tick,
        (3, 0..=3) => Input::PushState,
        (4, 0..=3) => Input::PushTransport,
        (5, 0..=3) => Input::FlashBank,
        _ => return None,
    };
    Some(Event { time: f64::from_le_bytes(time.try_into().expect("eight bytes")), input })
}

/// What the function as it is says to an event, as the text of what the safe ones say; a level may be NaN.
fn outcome(s: &mut Session, profile: &[u8], step: &recording::Step) -> String {
    let (mut messages, mut calls) = ([0; raw::MESSAGE_BYTES], [0; raw::CALL_BYTES]);
    let r = raw::on_event(s, profile, &step.record, &step.answers, &mut messages, &mut calls);
    let done = || Done {
        messages: messages[..3 * r.messages].chunks(3).map(|m| [m[0], m[1], m[2]]).collect(),
        calls: calls[..16 * r.calls].chunks(16).map(|c| call(call_at(c))).collect(),
        used: r.used,
        saved: r.saved,
    };
    match r.kind {
        raw::DONE => format!("{:?}", done()),
        raw::REFUSED => format!("{:?}", Refused(r.number)),
        _ => format!("{:?}", call(r.call)),
    }
}

/// The first answer, in the words that fit the call if it is a list, and the records that it has.
fn answer(kind: CallKind, records: &[u8]) -> Option<(Answer, usize)> {
    let r = records.get(..16)?;
    let half = |r: &[u8], at: usize| u16::from_le_bytes([r[at], r[at + 1]]);
    let one = match (r[0], r[1]) {
        (0, _) => Answer::Refused,
        (1, _) => Answer::Done,
        (2, _) => Answer::Level(f64::from_le_bytes(r[8..16].try_into().expect("eight bytes"))),
        (3, _) => Answer::Nothing,
        (4, yes @ 0..=1) => Answer::YesNo(yes == 1),
        (5, _) => Answer::Index(u32::from_le_bytes(r[4..8].try_into().expect("four bytes"))),
        (6, _) => {
            let count = usize::from(half(r, 2));
            let items: Vec<&[u8]> = records.get(16..16 + 16 * count)?.chunks(16).collect();
            let whole = items.iter().all(|item| item[0] == 7);
            let fader = |i: &&[u8]| LiveFader {
                number: i[1],
                target: half(i, 2),
                label: half(i, 4),
                group: half(i, 6),
                mute: half(i, 8),
            };
            let list = match kind {
                CallKind::LiveFaders => Answer::Faders(items.iter().map(fader).collect()),
                _ => Answer::Names(items.iter().map(|item| half(item, 2)).collect()),
            };
            return whole.then_some((list, 1 + count));
        }
        _ => return None,
    };
    Some((one, 1))
}

/// The event with the recording's answers one by one, as far as they go. None where one of them is what no `Answer`
/// says: it is cut short or fits no call.
fn answered<'b>(bridge: &'b mut Bridge, event: &Event, mut answers: &[u8]) -> Option<Step<'b>> {
    let mut step = bridge.begin(event);
    while !answers.is_empty() {
        let Step::Waiting(waiting) = step else { break };
        let (given, count) = answer(waiting.call().kind, answers)?;
        answers = &answers[16 * count..];
        step = waiting.answer(&given);
    }
    Some(step)
}

/// What the safe functions say to an event.
fn safe_outcome(bridge: &mut Bridge, event: &Event, answers: &[u8]) -> String {
    match answered(bridge, event, answers) {
        Some(Step::Done(done)) => format!("{done:?}"),
        Some(Step::Refused(refused)) => format!("{refused:?}"),
        Some(Step::Waiting(waiting)) => format!("{:?}", waiting.call()),
        None => format!("{:?}", Refused(14)),
    }
}

/// Wherever an event waits, refusals bring it to its end.
fn can_be_ended(mut bridge: Bridge, event: &Event, answers: &[u8]) {
    if let Some(Step::Waiting(waiting)) = answered(&mut bridge, event, answers) {
        let done = waiting.refuse_rest().expect("a refusal fits every call");
        assert!(done.calls.len() <= 337);
    }
}

/// Takes the step on both sides.
fn same_step(bridge: &mut Bridge, s: &mut Session, profile: &[u8], step: &recording::Step) {
    if step.kind == Kind::Restore {
        let restored = raw::restore(s, profile, &step.record);
        *s = restored.session;
        assert_eq!(bridge.restore(&step.record).map_or_else(|refused| refused.0, |()| 0), restored.why);
    } else if let Some(event) = event(&step.record) {
        can_be_ended(bridge.clone(), &event, &[]);
        can_be_ended(bridge.clone(), &event, &step.answers);
        assert_eq!(safe_outcome(bridge, &event, &step.answers), outcome(s, profile, step));
    }
    let mut out = [0; raw::SAVED_BYTES];
    let saved = raw::save(s, profile, &mut out);
    assert_eq!(bridge.saved(), &out[..8 * saved.count]);
}

fn same_case(case: &Case) {
    let why = raw::examine(&case.profile);
    match Bridge::new(&case.profile) {
        Err(refused) => assert_eq!(refused.0, why, "case {}", case.id),
        Ok(mut bridge) => {
            assert_eq!(why, 0, "case {}", case.id);
            let mut s = raw::fresh();
            for step in &case.steps {
                same_step(&mut bridge, &mut s, &case.profile, step);
            }
        }
    }
}

#[test]
fn the_safe_functions_say_what_the_exported_ones_say() {
    let cases = read(&stored::file("replay", "stdin")).expect("a whole recording");
    cases.iter().for_each(same_case);
}
