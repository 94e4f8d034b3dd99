//! An event from its beginning to its end.
//!
//! The core has no memory of an event that waits: it is offered again with one answer more. So the record and the
//! answers so far are kept here, together with the bridge itself, which nobody else can have meanwhile.

use crate::raw;
use crate::{Answer, Bridge, Call, Refused};

/// How far an event is.
#[must_use = "an event that waits is to be ended"]
#[derive(Debug)]
pub enum Step<'b> {
    /// It has ended, and the bridge has changed.
    Done(Done),
    /// It has ended, and the bridge is as it was before. Of a refusal with 14 the devices keep what the calls did that
    /// were answered before.
    Refused(Refused),
    /// It goes on once its call is answered.
    Waiting(Waiting<'b>),
}

/// What a finished event did.
#[derive(Debug, Clone, PartialEq)]
pub struct Done {
    /// To be sent to the surface, in order, before the next event begins.
    pub messages: Vec<[u8; 3]>,
    /// What was asked of the devices, in order. All of it was answered: it is there to be looked at.
    pub calls: Vec<Call>,
    /// How many answer records of 16 bytes were used, list items included.
    pub used: usize,
    /// Whether [`Bridge::saved`] is to be kept now.
    pub saved: bool,
}

/// An event that waits for the answer to a call. It borrows the bridge until its end.
///
/// **It is to be ended**, by [`answer`](Waiting::answer) or [`refuse_rest`](Waiting::refuse_rest). Dropped before, it is
/// given up: the bridge is as if the event had not come, but the calls that were made cannot be taken back, and what the
/// event had to keep of them is lost. A mute of a device that has none of its own, given up once it has written 0, never
/// gives its level back (docs/HANDBOOK.md, "One event at a time, until it ends"). Before the first call is made, nothing
/// is lost but the event.
#[must_use = "an event that waits is to be ended"]
#[derive(Debug)]
pub struct Waiting<'b> {
    bridge: &'b mut Bridge,
    event: [u8; 16],
    answers: Vec<u8>,
    call: Call,
}

impl<'b> Waiting<'b> {
    /// What is to be asked of a device now, once.
    pub fn call(&self) -> &Call {
        &self.call
    }

    /// Goes on with the device's answer to the call. One that does not fit has the event refused with 14, so a driver's
    /// fault is better said as [`Answer::Refused`].
    pub fn answer(mut self, answer: &Answer) -> Step<'b> {
        self.answers.extend(answer.records());
        go_on(self.bridge, self.event, self.answers)
    }

    /// Ends the event by refusing this call and every further one, which are not to be made: for a device that has not
    /// answered in time, or a host that stops. A refusal fits every call, and the numbers 8 to 13 come before the first
    /// call, so that the event is done after at most 337.
    pub fn refuse_rest(self) -> Result<Done, Refused> {
        self.answer(&Answer::Refused).refuse_rest()
    }
}

impl Step<'_> {
    /// Brings the event to its end: each further call is made once, by `devices`.
    pub fn run(mut self, mut devices: impl FnMut(&Call) -> Answer) -> Result<Done, Refused> {
        loop {
            match self {
                Step::Done(done) => return Ok(done),
                Step::Refused(refused) => return Err(refused),
                Step::Waiting(waiting) => {
                    let answer = devices(waiting.call());
                    self = waiting.answer(&answer);
                }
            }
        }
    }

    /// Ends an event that still waits by refusing its further calls, see [`Waiting::refuse_rest`].
    pub fn refuse_rest(self) -> Result<Done, Refused> {
        self.run(|_| Answer::Refused)
    }
}

pub(crate) fn begin(bridge: &mut Bridge, event: [u8; 16]) -> Step<'_> {
    go_on(bridge, event, Vec::new())
}

/// Offers the event with the answers that there are.
fn go_on(bridge: &mut Bridge, event: [u8; 16], answers: Vec<u8>) -> Step<'_> {
    let mut messages = [0; raw::MESSAGE_BYTES];
    let mut calls = [0; raw::CALL_BYTES];
    let report = raw::on_event(&mut bridge.session, &bridge.profile, &event, &answers, &mut messages, &mut calls);
    match report.kind {
        raw::DONE => Step::Done(Done {
            messages: parts(&messages).take(report.messages).copied().collect(),
            calls: parts(&calls).take(report.calls).map(Call::from_record).collect(),
            used: report.used,
            saved: report.saved,
        }),
        raw::REFUSED => Step::Refused(Refused(report.number)),
        _ => Step::Waiting(Waiting { bridge, event, answers, call: report.call.into() }),
    }
}

/// The records of a buffer.
fn parts<const N: usize>(buffer: &[u8]) -> impl Iterator<Item = &[u8; N]> {
    buffer.chunks_exact(N).map(|part| part.try_into().expect("a chunk has its length"))
}
