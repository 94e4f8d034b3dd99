//! Recordings: cases in a file, and what the programs print of them.

use std::fmt::Write;

use crate::line::Call;
use crate::records;
use crate::session::{fnv1a, Outcome, Session, CALL_ROOM, MESSAGE_ROOM};

/// The limit of `run` on each of its files.
pub const RUN_BYTES: usize = 65_536;

#[derive(Debug, Clone, Copy, PartialEq, Eq)]
pub enum Kind {
    Event,
    Restore,
}

/// One step of a case: an event record with its answers and buffers, or saved records to restore.
#[derive(Debug, Clone, PartialEq, Eq)]
pub struct Step {
    pub kind: Kind,
    pub record: Vec<u8>,
    pub answers: Vec<u8>,
    pub message_room: u32,
    pub call_room: u32,
}

#[derive(Debug, Clone, PartialEq, Eq)]
pub struct Case {
    pub id: u32,
    pub profile: Vec<u8>,
    pub steps: Vec<Step>,
}

fn put(out: &mut Vec<u8>, number: usize) {
    out.extend(u32::try_from(number).expect("a length of a case").to_le_bytes());
}

impl Case {
    /// The case as a recording holds it.
    pub fn bytes(&self) -> Vec<u8> {
        let mut out = self.id.to_le_bytes().to_vec();
        put(&mut out, self.profile.len());
        out.extend(&self.profile);
        put(&mut out, self.steps.len());
        for step in &self.steps {
            out.push(match step.kind {
                Kind::Event => 0,
                Kind::Restore => 1,
            });
            put(&mut out, step.record.len());
            out.extend(&step.record);
            put(&mut out, step.answers.len());
            out.extend(&step.answers);
            out.extend(step.message_room.to_le_bytes());
            out.extend(step.call_room.to_le_bytes());
        }
        out
    }
}

/// Reads a recording from its front.
struct Reader<'a> {
    left: &'a [u8],
}

impl<'a> Reader<'a> {
    fn take(&mut self, count: usize) -> Result<&'a [u8], String> {
        if count > self.left.len() {
            return Err(format!("the recording ends {} bytes early", count - self.left.len()));
        }
        let (taken, left) = self.left.split_at(count);
        self.left = left;
        Ok(taken)
    }

    fn number(&mut self) -> Result<u32, String> {
        Ok(records::u32_at(self.take(4)?, 0))
    }

    fn piece(&mut self) -> Result<Vec<u8>, String> {
        let length = self.number()? as usize;
        Ok(self.take(length)?.to_vec())
    }

    fn case(&mut self) -> Result<Case, String> {
        let id = self.number()?;
        let profile = self.piece()?;
        let count = self.number()?;
        let mut steps = Vec::new();
        for _ in 0..count {
            let kind = match self.take(1)?[0] {
                0 => Kind::Event,
                1 => Kind::Restore,
                other => return Err(format!("no step has kind {other}")),
            };
            let record = self.piece()?;
            let answers = self.piece()?;
            steps.push(Step { kind, record, answers, message_room: self.number()?, call_room: self.number()? });
        }
        Ok(Case { id, profile, steps })
    }
}

/// All cases of a recording.
pub fn read(bytes: &[u8]) -> Result<Vec<Case>, String> {
    let mut reader = Reader { left: bytes };
    let mut cases = Vec::new();
    while !reader.left.is_empty() {
        cases.push(reader.case()?);
    }
    Ok(cases)
}

pub fn write(cases: &[Case]) -> Vec<u8> {
    cases.iter().flat_map(Case::bytes).collect()
}

fn messages_and_calls(out: &mut String, messages: &[[u8; 3]], calls: &[Call]) {
    for m in messages {
        writeln!(out, "message {:02x}{:02x}{:02x}", m[0], m[1], m[2]).unwrap();
    }
    for c in calls {
        writeln!(out, "call {}", c.text()).unwrap();
    }
}

pub fn hex(bytes: &[u8]) -> String {
    bytes.iter().fold(String::new(), |mut s, b| {
        write!(s, "{b:02x}").unwrap();
        s
    })
}

/// What `replay` prints of an event's outcome.
fn event_text(out: &mut String, n: usize, outcome: &Outcome) {
    match outcome {
        Outcome::Done { messages, calls, used, saved } => {
            writeln!(
                out,
                "event {n} done messages {} calls {} used {used} saved {}",
                messages.len(),
                calls.len(),
                u8::from(saved.is_some())
            )
            .unwrap();
            messages_and_calls(out, messages, calls);
            if let Some(saved) = saved {
                writeln!(out, "saved {}", hex(saved)).unwrap();
            }
        }
        Outcome::Refused(number) => writeln!(out, "event {n} refused {number}").unwrap(),
        Outcome::Waiting(call) => writeln!(out, "event {n} waiting\ncall {}", call.text()).unwrap(),
    }
}

/// How `replay` shows the session after a step.
#[derive(Debug, Clone, Copy, PartialEq, Eq)]
pub enum Show {
    /// A line with its hash.
    Hash,
    /// Its whole text.
    Dump,
}

/// What a step (or the refused profile) shows.
#[derive(Debug, Clone, PartialEq, Eq)]
pub struct Shown {
    /// The step's line and the lines that belong to it.
    pub lines: String,
    /// The session's text after the step; empty where there is no session.
    pub session: String,
}

/// Runs a case from a fresh session, step by step.
pub fn replay_steps(case: &Case) -> Vec<Shown> {
    let loaded = match records::load(&case.profile) {
        Ok(loaded) => loaded,
        Err(number) => {
            return vec![Shown { lines: format!("profile refused {number}\n"), session: String::new() }];
        }
    };
    let mut session = Session::new(&loaded);
    let mut shown = Vec::new();
    for (n, step) in case.steps.iter().enumerate() {
        let mut lines = String::new();
        match step.kind {
            Kind::Event => {
                let (messages, calls) = (step.message_room as usize, step.call_room as usize);
                let outcome = session.step(&step.record, &step.answers, messages, calls);
                event_text(&mut lines, n, &outcome);
            }
            Kind::Restore => match session.restore(&step.record) {
                Ok(()) => writeln!(lines, "restore {n} done").unwrap(),
                Err(number) => writeln!(lines, "restore {n} refused {number}").unwrap(),
            },
        }
        shown.push(Shown { lines, session: session.text() });
    }
    shown
}

/// What `replay` prints of one case.
pub fn replay(case: &Case, show: Show) -> String {
    let mut out = format!("case {}\n", case.id);
    for step in replay_steps(case) {
        out.push_str(&step.lines);
        match show {
            _ if step.session.is_empty() => {}
            Show::Hash => writeln!(out, "session {:016x}", fnv1a(step.session.as_bytes())).unwrap(),
            Show::Dump => out.push_str(&step.session),
        }
    }
    out
}

/// What `run` prints: the session starts fresh, each event reads on from the first unread answer, and the
/// first event that does not finish is the last.
pub fn run(profile: &[u8], events: &[u8], answers: &[u8]) -> String {
    let cut = |bytes: &[u8]| bytes[..bytes.len().min(RUN_BYTES)].to_vec();
    let (profile, events, answers) = (cut(profile), cut(events), cut(answers));
    let mut out = String::new();
    let loaded = match records::load(&profile) {
        Ok(loaded) => loaded,
        Err(number) => return format!("profile refused {number}\n"),
    };
    let mut session = Session::new(&loaded);
    let mut at = 0;
    for (n, event) in events.chunks(records::EVENT_RECORD).enumerate() {
        match session.step(event, &answers[at..], MESSAGE_ROOM, CALL_ROOM) {
            Outcome::Done { messages, calls, used, .. } => {
                writeln!(out, "event {n} done messages {} calls {}", messages.len(), calls.len()).unwrap();
                messages_and_calls(&mut out, &messages, &calls);
                at += 16 * used;
            }
            other => {
                event_text(&mut out, n, &other);
                break;
            }
        }
    }
    out
}
