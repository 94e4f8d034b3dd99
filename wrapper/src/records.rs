//! What host and bridge tell each other, and the records in which they do (docs/FORMATS.md). All numbers are
//! little-endian.

use crate::raw;

/// The number of a name that is absent, such as the mute of a fader that has none.
pub const ABSENT: u16 = 65_535;

/// Something that happened, and when.
#[derive(Debug, Clone, Copy, PartialEq)]
pub struct Event<'a> {
    /// In seconds, by a clock that the host keeps for all events.
    pub time: f64,
    /// What happened.
    pub input: Input<'a>,
}

/// What can happen: a message of the surface, or one of four things that the host makes itself.
#[derive(Debug, Clone, Copy, PartialEq, Eq)]
pub enum Input<'a> {
    /// A message of the surface. One of more than three bytes is refused (10).
    Midi(&'a [u8]),
    /// Time went on: waiting moves and turns go to the devices, a flash goes on.
    Tick,
    /// Show the whole bank on the surface.
    PushState,
    /// Show what plays on the transport lamps.
    PushTransport,
    /// Flash the bank's number on the lamps.
    FlashBank,
}

impl Event<'_> {
    /// The event's bytes.
    pub fn record(&self) -> [u8; 16] {
        let mut record = [0; 16];
        let (kind, message): (u8, &[u8]) = match self.input {
            Input::Midi(message) => (1, message),
            Input::Tick => (2, &[]),
            Input::PushState => (3, &[]),
            Input::PushTransport => (4, &[]),
            Input::FlashBank => (5, &[]),
        };
        record[0] = kind;
        // A message that is too long keeps a length that is too long: what becomes of it is the bridge's to say.
        record[1] = u8::try_from(message.len()).unwrap_or(u8::MAX);
        let kept = message.len().min(3);
        record[2..2 + kept].copy_from_slice(&message[..kept]);
        record[8..].copy_from_slice(&self.time.to_le_bytes());
        record
    }
}

/// What a device is to do or to tell.
#[derive(Debug, Clone, Copy, PartialEq, Eq)]
pub enum CallKind {
    /// Make ready; before the first use of a driver, and again until it is answered done.
    Open,
    /// Which level has the target?
    Read,
    /// Set the target to the level.
    Write,
    /// Switch a mute.
    Toggle,
    /// Do the command that is the argument.
    Command,
    /// Does the target play?
    Playing,
    /// Which scenes are there?
    Scenes,
    /// Which scene is loaded?
    CurrentScene,
    /// Load the scene that is the argument.
    Load,
    /// Which faders has the live list that is the argument?
    LiveFaders,
}

/// By the number that a record has for each.
const CALL_KINDS: [CallKind; 10] = [
    CallKind::Open,
    CallKind::Read,
    CallKind::Write,
    CallKind::Toggle,
    CallKind::Command,
    CallKind::Playing,
    CallKind::Scenes,
    CallKind::CurrentScene,
    CallKind::Load,
    CallKind::LiveFaders,
];

/// What the bridge asks of a device.
#[derive(Debug, Clone, Copy, PartialEq)]
pub struct Call {
    /// What it is to do or to tell.
    pub kind: CallKind,
    /// 0 to 15.
    pub driver: u8,
    /// The target or mute that is used, by the host's number; 0 where there is none.
    pub name: u16,
    /// A command, a scene's index or a live list's name; else 0.
    pub argument: u32,
    /// What to write; else 0.
    pub level: f64,
}

impl From<raw::Call> for Call {
    fn from(call: raw::Call) -> Call {
        Call {
            kind: CALL_KINDS[usize::from(call.kind)],
            driver: call.driver,
            name: call.name,
            argument: call.argument,
            level: f64::from_bits(call.level),
        }
    }
}

impl Call {
    /// From a record of the call buffer.
    pub(crate) fn from_record(record: &[u8; 16]) -> Call {
        let [kind, driver, n0, n1, a0, a1, a2, a3, level @ ..] = *record;
        Call::from(raw::Call {
            kind,
            driver,
            name: u16::from_le_bytes([n0, n1]),
            argument: u32::from_le_bytes([a0, a1, a2, a3]),
            level: u64::from_le_bytes(level),
        })
    }
}

/// What a device says to a call. `Refused` fits every call; one that does not fit has the event refused (14).
#[derive(Debug, Clone, PartialEq)]
pub enum Answer {
    /// It cannot be done, or cannot be told.
    Refused,
    /// Fits an open, write, toggle, command or load.
    Done,
    /// Fits a read.
    Level(f64),
    /// There is no such thing: fits a read, a playing and a current scene.
    Nothing,
    /// Fits a playing.
    YesNo(bool),
    /// Fits a current scene.
    Index(u32),
    /// Fits a scenes: at most 128 names.
    Names(Vec<u16>),
    /// Fits a live faders: at most 32, by rising number.
    Faders(Vec<LiveFader>),
}

/// A fader of a live list. Only the mute may be [`ABSENT`].
#[derive(Debug, Clone, Copy, PartialEq, Eq)]
pub struct LiveFader {
    /// Rising through the list. The bridge keeps those of 1 to 8.
    pub number: u8,
    /// Which level of the device.
    pub target: u16,
    /// What it is called; 0: as its target.
    pub label: u16,
    /// A solo silences the others of its group.
    pub group: u16,
    /// Which parameter of the device mutes it, or [`ABSENT`].
    pub mute: u16,
}

impl Answer {
    /// One record, and behind it one for each item of a list.
    pub fn records(&self) -> Vec<u8> {
        match self {
            Answer::Refused => record(0, &[]),
            Answer::Done => record(1, &[]),
            Answer::Level(level) => record(2, &[(8, &level.to_le_bytes())]),
            Answer::Nothing => record(3, &[]),
            Answer::YesNo(yes) => record(4, &[(1, &[u8::from(*yes)])]),
            Answer::Index(index) => record(5, &[(4, &index.to_le_bytes())]),
            Answer::Names(names) => list(names.iter().map(|name| record(7, &[(2, &name.to_le_bytes())]))),
            Answer::Faders(faders) => list(faders.iter().map(LiveFader::item)),
        }
    }
}

impl LiveFader {
    fn item(&self) -> Vec<u8> {
        record(
            7,
            &[
                (1, &[self.number]),
                (2, &self.target.to_le_bytes()),
                (4, &self.label.to_le_bytes()),
                (6, &self.group.to_le_bytes()),
                (8, &self.mute.to_le_bytes()),
            ],
        )
    }
}

/// An answer's record: its kind, and fields by where they stand.
fn record(kind: u8, fields: &[(usize, &[u8])]) -> Vec<u8> {
    let mut record = vec![0; 16];
    record[0] = kind;
    for (at, bytes) in fields {
        record[*at..at + bytes.len()].copy_from_slice(bytes);
    }
    record
}

fn list(items: impl ExactSizeIterator<Item = Vec<u8>>) -> Vec<u8> {
    // A list whose count has no room in its record is too long by far, and so is the count that stands there instead.
    let count = u16::try_from(items.len()).unwrap_or(u16::MAX);
    let mut records = record(6, &[(2, &count.to_le_bytes())]);
    records.extend(items.flatten());
    records
}
