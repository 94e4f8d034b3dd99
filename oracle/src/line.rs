//! Calls and answers: a device here answers from the list that comes with the event.
//!
//! The bridge's drivers are synchronous, so a call that finds no answer cannot wait. Instead the line has a
//! stop: from the first call that found no bytes, or whose answer does not fit, every further call answers
//! `Err` and nothing is recorded any more. The event is then thrown away (see `session`).

use std::collections::BTreeMap;
use std::sync::{Arc, Mutex};

use crate::drivers::{self, unsupported, Driver, LiveFader};
use crate::names::{self, ABSENT};
use crate::records::{f64_at, u16_at, u32_at};

pub const OPEN: u8 = 0;
pub const READ: u8 = 1;
pub const WRITE: u8 = 2;
pub const TOGGLE: u8 = 3;
pub const COMMAND: u8 = 4;
pub const PLAYING: u8 = 5;
pub const SCENES: u8 = 6;
pub const CURRENT: u8 = 7;
pub const LOAD: u8 = 8;
pub const LIVE: u8 = 9;

/// How the kinds print.
pub const CALL_KINDS: [&str; 10] =
    ["open", "read", "write", "toggle", "command", "playing", "scenes", "current", "load", "live"];

/// Most items in the answer to `scenes`.
pub const MOST_SCENES: usize = 128;
/// Most items in the answer to `live faders`.
pub const MOST_LIVE: usize = 32;

/// A level's bits as they are written: every NaN is the one NaN.
pub fn bits(level: f64) -> u64 {
    if level.is_nan() {
        0x7FF8_0000_0000_0000
    } else {
        level.to_bits()
    }
}

/// What the bridge asks of a device.
#[derive(Debug, Clone, Copy, PartialEq)]
pub struct Call {
    pub kind: u8,
    pub driver: u8,
    /// The target or mute used; none or absent is 0.
    pub name: u16,
    pub argument: u32,
    pub level: f64,
}

impl Call {
    /// The record of 16 bytes.
    pub fn bytes(&self) -> [u8; 16] {
        let mut b = [0; 16];
        b[0] = self.kind;
        b[1] = self.driver;
        b[2..4].copy_from_slice(&self.name.to_le_bytes());
        b[4..8].copy_from_slice(&self.argument.to_le_bytes());
        b[8..16].copy_from_slice(&bits(self.level).to_le_bytes());
        b
    }

    /// As the programs print it, after `call `.
    pub fn text(&self) -> String {
        let kind = CALL_KINDS[usize::from(self.kind)];
        format!("{kind} {} {} {} {:016x}", self.driver, self.name, self.argument, bits(self.level))
    }
}

/// A fader of a live list as its item writes it.
#[derive(Debug, Clone, Copy, PartialEq, Eq)]
pub struct LiveItem {
    pub number: u8,
    pub target: u16,
    pub label: u16,
    pub group: u16,
    pub mute: u16,
}

/// What a device answered.
#[derive(Debug, Clone, PartialEq)]
pub enum Answer {
    Refused,
    Done,
    Level(f64),
    Nothing,
    YesNo(bool),
    Index(u32),
    Names(Vec<u16>),
    Live(Vec<LiveItem>),
}

/// What a call finds at the front of the bytes left.
#[derive(Debug, Clone, PartialEq)]
pub enum Found {
    /// No bytes left: the event waits.
    NoBytes,
    /// Cut short, or an answer that does not fit the call: number 14.
    Unfit,
    /// The answer and how many records it takes.
    Fits(Answer, usize),
}

/// The answer to a call of this kind at the front of `bytes`.
pub fn find(kind: u8, bytes: &[u8]) -> Found {
    if bytes.is_empty() {
        return Found::NoBytes;
    }
    let Some(record) = bytes.get(..16) else { return Found::Unfit };
    let one = |answer| Found::Fits(answer, 1);
    match (kind, record[0]) {
        (_, 0) => one(Answer::Refused),
        (OPEN | WRITE | TOGGLE | COMMAND | LOAD, 1) => one(Answer::Done),
        (READ, 2) => one(Answer::Level(f64_at(record, 8))),
        (READ | PLAYING | CURRENT, 3) => one(Answer::Nothing),
        (PLAYING, 4) if record[1] <= 1 => one(Answer::YesNo(record[1] == 1)),
        (CURRENT, 5) => one(Answer::Index(u32_at(record, 4))),
        (SCENES | LIVE, 6) => {
            let count = usize::from(u16_at(record, 2));
            let most = if kind == SCENES { MOST_SCENES } else { MOST_LIVE };
            if count > most {
                return Found::Unfit;
            }
            let Some(items) = bytes.get(16..16 + 16 * count) else { return Found::Unfit };
            let items: Vec<&[u8]> = items.chunks(16).collect();
            if items.iter().any(|i| i[0] != 7) {
                return Found::Unfit;
            }
            let answer = if kind == SCENES { scene_items(&items) } else { live_items(&items) };
            answer.map_or(Found::Unfit, |a| Found::Fits(a, 1 + count))
        }
        _ => Found::Unfit,
    }
}

/// A list of scene names; a name must be there.
fn scene_items(items: &[&[u8]]) -> Option<Answer> {
    let names: Vec<u16> = items.iter().map(|i| u16_at(i, 2)).collect();
    (!names.contains(&ABSENT)).then_some(Answer::Names(names))
}

/// A live list: numbers strictly rising, whatever they are, and only the mute may be absent.
fn live_items(items: &[&[u8]]) -> Option<Answer> {
    let faders: Vec<LiveItem> = items
        .iter()
        .map(|i| LiveItem {
            number: i[1],
            target: u16_at(i, 2),
            label: u16_at(i, 4),
            group: u16_at(i, 6),
            mute: u16_at(i, 8),
        })
        .collect();
    let there = faders.iter().all(|f| f.target != ABSENT && f.label != ABSENT && f.group != ABSENT);
    let rising = faders.windows(2).all(|w| w[0].number < w[1].number);
    (there && rising).then_some(Answer::Live(faders))
}

/// Why an event cannot go on.
#[derive(Debug, Clone, PartialEq)]
pub enum Stop {
    Waiting(Call),
    Unfit,
}

/// Makes the answer to a call when the list has none left. With none, the event waits.
pub type Devices = Box<dyn FnMut(&Call) -> Option<Vec<u8>> + Send>;

/// The calls of one event and the answers they take.
#[derive(Default)]
pub struct Line {
    pub answers: Vec<u8>,
    /// How many records the calls so far took, list items included.
    pub used: usize,
    pub calls: Vec<Call>,
    pub stop: Option<Stop>,
    pub devices: Option<Devices>,
}

impl Line {
    /// Ready for an event with these answers.
    pub fn begin(&mut self, answers: &[u8]) {
        self.answers = answers.to_vec();
        self.used = 0;
        self.calls.clear();
        self.stop = None;
    }

    /// A call takes the next answer. A refusal is the Rust's `Err`; so is everything after the stop.
    fn ask(&mut self, call: Call) -> drivers::Result<Answer> {
        if self.stop.is_some() {
            return unsupported("stopped");
        }
        let at = (16 * self.used).min(self.answers.len());
        if at == self.answers.len() {
            if let Some(made) = self.devices.as_mut().and_then(|d| d(&call)) {
                self.answers.extend(made);
            }
        }
        match find(call.kind, &self.answers[at..]) {
            Found::NoBytes => {
                self.stop = Some(Stop::Waiting(call));
                unsupported("no answer yet")
            }
            Found::Unfit => {
                self.stop = Some(Stop::Unfit);
                unsupported("does not fit")
            }
            Found::Fits(answer, records) => {
                self.used += records;
                self.calls.push(call);
                match answer {
                    Answer::Refused => unsupported("refused"),
                    answer => Ok(answer),
                }
            }
        }
    }
}

/// A button of a device and the command it stands for.
pub type DeviceButton = (&'static str, &'static str);

/// What all devices of a session share: the line, and the buttons that the profile gives each driver.
#[derive(Clone)]
pub struct Rack {
    pub line: Arc<Mutex<Line>>,
    pub buttons: Arc<Vec<Vec<DeviceButton>>>,
}

impl Rack {
    fn ask(&self, kind: u8, driver: u8, name: &str, argument: u32, level: f64) -> drivers::Result<Answer> {
        let call = Call { kind, driver, name: names::number(name), argument, level };
        self.line.lock().unwrap().ask(call)
    }

    /// The device of a driver, once it is opened.
    pub fn device(&self, driver: u8) -> Box<dyn Driver> {
        Box::new(Device { driver, rack: self.clone() })
    }

    /// Opens a driver; the call carries the name of the use that follows.
    pub fn open(&self, name: &str, used: &str) -> Result<Box<dyn Driver>, String> {
        let driver = names::driver_number(name);
        self.ask(OPEN, driver, used, 0, 0.0).map_err(|e| e.0)?;
        Ok(self.device(driver))
    }
}

/// A device that answers from the line.
struct Device {
    driver: u8,
    rack: Rack,
}

/// A live list as a driver of the Rust hands it over.
pub fn handed_over(items: &[LiveItem]) -> BTreeMap<u32, LiveFader> {
    items
        .iter()
        .map(|i| {
            let fader = LiveFader {
                target: names::text(i.target).into(),
                label: names::text(i.label).into(),
                group: names::text(i.group).into(),
                mute: names::optional(i.mute),
            };
            (u32::from(i.number), fader)
        })
        .collect()
}

impl Driver for Device {
    fn buttons(&self) -> &[(&'static str, &'static str)] {
        &self.rack.buttons[usize::from(self.driver)]
    }

    fn live_faders(&mut self, which: &str) -> drivers::Result<BTreeMap<u32, LiveFader>> {
        match self.rack.ask(LIVE, self.driver, "", u32::from(names::number(which)), 0.0)? {
            Answer::Live(items) => Ok(handed_over(&items)),
            other => panic!("{other:?} fits no live call"),
        }
    }

    fn read(&mut self, target: &str) -> drivers::Result<Option<f64>> {
        match self.rack.ask(READ, self.driver, target, 0, 0.0)? {
            Answer::Level(level) => Ok(Some(level)),
            _ => Ok(None),
        }
    }

    fn write(&mut self, target: &str, value: f64) -> drivers::Result<()> {
        self.rack.ask(WRITE, self.driver, target, 0, value).map(drop)
    }

    /// No answer tells the new state, and the bridge never looks at it.
    fn toggle(&mut self, target: &str) -> drivers::Result<bool> {
        self.rack.ask(TOGGLE, self.driver, target, 0, 0.0).map(|_| true)
    }

    fn command(&mut self, target: &str, name: &str) -> drivers::Result<()> {
        self.rack.ask(COMMAND, self.driver, target, u32::from(names::number(name)), 0.0).map(drop)
    }

    fn playing(&mut self, target: &str) -> drivers::Result<Option<bool>> {
        match self.rack.ask(PLAYING, self.driver, target, 0, 0.0)? {
            Answer::YesNo(yes) => Ok(Some(yes)),
            _ => Ok(None),
        }
    }

    fn scenes(&mut self) -> drivers::Result<Vec<String>> {
        match self.rack.ask(SCENES, self.driver, "", 0, 0.0)? {
            Answer::Names(names) => Ok(names.into_iter().map(|n| names::text(n).to_string()).collect()),
            other => panic!("{other:?} fits no scenes call"),
        }
    }

    fn current_scene(&mut self) -> drivers::Result<Option<usize>> {
        match self.rack.ask(CURRENT, self.driver, "", 0, 0.0)? {
            Answer::Index(i) => Ok(Some(i as usize)),
            _ => Ok(None),
        }
    }

    fn load_scene(&mut self, index: usize) -> drivers::Result<()> {
        let index = u32::try_from(index).expect("an index of a list of at most 128");
        self.rack.ask(LOAD, self.driver, "", index, 0.0).map(drop)
    }
}
