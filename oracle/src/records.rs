//! The records of document 01: profile, event, saved. Multi-byte fields are little-endian.

use std::collections::{BTreeMap, HashMap, HashSet};

use crate::line::DeviceButton;
use crate::names::{self, ABSENT, KINDS};
use crate::profile::{Bank, Command, Destination, Profile};
use crate::state::{Map, Value};

pub const PROFILE_RECORD: usize = 32;
pub const MOST_PROFILE_BYTES: usize = 65_536;
pub const GLOBALS: u8 = 255;
pub const MOST_SCENES: usize = 128;
pub const MOST_TRANSPORTS: usize = 16;
pub const MOST_BUTTONS: usize = 16;
pub const SAVED_RECORD: usize = 8;
pub const MOST_SAVED: usize = 17;

pub const SETTINGS: u8 = 0;
pub const BANK: u8 = 1;
pub const FADER: u8 = 2;
pub const ENCODER: u8 = 3;
pub const SCENE: u8 = 4;
pub const TRANSPORT: u8 = 5;
pub const BUTTON: u8 = 6;

pub fn u16_at(b: &[u8], at: usize) -> u16 {
    u16::from_le_bytes([b[at], b[at + 1]])
}

pub fn u32_at(b: &[u8], at: usize) -> u32 {
    u32::from_le_bytes([b[at], b[at + 1], b[at + 2], b[at + 3]])
}

/// A level or a time; every NaN is the one NaN.
pub fn f64_at(b: &[u8], at: usize) -> f64 {
    let bits = u64::from_le_bytes(b[at..at + 8].try_into().expect("eight bytes"));
    let value = f64::from_bits(bits);
    if value.is_nan() {
        f64::NAN
    } else {
        value
    }
}

/// A profile as the bridge takes it, and what its records say beside it.
#[derive(Clone)]
pub struct Loaded {
    pub profile: Profile,
    pub remember: bool,
    /// The kind 6 records by driver, in file order.
    pub buttons: Vec<Vec<DeviceButton>>,
}

/// Number 2 for one record: a field outside its range, or an unused byte that is not 0.
fn fields_are_good(r: &[u8]) -> bool {
    let zero = |from: usize, to: usize| r[from..to].iter().all(|&b| b == 0);
    let named = |at: usize| u16_at(r, at) != ABSENT;
    let driver = |at: usize| u16_at(r, at) <= 15;
    let bank = r[1] <= 15;
    let bank_or_globals = bank || r[1] == GLOBALS;
    match r[0] {
        SETTINGS => r[1] == 0 && r[2] <= 1 && r[3] <= 1 && zero(4, 32),
        BANK => {
            bank && zero(2, 4)
                && named(4)
                && (driver(6) || u16_at(r, 6) == ABSENT)
                && r[10] <= 2
                && r[11] <= 1
                && zero(12, 32)
        }
        FADER | ENCODER => {
            let most = if r[0] == FADER { 16 } else { 8 };
            bank_or_globals
                && (1..=most).contains(&r[2])
                && r[3] <= 1
                && driver(4)
                && named(8)
                && named(10)
                && zero(14, 16)
        }
        SCENE => bank && zero(2, 4) && named(4) && zero(6, 32),
        TRANSPORT => bank_or_globals && r[2] <= 15 && r[3] == 0 && driver(4) && named(8) && zero(10, 32),
        BUTTON => bank && r[2] <= 15 && r[3] == 0 && named(4) && zero(6, 32),
        _ => false,
    }
}

/// Number 3: kinds or bank numbers out of order, settings not just once, a missing bank named, a fader or
/// encoder number twice in one place.
fn order_is_good(records: &[&[u8]]) -> bool {
    let kinds_rise = records.windows(2).all(|w| w[0][0] <= w[1][0]);
    let one_settings = records.iter().filter(|r| r[0] == SETTINGS).count() == 1;
    let banks: Vec<u8> = records.iter().filter(|r| r[0] == BANK).map(|r| r[1]).collect();
    let banks_run = banks.iter().enumerate().all(|(i, &b)| i == usize::from(b));
    let banks_there = records
        .iter()
        .filter(|r| (FADER..=TRANSPORT).contains(&r[0]))
        .all(|r| r[1] == GLOBALS || usize::from(r[1]) < banks.len());
    let mut seen = HashSet::new();
    let numbers_once =
        records.iter().filter(|r| r[0] == FADER || r[0] == ENCODER).all(|r| seen.insert((r[0], r[1], r[2])));
    kinds_rise && one_settings && banks_run && banks_there && numbers_once
}

/// Number 5: too many scenes or transports in one place, or buttons of one driver.
fn counts_are_good(records: &[&[u8]]) -> bool {
    let mut counts: HashMap<(u8, u8), usize> = HashMap::new();
    for r in records {
        *counts.entry((r[0], r[1])).or_default() += 1;
    }
    counts.iter().all(|(&(kind, _), &n)| match kind {
        SCENE => n <= MOST_SCENES,
        TRANSPORT => n <= MOST_TRANSPORTS,
        BUTTON => n <= MOST_BUTTONS,
        _ => true,
    })
}

/// Numbers 1 to 6, lowest first over the whole file; else the profile.
pub fn load(bytes: &[u8]) -> Result<Loaded, u8> {
    if bytes.is_empty() || !bytes.len().is_multiple_of(PROFILE_RECORD) || bytes.len() > MOST_PROFILE_BYTES {
        return Err(1);
    }
    let records: Vec<&[u8]> = bytes.chunks(PROFILE_RECORD).collect();
    if !records.iter().all(|r| fields_are_good(r)) {
        return Err(2);
    }
    if !order_is_good(&records) {
        return Err(3);
    }
    if !records.iter().any(|r| r[0] == BANK) {
        return Err(4);
    }
    if !counts_are_good(&records) {
        return Err(5);
    }
    let finite = |r: &&[u8]| f64_at(r, 16).is_finite() && f64_at(r, 24).is_finite();
    if !records.iter().filter(|r| r[0] == FADER || r[0] == ENCODER).all(finite) {
        return Err(6);
    }
    Ok(convert(&records))
}

fn destination(r: &[u8]) -> Destination {
    Destination {
        driver: names::driver(r[4]),
        target: names::optional(u16_at(r, 6)),
        label: names::text(u16_at(r, 8)).into(),
        group: names::text(u16_at(r, 10)).into(),
        mute: names::optional(u16_at(r, 12)),
        takeover: r[3] == 1,
        range: (f64_at(r, 16), f64_at(r, 24)),
    }
}

/// The records of an accepted profile as the bridge's own types.
fn convert(records: &[&[u8]]) -> Loaded {
    let mut banks: Vec<Bank> = Vec::new();
    let mut globals = Bank::named("global");
    let mut positions = false;
    let mut remember = false;
    let mut buttons: Vec<Vec<DeviceButton>> = vec![Vec::new(); 16];
    for r in records {
        match r[0] {
            SETTINGS => {
                positions = r[2] == 1;
                remember = r[3] == 1;
            }
            BANK => {
                let mut bank = Bank::named(names::text(u16_at(r, 4)));
                bank.driver = (u16_at(r, 6) != ABSENT).then(|| names::driver(r[6]));
                bank.live = names::optional(u16_at(r, 8));
                match r[10] {
                    1 => drop(bank.buttons.insert("rec".into(), "scene".into())),
                    2 => drop(bank.buttons.insert("rec".into(), "other".into())),
                    _ => {}
                }
                if r[11] == 1 {
                    bank.buttons.insert("select".into(), "bank".into());
                }
                banks.push(bank);
            }
            BUTTON => {
                let button = (KINDS[usize::from(r[2])], names::text(u16_at(r, 4)));
                buttons[usize::from(r[1])].push(button);
            }
            _ => {
                let bank = if r[1] == GLOBALS { &mut globals } else { &mut banks[usize::from(r[1])] };
                match r[0] {
                    FADER => drop(bank.faders.insert(u32::from(r[2]), destination(r))),
                    ENCODER => drop(bank.encoders.insert(u32::from(r[2]), destination(r))),
                    SCENE => bank.scenes.push(names::text(u16_at(r, 4)).into()),
                    _ => {
                        let command = Command {
                            driver: names::driver(r[4]),
                            target: names::optional(u16_at(r, 6)),
                            command: names::text(u16_at(r, 8)).into(),
                        };
                        bank.transport.push((KINDS[usize::from(r[2])].into(), command));
                    }
                }
            }
        }
    }
    Loaded { profile: Profile { banks, globals, positions }, remember, buttons }
}

/// An event with its time.
#[derive(Debug, Clone, PartialEq)]
pub enum Event {
    Midi(Vec<u8>),
    Tick,
    PushState,
    PushTransport,
    FlashBank,
}

pub const EVENT_RECORD: usize = 16;

/// The event of a record and its time; `None` is number 10. Bytes behind the sixteenth are unread.
pub fn event(record: &[u8]) -> Option<(Event, f64)> {
    let r = record.get(..EVENT_RECORD)?;
    let length = usize::from(r[1]);
    if length > 3 {
        return None;
    }
    let event = match r[0] {
        1 => Event::Midi(r[2..2 + length].to_vec()),
        2 => Event::Tick,
        3 => Event::PushState,
        4 => Event::PushTransport,
        5 => Event::FlashBank,
        _ => return None,
    };
    Some((event, f64_at(r, 8)))
}

/// Saved records as the object that `State::load` hands the bridge; `None` is number 7.
pub fn saved(bytes: &[u8]) -> Option<Map> {
    if !bytes.len().is_multiple_of(SAVED_RECORD) || bytes.len() / SAVED_RECORD > MOST_SAVED {
        return None;
    }
    let mut data = Map::new();
    let mut scenes = Map::new();
    for r in bytes.chunks(SAVED_RECORD) {
        let name = saved_name(u16_at(r, 2));
        let twice = match r[0] {
            1 => data.insert("device".into(), Value::Text(name)),
            2 => scenes.insert(name, Value::Number(u64::from(u32_at(r, 4)))),
            _ => return None,
        };
        if twice.is_some() {
            return None;
        }
    }
    data.insert("scenes".into(), Value::Object(scenes));
    Some(data)
}

/// A saved name may be any number; the absent one is a string that no bank has.
fn saved_name(number: u16) -> String {
    names::optional(number).unwrap_or_else(|| "absent".into())
}

/// The saved records of a save: the device first, scenes by rising name number.
pub fn saved_bytes(device: &str, scenes: &BTreeMap<String, usize>) -> Vec<u8> {
    let mut bytes = vec![1, 0];
    bytes.extend(names::number(device).to_le_bytes());
    bytes.extend([0; 4]);
    let mut numbered: Vec<(u16, usize)> = scenes.iter().map(|(name, &s)| (names::number(name), s)).collect();
    numbered.sort_unstable();
    for (name, scene) in numbered {
        bytes.extend([2, 0]);
        bytes.extend(name.to_le_bytes());
        let scene = u32::try_from(scene).expect("a position comes from a list or a saved record");
        bytes.extend(scene.to_le_bytes());
    }
    bytes
}
