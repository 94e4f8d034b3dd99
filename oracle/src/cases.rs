//! Records by hand: what a case is put together from.

use crate::line::LiveItem;
use crate::names::ABSENT;
use crate::recording::{Case, Kind, Step};
use crate::records::{BANK, BUTTON, ENCODER, FADER, GLOBALS, SCENE, SETTINGS, TRANSPORT};
use crate::session::{CALL_ROOM, MESSAGE_ROOM};

pub type Record = [u8; 32];

fn put16(r: &mut Record, at: usize, value: u16) {
    r[at..at + 2].copy_from_slice(&value.to_le_bytes());
}

fn put64(r: &mut Record, at: usize, value: f64) {
    r[at..at + 8].copy_from_slice(&value.to_bits().to_le_bytes());
}

fn record(kind: u8, place: u8, number: u8, flag: bool) -> Record {
    let mut r = [0; 32];
    r[..4].copy_from_slice(&[kind, place, number, u8::from(flag)]);
    r
}

pub fn settings(positions: bool, remember: bool) -> Record {
    record(SETTINGS, 0, u8::from(positions), remember)
}

/// A bank as its record writes it.
#[derive(Debug, Clone, Copy)]
pub struct BankIs {
    pub name: u16,
    pub driver: u16,
    pub live: u16,
    pub rec: u8,
    pub select: u8,
}

/// A bank without driver, live list or button actions.
pub fn plain(name: u16) -> BankIs {
    BankIs { name, driver: ABSENT, live: ABSENT, rec: 0, select: 0 }
}

pub fn bank(number: u8, is: BankIs) -> Record {
    let mut r = record(BANK, number, 0, false);
    put16(&mut r, 4, is.name);
    put16(&mut r, 6, is.driver);
    put16(&mut r, 8, is.live);
    r[10] = is.rec;
    r[11] = is.select;
    r
}

/// A destination as its record writes it.
#[derive(Debug, Clone, Copy)]
pub struct Goes {
    pub driver: u16,
    pub target: u16,
    pub label: u16,
    pub group: u16,
    pub mute: u16,
    pub takeover: bool,
    pub low: f64,
    pub high: f64,
}

/// A destination with takeover, no mute, group 9 and the whole travel.
pub fn to(driver: u16, target: u16) -> Goes {
    Goes { driver, target, label: 8, group: 9, mute: ABSENT, takeover: true, low: 0.0, high: 1.0 }
}

impl Goes {
    pub fn mute(self, mute: u16) -> Self {
        Goes { mute, ..self }
    }

    pub fn group(self, group: u16) -> Self {
        Goes { group, ..self }
    }

    pub fn free(self) -> Self {
        Goes { takeover: false, ..self }
    }

    pub fn range(self, low: f64, high: f64) -> Self {
        Goes { low, high, ..self }
    }
}

fn destination(kind: u8, bank: u8, number: u8, goes: Goes) -> Record {
    let mut r = record(kind, bank, number, goes.takeover);
    put16(&mut r, 4, goes.driver);
    put16(&mut r, 6, goes.target);
    put16(&mut r, 8, goes.label);
    put16(&mut r, 10, goes.group);
    put16(&mut r, 12, goes.mute);
    put64(&mut r, 16, goes.low);
    put64(&mut r, 24, goes.high);
    r
}

pub fn fader(bank: u8, number: u8, goes: Goes) -> Record {
    destination(FADER, bank, number, goes)
}

pub fn encoder(bank: u8, number: u8, goes: Goes) -> Record {
    destination(ENCODER, bank, number, goes)
}

pub fn scene(bank: u8, name: u16) -> Record {
    let mut r = record(SCENE, bank, 0, false);
    put16(&mut r, 4, name);
    r
}

pub fn transport(bank: u8, kind: u8, driver: u16, target: u16, command: u16) -> Record {
    let mut r = record(TRANSPORT, bank, kind, false);
    put16(&mut r, 4, driver);
    put16(&mut r, 6, target);
    put16(&mut r, 8, command);
    r
}

pub fn button(driver: u8, kind: u8, command: u16) -> Record {
    let mut r = record(BUTTON, driver, kind, false);
    put16(&mut r, 4, command);
    r
}

/// The globals' place.
pub const G: u8 = GLOBALS;

/// The file of these records.
pub fn file(records: &[Record]) -> Vec<u8> {
    records.concat()
}

// -- events ------------------------------------------------------------------------------------------------

fn event(kind: u8, message: &[u8], time: f64) -> Vec<u8> {
    let mut r = vec![0; 16];
    r[0] = kind;
    r[1] = message.len() as u8;
    r[2..2 + message.len()].copy_from_slice(message);
    r[8..16].copy_from_slice(&time.to_bits().to_le_bytes());
    r
}

pub fn midi(message: &[u8], time: f64) -> Vec<u8> {
    event(1, message, time)
}

/// A fader's move to a raw position.
pub fn moved(channel: u8, raw: u16, time: f64) -> Vec<u8> {
    midi(&[0xE0 | channel, (raw & 0x7F) as u8, (raw >> 7) as u8], time)
}

/// An encoder's turn by the byte that says how far.
pub fn turned(channel: u8, how_far: u8, time: f64) -> Vec<u8> {
    midi(&[0xB0, 0x10 + channel, how_far], time)
}

pub fn pressed(note: u8, time: f64) -> Vec<u8> {
    midi(&[0x90, note, 0x7F], time)
}

pub fn tick(time: f64) -> Vec<u8> {
    event(2, &[], time)
}

pub fn push_state(time: f64) -> Vec<u8> {
    event(3, &[], time)
}

pub fn push_transport(time: f64) -> Vec<u8> {
    event(4, &[], time)
}

pub fn flash_bank(time: f64) -> Vec<u8> {
    event(5, &[], time)
}

// -- answers -----------------------------------------------------------------------------------------------

fn answer(kind: u8) -> Vec<u8> {
    let mut r = vec![0; 16];
    r[0] = kind;
    r
}

pub fn refused() -> Vec<u8> {
    answer(0)
}

pub fn done() -> Vec<u8> {
    answer(1)
}

pub fn level(level: f64) -> Vec<u8> {
    let mut r = answer(2);
    r[8..16].copy_from_slice(&level.to_bits().to_le_bytes());
    r
}

pub fn nothing() -> Vec<u8> {
    answer(3)
}

pub fn yes_no(yes: u8) -> Vec<u8> {
    let mut r = answer(4);
    r[1] = yes;
    r
}

pub fn index(index: u32) -> Vec<u8> {
    let mut r = answer(5);
    r[4..8].copy_from_slice(&index.to_le_bytes());
    r
}

/// The head of a list, without its items.
pub fn list(count: u16) -> Vec<u8> {
    let mut r = answer(6);
    r[2..4].copy_from_slice(&count.to_le_bytes());
    r
}

/// One item of a list; for scenes only the name counts.
pub fn item(item: LiveItem) -> Vec<u8> {
    let mut r = answer(7);
    r[1] = item.number;
    r[2..4].copy_from_slice(&item.target.to_le_bytes());
    r[4..6].copy_from_slice(&item.label.to_le_bytes());
    r[6..8].copy_from_slice(&item.group.to_le_bytes());
    r[8..10].copy_from_slice(&item.mute.to_le_bytes());
    r
}

pub fn named_item(name: u16) -> Vec<u8> {
    item(LiveItem { number: 0, target: name, label: 0, group: 0, mute: 0 })
}

pub fn scenes(names: &[u16]) -> Vec<u8> {
    let mut r = list(names.len() as u16);
    for &name in names {
        r.extend(named_item(name));
    }
    r
}

pub fn live(items: &[LiveItem]) -> Vec<u8> {
    let mut r = list(items.len() as u16);
    for &i in items {
        r.extend(item(i));
    }
    r
}

// -- saved records -----------------------------------------------------------------------------------------

pub fn saved_device(name: u16) -> Vec<u8> {
    let mut r = vec![1, 0];
    r.extend(name.to_le_bytes());
    r.extend([0; 4]);
    r
}

pub fn saved_scene(name: u16, scene: u32) -> Vec<u8> {
    let mut r = vec![2, 0];
    r.extend(name.to_le_bytes());
    r.extend(scene.to_le_bytes());
    r
}

// -- steps -------------------------------------------------------------------------------------------------

pub fn step(event: Vec<u8>, answers: &[Vec<u8>]) -> Step {
    Step {
        kind: Kind::Event,
        record: event,
        answers: answers.concat(),
        message_room: MESSAGE_ROOM as u32,
        call_room: CALL_ROOM as u32,
    }
}

pub fn restore(saved: &[Vec<u8>]) -> Step {
    Step { kind: Kind::Restore, record: saved.concat(), answers: Vec::new(), message_room: 0, call_room: 0 }
}

pub fn case(profile: &[Record], steps: Vec<Step>) -> Case {
    Case { id: 0, profile: file(profile), steps }
}
