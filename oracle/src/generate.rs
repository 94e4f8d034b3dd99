//! Random cases. Answers are made as the calls come, by devices that remember (see `device`); the session
//! runs along, so that a move can be aimed at the edge of being held and a tick at the edge of a flash.

use std::sync::{Arc, Mutex};

use crate::cases::{self, bank, button, encoder, fader, scene, settings, transport, BankIs, Goes, Record, G};
use crate::device::{Devices, Manners};
use crate::names::ABSENT;
use crate::random::Random;
use crate::recording::{Case, Kind, Step};
use crate::records::{self, BANK, BUTTON, ENCODER, FADER, GLOBALS, SCENE, TRANSPORT};
use crate::session::{Outcome, Session, CALL_ROOM, MESSAGE_ROOM};

/// What a case leans to.
#[derive(Debug, Clone, Copy, PartialEq)]
enum Lean {
    Mixed,
    Moves,
    Scenes,
    Solo,
    Flash,
    Live,
    Turns,
    Lamps,
    /// Towards number 11: live lists with ever new targets, solos and mutes.
    Silence,
}

const RANGES: [(f64, f64); 14] = [
    (-0.0, 1.0),
    (0.0, -0.0),
    (-0.0, -0.0),
    (1.0, 0.0),
    (0.5, 0.5),
    (0.2, 0.8),
    (0.8, 0.2),
    (-1.0, 1.0),
    (-1e308, 1e308),
    (0.0, 5e-324),
    (0.1, 0.30000000000000004),
    (1e-310, 1.0),
    (-1.0, -1.0),
    (0.0, f64::MAX),
];

/// The names that a case uses: few, so that equal ones meet.
fn some_names(r: &mut Random) -> Vec<u16> {
    let count = r.between(3, 12);
    (0..count).map(|_| r.pick(&[0, 0, 1, 2, 3, 4, 5, 6, 7, 8, 11, 12, 13, 14, 65533, 65534])).collect()
}

struct Writer<'a> {
    r: &'a mut Random,
    lean: Lean,
    names: Vec<u16>,
    drivers: Vec<u16>,
    /// Destinations written so far: some come again, in another place.
    written: Vec<Goes>,
    odd_ranges: usize,
    /// All faders in one group: a solo has many peers.
    one_group: bool,
}

impl Writer<'_> {
    fn name(&mut self) -> u16 {
        self.r.pick(&self.names)
    }

    fn name_or_none(&mut self, none: usize) -> u16 {
        if self.r.chance(none) {
            ABSENT
        } else {
            self.name()
        }
    }

    fn goes(&mut self) -> Goes {
        if !self.written.is_empty() && self.r.chance(250) {
            let mut again = self.r.pick(&self.written);
            match self.r.below(8) {
                0 => again.low = -again.low,
                1 => again.group = self.name(),
                2 => again.label = self.name(),
                3 => again.takeover = !again.takeover,
                4 if again.target == ABSENT => again.target = 0,
                4 if again.target == 0 => again.target = ABSENT,
                _ => {}
            }
            return again;
        }
        let (low, high) = if self.r.chance(self.odd_ranges) {
            if self.r.chance(300) {
                (self.r.unit(), self.r.unit())
            } else {
                self.r.pick(&RANGES)
            }
        } else {
            (0.0, 1.0)
        };
        let no_mute = if self.lean == Lean::Silence { 950 } else { 600 };
        let made = Goes {
            driver: self.r.pick(&self.drivers),
            target: self.name_or_none(80),
            label: self.name(),
            group: if self.one_group { 9 } else { self.r.pick(&[9, 9, 9, 10, 0]) },
            mute: self.name_or_none(no_mute),
            takeover: self.r.chance(750),
            low,
            high,
        };
        self.written.push(made);
        made
    }

    fn profile(&mut self) -> Vec<Record> {
        let banks = match self.r.below(10) {
            _ if self.lean == Lean::Silence => self.r.between(2, 4),
            0..=2 => 1,
            3..=7 => self.r.between(2, 4),
            8 => self.r.between(5, 16),
            _ => 2,
        } as u8;
        let mut out = vec![settings(self.r.chance(600), self.r.chance(600))];
        let live_share = match self.lean {
            Lean::Live | Lean::Silence => 700,
            _ => 120,
        };
        for b in 0..banks {
            let is = BankIs {
                name: if self.r.chance(250) { self.name() } else { 100 + u16::from(b) },
                driver: if self.r.chance(500) { self.r.pick(&self.drivers) } else { ABSENT },
                live: if self.r.chance(live_share) || (b == 0 && self.lean == Lean::Silence) {
                    self.r.pick(&[0, 1, 5, 65534])
                } else {
                    ABSENT
                },
                rec: self.r.pick(&[0, 0, 1, 1, 2]),
                select: u8::from(self.r.chance(350)),
            };
            let is = BankIs { driver: if self.lean == Lean::Silence { self.drivers[0] } else { is.driver }, ..is };
            out.push(bank(b, is));
        }
        let globals = self.r.chance(400);
        let places: Vec<u8> = (0..banks).chain(globals.then_some(G)).collect();
        let full = self.r.chance(250) || self.lean == Lean::Solo;
        for &b in &places {
            let share = match (b == G, full) {
                (true, _) => self.r.pick(&[0, 150, 400]),
                (false, true) => 850,
                (false, false) => 450,
            };
            let wide = self.r.chance(if self.lean == Lean::Solo { 500 } else { 250 });
            for n in 1..=16 {
                let share = if n > 8 && !wide { share / 10 } else { share };
                if self.r.chance(share) {
                    let goes = self.goes();
                    out.push(fader(b, n, goes));
                }
            }
        }
        for &b in &places {
            let share = if self.lean == Lean::Turns { 700 } else { 200 };
            for n in 1..=8 {
                if self.r.chance(share) {
                    let goes = self.goes();
                    out.push(encoder(b, n, goes));
                }
            }
        }
        for b in 0..banks {
            let some = if self.lean == Lean::Scenes { 600 } else { 200 };
            if self.r.chance(some) {
                let count = match self.r.below(20) {
                    0 => 128,
                    1 => self.r.between(60, 70),
                    _ => self.r.between(1, 6),
                };
                let plain = self.r.chance(500);
                for i in 0..count {
                    let name = if plain { 20 + i as u16 } else { self.name() };
                    out.push(scene(b, name));
                }
            }
        }
        for &b in &places {
            let most = if self.lean == Lean::Lamps { 8 } else { 3 };
            let count = if self.r.chance(30) { 16 } else { self.r.below(most + 1) };
            for _ in 0..count {
                let kind = if self.r.chance(700) { self.r.between(10, 14) } else { self.r.below(16) } as u8;
                let driver = self.r.pick(&self.drivers);
                let target = self.name_or_none(250);
                let command = self.name();
                out.push(transport(b, kind, driver, target, command));
            }
        }
        for d in 0..16u8 {
            let used = self.drivers.contains(&u16::from(d));
            let count = if !used {
                usize::from(self.r.chance(30))
            } else if self.r.chance(20) {
                16
            } else {
                self.r.below(4)
            };
            for _ in 0..count {
                let kind = if self.r.chance(500) { 0 } else { self.r.below(16) as u8 };
                let command = if self.r.chance(500) { 1 } else { self.name() };
                out.push(button(d, kind, command));
            }
        }
        out
    }
}

/// A damaged file: one change or a few, each of which may be what a number is about.
fn damage(r: &mut Random, records: &[Record]) -> Vec<u8> {
    let mut records = records.to_vec();
    for _ in 0..r.pick(&[1, 1, 1, 2, 3]) {
        let i = r.below(records.len());
        match r.below(14) {
            0 => records.swap(0, i),
            1 => {
                let again = records[i];
                records.insert(i, again);
            }
            2 => {
                let last = records.len();
                let again = records[i];
                records.insert(last, again);
            }
            3 => records.retain(|x| x[0] != BANK),
            4 => records.retain(|x| x[0] != BANK && (x[0] == 0 || x[0] == BUTTON || x[1] == GLOBALS)),
            5 => drop(records.remove(i)),
            6 => {
                let b = r.below(2) as u8;
                let at = records.iter().position(|x| x[0] > SCENE).unwrap_or(records.len());
                let have = records.iter().filter(|x| x[0] == SCENE && x[1] == b).count();
                for _ in have..r.between(128, 129) {
                    records.insert(at, scene(b, 5));
                }
            }
            7 => {
                let b = r.pick(&[0, G]);
                let at = records.iter().position(|x| x[0] > TRANSPORT).unwrap_or(records.len());
                let have = records.iter().filter(|x| x[0] == TRANSPORT && x[1] == b).count();
                for _ in have..r.between(16, 17) {
                    records.insert(at, transport(b, 13, 1, 5, 5));
                }
            }
            8 => {
                let d = r.below(16) as u8;
                let have = records.iter().filter(|x| x[0] == BUTTON && x[1] == d).count();
                for _ in have..r.between(16, 17) {
                    let at = records.len();
                    records.insert(at, button(d, 13, 5));
                }
            }
            9 | 10 => {
                let odd = r.pick(&[f64::NAN, f64::INFINITY, f64::NEG_INFINITY, f64::MAX, -f64::NAN]);
                let at = r.pick(&[16, 24]);
                if let Some(x) = records.iter_mut().find(|x| x[0] == FADER || x[0] == ENCODER) {
                    x[at..at + 8].copy_from_slice(&odd.to_bits().to_le_bytes());
                }
            }
            11 => records[i][0] = r.pick(&[0, 1, 2, 3, 4, 5, 6, 7, 255]),
            12 => {
                let at = r.pick(&[1, 2, 3, 4, 6, 8, 10, 11, 12, 14]);
                records[i][at] = r.pick(&[0, 1, 2, 3, 8, 9, 15, 16, 17, 254, 255]);
            }
            _ => {
                let at = r.pick(&[4, 6, 8, 10, 12]);
                let value: u16 = r.pick(&[0, 15, 16, 256, 65534, 65535]);
                records[i][at..at + 2].copy_from_slice(&value.to_le_bytes());
            }
        }
        if records.is_empty() {
            break;
        }
    }
    let mut bytes = cases::file(&records);
    if r.chance(120) {
        match r.below(8) {
            0 => bytes.clear(),
            1 => bytes.resize(65_536, 0),
            2 if r.chance(200) => bytes.resize(65_568, 0),
            _ => bytes.truncate(r.below(bytes.len() + 1)),
        }
    }
    bytes
}

struct Maker {
    r: Random,
    lean: Lean,
    session: Session,
    devices: Arc<Mutex<Devices>>,
    manners: Manners,
    time: f64,
    odd_times: usize,
    /// Few ticks: long lines and many sums for one drain.
    slow: bool,
    bank_names: Vec<u16>,
    steps: Vec<Step>,
}

const NAMED_NOTES: [u8; 11] = [0x2E, 0x2F, 0x62, 0x63, 0x60, 0x61, 0x5B, 0x5C, 0x5D, 0x5E, 0x5F];

impl Maker {
    fn time(&mut self) -> f64 {
        if let Some(flash) = self.session.bridge().flash.as_ref().map(|f| f.start) {
            if self.r.chance(300) {
                let at = flash + 0.12 * self.r.below(8) as f64;
                let near = self.r.pick(&[0i64, 0, 1, -1]);
                let aimed = f64::from_bits((at.to_bits() as i64).wrapping_add(near) as u64);
                if aimed > self.time {
                    self.time = aimed;
                }
                return aimed;
            }
        }
        if self.r.chance(self.odd_times) {
            let odd = match self.r.below(10) {
                0 => f64::NAN,
                1 => f64::INFINITY,
                2 => f64::NEG_INFINITY,
                3 => -self.time - 1.0,
                4 => self.time - 1.0,
                5 => self.time + 515_396_075.4,
                6 => self.time + 515_396_075.52,
                7 => self.time + 6e8,
                8 => 1e300,
                _ => -0.0,
            };
            if self.r.chance(300) {
                self.time = odd;
            }
            return odd;
        }
        self.time += self.r.pick(&[0.0, 0.01, 0.03, 0.03, 0.03, 0.11, 0.12, 0.13, 0.25, 0.5, 0.73, 1.0]);
        self.time
    }

    /// A raw position, often aimed at where the device is.
    fn raw(&mut self, channel: u8) -> u16 {
        let dest = self.session.bridge().destination(u32::from(channel) + 1);
        let Some(dest) = dest.filter(|_| self.r.chance(600)) else {
            return self.r.pick(&[0, 1, 8191, 8192, 16382, 16383, self.r.clone().below(16384) as u16]);
        };
        let driver = crate::names::driver_number(&dest.driver);
        let target = crate::names::number(dest.target());
        let raw_level = self.devices.lock().unwrap().level(driver, target);
        let (low, high) = dest.range;
        let current = ((raw_level - low) / (high - low)).clamp(0.0, 1.0);
        let offset = match self.r.below(8) {
            0 => self.r.below(5) as i64 - 2,
            1..=3 => self.r.pick(&[326, 327, 328, 329, -326, -327, -328, -329]),
            4 => self.r.pick(&[1000, -1000]),
            _ => self.r.below(16384) as i64 - 8192,
        };
        ((current * 16383.0).round() as i64 + offset).clamp(0, 16383) as u16
    }

    fn move_event(&mut self) -> Vec<u8> {
        let channel = if self.r.chance(150) { self.r.below(16) } else { self.r.below(8) } as u8;
        let raw = self.raw(channel);
        let time = self.time();
        let mut event = cases::moved(channel, raw, time);
        if self.r.chance(60) {
            event[3] |= 0x80; // masked away
            event[4] |= self.r.pick(&[0, 0x80]);
        }
        event
    }

    fn turn_event(&mut self) -> Vec<u8> {
        let channel = self.r.below(8) as u8;
        let random = self.r.byte();
        let far = self.r.pick(&[0x01, 0x02, 0x3F, 0x40, 0x41, 0x7F, 0xFF, 0x00, 0x80, random]);
        let time = self.time();
        cases::turned(channel, far, time)
    }

    fn press_event(&mut self) -> Vec<u8> {
        let channel = self.r.below(8) as u8;
        let at = self.r.below(10);
        let leaning = match (self.lean, at) {
            (Lean::Scenes, 0..=3) => Some(self.r.pick(&[0x62, 0x63, 0x63])),
            (Lean::Scenes, 4..=6) => Some(channel),
            (Lean::Solo, 0..=3) => Some(0x08 + self.r.below(3) as u8),
            (Lean::Solo, 4..=5) => Some(0x10 + channel),
            (Lean::Flash | Lean::Live, 0..=4) => Some(self.r.pick(&[0x2E, 0x2F, 0x60, 0x61])),
            _ => None,
        };
        let note = leaning.unwrap_or_else(|| match at {
            0..=4 => self.r.pick(&[0x00, 0x08, 0x10, 0x18]) + channel,
            5..=8 => self.r.pick(&NAMED_NOTES),
            _ => self.r.byte(),
        });
        let time = self.time();
        let velocity = if self.r.chance(60) { 0 } else { self.r.pick(&[127, 1, 128, 255]) };
        let status = if self.r.chance(60) { 0x80 } else { 0x90 } | if self.r.chance(50) { channel } else { 0 };
        cases::midi(&[status, note, velocity], time)
    }

    /// Bytes that may mean nothing.
    fn odd_midi(&mut self) -> Vec<u8> {
        let length = self.r.below(4);
        let mut message: Vec<u8> = (0..length).map(|_| self.r.byte()).collect();
        if length > 0 && self.r.chance(700) {
            message[0] = self.r.pick(&[0xE0, 0xB0, 0x90, 0x80, 0xA0, 0xF0, 0xD0, 0x00, 0xEF]);
        }
        if length > 1 && message[0] == 0xB0 {
            message[1] = self.r.pick(&[0x0F, 0x10, 0x17, 0x18, 0x30]);
        }
        let time = self.time();
        cases::midi(&message, time)
    }

    /// Towards number 11: a new live list, a solo that silences it, a mute for the fader left over.
    fn silence_event(&mut self) -> Vec<u8> {
        let soloed = self.session.bridge().soloed.unwrap_or(0);
        let next = (soloed % 8) as u8;
        match self.steps.len() % 3 {
            0 => {
                self.time += 1.0;
                cases::tick(self.time)
            }
            1 => cases::pressed(0x08 + next, self.time),
            _ => cases::pressed(0x10 + (next + 7) % 8, self.time),
        }
    }

    fn event(&mut self) -> Vec<u8> {
        if self.lean == Lean::Silence && self.r.chance(985) {
            return self.silence_event();
        }
        let mut weights: [usize; 8] = match self.lean {
            // moves, turns, presses, ticks, push_state, push_transport, flash_bank, odd bytes
            Lean::Mixed => [30, 12, 30, 30, 4, 5, 4, 4],
            Lean::Moves => [60, 5, 8, 35, 2, 0, 2, 2],
            Lean::Scenes => [10, 2, 50, 20, 2, 2, 2, 1],
            Lean::Solo => [10, 2, 60, 15, 3, 0, 0, 1],
            Lean::Flash => [15, 2, 25, 50, 3, 2, 12, 1],
            Lean::Live => [25, 3, 25, 45, 3, 2, 2, 1],
            Lean::Turns => [8, 60, 10, 25, 1, 1, 1, 3],
            Lean::Lamps => [8, 2, 25, 12, 12, 40, 4, 1],
            Lean::Silence => [2, 0, 60, 38, 0, 0, 0, 0],
        };
        if self.slow {
            weights[3] /= 6;
        }
        let mut at = self.r.below(weights.iter().sum());
        let mut kind = 0;
        while at >= weights[kind] {
            at -= weights[kind];
            kind += 1;
        }
        match kind {
            0 => self.move_event(),
            1 => self.turn_event(),
            2 => self.press_event(),
            7 => self.odd_midi(),
            other => {
                let time = self.time();
                let mut event = match other {
                    3 => cases::tick(time),
                    4 => cases::push_state(time),
                    5 => cases::push_transport(time),
                    _ => cases::flash_bank(time),
                };
                if self.r.chance(50) {
                    event[1] = self.r.between(1, 3) as u8;
                    event[2] = self.r.byte();
                }
                event
            }
        }
    }

    /// Offers an event; after waiting, mostly the same again with answers enough.
    fn offer(&mut self, record: Vec<u8>) {
        let mut message_room = MESSAGE_ROOM;
        let mut call_room = CALL_ROOM;
        if self.r.chance(8) {
            message_room = self.r.pick(&[0, 303, 305, 306, 400]);
            call_room = self.r.pick(&[0, 5376, 5391, 5392, 6000]);
        }
        let mut first = Vec::new();
        if self.r.chance(10) {
            for _ in 0..self.r.between(1, 3) {
                first.extend((0..16).map(|i| if i == 0 { self.r.below(9) as u8 } else { self.r.byte() }));
            }
        }
        loop {
            self.devices.lock().unwrap().manners = self.manners;
            let devices = self.devices.clone();
            let made = Box::new(move |call: &crate::line::Call| devices.lock().unwrap().answer(call));
            let (outcome, mut answers) = self.session.step_with(&record, &first, message_room, call_room, Some(made));
            let waits = matches!(outcome, Outcome::Waiting(_));
            if !waits && self.r.chance(60) {
                let extra = self.r.between(1, 40);
                answers.extend((0..extra).map(|_| self.r.byte()));
            }
            self.steps.push(Step {
                kind: Kind::Event,
                record: record.clone(),
                answers: answers.clone(),
                message_room: message_room as u32,
                call_room: call_room as u32,
            });
            if !waits || self.r.chance(300) {
                return;
            }
            first = answers;
        }
    }

    fn restore(&mut self) {
        let mut saved: Vec<Vec<u8>> = Vec::new();
        if self.r.chance(700) {
            saved.push(cases::saved_device(self.r.pick(&self.bank_names)));
        }
        let mut names = self.bank_names.clone();
        names.extend([0, 77, 65535]);
        names.sort_unstable();
        names.dedup();
        for name in names {
            if saved.len() < 17 && self.r.chance(500) {
                let at = self.r.pick(&[0, 1, 2, 7, 8, 62, 63, 64, 126, 127, 128, u32::MAX]);
                saved.push(cases::saved_scene(name, at));
            }
        }
        if self.r.chance(300) && saved.len() > 1 {
            let (i, j) = (self.r.below(saved.len()), self.r.below(saved.len()));
            saved.swap(i, j);
        }
        let mut bytes = saved.concat();
        if self.r.chance(200) {
            match self.r.below(6) {
                0 => bytes.push(1),
                1 => bytes.truncate(bytes.len().saturating_sub(3)),
                2 if !bytes.is_empty() => bytes[0] = self.r.pick(&[0, 3, 255, 2, 1]),
                3 if !bytes.is_empty() => {
                    let again = bytes[..8].to_vec();
                    bytes.extend(again);
                }
                4 => {
                    bytes.clear();
                    for n in 0..self.r.between(16, 18) {
                        bytes.extend(cases::saved_scene(95 + n as u16, 1));
                    }
                }
                _ => {
                    if let Some(b) = bytes.get_mut(1) {
                        *b = 9; // unread
                    }
                }
            }
        }
        let _ = self.session.restore(&bytes);
        self.steps.push(Step {
            kind: Kind::Restore,
            record: bytes,
            answers: Vec::new(),
            message_room: 0,
            call_room: 0,
        });
    }

    fn step(&mut self) {
        if self.r.chance(25) {
            return self.restore();
        }
        let mut record = self.event();
        if self.r.chance(12) {
            match self.r.below(5) {
                0 => record.truncate(self.r.below(16)),
                1 => record[0] = self.r.pick(&[0, 6, 7, 255]),
                2 => record[1] = self.r.pick(&[4, 5, 255]),
                3 => record.extend([0; 3]),
                _ => {
                    for b in &mut record[5..8] {
                        *b = self.r.byte();
                    }
                }
            }
        }
        self.offer(record);
    }
}

/// The case of a seed.
pub fn case(id: u32, seed: u64) -> Case {
    let mut r = Random::new(seed);
    let lean = match r.below(60) {
        0..=19 => Lean::Mixed,
        20..=27 => Lean::Moves,
        28..=34 => Lean::Scenes,
        35..=41 => Lean::Solo,
        42..=46 => Lean::Flash,
        47..=52 => Lean::Live,
        53..=55 => Lean::Turns,
        56..=58 => Lean::Lamps,
        _ => Lean::Silence,
    };
    let names = some_names(&mut r);
    let count = r.between(1, 4);
    let drivers: Vec<u16> = (0..count).map(|_| r.below(16) as u16).collect();
    let odd_ranges = r.pick(&[0, 100, 300, 800]);
    let one_group = r.chance(300);
    let mut writer =
        Writer { r: &mut r, lean, names: names.clone(), drivers, written: Vec::new(), odd_ranges, one_group };
    let records = writer.profile();
    let damaged = r.chance(100);
    let profile = if damaged { damage(&mut r, &records) } else { cases::file(&records) };
    let Ok(loaded) = records::load(&profile) else {
        let steps = if r.chance(500) { vec![cases::step(cases::tick(0.0), &[])] } else { Vec::new() };
        return Case { id, profile, steps };
    };
    let manners = match r.below(10) {
        _ if lean == Lean::Silence => Manners { refuses: 20, ..Manners::default() },
        0..=3 => Manners { changes: 300, ..Manners::default() },
        4..=7 => {
            Manners { refuses: 60, nothing: 60, odd_level: 60, unfit: 4, cut: 3, missing: 10, dirty: 100, changes: 400 }
        }
        8 => Manners { refuses: 350, nothing: 200, odd_level: 200, changes: 500, ..Manners::default() },
        _ => Manners {
            refuses: 100,
            nothing: 100,
            odd_level: 300,
            unfit: 40,
            cut: 30,
            missing: 80,
            dirty: 400,
            changes: 600,
        },
    };
    let mut devices = Devices::new(Random::new(r.draw()), manners, names);
    devices.fresh_targets = lean == Lean::Silence;
    let bank_names = records.iter().filter(|x| x[0] == BANK).map(|x| records::u16_at(x, 4)).collect();
    let session = Session::new(&loaded);
    let odd_times = r.pick(&[0, 0, 30, 150]);
    let slow = r.chance(300);
    let devices = Arc::new(Mutex::new(devices));
    let start = r.pick(&[0.0, 0.0, 0.5, 1000.0, -3.0]);
    let mut maker =
        Maker { r, lean, session, devices, manners, time: start, odd_times, slow, bank_names, steps: Vec::new() };
    if maker.r.chance(150) {
        maker.restore();
    }
    let most = match lean {
        Lean::Silence => 125,
        _ => maker.r.pick(&[1, 3, 8, 20, 40]),
    };
    let count = if lean == Lean::Silence { most } else { maker.r.between(1, most) };
    while maker.steps.len() < count {
        maker.step();
    }
    Case { id, profile, steps: maker.steps }
}

/// The cases of the seeds `seed`, `seed + 1`, ...
pub fn cases(seed: u64, count: u32) -> impl Iterator<Item = Case> {
    (0..count).map(move |i| case(i, seed.wrapping_add(u64::from(i))))
}
