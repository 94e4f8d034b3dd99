//! A small rig: records of its profile, and devices that do what they are told.

use std::collections::HashMap;

use zelwydro::{Answer, Bridge, Call, CallKind, Done, Event, Input, ABSENT};

pub type Record = [u8; 32];

/// A record of a profile: its first four bytes, and the names from byte 4 on.
pub fn record(first: [u8; 4], names: &[u16]) -> Record {
    let mut record = [0; 32];
    record[..4].copy_from_slice(&first);
    for (place, name) in record[4..].chunks_exact_mut(2).zip(names) {
        place.copy_from_slice(&name.to_le_bytes());
    }
    record
}

/// Remember is on.
pub fn settings(positions: u8) -> Record {
    record([0, 0, positions, 1], &[])
}

/// A bank of which REC loads scenes and SELECT selects banks.
pub fn bank(number: u8, driver: u16) -> Record {
    record([1, number, 0, 0], &[10 + u16::from(number), driver, ABSENT, u16::from_le_bytes([1, 1])])
}

/// A fader with takeover, or an encoder, from 0 to 1.
pub fn control(kind: u8, bank: u8, number: u8, names: [u16; 3]) -> Record {
    let [driver, target, mute] = names;
    let mut record = record([kind, bank, number, 1], &[driver, target, 20, 30, mute]);
    record[24..].copy_from_slice(&1f64.to_le_bytes());
    record
}

pub fn fader(bank: u8, number: u8, driver: u16, target: u16, mute: u16) -> Record {
    control(2, bank, number, [driver, target, mute])
}

/// Devices with a level for each name, in one scene of a list.
#[derive(Default)]
pub struct Devices {
    pub levels: HashMap<u16, f64>,
    pub scenes: Vec<u16>,
    pub scene: Option<u32>,
}

impl Devices {
    pub fn answer(&mut self, call: &Call) -> Answer {
        match call.kind {
            CallKind::Read => self.levels.get(&call.name).map_or(Answer::Nothing, |level| Answer::Level(*level)),
            CallKind::Write => {
                self.levels.insert(call.name, call.level);
                Answer::Done
            }
            CallKind::Toggle => {
                let level = self.levels.entry(call.name).or_default();
                *level = 1.0 - *level;
                Answer::Done
            }
            CallKind::Scenes => Answer::Names(self.scenes.clone()),
            CallKind::CurrentScene => self.scene.map_or(Answer::Nothing, Answer::Index),
            CallKind::Load => {
                self.scene = Some(call.argument);
                Answer::Done
            }
            _ => Answer::Done,
        }
    }
}

/// A bridge, its devices and the time.
pub struct Rig {
    pub bridge: Bridge,
    pub devices: Devices,
    pub time: f64,
}

impl Rig {
    pub fn new(profile: &[Record], levels: &[(u16, f64)]) -> Rig {
        let devices = Devices { levels: levels.iter().copied().collect(), ..Devices::default() };
        Rig { bridge: Bridge::new(&profile.concat()).expect("a profile"), devices, time: 0.0 }
    }

    pub fn offer(&mut self, input: Input) -> Done {
        let event = Event { time: self.time, input };
        self.bridge.run(&event, |call| self.devices.answer(call)).expect("it is done")
    }

    pub fn press(&mut self, note: u8) -> Done {
        self.offer(Input::Midi(&[0x90, note, 0x7f]))
    }

    /// A fader, from channel 0, at 0 to 127 of its travel.
    pub fn slide(&mut self, channel: u8, to: u8) -> Done {
        self.offer(Input::Midi(&[0xe0 + channel, 0, to]))
    }

    pub fn tick(&mut self) -> Done {
        self.time += 0.03;
        self.offer(Input::Tick)
    }

    pub fn level(&self, name: u16) -> f64 {
        self.devices.levels[&name]
    }
}

/// Which lamps a done event lit, of those that it sent last.
pub fn lit(done: &Done, note: u8) -> bool {
    let lamp = done.messages.iter().rev().find(|m| m[0] == 0x90 && m[1] == note);
    lamp.expect("the lamp was sent")[2] == 0x7f
}

pub fn asked(done: &Done, kind: CallKind) -> Vec<u16> {
    done.calls.iter().filter(|call| call.kind == kind).map(|call| call.name).collect()
}
